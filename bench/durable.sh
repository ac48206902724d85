#!/bin/sh
# Durable sales a second: `chain` over a script of sales on a real file, beside SQLite with one transaction a sale (synchronous
# FULL, journal_mode DELETE and WAL) and a bare loop of two writes and two fdatasyncs a sale in C, on the same disk in one run.
# A disk's speed changes from second to second, so they take many short turns, each kind first in turn, and the medians of the
# turns count. Where a disk makes every sync wait for the same time, the figures are those of the syncs alone: two a sale in
# `chain` and the bare loop, three in SQLite's DELETE, one in its WAL.
# Run by hand, on a machine that does nothing else: bench/durable.sh [FOLDER ON THE DISK] [SALES A TURN] [TURNS OF EACH]
# It wants sqlite3 and a C compiler (CC), and leaves nothing behind.
set -eu

root=$(CDPATH= cd -- "$(dirname -- "$0")/.." && pwd)
. "$root/bench/files.sh"
folder=$(mktemp -d "${1:-/var/tmp}/durable.XXXXXX")
sales=${2:-100}
turns=${3:-20}
trap 'rm -rf "$folder"' EXIT

"$root/verifactu" --version >/dev/null
program=$root/crates/program/out/program

sales 1 "$sales" >"$folder/script"

# A body of 240 bytes a sale, as much as a record of these has.
for mode in DELETE WAL; do
    {
        echo "PRAGMA journal_mode=$mode; PRAGMA synchronous=FULL;"
        echo "CREATE TABLE records (place INTEGER PRIMARY KEY, body BLOB);"
        seq "$sales" | sed 's/.*/INSERT INTO records VALUES (&, zeroblob(240));/'
    } >"$folder/$mode.sql"
done

cat >"$folder/bare.c" <<'C'
#include <fcntl.h>
#include <stdlib.h>
#include <unistd.h>

int main(int argc, char **argv) {
    static char body[240];
    long sales = atol(argv[2]);
    int file = open(argv[1], O_RDWR | O_CREAT, 0644);
    off_t at = 0;
    if (argc != 3 || file < 0) return 1;
    for (long i = 0; i < sales; i++) {
        if (pwrite(file, body, sizeof body, at + 1) != sizeof body || fdatasync(file)) return 1;
        if (pwrite(file, "\1", 1, at) != 1 || fdatasync(file)) return 1;
        at += sizeof body;
    }
    return 0;
}
C
"${CC:-cc}" -O2 -o "$folder/bare" "$folder/bare.c"

# Runs one of the four on a new file, and notes its time.
turn() {
    rm -f "$folder"/db* "$folder/shop.chain" "$folder/bare.file"
    begun=$(microseconds)
    case $1 in
    chain) "$program" chain "$folder/shop.chain" 89890001K <"$folder/script" >"$folder/text" ;;
    DELETE | WAL) sqlite3 "$folder/db" <"$folder/$1.sql" >"$folder/text" ;;
    bare) "$folder/bare" "$folder/bare.file" "$sales" ;;
    esac
    echo $(($(microseconds) - begun)) >>"$folder/times.$1"
}

n=0
while [ "$n" -lt "$turns" ]; do
    n=$((n + 1))
    case $((n % 4)) in
    0) order="chain DELETE WAL bare" ;;
    1) order="DELETE WAL bare chain" ;;
    2) order="WAL bare chain DELETE" ;;
    3) order="bare chain DELETE WAL" ;;
    esac
    for kind in $order; do turn "$kind"; done
done

# The median of a kind's turns.
median() {
    sort -n "$folder/times.$1" | sed -n "$((turns / 2 + 1))p"
}

for kind in chain DELETE WAL bare; do
    time=$(median $kind)
    echo "$kind: $sales sales in $time microseconds, $((sales * 1000000 / time)) a second"
done
chain=$(median chain)
echo "chain is $(($(median DELETE) * 100 / chain)) hundredths of SQLite's DELETE, $(($(median WAL) * 100 / chain)) of its WAL, $(($(median bare) * 100 / chain)) of the bare loop"
