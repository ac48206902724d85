#!/bin/sh
# How long `drain` takes over files of 10,000 and 100,000 waiting records, through the practice agency, and what of it is opening
# the file (`link`, which prints one line): the fastest of three runs each. The file lies in memory (/dev/shm), where syncs cost
# nothing. Records a second, and what a record costs at 100,000 beside one at 10,000. In the end each record is noted once.
# Run by hand, on a machine that does nothing else: bench/drain.sh [RECORDS]
set -eu
root=$(CDPATH= cd -- "$(dirname -- "$0")/.." && pwd)
. "$root/bench/files.sh"
records=${1:-100000}
work=$(mktemp -d /dev/shm/drain.XXXXXX)
trap 'rm -rf "$work"' EXIT

"$root/verifactu" --version >/dev/null
program=$root/crates/program/out/program

# Opens a file of $1 records, and drains a copy of it; the times are noted.
turn() {
    cp "$work/$1.chain" "$work/shop.chain"
    begun=$(microseconds)
    "$program" link "$work/shop.chain" A-1 real >/dev/null
    echo $(($(microseconds) - begun)) >>"$work/opens.$1"
    begun=$(microseconds)
    echo "clock 1735900000 0" | "$program" drain "$work/shop.chain" 89890001K >"$work/text"
    echo $(($(microseconds) - begun)) >>"$work/drains.$1"
    [ "$(tail -n 1 "$work/text")" = "chain $1 noted $1" ] || { echo "not every record is noted" >&2; exit 1; }
}

least() {
    sort -n "$1" | head -n 1
}

for count in $((records / 10)) "$records"; do
    make_file "$program" "$work/$count.chain" "$count"
    for _ in 1 2 3; do turn "$count"; done
    drained=$(least "$work/drains.$count")
    opened=$(least "$work/opens.$count")
    own=$((drained - opened))
    [ "$own" -gt 0 ] || own=1
    echo "$count records drained in $drained microseconds, $opened of them to open: $((count * 1000000 / drained)) records a second"
    echo "a record costs $((own * 1000 / count)) ns past opening"
    each="${each:-} $((own * 1000 / count))"
done
set -- $each
echo "at $records records a record costs $(($2 * 100 / $1)) hundredths of one at $((records / 10))"
