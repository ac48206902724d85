#!/bin/sh
# Runs two programs on one file at once. The second must end with status 6 and say why, and leave the file to the first, whose
# chain must be sound and whole at the end; after it a second run must find the file free.
# Run by hand: bench/lock_file.sh [FOLDER ON THE DISK] [SALES]
set -eu

root=$(CDPATH= cd -- "$(dirname -- "$0")/.." && pwd)
. "$root/bench/files.sh"
folder=$(mktemp -d "${1:-/var/tmp}/lock.XXXXXX")
sales=${2:-3000}
trap 'rm -rf "$folder"' EXIT

"$root/verifactu" --version >/dev/null
program=$root/crates/program/out/program
file=$folder/shop.chain
nif=89890001K

fail() {
    echo "$1" >&2
    exit 1
}

sales 1 "$sales" >"$folder/long"
printf 'clock 1735722000 1\nsale 2 1 B F2 21:1000\n' >"$folder/short"

"$program" chain "$file" $nif <"$folder/long" >"$folder/first" &
first=$!
# A file with its header and a record: the first program has it open.
while [ ! -e "$file" ] || [ "$(wc -c <"$file")" -lt 100 ]; do kill -0 $first 2>/dev/null || fail "the first program ended early"; done

status=0
"$program" chain "$file" $nif <"$folder/short" >"$folder/second" 2>"$folder/why" || status=$?
kill -0 $first 2>/dev/null || fail "the first program ended before the second was refused: give more sales"
[ "$status" -eq 6 ] || fail "the second program ended with status $status"
[ ! -s "$folder/second" ] || fail "the second program printed something"
printf 'verifactu: disk fault\nverifactu: %s: in use by another program\n' "$file" | cmp -s - "$folder/why" || fail "the second program said: $(cat "$folder/why")"

wait $first || fail "the first program ended with status $?"
[ "$(tail -n 1 "$folder/first")" = "chain $sales noted 0" ] || fail "the first program's chain isn't whole"
"$program" audit "$file" >/dev/null || fail "the file isn't sound"
"$program" chain "$file" $nif <"$folder/short" >"$folder/second" || fail "the file isn't free afterwards"
[ "$(tail -n 1 "$folder/second")" = "chain $((sales + 1)) noted 0" ] || fail "the last run's chain isn't whole"
echo "two programs on one file: the second was refused, $sales sales of the first stand"
