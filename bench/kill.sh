#!/bin/sh
# Kills the program with SIGKILL in the middle of a script, several hundred times at random moments, and opens its file after
# each: the file must open, hold a chain that begins with what it held before, and register each sale once. When all sales
# of a file stand there a new file is begun.
# Run by hand: bench/kill.sh [FOLDER ON THE DISK] [ROUNDS] [SALES A FILE]
set -eu

root=$(CDPATH= cd -- "$(dirname -- "$0")/.." && pwd)
. "$root/bench/files.sh"
folder=$(mktemp -d "${1:-/var/tmp}/kill.XXXXXX")
rounds=${2:-400}
sales=${3:-2000}
trap 'rm -rf "$folder"' EXIT

"$root/verifactu" --version >/dev/null
program=$root/crates/program/out/program
file=$folder/shop.chain
nif=89890001K

sales 1 "$sales" >"$folder/script"

# The chain of the file, as a run without commands prints it.
listed() {
    "$program" chain "$file" $nif </dev/null >"$1" || { echo "round $round: the file doesn't open, status $?" >&2; exit 1; }
}

# Up to 60 ms at random.
moment() {
    printf '0.%03d' $(($(od -An -N2 -tu2 /dev/urandom) % 60))
}

cut=0 kept=0 files=0 round=0
: >"$folder/before"
while [ "$round" -lt "$rounds" ]; do
    round=$((round + 1))
    "$program" chain "$file" $nif <"$folder/script" >"$folder/text" 2>/dev/null &
    run=$!
    sleep "$(moment)"
    if kill -9 $run 2>/dev/null; then cut=$((cut + 1)); fi
    wait $run 2>/dev/null || true
    listed "$folder/after"
    # All lines but the chain line.
    sed '$d' "$folder/after" >"$folder/records"
    lines=$(wc -l <"$folder/records")
    [ "$(tail -n 1 "$folder/after")" = "chain $lines noted 0" ] || { echo "round $round: a wrong chain line" >&2; exit 1; }
    head -n "$(wc -l <"$folder/before")" "$folder/records" | cmp -s - "$folder/before" || { echo "round $round: a record is gone" >&2; exit 1; }
    awk '$1 != NR || $3 != "A-" NR { exit 1 }' "$folder/records" || { echo "round $round: a record stands twice or not in its place" >&2; exit 1; }
    mv "$folder/records" "$folder/before"
    if [ "$lines" -eq "$sales" ]; then
        files=$((files + 1))
        kept=$((kept + lines))
        rm "$file"
        : >"$folder/before"
    fi
done
if [ -e "$file" ]; then
    "$program" chain "$file" $nif <"$folder/script" >"$folder/text"
    [ "$(tail -n 1 "$folder/text")" = "chain $sales noted 0" ] || { echo "the last file isn't whole" >&2; exit 1; }
    [ "$(grep -c '^till 1 serial [0-9]* \(taken\|again\) ' "$folder/text")" -eq "$sales" ] || { echo "a sale has no answer" >&2; exit 1; }
    files=$((files + 1))
    kept=$((kept + sales))
fi
echo "$rounds rounds, $cut runs killed; $files files with $kept sales, each registered once"
