#!/bin/sh
# Kills `day` with SIGKILL, several hundred times at random moments, and opens its file after each: the file must open, hold a
# chain that begins with what it held before, each till's sales once and in its order, and no fewer noted lines than before, those
# of the first records. When all sales of a file stand there and are noted a new file is begun. 8 tills sell beside a sender whose
# link fails now and then.
# Run by hand: bench/kill_day.sh [FOLDER ON THE DISK] [ROUNDS] [SALES A TILL]
set -eu

root=$(CDPATH= cd -- "$(dirname -- "$0")/.." && pwd)
folder=$(mktemp -d "${1:-/var/tmp}/kill_day.XXXXXX")
rounds=${2:-400}
sales=${3:-100}
tills=8
trap 'rm -rf "$folder"' EXIT

"$root/verifactu" --version >/dev/null
program=$root/crates/program/out/program
file=$folder/shop.chain
nif=89890001K

{
    echo "clock 1735722000 1"
    for sale in $(seq "$sales"); do seq $tills | sed "s/.*/sale & $sale T& F2 21:1000/"; done
    printf 'link 2 lost\nlink 4 taken\nlink 6 late 1\nlink 9 stale\nlink 12 again\n'
} >"$folder/script"

# The chain of the file, as a run without commands prints it.
listed() {
    "$program" chain "$file" $nif </dev/null >"$1" || { echo "round $round: the file doesn't open, status $?" >&2; exit 1; }
}

# Up to 60 ms at random.
moment() {
    printf '0.%03d' $(($(od -An -N2 -tu2 /dev/urandom) % 60))
}

wrong() {
    echo "round $round: $*" >&2
    exit 1
}

cut=0 kept=0 files=0 round=0 noted=0
: >"$folder/before"
while [ "$round" -lt "$rounds" ]; do
    round=$((round + 1))
    "$program" day "$file" $nif <"$folder/script" >"$folder/text" 2>/dev/null &
    run=$!
    sleep "$(moment)"
    if kill -9 $run 2>/dev/null; then cut=$((cut + 1)); fi
    wait $run 2>/dev/null || true
    listed "$folder/after"
    # All lines but the chain line, without what the agency says.
    sed -e '$d' -e 's/ [^ ]*$//' "$folder/after" >"$folder/records"
    lines=$(wc -l <"$folder/records")
    now=$(tail -n 1 "$folder/after" | cut -d ' ' -f 4)
    [ "$(tail -n 1 "$folder/after")" = "chain $lines noted $now" ] || wrong "a wrong chain line"
    [ "$now" -ge "$noted" ] || wrong "a noted line is gone"
    [ "$(sed '$d' "$folder/after" | head -n "$now" | grep -c ' correcto$')" -eq "$now" ] || wrong "a line is noted out of order"
    head -n "$(wc -l <"$folder/before")" "$folder/records" | cmp -s - "$folder/before" || wrong "a record is gone"
    awk '$1 != NR { exit 1 } { split($3, part, "-"); if (part[2] != ++last[part[1]]) exit 1 }' "$folder/records" ||
        wrong "a record stands twice or not in its place"
    mv "$folder/records" "$folder/before"
    noted=$now
    if [ "$lines" -eq $((sales * tills)) ] && [ "$now" -eq "$lines" ]; then
        files=$((files + 1))
        kept=$((kept + lines))
        rm "$file"
        : >"$folder/before"
        noted=0
    fi
done
if [ -e "$file" ]; then
    all=$((sales * tills))
    "$program" day "$file" $nif <"$folder/script" >"$folder/text"
    [ "$(tail -n 1 "$folder/text")" = "chain $all noted $all" ] || wrong "the last file isn't whole"
    [ "$(grep -c '^till [0-9]* serial [0-9]* \(taken\|again\) ' "$folder/text")" -eq "$all" ] || wrong "a sale has no answer"
    files=$((files + 1))
    kept=$((kept + all))
fi
echo "$rounds rounds, $cut runs killed; $files files with $kept sales, each registered once"
