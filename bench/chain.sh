#!/bin/sh
# How many sales a second `chain` answers where syncs cost nothing: scripts of 1,000, 4,000 and 16,000 sales on a new file in
# memory (/dev/shm), five runs each, the fastest of them counts. Run by hand, from anywhere, on a machine that does nothing
# else. 16,000 sales are to take 0.3 seconds at most.
set -eu

root=$(CDPATH= cd -- "$(dirname -- "$0")/.." && pwd)
. "$root/bench/files.sh"
folder=$(mktemp -d /dev/shm/chain.XXXXXX)
trap 'rm -rf "$folder"' EXIT

"$root/verifactu" --version >/dev/null
program=$root/crates/program/out/program

for sales in 1000 4000 16000; do
    sales 1 "$sales" >"$folder/script"
    best=
    for _ in 1 2 3 4 5; do
        rm -f "$folder/shop.chain"
        begun=$(milliseconds)
        "$program" chain "$folder/shop.chain" 89890001K <"$folder/script" >"$folder/text"
        took=$(($(milliseconds) - begun))
        [ "$took" -gt 0 ] || took=1
        if [ -z "$best" ] || [ "$took" -lt "$best" ]; then best=$took; fi
    done
    [ "$(tail -n 1 "$folder/text")" = "chain $sales noted 0" ] || { echo "a wrong chain line" >&2; exit 1; }
    echo "$sales sales in $best ms: $((sales * 1000 / best)) sales a second"
done
[ "$best" -le 300 ] || { echo "16000 sales took more than 0.3 seconds" >&2; exit 1; }
