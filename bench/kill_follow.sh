#!/bin/sh
# Kills `follow` at random moments, TIMES times, each time on a new file NEW. Wanted: the lines that NEW exports are the first ones of
# those of FILE; a second `follow` adds the others; FILE has no other byte than before.
# Run by hand: bench/kill_follow.sh [TIMES] [FOLDER].
set -eu
root=$(CDPATH= cd -- "$(dirname -- "$0")/.." && pwd)
. "$root/bench/files.sh"
times=${1:-40}
work=$(mktemp -d "${2:-/var/tmp}/kill_follow.XXXXXX")
trap 'rm -rf "$work"' EXIT

[ -n "${VERIFACTU:-}" ] || "$root/verifactu" --version >/dev/null
program=${VERIFACTU:-$root/crates/program/out/program}
cd "$work"
entries=1000
make_file "$program" shop.chain "$entries"
"$program" export shop.chain >lines
cp shop.chain as_it_was

cut=0 whole=0
for time in $(seq "$times"); do
    rm -f copy.chain
    wait=$(awk -v seed="$(date +%N)$time" 'BEGIN { srand(seed); printf "0.%03d", rand() * 900 }')
    timeout -s KILL "$wait" "$program" follow shop.chain copy.chain >text 2>why || true
    "$program" export copy.chain >found 2>why || { echo "a copy that can't be read: $(cat why)" >&2; exit 1; }
    # The first line of an export is the issuer's, where the file is begun.
    count=$(wc -l <found)
    head -n "$count" lines | cmp -s - found || { echo "a copy of another chain" >&2; exit 1; }
    if [ "$count" -eq 0 ]; then had=0; else had=$((count - 1)); fi
    if [ "$had" -eq "$entries" ]; then whole=$((whole + 1)); else cut=$((cut + 1)); fi
    "$program" follow shop.chain copy.chain >text
    [ "$(cat text)" = "followed $((entries - had)) entries $entries" ] || { echo "a second call prints $(cat text)" >&2; exit 1; }
    cmp -s copy.chain shop.chain || { echo "another copy" >&2; exit 1; }
    cmp -s shop.chain as_it_was || { echo "the file was written" >&2; exit 1; }
done
echo "$times calls killed: $cut were cut off and ended by a second one, $whole had come to their end; the file is as it was"
