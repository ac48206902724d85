#!/bin/sh
# Sales a second of `day`, whose sender sends them: 64 tills with 100 sales each beside one till with the same 6,400 sales, on a
# real file and on one in memory (/dev/shm), where syncs cost nothing. Turns alternate, so that both kinds meet the same disk, and
# the medians count. The tills wait for each other at each sale; 64 of them are to be no slower than one, which is told and not
# checked here.
# Run by hand, on a machine that does nothing else: bench/day.sh [FOLDER ON THE DISK] [TURNS OF EACH]
set -eu

root=$(CDPATH= cd -- "$(dirname -- "$0")/.." && pwd)
. "$root/bench/files.sh"
real=$(mktemp -d "${1:-/var/tmp}/day.XXXXXX")
memory=$(mktemp -d /dev/shm/day.XXXXXX)
turns=${2:-5}
trap 'rm -rf "$real" "$memory"' EXIT

"$root/verifactu" --version >/dev/null
program=$root/crates/program/out/program

{
    echo "clock 1735722000 1"
    for sale in $(seq 100); do seq 64 | sed "s/.*/sale & $sale A F2 21:1000/"; done
} >"$memory/64"
sales 1 6400 >"$memory/1"

# One day of so many tills in a folder, whose time is noted.
turn() {
    rm -f "$2/shop.chain"
    begun=$(milliseconds)
    "$program" day "$2/shop.chain" 89890001K <"$memory/$1" >"$memory/text"
    echo $(($(milliseconds) - begun)) >>"$memory/times.$1"
    [ "$(grep -c '^till .* taken ' "$memory/text")" = 6400 ] || { echo "not every sale was taken" >&2; exit 1; }
    [ "$("$program" audit "$2/shop.chain" | cut -d ' ' -f 1-4)" = "sound 6400 noted 6400" ] || { echo "no sound file" >&2; exit 1; }
}

# The median of the times of so many tills.
median() {
    sort -n "$memory/times.$1" | sed -n "$((turns / 2 + 1))p"
}

for folder in "$real" "$memory"; do
    rm -f "$memory"/times.*
    for n in $(seq "$turns"); do
        turn 64 "$folder"
        turn 1 "$folder"
    done
    for tills in 64 1; do
        time=$(median $tills)
        [ "$time" -gt 0 ] || time=1
        echo "$folder: $tills tills, 6400 sales in $time ms, $((6400 * 1000 / time)) a second"
    done
done
