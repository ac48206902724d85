#!/bin/sh
# How many scanned links a second `check` answers with 1, 2 and 4 workers in one run: 130,000 links, some 16 MB, about the most that
# it takes, of the 10,000 records of a chain in turn. The time with an empty source, which is that of opening the file, is taken off: so
# the chain is short, else that is most of a run. Turns of each kind alternate, and the fastest count. The file and the links lie in
# memory (/dev/shm). Two workers are to be 1.8 times as fast as one, and four 3.0 times, where four processors are free. What one worker
# still does alone: the source is read, and the texts joined and printed. Its peer is the machine itself: as many programs of one
# worker each, at the same time, and what they do together in the time of one.
# Run by hand, on a machine that does nothing else: bench/check.sh [LINKS] [TURNS] [RECORDS].
set -eu
root=$(CDPATH= cd -- "$(dirname -- "$0")/.." && pwd)
. "$root/bench/files.sh"
links=${1:-130000}
turns=${2:-15}
records=${3:-10000}
work=$(mktemp -d /dev/shm/check.XXXXXX)
trap 'rm -rf "$work"' EXIT

"$root/verifactu" --version >/dev/null
program=$root/crates/program/out/program
sales 1 "$records" 0 | "$program" chain "$work/shop.chain" 89890001K >/dev/null
front="https://www2.agenciatributaria.gob.es/wlpl/TIKE-CONT/ValidarQR?nif=89890001K\&numserie=A-"
in_turn() {
    seq 0 $((links - 1)) | awk -v records="$records" '{ print $1 % records + 1 }'
}
in_turn | sed "s|.*|$front&\\&fecha=01-01-2025\\&importe=12.10|" >"$work/links"
in_turn | sed 's/^/found /' >"$work/wanted"

# Notes the time of a run with so many workers on this source.
timed() {
    begun=$(microseconds)
    "$program" check "$work/shop.chain" "$1" <"$2" >"$work/text"
    echo $(($(microseconds) - begun)) >>"$work/$3"
}

# Notes the time in which so many programs of one worker each, started together, have all ended.
beside() {
    begun=$(microseconds)
    n=0
    while [ "$n" -lt "$1" ]; do
        n=$((n + 1))
        "$program" check "$work/shop.chain" 1 <"$work/links" >"$work/text.$n" &
    done
    wait
    echo $(($(microseconds) - begun)) >>"$work/beside.$1"
}

turn=0
while [ "$turn" -lt "$turns" ]; do
    turn=$((turn + 1))
    timed 1 /dev/null opened
    for workers in 1 2 4; do
        timed "$workers" "$work/links" "workers.$workers"
        cmp -s "$work/text" "$work/wanted" || { echo "a wrong answer" >&2; exit 1; }
    done
    for programs in 1 2 4; do beside "$programs"; done
done

least() {
    sort -n "$work/$1" | head -n 1
}

opened=$(least opened)
one=$(($(least workers.1) - opened))
for workers in 1 2 4; do
    took=$(($(least "workers.$workers") - opened))
    echo "$workers workers: $((links * 1000000 / took)) links a second, $((one * 100 / took)) hundredths of one worker's"
done
echo "opening takes $opened microseconds"
for programs in 2 4; do
    echo "$programs programs at the same time: $(($(least beside.1) * programs * 100 / $(least "beside.$programs"))) hundredths of what one does alone"
done
