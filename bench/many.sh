#!/bin/sh
# Eight issuers' drains at the same time, one `many`, against one after another, eight `drain`: files of RECORDS waiting records each
# (20,000 where nothing is said), through a practice agency each, in memory (/dev/shm), where syncs cost nothing. And what of it can't
# be done at the same time, since `many` opens the files and prints the blocks one after another: a `many` of the same files once they are
# sent, and eight `drain` of those. Turns alternate, and the fastest count. In the end each record of each file is noted.
# Run by hand, on a machine that does nothing else: bench/many.sh [RECORDS] [TURNS]
set -eu
root=$(CDPATH= cd -- "$(dirname -- "$0")/.." && pwd)
. "$root/bench/files.sh"
records=${1:-20000}
turns=${2:-9}
work=$(mktemp -d /dev/shm/many.XXXXXX)
trap 'rm -rf "$work"' EXIT
issuers="89890001K 12345678Z 00000001R 00000002W 00000003A 00000004G 00000005M 00000006Y"

"$root/verifactu" --version >/dev/null
program=$root/crates/program/out/program

sales 1 "$records" >"$work/sales"
echo "clock 1735900000 0" >"$work/clock"
mkdir "$work/waiting" "$work/files"
words=
for nif in $issuers; do
    "$program" chain "$work/waiting/$nif" "$nif" <"$work/sales" >/dev/null
    words="$words $work/files/$nif $nif"
done

# Runs all drains in one of both ways; the time is noted in the file of that name.
together() {
    begun=$(milliseconds)
    "$program" many $words <"$work/clock" >"$work/text"
    echo $(($(milliseconds) - begun)) >>"$work/$1"
}

apart() {
    begun=$(milliseconds)
    for nif in $issuers; do
        "$program" drain "$work/files/$nif" "$nif" <"$work/clock" >"$work/text"
    done
    echo $(($(milliseconds) - begun)) >>"$work/$1"
}

check() {
    for nif in $issuers; do
        [ "$("$program" audit "$work/files/$nif" | cut -d ' ' -f 1-4)" = "sound $records noted $records" ] || { echo "not every record of $nif is noted" >&2; exit 1; }
    done
}

least() {
    sort -n "$work/$1" | head -n 1
}

for _ in $(seq "$turns"); do
    for way in together apart; do
        cp "$work"/waiting/* "$work/files/"
        $way "$way.sent"
        check
        $way "$way.opened"
    done
done
for way in together apart; do
    sent=$(least "$way.sent")
    opened=$(least "$way.opened")
    echo "eight files of $records records, $way: $sent ms, $opened ms of them where nothing waits; $((sent - opened)) ms to send"
done
