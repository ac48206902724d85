#!/bin/sh
# How long `migrate` takes on a file of version 1 of so many records, and how much memory, beside `audit` of the same file; and the
# same of a tenth of it: time and memory are to grow with the file, by 12.5 times at most. The new file has to have the old one's
# verdict. The fastest of three runs each; the files lie in memory (/dev/shm).
# Run by hand, on a machine that does nothing else: bench/migrate.sh [RECORDS]. It needs GNU time and Python, which writes the files
# of version 1 (old_file.py), since the program begins none.
set -eu
root=$(CDPATH= cd -- "$(dirname -- "$0")/.." && pwd)
. "$root/bench/files.sh"
records=${1:-1000000}
work=$(mktemp -d /dev/shm/migrate.XXXXXX)
trap 'rm -rf "$work"' EXIT

[ -n "${VERIFACTU:-}" ] || "$root/verifactu" --version >/dev/null
program=${VERIFACTU:-$root/crates/program/out/program}

# Runs the program with these words, three times, the file NEW absent. Its least microseconds and kilobytes.
measure() {
    took='' kilobytes=''
    for _ in 1 2 3; do
        rm -f "$work/new.chain"
        begun=$(date +%s%N)
        /usr/bin/time -f %M -o "$work/peak" "$program" "$@" </dev/null >"$work/text"
        now=$((($(date +%s%N) - begun) / 1000))
        if [ -z "$took" ] || [ "$now" -lt "$took" ]; then took=$now; fi
        size=$(tail -n 1 "$work/peak")
        if [ -z "$kilobytes" ] || [ "$size" -lt "$kilobytes" ]; then kilobytes=$size; fi
    done
}

# The figures of a file of so many records.
figures() {
    make_file "$program" "$work/made.chain" "$1"
    python3 "$root/bench/old_file.py" "$work/made.chain" "$work/old.chain"
    rm "$work/made.chain"
    measure audit "$work/old.chain"
    audited=$took
    mv "$work/text" "$work/verdict"
    measure migrate "$work/old.chain" "$work/new.chain"
    grep -q "^migrated $1 noted 0\$" "$work/text" || { echo "a wrong count" >&2; exit 1; }
    "$program" audit "$work/new.chain" | cmp -s - "$work/verdict" || { echo "another verdict" >&2; exit 1; }
    echo "$1 records: audit $audited microseconds, migrate $took ($((took * 100 / audited)) hundredths), $kilobytes kB"
}

figures $((records / 10))
few=$took less=$kilobytes
figures "$records"
echo "ten times the records: time $((took * 100 / few)) hundredths, memory $((kilobytes * 100 / less))"
[ $((took * 100)) -le $((few * 1250)) ] && [ $((kilobytes * 100)) -le $((less * 1250)) ] || {
    echo "more than 12.5 times" >&2
    exit 1
}
