#!/bin/sh
# How long `statement` takes on a file of so many records, all of one month, beside `audit` of the same file: 1.5 times at most. The
# fastest of three runs each; the file lies in memory (/dev/shm).
# Run by hand, on a machine that does nothing else: bench/statement.sh [RECORDS], at most 1,000,000 of them.
set -eu
root=$(CDPATH= cd -- "$(dirname -- "$0")/.." && pwd)
. "$root/bench/files.sh"
records=${1:-1000000}
work=$(mktemp -d /dev/shm/statement.XXXXXX)
trap 'rm -rf "$work"' EXIT

[ -n "${VERIFACTU:-}" ] || "$root/verifactu" --version >/dev/null
program=${VERIFACTU:-$root/crates/program/out/program}

make_file "$program" "$work/shop.chain" "$records"

# The fastest of three runs of the program with these words, in microseconds.
timed() {
    for _ in 1 2 3; do
        begun=$(date +%s%N)
        "$program" "$@" >"$work/text"
        echo $((($(date +%s%N) - begun) / 1000))
    done | sort -n | head -n 1
}

audited=$(timed audit "$work/shop.chain")
took=$(timed statement "$work/shop.chain" 01-2025)
# Each sale is 10.00 at 21 percent.
wanted="21 $records $((records * 10)).00 $((records * 210 / 100)).$(printf %02d $((records * 210 % 100))) 0.00"
[ "$(head -n 1 "$work/text")" = "$wanted" ] || { echo "a wrong row" >&2; exit 1; }
echo "$records records: audit $audited microseconds, statement $took ($((took * 100 / audited)) hundredths)"
[ $((took * 100)) -le $((audited * 150)) ] || {
    echo "more than 1.5 times" >&2
    exit 1
}
