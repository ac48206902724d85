#!/bin/sh
# How long `export` takes on a file of RECORDS records, compared with `audit` of the same file, and how much memory it takes beyond
# that of opening the file (by `link`), compared with the bytes that it prints; how long `matches` takes on the largest such export
# that it reads (16,777,216 bytes), compared with `audit` of its file; and the memory of `matches` on bad lines of that size, compared
# with the line. The fastest of three runs each. The files lie in memory (/dev/shm). `export` is to take 3 times `audit` at most, at
# 1,000,000 records, and 1.2 times the bytes that it prints; `matches` 4 times `audit` at most.
# Run by hand, on a machine that does nothing else: bench/export.sh [RECORDS]. It needs GNU time, 3 GB of memory and some minutes.
set -eu
root=$(CDPATH= cd -- "$(dirname -- "$0")/.." && pwd)
. "$root/bench/files.sh"
records=${1:-1000000}
limit=16777216
work=$(mktemp -d /dev/shm/export.XXXXXX)
trap 'rm -rf "$work"' EXIT

[ -n "${VERIFACTU:-}" ] || "$root/verifactu" --version >/dev/null
program=${VERIFACTU:-$root/crates/program/out/program}

# Runs the program with these words, three times, on the source; its status has to be the wanted one. Its least microseconds and
# kilobytes.
measure() {
    took='' kilobytes=''
    for _ in 1 2 3; do
        begun=$(date +%s%N)
        status=0
        /usr/bin/time -f %M -o "$work/peak" "$program" "$@" <"$source" >"$work/text" 2>"$work/fault" || status=$?
        now=$((($(date +%s%N) - begun) / 1000))
        [ "$status" = "$wanted" ] || { echo "$1: status $status" >&2; exit 1; }
        if [ -z "$took" ] || [ "$now" -lt "$took" ]; then took=$now; fi
        size=$(tail -n 1 "$work/peak")
        if [ -z "$kilobytes" ] || [ "$size" -lt "$kilobytes" ]; then kilobytes=$size; fi
    done
}

failed=0
# Tells a quotient of the first two in hundredths, which is to be the third at most.
tell() {
    quotient=$(($1 * 100 / $2))
    echo "$4: $quotient hundredths, of $3 at most"
    [ "$quotient" -le "$3" ] || failed=1
}

source=/dev/null wanted=0
make_file "$program" "$work/large.chain" "$records"
measure audit "$work/large.chain"
audited=$took
measure link "$work/large.chain" "A-$records" real
held=$kilobytes
measure export "$work/large.chain"
[ "$(wc -l <"$work/text")" = $((records + 1)) ] || { echo "a wrong export" >&2; exit 1; }
bytes=$(wc -c <"$work/text")
echo "$records records: audit $audited microseconds, export $took, which prints $bytes bytes"
tell "$took" "$audited" 300 "export beside audit"
tell $(((kilobytes - held) * 1024)) "$bytes" 120 "its memory beside what it prints"
rm "$work/large.chain" "$work/text"

# The longest lines of such a file have 430 bytes.
few=$((limit / 430))
[ "$few" -le "$records" ] || few=$records
make_file "$program" "$work/small.chain" "$few"
measure audit "$work/small.chain"
audited=$took
measure export "$work/small.chain"
mv "$work/text" "$work/lines"
[ "$(wc -c <"$work/lines")" -le "$limit" ] || { echo "longer than $limit bytes" >&2; exit 1; }
source=$work/lines
measure matches "$work/small.chain"
grep -q "^matches $few\$" "$work/text" || { echo "a wrong count" >&2; exit 1; }
echo "$few records: audit $audited microseconds, matches $took"
tell "$took" "$audited" 400 "matches beside audit"

# Lines of the limit's size that are no line of an export, beside an empty source.
wanted=18 source=/dev/null
measure matches "$work/small.chain"
held=$kilobytes
source=$work/bad
try_line() {
    measure matches "$work/small.chain"
    echo "a line of $1: $took microseconds, memory $(((kilobytes - held) * 102400 / limit)) hundredths of its size"
}
for what in '[' '9' '{"a":' '"\u0041'; do
    yes "$what" | tr -d '\n' | head -c "$limit" >"$source"
    try_line "$what"
done
{ printf '['; yes '0,' | tr -d '\n' | head -c $((limit - 4)); printf '0]'; } >"$source"
try_line "numbers in a list"
{ printf '"'; yes '\u0041' | tr -d '\n' | head -c $((limit - 4)); printf '"'; } >"$source"
try_line "escapes in a text"
exit "$failed"
