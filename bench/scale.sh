#!/bin/sh
# The largest inputs, each beside one of a tenth: a script of 16,777,216 bytes, 100,000 commands of one till, 100,000 commands of 64
# tills by `day`, 10,000 customers with an invoice each, and a file of 1,000,000 records, opened and audited. Time and memory (the
# greatest resident set) of each, less those of an empty run; wanted is that neither grows faster than the input does: ten times, and
# a quarter more for what the machine adds. The files lie in memory (/dev/shm).
# Run by hand, on a machine that does nothing else: bench/scale.sh [RECORDS]. It needs GNU time, 2 GB of memory and some minutes.
set -eu

root=$(CDPATH= cd -- "$(dirname -- "$0")/.." && pwd)
. "$root/bench/files.sh"
records=${1:-1000000}
folder=$(mktemp -d /dev/shm/scale.XXXXXX)
trap 'rm -rf "$folder"' EXIT

"$root/verifactu" --version >/dev/null
program=$root/crates/program/out/program
cd "$folder"
nif=89890001K
faster=0

# Sales of 12 lines, this many, and comments up to a size in bytes.
long_script() {
    echo "clock 1735722000 1"
    seq "$1" | sed 's/.*/sale 1 & A F2 21:1000 10:1000 4:1000 0:1000 21+:1000 10+:1000 4+:1000 S2:1000 N1:1000 N2:1000 E1:1000 E2:1000/'
    yes '# one more line of the script that says nothing'
}

tills_script() {
    echo "clock 1735722000 1"
    awk -v count="$1" 'BEGIN { for (i = 0; i < count; i++) print "sale", i % 64 + 1, int(i / 64) + 1, "T" i % 64 + 1, "F2 21:1000" }'
}

customers_script() {
    echo "clock 1735722000 1"
    seq "$1" | sed 's/.*/customer c& B12345674 The shop of customer &/'
    seq "$1" | sed 's/.*/sale 1 & A F1 to=c& 21:1000/'
}

# Runs the program on the script, three times; the least of its milliseconds and of its kilobytes.
measure() {
    ms='' kb=''
    for _ in 1 2 3; do
        [ "$keep" = yes ] || rm -f shop.chain
        begun=$(date +%s%N)
        /usr/bin/time -f %M -o peak "$program" "$@" <script >text || { echo "$what: status $?" >&2; exit 1; }
        took=$((($(date +%s%N) - begun) / 1000000))
        if [ -z "$ms" ] || [ "$took" -lt "$ms" ]; then ms=$took; fi
        size=$(tail -n 1 peak)
        if [ -z "$kb" ] || [ "$size" -lt "$kb" ]; then kb=$size; fi
    done
}

# Tells the figures of the small input (a tenth) and of the large one, less those of an empty run.
tell() {
    [ "$small_ms" -gt "$empty_ms" ] || small_ms=$((empty_ms + 1))
    [ "$small_kb" -gt "$empty_kb" ] || small_kb=$((empty_kb + 1))
    times=$(((ms - empty_ms) * 100 / (small_ms - empty_ms)))
    more=$(((kb - empty_kb) * 100 / (small_kb - empty_kb)))
    echo "$what: $ms ms and $((kb / 1024)) MB; a tenth $small_ms ms and $((small_kb / 1024)) MB; \
$((times / 100)).$(printf %02d $((times % 100))) times as long, $((more / 100)).$(printf %02d $((more % 100))) times the memory"
    [ $times -le 1250 ] && [ $more -le 1250 ] || faster=1
}

small_is() {
    small_ms=$ms small_kb=$kb
}

# shellcheck disable=SC2034
keep=no what="an empty script"
: >script
measure chain shop.chain $nif
empty_ms=$ms empty_kb=$kb

what="a script of 16777216 bytes, 100000 commands of 12 lines"
long_script 10000 | head -c 1677721 >script
echo >>script
measure chain shop.chain $nif
small_is
long_script 100000 2>/dev/null | head -c 16777215 >script
echo >>script
measure chain shop.chain $nif
tell

what="100000 commands of one till"
sales 1 10000 >script
measure chain shop.chain $nif
small_is
sales 1 100000 >script
measure chain shop.chain $nif
tell

what="100000 commands of 64 tills"
tills_script 10000 >script
measure day shop.chain $nif
small_is
tills_script 100000 >script
measure day shop.chain $nif
tell

what="10000 customers, an invoice each"
customers_script 1000 >script
measure chain shop.chain $nif
small_is
customers_script 10000 >script
measure chain shop.chain $nif
tell

# A file of RECORDS records, and one of a tenth.
tenth=$((records / 10))
rm -f shop.chain
for part in 0 1 2 3 4 5 6 7 8 9; do
    sales $((part * tenth + 1)) $(((part + 1) * tenth)) >script
    "$program" chain shop.chain $nif <script >text
    [ $part -gt 0 ] || cp shop.chain tenth.chain
done
[ "$(tail -n 1 text)" = "chain $((tenth * 10)) noted 0" ] || { echo "a wrong chain line" >&2; exit 1; }
: >script
keep=yes
for command in "audit" "link" "chain"; do
    what="$command on a file of $((tenth * 10)) records"
    case $command in
        audit) set -- ;;
        link) set -- A-1 test ;;
        chain) set -- $nif ;;
    esac
    measure $command tenth.chain "$@"
    small_is
    measure $command shop.chain "$@"
    tell
done
[ $faster -eq 0 ] || { echo "something grows faster than its input" >&2; exit 1; }
