#!/bin/sh
# Refuses each growth of memory in turn, by refuse.c, in runs over real files: `chain` with a sale on a new file, `drain` of two
# records with a reply that doesn't come, `day` with two tills on a new file, `audit`, `link`, `statement`, `export` and `matches` of two
# records, and `migrate` of them. Wanted: status 0 or 10, or 4, 5 or 6 where it was a device's own growth (standard input's, standard output's or the file's); what was told as taken
# stands in the file; the file opens; and once the command is run again it ends well, with each sale once; what `statement`, `export` and
# `matches` print is whole or nothing.
# Run by hand: bench/memory.sh. It needs a C compiler (CC) and Python, which writes a file of version 1 (old_file.py).
set -eu

root=$(CDPATH= cd -- "$(dirname -- "$0")/.." && pwd)
folder=$(mktemp -d /dev/shm/memory.XXXXXX)
trap 'rm -rf "$folder"' EXIT

[ -n "${VERIFACTU:-}" ] || "$root/verifactu" --version >/dev/null
program=${VERIFACTU:-$root/crates/program/out/program}
"${CC:-cc}" -O2 -shared -fPIC -o "$folder/refuse.so" "$root/bench/refuse.c"
cd "$folder"
nif=89890001K

wrong() {
    echo "$command, growth $number: $*" >&2
    exit 1
}

printf 'clock 1735722000 0\nsale 1 1 A F2 21:10000\n' >one
printf 'clock 1735722000 0\nsale 1 1 A F2 21:10000\nsale 1 2 A F2 10:1000\n' >two
printf 'clock 1735722000 0\nsale 1 1 A F2 21:10000\nsale 2 1 B F2 21:10000\n' >tills
printf 'clock 1735800000 0\nlink 2 taken\n' >plan
: >nothing
"$program" chain two.chain $nif <two >told
"$program" export two.chain >lines
python3 "$root/bench/old_file.py" two.chain old.chain
"$program" audit old.chain >verdict

# Sets the words, the script, the file from before and the last line of a whole listing.
choose() {
    command=$1 before=two.chain script=nothing end='chain 2 noted 0'
    case $command in
        chain) words="chain shop.chain $nif" script=one before='' end='chain 1 noted 0' ;;
        drain) words="drain shop.chain $nif" script=plan end='chain 2 noted 2' ;;
        day) words="day shop.chain $nif" script=tills before='' end='chain 2 noted 2' ;;
        audit) words="audit shop.chain" ;;
        link) words="link shop.chain A-1 test" ;;
        statement) words="statement shop.chain 01-2025" ;;
        export) words="export shop.chain" ;;
        matches) words="matches shop.chain" script=lines ;;
        migrate) words="migrate shop.chain new.chain" before=old.chain ;;
    esac
    rm -f whole
    # shellcheck disable=SC2086
    case $command in
        statement | export | matches) cp "$before" shop.chain && "$program" $words <"$script" >whole ;;
    esac
}

# A migration that was cut off is finished by another; one that was whole is told as such.
judge_move() {
    again=0
    # shellcheck disable=SC2086
    "$program" $words <"$script" >again 2>why || again=$?
    [ $again -eq 0 ] || [ $again -eq 15 ] || wrong "the migration doesn't end afterwards: $(cat why)"
    "$program" audit new.chain | cmp -s - verdict || wrong "another new file"
    cmp -s shop.chain old.chain || wrong "another old file"
}

# The file opens, and what was told as taken stands there.
judge() {
    status=0
    "$program" chain shop.chain $nif <nothing >list 2>why || status=$?
    [ $status -eq 0 ] || wrong "the file doesn't open: status $status"
    sed -n 's/.* taken \([0-9]*\) \([AB]-[0-9]*\) \([0-9A-F]*\)$/\1 alta \2 \3/p' text >taken
    awk '/^[0-9]/ { print $1, $2, $3, $10 }' list >kept
    grep -v -x -F -f kept taken >lost || true
    [ ! -s lost ] || wrong "lost: $(cat lost)"
    # shellcheck disable=SC2086
    "$program" $words <"$script" >again 2>why || wrong "the command doesn't end well afterwards: $(cat why)"
    "$program" chain shop.chain $nif <nothing >list
    [ "$(tail -n 1 list)" = "$end" ] || wrong "another chain afterwards: $(tail -n 1 list)"
    [ "$(awk '/^[0-9]/ { print $3 }' list | sort | uniq -d)" = "" ] || wrong "a sale stands twice"
}

: >statuses
for command in chain drain day audit link statement export matches migrate; do
    choose $command
    number=0
    while :; do
        number=$((number + 1))
        rm -f shop.chain new.chain
        [ -z "$before" ] || cp "$before" shop.chain
        status=0
        # shellcheck disable=SC2086
        timeout 60 env REFUSE=$number LD_PRELOAD=./refuse.so "$program" $words <"$script" >text 2>why || status=$?
        grep -q '^refused a growth$' why || break
        case $status in
            0 | 10 | [456]) ;;
            *) wrong "status $status: $(cat why)" ;;
        esac
        echo "$command $status" >>statuses
        [ $status -eq 0 ] || [ $status -eq 10 ] || echo "$command: growth $number: $(tail -n 1 why)" >>devices
        [ ! -e whole ] || [ ! -s text ] || [ $status -eq 5 ] || cmp -s text whole || wrong "a part is printed"
        if [ $command = migrate ]; then judge_move; else judge; fi
    done
    echo "$command: $((number - 1)) growths refused in turn"
done
[ ! -e devices ] || cat devices
echo "runs by command and status: $(sort statuses | uniq -c | awk '{ printf "%s%s %s: %s", (NR > 1 ? ", " : ""), $2, $3, $1 }')"
