#!/bin/sh
# Each system call of a run on a real file fails in turn, by strace's injection: `chain`, `drain`, `audit`, `link`, `statement`, `export`,
# `matches` and `migrate`, with EIO, ENOSPC and EINTR, and a write that moves nothing; and each write moves half of its bytes (refuse.c). Then the file is opened again. Wanted:
# a status that the call can have; what a run told as taken, with its place and Huella, stands in the file; the file holds a front of
# the whole chain; and once the script is run again the file is, byte for byte, that of a run without a fault; a migration's old file is as
# it was, and its new one is finished by another migration.
# Run by hand: bench/faults.sh [FOLDER ON THE DISK] [SALES]. It needs strace, a C compiler (CC) and Python (old_file.py).
set -eu

root=$(CDPATH= cd -- "$(dirname -- "$0")/.." && pwd)
. "$root/bench/files.sh"
folder=$(mktemp -d "${1:-/var/tmp}/faults.XXXXXX")
sales=${2:-3}
trap 'rm -rf "$folder"' EXIT

[ -n "${VERIFACTU:-}" ] || "$root/verifactu" --version >/dev/null
program=${VERIFACTU:-$root/crates/program/out/program}
"${CC:-cc}" -O2 -shared -fPIC -o "$folder/refuse.so" "$root/bench/refuse.c"
cd "$folder"
nif=89890001K

wrong() {
    echo "$command, $what: $*" >&2
    exit 1
}

sales 1 "$sales" >sales
printf 'clock 1735800000 0\nlink 2 taken\n' >plan
: >nothing

# The files before and after a run without a fault: a shop of sales, and the same drained.
"$program" chain sold.chain $nif <sales >told
cp sold.chain drained.chain
"$program" drain drained.chain $nif <plan >/dev/null
"$program" chain drained.chain $nif <nothing >drained.list
sed -n '/^[0-9]/p' told >sold.list
"$program" export sold.chain >lines
python3 "$root/bench/old_file.py" sold.chain old.chain
"$program" migrate old.chain moved.chain >/dev/null

# Sets the words, the script, the file from before and the whole file of a command.
choose() {
    command=$1 before= script=nothing
    case $command in
        chain) words="chain shop.chain $nif" script=sales whole=sold.chain ;;
        drain) words="drain shop.chain $nif" script=plan before=sold.chain whole=drained.chain ;;
        audit) words="audit shop.chain" before=sold.chain whole=sold.chain ;;
        link) words="link shop.chain A-1 test" before=sold.chain whole=sold.chain ;;
        statement) words="statement shop.chain 01-2025" before=sold.chain whole=sold.chain ;;
        export) words="export shop.chain" before=sold.chain whole=sold.chain ;;
        matches) words="matches shop.chain" script=lines before=sold.chain whole=sold.chain ;;
        migrate) words="migrate shop.chain new.chain" before=old.chain whole=old.chain ;;
    esac
}

begin() {
    rm -f shop.chain new.chain
    [ -z "$before" ] || cp "$before" shop.chain
}

# What a run with a fault left: its status is $1.
judge() {
    case $command:$1 in
        chain:[0456] | chain:10 | drain:[04568] | drain:10 | matches:[0456] | matches:10) ;;
        audit:[056] | audit:10 | link:[056] | link:10 | statement:[056] | statement:10 | export:[056] | export:10) ;;
        migrate:[056] | migrate:10) ;;
        *) wrong "status $1: $(cat why)" ;;
    esac
    echo "$command $1" >>statuses
    if [ "$1" -eq 0 ]; then cmp -s shop.chain "$whole" || wrong "status 0, and not the whole file"; fi
    status=0
    "$program" chain shop.chain $nif <nothing >list 2>why || status=$?
    [ $status -eq 0 ] || wrong "the file doesn't open: status $status"
    sed -n '/^[0-9]/p' list >records
    sed -n 's/.* taken \([0-9]*\) \(A-[0-9]*\) \([0-9A-F]*\)$/\1 alta \2 \3/p' text >taken
    awk '{ print $1, $2, $3, $10 }' records >kept
    grep -v -x -F -f kept taken >lost || true
    [ ! -s lost ] || wrong "lost: $(cat lost)"
    cut -d ' ' -f 1-10 records >front
    cut -d ' ' -f 1-10 sold.list | head -n "$(wc -l <front)" | cmp -s - front || wrong "no front of the whole chain"
    [ -z "$before" ] || [ "$(wc -l <front)" -eq "$sales" ] || wrong "a record is gone"
    again=0
    # shellcheck disable=SC2086
    "$program" $words <"$script" >again 2>why || again=$?
    # A migration that had come to its end is told as such.
    case $command:$again in
        *:0 | migrate:15) ;;
        *) wrong "the command doesn't end well afterwards: $(cat why)" ;;
    esac
    [ $command != migrate ] || cmp -s new.chain moved.chain || wrong "another new file"
    cmp -s shop.chain "$whole" || wrong "another file once the command is run again"
    runs=$((runs + 1))
}

# The system calls of a run from its first look at standard input or the file on, each with its number among those of its name:
# those before are the loader's. What asks for memory or ends the run is left out.
calls() {
    begin
    # shellcheck disable=SC2086
    strace -f -qq -o trace "$program" $words <"$script" >text 2>why || wrong "no plain run"
    sed 's/^[0-9]* *//; s/(/ (/' trace | awk '
        { seen[$1]++ }
        /(shop|new)\.chain/ && $1 != "execve" { on = 1 }
        $1 == "read" && $2 ~ /^\(0,/ { on = 1 }
        on && $1 !~ /^(mmap|munmap|mremap|mprotect|brk|madvise|exit_group|exit|\+\+\+|futex|rt_sig.*|sigaltstack)$/ { print $1, seen[$1] }'
}

runs=0
: >statuses
for command in chain drain audit link statement export matches migrate; do
    choose $command
    what="without a fault"
    calls >"calls.$command"
    while read -r name number; do
        for fault in error=EIO error=ENOSPC error=EINTR retval=0; do
            case $fault:$name in
                retval=0:pwrite64 | retval=0:write) ;;
                retval=0:*) continue ;;
            esac
            what="$name $number $fault"
            begin
            status=0
            # shellcheck disable=SC2086
            strace -f -qq -o trace -e "inject=$name:$fault:when=$number" "$program" $words <"$script" >text 2>why || status=$?
            grep -q INJECTED trace || wrong "nothing was injected"
            judge $status
        done
    done <"calls.$command"
    number=0
    while :; do
        number=$((number + 1))
        what="half of write $number"
        begin
        status=0
        # shellcheck disable=SC2086
        SHORT=$number LD_PRELOAD=./refuse.so "$program" $words <"$script" >text 2>why || status=$?
        grep -q '^cut a write$' why || break
        judge $status
    done
    echo "$command: $(wc -l <"calls.$command") system calls, $((number - 1)) writes cut"
done
echo "$runs runs with a fault: each file opened, nothing told as taken was lost, and each was whole once run again"
echo "runs by command and status: $(sort statuses | uniq -c | awk '{ printf "%s%s %s: %s", (NR > 1 ? ", " : ""), $2, $3, $1 }')"
