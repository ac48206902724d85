#!/bin/sh
# Tries the program on what nobody should hand it, a bounded number of times, from a number that makes it the same again: random
# scripts (`chain`, `day`, `drain` on a file that grows), files with bytes changed, cut off, added or put in, and random words.
# Wanted: no crash and no status but 0, 2 to 16 and 18; a file that was written is sound; `audit` and an opening of a changed file
# agree on its records or on the byte of its damage, `link`, `statement`, `export` and `migrate` read it or name the same byte, `matches`
# finds an export to be the file's, and none of these changes it.
# Run by hand: bench/fuzz.sh [ROUNDS] [SEED]
set -eu

root=$(CDPATH= cd -- "$(dirname -- "$0")/.." && pwd)
rounds=${1:-300}
seed=${2:-1}
folder=$(mktemp -d /dev/shm/fuzz.XXXXXX)
trap 'rm -rf "$folder"' EXIT

[ -n "${VERIFACTU:-}" ] || "$root/verifactu" --version >/dev/null
program=${VERIFACTU:-$root/crates/program/out/program}
cd "$folder"
nif=89890001K

wrong() {
    echo "round $round, seed $seed: $*" >&2
    cp -f input shop.chain changed.chain words text why /tmp 2>/dev/null || true
    exit 1
}

# Runs the program, standard input from the file `input`; its status is to be in the table.
try() {
    status=0
    timeout 60 "$program" "$@" <input >text 2>why || status=$?
    case $status in
        0 | [2-9] | 1[0-68]) ;;
        *) wrong "status $status of: $*" ;;
    esac
    [ $status -ne 10 ] || wrong "no memory for: $*"
    case ${1-} in
        chain | day | drain | audit | link | statement | export | matches | migrate | generate) echo "$1 $status" >>statuses ;;
        *) echo "words $status" >>statuses ;;
    esac
}

# So many random numbers below a bound.
randoms() {
    awk -v seed="$1" -v bound="$2" -v count="$3" 'BEGIN { srand(seed); for (i = 0; i < count; i++) print int(rand() * bound) }'
}

# One byte of this value.
byte() {
    # shellcheck disable=SC2059
    printf "\\$(printf %03o "$1")"
}

# Changes a copy of the file in one to three places.
change() {
    cp shop.chain changed.chain
    # shellcheck disable=SC2046
    set -- $(randoms "$1" 1000000 7)
    for turn in $(seq $(($1 % 3 + 1))); do
        size=$(wc -c <changed.chain)
        at=$(($2 * (turn + 6) % (size + 1)))
        if [ $(($3 % 3)) -eq 0 ]; then at=$(($2 % 40 * size / 40)); fi
        head -c $at changed.chain >front
        tail -c +$((at + 1)) changed.chain >rest
        case $((($4 + turn) % 5)) in
            0 | 1) { cat front; byte $(($5 % 256)); tail -c +2 rest; } >changed.chain ;;
            2) cp front changed.chain ;;
            3) { cat front; byte $(($5 % 256)); cat rest; } >changed.chain ;;
            4) { cat front; tail -c +$(($6 % 9 + 1)) rest; } >changed.chain ;;
        esac
        set -- "$1" $((($2 + $7) % 999983)) "$3" "$4" $(($5 / 7 + 1)) "$6" "$7"
    done
}

# What `audit`, `link` and `chain` say of the changed file.
compare() {
    : >input
    cp changed.chain as_it_was
    try audit changed.chain
    verdict=$(sed -n 's/^sound \([0-9]* noted [0-9]*\) .*/chain \1/p; s/^broken [0-9]* at \([0-9]*\) .*/damaged at \1/p' text)
    case $status:$verdict in
        0:chain* | 9:damaged*) ;;
        *) wrong "audit: status $status, $(cat text)" ;;
    esac
    try link changed.chain A-1 test
    case $status:$verdict in
        0:chain* | 14:chain*) ;;
        7:damaged*) [ "$(head -n 1 why)" = "verifactu: $verdict" ] || wrong "link: $(cat why), audit: $verdict" ;;
        *) wrong "link: status $status, audit: $verdict" ;;
    esac
    for reader in statement export migrate; do
        case $reader in
            statement) try statement changed.chain 01-2025 ;;
            export) try export changed.chain && cp text lines ;;
            migrate) rm -f new.chain && try migrate changed.chain new.chain ;;
        esac
        case $reader:$status:$verdict in
            statement:0:chain* | export:0:chain* | migrate:0:chain* | migrate:16:chain*) ;;
            *:7:damaged*) [ "$(head -n 1 why)" = "verifactu: $verdict" ] || wrong "$reader: $(cat why), audit: $verdict" ;;
            *) wrong "$reader: status $status, audit: $verdict" ;;
        esac
    done
    cp lines input
    try matches changed.chain
    case $status:$verdict in
        0:chain* | 7:damaged*) ;;
        *) wrong "matches: status $status, audit: $verdict" ;;
    esac
    : >input
    cmp -s changed.chain as_it_was || wrong "a command that reads changed the file"
    try chain changed.chain $nif
    case $status:$verdict in
        0:chain*) [ "$(tail -n 1 text)" = "$verdict" ] || wrong "chain: $(tail -n 1 text), audit: $verdict" ;;
        7:damaged*) [ "$(head -n 1 why)" = "verifactu: $verdict" ] || wrong "chain: $(cat why), audit: $verdict" ;;
        13:chain*) ;;
        *) wrong "chain: status $status, audit: $verdict" ;;
    esac
    [ $status -eq 0 ] || cmp -s changed.chain as_it_was || wrong "the file was changed with status $status"
}

# Up to five words of the command line, some of them no words.
words() {
    awk -v seed="$1" 'BEGIN {
        srand(seed)
        n = split("chain day drain audit link statement export matches migrate generate 01-2025 13-2025 --agency --help --version shop.chain none.chain . /dev/null 89890001K 12345678Z A-1 A-2 real test 1 10 0 x -", known, " ")
        known[++n] = ""
        known[++n] = "\377\376"
        known[++n] = "a b"
        split("chain 2 day 2 drain 2 audit 1 link 3 generate 1 statement 2 export 1 matches 1 migrate 2", command, " ")
        if (rand() < 0.6) {
            i = 2 * int(rand() * 10)
            print command[i + 1]
            count = command[i + 2]
            if (count > 1 || rand() < 0.5) { print rand() < 0.7 ? "shop.chain" : known[1 + int(rand() * n)]; count-- }
        } else count = int(rand() * 6)
        while (count-- > 0) print known[1 + int(rand() * n)]
    }'
}

round=0
: >statuses
while [ "$round" -lt "$rounds" ]; do
    round=$((round + 1))
    now=$((seed * 100003 + round))
    [ $((round % 20)) -ne 1 ] || rm -f shop.chain
    : >words

    # A script, answered by one command, and the file that it leaves.
    case $((round % 4)) in
        0 | 1) command=chain plan=0 ;;
        2) command=day plan=0 ;;
        3) command=drain plan=1 ;;
    esac
    awk -v seed=$now -v clock=1 -v plan=$plan -f "$root/bench/fuzz.awk" >input
    try $command shop.chain $nif
    case $status in
        0 | 3 | 8) ;;
        *) wrong "$command: status $status" ;;
    esac
    : >input
    try audit shop.chain
    [ $status -eq 0 ] || wrong "the file is broken after $command: $(cat text)"

    # The file, changed.
    if [ -s shop.chain ]; then
        for turn in 1 2 3 4; do
            change $((now * 5 + turn))
            compare
        done
    fi

    # Words, on a copy.
    cp shop.chain none.chain 2>/dev/null || true
    words $now >words
    set --
    while IFS= read -r word; do set -- "$@" "$word"; done <words
    rm -f none.chain
    mkdir -p aside
    cp shop.chain aside/ 2>/dev/null || true
    (cd aside && : >input && : >statuses && try "$@" && cat statuses >>../statuses) || exit 1
    rm -rf aside
done
echo "$rounds rounds from seed $seed, $(wc -l <statuses) runs: no crash, each status in the table, audit and opening agree"
echo "runs by command and status: $(sort statuses | uniq -c | awk '{ printf "%s%s %s: %s", (NR > 1 ? ", " : ""), $2, $3, $1 }')"
