#!/bin/sh
# A till that speaks with `verifactu serve`, line by line. It makes SALES sales (2) at a shelf price, and prints each ticket with its link.
# Amid the second sale it has the program killed, and asks the same again. What it asks stands in till.chain.till, on its own disk, before it
# is asked: where it was ended amid a sale it asks that one again first, and where that file is lost it goes on with the serial that the chain
# has. Before the first sale of a day it looks whether the chain has all of its sales: over an older copy it sells nothing. The talk is shown
# on standard error, `>` for what is asked and `<` for what is answered. With CLOCK="START STEP" it is tried by a clock that leaps, so that
# the end doesn't sit out the agency's pause.
# usage: examples/till.sh till.chain 89890001K [SALES]
set -eu
: "${VERIFACTU:=$(dirname -- "$0")/../verifactu}"
chain=$1
issuer=$2
sales=${3-2}
kept=$chain.till
pause=0
line= taken=0 word=settled checked=
pipes=$(mktemp -d)
mkfifo "$pipes/to" "$pipes/from"
trap 'rm -r "$pipes"' EXIT
trap '' PIPE
# (the program is to ignore this one too: then a limit on the file's size is `fault disk`)
trap '' XFSZ

start() {
    # The program must not hold the till's ends of the pipes, or its input never ends.
    "$VERIFACTU" serve "$chain" "$issuer" <"$pipes/to" >"$pipes/from" 3>&- 4<&- &
    program=$!
    exec 3>"$pipes/to" 4<"$pipes/from"
    # (a till that names customers says them here, for a program that starts knows none)
    [ -z "${CLOCK-}" ] || exchange "clock $CLOCK" || true
}

# The answer to a line. It fails where the program ended without one.
exchange() {
    printf '> %s\n' "$1" >&2
    printf '%s\n' "$1" 2>/dev/null >&3 || return 1
    [ "${2-}" != killed ] || { kill -9 "$program"; return 1; }
    IFS= read -r answer <&4 || return 1
    printf '< %s\n' "$answer" >&2
}

# Asks until there is an answer. One of a fault says nothing certain: the same is asked again.
ask() {
    until exchange "$@"; do
        set -- "$1"
        restart
    done
    case $answer in "till "*" serial "*" fault "*) sleep 1 && ask "$1" ;; esac
    pause=0
}

# At once where the program had answered, else after 1, 2, 4 and then every 8 seconds. Nothing that is left in a pipe comes to the next one.
restart() {
    close >/dev/null
    case $status in 2 | 7 | 11 | 13) exit "$status" ;; esac
    sleep "$pause"
    pause=$((pause == 0 ? 1 : pause < 8 ? 2 * pause : 8))
    start
}

# What the program still says, and its status.
close() {
    exec 3>&-
    cat <&4
    exec 4<&-
    status=0
    wait "$program" || status=$?
}

# Writes to the till's own disk, whole or not at all, that its command is `open` or `settled`, and the greatest serial that has a record.
keep() {
    printf '%s\n' "$1 $taken $line" >"$kept.new"
    sync "$kept.new"
    mv "$kept.new" "$kept"
    sync "$(dirname -- "$kept")"
}

# Whether a record, as the listing's line, is one that this command makes. What a TOTAL has beside its CUOTA are the bases.
makes() {
    printf '%s\n' "$1" "$2" | awk '
        NR == 1 { count = split($0, asked, " "); next }
        asked[1] == "cancel" { exit !($2 == "anulacion" && $3 == asked[4]) }
        {
            for (at = 6; at <= count; at++) if (asked[at] !~ /=/) { sub(/.*:/, "", asked[at]); bases += asked[at] }
            sub(/[.]/, "", $6)
            sub(/[.]/, "", $7)
            series = $3
            sub(/-[0-9]+$/, "", series)
            named = asked[1] == "fix" ? $8 == "S" && $3 == asked[4] : $8 == "N" && series == asked[4]
            exit !(named && $2 == "alta" && $5 == asked[5] && $7 - $6 == bases)
        }'
}

# Asks a command and prints its ticket.
settle() {
    line=$1
    keep open
    ask "$@"
    case $answer in
        "till "*" serial "*" taken "* | "till "*" serial "*" again "*) finish "$answer" && taken=$(echo "$line" | cut -d ' ' -f 3) ;;
        *) echo "not registered: $answer" ;;
    esac
    keep settled
}

# Prints the ticket of what was answered. A record that is another command's is none.
finish() {
    case $1 in
        *" again "*)
            ask "record $(echo "$1" | cut -d ' ' -f 6)"
            makes "$line" "$answer" || { echo "not registered, the serial has another record: $answer"; return; }
            ;;
    esac
    ask "ticket $(echo "$1" | cut -d ' ' -f 7) test"
    echo "$answer" | cut -d ' ' -f 3,4,7
    echo "$answer" | cut -d ' ' -f 10
}

# Before the first sale of a day: a chain that lacks a record of this till is an older copy, over which nothing may be sold.
check() {
    ask "last 1"
    last=${answer##* }
    if [ "$last" -lt "$taken" ]; then
        close >/dev/null
        echo "the chain is an older copy: it has serial $last, and $taken was sold. Nothing is sold" >&2
        exit 1
    fi
    [ -n "$line" ] || taken=$last
    checked=$(date +%F)
}

# A sale at a shelf price, under the next serial.
sell() {
    [ "$checked" = "$(date +%F)" ] || check
    if [ -n "$line" ]; then serial=$(echo "$line" | cut -d ' ' -f 3); else serial=$taken; fi
    ask "lines 21 $1"
    settle "sale 1 $((serial + 1)) A F2 ${answer#lines }" "${2-}"
}

[ ! -e "$kept" ] || IFS=' ' read -r word taken line <"$kept"
start
check
[ "$word" = settled ] || settle "$line"
made=0
while [ "$made" -lt "$sales" ]; do
    made=$((made + 1))
    [ $((made % 2)) = 0 ] && price=250 || price=1000
    sell "$price" "$([ "$made" != 2 ] || echo killed)"
done
close
exit "$status"
