#!/bin/sh
# Whether an adapter does what docs/ADAPTER.md asks of it: `drain`, `day` and `serve` over it, faults of the link planned between the two, and
# at the end it took each record of the chain once, in order, none was handed over again but where it had said that it held none, and
# the file notes what it answered. Then how long `drain` takes over a file of so many waiting records, by the adapter alone.
# Run by hand: bench/adapter.sh [RECORDS [ADAPTER..]]. ADAPTER is the adapter's command, which gets the two files behind its own
# words; without it, it is the practice adapter. It is begun anew for each run, and must hold nothing of the issuer 89890001K then.
set -eu

here=$(CDPATH= cd -- "$(dirname -- "$0")" && pwd)
agency=$here/../examples/agency/agency.py
. "$here/files.sh"
records=${1:-10000}
[ $# -eq 0 ] || shift
[ $# -gt 0 ] || set -- python3 "$agency"
work=$(mktemp -d /dev/shm/adapter.XXXXXX)
nif=89890001K
started=
trap 'stop; rm -rf "$work"' EXIT

[ -n "${VERIFACTU-}" ] || VERIFACTU=$here/../verifactu
[ -x "$VERIFACTU" ] || VERIFACTU=verifactu
"$VERIFACTU" --version >/dev/null

stop() {
    for process in $started; do kill "$process" 2>/dev/null || true; done
    started=
}

# The adapter behind new FIFOs, and with a plan a relay in front of it.
start() {
    plan=$1
    shift
    rm -f "$work"/to "$work"/from "$work"/adapter_to "$work"/adapter_from "$work/log"
    mkfifo "$work/to" "$work/from" "$work/adapter_to" "$work/adapter_from"
    if [ -n "$plan" ]; then
        "$@" "$work/adapter_to" "$work/adapter_from" &
        started=$!
        python3 "$here/adapter.py" relay "$work/to" "$work/from" "$work/adapter_to" "$work/adapter_from" "$work/log" "$plan" &
    else
        "$@" "$work/to" "$work/from" &
    fi
    started="$started $!"
}

# Whether the run that was told as its words ended so, and what came of it.
run() {
    name=$1
    script=$2
    shift 2
    status=0
    "$VERIFACTU" --agency "$work/to" "$work/from" "$@" <"$script" >"$work/text" 2>"$work/faults" || status=$?
    [ $status -eq 0 ] || { echo "$name: status $status: $(cat "$work/faults")" >&2; exit 1; }
    "$VERIFACTU" chain "$work/shop.chain" $nif </dev/null >"$work/listing"
    if [ -f "$work/log" ]; then
        printf '%s: ' "$name"
        python3 "$here/adapter.py" check "$work/log" "$work/listing"
    fi
}

# A file of so many waiting sales.
waiting() {
    rm -f "$work/shop.chain"
    make_file "$VERIFACTU" "$work/shop.chain" "$1"
}

echo "clock 1735900000 0" >"$work/empty"
for plan in "1 none" "2 lost, 4 taken, 6 stale" "1 lost, 3 taken, 5 half, 7 twice" "2 half, 4 stale, 5 twice"; do
    waiting 1020
    start "$plan" "$@"
    run "drain, $plan" "$work/empty" drain "$work/shop.chain" $nif
    stop
done

{
    echo "clock 1735722000 1"
    for till in 1 2 3 4; do seq 50 | sed "s/.*/sale $till & T$till F2 21:1000/"; done
    for sale in 1 2 3 4 5 6 7 8 9 10; do echo "cancel 1 $((50 + sale)) T1-$sale"; done
} >"$work/day"
for command in day serve; do
    for plan in "2 taken, 3 lost, 5 twice" "1 half, 4 taken, 6 lost"; do
        rm -f "$work/shop.chain"
        start "$plan" "$@"
        run "$command, $plan" "$work/day" $command "$work/shop.chain" $nif
        stop
    done
done

# The practice adapter, whose agency shows by invoice the last accepted record alone. A call to the service is lost, late, or answered twice or
# by the reply to another call: it had a refused record before accepted ones, and a sale whose fix and one whose cancellation wait behind it.
# In the last rows the refused record is the last one of its call, which the agency calls a duplicate when it comes again.
{
    sales 1 5
    echo "fix 1 6 A-4 F2 21:2000"
    echo "cancel 1 7 A-5"
} >"$work/lost"
while read -r refused wanted recalls fates; do
    rm -rf "$work/shop.chain" "$work/register"
    mkdir "$work/register"
    "$VERIFACTU" chain "$work/shop.chain" $nif <"$work/lost" >/dev/null
    [ "$recalls" = - ] && recalls=
    start "" python3 "$agency" --register $recalls --journal "$work/register/journal" --state "$work/register/state" \
        --log "$work/register/log" --plan "$fates" --verdicts "$refused 1 vet 4000"
    run "by invoice, $fates" "$work/empty" drain "$work/shop.chain" $nif
    # The next run finds no contradiction either.
    sales 8 8 | "$VERIFACTU" chain "$work/shop.chain" $nif >/dev/null
    run "by invoice, $fates, one more" "$work/empty" drain "$work/shop.chain" $nif
    stop
    grep -q " $refused .* vet $wanted\$" "$work/listing" || { echo "$fates: $refused isn't noted as refused by $wanted" >&2; exit 1; }
    printf '%s: ' "by invoice, ${recalls:+refused ones kept, }$fates"
    python3 "$here/kill_adapter.py" judge "$work/register" "$work/listing"
done <<END
A-2 4000 - 2 lost
A-2 0 - 2 taken
A-2 0 - 2 taken, 3 lost, 4 taken
A-2 0 - 2 late 1
A-2 4000 - 2 late 2
A-2 4000 - 2 late 3
A-2 0 - 2 stale, 4 late 2
A-2 4000 - 2 twice
A-2 4000 - 2 again
A-5 4000 --recalls 2 taken
A-5 4000 - 2 taken
END

# An adapter that a shell restarts at once, and that ends amid an answer. The shell holds the files.
waiting 1020
start "" sh -c 'exec 3<"$2" 4>"$3"; trap "kill \$adapter; exit" TERM
    while :; do python3 "$0" --state "$1" --plan "2 half" /dev/fd/3 /dev/fd/4 & adapter=$!; wait $adapter; done' \
    "$agency" "$work/state"
run "restarted at once" "$work/empty" drain "$work/shop.chain" $nif
stop

waiting "$records"
start "" "$@"
begun=$(date +%s%N)
run "drain" "$work/empty" drain "$work/shop.chain" $nif
ended=$(date +%s%N)
[ "$(tail -n 1 "$work/text")" = "chain $records noted $records" ] || { echo "not every record is noted" >&2; exit 1; }
echo "$records records drained over the adapter in $(((ended - begun) / 1000000)) ms, the listing of the chain with them"
