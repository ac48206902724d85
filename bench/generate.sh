#!/bin/sh
# How long `generate N` takes, beside the C program of generate_peer.c, which makes the same records and writes nothing. Each is
# started anew, in turn, and the fastest run of each counts; what they print is compared. `generate 100000` is to take 1.6 times
# as long at most.
# Run by hand, on a machine that does nothing else: bench/generate.sh [COMMANDS] [RUNS OF EACH]. It needs rt, a C compiler (CC) and
# OpenSSL's headers, and leaves nothing behind.
set -eu
root=$(CDPATH= cd -- "$(dirname -- "$0")/.." && pwd)
. "$root/bench/files.sh"
commands=${1:-100000}
runs=${2:-10}
work=$(mktemp -d)
trap 'rm -rf "$work"' EXIT

"$root/verifactu" --version >/dev/null
program=$root/crates/program/out/program
"${CC:-cc}" -O2 -o "$work/peer" "$root/bench/generate_peer.c" -lcrypto

# Runs one of the two and notes its time.
turn() {
    begun=$(microseconds)
    "$@" "$commands" >"$work/text"
    took=$(($(microseconds) - begun))
}

run=0
while [ "$run" -lt "$runs" ]; do
    run=$((run + 1))
    turn "$work/peer"
    echo "$took" >>"$work/peer.times"
    cp "$work/text" "$work/peer.text"
    turn "$program" generate
    echo "$took" >>"$work/own.times"
    cmp "$work/text" "$work/peer.text" || { echo "the chains differ" >&2; exit 1; }
done

least() {
    sort -n "$1" | head -n 1
}

own=$(least "$work/own.times")
peer=$(least "$work/peer.times")
cat "$work/text"
echo "generate $commands: $own microseconds, in C $peer, $((own * 100 / peer)) hundredths of it"
[ $((own * 100)) -le $((peer * 160)) ] || { echo "more than 1.6 times" >&2; exit 1; }
