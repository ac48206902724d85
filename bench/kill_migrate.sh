#!/bin/sh
# Kills `migrate` at random moments, TIMES times, each time on a new file NEW. Wanted: NEW isn't begun, or is damaged at 0, or is the whole
# chain; a second `migrate` then ends it, or says that it is whole; both files have one verdict; FILE has no other byte than before.
# Run by hand: bench/kill_migrate.sh [TIMES] [FOLDER]. It needs Python, which writes the file of version 1 (old_file.py).
set -eu
root=$(CDPATH= cd -- "$(dirname -- "$0")/.." && pwd)
. "$root/bench/files.sh"
times=${1:-40}
work=$(mktemp -d "${2:-/var/tmp}/kill_migrate.XXXXXX")
trap 'rm -rf "$work"' EXIT

[ -n "${VERIFACTU:-}" ] || "$root/verifactu" --version >/dev/null
program=${VERIFACTU:-$root/crates/program/out/program}
cd "$work"
make_file "$program" made.chain 60000
python3 "$root/bench/old_file.py" made.chain old.chain
cp old.chain as_it_was
"$program" audit old.chain >verdict

cut=0 whole=0
for time in $(seq "$times"); do
    rm -f new.chain
    wait=$(awk -v seed="$(date +%N)$time" 'BEGIN { srand(seed); printf "0.%03d", rand() * 900 }')
    timeout -s KILL "$wait" "$program" migrate old.chain new.chain >text 2>why || true
    "$program" audit new.chain >found 2>why || true
    if cmp -s found verdict; then
        whole=$((whole + 1)) wanted=15
    else
        cut=$((cut + 1)) wanted=0
        grep -q -e '^sound 0 noted 0 last -$' -e '^broken 1 at 0 header$' found || { echo "another file: $(cat found)" >&2; exit 1; }
    fi
    status=0
    "$program" migrate old.chain new.chain >text 2>why || status=$?
    [ "$status" -eq "$wanted" ] || { echo "a second migration ends with $status" >&2; exit 1; }
    "$program" audit new.chain | cmp -s - verdict || { echo "another chain" >&2; exit 1; }
    cmp -s old.chain as_it_was || { echo "the old file was written" >&2; exit 1; }
done
echo "$times migrations killed: $cut were cut off and ended by a second one, $whole had come to their end; the old file is as it was"
