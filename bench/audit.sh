#!/bin/sh
# How long a file of RECORDS records takes to open (by `link`, which prints one line) and to `audit`, and the bare SHA-256 of as
# many field texts in the same language; the fastest of three runs each. The texts of these records have 252 to 258 bytes, which
# are five blocks each. The file lies in memory (/dev/shm). Each is to take 2.5 times the hashing at most, at 1,000,000 records.
# Run by hand, on a machine that does nothing else: bench/audit.sh [RECORDS]. It needs rt, and proves the small program that it
# writes. The file is made by several calls of `chain`, whose scripts have 100,000 commands at most: that takes some minutes.
set -eu
root=$(CDPATH= cd -- "$(dirname -- "$0")/.." && pwd)
. "$root/bench/files.sh"
records=${1:-1000000}
work=$(mktemp -d /dev/shm/audit.XXXXXX)
trap 'rm -rf "$work"' EXIT

"$root/verifactu" --version >/dev/null
program=$root/crates/program/out/program
mkdir -p "$work/crates/sha_bench/src"
cp "$root/HANDLES" "$work/HANDLES"
echo 'sha_bench: sha2' >"$work/crates.txt"
cat >"$work/crates/sha_bench/src/main.rt" <<PROGRAM
#![tactic(auto)]

use sha2::{Digest, Sha256};
use std::io;
use std::time::Instant;

fn main(rt: HostRuntime) -> io::Result<()> {
    let mut text = [65u8; 258];
    let start = Instant::now(&rt)?;
    for _ in 0..$records {
        let mut hasher = Sha256::new();
        hasher.update(&text);
        let digest = hasher.finalize();
        text[0] = digest[0];
    }
    let took = start.elapsed(&rt)?.as_micros();
    let last = text[0];
    println!(rt; "{took} {last}")?;
    Ok(())
}
PROGRAM
(cd "$work/crates/sha_bench" && rt run >"$work/log" 2>&1) || { tail -20 "$work/log"; exit 1; }
hash=$work/crates/sha_bench/out/sha_bench

make_file "$program" "$work/shop.chain" "$records"

least() {
    sort -n | head -n 1
}

# The fastest of three runs of the program with these words.
timed() {
    for _ in 1 2 3; do
        begun=$(microseconds)
        "$program" "$@" >"$work/text"
        echo $(($(microseconds) - begun))
    done | least
}

audited=$(timed audit "$work/shop.chain")
grep -q "^sound $records noted 0 last " "$work/text" || { echo "a wrong verdict" >&2; exit 1; }
opened=$(timed link "$work/shop.chain" "A-$records" real)
grep -q "numserie=A-$records&" "$work/text" || { echo "a wrong link" >&2; exit 1; }
hashed=$(for _ in 1 2 3; do "$hash" | cut -d' ' -f1; done | least)
echo "$records records: opening $opened microseconds, audit $audited, bare SHA-256 $hashed"
echo "opening is $((opened * 100 / hashed)) hundredths of the hashing, audit $((audited * 100 / hashed))"
[ $((opened * 100)) -le $((hashed * 250)) ] && [ $((audited * 100)) -le $((hashed * 250)) ] || {
    echo "more than 2.5 times" >&2
    exit 1
}
