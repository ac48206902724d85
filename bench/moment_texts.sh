#!/usr/bin/env bash
# Times one million moments made and written by `stamps`: under 0.2 seconds is wanted. Run by hand.
set -eu
root=$(cd "$(dirname "$0")/.." && pwd)
work=$(mktemp -d)
trap 'rm -rf "$work"' EXIT
mkdir -p "$work/crates/moment_texts/src"
names=$("$root/bench/copy.sh" "$work" stamps)
echo "moment_texts: $names" >>"$work/crates.txt"
cat >"$work/crates/moment_texts/src/main.rt" <<'PROGRAM'
//! One million moments, a minute or so apart, each made and written.
#![tactic(auto)]

use stamps::{moment_text, stamp_at};
use std::io;
use std::time::Instant;

// Mixes each byte of the text in, so that none may be left out.
fn mixed_with(mixed: u64, seconds: u64) -> u64 {
    let mut mixed = mixed;
    if let Ok(stamp) = stamp_at(seconds) {
        for b in &moment_text(&stamp) {
            mixed = mixed.wrapping_mul(31).wrapping_add(u64::from(*b));
        }
    }
    mixed
}

fn main(rt: HostRuntime) -> io::Result<()> {
    let start = Instant::now(&rt)?;
    let mut mixed = 0u64;
    for i in 0..1_000_000u64 {
        mixed = mixed_with(mixed, 1_704_067_200 + 61 * i);
    }
    let took = start.elapsed(&rt)?;
    let millis = took.as_millis();
    println!(rt; "{millis} ms for one million moments, {mixed}")
}
PROGRAM
cd "$work/crates/moment_texts"
rt run
