#!/bin/sh
# What a sale costs in memory, at 10,000 records and at 1,000,000, and how many bytes a record takes, all tables included. Row
# after row is one sale of one line by one till in one series, answered by the history alone: no file, no text. The cost is that
# of 10,000 sales: those after the first 10,000, and the last ones of all; the fastest of three runs counts. The bytes are the
# resident size of the whole program, by the number of records. At 1,000,000 records a sale is to cost 1.3 times as much at most,
# and a record is to take 250 bytes at most.
# Run by hand, on a machine that does nothing else: bench/state.sh [RECORDS] [RUNS]. It needs rt and /usr/bin/time, and proves the
# small program that it writes.
set -eu
root=$(CDPATH= cd -- "$(dirname -- "$0")/.." && pwd)
records=${1:-1000000}
runs=${2:-3}
work=$(mktemp -d)
trap 'rm -rf "$work"' EXIT
mkdir -p "$work/crates/state_bench/src"
names=$("$root/bench/copy.sh" "$work" shop_core)
echo "state_bench: $names" >>"$work/crates.txt"
cat >"$work/crates/state_bench/src/main.rt" <<PROGRAM
#![tactic(auto)]

use amounts::Cents;
use invoice_kinds::Kind;
use parties::Nif;
use record_fields::{Draft, Refs, Version};
use series::SeriesName;
use shop_core::{Ask, Reply, Request, State, reply_to};
use std::alloc::Global;
use std::io;
use std::rt::Clock;
use std::time::Instant;
use tax_lines::{Breakdown, Class, LineKey, TaxLine};

const PART: u32 = 10_000;
const RECORDS: u32 = $records;

fn sale(alloc: Global, serial: u32) -> Option<Ask> {
    let line = TaxLine {
        key: LineKey::iva(Class::General),
        base: Cents::new(10_000)?,
    };
    let Ok(lines) = Breakdown::of(alloc, &[line]) else {
        return None;
    };
    let draft = Draft {
        kind: Kind::F2,
        rect: None,
        customer: None,
        refs: Refs::of(Vec::new(alloc)),
        lines,
    };
    let series = SeriesName::read("A")?;
    if serial == 0 {
        return None;
    }
    Some(Ask::new(1, serial, Request::Sale { series, draft }))
}

fn is_taken(alloc: Global, state: &mut State, serial: u32) -> bool {
    let Some(ask) = sale(alloc, serial) else {
        return false;
    };
    match reply_to(alloc, state, &ask, 1_735_722_000) {
        Ok(Reply::Taken(_)) => true,
        _ => false,
    }
}

// The sales of these serials, and the microseconds that they took; 0 where one wasn't taken.
fn sell<R: Clock>(
    rt: &R,
    alloc: Global,
    state: &mut State,
    from: u32,
    to: u32,
) -> io::Result<u128> {
    let start = Instant::now(rt)?;
    for serial in from..to {
        if !is_taken(alloc, state, serial) {
            return Ok(0);
        }
    }
    Ok(start.elapsed(rt)?.as_micros())
}

fn main(rt: HostRuntime) -> io::Result<()> {
    let Ok(issuer) = Nif::read("89890001K") else {
        return Ok(());
    };
    let mut state = State::empty(rt.alloc(), &issuer, Version::Two);
    let begun = sell(&rt, rt.alloc(), &mut state, 1, 1 + PART)?;
    let early = sell(&rt, rt.alloc(), &mut state, 1 + PART, 1 + 2 * PART)?;
    let between = sell(&rt, rt.alloc(), &mut state, 1 + 2 * PART, RECORDS - PART + 1)?;
    let late = sell(&rt, rt.alloc(), &mut state, RECORDS - PART + 1, RECORDS + 1)?;
    let records = state.records();
    let held = state.held();
    let bytes = held.bytes;
    let pages = held.pages;
    println!(rt; "{records} {begun} {early} {between} {late} {bytes} {pages}")?;
    Ok(())
}
PROGRAM
(cd "$work/crates/state_bench" && rt run >"$work/log" 2>&1) || { tail -20 "$work/log"; exit 1; }
program=$work/crates/state_bench/out/state_bench

run=0
while [ "$run" -lt "$runs" ]; do
    run=$((run + 1))
    /usr/bin/time -f %M -o "$work/resident" "$program" >>"$work/lines"
    cat "$work/resident" >>"$work/sizes"
done
awk '{ if ($1 != '"$records"' || !$2 || !$3 || !$5) exit 1 }' "$work/lines" || { echo "a sale wasn't taken" >&2; exit 1; }

least() {
    cut -d' ' -f"$1" "$work/lines" | sort -n | head -n 1
}

early=$(least 3)
late=$(least 5)
all=$(awk '{ print $2 + $3 + $4 + $5 }' "$work/lines" | sort -n | head -n 1)
size=$(sort -n "$work/sizes" | head -n 1)
held=$(head -n 1 "$work/lines" | cut -d' ' -f6,7)
echo "$records sales in $((all / 1000)) ms; 10,000 sales: $early microseconds at 10,000 records, $late at $records"
echo "the last ones cost $((late * 100 / early)) hundredths of the early ones"
echo "$size KB resident: $((size * 1024 / records)) bytes a record; entries' bytes and pages: $held"
[ $((late * 100)) -le $((early * 130)) ] || { echo "more than 1.3 times" >&2; exit 1; }
[ $((size * 1024)) -le $((records * 250)) ] || { echo "more than 250 bytes a record" >&2; exit 1; }
