#!/bin/sh
# What an entry costs a ledger of months, at 10,000 records and at 1,000,000: row after row is one sale of one line by one till in one
# series, planned at the ledger's state and pushed. The cost is that of 10,000 sales: those after the first 10,000, and the last ones of
# all; the fastest of three runs counts. At 1,000,000 records a sale is to cost 1.3 times as much at most.
# Run by hand, on a machine that does nothing else: bench/ledger.sh [RECORDS] [RUNS]. It needs rt, and proves the small program that it
# writes.
set -eu
root=$(CDPATH= cd -- "$(dirname -- "$0")/.." && pwd)
records=${1:-1000000}
runs=${2:-3}
work=$(mktemp -d)
trap 'rm -rf "$work"' EXIT
mkdir -p "$work/crates/ledger_bench/src"
names=$("$root/bench/copy.sh" "$work" statements)
echo "ledger_bench: $names" >>"$work/crates.txt"
cat >"$work/crates/ledger_bench/src/main.rt" <<PROGRAM
#![tactic(auto)]

use amounts::Cents;
use invoice_kinds::Kind;
use parties::Nif;
use record_fields::{Draft, Refs, Version};
use series::SeriesName;
use shop_core::{Ask, Planned, Request, State, next_fault, plan};
use statements::Ledger;
use std::alloc::Global;
use std::io;
use std::rt::Clock;
use std::time::Instant;
use tax_lines::{Breakdown, Class, LineKey, TaxLine};

const PART: u32 = 10_000;
const RECORDS: u32 = $records;

fn sale(alloc: Global, serial: u32) -> Option<Ask> {
    let line = TaxLine {
        key: LineKey::iva(Class::General),
        base: Cents::new(10_000)?,
    };
    let Ok(lines) = Breakdown::of(alloc, &[line]) else {
        return None;
    };
    let draft = Draft {
        kind: Kind::F2,
        rect: None,
        customer: None,
        refs: Refs::of(Vec::new(alloc)),
        lines,
    };
    let series = SeriesName::read("A")?;
    if serial == 0 {
        return None;
    }
    Some(Ask::new(1, serial, Request::Sale { series, draft }))
}

fn is_taken(alloc: Global, ledger: &mut Ledger, serial: u32) -> bool {
    let Some(ask) = sale(alloc, serial) else {
        return false;
    };
    let Ok(Planned::Made(entry)) = plan(alloc, ledger.state(), &ask, 1_735_722_000) else {
        return false;
    };
    match next_fault(alloc, ledger.state(), &entry) {
        Ok(None) => ledger.push(alloc, entry).is_ok(),
        _ => false,
    }
}

// The sales of these serials, and the microseconds that they took; 0 where one wasn't taken.
fn sell<R: Clock>(
    rt: &R,
    alloc: Global,
    ledger: &mut Ledger,
    from: u32,
    to: u32,
) -> io::Result<u128> {
    let start = Instant::now(rt)?;
    for serial in from..to {
        if !is_taken(alloc, ledger, serial) {
            return Ok(0);
        }
    }
    Ok(start.elapsed(rt)?.as_micros())
}

fn main(rt: HostRuntime) -> io::Result<()> {
    let Ok(issuer) = Nif::read("89890001K") else {
        return Ok(());
    };
    let state = State::empty(rt.alloc(), &issuer, Version::Two);
    let Ok(mut ledger) = Ledger::of(rt.alloc(), state) else {
        return Ok(());
    };
    let begun = sell(&rt, rt.alloc(), &mut ledger, 1, 1 + PART)?;
    let early = sell(&rt, rt.alloc(), &mut ledger, 1 + PART, 1 + 2 * PART)?;
    let between = sell(&rt, rt.alloc(), &mut ledger, 1 + 2 * PART, RECORDS - PART + 1)?;
    let late = sell(&rt, rt.alloc(), &mut ledger, RECORDS - PART + 1, RECORDS + 1)?;
    let records = ledger.state().records();
    println!(rt; "{records} {begun} {early} {between} {late}")?;
    Ok(())
}
PROGRAM
(cd "$work/crates/ledger_bench" && rt run >"$work/log" 2>&1) || { tail -20 "$work/log"; exit 1; }
program=$work/crates/ledger_bench/out/ledger_bench

run=0
while [ "$run" -lt "$runs" ]; do
    run=$((run + 1))
    "$program" >>"$work/lines"
done
awk '{ if ($1 != '"$records"' || !$2 || !$3 || !$5) exit 1 }' "$work/lines" || { echo "a sale wasn't taken" >&2; exit 1; }

least() {
    cut -d' ' -f"$1" "$work/lines" | sort -n | head -n 1
}

early=$(least 3)
late=$(least 5)
echo "10,000 sales: $early microseconds at 10,000 records, $late at $records: $((late * 100 / early)) hundredths"
[ $((late * 100)) -le $((early * 130)) ] || { echo "more than 1.3 times" >&2; exit 1; }
