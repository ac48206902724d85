#!/bin/sh
# How many records a second the practice agency takes: 1,000 batches of 1,000 records, each record new, in one session. The time
# is that of its calls alone; sealing the records is left out. 200,000 records a second are to be reached. It takes about 2 GB.
# Run by hand, on a machine that does nothing else: bench/agency.sh [BATCHES]. It needs rt, and proves the small program that
# it writes.
set -eu
top=$(cd "$(dirname "$0")/.." && pwd)
batches=${1:-1000}
work=$(mktemp -d)
trap 'rm -rf "$work"' EXIT
mkdir -p "$work/crates/agency_bench/src"
names=$("$top/bench/copy.sh" "$work" agency_port huella)
echo "agency_bench: $names" >>"$work/crates.txt"
cat >"$work/crates/agency_bench/src/main.rt" <<PROGRAM
#![tactic(auto)]

use agency_port::{Agency, PracticeAgency};
use amounts::Cents;
use batches::{Batch, are_linked};
use huella::seal;
use invoice_kinds::Kind;
use parties::Nif;
use record_fields::{Alta, Draft, Link, Previo, Record, Refs, Sealed};
use series::{InvoiceId, SeriesName, number};
use stamps::{Day, stamp_at};
use std::alloc::Global;
use std::io;
use std::rt::Clock;
use std::time::Instant;
use tax_lines::{Breakdown, Class, LineKey, TaxLine};

fn sale(alloc: Global, id: InvoiceId, link: Link) -> Option<Sealed> {
    let Ok(issuer) = Nif::read("89890001K") else {
        return None;
    };
    let Ok(moment) = stamp_at(1_735_722_000) else {
        return None;
    };
    let line = TaxLine {
        key: LineKey::iva(Class::General),
        base: Cents::new(10_000)?,
    };
    let Ok(lines) = Breakdown::of(alloc, &[line]) else {
        return None;
    };
    let draft = Draft {
        kind: Kind::F2,
        rect: None,
        customer: None,
        refs: Refs::of(Vec::new(alloc)),
        lines,
    };
    Some(seal(Record::Alta(Alta {
        issuer,
        id,
        draft,
        subsanacion: false,
        rechazo: Previo::N,
        link,
        moment,
    })))
}

// The batch of 1,000 sales after so many others.
fn batch(alloc: Global, before: u32) -> Option<Batch> {
    let series = SeriesName::read("A")?;
    let day = Day::read("01-01-2025")?;
    let mut records = Vec::new(alloc);
    let mut link = Link::First;
    for k in 1..=1000u32 {
        let n = before.checked_mul(1000)?.checked_add(k)?;
        if n > 99_999_999 || n < 1 {
            return None;
        }
        let id = InvoiceId {
            num: number(&series, n),
            day,
        };
        let sealed = sale(alloc, id, link)?;
        link = Link::After {
            id: sealed.body.id(),
            huella: sealed.huella,
        };
        let Ok(()) = records.push(sealed) else {
            return None;
        };
    }
    if !are_linked(&records) {
        return None;
    }
    match Batch::cut(alloc, &records) {
        Ok(batch) => batch,
        Err(_) => None,
    }
}

// How many lines the reply has.
fn submit<A: Agency>(alloc: Global, agency: &mut A, batch: &Batch) -> usize {
    match agency.submit(alloc, batch) {
        Ok(reply) => reply.lines().as_slice().len(),
        Err(_) => 0,
    }
}

// The nanoseconds of one submission, and the records that it answered.
fn timed<R: Clock, A: Agency>(
    rt: &R,
    alloc: Global,
    agency: &mut A,
    batch: &Batch,
) -> io::Result<(u128, usize)> {
    let start = Instant::now(rt)?;
    let lines = submit(alloc, agency, batch);
    Ok((start.elapsed(rt)?.as_nanos(), lines))
}

fn main(rt: HostRuntime) -> io::Result<()> {
    let mut agency = PracticeAgency::new(rt.alloc());
    let mut nanos: u128 = 0;
    let mut records: usize = 0;
    for before in 0..$batches {
        if let Some(batch) = batch(rt.alloc(), before) {
            let (took, lines) = timed(&rt, rt.alloc(), &mut agency, &batch)?;
            nanos = nanos.saturating_add(took);
            records = records.saturating_add(lines);
        }
    }
    let processed = agency.processed().len();
    let millis = nanos / 1_000_000;
    println!(rt; "{records} records answered, {processed} processed, {millis} ms")
}
PROGRAM
cd "$work/crates/agency_bench"
rt run | tee "$work/figures"
awk '/ ms$/ { printf "%d records a second\n", $1 * 1000 / ($6 ? $6 : 1) }' "$work/figures"
