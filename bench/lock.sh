#!/bin/sh
# Turns a second of chain_lock by 1, 2 and 4 threads, beside the same loop over std's Mutex, and glances a second while
# another thread turns. Run it by hand, at the top of the repository: bench/lock.sh [TURNS]. It needs rt, proves the small
# program that it writes, and takes a minute or two.
set -eu
top=$(cd "$(dirname "$0")/.." && pwd)
turns=${1:-2000000}
work=$(mktemp -d)
trap 'rm -rf "$work"' EXIT
mkdir -p "$work/crates/lock_bench/src" "$work/crates/chain_lock"
cp "$top/HANDLES" "$work/HANDLES"
for part in src specs proofs; do cp -r "$top/crates/chain_lock/$part" "$work/crates/chain_lock/$part"; done
printf 'chain_lock: atomic_table\nlock_bench: chain_lock\n' >"$work/crates.txt"
cat >"$work/crates/lock_bench/src/main.rt" <<'RT'
#![tactic(auto)]
ghost use Rattle.std.specs.Prelude.{◌≡◌};
ghost use Rattle.chain_lock.specs.Words.{lock_id, pass_lock, passes_lock};

use chain_lock::{Act, ChainLock, Pass, Passes, Recorded};
use std::alloc::Global;
use std::io;
use std::rt::Clock;
use std::sync::{Mutex, Wait};
use std::thread::{Threads, join};
use std::time::Instant;

const TURNS: u64 = @TURNS@;
// The glancing thread starts first and ends last, or nearly so.
const GLANCES: u64 = TURNS * 10;
// The best of these runs is printed.
const RUNS: u32 = 5;

#[derive(Drop)]
struct Ledger {
    items: Vec<u64>,
}

impl Ledger {
    fn new(alloc: Global) -> Option<Ledger> {
        let size = usize::try_from(TURNS).ok()?.checked_mul(4)?;
        let items = Vec::with_capacity(alloc, size).ok()?;
        Some(Ledger { items })
    }
}

impl Recorded for Ledger {
    type Item = u64;

    type Root = ();

    ghost items = { λ l. l.items.items };

    ghost root = { λ _. tt };

    fn recorded(&self) -> u64 {
        self.items.len() as u64
    }
}

#[derive(Drop)]
struct Add {
    item: u64,
}

impl Act<Ledger> for Add {
    type Told = ();

    ghost relates = { λ before root list after items told. Unit {0} };

    fn act(&mut self, value: &mut Ledger) {
        if value.items.len() < value.items.capacity() {
            value.items.push_reserved(self.item);
        }
    }
}

fn turn_all<R: Wait>(rt: &R, lock: &ChainLock<Ledger>, mut pass: Pass<Ledger>)
    requires { pass_lock pass ≡ lock_id lock.now }
{
    for item in 0..TURNS {
        lock.turn(rt, &mut pass, &mut Add { item });
    }
}

fn glance_all(lock: &ChainLock<Ledger>, mut pass: Pass<Ledger>) -> u64
    requires { pass_lock pass ≡ lock_id lock.now }
{
    let mut sum = 0u64;
    for _ in 0..GLANCES {
        sum = sum.wrapping_add(lock.glance(&mut pass));
    }
    sum
}

fn lock_all<R: Wait>(rt: &R, lock: &Mutex<Ledger>) {
    for item in 0..TURNS {
        let mut guard = lock.lock(rt);
        Add { item }.act(&mut guard);
    }
}

fn both<R: Threads + Wait + Sync>(
    rt: &R,
    lock: &ChainLock<Ledger>,
    a: Pass<Ledger>,
    b: Pass<Ledger>,
)
    requires { (pass_lock a ≡ lock_id lock.now) × (pass_lock b ≡ lock_id lock.now) }
{
    join(rt, || turn_all(rt, lock, a), || turn_all(rt, lock, b));
}

fn passes_by<R: Threads + Wait + Sync>(
    rt: &R,
    lock: &ChainLock<Ledger>,
    mut passes: Passes<Ledger>,
    threads: u64,
) -> Option<()>
    requires { passes_lock passes ≡ lock_id lock.now }
{
    let a = passes.pull()?;
    let b = passes.pull()?;
    let c = passes.pull()?;
    let d = passes.pull()?;
    match threads {
        1 => turn_all(rt, lock, a),
        2 => both(rt, lock, a, b),
        _ => {
            join(
                rt,
                || -> ()
                    requires { (pass_lock a ≡ lock_id lock.now) × (pass_lock b ≡ lock_id lock.now) }
                { both(rt, lock, a, b) },
                || -> ()
                    requires { (pass_lock c ≡ lock_id lock.now) × (pass_lock d ≡ lock_id lock.now) }
                { both(rt, lock, c, d) },
            );
        }
    }
    Some(())
}

fn mutex_by<R: Threads + Wait + Sync>(rt: &R, lock: &Mutex<Ledger>, threads: u64) {
    match threads {
        1 => lock_all(rt, lock),
        2 => {
            join(rt, || lock_all(rt, lock), || lock_all(rt, lock));
        }
        _ => {
            join(
                rt,
                || join(rt, || lock_all(rt, lock), || lock_all(rt, lock)),
                || join(rt, || lock_all(rt, lock), || lock_all(rt, lock)),
            );
        }
    }
}

fn a_second(count: u64, micros: u128) -> u128 {
    u128::from(count).saturating_mul(1_000_000) / micros.max(1)
}

fn passes_rate<R: Threads + Wait + Clock + Sync>(
    rt: &R,
    alloc: Global,
    threads: u64,
) -> Option<u128> {
    let ledger = Ledger::new(alloc)?;
    let Ok((lock, passes)) = ChainLock::new(alloc, ledger, 4) else {
        return None;
    };
    let start = Instant::now(rt).ok()?;
    passes_by(rt, &lock, passes, threads)?;
    let time = start.elapsed(rt).ok()?;
    Some(a_second(TURNS.saturating_mul(threads), time.as_micros()))
}

fn mutex_rate<R: Threads + Wait + Clock + Sync>(
    rt: &R,
    alloc: Global,
    threads: u64,
) -> Option<u128> {
    let lock = Mutex::new(Ledger::new(alloc)?);
    let start = Instant::now(rt).ok()?;
    mutex_by(rt, &lock, threads);
    let time = start.elapsed(rt).ok()?;
    Some(a_second(TURNS.saturating_mul(threads), time.as_micros()))
}

fn glance_time<R: Clock>(rt: &R, lock: &ChainLock<Ledger>, pass: Pass<Ledger>) -> Option<u128>
    requires { pass_lock pass ≡ lock_id lock.now }
{
    let start = Instant::now(rt).ok()?;
    glance_all(lock, pass);
    Some(start.elapsed(rt).ok()?.as_micros())
}

fn glance_rate<R: Threads + Wait + Clock + Sync>(rt: &R, alloc: Global) -> Option<u128> {
    let ledger = Ledger::new(alloc)?;
    let Ok((lock, mut passes)) = ChainLock::new(alloc, ledger, 2) else {
        return None;
    };
    let turns = passes.pull()?;
    let glances = passes.pull()?;
    let (_, time) = join(
        rt,
        || turn_all(rt, &lock, turns),
        || glance_time(rt, &lock, glances),
    );
    Some(a_second(GLANCES, time?))
}

fn main(rt: HostRuntime) -> io::Result<()> {
    for threads in [1u64, 2, 4] {
        let mut ours = 0;
        let mut theirs = 0;
        for _ in 0..RUNS {
            ours = passes_rate(&rt, rt.alloc(), threads).unwrap_or(0).max(ours);
            theirs = mutex_rate(&rt, rt.alloc(), threads).unwrap_or(0).max(theirs);
        }
        println!(rt; "{threads} threads: {ours} turns a second, {theirs} with a Mutex")?;
    }
    let mut glances = 0;
    for _ in 0..RUNS {
        glances = glance_rate(&rt, rt.alloc()).unwrap_or(0).max(glances);
    }
    println!(rt; "{glances} glances a second beside a thread that turns")
}
RT
for loop in 'turn_all loop-item g ' 'glance_all loop '; do
    set -- $loop
    mkdir -p "$work/crates/lock_bench/proofs/$1"
    cat >"$work/crates/lock_bench/proofs/$1/Invariants.antt" <<ANTT
use Rattle.std.proofs.Common.{◌≡◌}
use Rattle.chain_lock.specs.Words.{lock_id, pass_lock}
use Rattle.lock_bench.proofs.$1.Given as goal

abbrev pub invariant-$2 : goal.invariant-$2
invariant-$2 ${3:-} l = pass_lock l.pass ≡ lock_id l.lock
ANTT
done
sed -i "s/@TURNS@/$turns/" "$work/crates/lock_bench/src/main.rt"
cd "$work/crates/lock_bench"
rt run >"$work/log" 2>"$work/err" || { cat "$work/log" "$work/err" >&2; exit 1; }
cat "$work/log"
