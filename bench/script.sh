#!/bin/sh
# How long reading a script takes: 100,000 sales, as many that name one of 10,000 customers, and 16 MB of empty lines. Run it
# by hand, at the top of the repository: bench/script.sh. It needs rt, and proves the small program that it writes.
set -eu
top=$(cd "$(dirname "$0")/.." && pwd)
work=$(mktemp -d)
trap 'rm -rf "$work"' EXIT
mkdir -p "$work/crates/script_bench/src"
names=$("$top/bench/copy.sh" "$work" script)
echo "script_bench: $names" >>"$work/crates.txt"
cat >"$work/crates/script_bench/src/main.rt" <<'PROGRAM'
#![tactic(auto)]

use script::{Form, read_script};
use std::alloc::{AllocError, Global};
use std::io;
use std::rt::Clock;
use std::time::Instant;

fn customers(alloc: Global) -> Result<String, AllocError> {
    let mut text = String::new(alloc);
    for i in 0..10_000 {
        text.push_str(format!(in alloc; "customer k{i} 89890001K Bar Sol\n")?.as_str())?;
    }
    Ok(text)
}

fn sales(alloc: Global) -> Result<String, AllocError> {
    let mut text = String::new(alloc);
    for i in 0..100_000 {
        text.push_str(format!(in alloc; "sale 1 1{i} A F2 21:100\n")?.as_str())?;
    }
    Ok(text)
}

fn sales_to(alloc: Global) -> Result<String, AllocError> {
    let mut text = customers(alloc)?;
    for i in 0..100_000 {
        let key = i % 10_000;
        text.push_str(format!(in alloc; "sale 1 1{i} A F1 to=k{key} 21:100 10:200\n")?.as_str())?;
    }
    Ok(text)
}

fn empty_lines(alloc: Global) -> Result<String, AllocError> {
    let mut text = String::new(alloc);
    for _ in 0..16_777_216 {
        text.push_str("\n")?;
    }
    Ok(text)
}

fn asks_of(alloc: Global, bytes: &[u8]) -> usize {
    if bytes.len() > 16_777_216 {
        return 0;
    }
    match read_script(alloc, bytes, Form::Full) {
        Ok(script) => script.asks.as_slice().len(),
        Err(_) => 0,
    }
}

fn timed<R: Clock>(rt: &R, alloc: Global, text: &str) -> io::Result<(u128, usize)> {
    let start = Instant::now(rt)?;
    let asks = asks_of(alloc, text.as_bytes());
    let took = start.elapsed(rt)?;
    Ok((took.as_millis(), asks))
}

fn main(rt: HostRuntime) -> io::Result<()> {
    let text = sales(rt.alloc())?;
    let (millis, asks) = timed(&rt, rt.alloc(), text.as_str())?;
    println!(rt; "100,000 sales: {millis} ms, {asks} asks")?;
    let text = sales_to(rt.alloc())?;
    let (millis, asks) = timed(&rt, rt.alloc(), text.as_str())?;
    println!(rt; "100,000 sales to 10,000 customers: {millis} ms, {asks} asks")?;
    let text = empty_lines(rt.alloc())?;
    let (millis, asks) = timed(&rt, rt.alloc(), text.as_str())?;
    println!(rt; "16 MB of empty lines: {millis} ms, {asks} asks")
}
PROGRAM
cd "$work/crates/script_bench"
rt run
