#!/bin/sh
# How many bodies of 200 bytes a journal appends a second on a real file, beside a bare loop of the same two writes and two
# fdatasyncs in C, on the same disk in the same run. The two take turns, since a disk's speed changes from second to second.
# Run by hand: bench/appends.sh [FOLDER ON THE DISK] [APPENDS A TURN] [TURNS OF EACH]
# It wants rt and a C compiler (CC), and leaves nothing behind.
set -eu

here=$(cd "$(dirname "$0")/.." && pwd)
folder=$(mktemp -d "${1:-/var/tmp}/appends.XXXXXX")
count=${2:-200}
turns=${3:-30}
trap 'rm -rf "$folder"' EXIT

mkdir -p "$folder/crates/appends/src" "$folder/crates/appends/proofs/append_all"
names=$("$here/bench/copy.sh" "$folder" journal)
echo "appends: $names anyhow" >> "$folder/crates.txt"

cat > "$folder/crates/appends/src/main.rt" <<RT
//! Appends bodies of 200 bytes to a journal on a real file, and prints the microseconds that it took.
#![tactic(auto)]

ghost use Rattle.std.specs.Prelude.{◌≡◌};
ghost use Rattle.journal.specs.Journal.{end_of};

use anyhow::{Result, bail};
use chain_disk::{Disk, FileDisk};
use journal::{Journal, JournalFault};
use parties::Nif;
use record_fields::Version;
use std::time::Instant;

const COUNT: u32 = $count;

fn append_all<D: Disk>(journal: &mut Journal<D>) -> std::result::Result<(), JournalFault>
    requires { end_of journal.old ≡ 19 }
{
    let body = [7; 200];
    for i in 0..COUNT {
        let _ = i;
        journal.append(&body)?;
    }
    Ok(())
}

fn main(rt: HostRuntime) -> Result<()> {
    let Ok(issuer) = Nif::read("B12345674") else {
        bail!("no NIF");
    };
    let path = String::from_str(rt.alloc(), "$folder/journal")?;
    let Ok(mut journal) = Journal::create(FileDisk::at(&rt, path), &issuer, Version::Two) else {
        bail!("not created");
    };
    let start = Instant::now(&rt)?;
    if append_all(&mut journal).is_err() {
        bail!("not appended");
    }
    let elapsed = start.elapsed(&rt)?;
    let micros = elapsed.as_secs().saturating_mul(1_000_000).saturating_add(elapsed.subsec_micros() as u64);
    println!(rt; "{micros}")?;
    Ok(())
}
RT
cat > "$folder/crates/appends/proofs/append_all/Invariants.antt" <<'ANTT'
use Rattle.std.proofs.Common.{◌≤◌, ◌+◌, ◌*◌}
use Rattle.journal.specs.Journal.{end_of}
use Rattle.appends.proofs.append_all.Given as goal

abbrev pub invariant-loop-i : goal.invariant-loop-i
invariant-loop-i g l = end_of l.journal ≤ 19 + 205 * l.i
ANTT

cat > "$folder/bare.c" <<'C'
#include <fcntl.h>
#include <stdio.h>
#include <stdlib.h>
#include <time.h>
#include <unistd.h>

int main(int words, char **word) {
    int count = atoi(word[2]), fd = open(word[1], O_RDWR | O_CREAT | O_TRUNC, 0666);
    unsigned char frame[205] = {0, 0, 0, 200}, open_gate = 1;
    off_t gate = 19;
    struct timespec from, to;
    if (fd < 0 || pwrite(fd, frame, 20, 0) != 20 || fdatasync(fd)) return 1;
    clock_gettime(CLOCK_MONOTONIC, &from);
    for (int i = 0; i < count; i++) {
        if (pwrite(fd, frame, 205, gate + 1) != 205 || fdatasync(fd)) return 1;
        if (pwrite(fd, &open_gate, 1, gate) != 1 || fdatasync(fd)) return 1;
        gate += 205;
    }
    clock_gettime(CLOCK_MONOTONIC, &to);
    printf("%lld\n", (to.tv_sec - from.tv_sec) * 1000000LL + (to.tv_nsec - from.tv_nsec) / 1000);
    return words != 3;
}
C
${CC:-cc} -O2 -o "$folder/bare" "$folder/bare.c"
(cd "$folder/crates/appends" && rt run > "$folder/build.log" 2>&1) || { tail -30 "$folder/build.log"; exit 1; }
program=$(find "$folder/crates/appends/out" -type f -perm -u+x ! -name '*.so' | head -1)

turn=1
while [ "$turn" -le "$turns" ]; do
    rm -f "$folder/journal" "$folder/file"
    if [ $((turn % 2)) = 0 ]; then
        bare=$("$folder/bare" "$folder/file" "$count")
        echo "$("$program") $bare"
    else
        journal=$("$program")
        echo "$journal $("$folder/bare" "$folder/file" "$count")"
    fi
    turn=$((turn + 1))
done > "$folder/micros"

awk -v count="$count" '
    { journal += $1; bare += $2; ratio[NR] = $2 / $1 }
    END {
        for (i = 1; i <= NR; i++) for (j = i + 1; j <= NR; j++) if (ratio[j] < ratio[i]) { t = ratio[i]; ratio[i] = ratio[j]; ratio[j] = t }
        printf "journal %.0f appends a second, bare loop %.0f\n", NR * count * 1e6 / journal, NR * count * 1e6 / bare
        printf "ratio of all %.2f, median of the turns %.2f\n", bare / journal, ratio[int((NR + 1) / 2)]
    }' "$folder/micros"
