#!/usr/bin/env python3
"""Builds the program: proves its crates, those that don't stand on each other at the same time, and then links it.

usage: tools/build.py [LANES]

LANES is how many crates are proved at a time; without it, as many as there are processors and as there are three gigabytes of free
memory for, four at most. A line on standard error for each crate that is proved; what rt says of them is in out/build.log. A
build that was cut off goes on where it was.

rt works in the folders of a crate and of all below it alone, so each lane but the first proves in a copy of the sources below the
user's cache folder. A library that one lane proved is handed to every other tree at once, so that each crate is proved once. The copies
go once the program is built.
"""
from __future__ import annotations

import hashlib
import os
import re
import shutil
import subprocess
import sys
import threading
import time
from collections.abc import Mapping

from lanes import ROOT, all_below, built_at, copy_sources, crates, hand_library

GOAL = "program"
LOG = os.path.join(ROOT, "out", "build.log")
# A crate's row in the table of proofs: its name and the processor seconds of its proof.
FIGURE = re.compile(r"^\| `(\w+)` \| (\d+) \|", re.M)


def seconds(names: list[str]) -> dict[str, int]:
    """What each crate's proof was seen to take, by bench/gate.txt; one that isn't there is taken as 20 seconds. The order alone rests on it."""
    try:
        with open(os.path.join(ROOT, "bench", "gate.txt"), encoding="utf-8") as text:
            seen = {name: int(figure) for name, figure in FIGURE.findall(text.read())}
    except OSError:
        seen = {}
    return {name: seen.get(name, 20) for name in names}


def ways(order: list[str], below: dict[str, list[str]], cost: Mapping[str, float]) -> dict[str, float]:
    """What the longest chain of proofs costs that begins with each crate and ends at the top. `order` has the lowest first."""
    above: dict[str, float] = {}
    for name in reversed(order):
        above[name] = cost[name] + max((above[it] for it in above if name in below[it]), default=0.0)
    return above


def longest(order: list[str], below: dict[str, list[str]], cost: Mapping[str, float]) -> list[str]:
    """The longest chain of proofs, lowest first."""
    above = ways(order, below, cost)
    chain: list[str] = []
    left = set(order)
    while left:
        chain.append(max(left, key=lambda it: above[it]))
        left = {it for it in order if chain[-1] in below[it]}
    return chain


def run_rt(words: list[str], place: str) -> tuple[int, bytes, float]:
    """Runs rt in a crate's folder: its status, what it said, and the processor seconds that it and all below it took."""
    run = subprocess.Popen(["rt", *words], cwd=place, stdin=subprocess.DEVNULL, stdout=subprocess.PIPE, stderr=subprocess.STDOUT)
    assert run.stdout is not None
    text = run.stdout.read()
    _, status, used = os.wait4(run.pid, 0)
    run.returncode = os.waitstatus_to_exitcode(status)
    return run.returncode, text, used.ru_utime + used.ru_stime


def note(text: bytes) -> None:
    with open(LOG, "ab") as log:
        log.write(text)


def lanes(words: list[str]) -> int:
    """How many crates are proved at a time."""
    if words:
        return max(1, int(words[0]))
    free = 3.0
    try:
        with open("/proc/meminfo", encoding="ascii") as text:
            free = next(int(line.split()[1]) for line in text if line.startswith("MemAvailable")) / 1e6
    except (OSError, StopIteration):
        pass
    return max(1, min(4, os.cpu_count() or 1, int(free / 3)))


def copies() -> str:
    """Where the lanes' copies of this tree stand."""
    cache = os.environ.get("XDG_CACHE_HOME") or os.path.join(os.path.expanduser("~"), ".cache")
    return os.path.join(cache, "verifactu-build", hashlib.sha256(ROOT.encode()).hexdigest()[:12])


def share_earlier(trees: list[str], order: list[str]) -> None:
    """Hands the newest library of each crate, which an earlier build left, to all trees. rt takes those alone that fit the sources."""
    for name in order:
        newest = max(trees, key=lambda tree: built_at(tree, name))
        hand_on(newest, trees, name)


def hand_on(source: str, trees: list[str], crate: str) -> int:
    """Hands the crate's library to the other trees, and says to how many."""
    return sum(hand_library(source, tree, crate) for tree in trees if tree != source)


def say(text: str) -> None:
    print("verifactu: " + text, file=sys.stderr, flush=True)


def clock(since: float) -> str:
    passed = int(time.monotonic() - since)
    return f"{passed // 60} min {passed % 60:02d} s"


class Build:
    """The crates that are proved, at work and failed, and the trees that the lanes work in."""

    def __init__(self, trees: list[str], order: list[str], below: dict[str, list[str]]) -> None:
        self.trees, self.order, self.below = trees, order, below
        self.above = ways(order, below, seconds(order))
        self.cost: dict[str, float] = {}
        self.done: set[str] = set()
        self.busy: set[str] = set()
        self.failed: list[str] = []
        self.turn = threading.Condition()
        self.begun = time.monotonic()

    def next_crate(self) -> str | None:
        """One whose lower crates are proved, with the longest way above it; none where all are taken or one failed."""
        with self.turn:
            while not self.failed:
                left = [it for it in self.order if it not in self.done and it not in self.busy]
                ready = [it for it in left if self.done.issuperset(self.below[it])]
                if ready:
                    name = max(ready, key=lambda it: self.above[it])
                    self.busy.add(name)
                    return name
                if not left:
                    return None
                self.turn.wait()
            return None

    def ended(self, name: str, status: int, head: str, text: bytes) -> None:
        """Notes how a crate's proof ended."""
        with self.turn:
            self.busy.remove(name)
            note(f"== {head}\n".encode() + text)
            if status == 0:
                self.done.add(name)
                say(f"proved {name}, {len(self.done)} of {len(self.order)}, {clock(self.begun)}")
            else:
                self.failed.append(name)
                say(f"{name} wasn't proved (rt's status {status}), {clock(self.begun)}; no other crate is begun")
            self.turn.notify_all()

    def prove(self, lane: int, name: str) -> None:
        """Proves one crate in the lane's tree, and hands its library to the others."""
        tree, at, begun = self.trees[lane], clock(self.begun), time.monotonic()
        status, text, self.cost[name] = run_rt(["lib"], os.path.join(tree, "crates", name))
        took = time.monotonic() - begun
        handed = hand_on(tree, self.trees, name) if status == 0 else 0
        head = f"{name}: lane {lane + 1}, begun at {at}, took {took:.1f} s, processor {self.cost[name]:.1f} s, handed to {handed} trees"
        self.ended(name, status, head, text)

    def work(self, lane: int) -> None:
        """What a lane does: it proves crate after crate."""
        while (name := self.next_crate()) is not None:
            try:
                self.prove(lane, name)
            except OSError as fault:
                self.ended(name, 1, f"{name}: lane {lane + 1}", f"{fault}\n".encode())


def prove_all(build: Build) -> bool:
    """Proves all crates but the program, a thread a lane. Whether they all passed."""
    workers = [threading.Thread(target=build.work, args=(lane,), daemon=True) for lane in range(len(build.trees))]
    for worker in workers:
        worker.start()
    for worker in workers:
        worker.join()
    return not build.failed


def link(build: Build) -> bool:
    """Proves and links the program. Its file is newer than its sources then, also where nothing had changed."""
    place = os.path.join(ROOT, "crates", GOAL)
    status, text, build.cost[GOAL] = run_rt(["run", "--", "--version"], place)
    note(f"== {GOAL}: processor {build.cost[GOAL]:.1f} s\n".encode() + text)
    if status == 0:
        os.utime(os.path.join(place, "out", GOAL))
    return status == 0


def sum_up(build: Build) -> None:
    """Notes what the build took, and its longest chain of proofs."""
    order = [*build.order, GOAL]
    chain = longest(order, build.below, build.cost)
    took = sum(build.cost[it] for it in chain)
    whole = sum(build.cost.values())
    note(f"== all: {clock(build.begun)}, processor {whole:.0f} s; the longest chain of crates {took:.0f} s: {' '.join(chain)}\n".encode())


def build_program(count: int) -> bool:
    """Proves everything in so many lanes, and links the program."""
    below = crates()
    order = all_below(below, GOAL)
    os.makedirs(os.path.dirname(LOG), exist_ok=True)
    open(LOG, "wb").close()
    say(f"proving {len(order)} crates, {count} at a time; what rt says of them is in {os.path.relpath(LOG)}")
    trees = [ROOT] + [copy_sources(os.path.join(copies(), f"lane-{number}")) for number in range(1, count)]
    share_earlier(trees, order)
    build = Build(trees, order, below)
    if not prove_all(build):
        say(f"not built; see {os.path.relpath(LOG)}")
        return False
    say("proving and linking the program")
    if not link(build):
        say(f"the program wasn't built; see {os.path.relpath(LOG)}")
        return False
    sum_up(build)
    shutil.rmtree(copies(), ignore_errors=True)
    shutil.rmtree(os.path.join(ROOT, "out", "trial"), ignore_errors=True)
    say(f"built, {clock(build.begun)}")
    return True


def main() -> int:
    words = sys.argv[1:]
    if len(words) > 1 or any(re.fullmatch("[1-9][0-9]?", word) is None for word in words):
        say("usage: tools/build.py [LANES], LANES from 1 to 99")
        return 2
    if shutil.which("rt") is None:
        say("the toolchain's command rt isn't on PATH")
        return 70
    try:
        return 0 if build_program(lanes(words)) else 1
    except KeyboardInterrupt:
        say("stopped; the next build goes on from here")
        return 130


if __name__ == "__main__":
    sys.exit(main())
