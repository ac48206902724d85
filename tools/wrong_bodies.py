#!/usr/bin/env python3
r"""Tries the wrong bodies that the gate doesn't try, those of crates/NAME/wrong-bodies: the prover must refuse each.

usage: tools/wrong_bodies.py [NAME ..]      of these crates; without names of each crate that has some
       tools/wrong_bodies.py --lacking      of each crate that has no record of its files as they stand
       tools/wrong_bodies.py --recorded     tries nothing, and says which crates these are

A line for each body, and status 1 where one isn't refused or can't be applied; standard error says what is at work. Where all of a crate's
are refused the file crates/NAME/wrong-bodies/refused says so, and else it goes: the day, what `rt version` printed, and a sum over all
that the crate is made of, so that a change of it shows; but for lines that are comments alone, and those that name a body's clause, of which
no proof knows. The sum is SHA-256 of such lines as sha256sum prints, for these files in the order of their names' bytes:

    cd crates/NAME; find src specs proofs must-fail wrong-bodies -type f ! -path wrong-bodies/refused 2>/dev/null | LC_ALL=C sort |
    while read -r it; do
      echo "$(sed -E '/^([ \t]*(\/\/|--)|clause: )/d' "$it" | sha256sum | cut -c 1-64)  $it"
    done | sha256sum

They are tried on a copy of the sources below the user's cache folder, which takes over the libraries that were built here; what is lacking is
proved there. The crate is checked once as it stands, then each of its bodies in its place. The copy goes once all were refused.
"""
from __future__ import annotations

import datetime
import fcntl
import hashlib
import os
import re
import shutil
import subprocess
import sys

from lanes import ROOT, all_below, copy_sources, crates, hand_newer, text_of

PARTS = ("src", "specs", "proofs", "must-fail", "wrong-bodies")
RECORD = os.path.join("wrong-bodies", "refused")
# The names that rt takes, and its words for a body that wasn't refused, can't be applied or read, or wasn't tried.
EDIT = re.compile(r"[A-Za-z0-9_-][A-Za-z0-9_.-]*\.edit")
FAILS = ("NOT REFUSED", "BAD EDIT", "NOT TRIED")
# A line that is a comment alone, or names the clause that a wrong body is refused by.
COMMENT = re.compile(rb"^(?:[ \t]*(?://|--)|clause: ).*\n?", re.M)


def say(text: str) -> None:
    print(text, flush=True)


def at_work(text: str) -> None:
    print(text, file=sys.stderr, flush=True)


def folder_of(crate: str, root: str = ROOT) -> str:
    return os.path.join(root, "crates", crate)


def bodies_of(crate: str) -> list[str]:
    """What stands in the crate's wrong-bodies/, but for the record."""
    folder = os.path.join(folder_of(crate), "wrong-bodies")
    return sorted(it for it in os.listdir(folder) if it != "refused") if os.path.isdir(folder) else []


def sum_of(crate: str) -> str:
    """The sum over all that the crate is made of, as the head of this file defines it."""
    folder, names = folder_of(crate), []
    for part in PARTS:
        for at, _, files in os.walk(os.path.join(folder, part)):
            names += [os.path.relpath(os.path.join(at, file), folder) for file in files]
    whole = hashlib.sha256()
    for name in sorted(map(os.fsencode, names)):
        if name != os.fsencode(RECORD):
            text = COMMENT.sub(b"", text_of(os.path.join(os.fsencode(folder), name)) or b"")
            whole.update(hashlib.sha256(text).hexdigest().encode() + b"  " + name + b"\n")
    return whole.hexdigest()


def fault_of_record(crate: str) -> str | None:
    """Why the crate's record isn't one of its files as they stand, if it isn't."""
    odd = next((it for it in bodies_of(crate) if EDIT.fullmatch(it) is None), None)
    if odd is not None:
        return f"wrong-bodies/{odd} is no wrong body: its name ends in .edit, and has letters, digits, _, - and . alone"
    text = text_of(os.path.join(folder_of(crate), RECORD))
    if text is None:
        return "its wrong bodies have no record"
    if f"over: {sum_of(crate)}".encode() not in text.splitlines():
        return "it was changed since its wrong bodies were tried"
    return None


def recorded(names: list[str]) -> int:
    """Says which records aren't of the files as they stand; 0 where all are."""
    faults = {name: fault_of_record(name) for name in names}
    for name, fault in faults.items():
        if fault is not None:
            say(f"{name}: {fault}; try them: tools/wrong_bodies.py {name}")
    return 1 if any(faults.values()) else 0


def run_rt(words: list[str], place: str) -> tuple[int, str]:
    """Runs rt: its status, and what it said."""
    run = subprocess.run(["rt", *words], cwd=place, stdin=subprocess.DEVNULL, stdout=subprocess.PIPE, stderr=subprocess.STDOUT, errors="replace", check=False)
    return run.returncode, run.stdout


def said_of(body: str, text: str) -> list[str]:
    """What rt said of a body, each time after its name."""
    name = re.compile(rf"(?<![\w.-]){re.escape(body)}(?![\w-]):?\s*")
    return [line[found.end() :] for line in text.splitlines() if (found := name.search(line))]


def verdict(body: str, status: int, text: str, names_some: bool) -> tuple[bool, str]:
    """Whether the body was refused, and what to say. Where rt names no body at all, its status alone decides."""
    told = said_of(body, text)
    fault = next((it for it in told if any(word in it for word in FAILS)), None)
    if fault is not None:
        return False, fault
    refused = next((it for it in told if re.search(r"\brefused\b", it)), None)
    if refused is not None:
        return True, refused
    if status == 0 and not names_some:
        return True, "refused"
    return False, "NOT TRIED: rt says nothing of it"


def judge(crate: str, bodies: list[str], status: int, text: str) -> bool:
    """Says what became of each body. Whether all were refused."""
    names_some = any(said_of(body, text) for body in bodies)
    told = [verdict(body, status, text, names_some) for body in bodies]
    for body, (_, line) in zip(bodies, told):
        say(f"{crate}/{body}: {line[:200]}")
    are_refused = all(is_refused for is_refused, _ in told)
    if status != 0 and are_refused:
        say(f"{crate}: rt must-fail ended with status {status}: {last_of(text)}")
    return status == 0 and are_refused


def last_of(text: str) -> str:
    return (text.strip().splitlines() or ["(nothing said)"])[-1][:200]


def write_record(crate: str, whole: str) -> None:
    """Writes that all of the crate's wrong bodies were refused over the files of this sum."""
    day = datetime.datetime.now(datetime.timezone.utc).date()
    _, kit = run_rt(["version"], ROOT)
    with open(os.path.join(folder_of(crate), RECORD), "w", encoding="utf-8") as it:
        it.write(f"day: {day}\nby: {kit.strip()}\nover: {whole}\n")


def try_crate(crate: str, below: dict[str, list[str]], tree: str) -> bool:
    """Tries a crate's wrong bodies in the copy, and writes the record where all were refused. Whether they were."""
    whole, bodies = sum_of(crate), bodies_of(crate)
    record = os.path.join(folder_of(crate), RECORD)
    if os.path.exists(record):
        os.remove(record)
    copy_sources(tree)
    for lower in all_below(below, crate):
        hand_newer(ROOT, tree, lower)
    at_work(f"{crate}: checking it as it stands")
    status, text = run_rt(["check"], folder_of(crate, tree))
    if status != 0:
        say(f"{crate}: rt check ended with status {status} on it as it stands, so none was tried: {last_of(text)}")
        return False
    place = os.path.join(folder_of(crate, tree), "must-fail")
    os.makedirs(place, exist_ok=True)
    for body in bodies:
        shutil.copyfile(os.path.join(folder_of(crate), "wrong-bodies", body), os.path.join(place, body))
    at_work(f"{crate}: trying its wrong bodies, {len(bodies)}")
    if not judge(crate, bodies, *run_rt(["must-fail", crate], tree)):
        return False
    if whole != sum_of(crate):
        say(f"{crate}: it was changed meanwhile, so there is no record of this")
        return False
    write_record(crate, whole)
    return True


def copy_place() -> str:
    """Where the copy stands."""
    cache = os.environ.get("XDG_CACHE_HOME") or os.path.join(os.path.expanduser("~"), ".cache")
    return os.path.join(cache, "verifactu-wrong-bodies", hashlib.sha256(ROOT.encode()).hexdigest()[:12])


def try_all(names: list[str], below: dict[str, list[str]]) -> int:
    """Tries the wrong bodies of these crates, one after another."""
    tree = copy_place()
    os.makedirs(tree, exist_ok=True)
    held = os.open(tree, os.O_RDONLY)
    try:
        fcntl.flock(held, fcntl.LOCK_EX | fcntl.LOCK_NB)
    except BlockingIOError:
        say("another run tries wrong bodies of this tree")
        return 1
    failed = [name for name in names if not try_crate(name, below, tree)]
    count = sum(len(bodies_of(name)) for name in names)
    if failed:
        say(f"wrong bodies of {len(names)} crates, {count} in all; not all refused: {' '.join(failed)}")
        return 1
    shutil.rmtree(tree, ignore_errors=True)
    say(f"wrong bodies of {len(names)} crates, {count} in all: each was refused")
    return 0


def main() -> int:
    below, words = crates(), sys.argv[1:]
    folders = sorted(os.listdir(os.path.join(ROOT, "crates")))
    having = [name for name in folders if os.path.isdir(os.path.join(folder_of(name), "wrong-bodies"))]
    odd = next((it for it in having if it not in below), None)
    if odd is not None:
        say(f"{odd} has wrong bodies, and isn't in crates.txt")
        return 1
    if words == ["--recorded"]:
        return recorded(having)
    if words == ["--lacking"]:
        words = [name for name in having if fault_of_record(name) is not None]
        if not words:
            say("each crate has a record of its files as they stand")
            return 0
    unknown = next((it for it in words if it not in having), None)
    if unknown is not None:
        say(f"{unknown} is no crate that has wrong bodies in crates/{unknown}/wrong-bodies; usage: tools/wrong_bodies.py [NAME .. or --lacking or --recorded]")
        return 2
    if shutil.which("rt") is None:
        say("the toolchain's command rt isn't on PATH")
        return 70
    rank = {name: len(all_below(below, name)) for name in having}
    try:
        return try_all(sorted(set(words) or having, key=lambda it: (rank[it], it)), below)
    except KeyboardInterrupt:
        say("stopped; what was tried to its end is recorded")
        return 130


if __name__ == "__main__":
    sys.exit(main())
