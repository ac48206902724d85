#!/usr/bin/env python3
"""Holds each line of crates.txt against the crates of this repository that the sources name: the line lists those that its crate's src,
specs or proofs name, and no others. rt finds what stands below those by itself.

usage: tools/crate_lists.py      a line for each difference; status 1 where there is one
"""
from __future__ import annotations

import os
import re
import sys
from collections.abc import Iterator

ROOT = os.path.dirname(os.path.dirname(os.path.abspath(__file__)))
PARTS = ("src", "specs", "proofs")
# What begins a comment, and what names a crate: `NAME::` in code, `Rattle.NAME.` in definitions and proofs. A module of the crate's own
# has no crate's name where the crate uses that one, so `mod NAME` says that NAME is none.
COMMENT = {".rt": re.compile(r"//.*"), ".antt": re.compile(r"(?:^|(?<=[ (]))--.*", re.M)}
NAMED = re.compile(r"\bRattle\.(\w+)|(?<!::)\b(\w+)::")
MODULE = re.compile(r"\bmod (\w+)")


def crates(root: str) -> dict[str, list[str]]:
    """Each crate of crates.txt with those of the repository's own that its line lists. The toolchain's libraries are left out."""
    lines: dict[str, list[str]] = {}
    with open(os.path.join(root, "crates.txt"), encoding="utf-8") as text:
        for line in text:
            head, colon, listed = line.split("#")[0].partition(":")
            if colon:
                lines[head.split()[0]] = listed.split()
    return {name: [it for it in listed if it in lines] for name, listed in lines.items()}


def sources(root: str, crate: str) -> Iterator[str]:
    """The paths of the crate's own sources below `root`."""
    for part in PARTS:
        for at, _, files in os.walk(os.path.join(root, "crates", crate, part)):
            yield from (os.path.join(at, file) for file in sorted(files))


def named(root: str, crate: str) -> set[str]:
    """Every word of the crate's sources that may name a crate."""
    words: set[str] = set()
    modules: set[str] = set()
    for path in sources(root, crate):
        kind = os.path.splitext(path)[1]
        if kind in COMMENT:
            with open(path, encoding="utf-8") as file:
                text = COMMENT[kind].sub("", file.read())
            words.update(*NAMED.findall(text))
            modules.update(MODULE.findall(text) if kind == ".rt" else ())
    return words - modules


def differences(root: str) -> list[str]:
    """A line for each crate whose list isn't that of the crates which it names."""
    lists = crates(root)
    found = []
    for crate, listed in lists.items():
        wanted = {it for it in named(root, crate) if it in lists and it != crate}
        lacking, beyond = sorted(wanted - set(listed)), sorted(set(listed) - wanted)
        if lacking:
            found.append(f"crates.txt: {crate} names {' '.join(lacking)}, which its line doesn't list")
        if beyond:
            found.append(f"crates.txt: {crate} lists {' '.join(beyond)}, which it doesn't name")
        if len(set(listed)) < len(listed):
            found.append(f"crates.txt: {crate} lists a crate twice")
    return found


def main() -> int:
    found = differences(ROOT)
    for line in found:
        print(line)
    return 1 if found else 0


if __name__ == "__main__":
    sys.exit(main())
