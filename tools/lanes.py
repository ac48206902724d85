"""What tools/build.py and tools/wrong_bodies.py share: the crates of crates.txt, copies of the sources, and libraries that one tree hands another."""
from __future__ import annotations

import os
import shutil

ROOT = os.path.dirname(os.path.dirname(os.path.abspath(__file__)))


def crates(root: str = ROOT) -> dict[str, list[str]]:
    """Each crate of crates.txt with those of its own that it names."""
    lines = {}
    with open(os.path.join(root, "crates.txt"), encoding="utf-8") as text:
        for line in text:
            line = line.split("#")[0]
            if ":" in line:
                head, below = line.split(":", 1)
                lines[head.split()[0]] = below.split()
    return {name: [b for b in below if b in lines] for name, below in lines.items()}


def all_below(below: dict[str, list[str]], goal: str) -> list[str]:
    """The crates that the goal stands on, lowest first, without itself."""
    order: list[str] = []
    seen: set[str] = set()

    def visit(name: str) -> None:
        if name not in seen:
            seen.add(name)
            for lower in below[name]:
                visit(lower)
            order.append(name)

    visit(goal)
    return order[:-1]


def text_of(path: str | bytes) -> bytes | None:
    """What the file holds, or None where it can't be read."""
    try:
        with open(path, "rb") as it:
            return it.read()
    except OSError:
        return None


def same(one: str, other: str) -> bool:
    """Whether both files are there and hold the same."""
    text = text_of(one)
    return text is not None and text == text_of(other)


def copy_sources(to: str, root: str = ROOT) -> str:
    """Makes the sources below `to` those of `root`; what stands there already, and what rt kept beside it, stays as it is."""
    wanted = {"crates.txt", "HANDLES"}
    for name in crates(root):
        for part in ("src", "specs", "proofs"):
            for at, _, files in os.walk(os.path.join(root, "crates", name, part)):
                wanted |= {os.path.relpath(os.path.join(at, file), root) for file in files}
    for at, folders, files in os.walk(to):
        folders[:] = [f for f in folders if f != "out"]
        for file in files:
            if os.path.relpath(os.path.join(at, file), to) not in wanted:
                os.remove(os.path.join(at, file))
    for path in sorted(wanted):
        if not same(os.path.join(root, path), os.path.join(to, path)):
            os.makedirs(os.path.dirname(os.path.join(to, path)), exist_ok=True)
            shutil.copyfile(os.path.join(root, path), os.path.join(to, path))
    return to


def link_or_copy(one: str, other: str) -> None:
    """Gives a file a second name; rt removes a library's files before it makes it anew, and never writes into one."""
    try:
        os.link(one, other)
    except OSError:
        shutil.copy2(one, other)


def built_at(tree: str, crate: str) -> float:
    """When the crate's library in this tree was built; 0 where none is there."""
    try:
        return os.stat(os.path.join(tree, "crates", crate, "out", "rlib", "stamp")).st_mtime
    except OSError:
        return 0.0


def hand_library(from_tree: str, to_tree: str, crate: str) -> bool:
    """Hands the library of a crate that was proved in one tree to another: rt takes it there by its stamp, where the sources are the same.

    False where the first has none, or none that is whole. What the other has is replaced where it isn't the same library. No rt may work
    on this crate in either tree meanwhile.
    """
    here, there = (os.path.join(tree, "crates", crate, "out", "rlib") for tree in (from_tree, to_tree))
    if text_of(os.path.join(here, "stamp")) is None:
        return False
    names = ("stamp", os.path.join(crate + ".rlib", "format"))
    if all(same(os.path.join(here, name), os.path.join(there, name)) for name in names):
        return True
    room = f"{there}.{os.getpid()}"
    shutil.rmtree(room, ignore_errors=True)
    shutil.copytree(here, room, symlinks=True, copy_function=link_or_copy)
    shutil.rmtree(there, ignore_errors=True)
    os.rename(room, there)
    return True


def hand_newer(from_tree: str, to_tree: str, crate: str) -> None:
    """Hands the library where the other tree's isn't younger."""
    if built_at(from_tree, crate) >= built_at(to_tree, crate):
        hand_library(from_tree, to_tree, crate)
