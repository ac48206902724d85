"""The file of shops: which shops a hub of many serves, with the issuer, the file and the adapter of each."""
from __future__ import annotations

import re
import sys
from typing import Dict, List, NamedTuple, Optional, Tuple

from hub_limits import LONGEST_SHOP

SHOP = re.compile(r"[a-z0-9-]{1,%d}" % LONGEST_SHOP)


class ShopsFault(Exception):
    """The file can't be used; the text says why, with the line."""


class ShopLine(NamedTuple):
    """A shop: its name (empty in a hub of one), its issuer, its file, and the two files of its adapter (none: a trial)."""

    name: str
    nif: str
    file: str
    agency: Optional[Tuple[str, str]]

    @property
    def is_trial(self) -> bool:
        """Whether the practice agency answers."""
        return self.agency is None

    def serve(self, program: str) -> List[str]:
        """The words by which its program is started."""
        agency = ["--agency", *self.agency] if self.agency else []
        return [program, *agency, "serve", self.file, self.nif]


def counted(number: int) -> str:
    """So many shops, in words."""
    return f"{number} shop" + ("" if number == 1 else "s")


def read_shops(path: str, has_host: bool) -> Dict[str, ShopLine]:
    """Reads a file of lines `SHOP NIF FILE` or `SHOP NIF FILE TO FROM`; empty lines and those that begin with `#` are skipped.

    `has_host` says whether it is known which service the links of shops with an adapter name. No shop at all is no fault.
    """
    try:
        with open(path, encoding="utf-8") as file:
            lines = file.read().split("\n")
    except OSError as fault:
        raise ShopsFault(f"{path}: {fault.strerror}") from None
    except UnicodeDecodeError:
        raise ShopsFault(f"{path} isn't UTF-8") from None
    shops: Dict[str, ShopLine] = {}
    used: Dict[str, str] = {}  # each file that is named: the shop
    for number, text in enumerate(lines, 1):
        words = text.split()
        if words and not words[0].startswith("#"):
            try:
                shop = _read_line(words, shops, used, has_host)
            except ShopsFault as fault:
                raise ShopsFault(f"{path}, line {number}: {fault}") from None
            shops[shop.name] = shop
    return shops


def _read_line(words: List[str], shops: Dict[str, ShopLine], used: Dict[str, str], has_host: bool) -> ShopLine:
    if len(words) not in (3, 5):
        raise ShopsFault("neither SHOP NIF FILE nor SHOP NIF FILE TO FROM")
    name, nif, *files = words
    if not SHOP.fullmatch(name):
        raise ShopsFault(f"SHOP is 1 to {LONGEST_SHOP} of a-z, 0-9 and -")
    if name in shops:
        raise ShopsFault(f"{name} stands above")
    if len(files) == 3 and not has_host:
        raise ShopsFault("TO and FROM need --host real or --host test")
    for file in files:
        if file in used:
            raise ShopsFault(f"{file} is named twice, by {used[file]} and {name}")
        used[file] = name
    return ShopLine(sys.intern(name), nif, files[0], (files[1], files[2]) if len(files) == 3 else None)
