"""Who may ask: tokens of tills and owners, and of the host of many shops, read from a file that only its owner may read."""
from __future__ import annotations

import base64
import binascii
import hashlib
import os
import re
import stat
import sys
from typing import Dict, List, NamedTuple, Optional

from hub_limits import LONGEST_TOKEN, MOST_TILLS, SHORTEST_TOKEN
from hub_shops import SHOP

MODES = (0o600, 0o400)

TOKEN = re.compile(r"[!-~]{%d,%d}" % (SHORTEST_TOKEN, LONGEST_TOKEN))
NUMBER = re.compile(r"[1-9]\d?", re.ASCII)


class TokensFault(Exception):
    """The file can't be used; the text says why, and names no token."""


class Asker(NamedTuple):
    """Who asks: a shop's till, by its number, the shop's owner (till None), or the host of all shops. A hub of one has no shop's name."""

    till: Optional[int]
    shop: str = ""
    is_host: bool = False

    def __str__(self) -> str:
        if self.is_host:
            return "host"
        who = "owner" if self.till is None else f"till {self.till}"
        return f"{self.shop} {who}" if self.shop else who

    @property
    def is_owner(self) -> bool:
        """Whether it is a shop's owner."""
        return self.till is None and not self.is_host


class Tokens:
    """Tokens by their SHA-256, so that how long a look-up takes tells nothing of a token."""

    def __init__(self, askers: Dict[bytes, Asker]) -> None:
        self._askers = askers

    def asker(self, authorization: str) -> Optional[Asker]:
        """Who a header field `Authorization` speaks for: `Bearer TOKEN`, or `Basic` with the user `owner`."""
        scheme, _, value = authorization.partition(" ")
        value = value.strip()
        if scheme.lower() == "bearer":
            return self._askers.get(_digest(value))
        if scheme.lower() != "basic":
            return None
        try:
            user, _, token = base64.b64decode(value, validate=True).decode("ascii").partition(":")
        except (binascii.Error, ValueError):
            return None
        found = self._askers.get(_digest(token))
        return found if user == "owner" and found is not None and found.is_owner else None

    def shops(self) -> "set[str]":
        """The names of all shops that have a token."""
        return {asker.shop for asker in self._askers.values() if asker.shop}


def _digest(token: str) -> bytes:
    return hashlib.sha256(token.encode("utf-8", "surrogateescape")).digest()


def read_tokens(path: str, are_many: bool = False) -> Tokens:
    """Reads a file of lines `till NUMBER TOKEN` and `owner TOKEN`; empty lines and those that begin with `#` are skipped.

    For a hub of many shops the lines are `till SHOP NUMBER TOKEN`, `owner SHOP TOKEN` and `host TOKEN`.
    """
    try:
        with open(path, encoding="ascii") as file:
            mode = os.fstat(file.fileno()).st_mode
            if not stat.S_ISREG(mode) or stat.S_IMODE(mode) not in MODES:
                raise TokensFault(f"{path} isn't a file of mode 0600 or 0400")
            lines = file.read().split("\n")
    except OSError as fault:
        raise TokensFault(f"{path}: {fault.strerror}") from None
    except UnicodeDecodeError:
        raise TokensFault(f"{path} isn't ASCII") from None
    return Tokens(_read_lines(path, lines, are_many))


def _read_lines(path: str, lines: List[str], are_many: bool) -> Dict[bytes, Asker]:
    forms = "till SHOP NUMBER TOKEN, owner SHOP TOKEN or host TOKEN" if are_many else "till NUMBER TOKEN or owner TOKEN"
    askers: Dict[bytes, Asker] = {}
    for number, line in enumerate(lines, 1):
        words = line.split()
        if not words or words[0].startswith("#"):
            continue
        asker = _asker_of_many(words[:-1]) if are_many else _asker_of(words[:-1], "")
        if asker is None:
            raise TokensFault(f"{path}, line {number}: the line isn't {forms}")
        if not TOKEN.fullmatch(words[-1]):
            raise TokensFault(f"{path}, line {number}: a token has {SHORTEST_TOKEN} to {LONGEST_TOKEN} visible characters")
        if askers.setdefault(_digest(words[-1]), asker) is not asker:
            raise TokensFault(f"{path}, line {number}: this token stands above")
    if not askers:
        raise TokensFault(f"{path} has no token")
    return askers


def _asker_of_many(words: List[str]) -> Optional[Asker]:
    if words == ["host"]:
        return Asker(None, "", True)
    if len(words) < 2 or not SHOP.fullmatch(words[1]):
        return None
    return _asker_of([words[0], *words[2:]], sys.intern(words[1]))


def _asker_of(words: List[str], shop: str) -> Optional[Asker]:
    if words == ["owner"]:
        return Asker(None, shop)
    if len(words) == 2 and words[0] == "till" and NUMBER.fullmatch(words[1]) and int(words[1]) <= MOST_TILLS:
        return Asker(int(words[1]), shop)
    return None
