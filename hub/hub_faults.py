"""A till maker's proving ground, `--faults SEED`: commands meet what a network and a machine may do to them, by a seed, and what each till did
wrong then is told. docs/HUB.md describes it."""
from __future__ import annotations

import asyncio
import random
from dataclasses import dataclass, field
from typing import Any, Dict, List, NamedTuple, Optional, Tuple

from aiohttp import web

from hub_connections import Connection
from hub_forms import BadRequest, Command, Values, last_line, read_command
from hub_pipe import Shop, tell

HTML = "<html><head><title>502 Bad Gateway</title></head><body><h1>502 Bad Gateway</h1></body></html>"
LATE = (5.0, 40.0)  # seconds
AMID = 0.001  # seconds into a command at which its program is killed


class Fate(NamedTuple):
    """What becomes of a command: how often of 1,000, whether it is done, and whether its answer is told."""

    name: str
    of_1000: int
    is_done: bool
    is_told: bool


FATES = (
    Fate("lost", 100, True, False),  # the connection ends instead of the answer
    Fate("cut", 100, False, False),  # it ends before anything was done
    Fate("unavailable", 20, True, False),  # 503
    Fate("busy", 20, False, False),  # 503 too
    Fate("proxy", 30, True, False),  # a proxy's 502 in HTML
    Fate("killed", 10, True, True),  # the program is killed amid it
    Fate("late", 5, True, True),
)
PLAIN = Fate("plain", 0, True, True)

SKIPPED = "a greater serial was asked while this one had no answer"
TWO = "two commands were given this serial"
ONCE = "it was asked once, had no answer, and was never asked again"
OPEN = "it was asked again, but not until it was answered"
OLDER = "it was asked over an older copy of the chain"


@dataclass
class Serial:
    """What is known of a serial: its command, how often it was asked, whether it waits for an answer, and whether it has no record for sure."""

    command: Command
    asked: int = 0
    is_open: bool = False
    is_free: bool = False


@dataclass
class TillNotes:
    """What a till asked, and what it did wrong."""

    serials: Dict[int, Serial] = field(default_factory=dict)
    open: Dict[int, Serial] = field(default_factory=dict)
    asked: int = 0
    again: int = 0
    taken: int = 0  # the greatest serial that was answered with its record
    wrong: Dict[Tuple[int, str], None] = field(default_factory=dict)
    is_behind: bool = False  # the chain is an older copy, which lacks a record of this till

    def ask(self, command: Command) -> Serial:
        """Notes a command."""
        self.asked += 1
        self.wrong.update({(serial, SKIPPED): None for serial in self.open if serial < command.serial})
        note = self.serials.setdefault(command.serial, Serial(command))
        if note.command != command and not note.is_free:
            self.wrong[command.serial, TWO] = None
        elif note.command == command and note.asked:
            self.again += 1
        if self.is_behind:
            self.wrong[command.serial, OLDER] = None
        note.command, note.asked, note.is_open, note.is_free = command, note.asked + 1, True, False
        self.open[command.serial] = note
        return note

    def tell(self, note: Serial, status: int, body: Any) -> None:
        """Notes an answer that was handed over."""
        if status >= 500:
            return
        note.is_open, note.is_free = False, status >= 400 and b"urn:verifactu:serial-used" not in body
        self.open.pop(note.command.serial, None)
        if status < 300:
            self.taken = max(self.taken, note.command.serial)

    def faults(self) -> List[Tuple[int, str]]:
        """What it has done wrong so far, by serial."""
        left = [(serial, ONCE if note.asked == 1 else OPEN) for serial, note in self.open.items() if (serial, SKIPPED) not in self.wrong]
        return sorted([*self.wrong, *left])


class Copy(NamedTuple):
    """The chain as it was, and the greatest serial of each till that had been answered: one more may have its record."""

    chain: bytes
    taken: Dict[int, int]


class Met(NamedTuple):
    """A command that has met its fate."""

    till: int
    note: Optional[Serial]
    fate: Fate
    seconds: float


def unavailable() -> web.Response:
    """503, as the hub says it."""
    values = {"type": "urn:verifactu:unavailable", "title": "Not answered: ask the same again", "status": 503, "detail": "by --faults"}
    return web.json_response(values, status=503, headers={"Content-Type": "application/problem+json", "Retry-After": "2"})


class Faults:
    """Draws what becomes of each command, keeps an older copy of the chain, and notes what tills do."""

    def __init__(self, seed: int, file: str) -> None:
        self.seed, self.file = seed, file
        self.random = random.Random(seed)
        self.tills: Dict[int, TillNotes] = {}
        self.drawn = {fate.name: 0 for fate in (*FATES, PLAIN)}
        self.copies: List[Copy] = []  # of the chain, each of at least twice as many records as the one before
        self.older = b""  # the one that is put back
        self.copied = 0  # records of the last one
        self.is_older = False  # it is put in place of the chain

    # ---- a command

    def meet(self, request: web.BaseRequest, till: int, verb: str, body: bytes, shop: Shop) -> bool:
        """Draws a command's fate; False where nothing is to be done."""
        notes = self.tills.setdefault(till, TillNotes())
        try:
            note = notes.ask(read_command(verb, body))
        except BadRequest:
            note = None
        fate = PLAIN if self.is_older else self._draw()
        self.drawn[fate.name] += 1
        if fate.name == "killed" and shop.run is not None:
            shop.loop.call_later(AMID, shop.run.kill)
        request["met"] = Met(till, note, fate, self.random.uniform(*LATE) if fate.name == "late" else 0)
        return fate.is_done

    def _draw(self) -> Fate:
        left = self.random.randrange(1000)
        for fate in FATES:
            left -= fate.of_1000
            if left < 0:
                return fate
        return PLAIN

    async def deliver(self, request: web.BaseRequest, response: web.Response) -> web.Response:
        """What the till gets in place of the response, by the command's fate."""
        met: Optional[Met] = request.get("met")
        if met is None:
            return response
        await asyncio.sleep(met.seconds)
        connection = request.protocol
        assert isinstance(connection, Connection)
        if met.fate.name in ("lost", "cut"):
            connection.drop()
        elif met.fate.name == "proxy":
            return web.Response(status=502, text=HTML, content_type="text/html")
        elif not met.fate.is_told:
            return unavailable()
        elif met.note is not None and connection.transport is not None:
            self.tills[met.till].tell(met.note, response.status, response.body)
        return response

    # ---- the older copy

    async def copy(self, records: int) -> None:
        """Keeps a copy whenever the chain has become twice as long. A file that is written meanwhile is read as one of a moment before."""
        if records >= 2 * self.copied and not self.is_older:
            self.copied = records
            taken = {till: notes.taken for till, notes in self.tills.items()}
            self.copies.append(Copy(await asyncio.get_running_loop().run_in_executor(None, self._read), taken))

    def _read(self) -> bytes:
        with open(self.file, "rb") as file:
            return file.read()

    @property
    def has_older(self) -> bool:
        """Whether there is a copy that lacks something, and it wasn't put back yet."""
        return len(self.copies) > 1 and not self.is_older

    async def put_back(self, shop: Shop) -> None:
        """Puts an older copy in place of the chain, under a program that is killed for it: the newest that lacks a record of each till."""
        lacking = [copy for copy in self.copies if all(notes.taken > copy.taken.get(till, 0) + 1 for till, notes in self.tills.items())]
        self.older = (lacking or self.copies[:1])[-1].chain
        shop.before_start = self._write_older
        if shop.run is not None:
            shop.run.kill()
        for till, notes in self.tills.items():
            notes.is_behind = await shop.ask(last_line(till)) < notes.taken
        behind = [str(till) for till, notes in self.tills.items() if notes.is_behind]
        tell(f"faults: the chain is an older copy now. Start tills {', '.join(behind)} again: each has to refuse to sell. Then stop the hub again")

    def _write_older(self) -> None:
        with open(self.file, "r+b") as file:
            file.truncate(0)
            file.write(self.older)

    # ---- what is told

    def values(self) -> Values:
        """The answer to `/v1/faults`."""
        tills = [{"till": till, "commands": len(notes.serials), "asked": notes.asked, "again": notes.again, "behind": notes.is_behind,
                  "wrong": [{"serial": serial, "what": what} for serial, what in notes.faults()]} for till, notes in sorted(self.tills.items())]
        return {"seed": self.seed, "fates": self.drawn, "older": self.is_older, "tills": tills}

    def tell_all(self) -> None:
        """Says at the hub's end what each till did wrong."""
        values: Any = self.values()
        for till in values["tills"]:
            said = f"faults: till {till['till']}: {till['commands']} commands, {till['again']} asked again"
            tell(f"{said}, nothing wrong" if not till["wrong"] else f"{said}, wrong: {len(till['wrong'])}")
            for wrong in till["wrong"]:
                tell(f"faults: till {till['till']} serial {wrong['serial']}: {wrong['what']}")
        if not self.is_older:
            tell("faults: no till was tried over an older copy of the chain")
