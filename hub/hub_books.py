"""What the owner asks: the shop's state, and the sums of a month or a day; and which invoices are cancelled.

Records are asked over the pipe; `list` and `statement` run beside the program, at nice 10, and only read the file. Nothing is added up here.
"""
from __future__ import annotations

import asyncio
import os
from typing import Any, Dict, List, Optional

from hub_forms import REFUSED, BadRequest, Values, read_listing, read_row, read_statement, record_line
from hub_limits import BETWEEN_LISTS, MOST_RECORDS_ASKED, NEWEST, NICE, OLD_LIST_AFTER, PART_OF_A_LIST, REFUSED_AT_ONCE
from hub_pipe import Counts, Shop, Unavailable, read_counts, tell

STATUS_USAGE = 2


class Cancellations:
    """Where each invoice was cancelled last: read from the file's listing once, and from then on from the records that came since."""

    def __init__(self, shop: Shop, program: str, file: str) -> None:
        self.shop = shop
        self.program = program
        self.file = file
        self.places: Dict[str, int] = {}
        self.seen: Optional[int] = None  # records that were looked at
        self.one = asyncio.Lock()

    async def find(self, num: str, alta: int) -> Optional[int]:
        """The place of the record that cancels an invoice, whose last alta is this one. One that the agency refused cancels nothing."""
        async with self.one:
            await self._catch_up()
        place = self.places.get(num, 0)
        row = await self.shop.ask(record_line(place)) if place > alta else None
        return place if row and row["state"] not in REFUSED else None

    async def _catch_up(self) -> None:
        records = (await self.shop.counts()).records
        if self.seen is None or not 0 <= records - self.seen <= MOST_RECORDS_ASKED:
            await self._list()
            return
        rows = await asyncio.gather(*(self.shop.ask(record_line(place)) for place in range(self.seen + 1, records + 1)))
        for row in rows:
            self._keep(row)
        self.seen = records

    def _keep(self, row: Optional[Values]) -> None:
        if row and row["record"] == "anulacion":
            self.places[row["num"]] = row["place"]

    async def _list(self) -> None:
        """Reads the listing as it comes, since it may be long."""
        self.places, rest, last = {}, b"", ""
        run = await _begin_beside(self.program, "list", self.file, "all")
        assert run.stdout is not None
        try:
            while part := await run.stdout.read(PART_OF_A_LIST):
                *lines, rest = (rest + part).split(b"\n")
                for line in lines:
                    if b" anulacion " in line:
                        self._keep(read_row(line.decode()))
                last = lines[-1].decode() if lines else last
            counts = read_counts(last) if await run.wait() == 0 else None
        finally:
            _kill(run)
        if counts is None:
            raise Unavailable("the file's records couldn't be listed")
        self.seen = counts.records


class Books:
    """A shop's figures, for its owner."""

    def __init__(self, shop: Shop, program: str, file: str, issuer: str, practice: bool) -> None:
        self.shop = shop
        self.program = program
        self.file = file
        self.issuer = issuer
        self.practice = practice
        self.cancellations = Cancellations(shop, program, file)
        self.refused: Optional[List[Values]] = None
        self.listed_noted = -1  # how many lines were noted when the refused ones were listed
        self.listed_at = float("-inf")
        self.listing: Optional["asyncio.Task[None]"] = None
        self.one_statement = asyncio.Lock()

    async def state(self, first: Optional[int] = None) -> Values:
        """The answer to `/v1/state`; with a first one, fifty refused records at most, from that one on."""
        counts = await self.shop.counts()
        waiting = [counts.noted + 1] if counts.noted < counts.records else []
        newest = range(counts.records, max(0, counts.records - NEWEST), -1)
        rows = await asyncio.gather(*(self.shop.ask(record_line(place)) for place in [*waiting, *newest]))
        if not all(rows):
            raise Unavailable("a record that was counted isn't there")
        refused = await self._refused(counts)
        noted_at = self.shop.noted_at
        return {
            "issuer": self.issuer,
            "practice": self.practice or self.shop.practises,
            "records": counts.records,
            "noted": counts.noted,
            "noted_at": noted_at.strftime("%Y-%m-%dT%H:%M:%SZ") if noted_at else None,
            "starts": self.shop.starts,
            "oldest_waiting": rows[0] if waiting else None,
            "newest": rows[len(waiting):],
            "refused": refused if first is None else refused[first - 1:first - 1 + REFUSED_AT_ONCE],
            "refused_count": len(refused),
        }

    async def _refused(self, counts: Counts) -> List[Values]:
        """The refused records, listed anew where the agency has said more. While that takes long the list before is shown."""
        now = self.shop.loop.time()
        is_due = counts.noted != self.listed_noted and now - self.listed_at >= BETWEEN_LISTS
        if self.listing is None and (is_due or self.refused is None):
            self.listing = self.shop.loop.create_task(self._list(counts.noted))
        if self.listing is not None:
            await asyncio.wait({self.listing}, timeout=None if self.refused is None else OLD_LIST_AFTER)
        if self.refused is None:
            raise Unavailable("the refused records couldn't be listed")
        return self.refused

    async def list_again(self, counts: Counts, seconds: float) -> None:
        """Lists the refused records anew, where the agency has said more since they were listed; waits for it at most so long."""
        if self.listing is None and counts.noted != self.listed_noted:
            self.listing = self.shop.loop.create_task(self._list(counts.noted))
        if self.listing is not None:
            await asyncio.wait({self.listing}, timeout=seconds)

    async def _list(self, noted: int) -> None:
        try:
            rows = await list_refused(self.program, self.file, self.shop.name)
            if rows is not None:
                self.refused, self.listed_noted = rows, noted
        finally:
            self.listed_at = self.shop.loop.time()
            self.listing = None

    async def statement(self, period: str) -> Values:
        """The sums of MM-YYYY or DD-MM-YYYY. BadRequest where the program knows no such period."""
        async with self.one_statement:
            status, text = await _beside(self.program, "statement", self.file, period)
        if status == STATUS_USAGE:
            raise BadRequest("the program has no sums of such a period")
        sums = read_statement(text, period) if status == 0 else None
        if sums is None:
            raise Unavailable(f"statement ended with status {status}")
        date = "-".join(reversed(period.split("-")))
        refused = [row for row in await self._refused(await self.shop.counts()) if row["record"] == "alta" and row["date"].startswith(date)]
        return {**sums, "refused": refused[:REFUSED_AT_ONCE], "refused_count": len(refused)}


async def list_refused(program: str, file: str, name: str) -> Optional[List[Values]]:
    """The refused records of a file, as `list` prints them; None where it fails. `name` is that of one of many shops."""
    status, text = await _beside(program, "list", file, "refused")
    rows = read_listing(text) if status == 0 else None
    if rows is None:
        tell(f"list ended with status {status}: the refused records aren't known", name)
    return rows


async def _beside(program: str, *words: str) -> Any:
    """Runs a command that only reads: its status and what it printed. It is killed where nobody waits for it any more."""
    run = await _begin_beside(program, *words)
    try:
        text, _ = await run.communicate()
        return run.returncode, text.decode("utf-8", "replace")
    finally:
        _kill(run)


async def _begin_beside(program: str, *words: str) -> asyncio.subprocess.Process:
    return await asyncio.create_subprocess_exec(
        program, *words, stdin=asyncio.subprocess.DEVNULL, stdout=asyncio.subprocess.PIPE, stderr=asyncio.subprocess.DEVNULL,
        start_new_session=True, preexec_fn=_be_nice)


def _kill(run: asyncio.subprocess.Process) -> None:
    if run.returncode is None:
        run.kill()


def _be_nice() -> None:
    os.nice(NICE)
