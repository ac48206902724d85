"""A shop as the hub serves it: its line, its program while one runs, and what is known of it while none does."""
from __future__ import annotations

import asyncio
from typing import Any, Dict, Optional

from hub_books import Books
from hub_pipe import Counts, Shop
from hub_shops import ShopLine


class Queue:
    """The requests of one till, or of the owner: how many are under way, and a lock that hands itself on in their order."""

    __slots__ = ("under_way", "turn")

    def __init__(self) -> None:
        self.under_way = 0
        self.turn = asyncio.Lock()


class Served:
    """One shop. `books` are there while its program runs or is to run; the slots keep a resting one small."""

    __slots__ = ("line", "host", "books", "queues", "under_way", "used", "look_at", "looking", "beginning", "counts", "noted_at", "refused",
                 "listed", "restarts", "fault", "faulty_until", "round_at", "begun_at", "closed_at", "is_gone")

    def __init__(self, line: ShopLine, host: str) -> None:
        self.line = line
        self.host = "test" if line.is_trial else host  # the service that links name
        self.books: Optional[Books] = None
        self.queues: Optional[Dict[Optional[int], Queue]] = None
        self.under_way = 0  # requests that arrived whole and aren't answered
        self.used = float("-inf")  # when the last request ended, on the loop's clock
        self.look_at = float("-inf")  # from when on its program is to be looked at
        self.looking: "Optional[asyncio.Task[None]]" = None
        self.beginning: "Optional[asyncio.Task[None]]" = None
        self.counts: Optional[Counts] = None  # as they were last seen
        self.noted_at: Any = None  # the moment, UTC
        self.refused: Optional[int] = None  # records, as they were last listed
        self.listed = -1  # how many lines were noted when they were listed
        self.restarts = 0  # in runs that have ended
        self.fault = ""  # why its program isn't started
        self.faulty_until = float("-inf")
        self.round_at = float("-inf")  # from when on what waits may be tried
        self.begun_at = self.closed_at = float("-inf")  # when its program was started last, and its pipe closed
        self.is_gone = False  # it isn't served any more

    def queue(self, till: Optional[int]) -> Queue:
        """That of a till, or of the owner."""
        if self.queues is None:
            self.queues = {}
        if till not in self.queues:
            self.queues[till] = Queue()
        return self.queues[till]

    @property
    def shop(self) -> Optional[Shop]:
        """Its program, where one runs or is to run."""
        books = self.books
        return books.shop if books else None

    def begin(self, program: str) -> Shop:
        """Makes its program, which is to be started."""
        shop = Shop(self.line.serve(program), self.line.name)
        shop.counts_seen, shop.noted_at = self.counts, self.noted_at
        self.books = Books(shop, program, self.line.file, self.line.nif, self.line.is_trial)
        self.fault = ""
        return shop

    def end(self) -> None:
        """Its program has ended for good: what is known stays."""
        self.see()
        shop = self.shop
        if shop is not None:
            self.restarts += max(0, shop.starts - 1)
        self.books = None
        kept = {till: queue for till, queue in (self.queues or {}).items() if queue.under_way or queue.turn.locked()}
        self.queues = kept or None

    def see(self) -> None:
        """Takes over what its program said last."""
        if self.books is None:
            return
        self.counts, self.noted_at = self.books.shop.counts_seen, self.books.shop.noted_at
        if self.books.refused is not None:
            self.refused, self.listed = len(self.books.refused), self.books.listed_noted
        elif self.counts is not None and self.counts.noted == 0:
            self.refused = self.listed = 0  # of nothing that the agency has answered anything is refused

    @property
    def all_restarts(self) -> int:
        """How often its program was started again after it had ended by itself or was killed."""
        shop = self.shop
        return self.restarts + (max(0, shop.starts - 1) if shop else 0)

    @property
    def waiting(self) -> Optional[int]:
        """How many records wait for the agency, as far as is known."""
        shop = self.shop
        counts = shop.counts_seen if shop else self.counts
        return counts.records - counts.noted if counts else None

    @property
    def is_done(self) -> bool:
        """Whether it is known that nothing waits for the agency."""
        return self.waiting == 0

    @property
    def is_surely_done(self) -> bool:
        """Whether its program was seen with nothing that waits since the last request."""
        shop = self.shop
        return shop is not None and self.is_done and shop.seen_at >= self.used

    @property
    def is_listed(self) -> bool:
        """Whether the refused records were listed since the agency said something."""
        counts = self.counts
        return counts is not None and (counts.noted == 0 or self.listed == counts.noted)

    @property
    def trouble(self) -> str:
        """Why its program doesn't answer, where that is known."""
        shop = self.shop
        return self.fault or (shop.reason if shop else "")


class One:
    """The shop of a hub of one: its program runs from the beginning to the end, and so does the hub."""

    are_many = False

    def __init__(self, line: ShopLine, host: str, program: str) -> None:
        self.served = Served(line, host)
        self.shop = self.served.begin(program)
        self.ended: "asyncio.Future[int]" = self.shop.ended

    def start(self) -> None:
        """Starts the program."""
        self.shop.start()

    def find(self, name: str) -> Optional[Served]:
        """The shop of this name; a hub of one has no name for it."""
        return self.served if name == "" else None

    async def use(self, served: Served) -> Books:
        """The shop's program, to be asked."""
        assert served.books is not None
        return served.books

    async def wait_until_ready(self) -> None:
        """Waits until the program has answered. It fails with Unavailable or BadLine."""
        await self.shop.counts()

    def close(self) -> None:
        """Closes the pipe: `ended` comes once the sender has handed over what waits."""
        self.shop.close()

    def kill(self) -> None:
        """Kills the program."""
        self.shop.kill()
