"""Many shops in one hub: which of their programs run.

A shop's program starts at the shop's first request, and is ended after some time without one, where nothing waits for the agency. No more
than so many run at once: the one that was idle for longest makes room. What waits in a file is sent although no till asks: a round goes to
the shops where something waits, or of which nothing is known yet. docs/HOSTING.md describes it.
"""
from __future__ import annotations

import asyncio
import os
import sys
import traceback
from typing import Any, Dict, List, Optional

from hub_books import Books, list_refused
from hub_limits import ANSWER_WITHIN, CLOSING, DEAF, ENDING, FAULT_STANDS, LISTS_APART, LOOK_EVERY, MAKING_ROOM, ROUND_AGAIN, TURNS
from hub_pipe import MENDED_BY_NO_RESTART, Counts, Shop, Unavailable, tell
from hub_served import Served
from hub_shops import ShopLine, counted

STATUS_KILLED = 137
NOT_SERVED = "this hub doesn't serve the shop"


class Many:
    """The shops of a hub of many. `running` has those whose program runs or is being ended, the one idle for longest first."""

    are_many = True

    def __init__(self, lines: Dict[str, ShopLine], host: str, program: str, idle: float, most: int) -> None:
        self.loop = asyncio.get_running_loop()
        self.host = host
        self.program = program
        self.idle = idle
        self.most = most
        self.shops: Dict[str, Served] = {}
        self.owing: Dict[Served, None] = {}  # their program doesn't run, and something is to be sent, or it isn't known
        self.unlisted: Dict[Served, None] = {}  # nothing is to be sent, and what was refused isn't known
        self.running: Dict[Served, None] = {}
        self.waiting_for_room = 0
        self.place_free: "asyncio.Future[None]" = self.loop.create_future()
        self.starts = 0
        self.one_list = asyncio.Lock()
        self.ended: "asyncio.Future[int]" = self.loop.create_future()
        self.closing = False
        self.tasks: List["asyncio.Task[Any]"] = []
        self.take(lines)

    # ---- which shops there are

    def take(self, lines: Dict[str, ShopLine]) -> str:
        """Serves these shops from now on; a shop whose line is the same goes on as it was. What has changed, in words."""
        left = [served for name, served in self.shops.items() if lines.get(name) != served.line]
        for served in left:
            del self.shops[served.line.name]
            self._let_go(served)
        come = [line for name, line in lines.items() if name not in self.shops]
        for line in come:
            served = self.shops[line.name] = Served(line, self.host)
            self.owing[served] = None
        for served in self.shops.values():
            served.faulty_until = served.round_at = float("-inf")
        return f"{counted(len(self.shops))}, {len(come)} new or changed, {len(left)} gone or changed"

    def _let_go(self, served: Served) -> None:
        """A shop isn't served any more: what is under way is answered, and its program ended."""
        served.is_gone = True
        self._forget(served)
        if served in self.running:
            self._spawn(self._end_once_answered(served))

    async def _end_once_answered(self, served: Served) -> None:
        until = self.loop.time() + ANSWER_WITHIN
        while served.under_way and self.loop.time() < until:
            await asyncio.sleep(0.05)
        self._close(served, CLOSING)

    def find(self, name: str) -> Optional[Served]:
        """The shop of this name."""
        return self.shops.get(name)

    # ---- a request

    async def use(self, served: Served) -> Books:
        """The shop's program, to be asked: started where it doesn't run. Unavailable where it can't be."""
        while True:
            if served.is_gone or self.closing:
                raise Unavailable(NOT_SERVED if served.is_gone else "the hub is being stopped")
            if self.loop.time() < served.faulty_until:
                raise Unavailable(served.fault)
            shop = served.shop
            if shop is None:
                await self._have_begun(served)
            elif shop.closing or shop.ended.done():
                await asyncio.wait({shop.ended})
                await asyncio.sleep(0)  # `_ended` comes first
            elif shop.failures >= TURNS and shop.run is None:
                raise Unavailable(shop.reason)  # it is started again soon, whoever asks
            else:
                self.running.pop(served)
                self.running[served] = None
                assert served.books is not None
                return served.books

    async def _have_begun(self, served: Served) -> None:
        """Waits until a program was started; all who ask share one attempt."""
        if served.beginning is None:
            served.beginning = self.loop.create_task(self._begin_in_room(served))
            served.beginning.add_done_callback(lambda task: task.cancelled() or task.exception())
        await asyncio.shield(served.beginning)

    async def _begin_in_room(self, served: Served) -> None:
        try:
            await self._room()
            if served.books is None and not served.is_gone and not self.closing:
                self._begin(served)
        finally:
            served.beginning = None

    def _begin(self, served: Served) -> Shop:
        """Starts a shop's program, for which there is room."""
        shop = served.begin(self.program)
        self._forget(served)
        self.running[served] = None
        self.starts += 1
        served.begun_at = self.loop.time()
        served.look_at = served.begun_at + LOOK_EVERY
        shop.ended.add_done_callback(lambda _: self._ended(served))
        shop.start()
        return shop

    async def _room(self) -> None:
        """Waits until one more program may run. Unavailable where each that runs is busy."""
        self.waiting_for_room += 1
        try:
            while len(self.running) >= self.most:
                if self._being_ended() < self.waiting_for_room and not self._end_the_idlest():
                    raise Unavailable(f"all {self.most} programs that may run at once are busy")
                await asyncio.wait({self.place_free}, timeout=1)
        finally:
            self.waiting_for_room -= 1

    def _being_ended(self) -> int:
        since = self.loop.time() - ENDING
        return sum(1 for served in self.running if served.shop is not None and served.shop.closing and served.closed_at >= since)

    def _end_the_idlest(self) -> bool:
        """Ends the program that was idle for longest, before all one where nothing waits; False where each is busy or being ended."""
        idle = [served for served in self.running if served.under_way == 0 and served.shop is not None and not served.shop.closing]
        if idle:
            self._close(next((served for served in idle if served.is_surely_done), idle[0]), MAKING_ROOM)
        return bool(idle) or self._being_ended() > 0

    # ---- the end of a program

    def _close(self, served: Served, patience: float) -> None:
        """Closes the pipe of a shop's program; it is killed where it hasn't ended in so many seconds."""
        shop = served.shop
        if shop is not None and not shop.ended.done():
            served.closed_at = self.loop.time()
            shop.close()
            self.loop.call_later(patience, shop.kill)

    def _ended(self, served: Served) -> None:
        """A program has ended for good: by our wish, or since no restart mends it."""
        shop = served.shop
        assert shop is not None
        self.running.pop(served, None)
        served.end()
        status = shop.ended.result()
        if not shop.closing and status in MENDED_BY_NO_RESTART:
            served.fault, served.faulty_until = shop.reason, self.loop.time() + FAULT_STANDS
            tell("no restart mends that: it is tried again at a request after a minute, or after a SIGHUP", served.line.name)
        if not served.is_gone and not (served.is_done and served.is_listed):
            (self.unlisted if served.is_done else self.owing)[served] = None
            if not shop.has_answered:
                served.round_at = self.loop.time() + ROUND_AGAIN
        self.place_free.set_result(None)
        self.place_free = self.loop.create_future()
        if self.closing and not self.running and not self.ended.done():
            self.ended.set_result(0)

    # ---- what is done although nobody asks

    def start(self) -> None:
        """Begins to look after the programs."""
        self.tasks = [self.loop.create_task(self._look_for_ever()), self.loop.create_task(self._go_round())]

    def _spawn(self, work: Any) -> "asyncio.Task[Any]":
        task = self.loop.create_task(work)
        self.tasks = [other for other in self.tasks if not other.done()] + [task]
        return task

    async def _look_for_ever(self) -> None:
        """Looks at each program that runs, and ends those that are idle."""
        while not self.closing:
            await asyncio.sleep(min(1, self.idle / 2))
            now = self.loop.time()
            for served in list(self.running):
                is_due = now >= served.look_at or self._is_idle(served)
                if is_due and served.looking is None and served.shop is not None and not served.shop.closing:
                    served.looking = self._spawn(self._look(served))

    def _is_idle(self, served: Served) -> bool:
        return served.under_way == 0 and self.loop.time() - served.used >= self.idle

    async def _look(self, served: Served) -> None:
        """Asks how the shop stands; ends its program where it is idle and nothing waits, or where it doesn't answer."""
        try:
            served.look_at = self.loop.time() + LOOK_EVERY
            books = served.books
            if books is None:
                return
            counts = await books.shop.look()
            served.see()
            if counts is None:
                if self._is_idle(served) and self.loop.time() - served.begun_at >= DEAF:
                    served.fault = served.trouble or "the program doesn't answer"
                    self._close(served, 0)
                return
            is_done = counts.noted >= counts.records and self._is_idle(served)
            if not served.is_listed and (is_done or self.loop.time() - books.listed_at >= LISTS_APART):
                await self._list(served, books, counts)
            if is_done and self._is_idle(served) and served.is_done:
                self._close(served, CLOSING)
        finally:
            served.looking = None

    async def _list(self, served: Served, books: Books, counts: Counts) -> None:
        """Lists a shop's refused records for the figures: one shop after another, and none waits for a list that hangs."""
        if books.listing is None:
            async with self.one_list:
                await books.list_again(counts, ANSWER_WITHIN)
            served.see()

    async def _go_round(self) -> None:
        """Goes to the shops that nobody asks, one after another, for ever."""
        while not self.closing:
            try:
                if not await self._visit_next():
                    await asyncio.sleep(1)
            except Exception:
                sys.stderr.write(traceback.format_exc())  # the round goes on
                await asyncio.sleep(1)

    async def _visit_next(self) -> bool:
        """Goes to the next shop; False where there is none, or no room."""
        unlisted, owing = self._next(self.unlisted), self._next(self.owing)
        if unlisted is not None:
            await self._list_resting(unlisted)
        elif owing is not None and self._has_room():
            await self._visit(owing)
        else:
            return False
        return True

    def _next(self, shops: Dict[Served, None]) -> Optional[Served]:
        now = self.loop.time()
        return next((served for served in shops if served.round_at <= now and served.beginning is None and served.books is None), None)

    def _forget(self, served: Served) -> None:
        """There is no need to go to this shop."""
        self.owing.pop(served, None)
        self.unlisted.pop(served, None)

    def _has_room(self) -> bool:
        """Whether the round may start a program: a quarter of all places is left to tills, and one that rests goes behind what waits."""
        if len(self.running) < self.most - self.most // 4:
            return True
        since = self.loop.time() - LOOK_EVERY
        resting = (served for served in self.running if served.under_way == 0 and served.used < since and served.is_surely_done)
        found = next((served for served in resting if served.shop is not None and not served.shop.closing), None)
        if found is not None:
            self._close(found, CLOSING)
        return False

    async def _visit(self, served: Served) -> None:
        """Has a shop's program started, and looks at it: it is ended again where nothing waits."""
        if served.counts is None and not await self.loop.run_in_executor(None, os.path.exists, served.line.file):
            self._forget(served)  # nothing was ever sold
            return
        if self.closing or served.is_gone or served.beginning is not None or served.books is not None or len(self.running) >= self.most:
            return
        self._begin(served)
        if served.looking is None:
            served.looking = self._spawn(self._look(served))
        await asyncio.wait({served.looking})

    async def _list_resting(self, served: Served) -> None:
        """Lists the refused records of a shop where nothing waits."""
        assert served.counts is not None
        served.round_at = self.loop.time() + ROUND_AGAIN
        noted = served.counts.noted
        try:
            async with self.one_list:
                rows = await asyncio.wait_for(list_refused(self.program, served.line.file, served.line.name), ANSWER_WITHIN)
        except asyncio.TimeoutError:
            return
        if rows is not None:
            served.refused, served.listed = len(rows), noted
            self._forget(served)

    # ---- the hub's end

    async def wait_until_ready(self) -> None:
        """A hub of many is ready at once."""

    def close(self) -> None:
        """Closes all pipes, and ends once all programs have ended: what waits is sent when the hub has begun again."""
        self.closing = True
        for task in self.tasks:
            task.cancel()
        for served in self.running:
            self._close(served, CLOSING)
        self.loop.call_later(2 * CLOSING, self._kill_the_rest)
        if not self.running and not self.ended.done():
            self.ended.set_result(0)

    def _kill_the_rest(self) -> None:
        """Kills what still runs long after all pipes were closed."""
        for served in list(self.running):
            if served.shop is not None:
                served.shop.kill()

    def kill(self) -> None:
        """Kills all programs."""
        self.closing = True
        for served in list(self.running):
            if served.shop is not None:
                served.shop.kill()
        if not self.ended.done():
            self.ended.set_result(STATUS_KILLED)
