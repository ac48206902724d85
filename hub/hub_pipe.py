"""The pipe to one shop's program, `verifactu serve`: kept up, with many lines in flight.

A `Shop` starts the program, writes lines into its pipe as they come, and holds each answer against the line whose turn it is. Where the
program has ended it is started again, and what is still waited for is written again, in its order. Nothing here is global, so one hub may
hold many shops. docs/TILLS.md has the lines and the answers.
"""
from __future__ import annotations

import asyncio
import ctypes
import signal
import sys
from collections import deque
from dataclasses import dataclass
from datetime import datetime, timezone
from typing import Any, Callable, Deque, Dict, Generic, List, Optional, Sequence, Tuple, TypeVar

from hub_limits import (
    FRESH, KILLED_AFTER, LONGEST_FAULT, LONGEST_PAUSE, LONGEST_PAUSE_OF_MANY, MOST_ANSWER, MOST_CUSTOMERS, MOST_FAULTS, PING, TURNS,
)

T = TypeVar("T")

MENDED_BY_NO_RESTART = (2, 7, 11, 13)  # statuses
STDERR = 2  # its number in the program
PRACTICE = "practice agency: "  # how the program's line begins by which it says that it is a trial
PRACTISES = "the agency: for practice: "  # and how that begins by which its adapter does

_libc = ctypes.CDLL(None)


class Unavailable(Exception):
    """There is no answer. What was asked may have been done: the same is to be asked again."""


class BadLine(Exception):
    """The program's answer `line N WORD`."""

    def __init__(self, word: str) -> None:
        super().__init__(word)
        self.word = word


class Ending:
    """What `Line.read` gives for an answer by which the run ends: `fault disk` and `fault stopped`."""


@dataclass(frozen=True)
class Line(Generic[T]):
    """A line of `serve`, without its LF.

    `read` gives what an answer says, None where it isn't an answer to this line, or Ending. Where there is a customer (NIF and name),
    ` to=KEY` stands between head and tail.
    """

    head: str
    read: Callable[[str], Any]
    tail: str = ""
    customer: Optional[Tuple[str, str]] = None


@dataclass(frozen=True)
class Counts:
    """What `chain` answers: how many records there are, and of how many the agency's line is noted."""

    records: int
    noted: int


def read_counts(answer: str) -> Optional[Counts]:
    """The answer to `chain`."""
    words = answer.split(" ")
    if len(words) != 4 or words[0] != "chain" or words[2] != "noted" or not (words[1] + words[3]).isdecimal():
        return None
    return Counts(int(words[1]), int(words[3]))


CHAIN: Line[Counts] = Line("chain", read_counts)


class Asked:
    """A line that somebody waits for. `ended` counts how often the program ended at its turn."""

    __slots__ = ("line", "answer", "ended")

    def __init__(self, line: Line[Any], answer: "asyncio.Future[Any]") -> None:
        self.line = line
        self.answer = answer
        self.ended = 0

    def give(self, value: Any) -> None:
        """Hands the answer on, if it is still waited for."""
        if not self.answer.done():
            self.answer.set_result(value)

    def fail(self, fault: Exception) -> None:
        """Hands a fault on, if it is still waited for."""
        if not self.answer.done():
            self.answer.set_exception(fault)


class Customer:
    """A customer of one run: the KEY, and the program's word where it refused the customer."""

    __slots__ = ("key", "word")

    def __init__(self, key: str) -> None:
        self.key = key
        self.word: Optional[str] = None


class Flying:
    """A line in the pipe whose answer is to come. `says` tells a customer's own line from one that names a customer."""

    __slots__ = ("number", "asked", "customer", "says")

    def __init__(self, number: int, asked: Asked, customer: Optional[Customer], says: bool) -> None:
        self.number = number
        self.asked = asked
        self.customer = customer
        self.says = says


class Faults:
    """What a program says on its standard error: each line is told, with the shop's name, and the last ones say why it ended."""

    def __init__(self, name: str) -> None:
        self.name = name
        self.rest = b""
        self.lines: Deque[str] = deque(maxlen=MOST_FAULTS)
        self.practises = False  # whether the adapter has said that it is for practice

    def hear(self, data: bytes) -> None:
        """Takes what was read; a line that is too long is cut off."""
        *lines, self.rest = (self.rest + data).split(b"\n")
        self.rest = self.rest[:LONGEST_FAULT]
        for line in lines:
            said = line[:LONGEST_FAULT].decode("utf-8", "replace")
            text = said[len("verifactu: "):] if said.startswith("verifactu: ") else said
            if self.name:
                tell(text, self.name)
            else:
                sys.stderr.write(f"{said}\n")
            self.practises = self.practises or text.startswith(PRACTISES)
            if not text.startswith((PRACTICE, PRACTISES)):
                self.lines.append(text)

    def reason(self, status: int) -> str:
        """Why a run ended, as somebody may be told who isn't to know the file's path."""
        said = "; ".join(line.rpartition(": ")[2] for line in self.lines)
        return f"the program ended with status {status}" + (f": {said}" if said else "")


class Run(asyncio.SubprocessProtocol):
    """One start of the program, until it has ended and all that it wrote was read."""

    def __init__(self, shop: "Shop") -> None:
        self.shop = shop
        self.faults = Faults(shop.name)
        self.program: Optional[asyncio.SubprocessTransport] = None
        self.stdin: Any = None
        self.flight: Deque[Flying] = deque()
        self.customers: Dict[Tuple[str, str], Customer] = {}
        self.keys = 0
        self.number = 0
        self.rest = b""
        self.answered = False
        self.over = False  # nothing more is written or read
        self.killed = False  # by the hub itself, for no fault of the line whose turn it is

    @property
    def is_full(self) -> bool:
        """Whether so many customers were said that no more lines are written in this run."""
        return self.keys >= MOST_CUSTOMERS

    # ---- writing

    def write(self, asked: Asked) -> None:
        """Writes a line, after its customer's where that one wasn't said yet."""
        line, text, customer = asked.line, asked.line.head, None
        if line.customer is not None:
            customer = self.customers.get(line.customer) or self._say(line.customer, asked)
            text += f" to={customer.key}"
        self._put(text + line.tail, asked, customer, False)

    def _say(self, party: Tuple[str, str], asked: Asked) -> Customer:
        self.keys += 1
        customer = self.customers[party] = Customer(f"C{self.keys}")
        self._put(f"customer {customer.key} {party[0]} {party[1]}", asked, customer, True)
        return customer

    def _put(self, text: str, asked: Asked, customer: Optional[Customer], says: bool) -> None:
        self.number += 1
        self.flight.append(Flying(self.number, asked, customer, says))
        self.stdin.write(text.encode() + b"\n")

    def close(self) -> None:
        """Closes the pipe: the program's sender hands over what waits, and it ends."""
        if self.stdin is not None:
            self.stdin.close()

    def kill(self) -> None:
        """Kills the program at once. Its records stand."""
        self.over = self.killed = True
        self._send_kill()

    def _send_kill(self) -> None:
        if self.program is not None and self.program.get_returncode() is None:
            self.program.kill()

    # ---- reading

    def connection_made(self, transport: asyncio.BaseTransport) -> None:
        self.program = transport  # type: ignore[assignment]
        self.stdin = transport.get_pipe_transport(0)  # type: ignore[attr-defined]
        self.shop.begun(self)

    def pipe_data_received(self, fd: int, data: bytes) -> None:
        if fd == STDERR:
            self.faults.hear(data)
            return
        *answers, self.rest = (self.rest + data).split(b"\n")
        for answer in answers:
            if self.over:
                return
            self._hear(answer.decode("utf-8", "replace"))
        if len(self.rest) > MOST_ANSWER:
            self._distrust(None)

    def connection_lost(self, exc: Optional[Exception]) -> None:
        self.shop.run_ended(self)
        if self.program is not None:
            self.program.close()

    def _hear(self, answer: str) -> None:
        flying = self.flight.popleft() if self.flight else None
        counts = read_counts(answer) if flying is None and self.shop.closing else None
        if counts is not None:
            self.shop.see(counts)  # the chain line, after the pipe was closed
            return
        if flying is None or not self._take(flying, answer):
            self._distrust(flying)
            return
        self.shop.heard = self.shop.loop.time()
        self.shop.reason = ""
        if self.is_full and not self.flight and not self.over:
            self.kill()

    def _take(self, flying: Flying, answer: str) -> bool:
        """Hands an answer on; False where it isn't this line's."""
        prefix = f"line {flying.number} "
        word = answer[len(prefix):] if answer.startswith(prefix) else None
        if flying.says:
            return self._take_customer(flying, answer, word)
        if flying.customer is not None and flying.customer.word is not None:
            flying.asked.fail(BadLine(flying.customer.word))
            return word is not None
        value = flying.asked.line.read(answer) if word is None else None
        if value is Ending:
            self._end_by_its_disk(flying)
            return True
        self.answered = True
        if word is not None:
            flying.asked.fail(BadLine(word))
        elif value is not None:
            flying.asked.give(value)
        return word is not None or value is not None

    def _take_customer(self, flying: Flying, answer: str, word: Optional[str]) -> bool:
        customer = flying.customer
        assert customer is not None
        self.answered = True
        if word is None:
            return answer == f"customer {customer.key}"
        customer.word = word
        party = flying.asked.line.customer
        if party is not None:
            self.customers.pop(party, None)
        return True

    def _end_by_its_disk(self, flying: Flying) -> None:
        """The program ends by itself: the answer counts as none, and the line keeps its turn."""
        self.flight.appendleft(flying)
        self.over = True
        self.shop.loop.call_later(KILLED_AFTER, self._send_kill)

    def _distrust(self, flying: Optional[Flying]) -> None:
        """An answer that isn't its line's: what it was meant for isn't known."""
        tell("the program's answer isn't that of its line: it is killed and started again", self.shop.name)
        if flying is not None:
            flying.asked.fail(Unavailable("the program answered another line"))
        self.kill()


class Shop:
    """A program, its pipe, what waits for it, and when it is started again.

    `ended` is the status by which the hub has to end: of a program that no restart mends, or of the last one after `close` or `kill`. With a
    name, that of one of many shops, what the program says on its standard error is told with it.
    """

    def __init__(self, words: Sequence[str], name: str = "") -> None:
        self.words = list(words)
        self.name = name
        self.loop = asyncio.get_running_loop()
        self.ended: "asyncio.Future[int]" = self.loop.create_future()
        self.run: Optional[Run] = None
        self.held: Deque[Asked] = deque()  # not in the pipe
        self.starts = 0
        self.heard = float("-inf")  # when the last answer came, on the loop's clock
        self.counts_seen: Optional[Counts] = None
        self.seen_at = float("-inf")  # when they were, on the loop's clock
        self.noted_at: Optional[datetime] = None
        self.failures = 0  # runs in a row that answered nothing
        self.status = 0  # of the last run
        self.reason = ""  # why the last run ended, until one answers
        self.closing = False
        self.killing = False
        self.timer: Optional[asyncio.TimerHandle] = None
        self.starting: Optional["asyncio.Task[None]"] = None
        self.ping: Optional["asyncio.Future[Counts]"] = None
        self.before_start: Optional[Callable[[], None]] = None  # what is done once, while no program runs

    @property
    def has_answered(self) -> bool:
        """Whether the program ever answered a line."""
        return self.heard > float("-inf")

    @property
    def practises(self) -> bool:
        """Whether the adapter of the program that runs has said that it is for practice."""
        return self.run is not None and self.run.faults.practises

    # ---- asking

    def ask(self, line: Line[T]) -> "asyncio.Future[T]":
        """The future answer. It fails with BadLine, or Unavailable; a future that is cancelled is waited for no more."""
        asked = Asked(line, self.loop.create_future())
        if self.ended.done():
            asked.fail(Unavailable(self.reason or "the program has ended"))
        elif self.run is None or self.run.over or self.run.is_full:
            self.held.append(asked)
        else:
            self.run.write(asked)
        return asked.answer

    async def counts(self) -> Counts:
        """Asks `chain`, and keeps when the agency's lines were seen to become more."""
        return self.see(await self.ask(CHAIN))

    def see(self, counts: Counts) -> Counts:
        """Keeps what `chain` answered."""
        if self.counts_seen is not None and counts.noted > self.counts_seen.noted:
            self.noted_at = datetime.now(timezone.utc)
        self.counts_seen, self.seen_at = counts, self.loop.time()
        return counts

    async def is_alive(self) -> bool:
        """Whether the program answered a line in the last second, or answers `chain` within five."""
        if self.loop.time() - self.heard <= FRESH and self.run is not None:
            return True
        return await self.look() is not None

    async def look(self) -> Optional[Counts]:
        """What `chain` answers, None where nothing comes within five seconds. All who look share one line."""
        if self.ping is None or self.ping.done():
            self.ping = self.ask(CHAIN)
            self.ping.add_done_callback(lambda ping: ping.cancelled() or ping.exception())
        try:
            return self.see(await asyncio.wait_for(asyncio.shield(self.ping), PING))
        except (asyncio.TimeoutError, Unavailable, BadLine):
            return None

    # ---- the program

    def start(self) -> None:
        """Starts the program."""
        self.timer = None
        self.starting = self.loop.create_task(self._start())

    async def _start(self) -> None:
        self.starts += 1
        if self.before_start is not None:
            self.before_start()
            self.before_start = None
        try:
            await self.loop.subprocess_exec(
                lambda: Run(self), *self.words, stdin=asyncio.subprocess.PIPE, stdout=asyncio.subprocess.PIPE,
                stderr=asyncio.subprocess.PIPE, start_new_session=True, preexec_fn=_before_the_program)
        except OSError as fault:
            self.reason = f"the program can't be started: {fault.strerror}"
            tell(f"{self.words[0]}: {fault.strerror}", self.name)
            self._after(False)

    def begun(self, run: Run) -> None:
        """A run can be written to: all that is held goes into its pipe."""
        self.run = run
        if self.killing:
            run.kill()
        elif self.closing:
            run.close()
        self._write_held(run)

    def _write_held(self, run: Run) -> None:
        while self.held and not run.is_full:
            asked = self.held.popleft()
            if not asked.answer.done():
                run.write(asked)

    def run_ended(self, run: Run) -> None:
        """A run is over: what it left unanswered is held again, in its order, ahead of what came later."""
        assert run.program is not None
        self.run = None
        status = run.program.get_returncode() or 0
        self.status = status if status >= 0 else 128 - status
        self.reason = run.faults.reason(self.status)
        left = [flying.asked for flying in run.flight if not flying.says]
        if run.flight and not run.killed:
            self._count_turn(run.flight[0].asked)
        self.held.extendleft(asked for asked in reversed(left) if not asked.answer.done())
        is_planned = self.closing and (self.status == 0 or run.killed and self.name != "")
        if not is_planned:
            tell(f"the program ended with status {self.status}", self.name)
        self._after(run.answered)

    def _count_turn(self, asked: Asked) -> None:
        asked.ended += 1
        if asked.ended >= TURNS:
            asked.fail(Unavailable(f"{self.reason} (twice at this line's turn)"))

    def _after(self, answered: bool) -> None:
        """Ends for good, or starts the program again: at once where the run had answered a line."""
        if self.closing or self.status in MENDED_BY_NO_RESTART:
            self._end()
            return
        longest = LONGEST_PAUSE_OF_MANY if self.name else LONGEST_PAUSE
        pause = 0 if answered else min(longest, 2 ** min(self.failures, 10))
        self.failures = 0 if answered else self.failures + 1
        self.timer = self.loop.call_later(pause, self.start)

    def _end(self) -> None:
        if not self.ended.done():
            self.ended.set_result(self.status)
        for asked in self.held:
            asked.fail(Unavailable(self.reason or "the program has ended"))
        self.held.clear()

    def close(self) -> None:
        """Closes the pipe. `ended` comes once the sender has handed over what waits. For when nothing is asked any more."""
        self.closing = True
        if self.run is not None:
            self.run.close()
        elif self.timer is not None:
            self.timer.cancel()
            self._end()

    def kill(self) -> None:
        """Kills the program, and ends."""
        self.closing = self.killing = True
        if self.run is not None:
            self.run.kill()
        elif self.timer is not None:
            self.timer.cancel()
            self._end()


def _before_the_program() -> None:
    """In the child: where the hub is killed the program is killed too, so that the next hub finds the file unlocked;
    and at a limit on the file's size a write fails, and no signal ends the program."""
    _libc.prctl(1, signal.SIGKILL)
    signal.signal(signal.SIGXFSZ, signal.SIG_IGN)


def tell(text: str, name: str = "") -> None:
    """A line of the hub on standard error, about a shop where it is one of many."""
    try:
        sys.stderr.write(f"verifactu-hub: {name}: {text}\n" if name else f"verifactu-hub: {text}\n")
        sys.stderr.flush()
    except OSError:
        pass
