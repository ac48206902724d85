"""Many tills at once, for the tests and the bench: each keeps its serial, sells in order, and asks the same again until it is answered."""
from __future__ import annotations

import asyncio
import json
import ssl
import time
from typing import Any, Dict, List, Optional, Tuple

Sold = Tuple[int, str, str]  # place, number, HUELLA


class Till:
    """A till with one keep-alive connection. `times` are the seconds of each answered sale, `repeats` how often one was
    asked again; `prefix` stands in front of its path, where it is that of one of many shops; `tls` is there where the
    hub has a certificate, that of the host `shop`."""

    def __init__(self, port: int, number: int, token: str, address: str = "127.0.0.1", prefix: str = "",
                 tls: Optional[ssl.SSLContext] = None) -> None:
        self.address, self.port, self.number, self.tls = address, port, number, tls
        self.head = f"POST {prefix}/v1/sales HTTP/1.1\r\nHost: hub\r\nAuthorization: Bearer {token}\r\nContent-Type: application/json\r\nContent-Length: "
        self.sold: Dict[int, Sold] = {}
        self.times: List[float] = []
        self.repeats = 0
        self.fault: Optional[str] = None
        self.reader: Optional[asyncio.StreamReader] = None
        self.writer: Optional[asyncio.StreamWriter] = None

    async def sell(self, count: int, first: int = 1) -> None:
        """Sells so many times, from this serial on."""
        for serial in range(first, first + count):
            began = time.perf_counter()
            body = json.dumps({"serial": serial, "series": f"T{self.number}", "kind": "F2", "lines": [{"class": "21", "base": serial}]})
            while not await self.ask(serial, body):
                self.repeats += 1
                await asyncio.sleep(0.1)
            self.times.append(time.perf_counter() - began)
        self.close()

    async def ask(self, serial: int, body: str) -> bool:
        """Asks once: whether there was an answer that isn't to be asked again."""
        try:
            status, answer = await self._request(body)
        except (OSError, asyncio.IncompleteReadError, ValueError):
            self.close()
            return False
        if status in (429, 503):
            return False
        if status not in (200, 201):
            self.fault = f"till {self.number} serial {serial}: {status} {answer.decode()}"
            raise AssertionError(self.fault)
        kept = json.loads(answer)
        self.sold[serial] = (kept["place"], kept["num"], kept["huella"])
        return True

    async def _request(self, body: str) -> Tuple[int, bytes]:
        if self.writer is None:
            words: Any = {"ssl": self.tls, "server_hostname": "shop"} if self.tls else {}
            self.reader, self.writer = await asyncio.open_connection(self.address, self.port, **words)
        assert self.reader is not None
        self.writer.write(f"{self.head}{len(body)}\r\n\r\n{body}".encode())
        head = (await self.reader.readuntil(b"\r\n\r\n")).lower()
        length = int(head.partition(b"content-length: ")[2].partition(b"\r\n")[0])
        return int(head.split(b" ")[1]), await self.reader.readexactly(length)

    def close(self) -> None:
        """Closes its connection."""
        if self.writer is not None:
            self.writer.close()
        self.reader = self.writer = None


async def sell_together(tills: List[Till], count: int) -> float:
    """All tills sell so many times each; the seconds that it took."""
    began = time.perf_counter()
    await asyncio.gather(*(till.sell(count) for till in tills))
    return time.perf_counter() - began


def faults(tills: List[Till], rows: List[List[str]], count: int) -> List[str]:
    """What is wrong with the listing's rows of the tills' sales: each has to stand once, as answered, in its till's order."""
    wrong: List[str] = []
    at: Dict[str, int] = {row[2]: int(row[0]) for row in rows}
    if len(rows) != len(at) or len(rows) != len(tills) * count:
        wrong.append(f"{len(rows)} records, {len(at)} numbers, {len(tills) * count} sales")
    for till in tills:
        for serial in range(1, count + 1):
            place, num, _ = till.sold[serial]
            if num != f"T{till.number}-{serial}" or at.get(num) != place:
                wrong.append(f"till {till.number} serial {serial} was answered {place} {num}")
    return wrong


class Slow:
    """Connections that say nothing, or send a byte a second of a head or, the third kind, of a body: with the owner's token, since four
    requests that are under way are all that a till, or the owner, may have."""

    def __init__(self, port: int, count: int, token: str, kinds: int = 3, address: str = "127.0.0.1") -> None:
        self.port, self.count, self.address, self.kinds = port, count, address, kinds
        head = f"GET /v1/state HTTP/1.1\r\nHost: hub\r\nAuthorization: Bearer {token}\r\n"
        self.texts = [b"", head.encode(), f"{head}Content-Length: 60000\r\n\r\n".encode()]
        self.opened = 0
        self.ends: List[float] = []  # seconds after which each was closed
        self.tasks: List["asyncio.Task[None]"] = []

    async def begin(self) -> None:
        """Opens them all."""
        self.tasks = [asyncio.get_running_loop().create_task(self._one(at)) for at in range(self.count)]
        await asyncio.sleep(0)

    async def _one(self, at: int) -> None:
        began = time.monotonic()
        try:
            reader, writer = await asyncio.open_connection(self.address, self.port)
            self.opened += 1
            kind = at % self.kinds
            text = self.texts[kind]
            if kind == 2:
                writer.write(text)
            for part in range(1_000):
                if kind:
                    writer.write(text[part % len(text):][:1] if kind == 1 else b" ")
                if await self._is_closed(reader):
                    break
            writer.close()
        except OSError:
            pass
        self.ends.append(time.monotonic() - began)

    async def _is_closed(self, reader: asyncio.StreamReader) -> bool:
        """Whether it is closed within a second; an answer is read and passed over."""
        try:
            return await asyncio.wait_for(reader.read(4096), 1) == b""
        except asyncio.TimeoutError:
            return False

    def stop(self) -> None:
        """Ends them all."""
        for task in self.tasks:
            task.cancel()


def middle(times: List[float], part: float = 0.5) -> float:
    """The median, or another part, of some seconds."""
    ordered = sorted(times)
    return ordered[min(len(ordered) - 1, int(len(ordered) * part))] if ordered else 0.0


def run(work: Any) -> Any:
    """Runs a coroutine."""
    return asyncio.run(work)
