#!/usr/bin/python3
"""The hub under attack, measured beside the same hub at peace in the same run.

    bench/attacks.py [N]     N sales of each of 4 tills (200); VERIFACTU names the program, else the stand-in

It prints sales a second of 4 tills over TLS, each sale on a new connection: at peace, and while 1,000 silent connections
a second come ahead of TLS's handshake, with what the hub says of these in its log, and its memory; of a lone till whose
hub's log is thrown away, and not read; and how long `/health` takes at most while the hub reads 100,000 shops again.
Wanted: each sale is answered, and the log has no traceback.
"""
from __future__ import annotations

import asyncio
import fcntl
import os
import resource
import select
import signal
import socket
import ssl
import subprocess
import sys
import time
from collections import deque
from typing import Any, Deque, List, Tuple

HERE = os.path.dirname(os.path.realpath(__file__))
sys.path.insert(0, os.path.join(HERE, "..", "hub"))

import tills  # noqa: E402
from test_requests import make_certificate  # noqa: E402
from trying import HUB, Hub, Options, Place, Street, until  # noqa: E402

TILLS = 4
PACE = 1_000  # silent connections a second
KEPT = 5_000  # of them that stay open
SHOPS = 100_000


def flood(port: int) -> None:
    """A process that opens silent connections until its input ends, and prints how many."""
    hard = resource.getrlimit(resource.RLIMIT_NOFILE)[1]
    resource.setrlimit(resource.RLIMIT_NOFILE, (hard, hard))
    kept: Deque[socket.socket] = deque()
    opened, began = 0, time.monotonic()
    while not select.select([0], [], [], max(0.0, began + opened / PACE - time.monotonic()))[0]:
        line = socket.socket()
        line.setblocking(False)
        line.connect_ex(("127.0.0.1", port))
        kept.append(line)
        opened += 1
        if len(kept) > KEPT:
            kept.popleft().close()
    print(opened, flush=True)


async def sell_anew(seller: tills.Till, count: int) -> None:
    """Sells so many times, each on a new connection."""
    first = len(seller.sold) + 1
    for serial in range(first, first + count):
        await seller.sell(1, serial)


def sell_all(sellers: List[tills.Till], count: int) -> float:
    """The sales a second of all tills."""

    async def work() -> None:
        await asyncio.gather(*(sell_anew(seller, count) for seller in sellers))

    began = time.perf_counter()
    tills.run(work())
    return len(sellers) * count / (time.perf_counter() - began)


def flooded(count: int) -> None:
    """Silent connections ahead of TLS's handshake."""
    place = Place()
    make_certificate(place, "shop")
    hub = Hub(place, "--tls", f"{place.path}/cert", f"{place.path}/key")
    context = ssl.create_default_context(cafile=f"{place.path}/cert")
    sellers = [tills.Till(hub.port, number, place.till[number], tls=context) for number in range(1, TILLS + 1)]
    try:
        peace = sell_all(sellers, count)
        words = [sys.executable, os.path.realpath(__file__), "flood", str(hub.port)]
        run = subprocess.Popen(words, stdin=subprocess.PIPE, stdout=subprocess.PIPE, text=True)
        time.sleep(5)
        began, repeats = time.monotonic(), sum(seller.repeats for seller in sellers)
        pace = sell_all(sellers, count)
        seconds = 5 + time.monotonic() - began
        opened = int(run.communicate("end\n")[0])
        slowest = max(max(seller.times[count:]) for seller in sellers)
        time.sleep(11)  # it says every ten seconds how many were too many
        said = [line for line in hub.log if "TLS" in line]
        repeats, traces = sum(seller.repeats for seller in sellers) - repeats, sum("Traceback" in line for line in hub.log)
        print(f"{TILLS} tills over TLS, a connection a sale: {peace:.0f} sales a second; beside {opened / seconds:.0f} silent "
              f"connections a second, {opened} in all, {pace:.0f}: {pace / peace:.2f} times; the longest sale took "
              f"{slowest:.2f} s, {repeats} were asked again, all are answered")
        print(f"the log has {len(said)} lines of TLS and {traces} tracebacks (wanted: 0); the hub in {hub.memory() / 1000:.0f} MB")
    finally:
        hub.end()
        place.remove()


def unread(count: int, is_read: bool) -> float:
    """The sales a second of a lone till over a hub whose standard error is read, or not."""
    place = Place()
    with socket.create_server(("127.0.0.1", 0)) as free:
        port = int(free.getsockname()[1])
    reading, writing = os.pipe()
    fcntl.fcntl(writing, fcntl.F_SETPIPE_SZ, 4096)  # some seventy lines
    errors = subprocess.DEVNULL if is_read else writing
    words = [HUB, *place.words, "--listen", f"127.0.0.1:{port}", "--program", Options.program]
    hub = subprocess.Popen(words, stderr=errors)
    try:
        seller = tills.Till(port, 1, place.till[1])
        tills.run(seller.sell(1))
        began = time.perf_counter()
        tills.run(seller.sell(count, 2))
        return count / (time.perf_counter() - began)
    finally:
        hub.kill()
        hub.wait()
        os.close(reading)
        os.close(writing)
        place.remove()


def read_again() -> Tuple[float, float]:
    """The seconds in which a hub reads so many shops again at a SIGHUP, and those of `/health`'s longest answer meanwhile."""
    street = Street(["a"])
    street.lines.update({f"s{number}": f"s{number} 89890001K {street.path}/s{number}.chain" for number in range(SHOPS)})
    street.till.update({(f"s{number}", 1): f"{number:048d}" for number in range(SHOPS)})
    street.write()
    hub = Hub(street)
    try:
        until(lambda: hub.ask("GET", "/health").status == 200, "it answers")
        hub.process.send_signal(signal.SIGHUP)
        longest, began = 0.0, time.monotonic()
        while not hub.logged("read again: .* shops"):
            asked = time.monotonic()
            hub.ask("GET", "/health")
            longest = max(longest, time.monotonic() - asked)
        return time.monotonic() - began, longest
    finally:
        hub.end()
        street.remove()


def main(count: int) -> None:
    """Measures and prints."""
    flooded(count)
    read, not_read = (unread(max(200, 4 * count), is_read) for is_read in (True, False))
    print(f"one till: {read:.0f} sales a second where the log is thrown away, {not_read:.0f} where nobody reads it: "
          f"{not_read / read:.2f} times")
    seconds, longest = read_again()
    print(f"{SHOPS} shops read again in {seconds:.2f} s; the longest answer of /health meanwhile {longest:.2f} s")


if __name__ == "__main__":
    words: Any = sys.argv[1:]
    if "VERIFACTU" in os.environ:
        Options.program = os.path.realpath(os.environ["VERIFACTU"])
    if words[:1] == ["flood"]:
        flood(int(words[1]))
    else:
        main(int(words[0]) if words else 200)
