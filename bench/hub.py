#!/usr/bin/python3
"""The hub, measured beside a bare client of `serve` that asks the same two lines (`sale`, then `ticket`) in the same run.

    bench/hub.py [N]         N sales of a lone client, and as many of 64 tills together (3,200); VERIFACTU names the program, else the stand-in

It prints sales a second and medians, with what is wanted: 64 tills at least 0.5 of the bare client's sales a second; one till's median at most
4 times the bare client's; 64 tills beside 1,000 connections that are silent or send a byte a second at least 0.7 of what they sell without, and
the hub under 100 MB. Tills run in processes of their own, four of them.
"""
from __future__ import annotations

import asyncio
import os
import subprocess
import sys
import time
from typing import Any, List, Tuple

HERE = os.path.dirname(os.path.realpath(__file__))
sys.path.insert(0, os.path.join(HERE, "..", "hub"))

import tills  # noqa: E402
from trying import NIF, Hub, Options, Place  # noqa: E402

PROCESSES = 4
TILLS = 64
SLOW = 1_000


def bare(place: Place, count: int) -> List[float]:
    """The seconds of each sale of a client that holds the pipe itself."""
    run = subprocess.Popen([Options.program, "serve", place.file, NIF], stdin=subprocess.PIPE, stdout=subprocess.PIPE, stderr=subprocess.DEVNULL, bufsize=0)
    assert run.stdin is not None and run.stdout is not None
    times = []
    for serial in range(1, count + 1):
        began = time.perf_counter()
        run.stdin.write(f"sale 1 {serial} T1 F2 21:{serial}\n".encode())
        num = run.stdout.readline().split()[6].decode()
        run.stdin.write(f"ticket {num} test\n".encode())
        if run.stdout.readline().split()[2].decode() != num:
            sys.exit(f"no ticket of {num}")
        times.append(time.perf_counter() - began)
    run.kill()
    run.wait()
    return times


def client(words: List[str]) -> None:
    """A process of tills: it waits for a line, sells, and prints the seconds of its median sale and of 99 of 100."""
    port, first, count, sales = map(int, words[:4])
    tokens = words[4:]
    sellers = [tills.Till(port, first + at, tokens[at]) for at in range(count)]
    sys.stdin.readline()
    tills.run(tills.sell_together(sellers, sales))
    times = [seconds for seller in sellers for seconds in seller.times]
    print(tills.middle(times), tills.middle(times, 0.99), sum(seller.repeats for seller in sellers), flush=True)


def sell_together(hub: Hub, sales: int, first_of: int = 1) -> Tuple[float, List[List[float]]]:
    """64 tills in four processes: the seconds that it took, and what each process printed."""
    each = TILLS // PROCESSES
    runs = []
    for at in range(PROCESSES):
        first = 1 + at * each
        tokens = [hub.place.till[number] for number in range(first, first + each)]
        words = [sys.executable, os.path.realpath(__file__), "client", str(hub.port), str(first), str(each), str(sales), *tokens]
        runs.append(subprocess.Popen(words, stdin=subprocess.PIPE, stdout=subprocess.PIPE, text=True))
    time.sleep(1)
    began = time.perf_counter()
    for run in runs:
        assert run.stdin is not None
        run.stdin.write("go\n")
        run.stdin.flush()
    told = [[float(word) for word in run.communicate()[0].split()] for run in runs]
    return time.perf_counter() - began, told


def beside_slow_ones(hub: Hub, sales: int) -> Tuple[float, int]:
    """The seconds that 64 tills take beside the slow connections, and the hub's greatest memory in kilobytes."""

    async def work() -> float:
        slow = tills.Slow(hub.port, SLOW, hub.place.owner)
        await slow.begin()
        await asyncio.sleep(3)
        seconds, _ = await asyncio.get_running_loop().run_in_executor(None, sell_together, hub, sales)
        slow.stop()
        return float(seconds)

    seconds = tills.run(work())
    with open(f"/proc/{hub.process.pid}/status", encoding="utf-8") as status:
        return seconds, next(int(line.split()[1]) for line in status if line.startswith("VmHWM"))


def over_a_hub(work: Any) -> Any:
    """Runs `work` over a hub on a new file."""
    place = Place()
    hub = Hub(place)
    try:
        return work(hub)
    finally:
        hub.end()
        place.remove()


def lone(hub: Hub, count: int) -> List[float]:
    """The seconds of each sale of one till."""
    seller = tills.Till(hub.port, 1, hub.place.till[1])
    tills.run(seller.sell(count))
    return seller.times


def main(count: int) -> None:
    """Measures and prints."""
    sales = max(1, count // TILLS)
    place = Place()
    times = bare(place, count)
    place.remove()
    pace, median = count / sum(times), tills.middle(times)
    print(f"bare client: {pace:.0f} sales a second, median {median * 1000:.2f} ms, 99 of 100 within {tills.middle(times, 0.99) * 1000:.2f} ms")
    alone = tills.middle(over_a_hub(lambda hub: lone(hub, max(100, count // 8))))
    print(f"one till: median {alone * 1000:.2f} ms, {alone / median:.1f} times the bare client's (wanted: at most 4)")
    seconds, told = over_a_hub(lambda hub: sell_together(hub, sales))
    together = TILLS * sales / seconds
    middle, late = (max(row[at] for row in told) * 1000 for at in (0, 1))
    print(f"64 tills: {together:.0f} sales a second, {together / pace:.2f} of the bare client's (wanted: 0.5); median {middle:.0f} ms, 99 of 100 within {late:.0f} ms")
    seconds, memory = over_a_hub(lambda hub: beside_slow_ones(hub, sales))
    slowed = TILLS * sales / seconds
    print(f"64 tills beside {SLOW} slow connections: {slowed:.0f} sales a second, {slowed / together:.2f} of what they sell without (wanted: 0.7), "
          f"{memory / 1000:.0f} MB (wanted: under 100)")


if __name__ == "__main__":
    if "VERIFACTU" in os.environ:
        Options.program = os.path.realpath(os.environ["VERIFACTU"])
    if sys.argv[1:2] == ["client"]:
        client(sys.argv[2:])
    else:
        main(int(sys.argv[1]) if sys.argv[1:] else 3_200)
