#!/usr/bin/python3
"""A hub of many shops, measured; each figure and its peer's are of one run.

    bench/hosting.py [PART ..]     parts `shops`, `beside`, `idle`, `memory`, `kills` (all); VERIFACTU names the program, else the stand-in

- `shops`: 1,000 shops of 10 sales each through one hub, 32 tills at once. Wanted: each once.
- `beside`: sales a second over 64 shops of one till, and over one shop of 64 tills, in turns, the fastest of three counts. Wanted: no fewer.
- `idle`: a shop of 10,000 records whose program was ended: seconds of the first request. Wanted: within 0.2.
- `memory`: what a resting shop takes in the hub, with 3 tills and an owner, of 10,000; what a running one takes in the hub, and its program,
  at 10 records and at 10,010, over an adapter that all shops share and in a trial; and one adapter process for 1,000 pairs of FIFOs, each of
  which has been spoken to. Wanted: under 10 KB; under 4 MB beside the hub; under 100 MB.
- `kills`: 16 shops that sell beside one whose program is killed every second, and beside the same one in peace. Wanted: no shop's slowest
  hundredth of sales more than doubles.

Tills run in processes of their own, four of them.
"""
from __future__ import annotations

import json
import os
import signal
import subprocess
import sys
import threading
import time
from typing import Any, Callable, Dict, List, Sequence, Tuple

HERE = os.path.dirname(os.path.realpath(__file__))
sys.path.insert(0, os.path.join(HERE, "..", "hub"))

import tills  # noqa: E402
from trying import ADAPTER, NIF, PYTHON, STAND_IN, Hub, Options, Street, run_program, until  # noqa: E402

PROCESSES = 4
Seller = Tuple[str, int]  # a shop's name, and a till's number


def client() -> None:
    """A process of tills: it reads what to sell, waits for a line, sells, and prints what was answered, and after how many seconds."""
    asked = json.loads(sys.stdin.readline())
    sellers = [tills.Till(asked["port"], number, token, prefix=f"/shops/{name}") for name, number, token in asked["sellers"]]
    sys.stdin.readline()
    tills.run(sell(sellers, asked["first"], asked["count"], asked["at_once"]))
    print(json.dumps([[till.times, till.repeats, list(till.sold.values())] for till in sellers]), flush=True)


async def sell(sellers: List[tills.Till], first: int, count: int, at_once: int) -> None:
    """Each sells so many times, so many of them at once."""
    import asyncio

    room = asyncio.Semaphore(at_once)

    async def one(till: tills.Till) -> None:
        async with room:
            await till.sell(count, first)

    await asyncio.gather(*map(one, sellers))


def together(hub: Hub, sellers: List[Seller], count: int, at_once: int, first: int = 1) -> Tuple[float, Dict[Seller, Any]]:
    """Sells in four processes: the seconds that it took, and for each till its times, its repeats and what was answered."""
    runs = []
    for at in range(PROCESSES):
        mine = sellers[at::PROCESSES]
        run = subprocess.Popen([sys.executable, os.path.realpath(__file__), "client"], stdin=subprocess.PIPE, stdout=subprocess.PIPE, text=True)
        assert run.stdin is not None
        asked = {"port": hub.port, "first": first, "count": count, "at_once": max(1, at_once // PROCESSES),
                 "sellers": [[name, number, hub.place.till[name, number]] for name, number in mine]}
        run.stdin.write(json.dumps(asked) + "\n")
        run.stdin.flush()
        runs.append((run, mine))
    time.sleep(1)
    began = time.perf_counter()
    for run, _ in runs:
        assert run.stdin is not None
        run.stdin.write("go\n")
        run.stdin.flush()
    told: Dict[Seller, Any] = {}
    for run, mine in runs:
        told.update(zip(mine, json.loads(run.communicate()[0])))
    return time.perf_counter() - began, told


def over(street: Street, work: Callable[[Hub], Any], *words: str) -> Any:
    """Runs `work` over a hub of a street, which is removed afterwards."""
    hub = Hub(street, *words)
    try:
        return work(hub)
    finally:
        hub.end()
        street.remove()


def sell_once(hub: Hub, name: str, serial: int) -> float:
    """The seconds of a sale on a connection of its own."""
    body = {"serial": serial, "series": "T1", "kind": "F2", "lines": [{"class": "21", "base": serial}]}
    began = time.perf_counter()
    answer = hub.ask("POST", f"/shops/{name}/v1/sales", hub.place.till[name, 1], body)
    seconds = time.perf_counter() - began
    if answer.status != 201:
        sys.exit(f"{name} {serial}: {answer.status} {answer.body!r}")
    return seconds


# ---- the parts


def shops() -> None:
    """1,000 shops."""
    names = [f"shop-{number}" for number in range(1_000)]

    def work(hub: Hub) -> None:
        seconds, told = together(hub, [(name, 1) for name in names], 10, 32)
        peak = memory_of(hub.process.pid, "VmHWM")
        hub.stop()
        wrong = 0
        for name in names:
            rows = [line.split(" ")[2] for line in run_program("list", hub.place.file(name), "all")[1].splitlines()[:-1]]
            wrong += rows != [f"T1-{serial}" for serial in range(1, 11)] or [row[1] for row in told[name, 1][2]] != rows
        repeats = sum(row[1] for row in told.values())
        print(f"shops: 10,000 sales of 1,000 shops in {seconds:.1f} s, {10_000 / seconds:.0f} a second, at most 200 programs at once, {repeats} asked again; "
              f"{1_000 - wrong} shops have each sale once (wanted: 1,000); the hub in {peak / 1000:.0f} MB", flush=True)

    over(Street(names), work)


def beside() -> None:
    """64 shops, and 64 tills of one."""
    names = [f"shop-{number}" for number in range(64)]
    count = 50
    best: Dict[str, float] = {}
    for turn in range(3):
        for kind, sellers in (("64 shops", [(name, 1) for name in names]), ("64 tills of one", [("large", number) for number in range(1, 65)])):
            street = Street(names)
            street.lines["large"] = f"large {NIF} {street.file('large')}"
            street.add_tokens("large", 64)
            street.write()

            def work(hub: Hub, sellers: List[Seller] = sellers) -> Tuple[float, float]:
                together(hub, sellers, 1, 64)  # the programs are started
                seconds, told = together(hub, sellers, count, 64, 2)
                times = [one for row in told.values() for one in row[0]]
                return seconds, tills.middle(times, 0.99)

            seconds, late = over(street, work)
            pace = 64 * count / seconds
            print(f"  turn {turn + 1}: {kind}: {pace:.0f} sales a second, 99 of 100 within {late * 1000:.0f} ms", flush=True)
            best[kind] = max(pace, best.get(kind, 0.0))
    print(f"beside: 64 shops {best['64 shops']:.0f} sales a second, 64 tills of one {best['64 tills of one']:.0f}: "
          f"{best['64 shops'] / best['64 tills of one']:.2f} times (wanted: 1)", flush=True)


def file_of(path: str, count: int, agency: Sequence[str] = ()) -> None:
    """A file of so many records, all noted by the practice agency, or over an adapter."""
    script = "clock 1735722000 1\n" + "".join(f"sale 1 {serial} T1 F2 21:1000\n" for serial in range(1, count + 1))
    for text, words in ((script, ["chain"]), ("clock 1767258000 60\n", [*agency, "drain"])):
        subprocess.run([Options.program, *words, path, NIF], input=text, stdout=subprocess.DEVNULL, stderr=subprocess.DEVNULL, text=True, check=True)


def idle() -> None:
    """The first request after an idle time."""
    count, turns = 10_000, 20
    street = Street(["shop"])
    if Options.program == STAND_IN:
        print("idle: the stand-in makes no such file: name a program by VERIFACTU")
        return
    file_of(street.file("shop"), count)

    def work(hub: Hub) -> None:
        times = []
        for serial in range(count + 1, count + 1 + turns):
            until(lambda: not hub.programs(), "the program has ended", 300)
            times.append(sell_once(hub, "shop", serial))
        again = [sell_once(hub, "shop", serial) for serial in range(count + 1 + turns, count + 1 + 2 * turns)]
        print(f"idle: the first request at {count} records: median {tills.middle(times) * 1000:.0f} ms, the longest of {turns} {max(times) * 1000:.0f} ms "
              f"(wanted: 200); of a program that runs {tills.middle(again) * 1000:.1f} ms", flush=True)

    over(street, work, "--idle", "1")


def memory_of(process: int, name: str = "VmRSS") -> int:
    """Kilobytes of a process."""
    with open(f"/proc/{process}/status", encoding="utf-8") as status:
        return next(int(line.split()[1]) for line in status if line.startswith(name + ":"))


def own_memory(process: int) -> int:
    """Kilobytes of a process, what is shared with others by its share."""
    with open(f"/proc/{process}/smaps_rollup", encoding="utf-8") as rows:
        return next(int(line.split()[1]) for line in rows if line.startswith("Pss:"))


def memory() -> None:
    """Resting shops, and running ones."""
    def rested(hub: Hub) -> int:
        time.sleep(5)  # its round is over: no file is there
        return memory_of(hub.process.pid)

    few = over(Street(["shop-0"], 3), rested)
    many = over(Street([f"shop-{number}" for number in range(10_001)], 3), rested)
    print(f"memory: a resting shop with 3 tills and an owner {(many - few) / 10_000:.2f} KB (wanted: under 10); a hub of one such {few / 1000:.0f} MB, of 10,001 "
          f"{many / 1000:.0f} MB", flush=True)
    if Options.program == STAND_IN:
        running(100, 0, False)
        return
    for is_trial in (False, True):
        running(100, 0, is_trial)
        running(8, 10_000, is_trial)
    adapter_of_many(1_000)


class Pairs:
    """A practice adapter in one process for all shops of a street, whose lines name its FIFOs from now on."""

    def __init__(self, street: Street, names: List[str]) -> None:
        self.at = {name: (f"{street.path}/{name}.to", f"{street.path}/{name}.from") for name in names}
        with open(f"{street.path}/pairs", "w", encoding="utf-8") as file:
            for name, (to, from_) in self.at.items():
                os.mkfifo(to, 0o600)
                os.mkfifo(from_, 0o600)
                street.lines[name] += f" {to} {from_}"
                file.write(f"{to} {from_} {street.path}/{name}.journal\n")
        street.write()
        self.process = subprocess.Popen([PYTHON, ADAPTER, "--pairs", f"{street.path}/pairs"])

    def end(self) -> None:
        """Ends it."""
        self.process.kill()
        self.process.wait()


def adapter_of_many(count: int) -> None:
    """What one adapter process takes for so many pairs."""
    street = Street([f"shop-{number}" for number in range(count)])
    adapter = Pairs(street, list(street.lines))
    talks = []
    for to, from_ in adapter.at.values():
        message, answer = open(to, "wb", buffering=0), open(from_, "rb")
        message.write(b'\n{"issuer":"%s","n":1,"noted":0,"protocol":2,"t":"begin"}\n' % NIF.encode())
        until(lambda answer=answer: b"begun" in answer.readline(), "the adapter answers")  # type: ignore[misc]
        talks.append((message, answer))
    print(f"memory: one adapter process for {count} pairs of FIFOs {own_memory(adapter.process.pid) / 1000:.0f} MB (wanted: under 100)", flush=True)
    adapter.end()
    street.remove()


def running(count: int, records: int, is_trial: bool) -> None:
    """So many running programs, of files with so many records, over an adapter that they share or over the program's practice agency."""
    names = [f"shop-{number}" for number in range(count)]
    street = Street(names)
    adapter = None if is_trial else Pairs(street, names)
    for name in names if records else []:
        file_of(street.file(name), records, [] if adapter is None else ["--agency", *adapter.at[name]])
    if records:
        print(f"memory: on the disk {os.path.getsize(street.file(names[0])) / records:.0f} bytes a record with its note", flush=True)

    def work(hub: Hub) -> None:
        before = memory_of(hub.process.pid)
        together(hub, [(name, 1) for name in names], 10, 16, records + 1)
        programs = hub.programs()
        shares = [own_memory(process) for process in programs]
        whole = [memory_of(process) for process in programs]
        grown = (memory_of(hub.process.pid) - before) / len(programs)
        print(f"memory: {'in a trial' if is_trial else 'over an adapter'}, of {len(programs)} running programs with {records + 10} records each "
              f"{sum(shares) / len(shares) / 1000:.2f} MB by its share, the greatest {max(shares) / 1000:.2f} ({max(whole) / 1000:.2f} with what all share; "
              f"wanted: under 4); the hub {grown:.0f} KB more for each", flush=True)
        if adapter is not None:
            adapter.end()

    over(street, work, *([] if is_trial else ["--host", "test"]))


def kill_each_second(hub: Hub, stop: threading.Event, killed: List[int]) -> None:
    """Kills the victim's program every second, until it is told to stop."""
    while not stop.wait(1):
        for process in hub.programs():
            with open(f"/proc/{process}/cmdline", "rb") as words:
                is_victims = hub.place.file("victim").encode() in words.read()
            if is_victims:
                os.kill(process, signal.SIGKILL)
                killed.append(process)


def late_sales(names: List[str], count: int, is_killed: bool) -> Dict[str, float]:
    """Within how many seconds 99 of 100 sales of each shop are answered, beside a shop of four tills whose program is killed or not."""
    street = Street(names)
    street.lines["victim"] = f"victim {NIF} {street.file('victim')}"
    street.add_tokens("victim", 4)
    street.write()

    def work(hub: Hub) -> Dict[str, float]:
        stop, killed = threading.Event(), []  # type: ignore[var-annotated]
        killing = threading.Thread(target=kill_each_second, args=(hub, stop, killed))
        if is_killed:
            killing.start()
        _, told = together(hub, [("victim", number) for number in range(1, 5)] + [(name, 1) for name in names], count, 64)
        stop.set()
        if is_killed:
            killing.join()
            print(f"  {len(killed)} kills, {sum(told[name, 1][1] for name in names)} sales of other shops asked again", flush=True)
        return {name: tills.middle(told[name, 1][0], 0.99) for name in names}

    found: Dict[str, float] = over(street, work)
    return found


def kills() -> None:
    """A program that is killed every second beside others."""
    names = [f"shop-{number}" for number in range(16)]
    least: Dict[bool, Dict[str, float]] = {}
    for _ in range(3):
        for is_killed in (False, True):
            seen = late_sales(names, 600, is_killed)
            least[is_killed] = {name: min(seen[name], least.get(is_killed, seen)[name]) for name in names}
            print(f"  {'beside kills' if is_killed else 'in peace'}: 99 of 100 within {tills.middle(list(seen.values())) * 1000:.1f} ms in the middle of the shops, "
                  f"{max(seen.values()) * 1000:.1f} at the slowest", flush=True)
    ratios = sorted(least[True][name] / least[False][name] for name in names)
    print(f"kills: beside a program that is killed every second 99 of 100 sales of a shop take {tills.middle(ratios):.2f} times as long in the middle of 16 "
          f"shops, {ratios[-1]:.2f} at the most (wanted: 2)", flush=True)


if __name__ == "__main__":
    if "VERIFACTU" in os.environ:
        Options.program = os.path.realpath(os.environ["VERIFACTU"])
    if sys.argv[1:2] == ["client"]:
        client()
    else:
        for part in sys.argv[1:] or ["shops", "beside", "idle", "memory", "kills"]:
            {"shops": shops, "beside": beside, "idle": idle, "memory": memory, "kills": kills}[part]()
