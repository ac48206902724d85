#!/usr/bin/env python3
"""A client of `verifactu serve`, measured. VERIFACTU names the program.

    bench/serve.py lockstep N   N sales, each asked once the one before is answered, on a real file; beside it the same client with
                                SQLite behind the pipe (WAL, synchronous FULL, an insert a transaction)
    bench/serve.py kill N       N programs killed at random moments, by a client that knows each answer it got: after each kill every
                                record that was answered stands, and a command that wasn't is asked again under its serial
    bench/serve.py comments N   N lines of comments: time and greatest memory
    bench/serve.py questions N  each question N times, at 1,000 and at 1,000,000 records, each asked once the one before is answered; beside
                                it the same client with SQLite's select of such a row behind the pipe (of lines, which no table has, a
                                select of 1). Both have what they need in memory, and take turns; the fastest turn of each counts
    bench/serve.py tickets N    N sales with their tickets and N without, on a real file, in turns, the fastest of each: of one till in
                                lockstep, and of 64 tills over one pipe, each in lockstep with itself
"""
import io
import os
import random
import resource
import sqlite3
import subprocess
import sys
import tempfile
import time

NIF = "89890001K"
TILLS = 64
TURNS = 40
SIZES = (1_000, 1_000_000)
SELECTS = {
    "ticket": "SELECT * FROM sale WHERE num = ? ORDER BY place DESC LIMIT 1",
    "record": "SELECT * FROM sale WHERE place = ?",
    "last": "SELECT max(serial) FROM sale WHERE till = ?",
    "lines": "SELECT 1",
    "chain": "SELECT max(place) FROM sale",
}


def program():
    return os.environ["VERIFACTU"]


def sqlite_behind_the_pipe(path):
    """The peer: a line is one insert, and is answered once it is committed."""
    base = sqlite3.connect(path, isolation_level=None)
    base.execute("PRAGMA journal_mode=WAL")
    base.execute("PRAGMA synchronous=FULL")
    base.execute("CREATE TABLE IF NOT EXISTS sale (place INTEGER PRIMARY KEY, line TEXT)")
    for line in sys.stdin:
        base.execute("INSERT INTO sale (line) VALUES (?)", (line,))
        sys.stdout.write("taken\n")
        sys.stdout.flush()


def select_behind_the_pipe(path):
    """The peer of a question: a line is one select."""
    base = sqlite3.connect(path, isolation_level=None)
    for line in sys.stdin:
        verb, *words = line.split()
        row = base.execute(SELECTS[verb], words[: SELECTS[verb].count("?")]).fetchone()
        sys.stdout.write(" ".join(map(str, row)) + "\n")
        sys.stdout.flush()


def start(words):
    run = subprocess.Popen(words, stdin=subprocess.PIPE, stdout=subprocess.PIPE, stderr=subprocess.DEVNULL, bufsize=0)
    # Without a buffer a line were read byte by byte.
    run.stdout = io.BufferedReader(run.stdout)
    return run


def ask(run, line):
    run.stdin.write(line.encode() + b"\n")
    return run.stdout.readline()


def shown(pace, times):
    return f"{pace:.0f} a second, median {times[len(times) // 2] * 1e6:.0f} us, 99 of 100 within {times[len(times) * 99 // 100] * 1e6:.0f} us"


def times_of(words, count):
    run = start(words)
    times = []
    for serial in range(1, count + 1):
        begun = time.perf_counter()
        answer = ask(run, f"sale 1 {serial} A F2 21:{serial}")
        times.append(time.perf_counter() - begun)
        if not answer.endswith(b"\n"):
            sys.exit(f"no answer to sale {serial}")
    run.kill()
    run.wait()
    return sorted(times)


def lockstep(count):
    with tempfile.TemporaryDirectory(dir=".") as place:
        for name, words in (
            ("serve", [program(), "serve", f"{place}/chain", NIF]),
            ("sqlite", [sys.executable, os.path.abspath(__file__), "sqlite", f"{place}/base"]),
        ):
            times = times_of(words, count)
            print(f"{name}: {shown(count / sum(times), times)}")


def kill(count):
    answered, again, serial = {}, 0, 1
    with tempfile.TemporaryDirectory(dir=".") as place:
        path = f"{place}/chain"
        for _ in range(count):
            run = start([program(), "serve", path, NIF])
            until = time.monotonic() + random.random() * 0.05
            while time.monotonic() < until:
                words = ask(run, f"sale 1 {serial} A F2 21:{serial}").split()
                again += words[4] == b"again"
                answered[serial] = words[6:8]
                serial += 1
            # The last one is asked and never read: it may stand or not.
            run.stdin.write(f"sale 1 {serial} A F2 21:{serial}\n".encode())
            if random.random() < 0.5:
                time.sleep(random.random() * 0.001)
            run.kill()
            run.wait()
        run = start([program(), "serve", path, NIF])
        for number, words in answered.items():
            told = ask(run, f"sale 1 {number} A F2 21:{number}").split()
            if told[4] != b"again" or told[6:8] != words:
                sys.exit(f"serial {number} was answered {words}, and is {told}")
        run.kill()
        run.wait()
        verdict = subprocess.run([program(), "audit", path], capture_output=True, check=True).stdout
        print(f"{count} programs killed: {len(answered)} answers stand, {again} of them asked again; {verdict.decode().split()[0]}")


def comments(count):
    with tempfile.TemporaryDirectory(dir=".") as place:
        run = start([program(), "serve", f"{place}/chain", NIF])
        part = b"# a comment that says nothing\n" * 10_000
        begun = time.perf_counter()
        for _ in range(count // 10_000):
            run.stdin.write(part)
        run.stdin.close()
        run.stdout.read()
        run.wait()
        most = resource.getrusage(resource.RUSAGE_CHILDREN).ru_maxrss
        print(f"{count} comments in {time.perf_counter() - begun:.1f} s, {most / 1000:.0f} MB at most, status {run.returncode}")


def till_of(place):
    """The till and the serial of the sale at a place: 64 tills in turn."""
    return 1 + (place - 1) % TILLS, 1 + (place - 1) // TILLS


def make_chain(path, records):
    """A file of so many sales, each with the agency's word."""
    for made in range(0, records, 100_000):
        sales = ("sale {} {} A F2 21:1000".format(*till_of(place)) for place in range(made + 1, min(made + 100_000, records) + 1))
        script = "\n".join(["clock 1735722000 1", *sales, ""]).encode()
        subprocess.run([program(), "chain", path, NIF], input=script, stdout=subprocess.DEVNULL, check=True)
    drain = subprocess.run([program(), "drain", path, NIF], input=b"clock 1735722000 0\n", capture_output=True, check=True)
    if not drain.stdout.endswith(f"chain {records} noted {records}\n".encode()):
        sys.exit("a record without the agency's word")


def make_base(path, records):
    """The same sales as rows of SQLite."""
    base = sqlite3.connect(path)
    base.execute("CREATE TABLE sale (place INTEGER PRIMARY KEY, till INTEGER, serial INTEGER, num TEXT, day TEXT, kind TEXT, tax TEXT, total TEXT, "
                 "moment TEXT, huella TEXT, link TEXT, line TEXT)")
    link = "https://prewww2.aeat.es/wlpl/TIKE-CONT/ValidarQR?nif=89890001K&numserie=A-{}&fecha=01-01-2025&importe=12.10"
    sold = ("01-01-2025", "F2", "2.10", "12.10", "2025-01-01T10:00:00+01:00")
    rows = ((place, *till_of(place), f"A-{place}", *sold, f"{place:064X}", link.format(place), "correcto") for place in range(1, records + 1))
    base.executemany("INSERT INTO sale VALUES (?, ?, ?, ?, ?, ?, ?, ?, ?, ?, ?, ?)", rows)
    base.execute("CREATE INDEX by_num ON sale (num)")
    base.execute("CREATE INDEX by_till ON sale (till, serial)")
    base.commit()
    base.close()


def asked(verb, records, chance):
    """A line that asks."""
    place = chance.randint(1, records)
    words = {"ticket": f"A-{place} test", "record": place, "last": till_of(place)[0], "lines": f"21 {chance.randint(1, 300_000)}", "chain": ""}
    return f"{verb} {words[verb]}".rstrip()


def seconds_of(run, lines):
    """The seconds that each line's answer took, in order of size."""
    times = []
    for line in lines:
        begun = time.perf_counter()
        answer = ask(run, line)
        times.append(time.perf_counter() - begun)
        if not answer.endswith(b"\n") or answer.startswith(b"line ") or b"unknown" in answer:
            sys.exit(f"{line}: {answer}")
    return sorted(times)


def fastest(work, runs):
    """Of each run the fastest of some turns, which they take one after another."""
    turns = [[work(run) for run in runs] for _ in range(TURNS)]
    return [min(column, key=sum) for column in zip(*turns)]


def questions(count):
    chance, medians = random.Random(1), {}
    with tempfile.TemporaryDirectory(dir="/dev/shm") as place:
        for records in SIZES:
            chain, base = f"{place}/{records}.chain", f"{place}/{records}.base"
            make_chain(chain, records)
            make_base(base, records)
            runs = {"serve": start([program(), "serve", chain, NIF]), "sqlite": start([sys.executable, os.path.abspath(__file__), "select", base])}
            for run in runs.values():
                ask(run, "chain")
            for verb in SELECTS:
                lines = [asked(verb, records, chance) for _ in range(count // TURNS)]
                for name, times in zip(runs, fastest(lambda run: seconds_of(run, lines), runs.values())):
                    print(f"{verb} at {records} records: {name} {shown(len(times) / sum(times), times)}")
                    medians[name, verb, records] = times[len(times) // 2]
            for run in runs.values():
                run.kill()
                run.wait()
    few, many = SIZES
    for name in ("serve", "sqlite"):
        times = (f"{verb} {medians[name, verb, many] / medians[name, verb, few]:.2f}" for verb in SELECTS)
        print(f"{name}: medians at {many} records, as parts of those at {few}:", *times)


def sell(tills, count, has_ticket):
    """The seconds of each sale, from its question to the answer of its last line. Each till asks once it was answered."""
    with tempfile.TemporaryDirectory(dir=".") as place:
        run = start([program(), "serve", f"{place}/chain", NIF])
        ask(run, "chain")
        times, begun, serials, waiting = [], [0.0] * tills, [0] * tills, []

        def sale(till):
            serials[till] += 1
            begun[till] = time.perf_counter()
            waiting.append(till)
            run.stdin.write(f"sale {till + 1} {serials[till]} A F2 21:{serials[till]}\n".encode())

        whole = time.perf_counter()
        for till in range(tills):
            sale(till)
        while waiting:
            till = waiting.pop(0)
            words = run.stdout.readline().split()
            if has_ticket and words[0] == b"till":
                waiting.append(till)
                run.stdin.write(b"ticket " + words[6] + b" test\n")
                continue
            if words[0] != (b"ticket" if has_ticket else b"till") or words[-1] == b"unknown":
                sys.exit(f"till {till + 1}: {words}")
            times.append(time.perf_counter() - begun[till])
            if len(times) + len(waiting) < count:
                sale(till)
        whole = time.perf_counter() - whole
        run.kill()
        run.wait()
    return [whole / len(times), sorted(times)]


def tickets(count):
    for tills, wanted in ((1, 0.8), (TILLS, 0.9)):
        turns = [[sell(tills, count // TURNS, has_ticket) for has_ticket in (True, False)] for _ in range(TURNS)]
        paces = []
        for name, column in zip(("with their tickets", "without"), zip(*turns)):
            seconds, times = min(column)
            paces.append(1 / seconds)
            print(f"{tills} till(s), sales {name}: {shown(1 / seconds, times)}")
        parts = sorted(without[0] / with_tickets[0] for with_tickets, without in turns)
        print(f"{tills} till(s): with their tickets {paces[0] / paces[1]:.2f} of those without, in the middle one of {TURNS} pairs of turns "
              f"{parts[TURNS // 2]:.2f} (wanted: {wanted})")


if __name__ == "__main__":
    if sys.argv[1] == "sqlite":
        sqlite_behind_the_pipe(sys.argv[2])
    elif sys.argv[1] == "select":
        select_behind_the_pipe(sys.argv[2])
    else:
        measures = {"lockstep": lockstep, "kill": kill, "comments": comments, "questions": questions, "tickets": tickets}
        measures[sys.argv[1]](int(sys.argv[2]))
