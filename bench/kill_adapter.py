#!/usr/bin/env python3
"""Adapters that are killed and started again at once, amid messages and answers, and programs too. VERIFACTU names the program.

    bench/kill_adapter.py TIMES [ADAPTER ..]       as often of each, under `drain`, `day` and `serve`, with an adapter that a shell starts again
                                                   which holds the two files open, and with one that a shell starts again which doesn't
    bench/kill_adapter.py TIMES --under COMMAND [ADAPTER ..]      the same under one of them
    bench/kill_adapter.py judge FOLDER LISTING     whether a session was right, by its log in FOLDER and what `chain` then prints of the file

ADAPTER is the adapter's command, which gets TO and FROM behind its own words; in each word of it {} is the session's folder, which is new.
Without it, it is the practice adapter, whose agency shows by invoice the last accepted record alone. It writes what it does to {}/log, so that it
can be judged: lines of JSON, each behind an LF of its own, since a killed one leaves half a line:

    {"got": {"t": "submit", "huellas": [..]}}    a message came whole: its records' Huellas, or those that are asked for
    {"took": HUELLA, "accepted": true}           the agency behind it judged a record that it didn't have; those of the practice adapter stand in
                                                 its own file, {}/state, in which it keeps what it took
    {"gives": ANSWER}                            the answer to a message, before it is written
    {"rest": BYTES}                              what came was no message: what is left of one that was cut off
    {"dies": WHERE}                              it ends itself, so that it ends amid what a kill from outside seldom meets
    {"broken": TEXT}                             the agency was asked for what an adapter mustn't ask

After each kill the talk must go on: an answer within two minutes. At the end of each session status 0: each record of the chain was taken
once and in order, none was handed over again but where it had been answered `not-seen` since, and the file notes what was answered.
"""
import json
import os
import random
import shutil
import signal
import subprocess
import sys
import tempfile
import time

ROOT = os.path.dirname(os.path.dirname(os.path.abspath(__file__)))
BUILT = os.path.join(ROOT, "verifactu")
NIF = "89890001K"
PROGRAM = os.path.abspath(os.environ.get("VERIFACTU") or (BUILT if os.access(BUILT, os.X_OK) else shutil.which("verifactu") or BUILT))
PRACTICE = [sys.executable, os.path.join(ROOT, "examples", "agency", "agency.py"), "--register", "--journal", "{}/journal", "--state", "{}/state",
            "--log", "{}/log", "--verdicts", "T1-7 1 vet 3000, T2-40 1 vet 3000, T3-41 1 warn 200, T4-600 1 vet 3000, T1-601 1 warn 200"]
TILLS, COMMANDS = 4, 750
LONGEST = 120.0
COUNTS = ["chains", "records", "adapters killed", "programs killed", "messages cut off", "batches of 1000", "handed over again", "ended with 8"]
# A shell that starts the adapter again at once, and holds the two files or doesn't.
LOOPS = {"held": 'cd "$0"; while :; do "$@"; done <to >from', "not held": 'cd "$0"; while :; do "$@"; done'}


def fail(text):
    sys.exit("kill_adapter: " + text)


def script():
    """A script of four tills: sales, and amid them cancellations and fixes of sales that lie a little behind."""
    rows = ["clock 1735722000 1"]
    for till in range(1, TILLS + 1):
        number = 0
        for serial in range(1, COMMANDS + 1):
            if serial % 25 == 0:
                rows.append("cancel %d %d T%d-%d" % (till, serial, till, number - 5))
            elif serial % 25 == 12:
                rows.append("fix %d %d T%d-%d F2 21:2000" % (till, serial, till, number - 2))
            else:
                number += 1
                rows.append("sale %d %d T%d F2 21:%d" % (till, serial, till, 1000 + serial))
    return "\n".join(rows) + "\n"


class Session:
    """A chain of its own, an adapter of its own, and a program that is started until all is noted."""

    def __init__(self, command, loop, adapter):
        self.folder = tempfile.mkdtemp(prefix="adapter.", dir="/dev/shm")
        self.command, self.run, self.log_at, self.cut = command, None, 0, b""
        for name in ("to", "from"):
            os.mkfifo(self.path(name), 0o600)
        with open(self.path("script"), "w", encoding="ascii") as it:
            it.write(script())
        with open(self.path("empty"), "w", encoding="ascii") as it:
            it.write("clock 1735900000 0\n")
        if command == "drain":
            self.program("chain", "script")
        words = [word.replace("{}", self.folder) for word in adapter] + [self.path("to"), self.path("from")]
        with open(self.path("errors"), "ab") as errors:
            self.loop = subprocess.Popen(["sh", "-c", LOOPS[loop], self.folder, *words], stdin=subprocess.DEVNULL, stdout=subprocess.DEVNULL, stderr=errors)

    def path(self, name):
        return os.path.join(self.folder, name)

    def program(self, command, script_name):
        with open(self.path(script_name), "rb") as given:
            run = subprocess.run([PROGRAM, command, self.path("chain"), NIF], stdin=given, capture_output=True, text=True, timeout=LONGEST, check=False)
        return run.stdout

    def start(self):
        words = [PROGRAM, "--agency", self.path("to"), self.path("from"), self.command, self.path("chain"), NIF]
        with open(self.path("empty" if self.command == "drain" else "script"), "rb") as given, open(self.path("told"), "wb") as told:
            self.run = subprocess.Popen(words, stdin=given, stdout=subprocess.DEVNULL, stderr=told)
        return self.run

    def answers(self):
        """How many answers to messages were given since this was asked last."""
        if not os.path.exists(self.path("log")):
            return 0
        with open(self.path("log"), "rb") as log:
            log.seek(self.log_at)
            came = log.read()
        self.log_at += len(came)
        *lines, self.cut = (self.cut + came).split(b"\n")
        return sum(line.startswith(b'{"gives":') and (b'"lines":' in line or b'"seen":' in line) for line in lines)

    def goes_on(self, run):
        """Waits for an answer, or for the program's end."""
        end = time.monotonic() + LONGEST
        while time.monotonic() < end:
            if self.answers() > 0 or run.poll() is not None:
                return
            time.sleep(0.01)
        fail("%s hangs: %s" % (self.command, self.folder))

    def kill_adapter(self):
        """Kills what the shell has started; False where nothing is there."""
        with open("/proc/%d/task/%d/children" % (self.loop.pid, self.loop.pid), encoding="ascii") as it:
            children = it.read().split()
        for child in children:
            os.kill(int(child), signal.SIGKILL)
        return bool(children)

    def end(self):
        self.loop.send_signal(signal.SIGSTOP)
        self.kill_adapter()
        for process in [self.loop] + ([self.run] if self.run else []):
            process.kill()
            process.wait()


def run_session(session, counts, chance):
    """Until the program ends with all noted: kills its adapter or itself at random moments, and after most kills waits until the talk goes on."""
    run = session.start()
    while True:
        try:
            status = run.wait(timeout=chance.choice([0.01, 0.05, 0.2, 0.5, 1.0]) * chance.random())
        except subprocess.TimeoutExpired:
            status = None
        if status == 0:
            return
        if status not in (None, 8):
            with open(session.path("told"), encoding="utf-8", errors="replace") as told:
                fail("%s ended with %d: %s; %s" % (session.command, status, told.read(), session.folder))
        session.answers()
        if status == 8:
            counts["ended with 8"] += 1
            run = session.start()
        elif chance.random() < 0.5:
            counts["adapters killed"] += session.kill_adapter()
        else:
            run.kill()
            run.wait()
            counts["programs killed"] += 1
            run = session.start()
        if chance.random() < 0.75:
            session.goes_on(run)


def rows_of(path):
    with open(path, "rb") as log:
        for line in log:
            try:
                yield json.loads(line)
            except ValueError:
                pass  # empty, or cut off


def listed(text):
    """The Huellas of a listing in order, and what is noted of each."""
    chain, notes = [], {}
    for line in text.splitlines():
        fields = line.split()
        if fields[0].isdigit():
            at = next(i for i, field in enumerate(fields) if len(field) == 64)
            chain.append(fields[at])
            notes[fields[at]] = fields[at + 1:]
    return chain, notes


def note_of(word, code):
    return [word, str(code)] if word in ("con-errores", "vet") else [word]


class Judge:
    """What a log says of a session."""

    def __init__(self, counts):
        self.counts = counts
        self.handed, self.unseen, self.taken, self.accepted, self.said = set(), set(), [], set(), {}

    def got(self, message):
        if message["t"] != "submit":
            return
        self.counts["batches of 1000"] += len(message["huellas"]) == 1000
        for huella in message["huellas"]:
            if huella in self.handed:
                if huella not in self.unseen:
                    fail("%s was handed over again, and nobody had said that it wasn't seen" % huella)
                self.counts["handed over again"] += 1
            self.handed.add(huella)
            self.unseen.discard(huella)

    def took(self, row):
        if row["took"] in self.accepted:
            fail("%s was taken twice" % row["took"])
        if row["accepted"]:
            self.accepted.add(row["took"])
        self.taken.append(row["took"])

    def gives(self, answer):
        for huella, word, code in answer.get("lines", []) + answer.get("seen", []):
            if word == "not-seen":
                self.unseen.add(huella)
            elif not word.startswith("duplicado-"):
                self.said[huella] = note_of(word, code)

    def row(self, row):
        if isinstance(row, list):
            if row[0] == "processed":
                self.took({"took": row[1]["huella"], "accepted": row[2][0] in ("correcto", "con-errores")})
        elif "got" in row:
            self.got(row["got"])
        elif "took" in row:
            self.took(row)
        elif "gives" in row:
            self.gives(row["gives"])
        elif "rest" in row:
            self.counts["messages cut off"] += 1
        elif "dies" in row:
            self.counts["ended " + row["dies"]] = self.counts.get("ended " + row["dies"], 0) + 1
        elif "broken" in row:
            fail(row["broken"])

    def end(self, chain, notes):
        # A refused record that comes again is refused again, and registers nothing.
        order = list(dict.fromkeys(self.taken))
        if order != chain:
            fail("the agency took %d records, and the chain's %d aren't those in order" % (len(order), len(chain)))
        for place, huella in enumerate(chain):
            if notes[huella] != self.said.get(huella):
                fail("record %d is noted as %s, and was answered %s" % (place + 1, notes[huella], self.said.get(huella)))
            if (notes[huella][0] in ("correcto", "con-errores")) != (huella in self.accepted):
                fail("record %d is noted as %s, and the agency %s it" % (place + 1, notes[huella], "accepted" if huella in self.accepted else "refused"))
        self.counts["records"] += len(chain)


def judge(folder, text, counts):
    chain, notes = listed(text)
    last = text.splitlines()[-1]
    if last != "chain %d noted %d" % (len(chain), len(chain)) or not chain:
        fail("the file ends with %s" % last)
    it = Judge(counts)
    for name in ("log", "state"):
        path = os.path.join(folder, name)
        for row in rows_of(path) if os.path.exists(path) else []:
            it.row(row)
    it.end(chain, notes)


def judge_one(folder, listing):
    counts = dict.fromkeys(COUNTS, 0)
    with open(listing, encoding="utf-8") as text:
        judge(folder, text.read(), counts)
    print("%d records, each taken once and in order, %d handed over again, and noted as they were answered" % (counts["records"], counts["handed over again"]))


def main():
    if sys.argv[1:2] == ["judge"] and len(sys.argv) == 4:
        return judge_one(*sys.argv[2:])
    if not sys.argv[1:2] or not sys.argv[1].isdigit():
        sys.exit(__doc__)
    times, words, commands = int(sys.argv[1]), sys.argv[2:], ("drain", "day", "serve")
    if words[:1] == ["--under"]:
        words, commands = words[2:], words[1:2]
    adapter, chance = words or PRACTICE, random.Random()
    for command in commands:
        for loop in LOOPS:
            counts = dict.fromkeys(COUNTS, 0)
            while min(counts["adapters killed"], counts["programs killed"]) < times:
                session = Session(command, loop, adapter)
                try:
                    run_session(session, counts, chance)
                finally:
                    session.end()
                judge(session.folder, session.program("chain", "empty"), counts)
                shutil.rmtree(session.folder)
                counts["chains"] += 1
            print("%s, files %s: %s" % (command, loop, ", ".join("%d %s" % (count, name) for name, count in counts.items())), flush=True)
    print("no hang; each record taken once and in order, none handed over again but after a not-seen, each noted as answered")


if __name__ == "__main__":
    main()
