#!/usr/bin/env python3
"""Tries an adapter over the cases in cases/, without the program: `try_adapter.py [--only NAME].. [--lost WORDS] ADAPTER ..`

ADAPTER is the adapter's command, which gets TO and FROM behind its own words; in each word {} is the case's folder. Set it so that its issuer
is 89890001K, its journal is {}/journal, in the form of docs/ADAPTER.md, a call is no more on its way three seconds after it went out, and it calls
the service by `{}/service send` and `{}/service shown` (try_service.py says what they read and print). WORDS are the further words by which
it is told that its journal was lost, and that the first record of the chain has its line; without them those cases are left out.

A case is an object: what it shows ("says"); the journal before, "ago" seconds old; the "service" (below); the "talk"; the calls that went out
("sent"); and the journal's lines afterwards ("after"). Records go by their names in cases/records.json. Of the service: what it "has"; what
befalls its calls in order ("fates"): `lost`, `taken` (it arrives, its reply is lost), `fewer`, `swapped`, `stale`, `dies before`, `dies after` (the
adapter is killed), "late", "slow" or "part" with a number; its "verdicts"; its "wait"; and how it tells what it has. Of the talk: "begin",
"submit" or "consult" with its answer; "raw" bytes; "leave" closes both files and opens them anew; "kill" kills the adapter; "second" starts
another one, which must end. Standard library alone.
"""
import argparse
import concurrent.futures
import json
import os
import shutil
import signal
import subprocess
import sys
import tempfile
import time

HERE = os.path.dirname(os.path.abspath(__file__))
CASES = os.path.join(HERE, "cases")
ISSUER = "89890001K"
LONGEST = 60.0
with open(os.path.join(CASES, "records.json"), encoding="utf-8") as records_file:
    RECORDS = json.load(records_file)
NAMES = {record["huella"]: name for name, record in RECORDS.items()}


class Wrong(Exception):
    """What the adapter did otherwise than the case says."""


def huella_of(name):
    return RECORDS[name]["huella"]


def named(value):
    """The same with the records' names in place of their Huellas, for whoever reads it."""
    if isinstance(value, list):
        return [named(it) for it in value]
    if isinstance(value, dict):
        return {NAMES.get(key, key): named(it) for key, it in value.items()}
    return NAMES.get(value, value) if isinstance(value, str) else value


def item_of(name, text):
    word, _, code = text.partition(" ")
    return [huella_of(name), word, int(code or 0)]


def items_of(lines):
    return [item_of(name, text) for name, text in lines.items()]


class Case:
    """One case with an adapter of its own, in a folder of its own."""

    def __init__(self, case, words):
        self.case, self.words = case, words
        self.folder = tempfile.mkdtemp(prefix="try.", dir="/dev/shm" if os.path.isdir("/dev/shm") else None)
        self.n, self.run, self.to, self.from_, self.came, self.others = 1735722000000000, None, None, None, b"", []
        self.said_at = 0.0
        self.service = dict({"has": {}, "fates": [], "verdicts": {}, "wait": 0}, **case.get("service", {}))

    def path(self, name):
        return os.path.join(self.folder, name)

    # ---- what is there before

    def make_service(self):
        service = self.service
        state = {
            "processed": [[RECORDS[name], *item_of(name, text)[1:]] for name, text in service["has"].items()],
            "fates": service["fates"],
            "verdicts": {huella_of(name): text for name, text in service["verdicts"].items()},
            "wait": service["wait"],
            "keeps_refused": service.get("keeps refused", False),
            "tells_state": service.get("tells state", True),
            "shows": service.get("shows", ["huella", "ref", "seconds"]),
            "shows_nothing": service.get("shows nothing", False),
            "is_silent": service.get("is silent", False),
            "records": {record["huella"]: record for record in RECORDS.values()},
            "late": [], "calls": [], "broken": [], "last_rows": [],
        }
        with open(self.path("service.json"), "w", encoding="utf-8") as it:
            json.dump(state, it)
        with open(self.path("service"), "w", encoding="utf-8") as it:
            it.write('#!/bin/sh\nexec %s -E -S %s/try_service.py %s "$1"\n' % (sys.executable, HERE, self.folder))
        os.chmod(self.path("service"), 0o755)

    def row_of(self, row):
        if "out" in row:
            kept = ("huella", "num", "day", "t", "seconds")
            return {"at": time.time() - row["ago"], "out": [{key: RECORDS[name][key] for key in kept} for name in row["out"]]}
        return {"lines": items_of(row["lines"]), "wait": 0}

    def make_journal(self):
        rows = self.case.get("journal", [])
        if rows:
            with open(self.path("journal"), "w", encoding="utf-8") as it:
                it.write("".join(row if isinstance(row, str) else json.dumps(self.row_of(row)) + "\n" for row in rows))

    def make_files(self):
        for name in ("to", "from", "other_to", "other_from"):
            os.mkfifo(self.path(name), 0o600)
        if self.case.get("from is a file"):
            os.remove(self.path("from"))
            with open(self.path("from"), "w", encoding="ascii") as it:
                it.write("a file that stays\n")

    # ---- the adapter

    def start(self, words=None):
        with open(self.path("errors"), "ab") as errors:
            return subprocess.Popen(words or self.command(), stdin=subprocess.DEVNULL, stdout=errors, stderr=errors, start_new_session=True)

    def command(self, journal_of=None, to="to", from_="from"):
        return [word.replace("{}", journal_of or self.folder) for word in self.words] + [self.path(to), self.path(from_)]

    def kill(self):
        """The adapter, with what it has started."""
        os.killpg(self.run.pid, signal.SIGKILL)
        self.run.wait()

    def wait_until(self, what, done):
        end = time.monotonic() + LONGEST
        while time.monotonic() < end:
            found = done()
            if found is not None:
                return found
            time.sleep(0.005)
        raise Wrong("within %d seconds %s" % (LONGEST, what))

    def opened(self):
        try:
            return os.open(self.path("to"), os.O_WRONLY | os.O_NONBLOCK)
        except OSError:
            return None  # nobody has it open for reading

    def open(self):
        self.to = self.wait_until("it doesn't open TO", self.opened)
        os.set_blocking(self.to, True)
        self.from_ = os.open(self.path("from"), os.O_RDONLY | os.O_NONBLOCK)
        self.came = b""
        self.hear_hello()

    def holds_to(self):
        """Whether one of the adapter's processes has TO open."""
        mine = os.stat(self.path("to"))
        for pid in filter(str.isdigit, os.listdir("/proc")):
            try:
                if os.getpgid(int(pid)) == self.run.pid:
                    folder = "/proc/%s/fd" % pid
                    if any(os.path.samestat(mine, os.stat(os.path.join(folder, name))) for name in os.listdir(folder)):
                        return True
            except OSError:
                pass  # it has ended, or closed it
        return False

    def leave(self):
        """Closes both, and opens them anew once the adapter has let TO go."""
        os.close(self.to)
        os.close(self.from_)
        self.wait_until("it doesn't close TO", lambda: None if self.holds_to() else True)
        self.open()

    def some(self):
        """A line without its LF, if one has come whole."""
        if b"\n" not in self.came:
            try:
                self.came += os.read(self.from_, 65536)
            except BlockingIOError:
                return None
        line, found, rest = self.came.partition(b"\n")
        if not found:
            return None
        self.came = rest
        return line

    def hear(self):
        """The next line, an object."""
        line = self.wait_until("no line comes", self.some)
        try:
            return json.loads(line)
        except ValueError:
            raise Wrong("a line is no JSON: %r" % line[:200]) from None

    def hear_hello(self):
        if self.wait_until("no hello comes", self.some) != b"":
            raise Wrong("it doesn't begin by an LF")
        hello = self.hear()
        if hello.get("t") != "hello":
            raise Wrong("it doesn't begin by a hello: %s" % hello)

    def say(self, message):
        self.write(json.dumps(message, separators=(",", ":"), sort_keys=True) + "\n")

    def write(self, text):
        os.write(self.to, text.encode())

    # ---- the talk

    def calls(self):
        with open(self.path("service.json"), encoding="utf-8") as it:
            return json.load(it)["calls"]

    def begin(self, changes, answer, times=1):
        """The begin of the next call, which is answered so."""
        before = len(self.calls())
        begin = dict({"issuer": ISSUER, "n": self.n, "noted": 0, "protocol": 2, "t": "begin"}, **changes)
        for _ in range(times):
            self.write("\n")
            self.say(begin)
        for _ in range(times):
            self.expect(self.hear(), answer, self.n)
        if self.case.get("quiet begin") and len(self.calls()) > before:
            raise Wrong("it asks the service at a begin")

    def expect(self, came, answer, n):
        if came.get("n") != n:
            raise Wrong("an answer without n %d: %s" % (n, named(came)))
        if answer == "fault":
            if "fault" not in came:
                raise Wrong("it answers %s, and no fault" % named(came))
        elif answer == "begun":
            if came.get("begun") is not True or "fault" in came:
                raise Wrong("it answers %s to the begin" % named(came))
        else:
            self.expect_items(came, answer)

    def expect_items(self, came, answer):
        key = "lines" if "lines" in answer else "seen"
        wanted = items_of(answer[key])
        if came.get(key) != wanted or came.get("wait") != answer.get("wait") or "fault" in came:
            raise Wrong("it answers %s, and not %s" % (named(came), named(dict(answer, **{key: wanted}))))
        lines = self.journal_lines()
        for huella, word, code in wanted:
            if word != "not-seen" and not word.startswith("duplicado-") and lines.get(huella) != [word, code]:
                raise Wrong("it answers the line of %s, and its journal has %s" % (NAMES[huella], lines.get(huella)))

    def message_of(self, step):
        if "submit" in step:
            return {"n": self.n + 1, "records": [RECORDS[name] for name in step["submit"]], "t": "submit"}
        records = [RECORDS[name] for name in step["consult"]]
        ids = [[record["num"], record["day"], record["t"]] for record in records]
        return {"huellas": [record["huella"] for record in records], "ids": ids, "n": self.n + 1, "t": "consult"}

    def call(self, step):
        self.n = step.get("n", self.n)
        if step.get("begin", True):
            self.begin(step.get("begin", {}) if isinstance(step.get("begin"), dict) else {}, "begun")
        self.said_at = time.time()
        self.say(self.message_of(step))
        if step.get("answer") == "dies":
            self.wait_until("the service isn't called", lambda: os.path.exists(self.path("dies")) or None)
            os.remove(self.path("dies"))
            self.again()
        elif step.get("answer") == "gone":
            self.leave()
        else:
            self.expect(self.hear(), step["answer"], self.n + 1)
        self.n += 2

    def again(self):
        """It is killed, and another one comes at once."""
        self.kill()
        self.run = self.start()
        self.hear_hello()

    def second(self, which):
        """Another one, with the same journal or on the same files, must end, and the first one goes on."""
        if which == "journal":
            words = self.command(to="other_to", from_="other_from")
        else:
            os.mkdir(self.path("other"))
            words = self.command(journal_of=self.path("other"))
        run = self.start(words)
        self.others.append(run)
        if self.wait_until("a second one doesn't end", run.poll) == 0:
            raise Wrong("a second one ends with status 0")

    def step(self, step):
        if "submit" in step or "consult" in step:
            self.call(step)
        elif "begin" in step:
            self.begin(step["begin"], step["answer"], step.get("times", 1))
            self.n += 2
        elif "raw" in step:
            self.write(step["raw"])
        elif "leave" in step:
            self.leave()
        elif "kill" in step:
            self.again()
        else:
            self.second(step["second"])

    # ---- what is there afterwards

    def rows(self):
        if not os.path.exists(self.path("journal")):
            return []
        with open(self.path("journal"), encoding="utf-8") as rows:
            try:
                return [json.loads(row) for row in rows]
            except ValueError:
                raise Wrong("a line of its journal is no JSON") from None

    def journal_lines(self):
        return {huella: [word, code] for row in self.rows() for huella, word, code in row.get("lines", [])}

    def check_end(self):
        with open(self.path("service.json"), encoding="utf-8") as it:
            service = json.load(it)
        if service["broken"]:
            raise Wrong(service["broken"][0])
        calls = [call for call in service["calls"] if "sent" in call]
        sent, wanted = [named(call["sent"]) for call in calls], self.case.get("sent", [])
        if sent != wanted:
            raise Wrong("the calls that went out are %s, and not %s" % (sent, wanted))
        if "pause" in self.case and calls[-1]["at"] < self.said_at + self.case["pause"]:
            raise Wrong("the last call went out %.2f seconds after the message came" % (calls[-1]["at"] - self.said_at))
        lines, wanted = self.journal_lines(), {huella: [word, code] for huella, word, code in items_of(self.case.get("after", {}))}
        if lines != wanted:
            raise Wrong("the journal's lines are %s, and not %s" % (named(lines), named(wanted)))

    def refuses(self):
        """It must end by itself, and change nothing."""
        with open(self.path("to"), "rb+", buffering=0):
            if self.wait_until("it doesn't end", self.run.poll) == 0:
                raise Wrong("it ends with status 0")
        if self.case.get("from is a file"):
            with open(self.path("from"), encoding="ascii") as it:
                if it.read() != "a file that stays\n":
                    raise Wrong("it changed a file that stood in FROM's place")

    def try_it(self):
        self.make_service()
        self.make_journal()
        self.make_files()
        self.run = self.start()
        if self.case.get("refuses"):
            return self.refuses()
        self.open()
        for step in self.case["talk"]:
            self.step(step)
        # Nothing else came: what comes next is the answer to one more begin.
        self.begin({}, "begun")
        return self.check_end()

    def end(self):
        for run in [self.run, *self.others]:
            if run is not None:
                try:
                    os.killpg(run.pid, signal.SIGKILL)
                except ProcessLookupError:
                    pass  # it has ended
                run.wait()
        shutil.rmtree(self.folder)


def try_case(name, words, lost):
    """What is wrong, if something is."""
    with open(os.path.join(CASES, name + ".json"), encoding="utf-8") as it:
        given = json.load(it)
    case = Case(given, words + (lost if given.get("journal lost") else []))
    try:
        case.try_it()
        return None
    except Wrong as wrong:
        return str(wrong)
    except OSError as fault:
        return "%s; does it still run?" % fault
    finally:
        case.end()


def names_of(only, lost):
    for name in sorted(os.listdir(CASES)):
        name, is_case = os.path.splitext(name)
        if is_case == ".json" and name != "records" and (not only or name in only) and (lost or not name.startswith("8-")):
            yield name


def try_all(words, lost, only=(), jobs=4):
    """The cases that fail, each with what is wrong."""
    names = list(names_of(only, lost))
    with concurrent.futures.ThreadPoolExecutor(jobs) as pool:
        found = pool.map(lambda name: try_case(name, words, lost), names)
    return dict(zip(names, found))


def main():
    parser = argparse.ArgumentParser(description="Tries an adapter over the cases beside this file, without the program.")
    parser.add_argument("--only", action="append", default=[], help="this case alone")
    parser.add_argument("--lost", default="", help="the adapter's words that say that its journal was lost")
    parser.add_argument("--jobs", type=int, default=4, help="so many cases at once")
    parser.add_argument("adapter", nargs=argparse.REMAINDER)
    it = parser.parse_args()
    if not it.adapter:
        parser.error("no adapter")
    signal.signal(signal.SIGPIPE, signal.SIG_IGN)
    found = try_all(it.adapter, it.lost.split(), it.only, it.jobs)
    for name, wrong in found.items():
        print("%s: %s" % (name, wrong or "right"))
    failed = sum(wrong is not None for wrong in found.values())
    print("%d cases, %d failed" % (len(found), failed))
    return 1 if failed or not found else 0


if __name__ == "__main__":
    sys.exit(main())
