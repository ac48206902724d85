#!/usr/bin/env python3
"""An adapter between `verifactu --agency TO FROM` and the tax agency's service, whole but for the calls to the service, which a command of
yours makes. docs/ADAPTER.md has the messages, and what an adapter must do.

    skeleton.py --journal FILE --service COMMAND [--issuer NIF] [--longest SECONDS] [--lost N] TO FROM
    skeleton.py --pairs PAIRS --service COMMAND [--longest SECONDS]

TO and FROM are FIFOs (`mkfifo`), FILE is its own journal. It runs `COMMAND send` and `COMMAND shown`, with a line of JSON on standard input,
one on standard output, and the issuer's NIF in the environment as ISSUER; one that prints something else, or ends with another status than 0,
had no reply. In Python a class that has `send` and `shown` of its own will do, as that of agency.py. With PAIRS one process serves many pairs
of FIFOs, a line TO FROM JOURNAL each. Standard library alone.
"""
import argparse
import datetime
import fcntl
import hashlib
import json
import os
import stat
import subprocess
import sys
import threading
import time

MOST_RECORDS = 1000
PROTOCOL = 2
# What `shown` says of a record where the service shows another one of its invoice.
ANOTHER = "another"


class Fault(Exception):
    """What is told to the program in place of an answer. The program asks again by itself."""


class Refused(Exception):
    """Why the adapter doesn't start, or ends: a person has to look."""


# ---- a record's Huella, made again from its fields


def amount_text(cents):
    """210 is 2.10."""
    return "%s%d.%02d" % ("-" if cents < 0 else "", abs(cents) // 100, abs(cents) % 100)


def moment_text(seconds, offset):
    """Seconds since 1970 in UTC and minutes ahead of UTC, as 2025-01-01T10:00:00+01:00."""
    zone = datetime.timezone(datetime.timedelta(minutes=offset))
    return datetime.datetime.fromtimestamp(seconds, zone).isoformat()


def field_text(record):
    """The text under a record's Huella, by the agency's hash specification."""
    before = record["link"]["huella"] if record["link"] else ""
    moment = moment_text(record["seconds"], record["offset"])
    if record["t"] == "alta":
        parts = [
            ("IDEmisorFactura", record["issuer"]),
            ("NumSerieFactura", record["num"]),
            ("FechaExpedicionFactura", record["day"]),
            ("TipoFactura", record["kind"]),
            ("CuotaTotal", amount_text(record["cuota"])),
            ("ImporteTotal", amount_text(record["total"])),
        ]
    else:
        parts = [
            ("IDEmisorFacturaAnulada", record["issuer"]),
            ("NumSerieFacturaAnulada", record["num"]),
            ("FechaExpedicionFacturaAnulada", record["day"]),
        ]
    parts += [("Huella", before), ("FechaHoraHusoGenRegistro", moment)]
    return "&".join("%s=%s" % part for part in parts)


def huella_of(record):
    return hashlib.sha256(field_text(record).encode("ascii")).hexdigest().upper()


def check_batch(records):
    """A batch that no program should hand over is a fault, and nothing of it is sent."""
    if not 1 <= len(records) <= MOST_RECORDS:
        raise Fault("a batch of %d records" % len(records))
    for before, record in zip(records, records[1:]):
        if (record["link"] or {}).get("huella") != before["huella"]:
            raise Fault("%s isn't linked to the record before it" % record["num"])
    for record in records:
        if huella_of(record) != record["huella"]:
            raise Fault("the Huella of %s isn't that of its fields" % record["num"])


# ---- what went out, and what came back


def invoice_of(record):
    return (record["num"], record["day"])


def hold(file, name):
    """Its exclusive lock, until it is closed: a second adapter refuses to start."""
    try:
        fcntl.flock(file, fcntl.LOCK_EX | fcntl.LOCK_NB)
    except BlockingIOError:
        raise Refused("%s is held by another adapter" % name) from None


def kept_rows(file, name):
    """The rows of a file, a line of JSON each. A last line that isn't whole was never synced: it is cut off."""
    content = file.read()
    whole = content.rfind(b"\n") + 1
    file.truncate(whole)
    try:
        return [json.loads(line) for line in content[:whole].splitlines()]
    except ValueError:
        raise Refused("%s has a line that is no JSON" % name) from None


def open_kept(path):
    """A file of rows, which is made where it isn't there, and is held. Writes go to its end."""
    file = os.fdopen(os.open(path, os.O_RDWR | os.O_CREAT | os.O_APPEND, 0o600), "rb+")
    hold(file, path)
    return file


def sync_folder(path):
    """A file that was made in it stays there."""
    folder = os.open(os.path.dirname(path) or ".", os.O_RDONLY)
    os.fsync(folder)
    os.close(folder)


def seconds_left(since, length):
    """How long it is until so many seconds have passed since that moment: never longer than these, also where the clock was set back."""
    return min(max(since + length - time.time(), 0), length)


class Journal:
    """The records that went out in each call to the service, with its moment, and the line of each, in a file that is synced before anything
    goes on. Without a file all is kept in memory, and lost with the process."""

    def __init__(self, path):
        self.lines = {}  # the line [word, code] of each Huella
        self.calls = {}  # the last call of each Huella that went out: {"at": seconds since 1970, "out": its records}
        self.first = None  # the Huella of the first record that ever went out
        self.open = None  # the last call, where no reply came and it wasn't asked for since
        self.lost = 0  # so many of the chain's first records had lines in a journal that was lost
        self.at, self.wait = 0, 0  # when the last call went out, and the pause that the service asked for
        self.file = None
        if path:
            self.file = open_kept(path)
            for row in kept_rows(self.file, path):
                self.take(row)
            sync_folder(path)

    def take(self, row):
        if "out" in row:
            self.at, self.open = row.setdefault("at", 0), row  # (an older journal has no moments)
            self.first = self.first or row["out"][0]["huella"]
            for record in row["out"]:
                self.calls[record["huella"]] = row
        elif "lines" in row:
            for huella, word, code in row["lines"]:
                self.lines[huella] = [word, code]
            self.wait = row.get("wait", self.wait)
            if self.open and not self.without_line(self.open):
                self.open = None
        elif "lost" in row:
            self.lost = row["lost"]

    def add(self, row):
        if self.file:
            self.file.write(json.dumps(row).encode() + b"\n")
            self.file.flush()
            os.fsync(self.file.fileno())
        self.take(row)

    def without_line(self, call):
        return [record for record in call["out"] if record["huella"] not in self.lines]

    def count(self):
        """How many of the chain's records have lines, here or in the journal that was lost."""
        return self.lost + len(self.lines)

    def out(self, records):
        """These go out now."""
        kept = ("huella", "num", "day", "t", "seconds")
        self.add({"at": time.time(), "out": [{key: record[key] for key in kept} for record in records]})

    def back(self, items, wait=None):
        """These are their lines."""
        if items:
            self.add({"lines": items} if wait is None else {"lines": items, "wait": wait})


def calls_of(records):
    """The records in calls of one record of an invoice at most: no record of a call is hidden by a later one of the same call."""
    call, invoices = [], set()
    for record in records:
        if invoice_of(record) in invoices:
            yield call
            call, invoices = [], set()
        call.append(record)
        invoices.add(invoice_of(record))
    yield call


# ---- the service, by a command


def reference_of(record):
    """The adapter's own reference of a record, which the service gives back with its line."""
    return record["huella"][:60]


def service_says(command, what, given, issuer):
    settings = {"input": json.dumps(given) + "\n", "stdout": subprocess.PIPE, "env": {**os.environ, "ISSUER": issuer or ""}}
    try:
        run = subprocess.run([*command, what], text=True, check=True, **settings)
        return json.loads(run.stdout)
    except (OSError, ValueError, subprocess.CalledProcessError):
        raise Fault("no reply of the service") from None


def line_in(record, row):
    """The line of this record by the reply's row, which must be its own: [word, code], and behind them where the service says that it came
    before what it says of that, a word ("" where it says none) and a code."""
    names = [row.get(key) for key in ("num", "day", "t", "ref")]
    if names != [record["num"], record["day"], record["t"], reference_of(record)]:
        raise Fault("the reply's rows are of other records")
    before = row.get("before")
    return [row["word"], row["code"]] + ([[before.get("word", ""), before.get("code", 0)]] if before is not None else [])


def shown_as(record, row):
    """What a row of the service's register says of this record: the line where it is this very one, ANOTHER, or None where there is none."""
    if row is None:
        return None
    if record["t"] == "anulacion":
        return ["correcto", 0] if row["word"] == "anulado" else ANOTHER
    mine = {"huella": record["huella"], "ref": reference_of(record), "seconds": record.get("seconds")}
    key = next((key for key in mine if row.get(key) is not None), None)
    if key is None or row[key] != mine[key]:
        return ANOTHER
    # An invoice that is cancelled was accepted before.
    return ["correcto", 0] if row["word"] == "anulado" else [row["word"], row["code"]]


def line_of(shown):
    """The line where a record is shown, else None."""
    return None if shown == ANOTHER else shown


# ---- the talk


def open_fifo(path, how, mode):
    """Opens a FIFO, which waits for its other end. Whatever else stands there stays as it is: opening a file for writing may empty it."""
    if not stat.S_ISFIFO(os.stat(path).st_mode):
        raise Refused("%s is no FIFO" % path)
    return open(os.open(path, how), mode, encoding="utf-8", errors="replace")


def close(out):
    try:
        out.close()
    except BrokenPipeError:
        pass


def text_of(answer):
    return json.dumps(answer, separators=(",", ":"), sort_keys=True)


def message_in(line):
    """The message that a line is, if it is one."""
    try:
        message = json.loads(line)
        return message if message["t"] in ("begin", "submit", "consult") and "n" in message else None
    except (ValueError, TypeError, KeyError):
        return None


class Adapter:
    """One message at a time. What raises is told as a fault. `send` and `shown` are the calls to the service."""

    hello = {"name": "skeleton", "t": "hello"}

    def __init__(self, journal=None, issuer=None, longest=60, lost=None):
        self.journal = Journal(journal)
        self.issuer = issuer
        self.longest = longest  # so many seconds after it went out a call can't be on its way any more
        self.by_ids = lost is not None
        if self.by_ids and lost != self.journal.lost:
            self.journal.add({"lost": lost})

    # ---- to be filled in

    def send(self, records):
        """One call to the service. A line [word, code] for each record in order, and the seconds to wait before the next call. Where its answer
        doesn't come, or isn't understood, or has not a line for each, raise Fault. A record that came before has a third part: `line_in`."""
        raise Fault("no service")

    def shown(self, records):
        """One for each of these records, as `shown_as` says it: what the service shows of its invoice, which is the last accepted record."""
        raise Fault("no service")

    # ---- what the program asks

    def begin(self, issuer, noted):
        """Before each call: an issuer, whose first `noted` records had their line when the run began. The service isn't asked."""
        if self.issuer not in (None, issuer):
            raise Fault("the issuer is another")
        if noted > self.journal.count():
            raise Fault("%d records are noted, and the journal has lines of %d" % (noted, self.journal.count()))
        self.issuer = issuer

    def check_fresh(self, records):
        """Nothing goes out again unless the service was asked for it."""
        if any(record["huella"] in self.journal.lines for record in records):
            raise Fault("a record has its line")
        if self.journal.open:
            raise Fault("a call had no reply, and the service wasn't asked since")
        if records[0]["link"] is None and self.journal.first not in (None, records[0]["huella"]):
            raise Fault("the journal is of another chain")
        if any(record["issuer"] != (self.issuer or record["issuer"]) for record in records):
            raise Fault("the issuer is another")

    def pause(self, count):
        """Until the service takes a call of so many records."""
        if count < MOST_RECORDS:
            time.sleep(seconds_left(self.journal.at, self.journal.wait))

    def came_before(self, record, line):
        """The item's word and code, and the line, of a record of which the service says that it came before."""
        shown = self.shown([record])[0]
        word, code = line[2]
        if shown == ANOTHER:
            return line[:2], line[:2]
        if shown:
            return ["duplicado-" + shown[0], 0], shown
        if word not in ("", "vet"):
            raise Fault("%s came before, and isn't shown" % record["num"])
        return ["vet", code], ["vet", code]

    def call(self, records):
        """One call: the item of each record, the seconds to wait, and whether one came before. All its lines are in the journal then."""
        self.journal.out(records)
        lines, wait = self.send(records)
        if len(lines) != len(records):
            raise Fault("lines of %d records, of %d that went out" % (len(lines), len(records)))
        pairs = [self.came_before(record, line) if len(line) > 2 else (line, line) for record, line in zip(records, lines)]
        names = [[record["huella"]] for record in records]
        self.journal.back([name + line for name, (_, line) in zip(names, pairs)], wait)
        return [name + item for name, (item, _) in zip(names, pairs)], wait, any(len(line) > 2 for line in lines)

    def submit(self, records):
        """Hands a checked batch over: an item [huella, word, code] for each record in order, and the seconds to wait. No further call goes
        out after one that says of a record that it came before, or that leaves one without its line."""
        self.check_fresh(records)
        items, wait, again = [], 0, False
        for call in calls_of(records):
            if again:
                raise Fault("a record came before")
            self.pause(len(call))
            came, wait, again = self.call(call)
            items += came
        return items, wait

    def settle(self, call):
        """The lines of a call whose reply didn't come, by what the service shows once it can't be on its way any more. Up to the last record that
        it shows, one that it doesn't show was refused, and its code is lost. What comes after that one didn't arrive, or was refused and
        registers nothing when it comes again: it has no line yet."""
        huellas = [record["huella"] for record in call["out"]]
        left = self.journal.without_line(call)
        time.sleep(seconds_left(call["at"], self.longest))
        shown = {record["huella"]: line_of(it) for record, it in zip(left, self.shown(left))}
        known = [place for place, huella in enumerate(huellas) if huella not in shown or shown[huella]]
        settled = huellas[: max(known) + 1] if known else []
        self.journal.back([[huella] + (shown[huella] or ["vet", 0]) for huella in settled if huella in shown])
        if call is self.journal.open:
            self.journal.open = None

    def settle_by_ids(self, huellas, ids):
        """The lines of records that the journal, since it was lost, doesn't know."""
        names = [dict(zip(("num", "day", "t"), name), huella=huella) for huella, name in zip(huellas, ids)]
        unknown = [name for name in names if name["huella"] not in self.journal.lines and name["huella"] not in self.journal.calls]
        lines = [line_of(it) for it in self.shown(unknown)] if unknown else []
        while lines and lines[-1] is None:
            lines.pop()
        if None in lines:
            raise Fault("%s isn't shown, and a later record is" % unknown[lines.index(None)]["num"])
        self.journal.back([[name["huella"]] + line for name, line in zip(unknown, lines)])

    def consult(self, huellas, ids):
        """An item [huella, word, code] for each Huella in order. `ids` has the number, the day and the sort of each: they are for an
        adapter whose journal is lost."""
        settled = []
        for huella in huellas:
            call = self.journal.calls.get(huella)
            if huella not in self.journal.lines and call is not None and not any(call is one for one in settled):
                self.settle(call)
                settled.append(call)
        if self.by_ids:
            self.settle_by_ids(huellas, ids)
        return [[huella] + self.journal.lines.get(huella, ["not-seen", 0]) for huella in huellas]

    def answer(self, message):
        if message["t"] == "begin":
            if message["protocol"] != PROTOCOL:
                raise Fault("protocol %s, and this adapter knows %d" % (message["protocol"], PROTOCOL))
            self.begin(message["issuer"], message["noted"])
            return {"begun": True}
        if message["t"] == "submit":
            check_batch(message["records"])
            lines, wait = self.submit(message["records"])
            return {"lines": lines, "wait": wait}
        return {"seen": self.consult(message["huellas"], message["ids"])}

    def write(self, out, text):
        out.write(text)
        out.flush()

    def hear(self, line, out):
        """One message and its answer. An empty line, and a piece of a message that an earlier talk left, are answered by nothing."""
        message = message_in(line)
        if message is None:
            return
        try:
            answer = self.answer(message)
        except Fault as fault:
            answer = {"fault": str(fault)}
        except Exception as fault:  # the service's client may raise anything; its text may hold what is secret
            answer = {"fault": type(fault).__name__}
        answer["n"] = message["n"]
        self.write(out, text_of(answer) + "\n")

    def talk(self, to, from_):
        """With one run of the program. TO first, then FROM, as the program does: the other way round each waits for the other."""
        with open_fifo(to, os.O_RDONLY, "r") as messages:
            out = open_fifo(from_, os.O_WRONLY, "w")
            try:
                hold(out, from_)
                out.write("\n" + text_of(self.hello) + "\n")
                out.flush()
                for line in messages:
                    self.hear(line, out)
            except BrokenPipeError:
                pass  # the program went away; it asks again when it comes back
            finally:
                close(out)

    def serve(self, to, from_, once=False):
        """Talks with one run of the program after the other; once: with one."""
        self.talk(to, from_)
        while not once:
            self.talk(to, from_)


class CommandAdapter(Adapter):
    """Its service is a command."""

    def __init__(self, command, **settings):
        super().__init__(**settings)
        self.command = command

    def send(self, records):
        reply = service_says(self.command, "send", [dict(record, ref=reference_of(record)) for record in records], self.issuer)
        return [line_in(record, row) for record, row in zip(records, reply["rows"])], reply["wait"]

    def shown(self, records):
        rows = service_says(self.command, "shown", [invoice_of(record) for record in records], self.issuer)
        return [shown_as(record, row) for record, row in zip(records, rows, strict=True)]


# ---- many pairs of FIFOs


def pairs_in(path):
    """The lines TO FROM JOURNAL of a file; empty ones and those that begin with # are passed over."""
    with open(path, encoding="utf-8") as file:
        rows = [line.split() for line in file if line.strip() and not line.startswith("#")]
    if any(len(row) != 3 for row in rows):
        raise Refused("%s has a line that isn't TO FROM JOURNAL" % path)
    return rows


def serve_pair(adapter_of, to, from_, journal):
    """One pair, for ever: where its adapter ends it begins again, and no other pair is held up."""
    while True:
        try:
            adapter_of(journal).serve(to, from_)
        except (Exception, SystemExit) as why:
            print("%s: %s %s" % (to, type(why).__name__, why), file=sys.stderr, flush=True)
        time.sleep(5)


def serve_pairs(path, adapter_of):
    """A thread for each pair, with an adapter of its own."""
    threading.stack_size(262_144)
    for row in pairs_in(path):
        threading.Thread(target=serve_pair, args=[adapter_of, *row]).start()


def main():
    parser = argparse.ArgumentParser(description="An adapter for verifactu's --agency TO FROM, whose service is a command.")
    parser.add_argument("files", nargs="*", metavar="TO FROM")
    parser.add_argument("--pairs", help="in place of TO, FROM and --journal: a file of many, TO FROM JOURNAL a line")
    parser.add_argument("--journal", help="the file of its journal")
    parser.add_argument("--service", required=True, help="the command that calls the service, with its words")
    parser.add_argument("--issuer", help="the NIF of the certificate; without it, that of the first begin")
    parser.add_argument("--longest", type=float, default=60, help="so many seconds after it went out a call can't be on its way any more")
    parser.add_argument("--lost", type=int, help="the journal was lost, and so many of the chain's first records have their lines")
    it = parser.parse_args()
    of_one = [*it.files, *filter(None, [it.journal, it.issuer])] + ([] if it.lost is None else ["--lost"])
    if of_one if it.pairs else len(it.files) != 2 or not it.journal:
        parser.error("TO and FROM with --journal FILE, or --pairs PAIRS, which takes no --journal, --issuer and --lost")
    command = it.service.split()
    if it.pairs:
        serve_pairs(it.pairs, lambda journal: CommandAdapter(command, journal=journal, longest=it.longest))
    else:
        CommandAdapter(command, journal=it.journal, issuer=it.issuer, longest=it.longest, lost=it.lost).serve(*it.files)


def run(main):
    """Ends with a line where a person has to look."""
    try:
        main()
    except (Refused, OSError) as why:
        sys.exit("%s: %s" % (os.path.basename(sys.argv[0]), why))


if __name__ == "__main__":
    run(main)
