#!/usr/bin/env python3
"""A practice adapter: an agency in memory, spoken to over two FIFOs, `agency.py TO FROM`, or over many pairs of them, `agency.py --pairs FILE`
with lines TO FROM JOURNAL: an agency each, whose --journal is JOURNAL and whose --state is JOURNAL.state. Standard library alone.

It keeps the agency's rules: a batch is processed whole and in order, a record that came before is a duplicate with the state of
its line and changes nothing, and a consultation tells what was processed. It refuses a batch that isn't linked, and a record whose
Huella isn't that of its fields.

What befalls its calls is planned, submissions and consultations counted together from 1: --plan "2 lost, 4 taken, 6 late 2".
  lost      the call doesn't arrive            taken     it arrives, and its answer is lost
  late D    it arrives D calls later           stale     it arrives, and is given the answer to the submission before it
  again     all batches before it arrive once more, ahead of it
  slow S    the answer comes S seconds later   twice     the answer is given twice
  half      half the answer is given, and the adapter ends
--verdicts "A-1 1 vet 3000, A-2 1 warn 200": what it finds wrong with the n-th record of an invoice.
--state FILE keeps what was processed and handed over, so that it can be ended and started again. A second one with the same FILE, journal or
FROM refuses to start.
--log FILE is told what comes and what is answered, a line of JSON each, for bench/kill_adapter.py.
--register: the agency shows no record by its Huella, but of an invoice the last accepted record alone, as a real service does. The
adapter then goes by a journal of its own (--journal FILE), and calls the service with one record of an invoice at most. What a plan says
of a submission but again, twice and half befalls the first such call of it; a reply to another call is known by its records. With --recalls it
keeps the records that it refused, too, and calls one that comes again a duplicate.
"""
import argparse
import json
import sys
import time

from skeleton import ANOTHER, Adapter, Fault, MOST_RECORDS, invoice_of, kept_rows, message_in, open_kept, run, serve_pairs


# The code by which it refuses a record that came before.
DUPLICATE = 3000


def rows(text):
    return [row.split() for row in text.split(",") if row.strip()]


class Practice(Adapter):
    hello = {"name": "practice agency", "practice": True, "t": "hello"}

    def __init__(self, options):
        super().__init__(options.journal, longest=0)
        self.options = options
        self.fates = {int(row[0]): row[1:] for row in rows(options.plan)}
        self.verdicts = {(row[0], int(row[1])): (row[2], int(row[3])) for row in rows(options.verdicts)}
        # what was processed: the line of each Huella; for each invoice how many records came and the last accepted one's sort, and
        # that record's Huella
        self.lines, self.pasts, self.register = {}, {}, {}
        self.sent, self.late = [], []  # the batches that were handed over, and those on their way with the calls that they wait for
        self.calls, self.fate, self.last_lines, self.last_reply, self.due = 0, ["none"], [], [], 0.0
        self.log = open(options.log, "ab", buffering=0) if options.log else None
        self.state = open_kept(options.state) if options.state else None
        self.load()

    # ---- what was processed

    def load(self):
        for sort, content, line in kept_rows(self.state, self.options.state) if self.state else []:
            if sort == "processed":
                self.keep(content, line)
            else:
                self.sent.append(content)

    def save(self, sort, content, line=None):
        if self.state:
            self.state.write(json.dumps([sort, content, line]).encode() + b"\n")
            self.state.flush()

    def note(self, row):
        """After an LF of its own: a run that is killed leaves half a line."""
        if self.log:
            self.log.write(b"\n" + json.dumps(row).encode() + b"\n")

    def keep(self, record, line):
        self.lines[record["huella"]] = line
        name = (record["num"], record["day"])
        count, last = self.pasts.get(name, (0, None))
        accepted = line[0] in ("correcto", "con-errores")
        self.pasts[name] = (count + 1, record["t"] if accepted else last)
        if accepted:
            self.register[name] = record["huella"]

    def judge(self, record):
        """The line of a new record: the first that holds."""
        count, last = self.pasts.get((record["num"], record["day"]), (0, None))
        verdict, code = self.verdicts.get((record["num"], count + 1), (None, 0))
        if verdict == "vet":
            return ["vet", code]
        if last == "anulacion":
            return ["gone", 0]
        if record["t"] == "alta":
            must_be_new = not record["fix"] or record["rechazo"] == "X"
        else:
            must_be_new = record["sin_registro"]
        if must_be_new and last == "alta":
            return ["held", 0]
        if not must_be_new and last != "alta":
            return ["not-held", 0]
        return ["con-errores", code] if verdict == "warn" else ["correcto", 0]

    def line_again(self, line):
        """The line of a record that came before. By invoice it is refused as a duplicate, and the state of the first one is told; of a refused
        one nothing is kept, so it is refused again, unless the agency recalls it."""
        accepted = line[0] in ("correcto", "con-errores")
        if self.options.register:
            return ["vet", DUPLICATE, line] if accepted or self.options.recalls else line
        return ["duplicado-" + (line[0] if accepted else "incorrecto"), 0]

    def deliver(self, batch):
        """All records of a batch, in order; an item for each."""
        items = []
        for record in batch:
            huella = record["huella"]
            if huella in self.lines:
                items.append([huella] + self.line_again(self.lines[huella]))
            else:
                line = self.judge(record)
                self.keep(record, line)
                self.save("processed", record, line)
                items.append([huella] + line)
        return items

    def again(self):
        for batch in list(self.sent):
            self.deliver(batch)

    # ---- the messages

    def begin(self, issuer, noted):
        """The file's noted lines are the first ones of what was processed here."""
        if self.issuer not in (None, issuer):
            raise Fault("another issuer's session")
        if noted > len(self.lines):
            raise Fault("%d noted, %d processed" % (noted, len(self.lines)))
        self.issuer = issuer

    def hear(self, line, out):
        if self.log and line.strip() and message_in(line) is None:
            self.note({"rest": len(line)})
        super().hear(line, out)

    def answer(self, message):
        if message["t"] != "begin":
            asked = message["huellas"] if "huellas" in message else [record["huella"] for record in message["records"]]
            self.note({"got": {"t": message["t"], "huellas": asked}})
            self.calls += 1
            self.fate = self.fates.get(self.calls, ["none"])
            for batch in [batch for at, batch in self.late if at <= self.calls]:
                self.deliver(batch)
            self.late = [(at, batch) for at, batch in self.late if at > self.calls]
        return super().answer(message)

    # ---- the service, which shows no Huella

    def send(self, records):
        if len(set(map(invoice_of, records))) < len(records):
            self.note({"broken": "two records of an invoice in one call"})
        fate = self.fate
        if fate[0] in ("lost", "taken", "late", "stale", "slow"):
            self.fate = ["none"]
        if fate[0] == "slow":
            time.sleep(float(fate[1]))
        self.hand_over(records, fate)
        names = [(invoice_of(record), record["t"], record["huella"]) for record in records]
        before, self.last_reply = self.last_reply, [(name, item[1:]) for name, item in zip(names, self.deliver(records))]
        if fate[0] == "taken":
            raise Fault("taken")
        reply = before if fate[0] == "stale" else self.last_reply
        if [name for name, _ in reply] != names:
            raise Fault("a reply to another call")
        return [line for _, line in reply], self.options.wait

    def shown(self, records):
        return [self.shown_one(record) for record in records]

    def shown_one(self, record):
        huella = self.register.get(invoice_of(record))
        return self.lines[huella] if huella == record["huella"] else huella and ANOTHER

    # ---- what the program asks

    def hand_over(self, records, fate):
        """The batch is on its way, or lost."""
        self.sent.append(records)
        self.save("sent", records)
        if fate[0] == "lost":
            raise Fault("lost")
        if fate[0] == "late":
            self.late.append((self.calls + max(int(fate[1]), 1), records))
            raise Fault("late")

    def submit(self, records):
        if self.fate[0] == "again":
            self.again()
        if self.options.register:
            return super().submit(records)
        now = time.monotonic()
        if self.options.strict and len(records) < MOST_RECORDS and now < self.due:
            raise Fault("too soon, by %d seconds" % (self.due - now + 1))
        self.due = now + self.options.wait
        self.hand_over(records, self.fate)
        before, self.last_lines = self.last_lines, self.deliver(records)
        if self.fate[0] == "taken":
            raise Fault("taken")
        return (before if self.fate[0] == "stale" else self.last_lines), self.options.wait

    def consult(self, huellas, ids):
        if self.fate[0] == "again":
            self.again()
        elif self.fate[0] in ("lost", "taken", "late", "stale"):
            raise Fault(self.fate[0])
        if self.options.register:
            return super().consult(huellas, ids)
        return [[huella] + self.lines.get(huella, ["not-seen", 0]) for huella in huellas]

    def write(self, out, text):
        answer = json.loads(text) if self.log else {"begun": True}
        if "begun" not in answer:
            self.note({"gives": answer})
        fate, self.fate = self.fate, ["none"]
        if fate[0] == "slow":
            time.sleep(float(fate[1]))
        if fate[0] == "half":
            super().write(out, text[: len(text) // 2])
            sys.exit(3)
        super().write(out, text * (2 if fate[0] == "twice" else 1))


def main():
    parser = argparse.ArgumentParser(description="A practice adapter for verifactu's --agency TO FROM.")
    parser.add_argument("files", nargs="*", metavar="TO FROM")
    parser.add_argument("--pairs", default="", help="in place of TO and FROM: a file of many, TO FROM JOURNAL a line")
    parser.add_argument("--plan", default="", help="what befalls the calls, as '2 lost, 3 late 2'")
    parser.add_argument("--verdicts", default="", help="as 'A-1 1 vet 3000'")
    parser.add_argument("--state", default="", help="the file that keeps what was processed")
    parser.add_argument("--log", default="", help="the file that is told what comes and what is answered")
    parser.add_argument("--register", action="store_true", help="shows of an invoice the last accepted record alone")
    parser.add_argument("--journal", default="", help="the file of the adapter's own journal, for --register")
    parser.add_argument("--recalls", action="store_true", help="calls a refused record that comes again a duplicate, for --register")
    parser.add_argument("--wait", type=int, default=0, help="the seconds between submissions")
    parser.add_argument("--strict", action="store_true", help="refuses a submission of fewer than 1000 that comes too soon")
    parser.add_argument("--once", action="store_true", help="ends when the program closes TO, and serves no further run")
    options = parser.parse_args()
    if len(options.files) != (0 if options.pairs else 2):
        parser.error("TO and FROM, or --pairs FILE")
    if options.pairs:
        kept = vars(options)
        serve_pairs(options.pairs, lambda journal: Practice(argparse.Namespace(**{**kept, "journal": journal, "state": journal + ".state"})))
    else:
        Practice(options).serve(*options.files, options.once)


if __name__ == "__main__":
    run(main)
