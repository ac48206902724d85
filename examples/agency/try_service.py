#!/usr/bin/env python3
"""The service that try_adapter.py puts in the place of the tax agency's: `try_service.py FOLDER send|shown`, a call. FOLDER has its state.

    send    reads a list of records, each as in a `submit` with a `ref`, the adapter's own reference of it. It prints {"rows": [..], "wait": SECONDS},
            a row for each in order: "num", "day", "t" and "ref" of the record, "word" `correcto`, `con-errores` or `vet`, and "code". Of one that
            came before, or whose invoice has another record, the row is `vet` with code 3000 and has "before": {"word": .., "code": ..}, the
            state of that record, which may be `anulado`; {} where it tells none.
    shown   reads a list of invoices, [num, day] each. It prints a list: for each what it has as its last accepted record, or null: "word"
            `correcto`, `con-errores` or, of one that was cancelled since, `anulado`; "code"; and of the alta "huella", "ref" and "seconds", or
            some of them.

A line of JSON each. It ends with status 1, and prints nothing, where no reply comes.
"""
import json
import os
import sys
import time

DUPLICATE = 3000


def line_of(text):
    """'vet 4000' is a word and a code."""
    word, _, code = text.partition(" ")
    return [word, int(code or 0)]


class Service:
    def __init__(self, folder):
        self.folder = folder
        with open(self.path("service.json"), encoding="utf-8") as it:
            self.__dict__.update(json.load(it))

    def path(self, name):
        return os.path.join(self.folder, name)

    def save(self):
        kept = {key: value for key, value in self.__dict__.items() if key != "folder"}
        with open(self.path("service.new"), "w", encoding="utf-8") as it:
            json.dump(kept, it)
        os.replace(self.path("service.new"), self.path("service.json"))

    # ---- what it processed: a list of [record, word, code]

    def of_invoice(self, num, day):
        return [row for row in self.processed if [row[0]["num"], row[0]["day"]] == [num, day] and row[1] != "vet"]

    def judged(self, record):
        """The word and code of a record, and what came before it, if something did. A new one is processed by this."""
        same = [row for row in self.processed if row[0]["huella"] == record["huella"]]
        others = self.of_invoice(record["num"], record["day"])
        if same and (same[-1][1] != "vet" or self.keeps_refused):
            return "vet", DUPLICATE, self.state_of(same[-1])
        if others and record["t"] == "alta" and not record["fix"]:
            return "vet", DUPLICATE, self.state_of(others[-1])
        word, code = line_of(self.verdicts.get(record["huella"], "correcto"))
        self.processed.append([record, word, code])
        return word, code, None

    def state_of(self, row):
        if not self.tells_state:
            return {}
        cancelled = any(it[0]["t"] == "anulacion" for it in self.of_invoice(row[0]["num"], row[0]["day"]))
        return {"word": "anulado" if cancelled else row[1], "code": row[2]}

    def deliver(self, records):
        rows = []
        for record in records:
            word, code, before = self.judged(record)
            row = {"num": record["num"], "day": record["day"], "t": record["t"], "ref": record.get("ref"), "word": word, "code": code}
            rows.append(row if before is None else dict(row, before=before))
        return rows

    def deliver_late(self):
        due = [records for at, records in self.late if at <= time.time()]
        self.late = [row for row in self.late if row[0] > time.time()]
        for records in due:
            self.deliver(records)

    # ---- the calls

    def check(self, records):
        """What an adapter mustn't ask for."""
        if any(dict(record, ref=0) != dict(self.records[record["huella"]], ref=0) for record in records):
            self.broken.append("a record went out with other fields than it came with")
        invoices = {(record["num"], record["day"]) for record in records}
        if len(invoices) < len(records):
            self.broken.append("two records of an invoice went out in one call")

    def send(self, records):
        """What is printed; None where no reply comes."""
        self.check(records)
        self.calls.append({"at": time.time(), "sent": [record["huella"] for record in records]})
        fate = self.fates.pop(0) if self.fates else "ok"
        what, size = (fate, 0) if isinstance(fate, str) else next(iter(fate.items()))
        if what in ("lost", "dies before"):
            return None, what
        if what == "late":
            self.late.append([time.time() + size, records])
            return None, what
        if what == "slow":
            time.sleep(size)
        rows = self.deliver(records[:size] if what == "part" else records)
        given = {"stale": self.last_rows, "fewer": rows[:-1], "swapped": rows[::-1]}.get(what, rows)
        self.last_rows = rows
        return (None if what in ("taken", "dies after") else {"rows": given, "wait": self.wait}), what

    def shown(self, invoices):
        self.calls.append({"at": time.time(), "shown": invoices})
        self.deliver_late()
        return None if self.is_silent else [self.row_of(*invoice) for invoice in invoices]

    def row_of(self, num, day):
        accepted = self.of_invoice(num, day)
        altas = [row for row in accepted if row[0]["t"] == "alta"]
        if not altas or self.shows_nothing:
            return None
        record, word, code = altas[-1]
        cancelled = accepted[-1][0]["t"] == "anulacion"
        mine = {key: record[key] for key in self.shows if key in record}
        return {"word": "anulado" if cancelled else word, "code": code, **mine}


def main():
    service, what = Service(sys.argv[1]), sys.argv[2]
    reply, fate = getattr(service, what)(json.loads(sys.stdin.readline())) if what == "send" else (service.shown(json.loads(sys.stdin.readline())), "")
    service.save()
    if fate.startswith("dies"):
        open(service.path("dies"), "w", encoding="ascii").close()
        time.sleep(600)  # it is killed with the adapter
    if reply is None:
        sys.exit(1)
    print(json.dumps(reply), flush=True)


if __name__ == "__main__":
    main()
