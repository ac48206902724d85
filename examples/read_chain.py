#!/usr/bin/env python3
"""Reads the bytes of a shop's file by docs/FORMAT.md, without the program: an auditor's second opinion.

    python3 examples/read_chain.py shop.chain
    python3 examples/read_chain.py --json shop.chain

Prints the verdict that `./verifactu audit shop.chain` prints and then the records, a line each, as `chain` lists them; of a broken
file those before the break. With --json it prints in their place what `./verifactu export shop.chain` prints. The status is 0 where
the file is sound, 9 where it is broken (nothing is printed by --json then), 6 where it can't be read. The file is only read.
"""
import json
import signal
import sys
from datetime import date, datetime, timedelta, timezone
from hashlib import sha256

from export import euros, fields, rates, totals

KINDS = ["F1", "F2", "F3", "R1", "R2", "R3", "R4", "R5"]
NO_TAX = ["S2", "N1", "N2", "E1", "E2", "E3", "E4", "E5", "E6"]
CLASSES = ["21", "10", "4", "0", "21+", "10+", "4+"] + NO_TAX
OWN_RATE = 16  # the code of the class whose rate stands in the line
NOTED = ["correcto", "con-errores", "vet", "held", "not-held", "gone"]
ACCEPTING, WITH_CODE = ("correcto", "con-errores"), ("con-errores", "vet")
MOST_RECORDS, MOST_BASE, LAST_DAY = 1_000_000, 9_999_999_999, 47_846
FROM, TO = 1_704_067_200, 4_102_444_799


class NoEntry(Exception):
    """A field is cut off or has no value of its kind, or bytes are left over."""


# ---- the forms of texts


def is_nif(text):
    """Nine bytes: a person's or an entity's tax number, with the control that belongs to it."""
    if len(text) != 9 or not text[1:8].isdigit():
        return False
    digits = [byte - 48 for byte in text[1:8]]
    first, last = chr(text[0]), chr(text[8])
    if first in "0123456789XYZ":
        number = ("XYZ".index(first) if first in "XYZ" else int(first)) * 10**7 + int(text[1:8])
        return last == "TRWAGMYFPDXBNJZSQVHLCKE"[number % 23]
    control = -sum(digits[1::2] + [2 * digit // 10 + 2 * digit % 10 for digit in digits[::2]]) % 10
    return first in "ABCDEFGHJNPQRSUVW" and last in (str(control), "JABCDEFGHI"[control])


def is_number(text):
    """Of an invoice."""
    plain = all(32 <= byte <= 126 and byte not in b"\"'<>=" for byte in text)
    return 1 <= len(text) <= 60 and plain and not text.startswith(b" ") and not text.endswith(b" ")


def is_name(text):
    try:
        text.decode("utf-8")
    except UnicodeDecodeError:
        return False
    plain = all(byte >= 32 and byte != 127 for byte in text)
    return 1 <= len(text) <= 120 and plain and not text.startswith(b" ") and not text.endswith(b" ")


def is_series(text):
    return 1 <= len(text) <= 20 and all(char.isascii() and (char.isalnum() or char in "/_") for char in text)


# ---- the bytes of an entry


class Entry:
    """The bytes of an entry, read field by field. What they say has the keys and values of the lines of JSON."""

    def __init__(self, body, version):
        self.body, self.at, self.version = body, 0, version

    def take(self, size):
        field = self.body[self.at : self.at + size]
        if len(field) < size:
            raise NoEntry
        self.at += size
        return field

    def number(self, size, low, high):
        number = int.from_bytes(self.take(size), "big")
        if not low <= number <= high:
            raise NoEntry
        return number

    def one_of(self, values):
        return values[self.number(1, 0, len(values) - 1)]

    def text(self, is_right):
        text = self.take(self.number(1, 0, 255))
        if not is_right(text):
            raise NoEntry
        return text.decode("utf-8")

    def many(self, count, read):
        return [read() for _ in range(count)]

    def invoice(self):
        number = self.text(is_number)
        return number, day_text(self.number(4, 0, LAST_DAY))

    def customer(self):
        if not self.one_of([False, True]):
            return None
        nif = self.take(9)
        if not is_nif(nif):
            raise NoEntry
        return {"name": self.text(is_name), "nif": nif.decode("ascii")}

    def old_class(self):
        return self.one_of(CLASSES)

    def new_class(self):
        tax, code = self.number(1, 1, 3), self.number(1, 0, OWN_RATE)
        rate = self.number(2, 0, 2500)
        if code == OWN_RATE:
            word = str(rate)
        else:
            word = CLASSES[code]
            if rate != rates(word)[0]:
                raise NoEntry
        if tax == 1:
            if code == OWN_RATE:
                raise NoEntry
            return word
        if code != OWN_RATE and word not in NO_TAX:
            raise NoEntry
        return f"0{tax}/{word}"

    def line(self):
        word = self.old_class() if self.version == 1 else self.new_class()
        base = int.from_bytes(self.take(8), "big", signed=True)
        if abs(base) > MOST_BASE:
            raise NoEntry
        return [word, base]

    def huella(self):
        return self.take(32).hex().upper()

    def link(self):
        if not self.one_of([False, True]):
            return None
        number, day = self.invoice()
        return {"day": day, "huella": self.huella(), "num": number}

    def seal(self):
        """What stands at the end of each record."""
        record = {"link": self.link(), "seconds": self.number(8, FROM, TO), "offset": self.number(2, 60, 120)}
        if record["offset"] not in (60, 120):
            raise NoEntry
        return {**record, "huella": self.huella()}

    def alta(self):
        record = dict(zip(("num", "day"), self.invoice()))
        record["kind"] = self.one_of(KINDS)
        record["rect"] = self.one_of([None, "S", "I"])
        record["customer"] = self.customer()
        record["refs"] = [list(self.invoice()) for _ in range(self.number(1, 0, 8))]
        record["lines"] = self.many(self.number(1, 1, 12), self.line)
        record["fix"] = self.one_of([False, True])
        record["rechazo"] = self.one_of(["N", "S", "X"])
        return {**record, **self.seal(), "t": "alta"}

    def anulacion(self):
        record = dict(zip(("num", "day"), self.invoice()))
        record["sin_registro"] = self.one_of([False, True])
        record["rechazo"] = self.one_of([False, True])
        return {**record, **self.seal(), "t": "anulacion"}

    def noted(self):
        word, code = self.one_of(NOTED), self.number(2, 0, 65535)
        if code and word not in WITH_CODE:
            raise NoEntry
        return [word, code]

    def whole(self):
        sort = self.number(1, 1, 3)
        if sort == 3:
            entry = {"first": self.number(4, 0, 2**32 - 1)}
            entry["lines"] = self.many(self.number(2, 1, 1000), self.noted)
            entry["t"] = "notes"
        else:
            asked = {"till": self.number(1, 1, 64), "serial": self.number(4, 1, 2**32 - 1)}
            entry = {**asked, **(self.alta() if sort == 1 else self.anulacion())}
        if self.at < len(self.body):
            raise NoEntry
        return entry


# ---- days and the peninsular clock


def day_text(days):
    return (date(1970, 1, 1) + timedelta(days=days)).strftime("%d-%m-%Y")


def last_sunday(year, month):
    """One in the morning, UTC, of the last Sunday of a month of 31 days, in seconds."""
    last = date(year, month, 31)
    last -= timedelta(days=last.isoweekday() % 7)
    return int(datetime(last.year, last.month, last.day, 1, tzinfo=timezone.utc).timestamp())


def offset_at(seconds):
    year = datetime.fromtimestamp(seconds, timezone.utc).year
    return 120 if last_sunday(year, 3) <= seconds < last_sunday(year, 10) else 60


# ---- what continues a history


def has_its_needs(alta):
    """The kind has what it needs and nothing that it must not have."""
    kind, simplified = alta["kind"], alta["kind"] in ("F2", "R5")
    return (
        (alta["customer"] is None) == simplified
        and (alta["rect"] is None) == (kind[0] == "F")
        and (bool(alta["refs"]) if kind == "F3" else kind[0] == "R" or not alta["refs"])
        and not (simplified and abs(totals(alta["lines"])[1]) > 300_000)
    )


class History:
    """The entries so far, and what is asked of them again and again."""

    def __init__(self, issuer, version):
        self.issuer, self.version = issuer, version
        self.entries, self.records, self.noted = [], [], []
        self.serials, self.sales, self.places, self.huellas = {}, {}, {}, set()

    def add(self, entry):
        self.entries.append(entry)
        if entry["t"] == "notes":
            self.noted += entry["lines"]
            return
        self.records.append(entry)
        self.serials[entry["till"]] = entry["serial"]
        self.places.setdefault(entry["num"], []).append(len(self.records))
        self.huellas.add(entry["huella"])
        if is_sale(entry):
            series = entry["num"].rpartition("-")[0]
            self.sales[series] = self.sales.get(series, 0) + 1

    def line(self, place):
        """What the agency says of the record at a place."""
        return self.noted[place - 1] if place <= len(self.noted) else ["pending", 0]

    def is_refused(self, place):
        return self.line(place)[0] not in ("pending", *ACCEPTING)

    def of(self, number):
        """An invoice's records, each with whether it was refused."""
        return [(self.records[place - 1], self.is_refused(place)) for place in self.places.get(number, [])]

    def link(self):
        return {key: self.records[-1][key] for key in ("day", "huella", "num")} if self.records else None

    def is_simplified(self, number, day):
        """A simplified invoice of this day that is held."""
        records = self.of(number)
        altas = [record for record, _ in records if record["t"] == "alta"]
        return is_held(records) and altas[-1]["day"] == day and altas[-1]["kind"] == "F2"

    def fault(self, entry):
        """Why the entry doesn't continue the history, where it doesn't."""
        if entry["t"] == "notes":
            fits = entry["first"] == len(self.noted) and len(self.noted) + len(entry["lines"]) <= len(self.records)
            return None if fits else "notes"
        if entry["link"] != self.link():
            return "link"
        if sha256(fields(self.issuer, entry).encode("ascii")).hexdigest().upper() != entry["huella"]:
            return "seal"
        return None if self.is_next(entry) else "rule"

    def is_next(self, record):
        """The rules of every record, then those of its sort."""
        return (
            record["serial"] > self.serials.get(record["till"], 0)
            and (not self.records or record["seconds"] >= self.records[-1]["seconds"])
            and record["offset"] == offset_at(record["seconds"])
            and record["huella"] not in self.huellas
            and len(self.records) < MOST_RECORDS
            and (record["t"] == "anulacion" or self.may_be_issued(record))
            and (self.is_next_sale(record) if is_sale(record) else self.is_next_change(record))
        )

    def may_be_issued(self, alta):
        replaced = alta["refs"] if alta["kind"] == "F3" else []
        return has_its_needs(alta) and all(self.is_simplified(number, day) for number, day in replaced)

    def is_next_sale(self, alta):
        series = alta["num"].rpartition("-")[0]
        number = f"{series}-{self.sales.get(series, 0) + 1}"
        day = day_text((alta["seconds"] + 60 * alta["offset"]) // 86_400)
        return is_series(series) and (alta["num"], alta["day"], alta["rechazo"]) == (number, day, "N")

    def is_next_change(self, record):
        """A fix or a cancellation: of an invoice of the chain that isn't cancelled."""
        records = self.of(record["num"])
        altas = [other for other, _ in records if other["t"] == "alta"]
        held = is_held(records)
        if not altas or record["day"] != altas[-1]["day"] or (last_accepted(records) and not held):
            return False
        last, refused = records[-1]
        again = held and refused and last["t"] == record["t"]
        if record["t"] == "alta":
            return record["rechazo"] == ("X" if not held else "S" if again else "N")
        return (record["sin_registro"], record["rechazo"]) == (not held, again)


def is_sale(record):
    return record["t"] == "alta" and not record["fix"]


def last_accepted(records):
    accepted = [record for record, refused in records if not refused]
    return accepted[-1] if accepted else None


def is_held(records):
    last = last_accepted(records)
    return last is not None and last["t"] == "alta"


# ---- the file


def header_fault(data):
    """The byte at which the header of a file that is begun is damaged, where it is."""
    size = len(data)
    rows = [
        (data[0] != 1, 0),
        (size < 10, size),
        (data[1:9] != b"VFCHAIN1", 1),
        (data[9:10] not in (b"\1", b"\2"), 9),
        (size < 19, size),
        (not is_nif(data[10:19]), 10),
    ]
    return next((at for holds, at in rows if holds), None)


def frame_body(data, at):
    """The body of the counted frame whose gate is at this byte; None where there is none."""
    if len(data) < at + 5:
        return None
    length = int.from_bytes(data[at + 1 : at + 5], "big")
    return data[at + 5 : at + 5 + length] if 1 <= length <= 4096 and at + 5 + length < len(data) else None


def step(history, body):
    """Adds the entry that the body is; else what is wrong with it."""
    if body is None:
        return "frame"
    try:
        entry = Entry(body, history.version).whole()
    except NoEntry:
        return "body"
    fault = history.fault(entry)
    if fault is None:
        history.add(entry)
    return fault


def read(data):
    """The history up to the first break, and the break: its byte and its word, None where the file is sound."""
    size = len(data)
    if size < 2 or (data[0] != 1 and size <= 20):
        return None, None
    at = header_fault(data)
    if at is not None:
        return None, (at, "header")
    history, at = History(data[10:19].decode("ascii"), data[9]), 19
    while at == size or data[at] == 1:
        body = frame_body(data, at)
        fault = step(history, body)
        if fault is not None:
            return history, (at, fault)
        at += 5 + len(body)
    return history, None


# ---- what is printed


def verdict(history, broken):
    records = history.records if history else []
    if broken:
        return f"broken {len(records) + 1} at {broken[0]} {broken[1]}"
    return f"sound {len(records)} noted {len(history.noted) if history else 0} last {records[-1]['huella'] if records else '-'}"


def flag(yes):
    return "S" if yes else "N"


def listing(history):
    """A line for each record."""
    for place, record in enumerate(history.records, 1):
        word, code = history.line(place)
        start, end = f"{place} {record['t']} {record['num']} {record['day']}", f"{record['huella']} {word}"
        if word in WITH_CODE:
            end += f" {code}"
        if record["t"] == "alta":
            tax, total = totals(record["lines"])
            yield f"{start} {record['kind']} {euros(tax)} {euros(total)} {flag(record['fix'])} {record['rechazo']} {end}"
        else:
            yield f"{start} {flag(record['sin_registro'])} {flag(record['rechazo'])} {end}"


def json_lines(history):
    for entry in [{"issuer": history.issuer, "t": "chain", "version": history.version}, *history.entries]:
        yield json.dumps(entry, ensure_ascii=False, separators=(",", ":"), sort_keys=True)


def main():
    words = sys.argv[1:]
    as_json = words[:1] == ["--json"]
    if len(words) != 1 + as_json:
        sys.exit("usage: read_chain.py [--json] FILE")
    try:
        with open(words[-1], "rb") as file:
            data = file.read()
    except FileNotFoundError:
        print(f"{words[-1]}: no such file, read as not begun", file=sys.stderr)
        data = b""
    except OSError as fault:
        print(f"{words[-1]}: {fault.strerror}", file=sys.stderr)
        return 6
    history, broken = read(data)
    if not as_json:
        print(verdict(history, broken))
    if history and not (as_json and broken):
        for line in json_lines(history) if as_json else listing(history):
            print(line)
    return 9 if broken else 0


if __name__ == "__main__":
    signal.signal(signal.SIGPIPE, signal.SIG_DFL)  # `| head` ends it without a word
    sys.exit(main())
