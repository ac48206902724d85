#!/usr/bin/python3
"""A stand-in for the program, to try the hub where the program isn't built: `serve`, `list`, `statement` and `audit` in the documented form.

It knows few rules (docs/FORMAT.md has them all) and its file is its own: lines of JSON, each synced before its answer, so that it may be
killed at any moment. Its agency takes what waits every PAUSE seconds. By environment:
  STAND_IN_PAUSE     seconds from one look at what waits to the next (0.2), `never` for an agency that is silent
  STAND_IN_VERDICTS  "A-1 1 vet 3000, A-2 1 warn 200", as agency.py's: of the n-th record of an invoice
  STAND_IN_FOR_PRACTICE  the adapter says that it is for practice
  STAND_IN_SLEEP     seconds that each command takes beside its sync
"""
import errno
import fcntl
import hashlib
import json
import os
import re
import select
import sys
import time
from datetime import datetime
from urllib.parse import quote
from zoneinfo import ZoneInfo

from hub_limits import MOST_TILLS

RATES = {"21": (2100, 0), "10": (1000, 0), "4": (400, 0), "0": (0, 0), "21+": (2100, 520), "10+": (1000, 140), "4+": (400, 50)}
FREE = re.compile(r"(0[23]/)?(S2|N1|N2|E[1-6])")
RATED = re.compile(r"0[23]/(0|[1-9]\d{0,3})")
HOSTS = {"real": "www2.agenciatributaria.gob.es", "test": "prewww2.aeat.es"}
MOST_BASE, LONGEST_LINE = 9_999_999_999, 65_536
NAMED = {"F1", "F3", "R1", "R2", "R3", "R4"}


class Wrong(Exception):
    """The script's word for what is wrong with a line."""


def number(text, word, most, least=0):
    if not re.fullmatch(r"0|-?[1-9]\d*", text, re.ASCII) or not least <= int(text) <= most:
        raise Wrong(word)
    return int(text)


def rates(name):
    if name in RATES:
        return RATES[name]
    if FREE.fullmatch(name):
        return (0, 0)
    if RATED.fullmatch(name) and int(name[3:]) <= 2500:
        return (int(name[3:]), 0)
    raise Wrong("Class")


def part(amount, rate):
    """A rate's part of an amount, halves away from zero."""
    cents = (abs(amount) * rate + 5000) // 10000
    return cents if amount >= 0 else -cents


def sums(lines):
    tax = sum(part(base, rate) for name, base in lines for rate in rates(name))
    return tax, tax + sum(base for _, base in lines)


def parted(name, total):
    """One base whose total this is, else the two that the rule takes."""
    if total < 0:
        return [-base for base in parted(name, -total)]
    whole = 10000 + sum(rates(name))
    near = (2 * total * 10000 + whole) // (2 * whole)
    for base in (near, near - 1, near + 1, near - 2, near + 2):
        if sums([(name, base)])[1] == total and base <= MOST_BASE:
            return [base]
    for both in (near, near - 1, near + 1, near - 2, near + 2):
        for less in range(both // 2, max(both // 2 - 6000, -1), -1):
            if sums([(name, less), (name, both - less)])[1] == total and both - less <= MOST_BASE:
                return [both - less, less]
    return []


def is_nif(text):
    """Whether its last character is the control of the others."""
    if re.fullmatch(r"[XYZ\d]\d{7}[A-Z]", text, re.ASCII):
        return text[8] == "TRWAGMYFPDXBNJZSQVHLCKE"[int(text[:8].translate(str.maketrans("XYZ", "012"))) % 23]
    if not re.fullmatch(r"[ABCDEFGHJNPQRSUVW]\d{7}[A-J\d]", text, re.ASCII):
        return False
    digits = [int(digit) for digit in text[1:8]]
    control = -(sum(digits[1::2]) + sum(sum(divmod(2 * digit, 10)) for digit in digits[::2])) % 10
    return text[8] in (str(control), "JABCDEFGHI"[control])


def euros(cents):
    return f"{'-' if cents < 0 else ''}{abs(cents) // 100}.{abs(cents) % 100:02d}"


class Chain:
    """The file: a head, then records and the agency's lines."""

    def __init__(self, path):
        self.path, self.file = path, None
        self.issuer, self.records, self.lines = None, [], []
        self.kept, self.serials, self.series = {}, {}, {}
        self.by_num = {}
        if os.path.exists(path):
            with open(path, "rb") as file:
                for line in file.read().rpartition(b"\n")[0].split(b"\n"):
                    if line:
                        self.apply(json.loads(line))

    def open(self, issuer):
        self.file = open(self.path, "ab")
        try:
            fcntl.flock(self.file, fcntl.LOCK_EX | fcntl.LOCK_NB)
        except OSError:
            sys.stderr.write(f"verifactu: disk fault\nverifactu: {self.path}: in use by another program\n")
            sys.exit(6)
        self.__dict__.update(Chain(self.path).__dict__, file=self.file)
        if self.issuer not in (None, issuer):
            sys.stderr.write(f"verifactu: file of {self.issuer}\n")
            sys.exit(13)
        with open(self.path, "rb") as file:
            self.file.truncate(file.read().rfind(b"\n") + 1)
        if self.issuer is None:
            self.append({"issuer": issuer})

    def append(self, entry):
        self.file.write(json.dumps(entry).encode() + b"\n")
        self.file.flush()
        os.fdatasync(self.file.fileno())
        self.apply(entry)

    def apply(self, entry):
        if "issuer" in entry:
            self.issuer = entry["issuer"]
        elif "noted" in entry:
            self.lines += entry["noted"]
        else:
            self.records.append(entry)
            place, num = len(self.records), entry["num"]
            self.kept[entry["till"], entry["serial"]] = place
            self.serials[entry["till"]] = max(entry["serial"], self.serials.get(entry["till"], 0))
            self.by_num.setdefault(num, []).append(place)
            if len(self.by_num[num]) == 1:
                name = num.rpartition("-")[0]
                self.series[name] = self.series.get(name, 0) + 1

    def line(self, place):
        return self.lines[place - 1] if place <= len(self.lines) else "pending"

    def last_alta(self, num):
        return next((place for place in reversed(self.by_num.get(num, ())) if self.records[place - 1]["t"] == "alta"), 0)

    def listing(self, place):
        record = self.records[place - 1]
        middle = f"{record['kind']} {euros(record['cuota'])} {euros(record['total'])}" if record["t"] == "alta" else ""
        words = [place, record["t"], record["num"], record["day"], middle, *record["flags"], record["huella"], self.line(place)]
        return " ".join(str(word) for word in words if word != "")

    def counts(self):
        return f"chain {len(self.records)} noted {len(self.lines)}"

    def is_refused(self, place):
        return self.line(place).split()[0] in ("vet", "held", "not-held", "gone")


def moment():
    return datetime.now(ZoneInfo("Europe/Madrid")).replace(microsecond=0)


class Serve:
    """The dialogue."""

    def __init__(self, chain):
        self.chain, self.customers, self.count = chain, {}, 0
        self.ended = None  # the fault of the disk by which it ends

    def answer(self, raw, is_ended):
        """The answer to one line, or None where it has none."""
        self.count += 1
        if len(raw) > LONGEST_LINE:
            return f"line {self.count} too-long"
        if not is_ended:
            return f"line {self.count} unended"
        text = raw[:-1] if raw.endswith(b"\r") else raw
        if not text or text.startswith(b"#"):
            return None
        try:
            return self.obey(re.split("[ \t]", text.decode("utf-8")))
        except UnicodeDecodeError:
            return f"line {self.count} Utf8"
        except Wrong as wrong:
            return f"line {self.count} {wrong}"

    def obey(self, fields):
        verb, *rest = fields
        if verb in ("sale", "fix", "cancel"):
            return self.command(verb, rest)
        counts = {"ticket": 2, "record": 1, "serial": 2, "last": 1, "lines": 2, "chain": 0}
        if verb == "customer":
            return self.customer(rest)
        if verb not in counts:
            raise Wrong("Verb")
        if len(rest) != counts[verb]:
            raise Wrong("Fields")
        return self.chain.counts() if verb == "chain" else getattr(self, verb)(*rest)

    def customer(self, rest):
        if len(rest) < 3:
            raise Wrong("Fields")
        key, nif, name = rest[0], rest[1], " ".join(rest[2:])
        if not re.fullmatch(r"[A-Za-z0-9]{1,20}", key):
            raise Wrong("Customer")
        if not is_nif(nif):
            raise Wrong("Nif")
        if name != name.strip(" ") or not 1 <= len(name.encode()) <= 120:
            raise Wrong("Name")
        if key in self.customers:
            raise Wrong("Twice")
        if len(self.customers) >= 10_000:
            raise Wrong("TooMany")
        self.customers[key] = (nif, name)
        return f"customer {key}"

    def command(self, verb, rest):
        if len(rest) < 3:
            raise Wrong("Fields")
        till, serial = number(rest[0], "Till", MOST_TILLS, 1), number(rest[1], "Number", 2**32 - 1, 1)
        asked = {"till": till, "serial": serial, "customer": None, "rect": None, "refs": 0, "lines": []}
        if verb == "sale" and not re.fullmatch(r"[A-Za-z0-9/_]{1,20}", rest[2]):
            raise Wrong("Series")
        if verb != "sale" and not re.fullmatch(r"[!-~]{1,60}", rest[2]):
            raise Wrong("Num")
        if verb == "cancel":
            if len(rest) > 3:
                raise Wrong("Fields")
        else:
            self.read_invoice(rest[3:], asked)
        if os.environ.get("STAND_IN_SLEEP"):
            time.sleep(float(os.environ["STAND_IN_SLEEP"]))
        return f"till {till} serial {serial} {self.take(verb, rest[2], asked)}"

    def read_invoice(self, fields, asked):
        if not fields or not re.fullmatch(r"F[1-3]|R[1-5]", fields[0]):
            raise Wrong("Kind")
        asked["kind"] = fields[0]
        for field in fields[1:]:
            if "=" in field:
                self.read_option(field, asked)
                continue
            name, colon, base = field.partition(":")
            rates(name)
            if not colon or not re.fullmatch(r"-?\d{1,13}", base):
                raise Wrong("Number")
            asked["lines"].append((name, number(base, "Number", 10**13, -10**13)))
        if not 1 <= len(asked["lines"]) <= 12 or any(abs(base) > MOST_BASE for _, base in asked["lines"]):
            raise Wrong("Lines")

    def read_option(self, field, asked):
        name, _, value = field.partition("=")
        if name == "to" and asked["customer"] is None:
            if value not in self.customers:
                raise Wrong("Customer")
            asked["customer"] = self.customers[value]
        elif name == "rect" and value in ("S", "I") and asked["rect"] is None:
            asked["rect"] = value
        elif name == "ref" and "@" in value:
            day = re.fullmatch(r"(\d\d)-(\d\d)-(\d{4})", value.rpartition("@")[2])
            if not day or not (1 <= int(day[1]) <= 31 and 1 <= int(day[2]) <= 12):
                raise Wrong("Date")
            asked["refs"] += 1
        else:
            raise Wrong("Option")

    def take(self, verb, subject, asked):
        chain, key = self.chain, (asked["till"], asked["serial"])
        if key in chain.kept:
            place = chain.kept[key]
            return f"again {place} {chain.records[place - 1]['num']} {chain.records[place - 1]['huella']}"
        if chain.serials.get(key[0], 0) > key[1]:
            return f"refused passed {chain.serials[key[0]]}"
        refusal = self.refusal(verb, subject, asked)
        if refusal:
            return f"refused {refusal}"
        now = moment()
        num = f"{subject}-{chain.series.get(subject, 0) + 1}" if verb == "sale" else subject
        day = now.strftime("%d-%m-%Y") if verb == "sale" else chain.records[chain.last_alta(num) - 1]["day"]
        record = {"t": "anulacion" if verb == "cancel" else "alta", "till": key[0], "serial": key[1], "num": num, "day": day,
                  "moment": now.isoformat(), "flags": ["N", "N"]}
        if verb != "cancel":
            tax, total = sums(asked["lines"])
            record.update(kind=asked["kind"], lines=asked["lines"], cuota=tax, total=total, flags=["S" if verb == "fix" else "N", "N"])
        before = chain.records[-1]["huella"] if chain.records else ""
        record["huella"] = hashlib.sha256((before + json.dumps(record)).encode()).hexdigest().upper()
        try:
            chain.append(record)
        except OSError as fault:
            self.ended = fault
            return "fault disk"
        return f"taken {len(chain.records)} {num} {record['huella']}"

    def refusal(self, verb, subject, asked):
        chain = self.chain
        if verb != "cancel":
            if asked["kind"] in NAMED and asked["customer"] is None:
                return "draft customer-missing"
            if asked["kind"] not in NAMED and asked["customer"] is not None:
                return "draft customer-unwanted"
            total = sums(asked["lines"])[1]
            if asked["kind"] == "F2" and total > 300_000:
                return f"draft over-simplified {total}"
        if verb == "sale":
            return None
        if subject not in chain.by_num:
            return "unknown"
        last = chain.by_num[subject][-1]
        return f"cancelled {last}" if chain.records[last - 1]["t"] == "anulacion" and not chain.is_refused(last) else None

    def ticket(self, num, host):
        if not re.fullmatch(r"[!-~]{1,60}", num):
            raise Wrong("Num")
        if host not in HOSTS:
            raise Wrong("Host")
        place = self.chain.last_alta(num)
        if not place:
            return f"ticket {num} unknown"
        record = self.chain.records[place - 1]
        values = {"nif": self.chain.issuer, "numserie": num, "fecha": record["day"], "importe": euros(record["total"])}
        link = f"https://{HOSTS[host]}/wlpl/TIKE-CONT/ValidarQR?" + "&".join(f"{key}={quote(value, safe='')}" for key, value in values.items())
        return (f"ticket {place} {num} {record['day']} {record['kind']} {euros(record['cuota'])} {euros(record['total'])} "
                f"{record['moment']} {record['huella']} {link} {self.chain.line(place)}")

    def record(self, place):
        asked = number(place, "Number", 2**32 - 1, 1)
        return self.chain.listing(asked) if asked <= len(self.chain.records) else f"record {asked} unknown"

    def serial(self, till, serial):
        asked = number(till, "Till", MOST_TILLS, 1), number(serial, "Number", 2**32 - 1, 1)
        place = self.chain.kept.get(asked)
        return self.chain.listing(place) if place else f"serial {asked[0]} {asked[1]} unknown"

    def last(self, till):
        asked = number(till, "Till", MOST_TILLS, 1)
        return f"last {asked} {self.chain.serials.get(asked, 0)}"

    def lines(self, name, total):
        rates(name)
        bases = parted(name, number(total, "Number", 10**13 - 1, 1 - 10**13))
        return "lines " + (" ".join(f"{name}:{base}" for base in bases) or "none")


class Agency:
    """Says what it finds of all that waits, every so often."""

    def __init__(self, chain):
        pause = os.environ.get("STAND_IN_PAUSE", "0.2")
        self.chain, self.pause = chain, None if pause == "never" else float(pause)
        rows = [row.split() for row in os.environ.get("STAND_IN_VERDICTS", "").split(",") if row.strip()]
        self.verdicts = {(row[0], int(row[1])): self.line(row[2], row[3]) for row in rows}
        self.due = time.monotonic()
        if "STAND_IN_FOR_PRACTICE" in os.environ:
            sys.stderr.write("verifactu: the agency: for practice: what a stand-in answers for is never sent to the tax agency\n")
            sys.stderr.flush()

    @staticmethod
    def line(word, code):
        return {"vet": f"vet {code}", "warn": f"con-errores {code}"}.get(word, word)

    def note(self):
        waiting = range(len(self.chain.lines) + 1, len(self.chain.records) + 1)
        if self.pause is None or time.monotonic() < self.due or not waiting:
            return
        self.due = time.monotonic() + self.pause
        try:
            self.chain.append({"noted": [self.verdict(place) for place in waiting]})
        except OSError as fault:
            sys.exit(disk_fault(self.chain.path, fault))

    def verdict(self, place):
        num = self.chain.records[place - 1]["num"]
        return self.verdicts.get((num, self.chain.by_num[num].index(place) + 1), "correcto")


def disk_fault(path, fault):
    reason = "no space left" if fault.errno == errno.ENOSPC else "input or output error"
    sys.stderr.write(f"verifactu: disk fault\nverifactu: {path}: {reason}\n")
    return 6


def serve(path, issuer):
    chain = Chain(path)
    chain.open(issuer)
    dialogue, agency, rest = Serve(chain), Agency(chain), b""
    while not dialogue.ended:
        if not select.select([0], [], [], 0.05)[0]:
            agency.note()
            continue
        data = os.read(0, 65_536)
        if not data:
            break
        *lines, rest = (rest + data).split(b"\n")
        for line in lines:
            say(dialogue, line, True)
        agency.note()
    if dialogue.ended:
        return disk_fault(path, dialogue.ended)
    if rest:
        say(dialogue, rest, False)
    while agency.pause is not None and len(chain.lines) < len(chain.records):
        agency.note()
        time.sleep(0.01)
    print(chain.counts(), flush=True)
    return 0


def say(dialogue, line, is_ended):
    if dialogue.ended:
        return
    answer = dialogue.answer(line, is_ended)
    if answer is not None:
        os.write(1, answer.encode() + b"\n")


def listed(path, which):
    chain = Chain(path)
    places = range(1, len(chain.records) + 1)
    wanted = {"all": lambda place: True, "waiting": lambda place: chain.line(place) == "pending",
              "refused": lambda place: chain.is_refused(place) and chain.by_num[chain.records[place - 1]["num"]][-1] == place}
    for place in filter(wanted[which], places):
        print(chain.listing(place))
    print(chain.counts())
    return 0


def statement(path, period):
    if not re.fullmatch(r"(\d\d-)?(0[1-9]|1[0-2])-(202[4-9]|20[3-9]\d|2100)", period):
        sys.stderr.write("verifactu: usage\n")
        return 2
    chain, rows = Chain(path), {}
    for places in chain.by_num.values():
        held = next((place for place in reversed(places) if not chain.is_refused(place)), 0)
        record = chain.records[held - 1]
        if held and record["t"] == "alta" and record["day"].endswith(period):
            for name, base in record["lines"]:
                row = rows.setdefault(name, [0, 0, 0, 0])
                for at, cents in enumerate((1, base, *(part(base, rate) for rate in rates(name)))):
                    row[at] += cents
    for name, row in rows.items():
        print(name, row[0], *map(euros, row[1:]))
    lines, base, tax, surcharge = (sum(row[at] for row in rows.values()) for at in range(4))
    print(f"statement {period} lines {lines} base {euros(base)} tax {euros(tax)} surcharge {euros(surcharge)}")
    return 0


def audit(path):
    """Whether each record follows the one before it, and each till's serials rise."""
    chain, before, serials = Chain(path), "", {}
    for place, record in enumerate(chain.records, 1):
        told = {key: value for key, value in record.items() if key != "huella"}
        huella = hashlib.sha256((before + json.dumps(told)).encode()).hexdigest().upper()
        if huella != record["huella"] or serials.get(record["till"], 0) >= record["serial"]:
            print(f"broken {place}")
            return 9
        before, serials[record["till"]] = huella, record["serial"]
    print(f"sound {len(chain.records)} noted {len(chain.lines)} last {before or '-'}")
    return 0


def main(words):
    if words[:1] == ["--agency"]:
        words = words[3:]
    commands = {"serve": serve, "list": listed, "statement": statement, "audit": audit}
    if not words or words[0] not in commands:
        sys.stderr.write("verifactu: usage\n")
        return 2
    return commands[words[0]](*words[1:])


if __name__ == "__main__":
    sys.exit(main(sys.argv[1:]))
