"""The forms: a request's JSON to lines of `serve`, and the program's answers to JSON. No rule of invoicing is known here.

What is no request of its form raises BadRequest with a sentence that names the key. All else is the program's to judge.
"""
from __future__ import annotations

import json
import re
import unicodedata
from dataclasses import dataclass
from typing import Any, Callable, Dict, List, Optional, Tuple, Union

from hub_limits import FIRST_TOO_GREAT, LONGEST_NAME, LONGEST_WORD, MOST_DIGITS
from hub_pipe import Ending, Line

Values = Dict[str, Any]
Reader = Callable[[Any, str], Any]

WORD = re.compile(r"[!-<>-~]{1,%d}" % LONGEST_WORD)
DAY = re.compile(r"(\d{4})-(\d{2})-(\d{2})", re.ASCII)
SERIAL = re.compile(r"[1-9]\d{0,9}", re.ASCII)
LAST_SERIAL = 4_294_967_295
MONTH = re.compile(r"(\d{4})-(\d{2})", re.ASCII)
HUELLA = r"([0-9A-F]{64})"
EUROS = r"(-?\d+\.\d\d)"
STATE = r"(pending|correcto|held|not-held|gone|con-errores|vet)(?: (\d+))?"
ANSWER = re.compile(r"till (\d+) serial (\d+) (taken|again|refused|fault) (.+)", re.ASCII)
RECORD_OF_ANSWER = re.compile(rf"(\d+) (\S+) {HUELLA}", re.ASCII)
TICKET = re.compile(
    rf"ticket (\d+) (\S+) (\d\d-\d\d-\d{{4}}) ([FR]\d) {EUROS} {EUROS} (\S+) {HUELLA} (https://\S+) {STATE}", re.ASCII)
ALTA = re.compile(rf"(\d+) alta (\S+) (\d\d-\d\d-\d{{4}}) ([FR]\d) {EUROS} {EUROS} ([NSX]) ([NSX]) {HUELLA} {STATE}", re.ASCII)
ANULACION = re.compile(rf"(\d+) anulacion (\S+) (\d\d-\d\d-\d{{4}}) ([NSX]) ([NSX]) {HUELLA} {STATE}", re.ASCII)
LAST = re.compile(r"last (\d+) (\d+)", re.ASCII)
PART = re.compile(r"(\S+):(-?\d+)", re.ASCII)
SUMS = re.compile(rf"(\S+) (\d+) {EUROS} {EUROS} {EUROS}", re.ASCII)
ALL_SUMS = re.compile(rf"statement (\S+) lines (\d+) base {EUROS} tax {EUROS} surcharge {EUROS}", re.ASCII)


class BadRequest(Exception):
    """No request of this form; the text says why."""


# ---- JSON


def read_json(body: bytes) -> Values:
    """The object that a body is. A key that stands twice, a number with a point or an exponent and NaN are no JSON here."""
    try:
        value = json.loads(body.decode("utf-8"), object_pairs_hook=_once, parse_float=_no_float, parse_int=_whole, parse_constant=_no_float)
    except UnicodeDecodeError:
        raise BadRequest("the body isn't UTF-8") from None
    except (ValueError, RecursionError):
        raise BadRequest("the body is no JSON") from None
    if not isinstance(value, dict):
        raise BadRequest("the body is no object")
    return value


def _once(pairs: List[Tuple[str, Any]]) -> Values:
    values = dict(pairs)
    if len(values) != len(pairs):
        raise BadRequest("a key stands twice")
    return values


def _no_float(text: str) -> Any:
    raise BadRequest(f"{text[:LONGEST_WORD]} is no whole number")


def _whole(text: str) -> int:
    if len(text) > MOST_DIGITS:
        raise BadRequest("a number is too great")
    return int(text)


def read_object(value: Any, name: str, wanted: Dict[str, Reader], free: Optional[Dict[str, Reader]] = None) -> Values:
    """The values of an object that has each key of `wanted`, may have those of `free`, and has no other."""
    if not isinstance(value, dict):
        raise BadRequest(f"{name} is no object")
    readers = {**wanted, **(free or {})}
    for key in wanted:
        if key not in value:
            raise BadRequest(f"{name} has no key {key}")
    for key in value:
        if key not in readers:
            raise BadRequest(f"{name} has a key that isn't of the form")
    return {key: readers[key](part, key) for key, part in value.items()}


def read_list(reader: Reader) -> Reader:
    """A reader of a list of what `reader` reads."""

    def read(value: Any, name: str) -> List[Any]:
        if not isinstance(value, list):
            raise BadRequest(f"{name} is no list")
        return [reader(part, name) for part in value]

    return read


def read_word(value: Any, name: str) -> str:
    """One field of a line: 1 to 80 visible ASCII characters without `=`, since a field with one is an option."""
    if not isinstance(value, str) or not WORD.fullmatch(value):
        raise BadRequest(f"{name} isn't 1 to {LONGEST_WORD} visible ASCII characters without =")
    return value


def read_number(value: Any, name: str) -> int:
    """A whole number below 10^13 in absolute value; `true` is none."""
    if type(value) is not int or abs(value) >= FIRST_TOO_GREAT:
        raise BadRequest(f"{name} is no whole number below 10^13")
    return value


def read_name(value: Any, name: str) -> str:
    """A customer's name: what stands to the end of its line, so nothing that may end a line."""
    if not isinstance(value, str) or not 1 <= len(value) <= LONGEST_NAME:
        raise BadRequest(f"{name} isn't 1 to {LONGEST_NAME} characters")
    if any(unicodedata.category(letter) in ("Cc", "Cs", "Zl", "Zp") for letter in value):
        raise BadRequest(f"{name} has a control character, a line separator or half a character")
    return value


def read_rect(value: Any, name: str) -> str:
    """How an invoice rectifies: `S` by replacing, `I` by differences."""
    if value not in ("S", "I"):
        raise BadRequest(f"{name} is neither S nor I")
    return str(value)


def read_day(value: Any, name: str) -> str:
    """A day YYYY-MM-DD as the program writes it, DD-MM-YYYY."""
    found = DAY.fullmatch(value) if isinstance(value, str) else None
    if not found:
        raise BadRequest(f"{name} is no day YYYY-MM-DD")
    return "-".join(reversed(found.groups()))


def read_serial(text: str, name: str) -> int:
    """A serial of a query, in digits."""
    if not SERIAL.fullmatch(text) or int(text) > LAST_SERIAL:
        raise BadRequest(f"{name} is no whole number from 1 to {LAST_SERIAL}")
    return int(text)


def read_month(value: str, name: str) -> str:
    """A month YYYY-MM as the program writes it, MM-YYYY."""
    found = MONTH.fullmatch(value)
    if not found:
        raise BadRequest(f"{name} is no month YYYY-MM")
    return "-".join(reversed(found.groups()))


# ---- commands


@dataclass(frozen=True)
class Amount:
    """A line as it was asked: its class and either its base or its total, in cents."""

    line_class: str
    base: Optional[int]
    total: Optional[int]


def read_amount(value: Any, name: str) -> Amount:
    """A line of a sale: `class` and either `base` or `total`."""
    values = read_object(value, name, {"class": read_word}, {"base": read_number, "total": read_number})
    if len(values) != 2:
        raise BadRequest(f"one of {name} hasn't either base or total")
    return Amount(values["class"], values.get("base"), values.get("total"))


def _read_customer(value: Any, name: str) -> Tuple[str, str]:
    values = read_object(value, name, {"nif": read_word, "name": read_name})
    return values["nif"], values["name"]


def _read_ref(value: Any, name: str) -> str:
    values = read_object(value, name, {"num": read_word, "date": read_day})
    return f"{values['num']}@{values['date']}"


@dataclass(frozen=True)
class Command:
    """A sale, a fix or a cancellation as it was asked; `subject` is a series or the number of an invoice."""

    verb: str
    serial: int
    subject: str
    kind: str = ""
    amounts: Tuple[Amount, ...] = ()
    customer: Optional[Tuple[str, str]] = None
    options: str = ""

    def line(self, till: int, bases: List[str]) -> Line[Any]:
        """The line of `serve`, its lines being these texts CLASS:BASE."""
        head = f"{self.verb} {till} {self.serial} {self.subject}"
        if self.kind:
            head += f" {self.kind}"
        tail = self.options + "".join(f" {base}" for base in bases)
        return Line(head, receipt_reader(till, self.serial), tail, self.customer)

    def makes(self, row: Values) -> bool:
        """Whether a record, as a row of the listing, is one that this command makes. Amounts and customers are the till's to compare."""
        if self.verb == "cancel":
            return row["record"] == "anulacion" and row["num"] == self.subject
        if row["record"] != "alta" or row["kind"] != self.kind:
            return False
        series, _, count = row["num"].rpartition("-")
        if self.verb == "fix":
            return row["subsanacion"] == "S" and row["num"] == self.subject
        return row["subsanacion"] == "N" and series == self.subject and count.isdecimal()


SUBJECTS = {"sale": "series", "fix": "num", "cancel": "num"}
OPTIONAL: Dict[str, Reader] = {"customer": _read_customer, "rect": read_rect, "refs": read_list(_read_ref)}


def read_command(verb: str, body: bytes) -> Command:
    """The body of a sale, a fix or a cancellation (`cancel`)."""
    wanted: Dict[str, Reader] = {"serial": read_number, SUBJECTS[verb]: read_word}
    if verb != "cancel":
        wanted.update({"kind": read_word, "lines": read_list(read_amount)})
    values = read_object(read_json(body), "the body", wanted, {} if verb == "cancel" else OPTIONAL)
    options = f" rect={values['rect']}" if "rect" in values else ""
    options += "".join(f" ref={ref}" for ref in values.get("refs", ()))
    return Command(verb, values["serial"], values[SUBJECTS[verb]], values.get("kind", ""), tuple(values.get("lines", ())),
                   values.get("customer"), options)


# ---- answers


@dataclass(frozen=True)
class Receipt:
    """`taken` or `again`: the record's place, its invoice's number and its HUELLA."""

    answer: str
    place: int
    num: str
    huella: str


@dataclass(frozen=True)
class Refused:
    """`refused` and the program's reason, to the letter."""

    reason: str


@dataclass(frozen=True)
class NoMemory:
    """`fault memory`: the same is to be asked again."""


def receipt_reader(till: int, serial: int) -> Callable[[str], Union[Receipt, Refused, NoMemory, type, None]]:
    """Reads the answer to a command of this till and serial."""
    asked = (str(till), str(serial))

    def read(answer: str) -> Union[Receipt, Refused, NoMemory, type, None]:
        found = ANSWER.fullmatch(answer)
        if not found or found.group(1, 2) != asked:
            return None
        word, rest = found.group(3, 4)
        if word == "refused":
            return Refused(rest)
        if word == "fault":
            return NoMemory() if rest == "memory" else Ending
        record = RECORD_OF_ANSWER.fullmatch(rest)
        return Receipt(word, int(record[1]), record[2], record[3]) if record else None

    return read


def cents(euros: str) -> int:
    """Whole cents of an amount as the program prints it."""
    return int(euros.replace(".", ""))


def iso_day(day: str) -> str:
    """YYYY-MM-DD of the program's DD-MM-YYYY."""
    return f"{day[6:]}-{day[3:5]}-{day[:2]}"


def _state(word: str, code: Optional[str]) -> Values:
    return {"state": word, **({"code": int(code)} if code else {})}


REFUSED = ("vet", "held", "not-held", "gone")  # states of records that the agency didn't take
UNKNOWN: Values = {}  # what a question about something that isn't in the chain is answered


def ticket_line(num: str, host: str) -> Line[Values]:
    """Asks the ticket of an invoice: UNKNOWN where the chain has none of that number."""

    def read(answer: str) -> Optional[Values]:
        if answer == f"ticket {num} unknown":
            return UNKNOWN
        found = TICKET.fullmatch(answer)
        if not found or found[2] != num:
            return None
        place, _, day, kind, cuota, total, moment, huella, link, word, code = found.groups()
        return {"place": int(place), "num": num, "date": iso_day(day), "kind": kind, "cuota": cents(cuota), "total": cents(total),
                "moment": moment, "huella": huella, "link": link, **_state(word, code)}

    return Line(f"ticket {num} {host}", read)


def read_row(text: str) -> Optional[Values]:
    """A line of the listing."""
    alta = ALTA.fullmatch(text)
    if alta:
        place, num, day, kind, cuota, total, subsanacion, rechazo, huella, word, code = alta.groups()
        return {"place": int(place), "record": "alta", "num": num, "date": iso_day(day), "kind": kind, "cuota": cents(cuota),
                "total": cents(total), "subsanacion": subsanacion, "rechazo": rechazo, "huella": huella, **_state(word, code)}
    anulacion = ANULACION.fullmatch(text)
    if anulacion:
        place, num, day, sin_registro, rechazo, huella, word, code = anulacion.groups()
        return {"place": int(place), "record": "anulacion", "num": num, "date": iso_day(day), "sin_registro": sin_registro,
                "rechazo": rechazo, "huella": huella, **_state(word, code)}
    return None


def record_line(place: int) -> Line[Values]:
    """Asks the listing's line of a record."""

    def read(answer: str) -> Optional[Values]:
        if answer == f"record {place} unknown":
            return UNKNOWN
        row = read_row(answer)
        return row if row and row["place"] == place else None

    return Line(f"record {place}", read)


def serial_line(till: int, serial: int) -> Line[Values]:
    """Asks the listing's line of the record under a till's serial."""

    def read(answer: str) -> Optional[Values]:
        return UNKNOWN if answer == f"serial {till} {serial} unknown" else read_row(answer)

    return Line(f"serial {till} {serial}", read)


def last_line(till: int) -> Line[int]:
    """Asks the greatest serial of a till, 0 where it has none."""

    def read(answer: str) -> Optional[int]:
        found = LAST.fullmatch(answer)
        return int(found[2]) if found and found[1] == str(till) else None

    return Line(f"last {till}", read)


def parting_line(line_class: str, total: int) -> Line[List[str]]:
    """Asks which lines have this total: one or two texts CLASS:BASE, or an empty list where none have."""

    def read(answer: str) -> Optional[List[str]]:
        if answer == "lines none":
            return []
        first, *parts = answer.split(" ")
        found = [PART.fullmatch(part) for part in parts]
        if first != "lines" or not 1 <= len(parts) <= 2 or any(part is None or part[1] != line_class for part in found):
            return None
        return parts

    return Line(f"lines {line_class} {total}", read)


def read_statement(text: str, period: str) -> Optional[Values]:
    """What `statement` prints for a period (MM-YYYY or DD-MM-YYYY); amounts in cents."""
    *rows, last = text.rstrip("\n").split("\n")
    sums, classes = ALL_SUMS.fullmatch(last), [SUMS.fullmatch(row) for row in rows]
    if not sums or sums[1] != period or any(row is None for row in classes):
        return None
    return {**_sums(sums.groups()[1:]), "classes": [{"class": row[1], **_sums(row.groups()[1:])} for row in classes if row]}


def _sums(words: Tuple[Any, ...]) -> Values:
    return {"lines": int(words[0]), "base": cents(words[1]), "tax": cents(words[2]), "surcharge": cents(words[3])}


def read_listing(text: str) -> Optional[List[Values]]:
    """The records that `list` prints ahead of its chain line."""
    *rows, last = text.rstrip("\n").split("\n")
    found = [read_row(row) for row in rows]
    return None if not last.startswith("chain ") or None in found else [row for row in found if row]
