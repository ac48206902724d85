#!/usr/bin/env python3
"""Computes each Huella of an export again, from the record's fields, without the program.

    ./verifactu export shop.chain | python3 examples/export.py

Prints `N records`; or the first record that doesn't name the one before it, or whose Huella isn't that of its fields, and ends
with status 1. The keys are those of docs/FORMAT.md (Lines of JSON), the field text is that of docs/HUELLA.md.
"""
import hashlib
import json
import sys
from datetime import datetime, timedelta, timezone

# The tax and the equivalence surcharge of a line under IVA, in hundredths of a percent; other words of IVA have none.
IVA = {"21": (2100, 0), "10": (1000, 0), "4": (400, 0), "21+": (2100, 520), "10+": (1000, 140), "4+": (400, 50)}


def rates(word):
    tax, slash, rest = word.partition("/")
    if not slash:
        return IVA.get(tax, (0, 0))
    return (int(rest), 0) if rest.isdigit() else (0, 0)


def rounded(base, rate):
    """The tax of a base in cents, half a cent away from zero."""
    cents = (abs(base) * rate + 5000) // 10000
    return cents if base >= 0 else -cents


def euros(cents):
    return f"{'-' if cents < 0 else ''}{abs(cents) // 100}.{abs(cents) % 100:02}"


def totals(lines):
    tax = sum(rounded(base, rate) for word, base in lines for rate in rates(word))
    return tax, tax + sum(base for _, base in lines)


def moment(record):
    zone = timezone(timedelta(minutes=record["offset"]))
    return datetime.fromtimestamp(record["seconds"], zone).isoformat(timespec="seconds")


def fields(issuer, record):
    before = record["link"]["huella"] if record["link"] else ""
    end = f"&Huella={before}&FechaHoraHusoGenRegistro={moment(record)}"
    if record["t"] == "anulacion":
        return (
            f"IDEmisorFacturaAnulada={issuer}&NumSerieFacturaAnulada={record['num']}"
            f"&FechaExpedicionFacturaAnulada={record['day']}{end}"
        )
    tax, total = totals(record["lines"])
    return (
        f"IDEmisorFactura={issuer}&NumSerieFactura={record['num']}&FechaExpedicionFactura={record['day']}"
        f"&TipoFactura={record['kind']}&CuotaTotal={euros(tax)}&ImporteTotal={euros(total)}{end}"
    )


def main():
    issuer, before, count = None, None, 0
    for line in sys.stdin.buffer:
        entry = json.loads(line)
        if entry["t"] == "chain":
            issuer = entry["issuer"]
        if entry["t"] not in ("alta", "anulacion"):
            continue
        count += 1
        if entry["link"] != before:
            sys.exit(f"record {count} {entry['num']} doesn't name the record before it")
        huella = hashlib.sha256(fields(issuer, entry).encode()).hexdigest().upper()
        if entry["huella"] != huella:
            sys.exit(f"record {count} {entry['num']} has the Huella {entry['huella']}, its fields have {huella}")
        before = {key: entry[key] for key in ("day", "huella", "num")}
    print(count, "records")


if __name__ == "__main__":
    main()
