#!/usr/bin/env python3
"""Prints a ticket as text, with the link of its QR code, from an export.

    ./verifactu export shop.chain | python3 examples/ticket.py A-1 real

The words are an invoice's number and `real` or `test`, the service that the link is for. The ticket is that of the last alta of this
number; its link is the one that `./verifactu link` prints.
"""
import json
import sys
from urllib.parse import quote

from export import euros, moment, rates, rounded, totals

HOSTS = {"real": "www2.agenciatributaria.gob.es", "test": "prewww2.aeat.es"}
WIDTH = 40


def link(issuer, record, host):
    values = {"nif": issuer, "numserie": record["num"], "fecha": record["day"], "importe": euros(totals(record["lines"])[1])}
    return f"https://{HOSTS[host]}/wlpl/TIKE-CONT/ValidarQR?" + "&".join(f"{key}={quote(value, safe='')}" for key, value in values.items())


def row(left, right):
    return left + right.rjust(WIDTH - len(left))


def ticket(issuer, record, host):
    tax, total = totals(record["lines"])
    text = [issuer, f"{record['kind']} {record['num']}", moment(record).replace("T", " ")]
    if record["customer"]:
        text.append(f"{record['customer']['nif']} {record['customer']['name']}")
    text.append("-" * WIDTH)
    for word, base in record["lines"]:
        text.append(row(word, euros(base)))
        text.extend(row(f"  {rate / 100:g} %", euros(rounded(base, rate))) for rate in rates(word) if rate)
    text += ["-" * WIDTH, row("tax", euros(tax)), row("total", euros(total)), "VERI*FACTU", link(issuer, record, host)]
    return "\n".join(text)


def main():
    if len(sys.argv) != 3 or sys.argv[2] not in HOSTS:
        sys.exit("usage: ticket.py NUM real|test")
    issuer, found = None, None
    for line in sys.stdin.buffer:
        entry = json.loads(line)
        if entry["t"] == "chain":
            issuer = entry["issuer"]
        if entry["t"] == "alta" and entry["num"] == sys.argv[1]:
            found = entry
    if found is None:
        sys.exit("no such invoice")
    print(ticket(issuer, found, sys.argv[2]))


if __name__ == "__main__":
    main()
