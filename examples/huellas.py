#!/usr/bin/env python3
"""Computes the Huella of each record of another system, and compares it with the one that the system states.

    python3 examples/huellas.py < examples/huellas.csv

Standard input is UTF-8: first the names of the columns, then a line a record in the order of the chain, fields parted by
`;`. The columns are those of COLUMNS, in any order; others are passed over. In an anulacion's line TipoFactura, CuotaTotal
and ImporteTotal are empty, and the number and day are those of the cancelled invoice. Huella may be empty, and is then not
compared. Each value is hashed as it stands.

It prints a line a record: its place, number and Huella. The first record whose Huella is another one ends it with status 1.
"""
import csv
import hashlib
import sys

COLUMNS = ("IDEmisor", "NumSerie", "FechaExpedicion", "TipoFactura", "CuotaTotal", "ImporteTotal",
           "FechaHoraHusoGenRegistro", "Huella")


def text(row, before):
    """The line whose SHA-256 is the record's Huella."""
    of = "Factura" if row["TipoFactura"] else "FacturaAnulada"
    parts = [(name + of, row[name]) for name in ("IDEmisor", "NumSerie", "FechaExpedicion")]
    if row["TipoFactura"]:
        parts += [(name, row[name]) for name in ("TipoFactura", "CuotaTotal", "ImporteTotal")]
    parts += [("Huella", before), ("FechaHoraHusoGenRegistro", row["FechaHoraHusoGenRegistro"])]
    return "&".join(f"{name}={value}" for name, value in parts)


def main():
    rows = csv.DictReader(sys.stdin.read().splitlines(), delimiter=";", quoting=csv.QUOTE_NONE)
    missing = [name for name in COLUMNS if name not in (rows.fieldnames or ())]
    if missing:
        sys.exit(f"no column {', '.join(missing)}")
    before = ""
    for place, row in enumerate(rows, 1):
        if None in row or None in row.values():
            sys.exit(f"record {place}: the line has more fields or fewer than the first line")
        huella = hashlib.sha256(text(row, before).encode()).hexdigest().upper()
        print(place, row["NumSerie"], huella, flush=True)
        if row["Huella"] not in ("", huella):
            sys.exit(f"record {place}: the system says {row['Huella']}")
        before = huella


if __name__ == "__main__":
    main()
