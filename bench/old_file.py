"""Writes a file of version 2 whose lines are all of IVA as a file of version 1, by docs/FORMAT.md: old_file.py FROM TO."""
import struct
import sys


def skip_id(body, at):
    return at + 1 + body[at] + 4


def old_entry(body):
    """The bytes of an entry in version 1: each line has its class and its base alone."""
    if body[0] != 1:
        return body
    at = skip_id(body, 6) + 2
    customer = body[at]
    at += 1
    if customer:
        at += 9
        at += 1 + body[at]
    refs = body[at]
    at += 1
    for _ in range(refs):
        at = skip_id(body, at)
    count = body[at]
    at += 1
    lines = []
    for i in range(count):
        line = body[at + 12 * i : at + 12 * i + 12]
        assert line[0] == 1, "a line that isn't of IVA"
        lines.append(line[1:2] + line[4:])
    return body[:at] + b"".join(lines) + body[at + 12 * count :]


def main(source, target):
    with open(source, "rb") as file:
        data = file.read()
    assert data[:10] == b"\x01VFCHAIN1\x02", "a file of version 2"
    parts = [data[:9], b"\x01", data[10:19]]
    at = 19
    while data[at] == 1:
        (length,) = struct.unpack_from(">I", data, at + 1)
        body = old_entry(data[at + 5 : at + 5 + length])
        parts.append(b"\x01" + struct.pack(">I", len(body)) + body)
        at += 5 + length
    parts.append(b"\x00")
    with open(target, "wb") as file:
        file.write(b"".join(parts))


main(*sys.argv[1:])
