#!/usr/bin/env python3
"""What bench/adapter.sh stands on: a relay between the program and an adapter, and the check of what it saw.

    adapter.py relay TO FROM ADAPTER_TO ADAPTER_FROM LOG PLAN
    adapter.py check LOG LISTING

The relay hands each message on and each answer back, and writes the calls to LOG, a line of JSON each. PLAN says what befalls the calls,
submissions and consultations counted together from 1, as "2 lost, 4 taken": `lost`: the message isn't handed on; `taken`: its answer
is lost; `stale`: the answer to the call before is given under this number; `twice`: the answer is given twice; `half`: half of it is
given, and the program's ends are closed. In place of a lost answer the program gets a fault. LISTING is what `chain FILE NIF` prints
of the file afterwards.
"""
import json
import sys


class Gone(Exception):
    """The program, or the adapter, closed an end."""


class Relay:
    def __init__(self, to, from_, adapter_to, adapter_from, log, plan):
        self.to, self.from_ = to, from_
        self.log = open(log, "a", encoding="utf-8", buffering=1)
        self.plan = {int(row.split()[0]): row.split()[1] for row in plan.split(",") if row.strip()}
        self.calls, self.before = 0, {}
        # An adapter opens the first file for reading, and then the second one for writing.
        self.out = open(adapter_to, "w", encoding="utf-8", buffering=1)
        self.answers = open(adapter_from, encoding="utf-8")

    def ask(self, message):
        """The adapter's answer to this message. Ones to earlier messages are passed over, and at a hello a begin is written again."""
        text = "\n" + json.dumps(message, separators=(",", ":"), sort_keys=True) + "\n"
        self.out.write(text)
        for line in self.answers:
            try:
                answer = json.loads(line)
            except ValueError:
                continue
            if answer.get("n") == message["n"]:
                return answer
            if answer.get("t") == "hello" and message["t"] == "begin":
                self.out.write(text)
        raise Gone

    def write(self, out, answer):
        out.write(json.dumps(answer, separators=(",", ":"), sort_keys=True) + "\n")

    def call(self, message, out):
        self.calls += 1
        fate = self.plan.get(self.calls, "")
        answer = {"fault": "lost", "n": message["n"]} if fate == "lost" else self.ask(message)
        given = answer
        if fate == "taken":
            given = {"fault": "taken", "n": message["n"]}
        if fate == "stale":
            given = dict(self.before, n=message["n"])
        self.before = answer
        text = json.dumps(given, separators=(",", ":"), sort_keys=True) + "\n"
        heard = fate not in ("lost", "taken", "half")
        self.log.write(json.dumps({"message": message, "arrived": fate != "lost", "answer": answer, "given": given if heard else None}) + "\n")
        if fate == "half":
            out.write(text[: len(text) // 2])
            raise Gone
        out.write(text * 2 if fate == "twice" else text)

    def talk(self):
        with open(self.to, encoding="utf-8") as messages, open(self.from_, "w", encoding="utf-8", buffering=1) as out:
            out.write('\n{"t":"hello"}\n')
            for line in messages:
                try:
                    message = json.loads(line)
                except ValueError:
                    continue  # an empty line, or what is left of a message
                if message["t"] == "begin":
                    self.write(out, self.ask(message))
                else:
                    self.call(message, out)

    def run(self):
        while True:
            try:
                self.talk()
            except (Gone, BrokenPipeError):
                pass  # the files are opened anew


def fail(text):
    sys.exit("adapter: " + text)


def items_of(message, answer):
    """The items by which an answer answers the message: of its records or Huellas, in order, and of no others."""
    if message["t"] == "submit":
        asked, items = [record["huella"] for record in message["records"]], answer.get("lines", [])
    else:
        asked, items = message["huellas"], answer.get("seen", [])
    return items if [item[0] for item in items] == asked else []


def is_line(word):
    return word != "not-seen" and not word.startswith("duplicado-")


def check(log, listing):
    """Each record arrived once as a new one, in the order of the chain; none was handed over again but where the adapter said that
    it held none; and what the file notes of each is what the adapter answered."""
    chain, notes = [], {}
    with open(listing, encoding="utf-8") as lines:
        for line in lines:
            fields = line.split()
            if fields[0].isdigit():
                at = next(i for i, field in enumerate(fields) if len(field) == 64)
                chain.append(fields[at])
                notes[fields[at]] = fields[at + 1 :]
    handed, wanted, taken, said = set(), set(), [], {}
    with open(log, encoding="utf-8") as rows:
        for row in map(json.loads, rows):
            message, answer, given = row["message"], row["answer"], row["given"] or {}
            if message["t"] == "submit":
                for record in message["records"]:
                    if record["huella"] in handed and record["huella"] not in wanted:
                        fail("%s was handed over again, and nobody had said that it wasn't seen" % record["num"])
                    handed.add(record["huella"])
                    wanted.discard(record["huella"])
                if row["arrived"]:
                    taken += [huella for huella, word, _ in items_of(message, answer) if is_line(word)]
            for huella, word, code in items_of(message, given):
                if word == "not-seen":
                    wanted.add(huella)
                elif is_line(word):
                    said[huella] = [word] + ([str(code)] if word in ("con-errores", "vet") else [])
    if taken != chain:
        fail("the adapter took %d records as new, and the chain's %d aren't those, each once and in order" % (len(taken), len(chain)))
    for place, huella in enumerate(chain):
        if notes[huella] != said.get(huella):
            fail("record %d is noted as %s, and was answered %s" % (place + 1, notes[huella], said.get(huella)))
    print("%d records, each taken once and in order, and noted as they were answered" % len(chain))


if __name__ == "__main__":
    if sys.argv[1:2] == ["relay"] and len(sys.argv) == 8:
        Relay(*sys.argv[2:]).run()
    elif sys.argv[1:2] == ["check"] and len(sys.argv) == 4:
        check(*sys.argv[2:])
    else:
        sys.exit(__doc__)
