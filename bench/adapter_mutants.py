#!/usr/bin/env python3
"""Whether each case of examples/agency/cases decides something: `bench/adapter_mutants.py [CASE ..]`, those that name one of these.

A mutant is the skeleton with one mistake. Over each mutant the cases that it names fail, and no other one; each case is named.
"""
import os
import shutil
import sys
import tempfile

AGENCY = os.path.join(os.path.dirname(os.path.dirname(os.path.abspath(__file__))), "examples", "agency")
sys.dont_write_bytecode = True
sys.path.insert(0, AGENCY)
import try_adapter

try_adapter.LONGEST = 40.0
WORDS = ["--journal", "{}/journal", "--service", "{}/service", "--longest", "3"]
# The cases that fail, what the skeleton says, and what the mutant says in its place.
MUTANTS = [
    ("talk-hello-again talk-program-gone", '                out.write("\\n" + text_of(self.hello) + "\\n")\n',
     '                out.write("" if hasattr(self, "met") else "\\n" + text_of(self.hello) + "\\n")\n                self.met = True\n'),
    ("talk-rests", "        if message is None:\n            return\n",
     '        if message is None:\n            return self.write(out, \'{"n":0}\\n\') if line.strip() else None\n'),
    ("talk-begin-twice", "        try:\n            answer = self.answer(message)\n",
     '        if message == getattr(self, "last", None):\n            return\n        self.last = message\n        try:\n            answer = self.answer(message)\n'),
    ("talk-protocol", 'if message["protocol"] != PROTOCOL:', 'if message["protocol"] < PROTOCOL:'),
    ("talk-unknown-key", '            self.begin(message["issuer"], message["noted"])\n', '            self.begin(**{key: message[key] for key in message if key not in ("n", "t", "protocol")})\n'),
    ("talk-program-gone", "                pass  # the program went away; it asks again when it comes back\n", "                raise SystemExit(1)\n"),
    ("talk-message-alone", '        if message["t"] == "submit":\n            check_batch', '        if self.issuer is None:\n            raise Fault("no begin")\n        if message["t"] == "submit":\n            check_batch'),
    ("talk-numbers-fall", "        try:\n            answer = self.answer(message)\n",
     '        if message["n"] < getattr(self, "number", 0):\n            return\n        self.number = message["n"]\n        try:\n            answer = self.answer(message)\n'),
    ("talk-from-is-a-file", "    if not stat.S_ISFIFO(os.stat(path).st_mode):\n", "    if how == os.O_RDONLY and not stat.S_ISFIFO(os.stat(path).st_mode):\n"),
    ("talk-second-on-files", "                hold(out, from_)\n", ""),
    ("3-second-on-journal", "    hold(file, path)\n", ""),
    ("1-whole-in-order 3-refusal-kept 4-stops-at-refused 5-duplicate-refused 5-goes-out-again", '        return [line_in(record, row) for record, row in zip(records, reply["rows"])], reply["wait"]',
     '        return [line_in(record, row) for record, row in zip(records, reply["rows"])][::-1], reply["wait"]'),
    ("1-a-part 3-rows-lacking", '            raise Fault("lines of %d records, of %d that went out" % (len(lines), len(records)))\n',
     '            lines += [["vet", 0]] * (len(records) - len(lines))\n'),
    ("2-lost 5-by-reference 5-on-its-way 5-on-its-way-killed 3-another-reply 3-rows-swapped", "        lines, wait = self.send(records)\n", "        try:\n            lines, wait = self.send(records)\n        except Fault:\n            lines, wait = self.send(records)\n"),
    ("2-has-its-line", '            raise Fault("a record has its line")\n', "            pass\n"),
    ("2-call-without-reply", '            raise Fault("a call had no reply, and the service wasn\'t asked since")\n', "            pass\n"),
    ("3-journal-before", "        self.journal.out(records)\n        lines, wait = self.send(records)\n",
     "        try:\n            lines, wait = self.send(records)\n        finally:\n            self.journal.out(records)\n"),
    ("3-refusal-kept 4-stops-at-refused 5-duplicate-of-another 5-duplicate-refused 5-duplicate-untold 5-goes-out-again", "        self.journal.back([name + line for name, (_, line) in zip(names, pairs)], wait)\n",
     '        self.journal.back([name + line for name, (_, line) in zip(names, pairs) if line[0] != "vet"], wait)\n'),
    ("3-rows-swapped", 'zip(records, reply["rows"])', 'zip(records, sorted(reply["rows"], key=lambda row: row["num"]))'),
    ("3-rows-lacking", "        if len(lines) != len(records):\n",
     '        if len(lines) != len(records):\n            self.journal.back([[record["huella"]] + line for record, line in zip(records, lines)])\n'),
    ("3-another-reply", 'reference_of(record)]:\n', 'reference_of(record)] and (names[0] == record["num"] or row["word"] == "vet"):\n'),
    ("3-cut-line", "    file.truncate(whole)\n", ""),
    ("3-damaged-line", '        raise Refused("%s has a line that is no JSON" % name) from None\n', "        return []\n"),
    ("4-pause 4-second-record 4-stops-at-duplicate 4-stops-at-refused", "        if invoice_of(record) in invoices:\n", "        if not record:\n"),
    ("4-pause", "            time.sleep(seconds_left(self.journal.at, self.journal.wait))\n", "            pass\n"),
    ("4-stops-at-refused", "any(len(line) > 2 for line in lines)", 'any(item[0].startswith("duplicado-") for item, _ in pairs)'),
    ("4-stops-at-duplicate 4-stops-at-refused", '                raise Fault("a record came before")\n', "                pass\n"),
    ("5-journal-line", 'if huella not in self.journal.lines and call is not None and not any', "if call is not None and not any"),
    ("5-never-went-out", "        if self.by_ids:\n            self.settle_by_ids", "        if huellas:\n            self.settle_by_ids"),
    ("5-duplicate-shown 5-shown", "    return [\"correcto\", 0] if row[\"word\"] == \"anulado\" else [row[\"word\"], row[\"code\"]]\n", "    return [\"correcto\", 0]\n"),
    ("5-refused-before-shown 5-whole-call 3-rows-lacking", "        settled = huellas[: max(known) + 1] if known else []\n", "        settled = [huellas[it] for it in known]\n"),
    ("1-a-part 5-behind-shown 5-duplicate-refused 5-goes-out-again", "        settled = huellas[: max(known) + 1] if known else []\n", "        settled = huellas if known else []\n"),
    ("2-call-without-reply 5-another-shown 5-cancellation-refused 5-none-shown", "        settled = huellas[: max(known) + 1] if known else []\n", "        settled = huellas[: max(known) + 1] if known else huellas\n"),
    ("2-call-without-reply 5-duplicate-refused 5-goes-out-again 5-whole-call", "                self.settle(call)\n", '                self.settle(dict(call, out=[it for it in call["out"] if it["huella"] in huellas]))\n'),
    ("5-another-shown 5-duplicate-of-another", "    if key is None or row[key] != mine[key]:\n", "    if key is None:\n"),
    ("5-cancellation", '        return ["correcto", 0] if row["word"] == "anulado" else ANOTHER\n', "        return ANOTHER\n"),
    ("5-cancellation-refused", '        return ["correcto", 0] if row["word"] == "anulado" else ANOTHER\n', '        return ["correcto", 0]\n'),
    ("5-alta-cancelled 5-duplicate-cancelled", "    # An invoice that is cancelled was accepted before.\n", '    if row["word"] == "anulado":\n        return ANOTHER\n'),
    ("5-by-reference", '"ref": reference_of(record), "seconds"', '"seconds"'),
    ("5-by-moment", ', "seconds": record.get("seconds")}', "}"),
    ("5-on-its-way 5-on-its-way-killed", '        time.sleep(seconds_left(call["at"], self.longest))\n', ""),
    ("5-on-its-way-killed", "                self.take(row)\n            sync_folder", '                self.take(dict(row, at=0) if "out" in row else row)\n            sync_folder'),
    ("5-service-silent", '        raise Fault("no reply of the service") from None\n', '        if what == "send":\n            raise Fault("no reply of the service") from None\n        return [None for _ in given]\n'),
    ("2-call-without-reply 5-duplicate-refused 5-goes-out-again", '            raise Fault("a record has its line")\n', '            raise Fault("a record has its line")\n        if any(record["huella"] in self.journal.calls for record in records):\n            raise Fault("it went out before")\n'),
    ("5-duplicate-shown", '            return ["duplicado-" + shown[0], 0], shown\n', '            return ["duplicado-correcto", 0], ["correcto", 0]\n'),
    ("5-duplicate-cancelled", "        if shown:\n", '        if shown and word != "anulado":\n'),
    ("5-duplicate-of-another", "        if shown == ANOTHER:\n            return line[:2], line[:2]\n", "        if shown == ANOTHER:\n            shown = None\n"),
    ("4-stops-at-refused 5-duplicate-refused", '        return ["vet", code], ["vet", code]\n', '        return ["vet", 0], ["vet", 0]\n'),
    ("5-duplicate-untold", '        return ["vet", code], ["vet", code]\n', '        return ["vet", code or line[1]], ["vet", code or line[1]]\n'),
    ("5-duplicate-unshown", '        if word not in ("", "vet"):\n', "        if not line:\n"),
    ("6-wait", '            return {"lines": lines, "wait": wait}\n', '            return {"lines": lines, "wait": min(wait, 10)}\n'),
    ("7-issuer", '        if self.issuer not in (None, issuer):\n', "        if not issuer:\n"),
    ("7-noted 8-noted", "        if noted > self.journal.count():\n", "        if noted < 0:\n"),
    ("7-noted", "        if noted > self.journal.count():\n", "        if noted > self.journal.count() + (not self.by_ids):\n"),
    ("7-asks-nothing", "        self.issuer = issuer\n\n", "        self.issuer = issuer\n        try:\n            self.shown([])\n        except Fault:\n            pass\n\n"),
    ("7-two-chains", '            raise Fault("the journal is of another chain")\n', "            pass\n"),
    ("8-noted 8-shown 8-hole", "        return self.lost + len(self.lines)\n", "        return len(self.lines)\n"),
    ("8-shown", "        self.journal.back([[name[\"huella\"]] + line for name, line in zip(unknown, lines)])\n", ""),
    ("8-hole", '            raise Fault("%s isn\'t shown, and a later record is" % unknown[lines.index(None)]["num"])\n', '            lines = [line or ["vet", 0] for line in lines]\n'),
    ("9-amounts", "dict(record, ref=reference_of(record)) for record in records]", "recomputed(dict(record, ref=reference_of(record))) for record in records]"),
]
RECOMPUTED = '''

def recomputed(record):
    """The tax on the sum of the bases."""
    if record["t"] == "alta":
        bases = sum(base for _, base in record["lines"])
        record["cuota"] = (bases * 21 + 50) // 100
        record["total"] = bases + record["cuota"]
    return record

'''


def skeleton():
    with open(os.path.join(AGENCY, "skeleton.py"), encoding="utf-8") as it:
        return it.read()


def failing(text):
    """The cases that fail over a skeleton of this text."""
    folder = tempfile.mkdtemp(prefix="mutant.")
    try:
        path = os.path.join(folder, "skeleton.py")
        with open(path, "w", encoding="utf-8") as it:
            it.write(text)
        found = try_adapter.try_all([sys.executable, path] + WORDS, ["--lost", "1"], jobs=8)
        return {name: wrong for name, wrong in found.items() if wrong}, set(found)
    finally:
        shutil.rmtree(folder)


def main():
    whole, failed, decided = skeleton(), 0, set()
    found, cases = failing(whole)
    if found:
        sys.exit("adapter_mutants: the skeleton itself fails: %s" % found)
    for names, old, new in MUTANTS:
        wanted = set(names.split())
        if sys.argv[1:] and not wanted & set(sys.argv[1:]):
            continue
        if whole.count(old) != 1:
            sys.exit("adapter_mutants: %s: the skeleton says %d times what is to be changed" % (names, whole.count(old)))
        found, _ = failing(whole.replace(old, new).replace("\nclass CommandAdapter", RECOMPUTED + "\nclass CommandAdapter"))
        failed += set(found) != wanted
        decided |= wanted
        others = {name: found.get(name, "passes") for name in wanted ^ set(found)}
        print("%s: %s" % (names, "fail" if not others else "otherwise: %s" % others), flush=True)
    if not sys.argv[1:] and cases - decided:
        sys.exit("adapter_mutants: no mutant fails by one of these: %s" % ", ".join(sorted(cases - decided)))
    sys.exit(1 if failed else 0)


if __name__ == "__main__":
    main()
