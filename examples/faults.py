#!/usr/bin/env python3
"""Tries a till: it stands between the till and `verifactu serve`, and loses answers on purpose.

    python3 examples/faults.py PROGRAM [--agency ..] serve FILE NIF
    python3 examples/faults.py older FILE
    python3 examples/faults.py told FILE

The till starts the first in place of `PROGRAM serve FILE NIF`, on a file that is thrown away afterwards. Of the commands one in ten loses its
answer after it was done, one in ten is cut before it is done, and some are answered by a fault, by half an answer, after 5 to 40 seconds, or
under a program that is killed: by the seed that the variable SEED has (1). At the end `older` puts an older copy in place of FILE, over which
the till has to refuse to sell, and `told` says what each till did wrong, with status 1 where one did. What it notes is in FILE.faults.
"""
import json
import os
import random
import shutil
import subprocess
import sys
import time

# of 1,000 commands: what becomes of them, and whether they are done
FATES = (("lost", 100, True), ("cut", 100, False), ("memory", 20, True), ("memory", 20, False), ("disk", 10, True), ("disk", 10, False),
         ("half", 20, True), ("late", 5, True))
LATE = (5, 40)  # seconds
COMMANDS = ("sale", "fix", "cancel")
SKIPPED = "a greater serial was asked while this one had no answer"
TWO = "two commands were given this serial"
ONCE = "it was asked once, had no answer, and was never asked again"
OPEN = "it was asked again, but not until it was answered"
OLDER = "it was asked over an older copy of the chain"


class Notes:
    """What tills asked and were told, as lines of JSON that are kept from one start of the program to the next."""

    def __init__(self, chain):
        self.path = chain + ".faults"
        self.count = 0  # commands that were asked
        self.asked, self.open, self.free = {}, {}, set()  # by till and serial
        self.taken, self.copied, self.behind = {}, [], {}
        self.wrong = {}
        if os.path.exists(self.path):
            with open(self.path, encoding="utf-8") as file:
                for line in file:
                    self.apply(*json.loads(line))

    def add(self, *entry):
        with open(self.path, "a", encoding="utf-8") as file:
            file.write(json.dumps(entry) + "\n")
        self.apply(*entry)

    def apply(self, what, *rest):
        getattr(self, "note_" + what)(*rest)

    def note_ask(self, till, serial, line):
        """A command was asked, whether it was done or not."""
        self.count += 1
        self.wrong.update({(till, other, SKIPPED): None for at, other in self.open if at == till and other < serial})
        key = (till, serial)
        if self.asked.get(key, line) != line and key not in self.free:
            self.wrong[till, serial, TWO] = None
        if self.taken.get(till, 0) > self.behind.get(till, self.taken.get(till, 0)):
            self.wrong[till, serial, OLDER] = None
        self.free.discard(key)
        self.asked[key] = line
        self.open[key] = self.open.get(key, 0) + 1

    def note_tell(self, till, serial, word):
        """An answer was handed over."""
        self.open.pop((till, serial), None)
        if word in ("taken", "again"):
            self.taken[till] = max(serial, self.taken.get(till, 0))
        else:
            self.free.add((till, serial))

    def note_copy(self, records):
        """The chain was copied: of each till the copy has so much at least."""
        self.copied = [*self.copied[-1:], (records, dict(self.taken))]

    def note_older(self):
        """An older copy was put in place of the chain."""
        self.behind = {till: self.copied[0][1].get(till, 0) for till in self.taken}

    def faults(self):
        left = [(*key, ONCE if count == 1 else OPEN) for key, count in self.open.items() if (*key, SKIPPED) not in self.wrong]
        return sorted([*self.wrong, *left])


class Between:
    """The program, and the till's two pipes."""

    def __init__(self, words):
        self.chain = words[words.index("serve") + 1]
        self.notes, self.seed = Notes(self.chain), os.environ.get("SEED", "1")
        # (Python ignores the signal XFSZ, and so has the program to: then a limit on the file's size is `fault disk`)
        self.program = subprocess.Popen(words, stdin=subprocess.PIPE, stdout=subprocess.PIPE, restore_signals=False)

    def draw(self):
        """What becomes of the next command: the same of the same seed, however often the program was started meanwhile."""
        drawn = random.Random(f"{self.seed} {self.notes.count}")
        left = -1 if self.notes.behind else drawn.randrange(1000)
        for name, of_1000, is_done in FATES:
            if 0 <= left < of_1000:
                return name, is_done, drawn.uniform(*LATE)
            left -= of_1000
        return "plain", True, 0

    def ask(self, line):
        """The program's answer to a line."""
        self.program.stdin.write(line)
        self.program.stdin.flush()
        return self.program.stdout.readline()

    def end(self, status):
        """The program is killed, and the till's pipes are closed."""
        self.program.kill()
        self.program.wait()
        sys.exit(status)

    def command(self, line, till, serial):
        """A command meets its fate."""
        name, is_done, seconds = self.draw()
        self.notes.add("ask", till, serial, line.decode())
        answer = self.ask(line) if is_done else b""
        words = answer.split(b" ")
        if words[4:5] == [b"taken"]:
            self.copy(int(words[5]))
        if name in ("lost", "cut"):
            self.end(137)
        if name in ("memory", "disk"):
            self.say(f"till {till} serial {serial} fault {name}\n".encode())
            if name == "disk":
                self.end(6)
            return
        if name == "half":
            self.say(answer[: len(answer) // 2])
            self.end(137)
        if name == "late":
            time.sleep(seconds)
        self.say(answer)
        if words[:1] == [b"line"] or words[4:5] and words[4] != b"fault":
            self.notes.add("tell", till, serial, words[4].decode() if words[:1] == [b"till"] else "line")

    def copy(self, records):
        """Keeps a copy whenever the chain has become twice as long."""
        if records < 2 * (self.notes.copied[-1][0] if self.notes.copied else 0) or self.notes.behind:
            return
        if os.path.exists(self.chain + ".newer"):
            os.replace(self.chain + ".newer", self.chain + ".older")
        shutil.copy(self.chain, self.chain + ".newer")
        self.notes.add("copy", records)

    def say(self, answer):
        sys.stdout.buffer.write(answer)
        sys.stdout.buffer.flush()

    def run(self):
        """Every line of the till's, to its end."""
        for line in sys.stdin.buffer:
            words = line.decode("utf-8", "replace").split(" ")
            if words[0] in COMMANDS and len(words) > 3 and words[1].isdecimal() and words[2].isdecimal():
                self.command(line, int(words[1]), int(words[2]))
            else:
                self.say(self.ask(line) if line.strip() and not line.startswith(b"#") else b"")
        rest, _ = self.program.communicate()
        self.say(rest)
        return self.program.returncode


def put_back(chain):
    """Puts the older copy in place of the chain."""
    if not os.path.exists(chain + ".older"):
        sys.exit("there is no older copy: at least two records are needed")
    shutil.copy(chain + ".older", chain)
    Notes(chain).add("older")
    return 0


def tell(chain):
    """What each till did wrong."""
    notes = Notes(chain)
    wrong = notes.faults()
    for till in sorted({till for till, _ in notes.asked}):
        print(f"till {till}: {sum(at == till for at, _ in notes.asked)} commands, {sum(at == till for at, _, _ in wrong)} wrong")
    for till, serial, what in wrong:
        print(f"till {till} serial {serial}: {what}")
    if not notes.behind:
        print("no till was tried over an older copy")
    return 1 if wrong else 0


def main(words):
    if len(words) == 2 and words[0] in ("older", "told"):
        return {"older": put_back, "told": tell}[words[0]](words[1])
    if "serve" not in words[1:-2]:
        sys.exit(__doc__)
    return Between(words).run()


if __name__ == "__main__":
    sys.exit(main(sys.argv[1:]))
