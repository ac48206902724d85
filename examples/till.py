#!/usr/bin/env python3
"""A till that speaks with `verifactu serve`, line by line.

    python3 examples/till.py till.chain 89890001K [SALES [PAUSE]]

It makes SALES sales (2) at a shelf price, and prints each ticket with its link. Amid the second sale it has the program killed, and asks the
same again. What it asks stands in till.chain.till, on its own disk, before it is asked: where it was ended amid a sale it asks that one again
first, and where that file is lost it goes on with the serial that the chain has. Before the first sale of a day it looks whether the chain
has all of its sales: over an older copy it sells nothing. PAUSE (1) is how many seconds it waits before it asks again for the second time.
The talk is shown on standard error, `>` for what is asked and `<` for what is answered. With CLOCK="START STEP" it is tried by a clock that
leaps, so that the end doesn't sit out the agency's pause.
"""
import datetime
import os
import subprocess
import sys
import time

PROGRAM = os.environ.get("VERIFACTU", os.path.join(os.path.dirname(os.path.abspath(__file__)), "..", "verifactu"))
MENDED_BY_NO_RESTART = (2, 7, 11, 13)
LONGEST_PAUSE = 8  # times PAUSE
LONGEST_END = 30


class Shop:
    """The program over two pipes. Where it has ended it is started again, and asked the same once more."""

    def __init__(self, chain, issuer, pause):
        self.words = [PROGRAM, "serve", chain, issuer]
        self.first_pause, self.pause = pause, 0
        self.start()

    def start(self):
        # (Python ignores the signal XFSZ, and so has the program to: then a limit on the file's size is `fault disk`)
        pipes = {"stdin": subprocess.PIPE, "stdout": subprocess.PIPE, "encoding": "utf-8"}
        self.program = subprocess.Popen(self.words, restore_signals=False, **pipes)
        # (a till that names customers says them here, for a program that starts knows none)
        if "CLOCK" in os.environ:
            self.exchange("clock " + os.environ["CLOCK"])

    def exchange(self, line, killed=False):
        """The answer to a line, or None where the program ended without one."""
        print(">", line, file=sys.stderr)
        try:
            self.program.stdin.write(line + "\n")
            self.program.stdin.flush()
        except BrokenPipeError:
            return None
        if killed:
            self.program.kill()
            return None
        answer = self.program.stdout.readline()
        if not answer.endswith("\n"):
            return None
        print("<", answer, end="", file=sys.stderr)
        return answer.rstrip("\n")

    def ask(self, line, killed=False):
        """Asks until there is an answer. One of a fault says nothing certain: the same is asked again."""
        while True:
            answer = self.exchange(line, killed)
            killed = False
            if answer is None:
                self.restart()
            elif answer.split(" ")[4:5] == ["fault"]:
                time.sleep(self.first_pause)
            else:
                self.pause = 0
                return answer

    def restart(self):
        """At once where the program had answered, else after 1, 2, 4 and then every 8 times PAUSE."""
        _, status = self.close(LONGEST_END)
        if status in MENDED_BY_NO_RESTART:
            sys.exit(status)
        time.sleep(self.pause)
        self.pause = min(2 * self.pause or self.first_pause, LONGEST_PAUSE * self.first_pause)
        self.start()

    def close(self, seconds=None):
        """What the program still says, and its status. Where it hasn't ended in so many seconds it is killed."""
        try:
            text, _ = self.program.communicate(timeout=seconds)
        except subprocess.TimeoutExpired:
            self.program.kill()
            text, _ = self.program.communicate()
        return text, self.program.returncode


def cents(euros):
    return int(euros.replace(".", ""))


def makes(line, record):
    """Whether a record, as the listing's line, is one that this command makes. What a TOTAL has beside its CUOTA are the bases."""
    verb, _, _, subject, *more = line.split(" ")
    words = record.split(" ")
    if verb == "cancel":
        return words[1:3] == ["anulacion", subject]
    if words[1] != "alta" or words[4] != more[0]:
        return False
    bases = sum(int(field.rpartition(":")[2]) for field in more[1:] if "=" not in field)
    _, _, num, _, _, cuota, total, subsanacion = words[:8]
    if cents(total) - cents(cuota) != bases:
        return False
    return (subsanacion, num) == ("S", subject) if verb == "fix" else (subsanacion, num.rpartition("-")[0]) == ("N", subject)


class Till:
    """Till 1, and what it keeps on its own disk: its last command, whether that one is open, and the greatest serial that has a record."""

    def __init__(self, shop, path):
        self.shop, self.path = shop, path
        self.line, self.is_open, self.taken = None, False, 0
        self.checked = None
        if os.path.exists(path):
            with open(path, encoding="utf-8") as kept:
                word, taken, self.line = kept.read().rstrip("\n").split(" ", 2)
            self.is_open, self.taken = word == "open", int(taken)

    def keep(self):
        """Writes it, whole or not at all."""
        with open(self.path + ".new", "w", encoding="utf-8") as kept:
            kept.write(f"{'open' if self.is_open else 'settled'} {self.taken} {self.line}\n")
            kept.flush()
            os.fsync(kept.fileno())
        os.replace(self.path + ".new", self.path)
        folder = os.open(os.path.dirname(self.path) or ".", os.O_RDONLY)
        os.fsync(folder)
        os.close(folder)

    def settle(self, line, killed=False):
        """Asks a command and prints its ticket."""
        self.line, self.is_open = line, True
        self.keep()
        answer = self.shop.ask(line, killed)
        words = answer.split(" ")
        is_there = words[4:5] in (["taken"], ["again"])
        record = self.shop.ask(f"record {words[5]}") if words[4:5] == ["again"] else None
        if record and not makes(line, record):
            print("not registered, the serial has another record:", record)
        elif is_there:
            _, _, num, date, _, _, total, _, _, link = self.shop.ask(f"ticket {words[6]} test").split(" ")[:10]
            print(num, date, total)
            print(link)
        else:
            print("not registered:", answer)
        self.is_open, self.taken = False, int(line.split(" ")[2]) if is_there else self.taken
        self.keep()

    def check(self):
        """Before the first sale of a day: a chain that lacks a record of this till is an older copy, over which nothing may be sold."""
        last = int(self.shop.ask("last 1").split(" ")[2])
        if last < self.taken:
            self.shop.close(LONGEST_END)
            sys.exit(f"the chain is an older copy: it has serial {last}, and {self.taken} was sold. Nothing is sold")
        if self.line is None:
            self.taken = last
        self.checked = datetime.date.today()

    def sell(self, total, killed):
        """Sells at a shelf price, under the next serial."""
        if self.checked != datetime.date.today():
            self.check()
        serial = 1 + (int(self.line.split(" ")[2]) if self.line else self.taken)
        lines = self.shop.ask(f"lines 21 {total}").split(" ", 1)[1]
        self.settle(f"sale 1 {serial} A F2 {lines}", killed)


def main():
    chain, issuer, *more = sys.argv[1:]
    sales, pause = (more + ["2", "1"][len(more):])[:2]
    shop = Shop(chain, issuer, float(pause))
    till = Till(shop, chain + ".till")
    till.check()
    if till.is_open:
        till.settle(till.line)
    for made in range(int(sales)):
        till.sell(250 if made % 2 else 1000, made == 1)
    text, status = shop.close()
    print(text, end="")
    return status


if __name__ == "__main__":
    sys.exit(main())
