#!/usr/bin/env python3
"""Drains that note each line in a copy too, killed at random moments. VERIFACTU names the program.

    bench/kill_guard.py N   N times: more sales, a guard with an agency behind two FIFOs, which is killed. After each kill both
                            files are sound, the copy is a front of the file, and no record that was handed over is missing from either
"""
import json
import os
import random
import select
import subprocess
import sys
import tempfile
import threading
import time

NIF = "89890001K"
PROGRAM = os.environ["VERIFACTU"]


class Agency:
    """Behind two FIFOs that it keeps open on both sides, so that no opening waits. It accepts what it is handed, and remembers it."""

    def __init__(self, place, had):
        self.had, self.rest, self.over = had, b"", False
        self.paths = [f"{place}/to", f"{place}/from"]
        for path in self.paths:
            os.mkfifo(path)
        self.to, self.back = (os.open(path, os.O_RDWR | os.O_NONBLOCK) for path in self.paths)
        os.write(self.back, b'\n{"t":"hello"}\n')
        self.thread = threading.Thread(target=self.work)
        self.thread.start()

    def answer(self, line):
        if not line:
            return None
        message = json.loads(line)
        if message["t"] == "begin":
            return {"begun": True, "n": message["n"]}
        if message["t"] == "submit":
            new = [record["huella"] for record in message["records"]]
            lines = [[huella, "correcto", 0] for huella in new]
            self.had.update(dict.fromkeys(new))
            return {"lines": lines, "n": message["n"], "wait": 0}
        seen = [[h, "correcto" if h in self.had else "not-seen", 0] for h in message["huellas"]]
        return {"n": message["n"], "seen": seen}

    def work(self):
        while not self.over:
            if not select.select([self.to], [], [], 0.01)[0]:
                continue
            self.rest += os.read(self.to, 1 << 16)
            *lines, self.rest = self.rest.split(b"\n")
            for line in lines:
                told = self.answer(line)
                if told is not None:
                    self.write(json.dumps(told, separators=(",", ":"), sort_keys=True).encode() + b"\n")

    def write(self, text):
        while text and not self.over:
            if select.select([], [self.back], [], 0.01)[1]:
                text = text[os.write(self.back, text[:4096]):]

    def close(self):
        self.over = True
        self.thread.join()
        for end in (self.to, self.back):
            os.close(end)
        for path in self.paths:
            os.remove(path)


def records(path):
    words = subprocess.run([PROGRAM, "audit", path], capture_output=True, text=True, check=False).stdout.split()
    if words[:1] != ["sound"]:
        sys.exit(f"{path}: {' '.join(words)}")
    return int(words[1])


def main():
    had, serial, killed = {}, 0, 0
    with tempfile.TemporaryDirectory(dir=".") as place:
        file, copy = f"{place}/chain", f"{place}/copy"
        for _ in range(int(sys.argv[1])):
            script = "".join(f"sale 1 {serial + k} A F2 21:{serial + k}\n" for k in range(1, 6))
            serial += 5
            subprocess.run([PROGRAM, "chain", file, NIF], input=script.encode(), stdout=subprocess.DEVNULL, check=True)
            agency = Agency(place, had)
            run = subprocess.Popen([PROGRAM, "--agency", *agency.paths, "guard", file, NIF, copy], stdin=subprocess.DEVNULL,
                                   stdout=subprocess.DEVNULL, stderr=subprocess.DEVNULL)
            time.sleep(random.random() * 0.03)
            killed += run.poll() is None
            run.kill()
            run.wait()
            agency.close()
            for path in (file, copy):
                if os.path.exists(path) and os.path.getsize(path) and records(path) < len(had):
                    sys.exit(f"{path} has {records(path)} records, and {len(had)} were handed over")
                if had and not os.path.exists(path):
                    sys.exit(f"{path} isn't there, and {len(had)} records were handed over")
        subprocess.run([PROGRAM, "follow", file, copy], stdout=subprocess.DEVNULL, check=True)
        print(f"{sys.argv[1]} guards, {killed} killed before their end: {len(had)} records handed over, all of them in both files; "
              f"the copy is a front of the file")


if __name__ == "__main__":
    main()
