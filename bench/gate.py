#!/usr/bin/env python3
"""The gate's time, crate by crate: runs .ci/run (or the command that is given) at the top of the repository, looks at the prover's
processes every three seconds, and prints a row for each crate: processor seconds of its proof, of its tests' proof and of the wrong
bodies that are tried in the run (`rt ci` tries those of must-fail/ alone), and the most memory that one process took. It sees what this
run does: the last lines of `rt ci` tell whether that was all of it. For the whole from nothing run it where none of these files was proved
before.

    bench/gate.py [COMMAND ..]      the command's own output goes to standard error
"""
import os
import resource
import subprocess
import sys
import threading
import time

ROOT = os.path.dirname(os.path.dirname(os.path.realpath(__file__)))
TICKS = os.sysconf("SC_CLK_TCK")
KINDS = ("proof", "tests", "edits")


def is_below(pid, top):
    while pid > 1:
        if pid == top:
            return True
        with open(f"/proc/{pid}/stat", encoding="ascii", errors="replace") as it:
            pid = int(it.read().rsplit(")", 1)[1].split()[1])
    return False


def look(pid, top, seen):
    """Notes what a process of the prover has used so far."""
    with open(f"/proc/{pid}/cmdline", encoding="utf-8", errors="replace") as it:
        words = it.read().split("\0")
    if not words[0].endswith("/rattle") or "--crate-name" not in words or not is_below(pid, top):
        return
    with open(f"/proc/{pid}/stat", encoding="ascii", errors="replace") as it:
        fields = it.read().rsplit(")", 1)[1].split()
    with open(f"/proc/{pid}/statm", encoding="ascii") as it:
        resident = int(it.read().split()[1]) * os.sysconf("SC_PAGE_SIZE") / 1e6
    crate = words[words.index("--crate-name") + 1]
    # (a wrong body is tried on a copy, a crate proved in its own folder)
    is_edit = os.readlink(f"/proc/{pid}/cwd") != os.path.join(ROOT, "crates", crate)
    kind = "edits" if is_edit else "tests" if "--test" in words else "proof"
    one = seen.setdefault((pid, fields[19]), {"crate": crate, "kind": kind, "memory": 0.0})
    one["seconds"] = sum(map(int, fields[11:15])) / TICKS
    one["memory"] = max(one["memory"], resident)


def sample(top, seen, ended):
    while not ended.wait(3):
        for name in os.listdir("/proc"):
            if name.isdigit():
                try:
                    look(int(name), top, seen)
                except (OSError, IndexError, ValueError):
                    # (it has ended)
                    continue


def table(seen):
    rows = {}
    for one in seen.values():
        row = rows.setdefault(one["crate"], dict.fromkeys(KINDS, 0.0) | {"memory": 0.0})
        row[one["kind"]] += one.get("seconds", 0.0)
        row["memory"] = max(row["memory"], one["memory"])
    print("| Crate | Proof | Tests | Edits | Most memory, MB |\n|---|---|---|---|---|")
    for crate, row in sorted(rows.items(), key=lambda it: -sum(it[1][kind] for kind in KINDS)):
        print(f"| `{crate}` | " + " | ".join(f"{row[kind]:.0f}" if row[kind] else "" for kind in KINDS) + f" | {row['memory']:.0f} |")
    sums = {kind: sum(row[kind] for row in rows.values()) / 60 for kind in KINDS}
    print(f"\nProcessor minutes: {sum(sums.values()):.0f}; " + ", ".join(f"{kind} {minutes:.0f}" for kind, minutes in sums.items()))


def main():
    begun, seen, ended = time.monotonic(), {}, threading.Event()
    run = subprocess.Popen(sys.argv[1:] or [os.path.join(ROOT, ".ci", "run")], cwd=ROOT, stdin=subprocess.DEVNULL, stdout=sys.stderr)
    watcher = threading.Thread(target=sample, args=(run.pid, seen, ended))
    watcher.start()
    status = run.wait()
    ended.set()
    watcher.join()
    table(seen)
    used = resource.getrusage(resource.RUSAGE_CHILDREN)
    print(f"Processor minutes of all that it started, rt itself among it: {(used.ru_utime + used.ru_stime) / 60:.0f}")
    print(f"Minutes from its start to its end: {(time.monotonic() - begun) / 60:.0f}, by {len(os.sched_getaffinity(0))} processors; status {status}")
    return status


if __name__ == "__main__":
    sys.exit(main())
