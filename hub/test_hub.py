#!/usr/bin/python3
"""All tests of the hub, over real sockets.

    hub/test_hub.py [--program PATH] [--sales N] [NAME ..]

The program is the stand-in unless --program (or VERIFACTU) names the real one; N is how many sales each of 64 tills makes (200). NAMEs are of
modules, classes or tests, as unittest has them. `.ci/setup` installs the Debian packages that they need. Where a module of Python is missing
none is run, which is a failure where the variable CI is set. Tests that want a language, nginx, a browser, or the right to mount and to make network
namespaces are left out without; what isn't run is told with its reason, and the last line says how many were.
"""
from __future__ import annotations

import argparse
import importlib.util
import os
import re
import subprocess
import sys
import unittest
from typing import Any, Iterator, Tuple

# how each run of tests ends
ENDED = re.compile(r"the hub's tests: (\d+) run, (\d+) not run")
NEEDED = ("aiohttp", "jsonschema", "prometheus_client")
MODULES = ["test_parts", "test_requests", "test_told", "test_attacks", "test_running", "test_machines", "test_nginx", "test_clients", "test_faults", "test_hosting", "test_page"]
# each of these in a process of its own, beside the others; the first two wait for 75 and 30 seconds
BESIDE = ["test_running.SlowTest.test_a_request_must_have_arrived_within_75_seconds", "test_running.LimitTest", "test_requests", "test_clients", "test_faults", "test_hosting", "test_page"]


def main() -> int:
    """0 where all passed, or where packages are missing and nobody insists."""
    parser = argparse.ArgumentParser(description="Tests of the hub.")
    parser.add_argument("--program", default=os.environ.get("VERIFACTU", ""))
    parser.add_argument("--sales", type=int, default=200)
    parser.add_argument("-v", "--verbose", action="store_true")
    parser.add_argument("names", nargs="*")
    options = parser.parse_args()
    if missing := [it for it in NEEDED if importlib.util.find_spec(it) is None]:
        print(f"not run: all tests of the hub: {sys.executable} has no {', '.join(missing)}; .ci/setup installs it")
        return 1 if "CI" in os.environ else 0
    import trying  # needs none of the packages, but its users do

    trying.Options.program = os.path.realpath(options.program) if options.program else trying.STAND_IN
    trying.Options.sales = options.sales
    names = [] if options.names else BESIDE
    runs = [subprocess.Popen([sys.executable, os.path.realpath(__file__), *sys.argv[1:], it], stdout=subprocess.PIPE, text=True) for it in names]
    passed, ran, left_out = run(unittest.defaultTestLoader.loadTestsFromNames(options.names or MODULES), options)
    for process in runs:
        *lines, last = process.communicate()[0].splitlines() or [""]
        sys.stdout.write("".join(f"{line}\n" for line in lines))
        counts = ENDED.fullmatch(last)
        passed = passed and process.returncode == 0 and counts is not None
        ran, left_out = ran + int(counts[1] if counts else 0), left_out + int(counts[2] if counts else 0)
    print(f"the hub's tests: {ran} run, {left_out} not run")
    return 0 if passed else 1


def run(suite: unittest.TestSuite, options: argparse.Namespace) -> Tuple[bool, int, int]:
    """Runs tests, without those that run beside them, and says which couldn't be run here: whether the others passed, and how many of both."""
    chosen = unittest.TestSuite(test for test in tests_of(suite) if options.names or not is_beside(test))
    whole = chosen.countTestCases()
    result = unittest.TextTestRunner(verbosity=2 if options.verbose else 1, warnings="ignore").run(chosen)  # type: ignore[arg-type]
    for test, reason in result.skipped:
        print(f"not run: {test.id()}: {reason}")
    left_out = len({test.id() for test, _ in result.skipped})
    return result.wasSuccessful(), whole - left_out, left_out


def tests_of(suite: Any) -> Iterator[unittest.TestCase]:
    """The tests of suites within suites."""
    for test in suite:
        yield from tests_of(test) if isinstance(test, unittest.TestSuite) else (test,)


def is_beside(test: unittest.TestCase) -> bool:
    """Whether it is one of BESIDE."""
    return any(test.id() == name or test.id().startswith(name + ".") for name in BESIDE)


if __name__ == "__main__":
    sys.exit(main())
