"""`--faults SEED`: good tills come through it, and of bad ones it says what they did wrong."""
from __future__ import annotations

import http.client
import os
import shutil
import signal
import subprocess
import time
import unittest
from concurrent.futures import ThreadPoolExecutor
from typing import Any, Dict, List

from test_clients import CLIENTS
from test_requests import SALE, Description
from trying import HERE, HUB, NIF, Hub, Options, Place, until

TILLS = (1, 2, 3, 4)


class Trial(unittest.TestCase):
    """A hub with faults."""

    def begin(self, seed: int) -> None:
        """Starts it."""
        self.place = Place()
        self.addCleanup(self.place.remove)
        self.hub = Hub(self.place, "--faults", str(seed))
        self.addCleanup(self.hub.end)
        self.api = self.hub.ask("GET", "/v1/openapi.json").json

    def faults(self) -> Any:
        """What `/v1/faults` says."""
        answer = self.hub.ask("GET", "/v1/faults", self.place.owner)
        self.assertEqual(answer.status, 200, answer.body)
        self.assertIsNone(Description(self.api).fault("GET", "/v1/faults", answer))
        return answer.json

    def wrong(self) -> Dict[int, List[Any]]:
        """What each till did wrong."""
        return {till["till"]: [(wrong["serial"], wrong["what"]) for wrong in till["wrong"]] for till in self.faults()["tills"]}

    def put_older_back(self) -> None:
        """Has the hub put the older copy in place."""
        self.hub.process.send_signal(signal.SIGINT)
        until(lambda: self.hub.logged("the chain is an older copy now"), "the older copy is there")


class GoodTest(Trial):
    """The clients of hub/clients, four tills of each."""

    def start(self, client: str, till: int, sales: int) -> "subprocess.Popen[str]":
        """Starts a till."""
        program, file = CLIENTS[client]
        words = [program, os.path.join(HERE, "clients", file), f"http://127.0.0.1:{self.hub.port}", self.place.till[till],
                 f"{self.place.path}/till{till}.json", str(sales), "0.02"]
        return subprocess.Popen(words, stdout=subprocess.PIPE, stderr=subprocess.PIPE, text=True)

    def run_tills(self, client: str, sales: int) -> List[Any]:
        """Runs four tills to their ends: each one's status, and what it printed."""
        tills = [self.start(client, till, sales) for till in TILLS]
        with ThreadPoolExecutor() as pool:  # all are read at the same time, so that none waits for a full pipe
            told = list(pool.map(lambda process: process.communicate(timeout=60 + 3 * sales), tills))
        return [(said, process.returncode) for said, process in zip(told, tills)]

    def try_client(self, client: str) -> None:
        """All sales stand once, and over the older copy nothing is sold."""
        if shutil.which(CLIENTS[client][0]) is None:
            self.skipTest(f"no language: {CLIENTS[client][0]} isn't there")
        self.begin(7)
        count = Options.sales
        for (printed, error), status in self.run_tills(client, count):
            self.assertEqual(status, 0, error)
            self.assertEqual(len(printed.splitlines()), 2 * count)
        self.assertEqual(self.wrong(), {till: [] for till in TILLS})
        self.assertGreater(sum(till["again"] for till in self.faults()["tills"]), count // 4)
        listed = self.place.run("list", self.place.file, "all")[1].splitlines()
        self.assertEqual((len(listed) - 1, len({row.split(" ")[2] for row in listed[:-1]})), (4 * count, 4 * count))
        self.put_older_back()
        records = self.hub.state()["records"]
        self.assertLess(records, 4 * count)
        behind = [till["behind"] for till in self.faults()["tills"]]
        self.assertEqual(behind, [True] * 4)
        for (printed, error), status in self.run_tills(client, 1):
            self.assertNotEqual(status, 0)
            self.assertEqual(printed, "")
            self.assertIn("older copy", error)
        self.assertEqual((self.hub.state()["records"], self.wrong()), (records, {till: [] for till in TILLS}))
        self.hub.stop(signal.SIGTERM)
        for till in TILLS:
            self.assertTrue(self.hub.logged(rf"faults: till {till}: {count} commands, \d+ asked again, nothing wrong"), self.hub.log)

    def test_python(self) -> None:
        self.try_client("python")

    def test_php(self) -> None:
        self.try_client("php")

    def test_node(self) -> None:
        self.try_client("node")

    def test_java(self) -> None:
        self.try_client("java")


# of each fate: the statuses that its command may be answered with (0: no answer), and whether it is done
FATES: Dict[str, Any] = {
    "plain": ((201,), True), "lost": ((0,), True), "cut": ((0,), False), "unavailable": ((503,), True),
    "busy": ((503,), False), "proxy": ((502,), True), "killed": ((200, 201), True), "late": ((201,), True),
}


class FateTest(Trial):
    """Each thing that may become of a command."""

    def ask(self, serial: int) -> int:
        """A sale that is asked once: the status of its answer."""
        try:
            answer = self.hub.ask("POST", "/v1/sales", self.place.till[1], {**SALE, "serial": serial})
        except (OSError, http.client.HTTPException):
            return 0
        self.assertEqual(answer.headers["content-type"] == "text/html; charset=utf-8", answer.status == 502)
        return answer.status

    def test_each_fate_is_what_the_page_says(self) -> None:
        self.begin(1194)  # which draws each of them among the first 22
        before, drawn = self.faults()["fates"], set()
        for serial in range(1, 23):
            began = time.monotonic()
            status, seconds = self.ask(serial), time.monotonic() - began
            after = self.faults()["fates"]
            fate = next(name for name in after if after[name] > before[name])
            before = after
            drawn.add(fate)
            with self.subTest(fate):
                stands = self.hub.ask("GET", f"/v1/records?serial={serial}", self.place.till[1]).status == 200
                statuses, is_done = FATES[fate]
                self.assertIn(status, statuses)
                self.assertEqual(stands, is_done)
                self.assertTrue(5 <= seconds < 45 if fate == "late" else seconds < 30, seconds)
        self.assertEqual(drawn, set(FATES))
        until(lambda: self.hub.state()["starts"] == 2, "the program was killed once, and started again")


class BadTest(Trial):
    """Tills that do what they mustn't."""

    def sell(self, till: int, serial: int, series: str = "A") -> int:
        """A sale that is asked once; 0 where there was no answer of the hub's."""
        try:
            answer = self.hub.ask("POST", "/v1/sales", self.place.till[till], {**SALE, "serial": serial, "series": series})
        except (OSError, http.client.HTTPException):
            return 0
        return answer.status if answer.json and "type" not in answer.json or answer.status < 500 else 0

    def test_each_thing_that_is_wrong_is_told(self) -> None:
        self.begin(3)
        serial = 0
        lost: List[int] = []
        while len(lost) < 3:  # it never asks again
            serial += 1
            if not self.sell(1, serial):
                lost.append(serial)
        self.assertEqual(self.wrong()[1], [(number, "a greater serial was asked while this one had no answer") for number in lost[:2]]
                         + [(lost[2], "it was asked once, had no answer, and was never asked again")])
        while not self.sell(2, 1):
            pass
        self.sell(2, 1, "B")
        self.assertIn((1, "two commands were given this serial"), self.wrong()[2])
        serial = 0
        while True:  # it asks again, but gives up
            serial += 1
            if not self.sell(3, serial) and not self.sell(3, serial):
                break
            while not self.sell(3, serial):
                pass
        self.assertEqual(self.wrong()[3], [(serial, "it was asked again, but not until it was answered")])
        for number in range(1, 9):
            while not self.sell(4, number):
                pass
        self.assertEqual(self.wrong()[4], [])
        self.put_older_back()
        self.assertEqual(self.sell(4, 9), 201)
        self.assertEqual(self.wrong()[4], [(9, "it was asked over an older copy of the chain")])
        self.hub.stop()
        self.assertTrue(self.hub.logged("faults: till 4 serial 9: it was asked over an older copy of the chain"))

    def test_a_seed_draws_the_same_again(self) -> None:
        told = []
        for _ in range(2):
            self.begin(12)
            told.append([self.sell(1, serial) // 100 for serial in range(1, 40)])  # of a kill the answer may be 200 or 201
            self.hub.end()
        self.assertEqual(told[0], told[1])
        self.assertGreater(told[0].count(0), 3)

    def test_it_is_for_trials_of_one_shop_alone(self) -> None:
        place = Place()
        self.addCleanup(place.remove)
        ok = [HUB, place.file, NIF, "--tokens", place.tokens, "--program", Options.program, "--listen", "127.0.0.1:0"]
        for words in ([*ok, "--faults", "1", "--agency", "a", "b", "--host", "test"], [*ok, "--faults", "x"], [*ok, "--faults", "0"],
                      [HUB, "--shops", place.tokens, *ok[3:], "--faults", "1"]):
            with self.subTest(words[-4:]):
                done = subprocess.run(words, stderr=subprocess.PIPE, text=True, timeout=60, check=False)
                self.assertEqual((done.returncode, done.stderr.count("\n")), (2, 1), done.stderr)
        self.assertFalse(os.path.exists(place.file))
        hub = Hub(place)
        self.addCleanup(hub.end)
        self.assertEqual(hub.ask("GET", "/v1/faults", place.owner).status, 404)


if __name__ == "__main__":
    unittest.main()
