"""The clients of hub/clients, each where its language is there: cut off amid a sale, ended amid one, told by something that isn't the hub, and
over an older copy of the chain."""
from __future__ import annotations

import json
import os
import re
import shutil
import subprocess
import unittest
from typing import Any, Dict, List, Optional

from between import LIES, Between
from trying import HERE, NIF, Agency, Hub, Place

CLIENTS = {"python": ["/usr/bin/python3", "till.py"], "php": ["php", "till.php"], "node": ["node", "till.js"], "java": ["java", "Till.java"]}


class ClientTest(unittest.TestCase):
    """One client, by the name of its language."""

    client = ""

    def setUp(self) -> None:
        if shutil.which(CLIENTS[self.client][0]) is None:
            self.skipTest(f"no language: {CLIENTS[self.client][0]} isn't there")
        self.place = Place()
        self.addCleanup(self.place.remove)
        self.agency = Agency(self.place)
        self.addCleanup(self.agency.end)
        self.hub = self.begin()
        self.kept = os.path.join(self.place.path, "till.json")

    def begin(self) -> Hub:
        """A hub over the place."""
        hub = Hub(self.place, *self.agency.words, environment=self.agency.environment)
        self.addCleanup(hub.end)
        return hub

    def run_client(self, *more: str, port: int = 0, token: str = "") -> "subprocess.CompletedProcess[str]":
        """Runs the client to its end."""
        program, file = CLIENTS[self.client]
        words = [program, os.path.join(HERE, "clients", file), f"http://127.0.0.1:{port or self.hub.port}", token or self.place.till[1], self.kept, *more]
        return subprocess.run(words, stdout=subprocess.PIPE, stderr=subprocess.PIPE, text=True, timeout=120, check=False)

    def sell(self, *more: str, port: int = 0) -> List[List[str]]:
        """Runs the client, which has to end well: the words of its lines."""
        done = self.run_client(*more, port=port)
        self.assertEqual(done.returncode, 0, done.stderr)
        return [line.split(" ") for line in done.stdout.splitlines()]

    def state(self) -> Any:
        """What the client keeps."""
        with open(self.kept, encoding="utf-8") as file:
            return json.load(file)

    def keep(self, changes: Dict[str, Any]) -> None:
        """Changes what the client keeps."""
        state = {**self.state(), **changes}
        with open(self.kept, "w", encoding="utf-8") as file:
            json.dump(state, file)

    def sells_nothing(self, records: int, why: str, port: int = 0, token: Optional[str] = None) -> None:
        """Whether the client refuses to sell, and says why."""
        done = self.run_client("2", "0.1", port=port, token=token or "")
        self.assertNotEqual(done.returncode, 0, done.stdout)
        self.assertEqual(done.stdout, "")
        self.assertIn(why, done.stderr)
        self.assertEqual(self.hub.state()["records"], records)

    def test_two_sales_and_an_end_amid_one(self) -> None:
        first = self.sell()
        self.assertEqual([first[0][0], first[0][1], first[0][3]], ["taken", "A-1", "1000"])
        # the second sale was asked twice, and stands once
        self.assertEqual([first[2][0] in ("taken", "again"), first[2][1], first[2][3]], [True, "A-2", "250"])
        day = re.sub(r"(\d{4})-(\d\d)-(\d\d)", r"\3-\2-\1", first[0][2])
        self.assertEqual(first[1], [f"https://prewww2.aeat.es/wlpl/TIKE-CONT/ValidarQR?nif={NIF}&numserie=A-1&fecha={day}&importe=10.00"])
        self.assertEqual([line[1] for line in self.sell()[::2]], ["A-3", "A-4"])
        self.assertEqual((self.state()["open"], self.state()["sale"]["serial"], self.state()["taken"]), (False, 4, 4))
        self.keep({"open": True})
        self.assertEqual([line[:2] for line in self.sell()[:3:2]], [["again", "A-4"], ["taken", "A-5"]])
        self.assertEqual(self.hub.state()["records"], 6)
        # a till that lost its disk goes on with the serial that the chain has
        os.remove(self.kept)
        self.assertEqual([line[:2] for line in self.sell("1")[::2]], [["taken", "A-7"]])

    def test_what_is_no_answer_of_the_hubs_is_asked_again(self) -> None:
        between = Between(self.hub.port, LIES)
        self.addCleanup(between.end)
        done = self.run_client("1", "0.05", port=between.port)
        self.assertEqual(done.returncode, 0, done.stderr)
        self.assertEqual((done.stdout.split(" ")[:2], between.lies), (["again", "A-1"], []), done.stderr)
        self.assertEqual((self.state()["open"], self.state()["taken"], self.hub.state()["records"]), (False, 1, 1))
        self.assertEqual(set(between.paths), {"/v1/last", "/v1/sales"})
        for status in (200, 302, 400, 403, 404, 413):  # which a person has to see
            self.assertIn(f"answers {status}: ", done.stderr)
        self.assertNotIn("answers 5", done.stderr)

    def test_a_token_that_is_gone_leaves_the_sale_open(self) -> None:
        self.sell()
        self.keep({"open": True})
        self.sells_nothing(2, "token", token="x" * 40)
        self.assertTrue(self.state()["open"])
        # gone amid a sale that had no answer: it may stand
        refusal = '{"type":"urn:verifactu:unauthorized","title":"No token that is known","status":401,"detail":"the request has no token"}'
        between = Between(self.hub.port, [LIES[0], LIES[0]._replace(is_done=False, status=401, kind="application/problem+json", text=refusal)])
        self.addCleanup(between.end)
        self.keep({"open": False})
        done = self.run_client("1", "0.05", port=between.port)
        self.assertNotEqual(done.returncode, 0)
        self.assertIn("No token that is known", done.stderr)
        self.assertTrue(self.state()["open"])
        self.assertEqual([line[:2] for line in self.sell("0")[::2]], [["again", "A-3"]])

    def test_a_serial_or_an_amount_that_is_another_sales_is_no_ticket(self) -> None:
        self.sell()
        answer = self.hub.ask("POST", "/v1/cancellations", self.place.till[1], {"serial": 3, "num": "A-2"})
        self.assertEqual(answer.status, 201)
        self.sells_nothing(3, "serial")
        self.assertFalse(self.state()["open"])
        other = self.hub.sell(1, 4, 7700, series="A")
        self.assertEqual(other.status, 201)
        self.sells_nothing(4, "given to two sales")

    def test_over_an_older_copy_of_the_chain_nothing_is_sold(self) -> None:
        self.sell()
        older = self.place.file + ".older"
        self.hub.stop()
        shutil.copy(self.place.file, older)
        self.hub = self.begin()
        self.sell()
        self.hub.stop()
        shutil.copy(older, self.place.file)
        self.hub = self.begin()
        self.sells_nothing(2, "older copy")
        self.keep({"open": True})
        self.sells_nothing(2, "older copy")
        self.assertEqual((self.state()["taken"], self.state()["open"]), (4, True))


class PythonTest(ClientTest):
    """In Python."""

    client = "python"


class PhpTest(ClientTest):
    """In PHP."""

    client = "php"


class NodeTest(ClientTest):
    """In JavaScript."""

    client = "node"


class JavaTest(ClientTest):
    """In Java."""

    client = "java"


def load_tests(loader: unittest.TestLoader, tests: Any, pattern: Any) -> unittest.TestSuite:
    """The tests of each language."""
    return unittest.TestSuite(loader.loadTestsFromTestCase(case) for case in (PythonTest, PhpTest, NodeTest, JavaTest))


if __name__ == "__main__":
    unittest.main()
