"""What a till is told: which record stands under its serial, what is wrong with what it asked, and where an invoice was cancelled."""
from __future__ import annotations

import json
import os
import re
import unittest
from typing import Any, Dict, List, Optional

from test_requests import SALE, OverAHub
from trying import HERE, Answer, read_answer, until

CUSTOMER = {"nif": "B12345674", "name": "Bar Sol, S.L."}
FIX = {"num": "A-1", "kind": "F2", "lines": [{"class": "10", "base": 1000}]}


class AgainTest(OverAHub):
    """A serial that has its record already."""

    def stands(self, answer: Answer, place: int, **wanted: Any) -> None:
        """Whether the answer has this record."""
        record = answer.json["record"]
        self.assertEqual({key: record.get(key) for key in ("place", *wanted)}, {"place": place, **wanted})

    def test_each_answer_says_which_record_stands(self) -> None:
        wanted: Any = (("/v1/sales", {**SALE, "serial": 1}, {"record": "alta", "num": "A-1", "kind": "F2", "subsanacion": "N", "total": 1000}),
                       ("/v1/fixes", {**FIX, "serial": 2}, {"record": "alta", "num": "A-1", "kind": "F2", "subsanacion": "S", "total": 1100}),
                       ("/v1/cancellations", {"num": "A-1", "serial": 3}, {"record": "anulacion", "num": "A-1", "kind": None, "total": None}))
        for status in (201, 200):
            for place, (path, body, record) in enumerate(wanted, 1):
                answer = self.post(path, body)
                self.assertEqual(answer.status, status, answer.body)
                self.stands(answer, place, huella=answer.json["huella"], **record)

    def test_another_command_under_a_used_serial_is_told_so_and_does_nothing(self) -> None:
        self.assertEqual(self.post("/v1/sales", {**SALE, "serial": 1}).status, 201)
        self.assertEqual(self.post("/v1/fixes", {**FIX, "serial": 2}).status, 201)
        self.assertEqual(self.post("/v1/cancellations", {"num": "A-1", "serial": 3}).status, 201)
        self.assertEqual(self.post("/v1/sales", {**SALE, "series": "A/1", "serial": 4}).status, 201)
        others: Any = ((1, "/v1/cancellations", {"num": "A-1"}), (1, "/v1/fixes", FIX), (1, "/v1/sales", {**SALE, "series": "B"}),
                       (1, "/v1/sales", {**SALE, "kind": "F1", "customer": CUSTOMER}), (2, "/v1/sales", SALE), (2, "/v1/cancellations", {"num": "A-1"}),
                       (2, "/v1/fixes", {**FIX, "num": "A/1-1"}), (3, "/v1/sales", SALE), (3, "/v1/fixes", FIX),
                       (3, "/v1/cancellations", {"num": "A/1-1"}), (4, "/v1/sales", SALE))
        for serial, path, body in others:
            with self.subTest(serial=serial, path=path, body=body):
                answer = self.post(path, {**body, "serial": serial})
                self.is_problem(answer, 409, "serial-used")
                self.stands(answer, serial)
        self.assertEqual(self.records(), 4)
        # amounts are the till's to compare: the same invoice at another price is the same record again
        again = self.post("/v1/sales", {**SALE, "lines": [{"class": "21", "total": 500}]})
        self.assertEqual((again.status, again.json["record"]["total"]), (200, 1000))


class RecordTest(OverAHub):
    """The record under a serial of a till's own."""

    def test_a_till_is_told_its_own_records_by_their_serials(self) -> None:
        self.assertEqual(self.post("/v1/sales", {**SALE, "serial": 5}).status, 201)
        self.assertEqual(self.post("/v1/fixes", {**FIX, "serial": 7}).status, 201)
        self.assertEqual(self.post("/v1/cancellations", {"num": "A-1", "serial": 4294967295}, till=2).status, 201)
        for till, serial, wanted in ((1, 5, (1, "alta", "N")), (1, 7, (2, "alta", "S")), (2, 4294967295, (3, "anulacion", None))):
            row = self.hub.ask("GET", f"/v1/records?serial={serial}", self.place.till[till]).json
            self.assertEqual((row["place"], row["record"], row.get("subsanacion"), row["num"]), (*wanted, "A-1"))
        for till, serial in ((1, 6), (1, 4294967295), (2, 5), (3, 1)):
            self.is_problem(self.hub.ask("GET", f"/v1/records?serial={serial}", self.place.till[till]), 404, "not-found")
        for query in ("", "?serial=", "?serial=0", "?serial=-1", "?serial=1x", "?serial=01", "?serial=4294967296", "?serial=1&serial=1", "?num=A-1", "?serial=1&x=1"):
            self.is_problem(self.hub.ask("GET", f"/v1/records{query}", self.place.till[1]), 400, "bad-request")
        self.is_problem(self.hub.ask("GET", "/v1/records?serial=5", self.place.owner), 403, "forbidden")


class CancelledTest(OverAHub):
    """An invoice that was cancelled."""

    verdicts = "A-2 2 vet 3000"

    def cancelled(self, num: str) -> Optional[int]:
        """Which record cancels an invoice, as its ticket says."""
        answer = self.hub.ask("GET", f"/v1/invoices?num={num}", self.place.till[2])
        self.assertEqual(answer.status, 200, answer.body)
        found: Optional[int] = answer.json.get("cancelled")
        return found

    def cancel(self, serial: int, num: str) -> int:
        """Cancels an invoice."""
        answer = self.post("/v1/cancellations", {"serial": serial, "num": num})
        self.assertEqual(answer.status, 201, answer.body)
        return int(answer.json["place"])

    def test_a_ticket_says_that_its_invoice_is_cancelled(self) -> None:
        for serial in (1, 2, 3):
            self.assertEqual(self.post("/v1/sales", {**SALE, "serial": serial}).status, 201)
        self.assertEqual([self.cancelled(num) for num in ("A-1", "A-2", "A-3")], [None] * 3)
        self.assertEqual((self.cancel(4, "A-1"), self.cancelled("A-1"), self.cancelled("A-3")), (4, 4, None))
        # a cancellation that the agency refused cancels nothing
        self.assertEqual(self.cancel(5, "A-2"), 5)
        until(lambda: self.hub.state()["refused"], "it is refused")
        self.assertEqual(self.cancelled("A-2"), None)
        self.assertEqual(self.cancel(6, "A-2"), 6)
        self.assertEqual((self.cancelled("A-2"), self.cancelled("A-1")), (6, 4))
        # a hub that begins again reads them from the file
        self.hub.stop()
        self.hub = type(self.hub)(self.place, *self.agency.words, environment=self.agency.environment)
        self.addCleanup(self.hub.end)
        self.assertEqual([self.cancelled(num) for num in ("A-1", "A-2", "A-3")], [4, 6, None])


class LargeTest(OverAHub):
    """Bodies that are too large: the answer comes, however much was sent."""

    def send(self, head: str, parts: List[bytes]) -> Optional[Answer]:
        """Sends a sale's request with a body of these parts, all of it before the answer is read."""
        with self.hub.connect() as connection:
            connection.sendall(f"POST /v1/sales HTTP/1.1\r\nHost: hub\r\nAuthorization: Bearer {self.place.till[1]}\r\n{head}\r\n\r\n".encode())
            for part in parts:
                connection.sendall(part)
            answer = read_answer(connection)
            if answer is not None:
                self.assertEqual((answer.headers.get("connection"), connection.recv(1)), ("close", b""))
            return answer

    def test_a_body_far_too_large_is_413_and_no_reset(self) -> None:
        for size in (70_000, 200_000, 1_000_000, 7_000_000):
            for head, parts in ((f"Content-Length: {size}", [b" " * 50_000] * (size // 50_000) + [b" " * (size % 50_000)]),
                                ("Transfer-Encoding: chunked", [b"c350\r\n" + b" " * 50_000 + b"\r\n"] * (size // 50_000 + 1) + [b"0\r\n\r\n"])):
                with self.subTest(size=size, head=head):
                    answer = self.send(head, parts)
                    assert answer is not None
                    self.is_problem(answer, 413, "too-large")
        self.assertEqual(self.records(), 0)

    def test_no_more_than_a_limit_is_read(self) -> None:
        with self.assertRaises(ConnectionError):
            for _ in range(3):  # an answer may come before the connection is closed
                self.send("Content-Length: 100000000", [b" " * 100_000] * 1_000)
        self.assertEqual(self.hub.ask("GET", "/health").status, 200)


class WrongTest(OverAHub):
    """What the cashier mistyped, and the page's examples."""

    def test_a_customer_that_was_mistyped_has_its_word_and_the_serial_stays_free(self) -> None:
        body: Dict[str, Any] = {**SALE, "kind": "F1", "customer": CUSTOMER}
        for customer, word in (({"nif": "B12345675", "name": "Bar Sol"}, "Nif"), ({"nif": "B12345674", "name": "é" * 61}, "Name"),
                               ({"nif": "B12345674", "name": "é" * 150}, "Name"), ({"nif": "B12345674", "name": " Bar"}, "Name")):
            with self.subTest(customer=customer):
                answer = self.post("/v1/sales", {**body, "customer": customer})
                self.is_problem(answer, 400, "bad-line")
                self.assertEqual(answer.json["word"], word)
        taken = self.post("/v1/sales", {**body, "customer": {"nif": "B12345674", "name": "é" * 60}})
        self.assertEqual((taken.status, taken.json["answer"]), (201, "taken"), taken.body)

    def test_the_pages_examples_are_taken(self) -> None:
        with open(os.path.join(HERE, "..", "docs", "HUB.md"), encoding="utf-8") as page:
            shown = [json.loads(text) for text in re.findall(r"```json\n(.*?)```", page.read(), re.DOTALL)]
        self.assertEqual([body["kind"] for body in shown], ["F1", "R5", "F3"])
        day = self.post("/v1/sales", SALE).json["ticket"]["date"]
        self.assertEqual(self.post("/v1/sales", {**SALE, "serial": 2}).status, 201)
        for body in shown:
            refs = [{**ref, "date": day} for ref in body.get("refs", [])]
            answer = self.post("/v1/sales", {**body, **({"refs": refs} if refs else {})})
            self.assertEqual((answer.status, answer.json["answer"]), (201, "taken"), answer.body)


if __name__ == "__main__":
    unittest.main()
