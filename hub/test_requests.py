"""Requests over a running hub: forms, who may ask, limits of HTTP, the description."""
from __future__ import annotations

import base64
import http.client
import json
import os
import random
import re
import secrets
import signal
import socket
import ssl
import subprocess
import time
import unittest
from collections import Counter
from typing import Any, Dict, Iterator, List, Optional

import jsonschema  # type: ignore[import]

from trying import HERE, HUB, NIF, STAND_IN, Agency, Answer, Hub, Options, Place, Street, read_answer, until

SALE: Dict[str, Any] = {"serial": 1, "series": "A", "kind": "F2", "lines": [{"class": "21", "total": 1000}]}


ELSEWHERE = ("/metrics", "/v1/faults")  # paths that a hub of one shop, without --faults, hasn't


class OverAHub(unittest.TestCase):
    """A hub for each test, and a place of its own."""

    words: List[str] = []
    verdicts = ""

    def setUp(self) -> None:
        self.place = Place()
        self.addCleanup(self.place.remove)
        self.agency = Agency(self.place, self.verdicts)
        self.addCleanup(self.agency.end)
        self.hub = Hub(self.place, *self.agency.words, *self.words, environment=self.agency.environment)
        self.addCleanup(self.hub.end)

    def post(self, path: str, body: Any, till: int = 1, **more: Any) -> Answer:
        """A till's request."""
        return self.hub.ask("POST", path, self.place.till[till], body, **more)

    def is_problem(self, answer: Answer, status: int, name: str) -> None:
        """Whether it is this problem, in the form of RFC 9457."""
        self.assertEqual((answer.status, answer.headers["content-type"]), (status, "application/problem+json"), answer.body)
        self.assertEqual((answer.json["type"], answer.json["status"]), (f"urn:verifactu:{name}", status))
        self.assertTrue(answer.json["title"] and answer.json["detail"])

    def records(self) -> int:
        """How many records there are."""
        return int(self.hub.state()["records"])


class SellingTest(OverAHub):
    """What tills ask."""

    def test_a_sale_at_a_shelf_price_and_the_same_again(self) -> None:
        first = self.post("/v1/sales", SALE)
        self.assertEqual((first.status, first.headers["location"], first.headers["cache-control"]), (201, "/v1/invoices?num=A-1", "no-store"))
        ticket = first.json["ticket"]
        # 10.00 at 21 percent is 4.13 and 4.13: a tax of 1.74
        self.assertEqual((first.json["answer"], first.json["place"], first.json["num"]), ("taken", 1, "A-1"))
        self.assertEqual((ticket["cuota"], ticket["total"], ticket["kind"], ticket["num"]), (174, 1000, "F2", "A-1"))
        day = ticket["date"]
        link = f"https://prewww2.aeat.es/wlpl/TIKE-CONT/ValidarQR?nif={NIF}&numserie=A-1&fecha={day[8:]}-{day[5:7]}-{day[:4]}&importe=10.00"
        self.assertEqual(ticket["link"], link)
        self.assertEqual((ticket["huella"], ticket["place"]), (first.json["huella"], 1))
        again = self.post("/v1/sales", {**SALE, "lines": [{"class": "10", "base": 5}]})
        self.assertEqual((again.status, again.json["answer"]), (200, "again"))
        self.assertEqual((again.json["num"], again.json["huella"], again.json["ticket"]["total"]), ("A-1", first.json["huella"], 1000))
        self.assertEqual(self.records(), 1)

    def test_a_fix_and_a_cancellation(self) -> None:
        first = self.post("/v1/sales", SALE).json
        fixed = self.post("/v1/fixes", {"serial": 2, "num": "A-1", "kind": "F2", "lines": [{"class": "10", "base": 1000}]})
        self.assertEqual((fixed.status, fixed.json["num"], fixed.json["ticket"]["total"]), (201, "A-1", 1100))
        self.assertNotEqual(fixed.json["huella"], first["huella"])
        cancelled = self.post("/v1/cancellations", {"serial": 3, "num": "A-1"})
        self.assertEqual((cancelled.status, sorted(cancelled.json)), (201, ["answer", "huella", "num", "place", "record"]))
        self.assertEqual((cancelled.json["answer"], cancelled.json["place"]), ("taken", 3))
        ticket = self.hub.ask("GET", "/v1/invoices?num=A-1", self.place.owner).json
        self.assertEqual((ticket["place"], ticket["huella"]), (2, fixed.json["huella"]))

    def test_customers_and_references(self) -> None:
        body: Dict[str, Any] = {"serial": 1, "series": "B", "kind": "F1", "customer": {"nif": "B12345674", "name": "Café Ñandú, S.L. = 2"},
                "lines": [{"class": "21", "base": 10000}]}
        first = self.post("/v1/sales", body)
        self.assertEqual((first.status, first.json["ticket"]["total"]), (201, 12100), first.body)
        self.assertEqual(self.post("/v1/sales", {**body, "serial": 2}).status, 201)
        wrong = self.post("/v1/sales", {**body, "serial": 3, "customer": {"nif": "B1", "name": "Bar"}})
        self.is_problem(wrong, 400, "bad-line")
        self.assertEqual(wrong.json["word"], "Nif")
        # without a customer an F1 is refused
        refused = self.post("/v1/sales", {key: value for key, value in {**body, "serial": 3}.items() if key != "customer"})
        self.is_problem(refused, 409, "refused")
        self.assertEqual(refused.json["reason"], "draft customer-missing")

    def test_refusals_are_told_to_the_letter(self) -> None:
        self.assertEqual(self.post("/v1/sales", {**SALE, "serial": 5}).status, 201)
        passed = self.post("/v1/sales", {**SALE, "serial": 4})
        self.is_problem(passed, 409, "refused")
        self.assertEqual(passed.json["reason"], "passed 5")
        unknown = self.post("/v1/cancellations", {"serial": 6, "num": "Z-1"})
        self.assertEqual((unknown.status, unknown.json["reason"]), (409, "unknown"))
        over = self.post("/v1/sales", {**SALE, "serial": 6, "lines": [{"class": "0", "base": 300001}]})
        self.assertEqual(over.json["reason"], "draft over-simplified 300001")
        self.assertEqual(self.hub.ask("GET", "/v1/last", self.place.till[1]).json, {"till": 1, "serial": 5})
        self.assertEqual(self.hub.ask("GET", "/v1/last", self.place.till[2]).json, {"till": 2, "serial": 0})

    def test_what_the_program_takes_for_no_line(self) -> None:
        cases: Any = (({"kind": "F9"}, "Kind"), ({"serial": 0}, "Number"), ({"lines": []}, "Lines"), ({"lines": [{"class": "22", "total": 1}]}, "Class"),
                             ({"lines": [{"class": "21", "base": 1}] * 13}, "Lines"), ({"lines": [{"class": "21", "total": 1000}] * 7}, "Lines"),
                             ({"lines": [{"class": "21", "total": 9999999999999}]}, "Lines"), ({"series": "A-B"}, "Series"))
        for change, word in cases:
            with self.subTest(change):
                answer = self.post("/v1/sales", {**SALE, **change})
                self.is_problem(answer, 400, "bad-line")
                self.assertEqual(answer.json["word"], word)
        self.assertEqual(self.records(), 0)

    def test_nothing_of_a_field_becomes_another_field_or_line(self) -> None:
        words = ("", "A B", "A\nsale 1 9 A F2 21:1", "A\r", "A\tB", "to=C1", "A=B", "A\x00", "A\x7f", "Ñ", "A\u2028B", "A" * 81)
        names = ("", "Bar\nsale 1 9 A F2 21:1", "Bar\rx", "Bar\x00", "Bar\u0085", "Bar\u2028", "\ud800", "B" * 201)
        bodies: List[Any] = [{**SALE, key: word} for key in ("series", "kind") for word in words]
        bodies += [{**SALE, "lines": [{"class": word, "base": 1}]} for word in words]
        bodies += [{**SALE, "customer": {"nif": word, "name": "Bar"}} for word in words]
        bodies += [{**SALE, "customer": {"nif": "B12345674", "name": name}} for name in names]
        bodies += [{**SALE, "refs": [{"num": word, "date": "2025-01-01"}]} for word in words]
        bodies += [{**SALE, "refs": [{"num": "A-1", "date": word}]} for word in words] + [{**SALE, "rect": word} for word in words]
        bodies += [{**SALE, "serial": number} for number in (1.0, True, "1", None, 10**13)]
        bodies += [{**SALE, "lines": [{"class": "21", "total": number}]} for number in (1.5, False, "1", None, -(10**13))]
        bodies += [{**SALE, "till": 2}, {**SALE, "customers": {"nif": "B12345674", "name": "Bar"}}]
        for body in bodies:
            with self.subTest(str(body)[:200]):
                self.is_problem(self.post("/v1/sales", body), 400, "bad-request")
        for word in ("", "A B", "A=B", "A\n"):
            self.is_problem(self.post("/v1/cancellations", {"serial": 1, "num": word}), 400, "bad-request")
            self.is_problem(self.hub.ask("GET", "/v1/invoices?num=" + word.replace(" ", "%20").replace("\n", "%0A"), self.place.till[1]), 400, "bad-request")
        self.assertEqual((self.records(), self.hub.state()["starts"]), (0, 1))

    def test_bodies_that_are_no_json(self) -> None:
        for body in (b"", b"{", b"[]", b"null", b"\xff\xfe", b'{"serial":1,"serial":2,"num":"A-1"}', b'{"serial":NaN,"num":"A-1"}', b"[" * 60_000):
            with self.subTest(body[:30]):
                self.is_problem(self.post("/v1/cancellations", body), 400, "bad-request")
        self.is_problem(self.post("/v1/cancellations", b" " * 65_537), 413, "too-large")
        self.is_problem(self.post("/v1/sales", SALE, headers={"Content-Encoding": "gzip"}), 400, "bad-request")
        self.assertEqual(self.post("/v1/sales", json.dumps(SALE).encode().ljust(65_536)).status, 201)

    def test_what_is_not_there(self) -> None:
        owner = self.place.owner
        self.is_problem(self.hub.ask("GET", "/v1/invoices?num=A-1", owner), 404, "not-found")
        for path in ("/v2", "/v1/sales/", "/v1/months/", "/v1/months/%7Bmonth%7D", "/v1/days/2025/01", "/page.html", "/../etc/passwd", "/hub_pipe.py"):
            self.is_problem(self.hub.ask("GET", path, owner), 404, "not-found")
        for method, path, allow in (("GET", "/v1/sales", "POST"), ("POST", "/v1/last", "GET, HEAD"), ("DELETE", "/", "GET, HEAD"), ("OPTIONS", "/v1/sales", "POST")):
            answer = self.hub.ask(method, path, owner)
            self.is_problem(answer, 405, "method")
            self.assertEqual(answer.headers["allow"], allow)
        for path in ("/v1/months/2025-1", "/v1/months/01-2025", "/v1/months/2025-13", "/v1/days/2025-01", "/v1/state?x=1", "/v1/invoices",
                     "/v1/invoices?num=A-1&num=A-1", "/v1/invoices?num=A-1&x=1"):
            with self.subTest(path):
                self.is_problem(self.hub.ask("GET", path, owner), 400, "bad-request")


class OwnerTest(OverAHub):
    """What the owner asks."""

    verdicts = "A-2 1 vet 1110"

    def test_the_state_of_a_shop(self) -> None:
        empty = self.hub.state()
        self.assertEqual({key: empty[key] for key in ("issuer", "practice", "records", "noted", "noted_at", "starts", "oldest_waiting", "newest", "refused", "refused_count")},
                         {"issuer": NIF, "practice": False, "records": 0, "noted": 0, "noted_at": None, "starts": 1, "oldest_waiting": None,
                          "newest": [], "refused": [], "refused_count": 0})
        for serial in range(1, 24):
            self.assertEqual(self.post("/v1/sales", {**SALE, "serial": serial}).status, 201)
        self.post("/v1/cancellations", {"serial": 24, "num": "A-1"})
        state = until(lambda: (found := self.hub.state())["noted"] == 24 and found, "all is noted")
        self.assertEqual([row["place"] for row in state["newest"]], list(range(24, 4, -1)))
        self.assertEqual((state["newest"][0]["record"], state["newest"][0]["num"]), ("anulacion", "A-1"))
        self.assertNotIn("total", state["newest"][0])
        self.assertEqual((state["newest"][1]["record"], state["newest"][1]["total"], state["newest"][1]["state"]), ("alta", 1000, "correcto"))
        self.assertRegex(state["noted_at"], r"^\d{4}-\d\d-\d\dT\d\d:\d\d:\d\dZ$")
        refused = until(lambda: self.hub.state()["refused"], "the refused one is listed")
        self.assertEqual([(row["num"], row["state"], row["code"]) for row in refused], [("A-2", "vet", 1110)])
        for first, rows in ((1, refused), (2, [])):
            state = self.hub.ask("GET", f"/v1/state?refused={first}", self.place.owner).json
            self.assertEqual((state["refused"], state["refused_count"]), (rows, 1))
        for query in ("refused=0", "refused=x", "refused=1&refused=1", "refused=1&x=1"):
            self.is_problem(self.hub.ask("GET", f"/v1/state?{query}", self.place.owner), 400, "bad-request")
        day = refused[0]["date"]
        for path in (f"/v1/days/{day}", f"/v1/months/{day[:7]}"):
            sums = self.hub.ask("GET", path, self.place.owner).json
            self.assertEqual((sums["refused"], sums["refused_count"]), (refused, 1))
        sums = self.hub.ask("GET", "/v1/days/2024-01-31", self.place.owner).json
        self.assertEqual((sums["refused"], sums["refused_count"]), ([], 0))

    def test_an_adapter_that_is_for_practice_is_told_in_the_state(self) -> None:
        if Options.program != STAND_IN:
            self.skipTest("the stand-in says it when it is told to")
        self.assertIs(self.hub.state()["practice"], False)
        self.hub.stop()
        self.hub = Hub(self.place, *self.agency.words, environment={**self.agency.environment, "STAND_IN_FOR_PRACTICE": "1"})
        self.addCleanup(self.hub.end)
        until(lambda: self.hub.state()["practice"], "it is told")

    def test_the_sums_of_a_month_and_a_day(self) -> None:
        self.post("/v1/sales", SALE)
        answer = self.post("/v1/sales", {**SALE, "serial": 2, "series": "B", "lines": [{"class": "10+", "base": 10000}]}).json
        day = answer["ticket"]["date"]
        # 8.26 and 1.74 of two lines at 21; 100.00 at 10 with a surcharge of 1.4 percent
        classes = [{"class": "21", "lines": 2, "base": 826, "tax": 174, "surcharge": 0}, {"class": "10+", "lines": 1, "base": 10000, "tax": 1000, "surcharge": 140}]
        for path, key, value in ((f"/v1/months/{day[:7]}", "month", day[:7]), (f"/v1/days/{day}", "day", day)):
            sums = self.hub.ask("GET", path, self.place.owner).json
            self.assertEqual({**sums, "classes": sorted(sums["classes"], key=lambda row: str(row["class"]), reverse=True)},
                             {key: value, "lines": 3, "base": 10826, "tax": 1174, "surcharge": 140, "classes": classes, "refused": [], "refused_count": 0})
        self.assertEqual(self.hub.ask("GET", "/v1/days/2024-01-31", self.place.owner).json["classes"], [])

    def test_the_page_is_the_owners_and_asks_nobody_else(self) -> None:
        basic = {"Authorization": "Basic " + base64.b64encode(f"owner:{self.place.owner}".encode()).decode()}
        for path, kind in (("/", "text/html"), ("/page.css", "text/css"), ("/page.js", "text/javascript")):
            self.assertRegex(self.hub.ask("GET", path).headers["www-authenticate"], "^Basic ")
            self.assertEqual(self.hub.ask("GET", path, self.place.till[1]).status, 403)
            page = self.hub.ask("GET", path, headers=basic)
            self.assertEqual((page.status, page.headers["content-type"]), (200, f"{kind}; charset=utf-8"))
            for source in ("default-src 'none'", "script-src 'self'", "style-src 'self'", "connect-src 'self'", "img-src 'self'"):
                self.assertIn(source, page.headers["content-security-policy"])
            self.assertNotIn(b"://", page.body)
            self.assertNotIn(b"innerHTML", page.body)
        self.assertIn(b'lang="es"', self.hub.ask("GET", "/", headers=basic).body)
        self.assertEqual(self.hub.ask("GET", "/v1/state", headers=basic).status, 200)

    def test_a_browser_is_told_in_spanish_what_is_wrong(self) -> None:
        for token, status, words in (("x", 401, "contraseña no es correcta"), (self.place.till[1], 403, "para el dueño")):
            answer = self.hub.ask("GET", "/", token, headers={"Accept": "text/html,*/*"})
            self.assertEqual((answer.status, answer.headers["content-type"]), (status, "text/html; charset=utf-8"))
            self.assertIn(words, answer.body.decode())
            self.assertIn("default-src 'none'", answer.headers["content-security-policy"])
            self.is_problem(self.hub.ask("GET", "/", token), status, "unauthorized" if status == 401 else "forbidden")
            self.assertIn("json", self.hub.ask("GET", "/v1/state", token, headers={"Accept": "text/html"}).headers["content-type"])

    def test_health(self) -> None:
        self.assertEqual(self.hub.ask("GET", "/health").json, {"status": "ok"})
        self.assertEqual(self.hub.ask("HEAD", "/health").status, 200)
        program = self.hub.program()
        os.kill(program, signal.SIGSTOP)
        time.sleep(1.1)
        self.is_problem(self.hub.ask("GET", "/health"), 503, "unavailable")
        os.kill(program, signal.SIGCONT)
        until(lambda: self.hub.ask("GET", "/health").status == 200, "it answers again")


class WhoTest(OverAHub):
    """Tokens, origins, the log."""

    words = ["--origin", "https://tpv.example", "--origin", "http://localhost:3000"]

    def test_wrong_and_missing_tokens(self) -> None:
        for token in ("", secrets.token_hex(24), self.place.till[1] + "0", self.place.till[1][:-1], "x"):
            answer = self.hub.ask("POST", "/v1/sales", token, SALE)
            self.is_problem(answer, 401, "unauthorized")
            self.assertRegex(answer.headers["www-authenticate"], "^Bearer ")
        for method, path in (("POST", "/v1/sales"), ("POST", "/v1/fixes"), ("POST", "/v1/cancellations"), ("GET", "/v1/last")):
            self.is_problem(self.hub.ask(method, path, self.place.owner, SALE), 403, "forbidden")
        for path in ("/v1/state", "/v1/months/2025-01", "/v1/days/2025-01-31", "/"):
            self.is_problem(self.hub.ask("GET", path, self.place.till[1]), 403, "forbidden")
        self.assertEqual(self.records(), 0)

    def test_the_token_says_which_till_it_is(self) -> None:
        self.assertEqual(self.post("/v1/sales", SALE, till=5).status, 201)
        self.assertEqual(self.hub.ask("GET", "/v1/last", self.place.till[5]).json, {"till": 5, "serial": 1})
        self.assertEqual(self.post("/v1/sales", SALE, till=6).json["answer"], "taken")

    def test_a_new_token_at_sighup_and_a_faulty_file_changes_nothing(self) -> None:
        old, self.place.till[7] = self.place.till[7], secrets.token_hex(24)
        self.place.write_tokens()
        self.assertEqual(self.hub.ask("GET", "/v1/last", old).status, 200)
        self.hub.process.send_signal(signal.SIGHUP)
        until(lambda: self.hub.ask("GET", "/v1/last", self.place.till[7]).status == 200, "the new token is known")
        self.assertEqual(self.hub.ask("GET", "/v1/last", old).status, 401)
        self.place.write_tokens(0o644)
        self.hub.process.send_signal(signal.SIGHUP)
        until(lambda: self.hub.logged("mode 0600 or 0400: the old ones stay"), "the fault is told")
        self.assertEqual(self.hub.ask("GET", "/v1/last", self.place.till[7]).status, 200)

    def test_origins(self) -> None:
        preflight = {"Origin": "https://tpv.example", "Access-Control-Request-Method": "POST", "Access-Control-Request-Headers": "authorization"}
        answer = self.hub.ask("OPTIONS", "/v1/sales", headers=preflight)
        self.assertEqual((answer.status, answer.headers["access-control-allow-origin"]), (204, "https://tpv.example"))
        self.assertIn("Authorization", answer.headers["access-control-allow-headers"])
        sold = self.post("/v1/sales", SALE, headers={"Origin": "http://localhost:3000"})
        self.assertEqual((sold.status, sold.headers["access-control-allow-origin"], sold.headers["vary"]), (201, "http://localhost:3000", "Origin"))
        problem = self.hub.ask("GET", "/v1/last", "x", headers={"Origin": "http://localhost:3000"})
        self.assertEqual((problem.status, problem.headers["access-control-allow-origin"]), (401, "http://localhost:3000"))
        for origin in ("https://tpv.example.evil", "https://tpv.example:444", "http://tpv.example", "null", "https://TPV.example"):
            self.assertNotIn("access-control-allow-origin", self.post("/v1/sales", SALE, headers={"Origin": origin}).headers)
            self.assertEqual(self.hub.ask("OPTIONS", "/v1/sales", headers={**preflight, "Origin": origin}).status, 405)
        for path in ("/health", "/"):
            self.assertNotIn("access-control-allow-origin", self.hub.ask("GET", path, headers={"Origin": "https://tpv.example"}).headers)

    def test_the_log_has_a_line_a_request_and_no_secret(self) -> None:
        body = {**SALE, "kind": "F1", "customer": {"nif": "B12345674", "name": "Secreto SL"}, "lines": [{"class": "21", "base": 77777}]}
        self.assertEqual(self.post("/v1/sales", body, till=9).status, 201)
        self.hub.ask("GET", "/v1/invoices?num=A-1", self.place.owner)
        self.hub.ask("GET", f"/{self.place.owner}")
        self.hub.ask("GET", "/v1/months/%0Aforged", self.place.owner)
        until(lambda: self.hub.logged(r"owner GET /v1/months/"), "the last one is logged")
        stamp = r"^\d{4}-\d\d-\d\dT\d\d:\d\d:\d\d\.\d{3}\+00:00 "
        for line in (r"till 9 POST /v1/sales 201 \d+\.\d$", r"owner GET /v1/invoices 200 \d+\.\d$", r"- GET - 404 \d+\.\d$",
                     r"owner GET /v1/months/\{month\} 400 \d+\.\d$"):
            self.assertTrue(self.hub.logged(stamp + line), (line, self.hub.log))
        text = "\n".join(self.hub.log)
        for secret in ("Secreto", "B12345674", "77777", "A-1", self.place.owner, *self.place.till.values()):
            self.assertNotIn(secret, text)


class WireTest(OverAHub):
    """What comes over the wire."""

    def raw(self, text: bytes, close: bool = False) -> Optional[Answer]:
        """Sends bytes, and reads one answer."""
        with self.hub.connect() as connection:
            connection.sendall(text)
            if close:
                connection.shutdown(socket.SHUT_WR)
            return read_answer(connection)

    def head(self, *fields: str) -> bytes:
        """The head of a sale's request."""
        lines = ["POST /v1/sales HTTP/1.1", "Host: hub", f"Authorization: Bearer {self.place.till[1]}", *fields]
        return "\r\n".join(lines).encode("latin-1") + b"\r\n\r\n"

    def test_chunked_bodies_and_expect(self) -> None:
        body = json.dumps(SALE).encode()
        chunked = b"%x\r\n%s\r\n%x\r\n%s\r\n0\r\n\r\n" % (10, body[:10], len(body) - 10, body[10:])
        answer = self.raw(self.head("Transfer-Encoding: chunked") + chunked)
        self.assertEqual(answer and answer.status, 201)
        with self.hub.connect() as connection:
            connection.sendall(self.head(f"Content-Length: {len(body)}", "Expect: 100-continue"))
            self.assertEqual(connection.recv(100), b"HTTP/1.1 100 Continue\r\n\r\n")
            connection.sendall(body)
            again = read_answer(connection)
        self.assertEqual(again and again.status, 200)

    def test_faulty_heads_and_lengths_sell_nothing(self) -> None:
        body = json.dumps(SALE).encode()
        length = len(body)
        for name, text in {
            "two lengths": self.head(f"Content-Length: {length}", "Content-Length: 5") + body,
            "a length and chunks": self.head(f"Content-Length: {length}", "Transfer-Encoding: chunked") + body,
            "a sign": self.head(f"Content-Length: +{length}") + body,
            "a line": self.head("Content-Length: 1_0") + body,
            "negative": self.head("Content-Length: -1") + body,
            "a field of 9,000 bytes": self.head("X: " + "x" * 9_000, f"Content-Length: {length}") + body,
            "no HTTP": b"hello\r\n\r\n",
            "bad chunks": self.head("Transfer-Encoding: chunked") + b"zz\r\n" + body,
        }.items():
            with self.subTest(name):
                answer = self.raw(text)
                self.assertIsNotNone(answer)
                self.is_problem(answer, 400, "bad-request")  # type: ignore[arg-type]
        large = self.raw(self.head("Transfer-Encoding: chunked") + (b"8000\r\n" + b" " * 0x8000 + b"\r\n") * 3 + b"0\r\n\r\n")
        self.assertEqual(large and large.status, 413)
        self.assertEqual(self.records(), 0)

    def test_requests_that_are_cut_off_sell_nothing(self) -> None:
        body = json.dumps(SALE).encode()
        for text in (self.head(f"Content-Length: {len(body)}")[:60], self.head(f"Content-Length: {len(body)}"),
                     self.head(f"Content-Length: {len(body)}") + body[:-1], self.head("Transfer-Encoding: chunked") + b"5\r\n" + body[:5]):
            with self.subTest(text[-20:]):
                answer = self.raw(text, close=True)
                self.assertNotEqual(answer and answer.status, 201)
        with self.hub.connect() as connection:
            connection.sendall(self.head() + b"X: y\r\n" * 100)
        self.assertEqual((self.records(), self.hub.ask("GET", "/health").status), (0, 200))

    def test_an_endless_head_and_endless_requests_ahead_of_answers_are_cut_off(self) -> None:
        for text in (b"X-Field: %s\r\n" % (b"x" * 1_000), None):
            with self.subTest(text and text[:8]), self.hub.connect() as connection:
                connection.sendall(b"GET /health HTTP/1.1\r\n")
                part = text or b"Host: hub\r\n\r\nGET /health HTTP/1.1\r\n" * 100
                with self.assertRaises(ConnectionError):
                    for _ in range(10_000):
                        connection.sendall(part)

    def test_requests_of_one_connection_are_answered_in_their_order(self) -> None:
        with self.hub.connect() as connection:
            bodies = [json.dumps({**SALE, "serial": serial}).encode() for serial in (1, 2, 3)]
            connection.sendall(b"".join(self.head(f"Content-Length: {len(body)}") + body for body in bodies))
            answers = [read_answer(connection) for _ in bodies]
        self.assertEqual([answer and answer.json["num"] for answer in answers], ["A-1", "A-2", "A-3"])


def make_certificate(place: Place, name: str) -> None:
    """Makes a certificate and a key."""
    subprocess.run(["openssl", "req", "-x509", "-newkey", "ec", "-pkeyopt", "ec_paramgen_curve:P-256", "-nodes", "-days", "2", "-subj", f"/CN={name}",
                    "-addext", f"subjectAltName=DNS:{name}", "-keyout", f"{place.path}/key", "-out", f"{place.path}/cert"], check=True, stderr=subprocess.DEVNULL)


class TlsTest(unittest.TestCase):
    """TLS of the hub's own."""

    def name(self, hub: Hub) -> str:
        """The name of the certificate that the hub shows."""
        text = ssl.get_server_certificate((hub.address, hub.port))
        done = subprocess.run(["openssl", "x509", "-noout", "-subject"], input=text, stdout=subprocess.PIPE, text=True, check=True)
        return done.stdout.rpartition("=")[2].strip()

    def test_a_sale_over_tls_and_a_new_certificate_at_sighup(self) -> None:
        place = Place()
        self.addCleanup(place.remove)
        make_certificate(place, "first")
        hub = Hub(place, "--tls", f"{place.path}/cert", f"{place.path}/key")
        self.addCleanup(hub.end)
        context = ssl.create_default_context(cafile=f"{place.path}/cert")
        body = json.dumps(SALE).encode()
        with socket.create_connection((hub.address, hub.port), timeout=60) as bare, context.wrap_socket(bare, server_hostname="first") as connection:
            head = f"POST /v1/sales HTTP/1.1\r\nHost: first\r\nAuthorization: Bearer {place.till[1]}\r\nContent-Length: {len(body)}\r\n\r\n"
            connection.sendall(head.encode() + body)
            answer = read_answer(connection)
        self.assertEqual(answer and answer.status, 201)
        make_certificate(place, "second")
        hub.process.send_signal(signal.SIGHUP)
        until(lambda: self.name(hub) == "second", "the new certificate is shown")
        with open(f"{place.path}/key", "w", encoding="ascii") as key:
            key.write("no key")
        hub.process.send_signal(signal.SIGHUP)
        until(lambda: hub.logged("the old ones stay"), "the fault is told")
        self.assertEqual(self.name(hub), "second")


class WordsTest(unittest.TestCase):
    """A hub that can't begin says why in one line, with status 2, and touches no file."""

    def test_each_reason(self) -> None:
        place = Place()
        self.addCleanup(place.remove)
        taken = socket.create_server(("127.0.0.1", 0))
        self.addCleanup(taken.close)
        port = taken.getsockname()[1]
        ok = ["--tokens", place.tokens, "--program", Options.program, "--listen", "127.0.0.1:0"]
        os.chmod(os.path.join(place.path), 0o700)
        for words, what in ((ok[:2] + ["--nothing"], "--nothing"), (ok[2:], "--tokens"), (ok + ["--agency", "a", "b"], "--host"),
                            (ok + ["--host", "real"], "--agency"), (ok + ["--host", "other"], "other"), (ok[:4] + ["--listen", f"127.0.0.1:{port}"], str(port)),
                            (ok[:4] + ["--listen", "8730"], "ADDRESS:PORT"), (ok[:4] + ["--listen", "shop.example:8730"], "digits"),
                            (ok + ["--origin", "tpv.example"], "--origin"), (ok + ["--tls", "no", "no"], "--tls"), (["--tokens", "nowhere"] + ok[2:], "nowhere"),
                            (ok[:2] + ["--program", "/nowhere"], "/nowhere"), (ok + ["more"], "more")):
            with self.subTest(words[-3:]):
                self.fails([place.file, NIF, *words], what)
        place.write_tokens(0o644)
        self.fails([place.file, NIF, *ok], "0600")
        self.assertFalse(os.path.exists(place.file))

    def fails(self, words: List[str], what: str) -> None:
        """Runs a hub that has to end with 2 and a line that names `what`."""
        done = subprocess.run([HUB, *words], stderr=subprocess.PIPE, stdout=subprocess.PIPE, text=True, timeout=60, check=False)
        self.assertEqual((done.returncode, done.stdout, done.stderr.count("\n")), (2, "", 1), done.stderr)
        self.assertIn(what, done.stderr)

    def test_each_reason_of_a_hub_of_many(self) -> None:
        street = Street(["a"])
        self.addCleanup(street.remove)
        with open(os.path.join(street.path, "bad"), "w", encoding="ascii") as file:
            file.write("a 1 f to from\n")
        ok = ["--tokens", street.tokens, "--program", Options.program, "--listen", "127.0.0.1:0"]
        many = ["--shops", street.shops]
        for words, what in ((many + ["--agency", "a", "b", "--host", "test"], "--agency"), (many + [street.file("a"), NIF], NIF),
                            (many + ["--idle", "0"], "--idle"), (many + ["--programs", "x"], "--programs"), (["--shops", "/nowhere"], "/nowhere"),
                            (["--shops", f"{street.path}/bad"], "line 1"), ([street.file("a"), NIF, "--idle", "9"], "--shops"),
                            ([street.file("a"), NIF], "line 1")):
            with self.subTest(words):
                done = subprocess.run([HUB, *words, *ok], stderr=subprocess.PIPE, stdout=subprocess.PIPE, text=True, timeout=60, check=False)
                self.assertEqual((done.returncode, done.stdout, done.stderr.count("\n")), (2, "", 1), done.stderr)
                self.assertIn(what, done.stderr)
        self.assertFalse(os.path.exists(street.file("a")))

    def test_an_address_that_is_no_loopback_is_warned_of(self) -> None:
        place = Place()
        self.addCleanup(place.remove)
        hub = Hub(place, address="0.0.0.0:0")
        self.addCleanup(hub.end)
        self.assertTrue(hub.logged("warning: 0.0.0.0"))


class DescriptionTest(OverAHub):
    """openapi.json against the routes, its examples against the hub."""

    def setUp(self) -> None:
        super().setUp()
        self.api: Any = self.hub.ask("GET", "/v1/openapi.json").json
        with open(os.path.join(HERE, "openapi.json"), encoding="utf-8") as file:
            self.assertEqual(self.api, json.load(file))

    def fits(self, value: Any, schema: Any) -> None:
        """Whether a value is of a schema."""
        self.assertIsNone(Description(self.api).misfit(schema, value))

    def test_each_path_and_method_is_described_and_there(self) -> None:
        owner: Dict[str, Any] = {"/v1/months/{month}": "/v1/months/2025-01", "/v1/days/{day}": "/v1/days/2025-01-31"}
        for path, methods in self.api["paths"].items():
            for method in ("get", "post", "put", "delete", "patch"):
                status = self.hub.ask(method.upper(), owner.get(path, path), "x").status
                if path in ELSEWHERE:
                    self.assertEqual(status, 404)
                    continue
                self.assertEqual(status != 405, method in methods, (path, method))
                self.assertNotEqual(status, 404, path)
        with open(os.path.join(HERE, "hub_http.py"), encoding="utf-8") as code:
            routes = set(re.findall(r'^ +"(/[^"]*)": \{"(?:GET|POST)": Route', code.read(), re.MULTILINE)) | {"/", "/page.css", "/page.js"}
        self.assertEqual(routes, set(self.api["paths"]))

    def test_each_example_is_sent_and_each_answer_is_of_its_schema(self) -> None:
        serial = 0
        for path in ("/v1/sales", "/v1/fixes", "/v1/cancellations"):
            post = self.api["paths"][path]["post"]
            content = post["requestBody"]["content"]["application/json"]
            for name, example in content["examples"].items():
                with self.subTest(path=path, example=name):
                    serial += 1
                    self.assertEqual(example["value"]["serial"], serial)
                    self.fits(example["value"], content["schema"])
                    for status in (201, 200):
                        answer = self.post(path, example["value"], till=3)
                        self.assertEqual(answer.status, status, answer.body)
                        self.fits(answer.json, post["responses"][str(status)]["content"]["application/json"]["schema"])
        for path, methods in self.api["paths"].items():
            content = methods.get("get", {}).get("responses", {}).get("200", {}).get("content", {}).get("application/json")
            if content and path not in ELSEWHERE:
                filled, query = self.fill(path, methods["get"].get("parameters", []))
                token = self.place.till[3] if path in ("/v1/last", "/v1/records") else self.place.owner
                answer = self.hub.ask("GET", filled + query, token)
                self.assertEqual(answer.status, 200, answer.body)
                self.fits(answer.json, content["schema"])

    def test_a_faulty_body_is_400_and_described_on_every_path(self) -> None:
        description = Description(self.api)
        for path, methods in self.api["paths"].items():
            for method in {"get", "post"} & set(methods) if path not in ELSEWHERE else ():
                filled, query = self.fill(path, methods[method].get("parameters", []))
                is_tills = method == "post" or path in ("/v1/last", "/v1/records")
                with self.subTest(path):
                    token, headers = self.place.till[3] if is_tills else self.place.owner, {"Content-Encoding": "gzip"}
                    answer = self.hub.ask(method.upper(), filled + query, token, b"x", headers=headers)
                    self.is_problem(answer, 400, "bad-request")
                    self.assertIsNone(description.fault(method.upper(), filled, answer))

    def test_what_may_be_null_says_of_which_type_it_is_else(self) -> None:
        def parts(value: Any) -> Iterator[Any]:
            yield value
            for part in value.values() if isinstance(value, dict) else value if isinstance(value, list) else ():
                yield from parts(part)

        nullable = [part for part in parts(self.api) if isinstance(part, dict) and part.get("nullable") is True]
        self.assertEqual([sorted(part) for part in nullable if "type" not in part], [])
        self.assertEqual(len(nullable), 2)

    def fill(self, path: str, parameters: Any) -> "tuple[str, str]":
        """A path with its example parameters."""
        query = ""
        for parameter in parameters:
            if parameter["in"] == "query":
                query = f"?{parameter['name']}={parameter['example']}"
            path = path.replace("{%s}" % parameter["name"], str(parameter["example"]))
        return path, query

    def test_each_example_of_an_answer_is_of_its_schema_and_each_problem_is_described(self) -> None:
        names = set()
        for response in self.api["components"]["responses"].values():
            if "content" not in response:
                continue  # an answer without a body
            content = response["content"]["application/problem+json"]
            for name, example in content["examples"].items():
                names.add(name)
                self.fits(example["value"], content["schema"])
                self.assertEqual(example["value"]["type"], f"urn:verifactu:{name}")
        with open(os.path.join(HERE, "hub_http.py"), encoding="utf-8") as code:
            self.assertEqual(names, set(re.findall(r'^    "([a-z-]+)": \(\d{3}, ', code.read(), re.MULTILINE)))
        for methods in self.api["paths"].values():
            for operation in methods.values():
                for response in operation["responses"].values():
                    for content in response.get("content", {}).values():
                        for example in content.get("examples", {}).values():
                            self.fits(example["value"], content["schema"])


class FuzzTest(OverAHub):
    """Random requests: whatever is asked, the answer is one that the description has, and fits its schema."""

    def setUp(self) -> None:
        super().setUp()
        self.description = Description(self.hub.ask("GET", "/v1/openapi.json").json)
        self.paths = [path for path in self.description.paths if path not in ELSEWHERE]

    def test_every_answer_fits_its_schema(self) -> None:
        random_ = random.Random(74)
        seen: Counter[str] = Counter()
        connection = http.client.HTTPConnection(self.hub.address, self.hub.port, timeout=60)
        for number in range(5_000 if Options.is_whole() else 500):
            method, path, body, headers = self.request(random_)
            connection.request(method, path, body, headers)
            answer = connection.getresponse()
            told = Answer(answer.status, {name.lower(): value for name, value in answer.getheaders()}, answer.read())
            fault = self.description.fault(method, path.partition("?")[0], told)
            self.assertIsNone(fault, (number, method, path, body, told.status, told.body[:500]))
            seen[str(told.status)] += 1
        connection.close()
        self.assertLessEqual({"200", "400", "401", "403", "404", "405", "413"} | ({"201", "409"} if Options.is_whole() else set()), set(seen), seen)
        self.assertEqual(self.hub.state()["starts"], 1)

    def request(self, random_: random.Random) -> Any:
        """A request: of a path that is there, or of none; by somebody; with a body that is nearly right."""
        path = random_.choice([*self.paths, "/v2", "/v1/months/", "/v1/sales/x"]).replace("{month}", random_.choice(["2025-01", "01-2025", "x"]))
        path = path.replace("{day}", random_.choice(["2025-01-31", "2025-13-01", ""]))
        if path in ("/v1/invoices", "/v1/records") or random_.random() < 0.1:
            path += random_.choice(["?num=A-1", "?num=Z-9", "?num=", "?serial=1", "?serial=x", "?x=1", ""])
        method = random_.choice(["POST"] * 5 + ["DELETE"] if "s" in path[-5:] and random_.random() < 0.8 else ["GET"] * 5 + ["HEAD", "POST", "PUT"])
        token = random_.choice([self.place.till[1], self.place.till[2], self.place.owner, "x" * 40])
        headers = {} if random_.random() < 0.1 else {"Authorization": f"Bearer {token}"}
        body = None if method in ("GET", "HEAD") and random_.random() < 0.9 else self.body(random_)
        return method, path, body, headers

    def body(self, random_: random.Random) -> bytes:
        """A sale, a fix or a cancellation with something wrong in it, or nothing."""
        value: Dict[str, Any] = {"serial": random_.randrange(0, 60)}
        value.update(random_.choice([{"series": "A"}, {"num": "A-1"}, {"num": "Q-1"}, {"series": "A", "num": "A-1"}]))
        if random_.random() < 0.8:
            line = {"class": random_.choice(["21", "10+", "99", "", 1]), random_.choice(["base", "total", "sum"]): random_.choice([1000, -5, 10**14, "1", None])}
            value.update(kind=random_.choice(["F2", "F2", "F2", "F1", "F3", "R5", "F9", 2]), lines=[random_.choice([line, {"class": "21", "total": 1000}])])
        if random_.random() < 0.2:
            value[random_.choice(["customer", "rect", "refs", "more"])] = random_.choice([None, "S", [], {"nif": "B12345674", "name": "Bar"}, [{"num": "A-1", "date": "2025-01-01"}]])
        text = json.dumps(value).encode()
        return random_.choice([text] * 12 + [text[:-1], b"", b"null", b" " * 70_000, b"\xff" * 10])


class Description:
    """openapi.json, as a judge of answers."""

    def __init__(self, api: Any) -> None:
        self.api = api
        self.paths: Dict[str, Any] = api["paths"]
        self.judges: Dict[str, Any] = {}

    def schema(self, schema: Any) -> Any:
        """An OpenAPI 3.0 schema as JSON Schema: references resolved, `nullable` said by a type."""
        if isinstance(schema, list):
            return [self.schema(part) for part in schema]
        if not isinstance(schema, dict):
            return schema
        if "$ref" in schema:
            return self.schema(self.resolve(schema))
        parts = {key: self.schema(value) for key, value in schema.items() if key != "nullable"}
        return {"anyOf": [parts, {"type": "null"}]} if schema.get("nullable") is True else parts

    def resolve(self, value: Any) -> Any:
        """What a reference names, or the value itself."""
        if "$ref" not in value:
            return value
        found = self.api
        for key in value["$ref"].split("/")[1:]:
            found = found[key]
        return found

    def pattern(self, path: str) -> str:
        """The described path that a path is of, or none."""
        parent = path.rpartition("/")[0]
        found = {"/v1/months": "/v1/months/{month}", "/v1/days": "/v1/days/{day}"}.get(parent, path)
        return found if found in self.paths else ""

    def fault(self, method: str, path: str, answer: Answer) -> Optional[str]:
        """What of an answer isn't described, None where all is."""
        operations = self.paths.get(self.pattern(path), {})
        operation = operations.get("get" if method == "HEAD" else method.lower())
        problems = self.api["components"]["responses"]
        elsewhere = {"405": problems["Method"]} if operations and not path.endswith("s/") else {"404": problems["NotFound"]}
        responses = elsewhere if operation is None else operation["responses"]
        if str(answer.status) not in responses:
            return "the status isn't described"
        content = self.resolve(responses[str(answer.status)]).get("content", {})
        kind = answer.headers.get("content-type", "").partition(";")[0]
        if not content and not answer.body:
            return None
        if kind not in content:
            return f"the content {kind} isn't described"
        return None if method == "HEAD" or "json" not in kind else self.misfit(content[kind]["schema"], answer.json)

    def misfit(self, schema: Any, value: Any) -> Optional[str]:
        """Why a value isn't of a schema."""
        key = json.dumps(schema)
        if key not in self.judges:
            self.judges[key] = jsonschema.Draft7Validator(self.schema(schema))
        return next((str(error.message) for error in self.judges[key].iter_errors(value)), None)


if __name__ == "__main__":
    unittest.main()
