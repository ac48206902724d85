"""A hub under attack, or with a careless host: connections before the handshake, a log that nobody reads, signals at a bad moment."""
from __future__ import annotations

import asyncio
import fcntl
import json
import os
import re
import signal
import socket
import ssl
import subprocess
import sys
import threading
import time
import unittest
from collections import Counter
from typing import Any, List

import hub_limits
import hub_log
import hub_served
import hub_shops
from test_requests import SALE, OverAHub, make_certificate
from trying import HUB, PYTHON, Hub, Options, Place, Street, read_answer, until


def answers(port: int) -> bool:
    """Whether a hub answers there."""
    try:
        with socket.create_connection(("127.0.0.1", port), timeout=10) as line:
            line.sendall(b"GET /health HTTP/1.1\r\nHost: hub\r\n\r\n")
            answer = read_answer(line)
            return answer is not None and answer.status == 200
    except OSError:
        return False


class HandshakeTest(unittest.TestCase):
    """Connections that never finish TLS's handshake."""

    def setUp(self) -> None:
        self.place = Place()
        self.addCleanup(self.place.remove)
        make_certificate(self.place, "shop")
        self.context = ssl.create_default_context(cafile=f"{self.place.path}/cert")

    def hub(self, *prefix: str) -> Hub:
        """A hub with TLS."""
        hub = Hub(self.place, "--tls", f"{self.place.path}/cert", f"{self.place.path}/key", prefix=prefix)
        self.addCleanup(hub.end)
        return hub

    def sells(self, hub: Hub, serial: int) -> None:
        """Whether a till sells over TLS."""
        body = json.dumps({**SALE, "serial": serial}).encode()
        head = f"POST /v1/sales HTTP/1.1\r\nHost: shop\r\nAuthorization: Bearer {self.place.till[1]}\r\nContent-Length: {len(body)}\r\n\r\n"
        with socket.create_connection((hub.address, hub.port), timeout=60) as bare, self.context.wrap_socket(bare, server_hostname="shop") as line:
            line.sendall(head.encode() + body)
            answer = read_answer(line)
        self.assertEqual(answer and answer.status, 201)

    def test_a_failed_handshake_is_one_line(self) -> None:
        hub = self.hub()
        for text in (b"", b"GET / HTTP/1.1\r\nHost: shop\r\n\r\n", b"\x16\x03\x01\x00\x05hello", os.urandom(500)):
            with socket.create_connection((hub.address, hub.port), timeout=60) as line:
                line.sendall(text)
                line.shutdown(socket.SHUT_WR)
                line.settimeout(20)
                try:
                    while line.recv(1000):
                        pass
                except ConnectionError:
                    pass
        self.sells(hub, 1)
        until(lambda: len([line for line in hub.log if "TLS" in line]) >= 3, "the failures are told", 20)
        text = "\n".join(hub.log)
        self.assertNotIn("Traceback", text)
        self.assertLessEqual(len([line for line in hub.log if "TLS" in line]), 4, text)

    def test_silent_connections_before_the_handshake_count_and_tills_sell(self) -> None:
        hub = self.hub("prlimit", "--nofile=900:900")  # so 580 connections
        lines: List[socket.socket] = []
        stop = threading.Event()

        def flood() -> None:
            while not stop.is_set() and len(lines) < 3_000:
                try:
                    lines.append(socket.create_connection((hub.address, hub.port), timeout=5))
                except OSError:
                    pass
                time.sleep(0.001)

        flooding = threading.Thread(target=flood)
        flooding.start()
        try:
            for serial in range(1, 21):
                self.sells(hub, serial)
                time.sleep(0.05)
            until(lambda: len(lines) >= 1_000, "a thousand were opened", 60)
            handles = len(os.listdir(f"/proc/{hub.process.pid}/fd"))
        finally:
            stop.set()
            flooding.join()
            for line in lines:
                line.close()
        self.assertLess(handles, 700)
        self.assertLess(hub.memory(), 100_000)
        self.sells(hub, 21)
        self.assertNotIn("Traceback", "\n".join(hub.log))
        told = [line for line in hub.log if "TLS" in line]
        self.assertLess(len(told), len(lines) + 10, Counter(told).most_common(5))  # at most one each
        self.assertFalse([line for line in told if line.endswith("TLS: ")])

    def test_only_what_has_forward_secrecy_is_spoken(self) -> None:
        hub = self.hub()
        for cipher, is_taken in (("ECDHE-ECDSA-AES128-GCM-SHA256", True), ("AES128-SHA", False), ("ECDHE-ECDSA-AES128-SHA", False)):
            context = ssl.create_default_context(cafile=f"{self.place.path}/cert")
            context.maximum_version = ssl.TLSVersion.TLSv1_2
            context.set_ciphers(cipher + ":@SECLEVEL=0")
            with self.subTest(cipher), socket.create_connection((hub.address, hub.port), timeout=60) as bare:
                try:
                    context.wrap_socket(bare, server_hostname="shop").close()
                    taken = True
                except (ssl.SSLError, ConnectionError):
                    taken = False
                self.assertEqual(taken, is_taken)
        code = "import sys; sys.path.insert(0, sys.argv[1]); import verifactu_hub as v; print([c['name'] for c in v.read_tls(sys.argv[2:4]).get_ciphers()])"
        words = [PYTHON, "-c", code, os.path.dirname(HUB), f"{self.place.path}/cert", f"{self.place.path}/key"]
        names = subprocess.run(words, stdout=subprocess.PIPE, text=True, check=True).stdout
        for name in eval(names):  # what Python printed of a list of texts
            self.assertRegex(name, r"^(TLS_|ECDHE-)")


class LogTest(unittest.TestCase):
    """Standard error, whose reader stalls."""

    def test_a_log_that_nobody_reads_freezes_nothing(self) -> None:
        place = Place()
        self.addCleanup(place.remove)
        reading, writing = os.pipe()
        fcntl.fcntl(writing, fcntl.F_SETPIPE_SZ, 4096)
        with socket.create_server(("127.0.0.1", 0)) as free:
            port = int(free.getsockname()[1])
        process = subprocess.Popen([HUB, *place.words, "--listen", f"127.0.0.1:{port}", "--program", Options.program], stderr=writing)
        os.close(writing)
        self.addCleanup(os.close, reading)
        self.addCleanup(process.wait)
        self.addCleanup(process.kill)
        until(lambda: answers(port), "it answers", 60)
        for _ in range(200):
            self.assertTrue(answers(port))
        process.terminate()
        self.assertEqual(process.wait(60), 0)

    def test_what_was_dropped_is_counted(self) -> None:
        reading, writing = os.pipe()
        self.addCleanup(os.close, reading)
        self.addCleanup(os.close, writing)
        log = hub_log.Log(writing)
        lines = 3 * hub_limits.MOST_LOG // 100
        for _ in range(lines):
            log.write("x" * 99 + "\n")
        told, whole, dropped = b"", 0, 0
        while whole + dropped < lines:  # each that isn't written is counted, in one line or several
            told += os.read(reading, 65_536)
            whole = told.count(b"x" * 99 + b"\n")
            dropped = sum(map(int, re.findall(rb"verifactu-hub: (\d+) lines of this log were dropped", told)))
        self.assertEqual(whole + dropped, lines)
        self.assertGreater(dropped, lines // 4)
        log.write("and on\n")
        log.finish(10)
        self.assertTrue(os.read(reading, 1_000).endswith(b"and on\n"))


class UrlTest(OverAHub):
    """Paths that are no paths."""

    def test_a_faulty_url_is_400(self) -> None:
        for target in ("http://[::1/health", "http://[/"):
            with self.subTest(target), self.hub.connect() as line:
                line.sendall(f"GET {target} HTTP/1.1\r\nHost: hub\r\n\r\n".encode())
                answer = read_answer(line)
                assert answer is not None
                self.is_problem(answer, 400, "bad-request")
        self.assertFalse([line for line in self.hub.log if "Traceback" in line or "aiohttp" in line])
        self.assertEqual(self.hub.ask("GET", "/health").status, 200)


class QueueTest(unittest.TestCase):
    """A till's queue, while its program rests."""

    def test_a_till_keeps_its_queue_while_a_request_of_its_arrives(self) -> None:
        async def work() -> None:
            served = hub_served.Served(hub_shops.ShopLine("a", "1", "/nowhere", None), "test")
            queue = served.queue(1)
            queue.under_way += 1  # its body is on the way, and no request of the shop's has arrived whole
            served.end()
            self.assertIs(served.queue(1), queue)
            queue.under_way -= 1
            async with queue.turn:
                served.end()
                self.assertIs(served.queue(1), queue)
            served.end()
            self.assertIsNot(served.queue(1), queue)

        asyncio.run(work())


class SignalTest(unittest.TestCase):
    """SIGHUP at a bad moment, and over many shops."""

    def test_a_sighup_before_the_hub_listens_does_not_end_it(self) -> None:
        code = ("import os, runpy, signal, sys\nsys.argv = sys.argv[1:]\nsys.path.insert(0, os.path.dirname(sys.argv[0]))\n"
                "import verifactu_hub as hub\nprepare = hub.prepare\n"
                "def late(words):\n    os.kill(os.getpid(), signal.SIGHUP)\n    return prepare(words)\n"
                "hub.prepare = late\nserve = hub.serve\n"
                "async def later(prepared):\n    os.kill(os.getpid(), signal.SIGHUP)\n    return await serve(prepared)\n"
                "hub.serve = later\nsys.exit(hub.main())\n")
        place = Place()
        self.addCleanup(place.remove)
        words = [PYTHON, "-c", code, HUB, *place.words, "--listen", "127.0.0.1:0", "--program", Options.program]
        process = subprocess.Popen(words, stderr=subprocess.PIPE, text=True)
        self.addCleanup(process.kill)
        assert process.stderr is not None
        told = process.stderr.readline()
        self.assertIn("listening at", told)
        port = int(told.partition("127.0.0.1:")[2].partition(",")[0])
        until(lambda: answers(port), "it answers")
        process.terminate()
        self.assertEqual(process.wait(60), 0)
        process.stderr.close()

    def test_a_sighup_over_many_shops_holds_no_request_up(self) -> None:
        count = 100_000
        street = Street(["a"])
        self.addCleanup(street.remove)
        street.lines.update({f"s{number}": f"s{number} 89890001K {street.path}/s{number}.chain" for number in range(count)})
        street.till.update({(f"s{number}", 1): f"{number:048d}" for number in range(count)})
        street.write()
        hub = Hub(street)
        self.addCleanup(hub.end)
        until(lambda: hub.ask("GET", "/health").status == 200, "it answers")
        street.lines["b"] = f"b 89890001K {street.path}/b.chain"
        street.write()
        hub.process.send_signal(signal.SIGHUP)
        longest, began = 0.0, time.monotonic()
        while not hub.logged(rf"read again: {count + 2} shops") and time.monotonic() < began + 100:
            asked = time.monotonic()
            self.assertEqual(hub.ask("GET", "/health").status, 200)
            longest = max(longest, time.monotonic() - asked)
        self.assertTrue(hub.logged(rf"read again: {count + 2} shops, 1 new"))
        self.assertLess(longest, (time.monotonic() - began) / 2)


class OriginTest(unittest.TestCase):
    """Origins that no browser sends."""

    def test_a_faulty_origin_is_a_faulty_word(self) -> None:
        place = Place()
        self.addCleanup(place.remove)
        for origin in ("https://*.a", "*", "https://a.example:x", "https://a.example:0", "https://a.example:70000", "https://A.example", "https://a b",
                       "https://a.example/", "https://a?x", "https://u@a.example", "https://", "https://a..b", "https://[::1", "http://-a.example",
                       "https://a.example:443", "http://a.example:80"):
            with self.subTest(origin):
                words = [HUB, *place.words, "--program", Options.program, "--listen", "127.0.0.1:0", "--origin", origin]
                done = subprocess.run(words, stderr=subprocess.PIPE, text=True, timeout=30, check=False)
                self.assertEqual((done.returncode, done.stderr.count("\n")), (2, 1), done.stderr)
                self.assertIn("--origin", done.stderr)
        sys.path.insert(0, os.path.dirname(HUB))
        import verifactu_hub

        read: Any = verifactu_hub._read_origin
        for origin in ("https://tpv.example", "http://localhost:3000", "http://127.0.0.1:8080", "https://[::1]:8443", "https://xn--caf-dma.example"):
            self.assertEqual(read(origin), origin)


if __name__ == "__main__":
    unittest.main()
