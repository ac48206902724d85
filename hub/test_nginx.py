"""nginx by the examples of docs/HUB.md and docs/HOSTING.md, in clear: what it says by itself is in this API's JSON."""
from __future__ import annotations

import http.client
import json
import os
import re
import shutil
import socket
import subprocess
import tempfile
import threading
import time
import unittest
from typing import Any, Dict, List, Optional, Tuple

from trying import HERE, Answer, read_answer, until


def free_port() -> int:
    """A port that was free a moment ago."""
    with socket.create_server(("127.0.0.1", 0)) as server:
        return int(server.getsockname()[1])


class Machine:
    """A hub's place: it says nothing for so many seconds, and then hangs up or answers."""

    def __init__(self, seconds: float, text: bytes) -> None:
        self.server = socket.create_server(("127.0.0.1", 0), backlog=256)
        self.port = int(self.server.getsockname()[1])
        self.seconds, self.text = seconds, text
        self.count = 0
        threading.Thread(target=self._serve, daemon=True).start()

    def _serve(self) -> None:
        while True:
            try:
                connection, _ = self.server.accept()
            except OSError:
                return
            self.count += 1
            threading.Thread(target=self._answer, args=(connection,), daemon=True).start()

    def _answer(self, connection: socket.socket) -> None:
        with connection:
            connection.recv(65_536)
            time.sleep(self.seconds)
            connection.sendall(self.text)


class NginxTest(unittest.TestCase):
    """Each example, over a machine that a test puts there."""

    def setUp(self) -> None:
        if shutil.which("nginx") is None:
            self.skipTest("nginx isn't there")
        folder = tempfile.TemporaryDirectory(prefix="verifactu-nginx-")
        self.addCleanup(folder.cleanup)
        self.path = folder.name
        os.chmod(self.path, 0o755)  # its workers are of another user
        self.port = free_port()

    def start(self, page: str, changes: Dict[str, str]) -> None:
        """Runs nginx by a page's example, in clear at a port of its own."""
        with open(os.path.join(HERE, "..", "docs", page), encoding="utf-8") as text:
            found = re.search(r"```nginx\n(.*?)```", text.read(), re.DOTALL)
        assert found is not None
        example = re.sub(r" +ssl_certificate(_key)? .*\n", "", found[1]).replace("listen 443 ssl", f"listen 127.0.0.1:{self.port}")
        for old, new in changes.items():
            self.assertIn(old, example)
            example = example.replace(old, new)
        lines = ["daemon off;", "worker_processes 1;", f"pid {self.path}/pid;", f"error_log {self.path}/error.log;", "events {}", "http {",
                 "access_log off;", example, "}"]
        with open(f"{self.path}/nginx.conf", "w", encoding="utf-8") as file:
            file.write("\n".join(lines))
        nginx = subprocess.Popen(["nginx", "-c", f"{self.path}/nginx.conf", "-e", f"{self.path}/error.log"])
        self.addCleanup(nginx.wait)
        self.addCleanup(nginx.terminate)
        until(self.listens, "nginx listens", 20)

    def listens(self) -> bool:
        """Whether it does."""
        try:
            socket.create_connection(("127.0.0.1", self.port)).close()
            return True
        except OSError:
            return False

    def start_hub_page(self, port: int, seconds: int = 1) -> None:
        """The example of docs/HUB.md over a hub at this port, for whose answer nginx waits so long."""
        self.start("HUB.md", {"127.0.0.1:8730": f"127.0.0.1:{port}", "proxy_read_timeout 40s": f"proxy_read_timeout {seconds}s"})

    def start_hosting_page(self, port: int, seconds: int = 1) -> None:
        """The example of docs/HOSTING.md over one machine at this port."""
        with open(f"{self.path}/machines", "w", encoding="ascii") as file:
            file.write("bar-sol a;\n")
        self.start("HOSTING.md", {"10.0.0.11:8730": f"127.0.0.1:{port}", "10.0.0.12:8730": f"127.0.0.1:{port}", "proxy_read_timeout 40s": f"proxy_read_timeout {seconds}s",
                                  "/etc/nginx/verifactu-machines": f"{self.path}/machines"})

    def ask(self, method: str, path: str, body: Optional[bytes] = None, headers: Optional[Dict[str, str]] = None) -> Answer:
        """A request to nginx."""
        connection = http.client.HTTPConnection("127.0.0.1", self.port, timeout=30)
        try:
            connection.request(method, path, body, headers or {})
            answer = connection.getresponse()
            return Answer(answer.status, {name.lower(): value for name, value in answer.getheaders()}, answer.read())
        finally:
            connection.close()

    def is_problem(self, answer: Optional[Answer], status: int, name: str) -> None:
        """Whether it is this problem, as the hub would say it."""
        assert answer is not None
        self.assertEqual((answer.status, answer.headers.get("content-type")), (status, "application/problem+json"), answer.body)
        self.assertEqual((answer.json["type"], answer.json["status"]), (f"urn:verifactu:{name}", status))
        self.assertTrue(answer.json["title"] and answer.json["detail"])
        self.assertEqual(answer.headers.get("retry-after"), "2" if status == 503 else None)

    def no_http(self) -> Optional[Answer]:
        """The answer to what isn't HTTP."""
        with socket.create_connection(("127.0.0.1", self.port), timeout=30) as connection:
            connection.sendall(b"POST /v1/sales HTTP/1.1\r\nHost: a\r\nContent-Length: -1\r\n\r\n")
            return read_answer(connection)

    def says_problems(self, prefix: str) -> None:
        """What nginx says where the hub is down, or the request too much for it."""
        self.is_problem(self.ask("POST", f"{prefix}/v1/sales", b"{}"), 503, "unavailable")
        self.is_problem(self.ask("POST", f"{prefix}/v1/sales", b" " * 100_000), 413, "too-large")
        self.is_problem(self.ask("GET", f"{prefix}/v1/last", headers={"X-Long": "x" * 60_000}), 400, "bad-request")
        self.is_problem(self.no_http(), 400, "bad-request")

    def is_cut_short(self, prefix: str, start: Any) -> None:
        """A machine that hangs up (502), and one that is silent (504)."""
        for machine in (Machine(0, b""), Machine(30, b"")):
            self.addCleanup(machine.server.close)
            self.port = free_port()
            start(machine.port)
            self.is_problem(self.ask("POST", f"{prefix}/v1/sales", b"{}"), 503, "unavailable")
            self.assertEqual(machine.count, 1)  # nginx never asks by itself again

    def takes_64_tills(self, prefix: str, start: Any) -> None:
        """As many tills as a shop may have, all from one address, and the owner beside them."""
        text = b'{"till":1,"serial":0}'
        machine = Machine(0.8, b"HTTP/1.1 200 OK\r\nContent-Type: application/json\r\nConnection: close\r\nContent-Length: %d\r\n\r\n%s" % (len(text), text))
        self.addCleanup(machine.server.close)
        start(machine.port, 40)
        answers: List[Tuple[int, Any]] = []

        def ask() -> None:
            answer = self.ask("GET", f"{prefix}/v1/last")
            answers.append((answer.status, answer.json))

        threads = [threading.Thread(target=ask) for _ in range(70)]
        for thread in threads:
            thread.start()
        for thread in threads:
            thread.join(60)
        self.assertEqual({status for status, _ in answers}, {200}, json.dumps(answers))
        self.assertEqual(len(answers), 70)

    def test_the_example_of_hub(self) -> None:
        self.start_hub_page(free_port())
        self.says_problems("")

    def test_the_example_of_hub_over_machines_that_fail(self) -> None:
        self.is_cut_short("", self.start_hub_page)

    def test_the_example_of_hub_takes_64_tills(self) -> None:
        self.takes_64_tills("", self.start_hub_page)

    def test_the_example_of_hosting(self) -> None:
        self.start_hosting_page(free_port())
        self.says_problems("/shops/bar-sol")
        for path in ("/shops/nobody/v1/last", "/v1/last", "/", "/index.html"):
            self.is_problem(self.ask("GET", path), 404, "not-found")

    def test_the_example_of_hosting_over_machines_that_fail(self) -> None:
        self.is_cut_short("/shops/bar-sol", self.start_hosting_page)

    def test_the_example_of_hosting_takes_64_tills(self) -> None:
        self.takes_64_tills("/shops/bar-sol", self.start_hosting_page)


if __name__ == "__main__":
    unittest.main()
