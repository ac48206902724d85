"""What may stand between a till and its hub: a proxy that answers some requests by itself, for the tests of clients."""
from __future__ import annotations

import http.client
import threading
from http.server import BaseHTTPRequestHandler, ThreadingHTTPServer
from typing import Any, List, NamedTuple, Optional, Tuple


class Lie(NamedTuple):
    """What is answered in place of the hub: `is_done` says whether the hub was asked before."""

    is_done: bool
    status: int
    kind: str
    text: str


HTML = "<html><body><h1>{}</h1></body></html>"
LIES = [
    Lie(True, 502, "text/html", HTML.format("502 Bad Gateway")),
    Lie(False, 504, "text/html", HTML.format("504 Gateway Time-out")),
    Lie(False, 500, "application/json", '{"message":"Internal server error"}'),
    Lie(False, 500, "application/problem+json", '{"type":"urn:verifactu:unavailable","title":"t","status":500,"detail":"d"}'),
    Lie(False, 599, "application/json", "{}"),
    Lie(False, 200, "text/html", HTML.format("Welcome to this hotel")),
    Lie(False, 200, "application/json", "{}"),
    Lie(False, 200, "application/json", '{"serial":1}'),
    Lie(False, 404, "application/json", '{"record":{}}'),
    Lie(False, 302, "text/html", HTML.format("Sign in")),
    Lie(False, 400, "text/html", HTML.format("400 Bad Request")),
    Lie(False, 404, "text/html", HTML.format("404 Not Found")),
    Lie(False, 403, "application/json", '{"error":"forbidden"}'),
    Lie(False, 413, "text/html", HTML.format("413 Request Entity Too Large")),
]


class Handler(BaseHTTPRequestHandler):
    """One connection."""

    protocol_version = "HTTP/1.1"

    def do_GET(self) -> None:
        self._pass(None)

    def do_POST(self) -> None:
        self._pass(self.rfile.read(int(self.headers.get("Content-Length", 0))))

    def _pass(self, body: Optional[bytes]) -> None:
        between: Between = self.server.between  # type: ignore[attr-defined]
        between.paths.append(self.path)
        lie = between.lies.pop(0) if body is not None and between.lies else None
        if lie is None or lie.is_done:
            told = self._ask(between.hub, body)
        if lie is not None:
            told = lie.status, lie.kind, lie.text.encode()
        self._answer(*told)

    def _ask(self, hub: int, body: Optional[bytes]) -> Tuple[int, str, bytes]:
        connection = http.client.HTTPConnection("127.0.0.1", hub, timeout=60)
        connection.request(self.command, self.path, body, {"Authorization": self.headers.get("Authorization", "")})
        answer = connection.getresponse()
        told = answer.status, answer.getheader("Content-Type") or "", answer.read()
        connection.close()
        return told

    def _answer(self, status: int, kind: str, text: bytes) -> None:
        try:
            self.send_response(status)
            self.send_header("Content-Type", kind)
            self.send_header("Content-Length", str(len(text)))
            if status == 302:
                self.send_header("Location", "/sign-in")
            self.end_headers()
            self.wfile.write(text)
        except OSError:
            pass  # the till has hung up

    def log_message(self, format: str, *args: Any) -> None:
        """Nothing is logged."""


class Between:
    """A proxy in front of a hub's port. The next sales that are asked are answered by `lies`, one after another; all else is the hub's."""

    def __init__(self, hub: int, lies: Optional[List[Lie]] = None) -> None:
        self.hub = hub
        self.lies = list(lies or [])
        self.paths: List[str] = []
        self.server = ThreadingHTTPServer(("127.0.0.1", 0), Handler)
        self.server.between = self  # type: ignore[attr-defined]
        self.port = int(self.server.server_address[1])
        threading.Thread(target=self.server.serve_forever, daemon=True).start()

    def end(self) -> None:
        """Ends it."""
        self.server.shutdown()
        self.server.server_close()
