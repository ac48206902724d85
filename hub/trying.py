"""What the hub's tests share: places with tokens and files, a running hub over the program that is tried, and clients."""
from __future__ import annotations

import http.client
import json
import os
import re
import secrets
import shutil
import signal
import socket
import subprocess
import tempfile
import threading
import time
from typing import Any, Dict, List, Optional, Tuple

HERE = os.path.dirname(os.path.realpath(__file__))
HUB = os.path.join(HERE, "verifactu_hub.py")
STAND_IN = os.path.join(HERE, "stand_in.py")
ADAPTER = os.path.join(HERE, "..", "examples", "agency", "agency.py")
PYTHON = "/usr/bin/python3"
NIF = "89890001K"
PATIENCE = 120  # seconds for what a busy machine may be slow to do


class Options:
    """What the command line of the tests says."""

    program = STAND_IN
    sales = 200  # of each of 64 tills

    @classmethod
    def is_whole(cls) -> bool:
        """Whether tests are to have their whole size."""
        return cls.sales >= 200


def until(true: Any, what: str, seconds: float = PATIENCE) -> Any:
    """Waits until `true()` gives something that counts as true, and gives it."""
    end = time.monotonic() + seconds
    while time.monotonic() < end:
        found = true()
        if found:
            return found
        time.sleep(0.01)
    raise AssertionError(f"not within {seconds} seconds: {what}")


class Answer:
    """An HTTP answer; `json` is its body where that is JSON."""

    def __init__(self, status: int, headers: Dict[str, str], body: bytes) -> None:
        self.status = status
        self.headers = headers
        self.body = body
        self.json: Any = json.loads(body) if "json" in headers.get("content-type", "") and body else None

    @property
    def name(self) -> str:
        """The problem's name."""
        return str(self.json["type"]).rpartition(":")[2]


class Place:
    """A folder with a file of tokens: tills 1 to 64 and the owner."""

    def __init__(self) -> None:
        self.path = tempfile.mkdtemp(prefix="verifactu-hub-")
        self.file = os.path.join(self.path, "shop.chain")
        self.tokens = os.path.join(self.path, "tokens")
        self.till = {number: secrets.token_hex(24) for number in range(1, 65)}
        self.owner = secrets.token_hex(24)
        self.write_tokens()

    def write_tokens(self, mode: int = 0o600) -> None:
        """Writes the file of tokens anew."""
        lines = [f"till {number} {token}" for number, token in self.till.items()] + [f"owner {self.owner}"]
        with open(self.tokens, "w", encoding="ascii") as file:
            file.write("# tokens\n\n" + "\n".join(lines) + "\n")
        os.chmod(self.tokens, mode)

    @property
    def words(self) -> List[str]:
        """A hub's words for it."""
        return [self.file, NIF, "--tokens", self.tokens]

    def run(self, *words: str) -> Tuple[int, str]:
        """Runs a command of the program that is tried."""
        return run_program(*words)

    def remove(self) -> None:
        """Removes it all."""
        shutil.rmtree(self.path, ignore_errors=True)


def run_program(*words: str) -> Tuple[int, str]:
    """Runs a command of the program that is tried: its status, and what it printed."""
    done = subprocess.run([Options.program, *words], stdin=subprocess.DEVNULL, stdout=subprocess.PIPE, text=True, check=False)
    return done.returncode, done.stdout


class Street:
    """A folder with many shops, all of one issuer: the files SHOPS and TOKENS, and a token for each till, each owner and the host."""

    def __init__(self, names: List[str], tills: int = 1) -> None:
        self.path = tempfile.mkdtemp(prefix="verifactu-hosting-")
        self.shops = os.path.join(self.path, "shops")
        self.tokens = os.path.join(self.path, "tokens")
        self.lines = {name: f"{name} {NIF} {self.file(name)}" for name in names}
        self.till: Dict[Tuple[str, int], str] = {}
        self.owner: Dict[str, str] = {}
        self.host = secrets.token_hex(24)
        for name in names:
            self.add_tokens(name, tills)
        self.write()

    def file(self, name: str) -> str:
        """The file of a shop."""
        return os.path.join(self.path, f"{name}.chain")

    def add_tokens(self, name: str, tills: int = 1) -> None:
        """Tokens for a shop's tills and owner."""
        self.till.update({(name, number): secrets.token_hex(24) for number in range(1, tills + 1)})
        self.owner[name] = secrets.token_hex(24)

    def write(self) -> None:
        """Writes both files anew."""
        with open(self.shops, "w", encoding="utf-8") as file:
            file.write("# shops\n\n" + "".join(f"{line}\n" for line in self.lines.values()))
        lines = [f"till {name} {number} {token}" for (name, number), token in self.till.items()]
        lines += [f"owner {name} {token}" for name, token in self.owner.items()] + [f"host {self.host}"]
        with open(os.open(self.tokens, os.O_WRONLY | os.O_CREAT | os.O_TRUNC, 0o600), "w", encoding="ascii") as file:
            file.write("\n".join(lines) + "\n")

    @property
    def words(self) -> List[str]:
        """A hub's words for it."""
        return ["--shops", self.shops, "--tokens", self.tokens]

    def remove(self) -> None:
        """Removes it all."""
        shutil.rmtree(self.path, ignore_errors=True)


class Agency:
    """A practice agency that answers at once: the adapter of examples/agency, or the stand-in's own by environment."""

    def __init__(self, place: Place, verdicts: str = "") -> None:
        self.words: List[str] = ["--agency", os.path.join(place.path, "to"), os.path.join(place.path, "from"), "--host", "test"]
        self.environment = {"STAND_IN_VERDICTS": verdicts, "STAND_IN_PAUSE": "0.05"}
        self.adapter: Optional[subprocess.Popen[bytes]] = None
        if Options.program != STAND_IN:
            for name in self.words[1:3]:
                os.mkfifo(name, 0o600)
            state = os.path.join(place.path, "agency")
            self.adapter = subprocess.Popen([PYTHON, ADAPTER, "--verdicts", verdicts, "--state", state, *self.words[1:3]])

    def end(self) -> None:
        """Ends the adapter."""
        if self.adapter is not None:
            self.adapter.kill()
            self.adapter.wait()


class Hub:
    """A hub that runs, at a port of its own. Its log is read as it comes."""

    def __init__(self, place: Any, *words: str, program: str = "", prefix: Tuple[str, ...] = (), environment: Optional[Dict[str, str]] = None,
                 address: str = "127.0.0.1:0") -> None:
        self.place = place  # a Place or a Street
        command = [*prefix, HUB, *place.words, "--listen", address, "--program", program or Options.program, *words]
        self.log: List[str] = []
        self.process = subprocess.Popen(command, stderr=subprocess.PIPE, text=True, env={**os.environ, **(environment or {})})
        self.reader = threading.Thread(target=self._read, daemon=True)
        self.reader.start()
        listening = until(lambda: self.logged(r"listening at (.*):(\d+)"), "the hub listens")
        self.address, self.port = listening[1].strip("[]"), int(listening[2])

    def _read(self) -> None:
        assert self.process.stderr is not None
        for line in self.process.stderr:
            self.log.append(line.rstrip("\n"))

    def logged(self, pattern: str) -> Optional["re.Match[str]"]:
        """The first line of the log in which a pattern is found."""
        return next((found for found in map(re.compile(pattern).search, list(self.log)) if found), None)

    def ask(self, method: str, path: str, token: str = "", body: Any = None, headers: Optional[Dict[str, str]] = None) -> Answer:
        """A request on a connection of its own; a body that isn't bytes is sent as JSON."""
        connection = http.client.HTTPConnection(self.address, self.port, timeout=PATIENCE)
        sent = dict(headers or {})
        if token:
            sent["Authorization"] = f"Bearer {token}"
        if body is not None and not isinstance(body, bytes):
            body = json.dumps(body).encode()
        try:
            connection.request(method, path, body, sent)
            answer = connection.getresponse()
            return Answer(answer.status, {name.lower(): value for name, value in answer.getheaders()}, answer.read())
        finally:
            connection.close()

    def sell(self, till: int, serial: int, total: int = 1000, **more: Any) -> Answer:
        """A sale at a shelf price, of series T and the till's number."""
        body = {"serial": serial, "series": f"T{till}", "kind": "F2", "lines": [{"class": "21", "total": total}], **more}
        return self.ask("POST", "/v1/sales", self.place.till[till], body)

    def state(self) -> Any:
        """`/v1/state`."""
        return self.ask("GET", "/v1/state", self.place.owner).json

    def connect(self) -> socket.socket:
        """A bare connection."""
        return socket.create_connection((self.address, self.port), timeout=PATIENCE)

    def programs(self) -> List[int]:
        """The process ids of `serve` below this hub."""
        found = []
        for name in os.listdir("/proc"):
            if name.isdecimal() and _is_serve(int(name), self.process.pid):
                found.append(int(name))
        return found

    def program(self) -> int:
        """The process id of its program, once it runs."""
        return int(until(self.programs, "the program runs")[0])

    def kill_program(self) -> None:
        """Kills the program, once one runs."""
        try:
            os.kill(self.program(), signal.SIGKILL)
        except ProcessLookupError:
            pass

    def memory(self) -> int:
        """The hub's greatest memory so far, in kilobytes."""
        with open(f"/proc/{self.process.pid}/status", encoding="utf-8") as status:
            return next(int(line.split()[1]) for line in status if line.startswith("VmHWM"))

    def stop(self, number: int = signal.SIGTERM) -> int:
        """Stops it by a signal, and gives its status."""
        self.process.send_signal(number)
        return self.wait()

    def wait(self) -> int:
        """Its status, once it has ended."""
        status = self.process.wait(PATIENCE)
        self.reader.join(PATIENCE)
        if self.process.stderr is not None:
            self.process.stderr.close()
        return status

    def end(self) -> None:
        """Ends it at once, if it still runs."""
        if self.process.poll() is None:
            self.process.kill()
        self.wait()


def _is_serve(process: int, parent: int) -> bool:
    try:
        with open(f"/proc/{process}/stat", encoding="utf-8") as stat:
            fields = stat.read().rpartition(")")[2].split()
        with open(f"/proc/{process}/cmdline", "rb") as words:
            return int(fields[1]) == parent and fields[0] != "Z" and b"\0serve\0" in words.read()
    except (FileNotFoundError, ProcessLookupError):
        return False


def read_answer(connection: socket.socket) -> Optional[Answer]:
    """Reads an answer from a bare connection, and nothing of the next one; None where it was closed without one."""
    head = b""
    while not head.endswith(b"\r\n\r\n"):
        try:
            data = connection.recv(1)
        except ConnectionResetError:
            data = b""
        if not data:
            return None
        head += data
    first, *fields = head.decode("latin-1").strip().split("\r\n")
    headers = {name.lower(): value.strip() for name, _, value in (field.partition(":") for field in fields)}
    body, length = b"", int(headers.get("content-length", 0))
    while len(body) < length:
        data = connection.recv(length - len(body))
        if not data:
            return None
        body += data
    return Answer(int(first.split()[1]), headers, body)
