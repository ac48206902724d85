#!/usr/bin/python3
"""Tills of several machines, and a page for the owner, over one `verifactu serve`, or over those of many shops. docs/HUB.md says how it is
used, docs/HOSTING.md how for many shops.

    verifactu-hub FILE NIF --tokens TOKENS [--agency TO FROM] [--host real|test] [--listen ADDRESS:PORT] [--tls CERT KEY]
                  [--origin ORIGIN].. [--program PATH] [--faults SEED]
    verifactu-hub --shops SHOPS --tokens TOKENS [--host real|test] [--idle SECONDS] [--programs N] [--listen ADDRESS:PORT] [--tls CERT KEY]
                  [--origin ORIGIN].. [--program PATH]

Status 2 where it can't begin, else that of the program: docs/COMMANDS.md lists these. With --shops it is 0 after a stop.
"""
from __future__ import annotations

import argparse
import asyncio
import ipaddress
import os
import re
import resource
import signal
import socket
import ssl
import sys
from dataclasses import dataclass
from typing import Any, Dict, FrozenSet, List, NamedTuple, NoReturn, Optional, Tuple, Union

from hub_faults import Faults
from hub_hosting import Many
from hub_http import Hub
from hub_limits import (
    ANSWER_WITHIN, BACKLOG, HANDLES_OF_A_PROGRAM, IDLE, LAST_ANSWERS, LAST_LINES, LONGEST_IDLE, MOST_CONNECTIONS, MOST_CONNECTIONS_OF_MANY,
    MOST_PROGRAMS, MOST_SEED, PROGRAMS, SPARE_HANDLES,
)
from hub_log import Log
from hub_pipe import BadLine, Shop, Unavailable, tell
from hub_served import One
from hub_shops import ShopLine, ShopsFault, counted, read_shops
from hub_tokens import Tokens, TokensFault, read_tokens

STATUS_USAGE = 2
LISTEN = "127.0.0.1:8730"
ORIGIN = re.compile(r"(https?)://(\[[0-9a-f:.]+\]|[a-z0-9.-]+)(?::([1-9][0-9]{0,4}))?", re.ASCII)
LABEL = re.compile(r"[a-z0-9]([a-z0-9-]{0,61}[a-z0-9])?", re.ASCII)  # of a host's name
PORTS = {"http": 80, "https": 443}
CIPHERS = "ECDHE+AESGCM:ECDHE+CHACHA20"  # of TLS 1.2: those with forward secrecy, that nobody has broken
PROGRAM = "/usr/bin/verifactu"


class WordsFault(Exception):
    """The hub can't begin; the text says why."""


class Words(argparse.ArgumentParser):
    """A parser that raises its complaint."""

    def error(self, message: str) -> NoReturn:
        raise WordsFault(message)


@dataclass(frozen=True)
class Settings:
    """The words of the command line: `one` is the shop of a hub of one, `shops` the file of shops of a hub of many."""

    one: Optional[ShopLine]
    shops: str
    idle: int
    programs: int
    tokens: str
    host: str  # empty where it isn't said
    address: str
    port: int
    tls: Optional[Tuple[str, str]]
    origins: FrozenSet[str]
    program: str
    faults: Optional[int]  # the seed of a hub on which tills are tried

    @property
    def most_connections(self) -> int:
        """Connections that there may be."""
        return MOST_CONNECTIONS if self.one else MOST_CONNECTIONS_OF_MANY


def read_words(words: List[str]) -> Settings:
    """Reads the command line, or raises WordsFault."""
    are_many = any(word == "--shops" or word.startswith("--shops=") for word in words)
    found = _parser(are_many).parse_args(words)
    one = None if are_many else _read_one(found)
    if are_many and found.agency:
        raise WordsFault("--shops takes no --agency: the lines of SHOPS have TO and FROM")
    if found.faults is not None and (are_many or found.agency):
        raise WordsFault("--faults is for a trial of one shop: it takes neither --agency nor --shops")
    address, port = _read_listen(found.listen)
    return Settings(one, found.shops or "", found.idle or IDLE, found.programs or PROGRAMS, found.tokens, found.host or "", address, port,
                    _pair(found.tls), frozenset(map(_read_origin, found.origin)), found.program, found.faults)


def _parser(are_many: bool) -> Words:
    parser = Words(prog="verifactu-hub", allow_abbrev=False, description="Tills of several machines over one verifactu serve, or those of many shops.")
    if not are_many:
        parser.add_argument("file", metavar="FILE", help="of one shop")
        parser.add_argument("nif", metavar="NIF", help="its issuer's")
    parser.add_argument("--shops", metavar="SHOPS", help="in place of FILE and NIF: a file of many shops (docs/HOSTING.md)")
    parser.add_argument("--idle", type=_whole(LONGEST_IDLE), metavar="SECONDS")
    parser.add_argument("--programs", type=_whole(MOST_PROGRAMS), metavar="N")
    parser.add_argument("--tokens", required=True, metavar="TOKENS")
    parser.add_argument("--agency", nargs=2, metavar=("TO", "FROM"))
    parser.add_argument("--host", choices=("real", "test"))
    parser.add_argument("--listen", default=LISTEN, metavar="ADDRESS:PORT")
    parser.add_argument("--tls", nargs=2, metavar=("CERT", "KEY"))
    parser.add_argument("--origin", action="append", default=[], metavar="ORIGIN")
    parser.add_argument("--program", default=PROGRAM, metavar="PATH")
    parser.add_argument("--faults", type=_whole(MOST_SEED), metavar="SEED", help="tries tills: loses answers on purpose, and says what each did wrong")
    return parser


def _read_one(found: argparse.Namespace) -> ShopLine:
    if found.idle or found.programs:
        raise WordsFault("--idle and --programs need --shops")
    if found.agency and not found.host:
        raise WordsFault("--agency needs --host real or --host test")
    if found.host == "real" and not found.agency:
        raise WordsFault("--host real needs --agency")
    return ShopLine("", found.nif, found.file, _pair(found.agency))


def _whole(most: int) -> Any:
    def read(text: str) -> int:
        if not text.isascii() or not text.isdecimal() or not 1 <= int(text) <= most:
            raise argparse.ArgumentTypeError(f"{text} is no whole number from 1 to {most}")
        return int(text)

    return read


def _pair(words: Optional[List[str]]) -> Optional[Tuple[str, str]]:
    return (words[0], words[1]) if words else None


def _read_listen(text: str) -> Tuple[str, int]:
    address, colon, port = text.rpartition(":")
    if not colon or not port.isascii() or not port.isdecimal() or int(port) > 65535:
        raise WordsFault(f"--listen {text} is no ADDRESS:PORT")
    try:
        return str(ipaddress.ip_address(address.strip("[]"))), int(port)
    except ValueError:
        raise WordsFault(f"--listen {text} has no address in digits") from None


def _read_origin(text: str) -> str:
    """An origin as a browser sends it: in lower case, and without a port that is its scheme's own."""
    found = ORIGIN.fullmatch(text)
    if not found or not _is_host(found[2]) or found[3] is not None and (int(found[3]) > 65535 or int(found[3]) == PORTS[found[1]]):
        raise WordsFault(f"--origin {text} is no SCHEME://HOST or SCHEME://HOST:PORT, as a browser sends it")
    return text


def _is_host(text: str) -> bool:
    if not text.startswith("["):
        return all(LABEL.fullmatch(label) for label in text.split("."))
    try:
        return f"[{ipaddress.IPv6Address(text[1:-1])}]" == text
    except ValueError:
        return False


def read_tls(tls: Tuple[str, str], into: Optional[ssl.SSLContext] = None) -> ssl.SSLContext:
    """Reads certificate and key; into a context that serves already only once a new one took them."""
    context = ssl.SSLContext(ssl.PROTOCOL_TLS_SERVER)
    context.minimum_version = ssl.TLSVersion.TLSv1_2
    context.set_ciphers(CIPHERS)
    try:
        context.load_cert_chain(*tls)
        if into is not None:
            into.load_cert_chain(*tls)
    except (OSError, ValueError) as fault:  # an SSLError is an OSError
        raise WordsFault(f"--tls {' '.join(tls)}: {fault.strerror or fault}" if isinstance(fault, OSError) else str(fault)) from None
    return into or context


def bind(address: str, port: int) -> socket.socket:
    """A socket at the address, not listening yet."""
    family = socket.AF_INET6 if ":" in address else socket.AF_INET
    listening = socket.socket(family, socket.SOCK_STREAM)
    listening.setsockopt(socket.SOL_SOCKET, socket.SO_REUSEADDR, 1)
    try:
        listening.bind((address, port))
        listening.listen(BACKLOG)
    except OSError as fault:
        raise WordsFault(f"--listen {address}:{port}: {fault.strerror}") from None
    return listening


def raise_handles(connections: int, programs: int) -> int:
    """Raises the limit of file handles as far as it goes, and gives how many of so many connections that allows beside so many programs."""
    soft, hard = resource.getrlimit(resource.RLIMIT_NOFILE)
    taken = HANDLES_OF_A_PROGRAM * programs
    wanted = 4 * connections + taken
    most = wanted if hard == resource.RLIM_INFINITY else min(hard, wanted)
    if soft == resource.RLIM_INFINITY or soft >= most:
        most = wanted if soft == resource.RLIM_INFINITY else soft
    else:
        resource.setrlimit(resource.RLIMIT_NOFILE, (most, hard))
    return max(1, min(connections, most - SPARE_HANDLES - BACKLOG - taken))


def check_handles(programs: int) -> None:
    """Whether the limit of file handles allows so many programs; else WordsFault."""
    needed = HANDLES_OF_A_PROGRAM * programs + 2 * (SPARE_HANDLES + BACKLOG)
    hard = resource.getrlimit(resource.RLIMIT_NOFILE)[1]
    if hard != resource.RLIM_INFINITY and hard < needed:
        raise WordsFault(f"--programs {programs} needs {needed} file handles, and the limit is {hard} (ulimit -n, LimitNOFILE=)")


def notify(state: str) -> None:
    """Tells systemd, where it asks to be told."""
    path = os.environ.get("NOTIFY_SOCKET", "")
    if path:
        with socket.socket(socket.AF_UNIX, socket.SOCK_DGRAM) as told:
            try:
                told.sendto(state.encode(), "\0" + path[1:] if path.startswith("@") else path)
            except OSError as fault:
                tell(f"NOTIFY_SOCKET: {fault.strerror}")


class Service:
    """The hub while it runs: what each signal does."""

    def __init__(self, prepared: "Prepared") -> None:
        self.settings = settings = prepared.settings
        self.context = prepared.context
        self.listening = prepared.listening
        self.shops: Union[One, Many]
        if settings.one is not None:
            self.shops = One(settings.one, settings.host or "test", settings.program)
        else:
            self.shops = Many(prepared.shops, settings.host, settings.program, settings.idle, settings.programs)
        handles = raise_handles(settings.most_connections, 0 if settings.one else settings.programs)
        self.faults = Faults(settings.faults, settings.one.file) if settings.faults is not None and settings.one is not None else None
        self.hub = Hub(self.shops, prepared.tokens, settings.origins, handles, self.faults)
        if isinstance(self.shops, Many):
            self.hub.figures = _figures(self.shops)
        self.stopped = asyncio.Event()
        self.is_ready = False  # whether systemd was told
        self.hung_up = asyncio.Event()  # a SIGHUP came

    async def run(self) -> int:
        """Serves until the program has ended for good, and gives its status."""
        loop = asyncio.get_running_loop()
        for number in (signal.SIGTERM, signal.SIGINT):
            loop.add_signal_handler(number, self.stop)
        loop.add_signal_handler(signal.SIGHUP, self.hung_up.set)
        if HungUp.came:
            self.hung_up.set()
        connections = self.hub.connections
        tasks = [loop.create_task(work) for work in (connections.accept_for_ever(self.listening, self.context), connections.close_late(),
                                                     self.read_for_ever(), self.tell_ready())]
        self.shops.start()
        await self.end()
        self.listening.close()
        for task in tasks:
            task.cancel()
        return self.shops.ended.result()

    async def end(self) -> None:
        """Waits for a signal or the program's end; then answers what is under way, and closes the pipe."""
        stop: "asyncio.Future[Any]" = asyncio.ensure_future(self.stopped.wait())
        ended: "asyncio.Future[Any]" = self.shops.ended
        await asyncio.wait({stop, ended}, return_when=asyncio.FIRST_COMPLETED)
        stop.cancel()
        self.hub.stopping = True
        await self.hub.wait_until_answered(ANSWER_WITHIN + LAST_ANSWERS)
        self.shops.close()
        await asyncio.wait({self.shops.ended})
        await self.hub.wait_until_answered(LAST_ANSWERS)
        if self.faults is not None:
            self.faults.tell_all()

    async def tell_ready(self) -> None:
        """Tells systemd once the program has answered, or at once where it is one of many."""
        try:
            await self.shops.wait_until_ready()
            self.is_ready = True
            notify("READY=1")
        except (Unavailable, BadLine) as fault:
            tell(f"the program didn't answer at the beginning: {fault}")

    def stop(self) -> None:
        """The first signal stops it in order, a second one kills the program. Where tills are tried one ahead puts the older copy in place."""
        if self.faults is not None and self.faults.has_older and isinstance(self.shops, One):
            self.trying = asyncio.get_running_loop().create_task(self.put_older_back(self.faults, self.shops.shop))
        elif self.stopped.is_set():
            self.shops.kill()
        else:
            notify("STOPPING=1")
            self.stopped.set()

    async def put_older_back(self, faults: Faults, shop: Shop) -> None:
        """Has tills tried over an older copy of the chain; what is under way is answered before."""
        faults.is_older, self.hub.stopping = True, True
        await self.hub.wait_until_answered(ANSWER_WITHIN + LAST_ANSWERS)
        await faults.put_back(shop)
        self.hub.stopping = False

    async def read_for_ever(self) -> None:
        """Reads all again at each SIGHUP, beside the loop: there may be very many shops. systemd is told when that begins and ends."""
        while True:
            await self.hung_up.wait()
            self.hung_up.clear()
            if self.is_ready:
                notify("RELOADING=1")
            try:
                self.take(await asyncio.get_running_loop().run_in_executor(None, self.read_again))
            except (TokensFault, ShopsFault, WordsFault) as fault:
                tell(f"{fault}: the old ones stay")
            if self.is_ready:
                notify("READY=1")

    def read_again(self) -> "Again":
        """Tokens, shops and certificate anew. Where one of them can't be read nothing changes."""
        tokens = read_tokens(self.settings.tokens, self.settings.one is None)
        lines = read_shops(self.settings.shops, self.settings.host != "") if isinstance(self.shops, Many) else {}
        if self.settings.tls and self.context:
            read_tls(self.settings.tls, self.context)
        return Again(tokens, lines, unserved(tokens, lines))

    def take(self, again: "Again") -> None:
        """Serves by what was read."""
        self.hub.tokens = again.tokens
        tell("read again: tokens" + (" and certificate" if self.context else ""))
        if isinstance(self.shops, Many):
            tell("read again: " + self.shops.take(again.lines))
            tell_unserved(again.unserved)


def _figures(shops: Many) -> Any:
    from hub_metrics import figures_of  # which a hub of one shop doesn't need

    figures = figures_of(shops)
    if figures is None:
        tell("warning: python3-prometheus-client isn't there: no figures at /metrics")
    return figures


def unserved(tokens: Tokens, shops: Dict[str, ShopLine]) -> List[str]:
    """The shops that have a token and aren't served here: they may be another hub's, or mistyped."""
    return sorted(tokens.shops() - set(shops))


def tell_unserved(names: List[str]) -> None:
    """Says which these are."""
    if names:
        tell(f"tokens name {counted(len(names))} not served here: {', '.join(names[:5])}" + (", .." if names[5:] else ""))


class HungUp:
    """Whether a SIGHUP came before the hub could read its files again."""

    came = False

    @classmethod
    def note(cls, *_: Any) -> None:
        """What the signal does until then."""
        cls.came = True


class Again(NamedTuple):
    """What was read at a SIGHUP."""

    tokens: Tokens
    lines: Dict[str, ShopLine]
    unserved: List[str]


@dataclass(frozen=True)
class Prepared:
    """All that a hub begins with."""

    settings: Settings
    tokens: Tokens
    shops: Dict[str, ShopLine]
    context: Optional[ssl.SSLContext]
    listening: socket.socket


def prepare(words: List[str]) -> Prepared:
    """All that can be wrong before a program is started."""
    settings = read_words(words)
    tokens = read_tokens(settings.tokens, settings.one is None)
    shops = {} if settings.one else read_shops(settings.shops, settings.host != "")
    if not settings.one:
        check_handles(settings.programs)
    if not os.path.isfile(settings.program) or not os.access(settings.program, os.X_OK):
        raise WordsFault(f"--program {settings.program}: no program there")
    context = read_tls(settings.tls) if settings.tls else None
    return Prepared(settings, tokens, shops, context, bind(settings.address, settings.port))


async def serve(prepared: Prepared) -> int:
    """Runs the hub."""
    return await Service(prepared).run()


def watch_ends() -> None:
    """Has the ends of programs told by file handles and not by a thread a program, which newer Pythons do by themselves."""
    if sys.version_info < (3, 12) and hasattr(os, "pidfd_open"):
        try:
            os.close(os.pidfd_open(os.getpid()))
        except OSError:
            return  # a kernel without
        asyncio.set_child_watcher(asyncio.PidfdChildWatcher())


def tell_beginning(prepared: Prepared) -> None:
    """Where it listens, and what it serves."""
    settings, port = prepared.settings, prepared.listening.getsockname()[1]
    listening = f"listening at {settings.address}:{port}"
    if settings.one:
        trial = ", a trial: practice agency" if settings.one.is_trial else ""
        tell(listening + trial + ("" if settings.faults is None else f", and faults by the seed {settings.faults}"))
        return
    trials = sum(line.is_trial for line in prepared.shops.values())
    tell(f"{listening}, {counted(len(prepared.shops))}" + (f", trials among them: {trials}, practice agency" if trials else ""))
    tell_unserved(unserved(prepared.tokens, prepared.shops))


def main() -> int:
    """The hub's status."""
    signal.signal(signal.SIGHUP, HungUp.note)
    log = sys.stderr = Log(sys.stderr.fileno())  # type: ignore[assignment]
    try:
        return begin(sys.argv[1:])
    except (WordsFault, TokensFault, ShopsFault) as fault:
        tell(str(fault))
        return STATUS_USAGE
    finally:
        log.finish(LAST_LINES)


def begin(words: List[str]) -> int:
    """Serves by these words, and gives the status; or says by a fault why it can't begin."""
    prepared = prepare(words)
    settings = prepared.settings
    if settings.tls is None and not ipaddress.ip_address(settings.address).is_loopback:
        tell(f"warning: {settings.address} is no loopback and there is no --tls: tokens and sales go over the network in clear")
    os.umask(0o077)
    tell_beginning(prepared)
    if not settings.one:
        watch_ends()
    return asyncio.run(serve(prepared))


if __name__ == "__main__":
    sys.exit(main())
