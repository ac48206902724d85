"""HTTP: routes, problems, order and number of a till's requests, the log. docs/HUB.md and openapi.json describe what is answered."""
from __future__ import annotations

import asyncio
import html
import json
import os
import re
import sys
import traceback
from dataclasses import dataclass
from datetime import datetime, timezone
from typing import TYPE_CHECKING, Any, Awaitable, Callable, Dict, FrozenSet, List, Optional, Tuple, Union
from urllib.parse import quote

from aiohttp import web

from hub_books import Books
from hub_connections import Connection, Connections
from hub_forms import (
    BadRequest, Command, NoMemory, Receipt, Refused, Values, last_line, parting_line, read_command, read_day, read_month,
    read_serial, read_word, record_line, serial_line, ticket_line,
)
from hub_hosting import NOT_SERVED, Many
from hub_limits import ANSWER_WITHIN, LONGEST_SHOP, MOST_BODY, MOST_LINES, MOST_PASSED_OVER, MOST_UNDER_WAY
from hub_pipe import BadLine, Shop, Unavailable, tell
from hub_served import One, Queue, Served
from hub_tokens import Asker, Tokens

if TYPE_CHECKING:
    from hub_faults import Faults
    from hub_metrics import Figures

PREFIX = re.compile(r"(/shops/([a-z0-9-]{1,%d}))(/.*)?" % LONGEST_SHOP, re.DOTALL)  # of a path that names one of many shops
PREFLIGHT_AGE = 600  # seconds for which a browser keeps a preflight's answer

FOLDER = os.path.dirname(os.path.realpath(__file__))
PAGE = {"/": ("page.html", "text/html"), "/page.css": ("page.css", "text/css"), "/page.js": ("page.js", "text/javascript")}
POLICY = ("default-src 'none'; script-src 'self'; style-src 'self'; connect-src 'self'; img-src 'self' data:; "
          "base-uri 'none'; form-action 'none'; frame-ancestors 'none'")
METHODS = ("GET", "HEAD", "POST", "OPTIONS", "PUT", "DELETE", "PATCH")

# status, title
PROBLEMS: Dict[str, Tuple[int, str]] = {
    "bad-request": (400, "No request of this form"),
    "bad-line": (400, "The program takes no such line"),
    "unauthorized": (401, "No token that is known"),
    "forbidden": (403, "Not for this token"),
    "not-found": (404, "Nothing there"),
    "method": (405, "No such method here"),
    "refused": (409, "Refused"),
    "serial-used": (409, "The serial has another record"),
    "too-large": (413, "Too large"),
    "too-many": (429, "Too many requests under way"),
    "unavailable": (503, "Not answered: ask the same again"),
}
# what a browser shows in place of the owner's page
WORDS = {
    401: "La contraseña no es correcta. El usuario es <b>owner</b>. Vuelva a cargar la página y escríbala otra vez.",
    403: "Con esta contraseña no se puede ver esta página: es para el dueño de la tienda.",
    503: "El programa de facturas no contesta: las cajas no pueden vender ahora. Vuelva a cargar la página dentro de un minuto; si sigue "
         "igual, avise a su técnico.",
}
RETRY_AFTER = {"too-many": "1", "unavailable": "2"}  # seconds


def _json(values: Any) -> bytes:
    return json.dumps(values, separators=(",", ":")).encode()


class Problem(Exception):
    """An answer of RFC 9457: one of PROBLEMS, what is wrong, and further members and header fields."""

    def __init__(self, name: str, detail: str, members: Optional[Values] = None, headers: Optional[Dict[str, str]] = None) -> None:
        super().__init__(detail)
        self.name = name
        self.detail = detail
        self.members = members or {}
        self.headers = headers or {}

    def response(self) -> web.Response:
        """The answer."""
        status, title = PROBLEMS[self.name]
        values = {"type": f"urn:verifactu:{self.name}", "title": title, "status": status, "detail": self.detail, **self.members}
        headers = {"Content-Type": "application/problem+json", **self.headers}
        if self.name in RETRY_AFTER:
            headers["Retry-After"] = RETRY_AFTER[self.name]
        return web.Response(status=status, body=_json(values), headers=headers)


def answer_json(values: Any, status: int = 200, headers: Optional[Dict[str, str]] = None) -> web.Response:
    """An answer in JSON."""
    return web.Response(status=status, body=_json(values), headers={"Content-Type": "application/json", **(headers or {})})


class Moved(Exception):
    """The path is another one, which the text names."""


class Limit:
    """Until when a request must be answered: what runs under it ends with Unavailable after so many seconds, and says why where it is known."""

    def __init__(self, seconds: float, served: Optional[Served] = None) -> None:
        self.seconds = seconds
        self.served = served
        self.late = False

    def __enter__(self) -> None:
        task = asyncio.current_task()
        assert task is not None
        self.task = task
        self.timer = asyncio.get_running_loop().call_later(self.seconds, self._end)

    def _end(self) -> None:
        self.late = True
        self.task.cancel()

    def __exit__(self, kind: Any, fault: Any, trace: Any) -> None:
        self.timer.cancel()
        if self.late and kind is asyncio.CancelledError:
            getattr(self.task, "uncancel", int)()  # from Python 3.11 on
            trouble = self.served.trouble if self.served is not None else ""
            raise Unavailable(f"not answered in {self.seconds:g} seconds" + (f": {trouble}" if trouble else ""))


@dataclass(frozen=True)
class Place:
    """Where a path leads: the prefix that names a shop, if it has one, the shop's name, the path after it, the pattern that the routes
    have of it, and what stands in the place of the pattern's parameter."""

    prefix: str
    name: str
    path: str
    pattern: str
    rest: str


@dataclass
class Asking:
    """A request that arrived whole, who asks, and at which shop. `books` are there where its program is asked."""

    request: web.BaseRequest
    asker: Optional[Asker]
    served: Optional[Served]
    body: bytes
    query: Tuple[Tuple[str, str], ...]
    place: Place
    books: Optional[Books] = None


Handler = Callable[[Asking], Awaitable[web.Response]]


@dataclass(frozen=True)
class Route:
    """What answers a method of a path, and who may ask it (nobody: anybody may)."""

    handler: Handler
    tills: bool = False
    owner: bool = False
    host: bool = False

    @property
    def is_open(self) -> bool:
        return not (self.tills or self.owner or self.host)

    def is_for(self, asker: Asker) -> bool:
        """Whether this one may ask it."""
        return self.host if asker.is_host else self.owner if asker.is_owner else self.tills


class Hub:
    """One shop over HTTP, or many."""

    def __init__(self, shops: Union[One, Many], tokens: Tokens, origins: FrozenSet[str], most_connections: int,
                 faults: "Optional[Faults]" = None) -> None:
        self.shops = shops
        self.faults = faults
        self.tokens = tokens
        self.origins = origins
        self.loop = asyncio.get_running_loop()
        self.host_queue = Queue()
        self.figures: Optional[Figures] = None
        self.stopping = False
        self.under_way = 0  # requests that arrived whole and whose answer isn't made
        self.files = {path: _read_file(name) for path, (name, _) in PAGE.items()}
        self.description = _read_file("openapi.json")
        self.routes = self._routes()
        self.connections = Connections(self.answer, _faulty, self._log, most_connections, MOST_BODY)

    def _routes(self) -> Dict[str, Dict[str, Route]]:
        routes: Dict[str, Dict[str, Route]] = {
            "/v1/sales": {"POST": Route(self._sale, tills=True)},
            "/v1/fixes": {"POST": Route(self._fix, tills=True)},
            "/v1/cancellations": {"POST": Route(self._cancel, tills=True)},
            "/v1/last": {"GET": Route(self._last, tills=True)},
            "/v1/invoices": {"GET": Route(self._invoice, tills=True, owner=True)},
            "/v1/records": {"GET": Route(self._record, tills=True)},
            "/v1/state": {"GET": Route(self._state, owner=True)},
            "/v1/months/{month}": {"GET": Route(self._month, owner=True)},
            "/v1/days/{day}": {"GET": Route(self._day, owner=True)},
            "/v1/openapi.json": {"GET": Route(self._describe)},
            "/health": {"GET": Route(self._health)},
            "/metrics": {"GET": Route(self._metrics, host=True)},
            "/v1/faults": {"GET": Route(self._faults, owner=True)},
        }
        if not self.shops.are_many:
            del routes["/metrics"]
        if self.faults is None:
            del routes["/v1/faults"]
        for path in PAGE:
            routes[path] = {"GET": Route(self._page_of(path), owner=True)}
        return routes

    # ---- a request

    async def answer(self, request: web.BaseRequest) -> web.StreamResponse:
        """Answers a request: what is raised becomes a problem."""
        request["began"] = self.loop.time()
        request["inner"] = ""
        try:
            request["inner"] = self._inner(request.path)
            response: web.Response = await self._answer(request)
        except Problem as problem:
            response = problem.response()
        except Moved as to:
            response = web.Response(status=308, headers={"Location": str(to)})
        except BadRequest as fault:
            response = Problem("bad-request", str(fault)).response()
        except BadLine as line:
            response = Problem("bad-line", f"the program's word is {line.word}", {"word": line.word}).response()
        except Unavailable as fault:
            response = Problem("unavailable", str(fault)).response()
        except Exception:
            sys.stderr.write(traceback.format_exc())
            response = Problem("unavailable", "the hub failed").response()
        if self.faults is not None:
            response = await self.faults.deliver(request, response)
        _say_in_spanish(request, response)
        if not await _pass_over(request) or response.status == PROBLEMS["too-large"][0]:
            response.force_close()
        self._finish(request, response)
        return response

    def _finish(self, request: web.BaseRequest, response: web.Response) -> None:
        """The header fields of every answer."""
        response.headers["Cache-Control"] = "no-store"
        response.headers["Server"] = "verifactu-hub"
        response.headers["X-Content-Type-Options"] = "nosniff"
        if self.origins and request["inner"].startswith("/v1/"):
            response.headers["Vary"] = "Origin"
            if request.headers.get("Origin") in self.origins:
                response.headers["Access-Control-Allow-Origin"] = request.headers["Origin"]
                response.headers["Access-Control-Expose-Headers"] = "Date, Location, Retry-After"

    async def _answer(self, request: web.BaseRequest) -> web.Response:
        self._refuse_while_stopping()
        place = self._place(request.path)
        methods = self.routes.get(place.pattern)
        if methods is None:
            raise Problem("not-found", "there is no such path")
        request["path"] = self._logged(place)
        if request.method == "OPTIONS" and self._is_preflight(request):
            return self._preflight(methods)
        route = methods.get("GET" if request.method == "HEAD" else request.method)
        if route is None:
            raise Problem("method", "the path has no such method", headers={"Allow": ", ".join(_allowed(methods))})
        if route.is_open:
            return await self._ask(request, route, None, self._open_at(place), place)
        asker = self._authorize(request, route, place)
        served = None if asker.is_host else self.shops.find(asker.shop)
        if served is None and not asker.is_host:
            raise Unavailable(NOT_SERVED)
        queue = served.queue(asker.till) if served is not None else self.host_queue
        if queue.under_way >= MOST_UNDER_WAY:
            raise Problem("too-many", f"{MOST_UNDER_WAY} requests of {asker} are under way")
        queue.under_way += 1
        try:
            return await self._ask(request, route, asker, served, place)
        finally:
            queue.under_way -= 1

    def _refuse_while_stopping(self) -> None:
        if self.stopping:
            raise Unavailable("the hub is being stopped")

    def _prefix(self, path: str) -> "Optional[re.Match[str]]":
        """What names a shop in front of a path; a hub of one shop knows no prefix."""
        return PREFIX.fullmatch(path) if self.shops.are_many else None

    def _inner(self, path: str) -> str:
        """The path without what names a shop."""
        found = self._prefix(path)
        return path if found is None else found[3] or ""

    def _place(self, path: str) -> Place:
        """Where a path leads; what is for the host of all shops has no prefix."""
        found = self._prefix(path)
        if found is None:
            return Place("", "", path, *self._pattern(path))
        if found[3] is None:
            raise Moved(f"{found[1]}/")
        pattern, rest = self._pattern(found[3])
        return Place(found[1], found[2], found[3], "" if pattern == "/metrics" else pattern, rest)

    def _pattern(self, path: str) -> Tuple[str, str]:
        """The path as the routes have it, and what stands in the place of its parameter."""
        if path in self.routes and "{" not in path:
            return path, ""
        parent, _, rest = path.rpartition("/")
        pattern = {"/v1/months": "/v1/months/{month}", "/v1/days": "/v1/days/{day}"}.get(parent, "")
        return (pattern, rest) if rest and "{" not in rest else ("", "")

    def _logged(self, place: Place) -> str:
        """What the log may say of a path: only what is there, since anything may be typed in its place."""
        prefix = place.prefix if self.shops.find(place.name) is not None else ""
        return prefix + (place.path if set(place.rest) <= set("0123456789-") else place.pattern)

    def _open_at(self, place: Place) -> Optional[Served]:
        """The shop of a path that anybody may ask, None where it is one of all shops."""
        served = self.shops.find(place.name)
        if served is None and place.prefix:
            raise Problem("not-found", "there is no such shop here")
        return served

    def _authorize(self, request: web.BaseRequest, route: Route, place: Place) -> Asker:
        asker = self.tokens.asker(request.headers.get("Authorization", ""))
        if asker is None:
            realm = f"verifactu {place.name}" if place.name else "verifactu"  # a browser keeps one password a realm
            scheme = f'Basic realm="{realm}", charset="UTF-8"' if place.pattern in PAGE else f'Bearer realm="{realm}"'
            raise Problem("unauthorized", "the request has no token that is known", headers={"WWW-Authenticate": scheme})
        request["asker"] = asker
        if place.name not in ("", asker.shop):
            raise Problem("forbidden", "this path is another shop's")
        if not route.is_for(asker):
            raise Problem("forbidden", f"this path is not for {asker}")
        return asker

    async def _ask(self, request: web.BaseRequest, route: Route, asker: Optional[Asker], served: Optional[Served], place: Place) -> web.Response:
        body = await self._whole(request)
        asking = Asking(request, asker, served, body, tuple(request.rel_url.query.items()), place)
        self._refuse_while_stopping()
        self.under_way += 1
        if served is not None and asker is not None:
            served.under_way += 1
        try:
            with Limit(ANSWER_WITHIN, served):
                return await self._in_turn(route.handler, asking)
        finally:
            self.under_way -= 1
            if served is not None and asker is not None:
                served.under_way -= 1
                served.used = self.loop.time()

    async def _in_turn(self, handler: Handler, asking: Asking) -> web.Response:
        """A till's requests one after another, all others at the same time."""
        if asking.asker is None or asking.served is None:
            return await handler(asking)
        if asking.asker.is_owner:
            asking.books = await self.shops.use(asking.served)
            return await handler(asking)
        async with asking.served.queue(asking.asker.till).turn:
            asking.books = await self.shops.use(asking.served)
            return await handler(asking)

    async def wait_until_answered(self, seconds: float) -> None:
        """Waits until what arrived whole is answered and its answer written, or for so long."""
        until = self.loop.time() + seconds
        while (self.under_way or self.connections.answering) and self.loop.time() < until:
            await asyncio.sleep(0.01)

    async def _whole(self, request: web.BaseRequest) -> bytes:
        """Reads the body of a request; from then on the connection owes nothing more."""
        length = request.content_length
        if length is not None and length > MOST_BODY:
            raise Problem("too-large", f"a body has at most {MOST_BODY} bytes")
        if "Content-Encoding" in request.headers:
            raise BadRequest("bodies are not compressed")
        await _expect(request)
        try:
            body = await request.read()
        except web.HTTPRequestEntityTooLarge:
            raise Problem("too-large", f"a body has at most {MOST_BODY} bytes") from None
        except Exception:
            raise BadRequest("the body ends before its end, or isn't chunked as it should be") from None
        connection = request.protocol
        assert isinstance(connection, Connection)
        self.connections.asked(connection)
        return body

    def _is_preflight(self, request: web.BaseRequest) -> bool:
        return (request["inner"].startswith("/v1/") and request.headers.get("Origin") in self.origins
                and "Access-Control-Request-Method" in request.headers)

    def _preflight(self, methods: Dict[str, Route]) -> web.Response:
        return web.Response(status=204, headers={
            "Access-Control-Allow-Methods": ", ".join(methods), "Access-Control-Allow-Headers": "Authorization, Content-Type",
            "Access-Control-Max-Age": str(PREFLIGHT_AGE)})

    def _log(self, request: web.BaseRequest, response: web.StreamResponse) -> None:
        """A line a request: no query, token, customer or amount, and of paths only those that are there."""
        loop_now = self.loop.time()
        seconds = loop_now - request.get("began", loop_now)
        if self.figures is not None:
            self.figures.request(response.status, seconds, request.get("inner") == "/v1/sales")
        now = datetime.now(timezone.utc).isoformat(timespec="milliseconds")
        method = request.method if request.method in METHODS else "-"
        line = f"{now} {request.get('asker', '-')} {method} {request.get('path', '-')} {response.status} {seconds * 1000:.1f}\n"
        try:
            sys.stderr.write(line)
        except OSError:
            pass

    # ---- what tills ask

    async def _sale(self, asking: Asking) -> web.Response:
        return await self._command(asking, "sale")

    async def _fix(self, asking: Asking) -> web.Response:
        return await self._command(asking, "fix")

    async def _cancel(self, asking: Asking) -> web.Response:
        return await self._command(asking, "cancel")

    async def _command(self, asking: Asking, verb: str) -> web.Response:
        _no_query(asking)
        shop = _books(asking).shop
        if self.faults is not None and not self.faults.meet(asking.request, _till(asking), verb, asking.body, shop):
            raise Unavailable("by --faults")
        command = read_command(verb, asking.body)
        answer = await shop.ask(command.line(_till(asking), await _bases(shop, command)))
        if isinstance(answer, Refused):
            self._count("refused")
            raise Problem("refused", f"the program refused it: {answer.reason}", {"reason": answer.reason})
        if isinstance(answer, NoMemory):
            raise Unavailable("the program is out of memory")
        assert isinstance(answer, Receipt)
        self._count(answer.answer)
        questions = [record_line(answer.place)] + ([] if verb == "cancel" else [ticket_line(answer.num, _host(asking))])
        record, *tickets = await asyncio.gather(*map(shop.ask, questions))
        if not record or not all(tickets):
            raise Unavailable("the program lacks the record or the ticket of what it answered")
        if not command.makes(record):
            raise Problem("serial-used", "another command of this till has this serial: what was asked now isn't registered", {"record": record})
        if self.faults is not None:
            await self.faults.copy(answer.place)
        values: Values = {"answer": answer.answer, "place": answer.place, "num": answer.num, "huella": answer.huella, "record": record}
        if tickets:
            values["ticket"] = tickets[0]
        if answer.answer == "again":
            return answer_json(values)
        return answer_json(values, 201, {"Location": f"{asking.place.prefix}/v1/invoices?num={quote(answer.num, safe='')}"})

    def _count(self, answer: str) -> None:
        if self.figures is not None:
            self.figures.answer(answer)

    async def _last(self, asking: Asking) -> web.Response:
        _no_query(asking)
        till = _till(asking)
        return answer_json({"till": till, "serial": await _books(asking).shop.ask(last_line(till))})

    async def _invoice(self, asking: Asking) -> web.Response:
        if [name for name, _ in asking.query] != ["num"]:
            raise BadRequest("the query isn't num alone, once")
        num = read_word(asking.query[0][1], "num")
        ticket = await _books(asking).shop.ask(ticket_line(num, _host(asking)))
        if not ticket:
            raise Problem("not-found", "the chain has no invoice of this number")
        cancelled = await _books(asking).cancellations.find(num, ticket["place"])
        return answer_json({**ticket, "cancelled": cancelled} if cancelled else ticket)

    async def _record(self, asking: Asking) -> web.Response:
        if [name for name, _ in asking.query] != ["serial"]:
            raise BadRequest("the query isn't serial alone, once")
        serial = read_serial(asking.query[0][1], "serial")
        row = await _books(asking).shop.ask(serial_line(_till(asking), serial))
        if not row:
            raise Problem("not-found", "this till has no record under this serial")
        return answer_json(row)

    # ---- what the owner and anybody asks

    async def _state(self, asking: Asking) -> web.Response:
        if not asking.query:
            return answer_json(await _books(asking).state())
        if [name for name, _ in asking.query] != ["refused"]:
            raise BadRequest("the query isn't refused alone, once")
        return answer_json(await _books(asking).state(read_serial(asking.query[0][1], "refused")))

    async def _month(self, asking: Asking) -> web.Response:
        _no_query(asking)
        return answer_json({"month": asking.place.rest, **await _books(asking).statement(read_month(asking.place.rest, "the path"))})

    async def _day(self, asking: Asking) -> web.Response:
        _no_query(asking)
        return answer_json({"day": asking.place.rest, **await _books(asking).statement(read_day(asking.place.rest, "the path"))})

    async def _describe(self, asking: Asking) -> web.Response:
        return web.Response(body=self.description, headers={"Content-Type": "application/json"})

    async def _health(self, asking: Asking) -> web.Response:
        """Of a hub of many: that it serves. Of a shop: whether its program answers; one that rests isn't started for this."""
        served = asking.served
        if served is None:
            return answer_json({"status": "ok"})
        if served.shop is None and not served.fault:
            return answer_json({"status": "resting"})
        if served.shop is None or not await served.shop.is_alive():
            raise Unavailable("the program doesn't answer")
        return answer_json({"status": "ok"})

    async def _faults(self, asking: Asking) -> web.Response:
        _no_query(asking)
        assert self.faults is not None
        return answer_json(self.faults.values())

    # ---- what the host asks

    async def _metrics(self, asking: Asking) -> web.Response:
        _no_query(asking)
        if self.figures is None:
            raise Problem("not-found", "there are no figures without python3-prometheus-client")
        body = await self.loop.run_in_executor(None, self.figures.text)
        return web.Response(body=body, headers={"Content-Type": self.figures.content_type})

    def _page_of(self, path: str) -> Handler:
        async def page(asking: Asking) -> web.Response:
            headers = {"Content-Type": f"{PAGE[path][1]}; charset=utf-8", "Content-Security-Policy": POLICY, "Referrer-Policy": "no-referrer"}
            return web.Response(body=self.files[path], headers=headers)

        return page


def _read_file(name: str) -> bytes:
    with open(os.path.join(FOLDER, name), "rb") as file:
        return file.read()


def _say_in_spanish(request: web.BaseRequest, response: web.Response) -> None:
    """A page in place of a problem, where a browser asks for the owner's page."""
    words = WORDS.get(response.status)
    if words is None or request["inner"] != "/" or "text/html" not in request.headers.get("Accept", ""):
        return
    if response.status == 503 and isinstance(response.body, bytes) and response.content_type == "application/problem+json":
        words += f"</p><p>Motivo, en inglés: {html.escape(json.loads(response.body)['detail'])}"
    response.body = ('<!DOCTYPE html><html lang="es"><head><meta charset="utf-8"><meta name="viewport" content="width=device-width">'
                     f'<meta name="color-scheme" content="light dark"><title>Facturas</title></head><body><p>{words}</p></body></html>').encode()
    response.headers["Content-Type"] = "text/html; charset=utf-8"
    response.headers["Content-Security-Policy"] = POLICY


def _allowed(methods: Dict[str, Route]) -> List[str]:
    return [*methods, "HEAD"] if "GET" in methods else [*methods]


def _books(asking: Asking) -> Books:
    assert asking.books is not None
    return asking.books


def _host(asking: Asking) -> str:
    assert asking.served is not None
    return asking.served.host


async def _bases(shop: Shop, command: Command) -> List[str]:
    """The lines CLASS:BASE of a command: each total is parted by the program."""
    if len(command.amounts) > MOST_LINES:
        raise BadLine("Lines")
    totals = [amount for amount in command.amounts if amount.total is not None]
    parted = iter(await asyncio.gather(*(shop.ask(parting_line(amount.line_class, amount.total or 0)) for amount in totals)))
    bases: List[str] = []
    for amount in command.amounts:
        parts = [f"{amount.line_class}:{amount.base}"] if amount.total is None else next(parted)
        if not parts:
            raise BadLine("Lines")
        bases += parts
    return bases


def _till(asking: Asking) -> int:
    assert asking.asker is not None and asking.asker.till is not None
    return asking.asker.till


def _no_query(asking: Asking) -> None:
    if asking.query:
        raise BadRequest("the path has no query")


def _waits_with_its_body(request: web.BaseRequest) -> bool:
    return request.headers.get("Expect", "").lower() == "100-continue" and "went_on" not in request


async def _expect(request: web.BaseRequest) -> None:
    """Tells a client that waits with its body to go on."""
    if _waits_with_its_body(request):
        request["went_on"] = True
        await request.writer.write(b"HTTP/1.1 100 Continue\r\n\r\n")
        request.writer.output_size = 0


async def _pass_over(request: web.BaseRequest) -> bool:
    """Reads what is left of a body, so that no reset takes the answer from who still sends; False where not all of it was read."""
    left = 0 if _waits_with_its_body(request) else MOST_PASSED_OVER
    try:
        while left > 0 and not request.content.is_eof():
            left -= len(await request.content.readany())
    except Exception:
        return False
    return request.content.is_eof()


def _faulty(status: int) -> web.Response:
    """The answer to what isn't HTTP (400), or where aiohttp itself failed."""
    if status == 400:
        return Problem("bad-request", "the request isn't HTTP as it should be").response()
    tell(f"aiohttp answers {status}")
    return Problem("unavailable", "the hub failed").response()
