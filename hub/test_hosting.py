"""Many shops in one hub: who may ask where, which programs run, what one shop's fault does to others, files that change, figures; and three
hosts, of which one is lost."""
from __future__ import annotations

import asyncio
import concurrent.futures
import fcntl
import json
import os
import re
import secrets
import shutil
import signal
import subprocess
import threading
import time
import unittest
from typing import Any, Dict, List, Optional, Tuple

import tills
from test_clients import CLIENTS
from test_requests import Description
from tills import Till
from trying import HERE, NIF, PATIENCE, PYTHON, Agency, Answer, Hub, Options, Street, run_program, until

OTHER_NIF = "12345678Z"


class Hosting(unittest.TestCase):
    """Streets of shops, and hubs that a test starts."""

    def street(self, *names: str, shop_tills: int = 1) -> Street:
        """A street with these shops."""
        found = Street(list(names), shop_tills)
        self.addCleanup(found.remove)
        return found

    def hub(self, street: Street, *words: str, environment: Optional[Dict[str, str]] = None, **more: Any) -> Hub:
        """Starts a hub; the stand-in's agency answers at once unless it is said otherwise."""
        found = Hub(street, *words, environment={"STAND_IN_PAUSE": "0.05", **(environment or {})}, **more)
        self.addCleanup(found.end)
        return found

    def sell(self, hub: Hub, name: str, serial: int, till: int = 1, prefix: Optional[str] = None) -> Answer:
        """A sale of a shop's till."""
        body = {"serial": serial, "series": f"T{till}", "kind": "F2", "lines": [{"class": "21", "base": 1000}]}
        where = f"/shops/{name}" if prefix is None else prefix
        return hub.ask("POST", f"{where}/v1/sales", hub.place.till[name, till], body)

    def sells(self, hub: Hub, name: str, serial: int) -> None:
        """Whether a sale is taken."""
        answer = self.sell(hub, name, serial)
        self.assertEqual((answer.status, answer.json.get("answer")), (201, "taken"), answer.body)

    def is_unavailable(self, answer: Answer, reason: str) -> None:
        """Whether it is a 503 that says so."""
        self.assertEqual((answer.status, answer.name, answer.headers["retry-after"]), (503, "unavailable", "2"), answer.body)
        self.assertIn(reason, answer.json["detail"])

    def program_of(self, hub: Hub, name: str) -> int:
        """The process id of a shop's program, 0 where none runs."""
        for process in hub.programs():
            try:
                with open(f"/proc/{process}/cmdline", "rb") as words:
                    if hub.place.file(name).encode() in words.read().split(b"\0"):
                        return process
            except OSError:
                pass
        return 0

    def rests(self, hub: Hub, name: str) -> None:
        """Waits until a shop's program has ended."""
        until(lambda: not self.program_of(hub, name), f"the program of {name} has ended")

    def with_one_that_waits(self, hub: Hub, name: str) -> None:
        """Sells until one record waits: the agency takes the first at once, and the next after its pause alone."""
        for serial in (1, 2):
            self.sells(hub, name, serial)
            until(lambda: hub.ask("GET", "/v1/state", hub.place.owner[name]).json["noted"] >= 1, "the first one is noted")

    def count(self, street: Street, name: str) -> str:
        """How many records a file has, and how many are noted."""
        return run_program("list", street.file(name), "waiting")[1].splitlines()[-1]

    def stands_once(self, street: Street, name: str, sellers: List[Till], count: int) -> None:
        """Whether each sale of a shop stands once, as it was answered, in each till's order."""
        self.assertEqual([till.fault for till in sellers if till.fault], [])
        rows = [line.split(" ") for line in run_program("list", street.file(name), "all")[1].splitlines()[:-1]]
        self.assertEqual(tills.faults(sellers, rows, count)[:3], [], name)
        status, text = run_program("audit", street.file(name))
        self.assertEqual((status, text.split(" ")[0]), (0, "sound"), name)


class WhoTest(Hosting):
    """A token belongs to one shop."""

    def test_a_token_at_another_shops_path(self) -> None:
        street = self.street("a", "b")
        hub = self.hub(street)
        body = {"serial": 1, "series": "T1", "kind": "F2", "lines": [{"class": "21", "base": 1000}]}
        for method, path, token in (("POST", "/v1/sales", street.till["a", 1]), ("GET", "/v1/last", street.till["a", 1]),
                                    ("GET", "/v1/state", street.owner["a"]), ("GET", "/v1/days/2025-01-01", street.owner["a"]),
                                    ("GET", "/", street.owner["a"]), ("GET", "/v1/state", street.host), ("GET", "/v1/last", street.host)):
            for name in ("b", "nowhere"):
                answer = hub.ask(method, f"/shops/{name}{path}", token, body)
                self.assertEqual((answer.status, answer.name), (403, "forbidden"), (path, name))
        self.assertEqual((os.path.exists(street.file("a")), os.path.exists(street.file("b"))), (False, False))
        # the same without a prefix, and with its own
        for prefix in ("", "/shops/a"):
            self.assertIn(self.sell(hub, "a", 1, prefix=prefix).status, (200, 201))
        self.assertFalse(os.path.exists(street.file("b")))
        self.assertEqual(hub.ask("GET", "/shops/b/v1/last", "x" * 40).status, 401)

    def test_what_a_hub_of_many_answers_is_described(self) -> None:
        hub = self.hub(self.street("a", "b"))
        description = Description(hub.ask("GET", "/v1/openapi.json").json)
        till, owner, host = hub.place.till["a", 1], hub.place.owner["a"], hub.place.host
        asked: Any = (("/shops/a", "/", owner, 308), ("/shops/a/", "/", owner, 200), ("/shops/b/", "/", owner, 403),
                      ("/shops/a/v1/state", "/v1/state", owner, 200), ("/shops/a/v1/last", "/v1/last", till, 200),
                      ("/shops/b/v1/last", "/v1/last", till, 403), ("/health", "/health", "", 200),
                      ("/shops/a/health", "/health", "", 200), ("/shops/nobody/health", "/health", "", 404),
                      ("/shops/nobody/v1/openapi.json", "/v1/openapi.json", "", 404), ("/metrics", "/metrics", host, 200),
                      ("/metrics", "/metrics", owner, 403), ("/shops/a/v1/faults", "/v1/faults", owner, 404))
        for path, described, token, status in asked:
            with self.subTest(path):
                answer = hub.ask("GET", path, token)
                self.assertEqual((answer.status, description.fault("GET", described, answer)), (status, None), answer.body)

    def test_answers_keep_the_prefix_that_the_request_had(self) -> None:
        hub = self.hub(self.street("a"))
        self.assertEqual(self.sell(hub, "a", 1).headers["location"], "/shops/a/v1/invoices?num=T1-1")
        self.assertEqual(self.sell(hub, "a", 2, prefix="").headers["location"], "/v1/invoices?num=T1-2")
        moved = hub.ask("GET", "/shops/a")
        self.assertEqual((moved.status, moved.headers["location"]), (308, "/shops/a/"))
        page = hub.ask("GET", "/shops/a/", hub.place.owner["a"])
        self.assertEqual(page.status, 200)
        # what the page asks is named relative to it, but for the icon, which it has itself
        for name in re.findall(rb'(?:href|src)="(?!data:)([^"]*)"', page.body):
            self.assertEqual(hub.ask("GET", f"/shops/a/{name.decode()}", hub.place.owner["a"]).status, 200)
            self.assertFalse(name.startswith(b"/"))
        self.assertEqual(hub.ask("GET", "/shops/a/").headers["www-authenticate"], 'Basic realm="verifactu a", charset="UTF-8"')
        self.assertRegex(hub.ask("GET", "/shops/a/v1/last").headers["www-authenticate"], "^Bearer ")

    def test_the_clients_keep_the_prefix(self) -> None:
        street = self.street("a", shop_tills=4)
        hub = self.hub(street)
        there = [words for words in CLIENTS.values() if shutil.which(words[0])]
        for till, (language, file) in enumerate(there, 1):
            words = [language, os.path.join(HERE, "clients", file), f"http://127.0.0.1:{hub.port}/shops/a", street.till["a", till], f"{street.path}/{file}.json"]
            subprocess.run(words, stdout=subprocess.DEVNULL, timeout=PATIENCE, check=True)
            asked = [line for line in hub.log if f" a till {till} " in line]
            self.assertGreaterEqual(len(asked), 2, file)
            self.assertEqual([line for line in asked if " POST /shops/a/v1/sales " not in line and " GET /shops/a/v1/last " not in line], [], file)
            self.assertIn(" POST /shops/a/v1/sales ", asked[-1], file)
        self.assertGreaterEqual(len(there), 1)

    def test_each_path_of_the_description_is_there_with_the_prefix(self) -> None:
        hub = self.hub(self.street("a"))
        api = hub.ask("GET", "/shops/a/v1/openapi.json").json
        self.assertIn("{shop}", api["servers"][1]["url"])
        for path, methods in api["paths"].items():
            asked = path.replace("{month}", "2025-01").replace("{day}", "2025-01-31")
            for prefix in ("", "/shops/a"):
                is_there = hub.ask(next(iter(methods)).upper(), prefix + asked, "x").status != 404
                # (/v1/faults is there with --faults alone, which many shops haven't)
                self.assertEqual(is_there, path != "/v1/faults" and (not prefix or path != "/metrics"), prefix + path)
        for path in ("/shops/", "/shops/A/health", "/shops/nowhere/health", "/shops/nowhere/v1/openapi.json", "/shops/a/nowhere", "/shops/a/shops/a/health",
                     "/shops/" + "a" * 33 + "/health"):
            self.assertEqual(hub.ask("GET", path).status, 404, path)

    def test_a_browser_till_of_another_origin(self) -> None:
        hub = self.hub(self.street("a"), "--origin", "https://tpv.example")
        origin = {"Origin": "https://tpv.example", "Access-Control-Request-Method": "POST"}
        self.assertEqual(hub.ask("OPTIONS", "/shops/a/v1/sales", headers=origin).status, 204)
        answer = hub.ask("GET", "/shops/a/v1/last", "x", headers=origin)
        self.assertEqual(answer.headers["access-control-allow-origin"], "https://tpv.example")
        self.assertNotIn("access-control-allow-origin", hub.ask("GET", "/shops/a/health", headers=origin).headers)

    def test_the_log_names_the_shop_and_no_secret(self) -> None:
        street = self.street("a")
        hub = self.hub(street)
        self.sells(hub, "a", 1)
        hub.ask("GET", "/shops/secret-name/health")
        hub.ask("GET", f"/shops/{street.till['a', 1][:32]}/v1/last")
        hub.ask("GET", "/metrics", street.host)
        for line in (r" a till 1 POST /shops/a/v1/sales 201 ", r" host GET /metrics 200 ", r" - GET /v1/last 401 "):
            until(lambda: hub.logged(line), f"{line} is logged")
        for secret in ("secret-name", street.host, street.till["a", 1][:32]):
            self.assertNotIn(secret, "\n".join(hub.log))

    def test_trials_and_the_host_of_links(self) -> None:
        street = self.street("a", "b")
        agency = Agency(street)  # type: ignore[arg-type]
        self.addCleanup(agency.end)
        street.lines["b"] += f" {agency.words[1]} {agency.words[2]}"
        street.write()
        hub = self.hub(street, "--host", "real")
        self.assertTrue(hub.logged("2 shops, trials among them: 1, practice agency"))
        for name, host, is_trial in (("a", "prewww2.aeat.es", True), ("b", "www2.agenciatributaria.gob.es", False)):
            link = self.sell(hub, name, 1).json["ticket"]["link"]
            self.assertTrue(link.startswith(f"https://{host}/"), link)
            self.assertEqual(hub.ask("GET", "/v1/state", street.owner[name]).json["practice"], is_trial)


class ProgramsTest(Hosting):
    """Which programs run."""

    def test_a_program_starts_at_the_first_request_and_ends_after_an_idle_time(self) -> None:
        street = self.street("a", "b")
        hub = self.hub(street, "--idle", "2")
        self.assertEqual(hub.ask("GET", "/health").json, {"status": "ok"})
        self.assertEqual(hub.ask("GET", "/shops/a/health").json, {"status": "resting"})
        self.assertEqual(hub.programs(), [])
        for serial in (1, 2):
            self.sells(hub, "a", serial)
            self.assertTrue(self.program_of(hub, "a"))
            self.assertEqual(hub.ask("GET", "/shops/a/health").json, {"status": "ok"})
            self.rests(hub, "a")
        self.assertEqual(self.sell(hub, "a", 1).json["answer"], "again")
        self.assertEqual(self.program_of(hub, "b"), 0)
        self.assertFalse(os.path.exists(street.file("b")))

    def test_a_program_is_not_ended_between_requests_or_while_something_waits(self) -> None:
        hub = self.hub(self.street("a", "b"), "--idle", "1", environment={"STAND_IN_PAUSE": "1000"})
        self.with_one_that_waits(hub, "a")
        first = self.program_of(hub, "a")
        self.sells(hub, "b", 1)
        self.rests(hub, "b")
        time.sleep(3)
        self.sells(hub, "a", 3)
        self.assertEqual(self.program_of(hub, "a"), first)

    def test_no_more_run_at_once_than_may(self) -> None:
        names = [f"s{number}" for number in range(6)]
        street = self.street(*names)
        hub = self.hub(street, "--programs", "2")
        most, stop = [0], threading.Event()

        def watch() -> None:
            while not stop.is_set():
                most[0] = max(most[0], len(hub.programs()))

        watching = threading.Thread(target=watch)
        watching.start()
        for serial in (1, 2, 3):
            with concurrent.futures.ThreadPoolExecutor(6) as pool:
                for answer in pool.map(lambda name: self.keeps_asking(hub, name, serial), names):
                    self.assertEqual(answer.json["answer"], "taken")
        stop.set()
        watching.join()
        self.assertEqual(most[0], 2)
        for name in names:
            self.assertEqual(self.sell(hub, name, 3).json["answer"], "again")

    def keeps_asking(self, hub: Hub, name: str, serial: int) -> Answer:
        """Sells, asked again while it is unavailable."""
        found: Answer = until(lambda: (answer := self.sell(hub, name, serial)).status != 503 and answer, f"{name} sells")
        return found

    def test_where_all_are_busy_the_answer_is_503_and_the_idle_one_makes_room(self) -> None:
        hub = self.hub(self.street("a", "b", "c"), "--programs", "2")
        for name in ("a", "b"):
            self.sells(hub, name, 1)
        stopped = [self.program_of(hub, name) for name in ("a", "b")]
        for process in stopped:
            os.kill(process, signal.SIGSTOP)
        with concurrent.futures.ThreadPoolExecutor(2) as pool:
            under_way = [pool.submit(self.sell, hub, name, 2) for name in ("a", "b")]
            time.sleep(1)
            began = time.monotonic()
            self.is_unavailable(self.sell(hub, "c", 1), "all 2 programs that may run at once are busy")
            self.assertLess(time.monotonic() - began, 5)
            os.kill(stopped[0], signal.SIGCONT)
            self.assertEqual(under_way[0].result().status, 201)
            self.sells(hub, "c", 1)
            self.assertEqual([self.program_of(hub, name) for name in ("a", "b")], [0, stopped[1]])
            os.kill(stopped[1], signal.SIGCONT)
            self.assertEqual(under_way[1].result().status, 201)

    def test_a_request_at_a_program_that_is_being_ended_waits_for_the_next_one(self) -> None:
        hub = self.hub(self.street("a", "b", "c"), "--programs", "2", environment={"STAND_IN_PAUSE": "1000"})
        self.with_one_that_waits(hub, "a")
        self.sells(hub, "c", 1)
        with concurrent.futures.ThreadPoolExecutor(1) as pool:
            other = pool.submit(self.sell, hub, "b", 1)
            time.sleep(0.05)  # a makes room for b, which it takes a moment to do
            self.sells(hub, "a", 3)
            self.assertEqual(other.result().status, 201)

    def test_what_waits_is_sent_although_no_till_asks(self) -> None:
        street = self.street("a", "b")
        first = self.hub(street, environment={"STAND_IN_PAUSE": "1000"})
        self.with_one_that_waits(first, "a")
        first.end()
        self.assertEqual(self.count(street, "a"), "chain 2 noted 1")
        second = self.hub(street)
        until(lambda: self.count(street, "a") == "chain 2 noted 2", "what waited is sent")
        self.rests(second, "a")
        self.assertFalse(os.path.exists(street.file("b")))

    def test_a_stop_ends_all_programs_in_time_and_what_waits_is_sent_later(self) -> None:
        street = self.street("a", "b")
        hub = self.hub(street, environment={"STAND_IN_PAUSE": "1000"})
        self.with_one_that_waits(hub, "a")
        self.sells(hub, "b", 1)
        programs = hub.programs()
        began = time.monotonic()
        self.assertEqual(hub.stop(), 0)
        self.assertLess(time.monotonic() - began, 30)
        self.assertEqual([process for process in programs if os.path.exists(f"/proc/{process}")], [])
        again = self.hub(street)
        self.assertEqual(self.sell(again, "a", 2).json["answer"], "again")

    def test_a_second_signal_kills_them(self) -> None:
        hub = self.hub(self.street("a"))
        self.sells(hub, "a", 1)
        program = self.program_of(hub, "a")
        os.kill(program, signal.SIGSTOP)
        hub.process.send_signal(signal.SIGTERM)
        time.sleep(1)
        self.assertIsNone(hub.process.poll())
        self.assertEqual(hub.stop(), 137)
        until(lambda: not os.path.exists(f"/proc/{program}"), "the program has ended")


class FaultTest(Hosting):
    """A fault of one shop holds up no other."""

    def test_one_shops_program_killed_again_and_again_beside_others(self) -> None:
        names = ["victim", "a", "b", "c"]
        street = self.street(*names, shop_tills=4)
        hub = self.hub(street)
        sellers = {name: [Till(hub.port, number, street.till[name, number], prefix=f"/shops/{name}") for number in range(1, 5)] for name in names}
        count = max(100, Options.sales)
        everyone = [till for some in sellers.values() for till in some]
        work = threading.Thread(target=lambda: tills.run(tills.sell_together(everyone, count)), daemon=True)
        work.start()
        kills = 0
        for part in range(1, 9):
            until(lambda: sum(len(till.sold) for till in sellers["victim"]) >= part * 4 * count // 10, "it sells on", 600)
            process = self.program_of(hub, "victim")
            if process:
                os.kill(process, signal.SIGKILL)
                kills += 1
        work.join(600)
        self.assertFalse(work.is_alive())
        self.assertGreaterEqual(kills, 4)
        self.assertEqual([till.repeats for name in names[1:] for till in sellers[name]], [0] * 12)
        starts = {name: hub.ask("GET", "/v1/state", street.owner[name]).json["starts"] for name in names}
        self.assertGreaterEqual(starts["victim"], 3)
        self.assertEqual([starts[name] for name in names[1:]], [1, 1, 1])
        self.assertEqual(hub.stop(), 0)
        for name in names:
            self.stands_once(street, name, sellers[name], count)

    def test_a_program_that_does_not_answer_holds_up_no_other(self) -> None:
        hub = self.hub(self.street("a", "b"))
        for name in ("a", "b"):
            self.sells(hub, name, 1)
        process = self.program_of(hub, "a")
        os.kill(process, signal.SIGSTOP)
        with concurrent.futures.ThreadPoolExecutor(1) as pool:
            under_way = pool.submit(self.sell, hub, "a", 2)
            began = time.monotonic()
            for serial in range(2, 12):
                self.sells(hub, "b", serial)
            self.assertLess(time.monotonic() - began, 10)
            self.assertFalse(under_way.done())
            os.kill(process, signal.SIGCONT)
            self.assertEqual(under_way.result().status, 201)

    def test_a_file_that_no_restart_mends_is_503_with_its_status_and_mended_by_a_sighup(self) -> None:
        street = self.street("a", "b")
        run_program("serve", street.file("a"), OTHER_NIF)
        until(lambda: os.path.exists(street.file("a")), "the file is another issuer's")
        hub = self.hub(street)
        for _ in range(2):
            self.is_unavailable(self.sell(hub, "a", 1), f"status 13: file of {OTHER_NIF}")
        self.assertEqual(hub.ask("GET", "/shops/a/health").status, 503)
        self.assertTrue(hub.logged(f"verifactu-hub: a: file of {OTHER_NIF}"))
        self.sells(hub, "b", 1)
        street.lines["a"] = f"a {OTHER_NIF} {street.file('a')}"
        street.write()
        hub.process.send_signal(signal.SIGHUP)
        until(lambda: self.sell(hub, "a", 1).status in (200, 201), "it sells")

    def test_a_file_that_another_program_holds_is_503_with_the_reason(self) -> None:
        street = self.street("a", "b")
        run_program("serve", street.file("a"), NIF)
        hub = self.hub(street)
        until(lambda: not hub.programs(), "the round is over")
        with open(street.file("a"), "ab") as file:
            until(lambda: self.locks(file), "the file is free")
            self.is_unavailable(self.sell(hub, "a", 1), "in use by another program")
            self.assertNotIn(street.path, self.sell(hub, "a", 1).json["detail"])
            page = hub.ask("GET", "/shops/a/", street.owner["a"], headers={"Accept": "text/html"})
            self.assertEqual((page.status, page.headers["content-type"]), (503, "text/html; charset=utf-8"))
            self.assertRegex(page.body.decode(), "las cajas no pueden vender ahora.*Motivo, en inglés: .*in use by another program")
            self.sells(hub, "b", 1)
        until(lambda: self.sell(hub, "a", 1).status in (200, 201), "it sells once the file is free")
        self.assertEqual(self.sell(hub, "a", 1).json["answer"], "again")

    def locks(self, file: Any) -> bool:
        """Whether the file's lock could be had."""
        try:
            fcntl.flock(file, fcntl.LOCK_EX | fcntl.LOCK_NB)
        except OSError:
            return False
        return True


class ReadAgainTest(Hosting):
    """SIGHUP."""

    def test_a_faulty_file_changes_nothing_and_a_good_one_does(self) -> None:
        street = self.street("a", "b")
        hub = self.hub(street)
        for name in ("a", "b"):
            self.sells(hub, name, 1)
        kept, left = self.program_of(hub, "a"), self.program_of(hub, "b")
        old = street.lines.pop("b")
        street.lines["c"] = f"c {NIF}"
        street.till["a", 2] = secrets.token_hex(24)
        street.write()
        hub.process.send_signal(signal.SIGHUP)
        until(lambda: hub.logged(r"shops, line 4: .*: the old ones stay"), "the line is named")
        self.assertEqual(hub.ask("GET", "/v1/last", street.till["a", 2]).status, 401)
        self.sells(hub, "b", 2)
        street.lines["c"] = f"c {NIF} {street.file('c')}"
        street.write()
        os.chmod(street.tokens, 0o644)
        hub.process.send_signal(signal.SIGHUP)
        until(lambda: hub.logged("mode 0600 or 0400: the old ones stay"), "the mode is told")
        self.sells(hub, "b", 3)
        self.assertEqual((self.program_of(hub, "a"), self.program_of(hub, "b")), (kept, left))
        os.chmod(street.tokens, 0o600)
        street.add_tokens("c")
        street.write()
        hub.process.send_signal(signal.SIGHUP)
        until(lambda: hub.logged("read again: 2 shops, 1 new or changed, 1 gone or changed"), "it is read")
        self.assertEqual(hub.ask("GET", "/v1/last", street.till["a", 2]).status, 200)
        self.sells(hub, "c", 1)
        # a token of a shop that isn't served here: its till asks again until a proxy leads it elsewhere
        self.is_unavailable(self.sell(hub, "b", 4), "doesn't serve")
        self.assertTrue(hub.logged("tokens name 1 shop not served here: b$"))
        self.rests(hub, "b")
        self.assertEqual(self.program_of(hub, "a"), kept)
        street.lines["b"] = old
        street.write()
        hub.process.send_signal(signal.SIGHUP)
        until(lambda: hub.logged("read again: 3 shops"), "it is read")
        self.assertEqual(self.sell(hub, "b", 3).json["answer"], "again")
        self.sells(hub, "b", 4)

    def test_what_is_under_way_at_a_shop_that_goes_is_answered(self) -> None:
        street = self.street("a", "b")
        hub = self.hub(street)
        self.sells(hub, "a", 1)
        process = self.program_of(hub, "a")
        os.kill(process, signal.SIGSTOP)
        with concurrent.futures.ThreadPoolExecutor(1) as pool:
            under_way = pool.submit(self.sell, hub, "a", 2)
            time.sleep(1)
            del street.lines["a"]
            street.write()
            hub.process.send_signal(signal.SIGHUP)
            until(lambda: hub.logged("read again: 1 shop,"), "it is read")
            time.sleep(1)
            os.kill(process, signal.SIGCONT)
            answer = under_way.result()
        self.assertEqual((answer.status, answer.json["answer"]), (201, "taken"))
        self.rests(hub, "a")

    def test_a_token_that_is_taken_away(self) -> None:
        street = self.street("a")
        hub = self.hub(street)
        self.sells(hub, "a", 1)
        old = street.till["a", 1]
        street.add_tokens("a")
        street.write()
        hub.process.send_signal(signal.SIGHUP)
        until(lambda: hub.ask("GET", "/v1/last", old).status == 401, "the old one is known no more")
        self.sells(hub, "a", 2)


class FiguresTest(Hosting):
    """`GET /metrics`."""

    def figures(self, hub: Hub) -> Dict[str, float]:
        """Each sample by its name and labels."""
        answer = hub.ask("GET", "/metrics", hub.place.host)
        self.assertEqual(answer.status, 200)
        self.assertTrue(answer.headers["content-type"].startswith("text/plain; version=0.0.4"))
        found = re.findall(r"^([a-z_]+(?:\{[^}]*\})?) (\S+)$", answer.body.decode(), re.MULTILINE)
        return {name: float(value) for name, value in found}

    def test_what_is_counted(self) -> None:
        street = self.street("a", "b")
        agency = Agency(street, "T1-2 1 vet 1110")  # type: ignore[arg-type]
        self.addCleanup(agency.end)
        street.lines["a"] += f" {agency.words[1]} {agency.words[2]}"
        street.write()
        hub = self.hub(street, "--host", "test", environment=agency.environment)
        for serial in (1, 2):
            self.sells(hub, "a", serial)
        self.assertEqual(self.sell(hub, "a", 1).json["answer"], "again")
        self.assertEqual(hub.ask("POST", "/v1/cancellations", street.till["a", 1], {"serial": 9, "num": "Z-1"}).status, 409)
        hub.ask("GET", "/v1/last", "x" * 40)
        os.kill(self.program_of(hub, "a"), signal.SIGKILL)
        self.assertEqual(self.sell(hub, "a", 2).json["answer"], "again")
        seen = self.figures(hub)
        self.assertEqual({name: seen[f"verifactu_{name}"] for name in (
            'requests_total{status="201"}', 'requests_total{status="200"}', 'requests_total{status="409"}', 'requests_total{status="401"}',
            'answers_total{answer="taken"}', 'answers_total{answer="again"}', 'answers_total{answer="refused"}', "sale_seconds_count", "shops",
            "programs", 'program_restarts_total{shop="a"}', 'program_restarts_total{shop="b"}')},
            {'requests_total{status="201"}': 2, 'requests_total{status="200"}': 2, 'requests_total{status="409"}': 1, 'requests_total{status="401"}': 1,
             'answers_total{answer="taken"}': 2, 'answers_total{answer="again"}': 2, 'answers_total{answer="refused"}': 1, "sale_seconds_count": 4,
             "shops": 2, "programs": 1, 'program_restarts_total{shop="a"}': 1, 'program_restarts_total{shop="b"}': 0})
        until(lambda: self.figures(hub).get('verifactu_records_refused{shop="a"}') == 1, "the refused one is counted")
        self.assertTrue(self.program_of(hub, "a"))
        self.assertEqual(self.figures(hub)['verifactu_records_waiting{shop="a"}'], 0)

    def test_a_shop_that_made_room_is_counted_too(self) -> None:
        hub = self.hub(self.street("a", "b"), "--programs", "1", "--idle", "2")
        for name in ("a", "b"):
            self.sells(hub, name, 1)
        wanted = [f'verifactu_records_{kind}{{shop="{name}"}}' for kind in ("waiting", "refused") for name in ("a", "b")]
        until(lambda: [self.figures(hub).get(name) for name in wanted] == [0, 0, 0, 0], "nothing waits and nothing is refused", 60)
        self.rests(hub, "b")
        self.assertEqual([self.figures(hub).get(name) for name in (*wanted, "verifactu_programs")], [0] * 5)

    def test_the_host_may_ask_nothing_else_and_nobody_else_may_ask_it(self) -> None:
        street = self.street("a")
        hub = self.hub(street)
        for token in (street.till["a", 1], street.owner["a"]):
            self.assertEqual(hub.ask("GET", "/metrics", token).status, 403)
        self.assertEqual(hub.ask("GET", "/metrics").status, 401)
        for method, path in (("GET", "/v1/state"), ("GET", "/"), ("POST", "/v1/sales"), ("GET", "/v1/last"), ("GET", "/v1/months/2025-01")):
            self.assertEqual(hub.ask(method, path, street.host, b"{}").status, 403, path)
        self.assertEqual(hub.ask("GET", "/metrics", street.host).status, 200)

    def test_without_the_library_all_else_works(self) -> None:
        street = self.street("a")
        with open(os.path.join(street.path, "prometheus_client.py"), "w", encoding="ascii") as file:
            file.write("raise ImportError\n")
        hub = self.hub(street, environment={"PYTHONPATH": street.path})
        until(lambda: hub.logged("warning: python3-prometheus-client isn't there"), "it is told")
        self.sells(hub, "a", 1)
        answer = hub.ask("GET", "/metrics", street.host)
        self.assertEqual((answer.status, answer.name), (404, "not-found"))
        self.assertIn("python3-prometheus-client", answer.json["detail"])


class ManyTest(Hosting):
    """Many shops at the same time."""

    def sell_all(self, sellers: List[Till], count: int, at_once: int) -> None:
        """Each till sells so many times, so many tills at once."""

        async def work() -> None:
            room = asyncio.Semaphore(at_once)

            async def one(till: Till) -> None:
                async with room:
                    await till.sell(count)

            await asyncio.gather(*map(one, sellers))

        tills.run(work())

    def all_stand_once(self, street: Street, sellers: Dict[str, List[Till]], count: int) -> None:
        """Whether each sale of each shop stands once."""
        with concurrent.futures.ThreadPoolExecutor(2) as pool:
            for _ in pool.map(lambda name: self.stands_once(street, name, sellers[name], count), sellers):
                pass

    def test_1000_shops(self) -> None:
        shops, count = (1_000, 10) if Options.is_whole() else (100, 3)
        names = [f"shop-{number}" for number in range(shops)]
        street = self.street(*names)
        hub = self.hub(street, "--programs", str(shops // 5))
        sellers = {name: [Till(hub.port, 1, street.till[name, 1], prefix=f"/shops/{name}")] for name in names}
        self.sell_all([some[0] for some in sellers.values()], count, 32)
        self.assertEqual(hub.stop(), 0)
        self.all_stand_once(street, sellers, count)

    def test_64_shops_beside_64_tills_of_one(self) -> None:
        count = max(3, Options.sales // 10)
        names = [f"shop-{number}" for number in range(64)]
        street = self.street(*names)
        street.lines["large"] = f"large {NIF} {street.file('large')}"
        street.add_tokens("large", 64)
        street.write()
        hub = self.hub(street)
        sellers = {name: [Till(hub.port, 1, street.till[name, 1], prefix=f"/shops/{name}")] for name in names}
        sellers["large"] = [Till(hub.port, number, street.till["large", number]) for number in range(1, 65)]
        everyone = [till for some in sellers.values() for till in some]
        self.sell_all(everyone, count, len(everyone))
        self.assertEqual([till.repeats for till in everyone], [0] * len(everyone))
        self.assertEqual(hub.stop(), 0)
        self.all_stand_once(street, sellers, count)


class Machine:
    """A host of some of a street's shops: its own file SHOPS, and the street's tokens and files."""

    def __init__(self, street: Street, name: str, shops: List[str]) -> None:
        self.street = street
        self.name = name
        self.shops = os.path.join(street.path, f"shops.{name}")
        self.serve(shops)

    def serve(self, shops: List[str]) -> None:
        """Writes SHOPS anew."""
        with open(self.shops, "w", encoding="utf-8") as file:
            file.write("".join(f"{self.street.lines[name]}\n" for name in shops))

    @property
    def words(self) -> List[str]:
        """A hub's words for it."""
        return ["--shops", self.shops, "--tokens", self.street.tokens]


CODE = """
import json, sys, urllib.error, urllib.request
url, token, body = sys.argv[1:]
try:
    answer = urllib.request.urlopen(urllib.request.Request(url, body.encode(), {"Authorization": "Bearer " + token}), timeout=60)
except urllib.error.HTTPError as fault:
    answer = fault
print(json.dumps([answer.status if hasattr(answer, "status") else answer.code, json.loads(answer.read())]))
"""
PROXY, A, B = "10.87.40.2", "10.87.41.2", "10.87.42.2"


class ThreeHostsTest(Hosting):
    """A proxy and two hosts, each in a network namespace of its own, and tills on this machine; the shops' folder is reached by both hosts."""

    def setUp(self) -> None:
        if shutil.which("nginx") is None:
            self.skipTest("nginx isn't there")
        self.names = {name: f"{name}{os.getpid()}" for name in ("proxy", "a", "b")}
        for name in self.names.values():
            if shutil.which("ip") is None or self.ip("netns", "add", name):
                self.skipTest("no network namespace can be made here")
            self.addCleanup(self.ip, "netns", "del", name)
        self.join("", "10.87.40.1", "proxy", PROXY)
        self.join("proxy", "10.87.41.1", "a", A)
        self.join("proxy", "10.87.42.1", "b", B)
        self.shops = ["s1", "s2", "s3", "s4"]
        self.road = self.street(*self.shops, shop_tills=4)
        os.chmod(self.road.path, 0o755)  # nginx's workers are of another user

    def ip(self, *words: str) -> int:
        """A command of `ip`."""
        return subprocess.run(["ip", *words], stderr=subprocess.DEVNULL, check=False).returncode

    def join(self, one: str, address: str, other: str, other_address: str) -> None:
        """A cable between two namespaces, of which the first may be the test's own."""
        here, there = f"v{one}{other}0{os.getpid()}"[:15], f"v{one}{other}1{os.getpid()}"[:15]
        side = ["-n", self.names[one]] if one else []
        ends = ((side, here, address), (["-n", self.names[other]], there, other_address))
        self.assertEqual(self.ip(*side, "link", "add", here, "type", "veth", "peer", "name", there, "netns", self.names[other]), 0)
        if not one:
            self.addCleanup(self.ip, "link", "del", here)
        for words, name, own in ends:
            self.assertEqual(self.ip(*words, "addr", "add", f"{own}/24", "dev", name), 0)
            self.assertEqual(self.ip(*words, "link", "set", name, "up"), 0)

    def at(self, machine: Machine, address: str) -> Hub:
        """A hub at a host."""
        found = Hub(machine, prefix=("ip", "netns", "exec", self.names[machine.name]), address=f"{address}:8730", environment={"STAND_IN_PAUSE": "0.05"})
        self.addCleanup(found.end)
        return found

    def lead(self, machines: Dict[str, str]) -> None:
        """Writes which shop is led to which host."""
        with open(f"{self.road.path}/machines", "w", encoding="ascii") as file:
            file.write("".join(f"{shop} {machine};\n" for shop, machine in machines.items()))

    def start_nginx(self) -> "subprocess.Popen[bytes]":
        """Runs nginx by the example of docs/HOSTING.md, in clear."""
        with open(os.path.join(HERE, "..", "docs", "HOSTING.md"), encoding="utf-8") as page:
            found = re.search(r"```nginx\n(.*?)```", page.read(), re.DOTALL)
        assert found is not None
        example = re.sub(r" *ssl_certificate.*\n", "", found[1]).replace("listen 443 ssl", f"listen {PROXY}:8080")
        for old, new in (("10.0.0.11", A), ("10.0.0.12", B), ("/etc/nginx/verifactu-machines", f"{self.road.path}/machines")):
            self.assertIn(old, example)
            example = example.replace(old, new)
        lines = ["daemon off;", "worker_processes 1;", f"pid {self.road.path}/pid;", f"error_log {self.road.path}/error.log;", "events {}", "http {",
                 "access_log off;", example, "}"]
        with open(f"{self.road.path}/nginx.conf", "w", encoding="utf-8") as file:
            file.write("\n".join(lines))
        words = ["ip", "netns", "exec", self.names["proxy"], "nginx", "-c", f"{self.road.path}/nginx.conf", "-e", f"{self.road.path}/error.log"]
        nginx = subprocess.Popen(words)
        self.addCleanup(nginx.wait)
        self.addCleanup(nginx.terminate)
        return nginx

    def sell_at(self, address: str, shop: str, till: int, serial: int) -> Tuple[int, Any]:
        """A sale that is asked at one host, without the proxy: status and answer."""
        body = json.dumps({"serial": serial, "series": f"T{till}", "kind": "F2", "lines": [{"class": "21", "base": 1000}]})
        words = ["ip", "netns", "exec", self.names["proxy"], PYTHON, "-c", CODE, f"http://{address}:8730/shops/{shop}/v1/sales", self.road.till[shop, till], body]
        status, answer = json.loads(subprocess.run(words, stdout=subprocess.PIPE, text=True, check=True).stdout)
        return int(status), answer

    def test_the_shops_of_a_host_that_is_lost_go_on_at_another(self) -> None:
        count = max(20, Options.sales // 2)
        first, second = Machine(self.road, "a", self.shops[:2]), Machine(self.road, "b", self.shops[2:])
        hubs = [self.at(first, A), self.at(second, B)]
        self.lead({"s1": "a", "s2": "a", "s3": "b", "s4": "b"})
        nginx = self.start_nginx()
        sellers = {shop: [Till(8080, number, self.road.till[shop, number], PROXY, f"/shops/{shop}") for number in range(1, 5)] for shop in self.shops}
        everyone = [till for some in sellers.values() for till in some]
        work = threading.Thread(target=lambda: tills.run(tills.sell_together(everyone, count)), daemon=True)
        work.start()
        until(lambda: sum(len(till.sold) for shop in self.shops[:2] for till in sellers[shop]) >= 8 * count // 3, "a third is sold", 600)
        programs = hubs[0].programs()
        self.assertEqual(len(programs), 2)
        hubs[0].process.kill()
        hubs[0].wait()
        until(lambda: not any(os.path.exists(f"/proc/{process}") for process in programs), "the programs are lost with their hub")
        second.serve(self.shops)
        hubs[1].process.send_signal(signal.SIGHUP)
        self.lead({shop: "b" for shop in self.shops})
        nginx.send_signal(signal.SIGHUP)
        work.join(600)
        self.assertFalse(work.is_alive())
        self.assertGreater(sum(till.repeats for shop in self.shops[:2] for till in sellers[shop]), 0)
        self.assertEqual(hubs[1].stop(), 0)
        for shop in self.shops:
            self.stands_once(self.road, shop, sellers[shop], count)

    def test_two_hosts_that_both_believe_they_own_a_shop_do_not_both_write(self) -> None:
        first = self.at(Machine(self.road, "a", ["s1"]), A)
        status, answer = self.sell_at(A, "s1", 1, 1)
        self.assertEqual((status, answer["answer"]), (201, "taken"))
        self.at(Machine(self.road, "b", ["s1", "s2"]), B)
        status, answer = self.sell_at(B, "s1", 2, 1)
        self.assertEqual((status, answer["type"]), (503, "urn:verifactu:unavailable"))
        self.assertIn("in use by another program", answer["detail"])
        self.assertEqual(self.sell_at(B, "s2", 1, 1)[0], 201)
        self.assertEqual(self.sell_at(A, "s1", 1, 2)[0], 201)
        self.assertEqual(first.stop(), 0)
        end = time.monotonic() + PATIENCE
        while self.sell_at(B, "s1", 2, 1)[0] == 503 and time.monotonic() < end:
            time.sleep(0.5)
        self.assertEqual(self.sell_at(B, "s1", 1, 2)[1]["answer"], "again")
        self.assertEqual(self.sell_at(B, "s1", 2, 1)[1]["answer"], "again")
        self.assertEqual(self.count(self.road, "s1").split(" ")[1], "3")


if __name__ == "__main__":
    unittest.main()
