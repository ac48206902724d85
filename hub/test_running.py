"""A hub under load: kills of the program and of the hub, stops, a full disk, slow connections, another machine."""
from __future__ import annotations

import asyncio
import json
import os
import resource
import signal
import socket
import subprocess
import threading
import time
import unittest
from typing import Any, Dict, List, Optional

import tills
from tills import Slow, Till
from trying import HUB, NIF, PATIENCE, Agency, Answer, Hub, Options, Place, read_answer, until

TILLS = 64


class Running(unittest.TestCase):
    """A place, and hubs that a test starts."""

    def setUp(self) -> None:
        self.place = Place()
        self.addCleanup(self.place.remove)
        self.agency = Agency(self.place)
        self.addCleanup(self.agency.end)

    def hub(self, *words: str, agency: bool = True, environment: Optional[Dict[str, str]] = None, **more: Any) -> Hub:
        """Starts a hub, with the practice agency that answers at once unless it is said otherwise."""
        found = Hub(self.place, *(self.agency.words if agency else []), *words, environment={**self.agency.environment, **(environment or {})}, **more)
        self.addCleanup(found.end)
        return found

    def with_one_that_waits(self) -> Hub:
        """A hub over the program's own agency, whose pause one of two records sits out."""
        hub = self.hub(agency=False, environment={"STAND_IN_PAUSE": "1000"})
        for serial in (1, 2):
            self.assertEqual(hub.sell(1, serial).status, 201)
            until(lambda: hub.state()["noted"] >= 1, "the first one is noted")
        return hub

    def rows(self) -> List[List[str]]:
        """The file's listing, once nobody writes it."""
        status, text = self.place.run("list", self.place.file, "all")
        self.assertEqual(status, 0)
        return [line.split(" ") for line in text.splitlines()[:-1]]

    def is_sound(self) -> None:
        """Whether the file audits as sound."""
        status, text = self.place.run("audit", self.place.file)
        self.assertEqual((status, text.split(" ")[0]), (0, "sound"))

    def many(self, hub: Hub, count: int = TILLS) -> List[Till]:
        """Tills of this hub."""
        return [Till(hub.port, number, self.place.till[number]) for number in range(1, count + 1)]

    def stands_once(self, sellers: List[Till], count: int) -> None:
        """Whether each sale stands once, as it was answered, in each till's order."""
        self.assertEqual([till.fault for till in sellers if till.fault], [])
        self.assertEqual(tills.faults(sellers, self.rows(), count)[:3], [])
        self.is_sound()


class KillTest(Running):
    """Whatever is killed, each sale stands once."""

    def test_64_tills_with_ten_kills_of_the_program_and_one_of_the_hub(self) -> None:
        port = self.free_port()
        hubs = [self.hub(address=f"127.0.0.1:{port}")]
        sellers = self.many(hubs[0])
        work = threading.Thread(target=lambda: tills.run(tills.sell_together(sellers, Options.sales)))
        work.start()
        for part in range(1, 12):
            wanted = part * TILLS * Options.sales // 13
            until(lambda: sum(len(till.sold) for till in sellers) >= wanted, f"{wanted} sales", 600)
            if part == 6:
                hubs[0].process.kill()
                hubs[0].wait()
                hubs.append(self.hub(address=f"127.0.0.1:{port}"))
            else:
                hubs[-1].kill_program()
        work.join(600)
        self.assertFalse(work.is_alive())
        starts = until(lambda: hubs[1].state().get("starts"), "the state")
        self.assertEqual(hubs[1].stop(), 0)
        self.stands_once(sellers, Options.sales)
        self.assertGreaterEqual(starts, 5)  # one and, after the hub's kill, five; two may fall together

    def free_port(self) -> int:
        """A port that was free a moment ago."""
        hub = self.hub()
        hub.end()
        return hub.port

    def test_the_program_dies_with_a_hub_that_is_killed(self) -> None:
        hub = self.with_one_that_waits()
        program = hub.program()
        hub.process.kill()
        hub.wait()
        until(lambda: not os.path.exists(f"/proc/{program}"), "the program has ended, its agency's pause or not", 30)
        self.assertEqual(self.hub().sell(1, 2).json["answer"], "again")


class OrderTest(Running):
    """A till's requests, one after another."""

    def together(self, asked: List[Any]) -> List[Answer]:
        """Asks all at once."""
        answers: List[Answer] = []
        threads = [threading.Thread(target=lambda one=one: answers.append(one())) for one in asked]
        for thread in threads:
            thread.start()
        for thread in threads:
            thread.join(PATIENCE)
        return answers

    def test_two_requests_under_one_serial_at_once_are_one_sale(self) -> None:
        hub = self.hub()
        for serial in range(1, 11):
            answers = self.together([lambda total=total: hub.sell(1, serial, total) for total in (1000, 2000)])
            self.assertEqual(sorted(answer.json["answer"] for answer in answers), ["again", "taken"])
            self.assertEqual(len({answer.json["huella"] for answer in answers}), 1)
            self.assertEqual(len({answer.json["ticket"]["total"] for answer in answers}), 1)
        self.assertEqual(hub.state()["records"], 10)

    def test_the_fifth_request_of_a_till_is_too_many_and_others_are_not_held_up(self) -> None:
        hub = self.hub()
        self.assertEqual(hub.sell(1, 1).status, 201)
        program = hub.program()
        os.kill(program, signal.SIGSTOP)
        connections = [hub.connect() for _ in range(5)]
        for serial, connection in enumerate(connections, 2):
            body = json.dumps({"serial": serial, "series": "A", "kind": "F2", "lines": [{"class": "21", "base": 1}]})
            head = f"POST /v1/sales HTTP/1.1\r\nHost: hub\r\nAuthorization: Bearer {self.place.till[1]}\r\nContent-Length: {len(body)}\r\n\r\n"
            connection.sendall(f"{head}{body}".encode())
            time.sleep(0.2)
        fifth = read_answer(connections[4])
        assert fifth is not None
        self.assertEqual((fifth.status, fifth.name, fifth.headers["retry-after"]), (429, "too-many", "1"))
        os.kill(program, signal.SIGCONT)
        answers = [read_answer(connection) for connection in connections[:4]]
        # in the order in which they came
        self.assertEqual([answer and answer.json["num"] for answer in answers], ["A-1", "A-2", "A-3", "A-4"])
        for connection in connections:
            connection.close()


class LimitTest(Running):
    """Thirty seconds, and no answer that isn't known."""

    def test_a_request_that_is_not_answered_in_30_seconds_is_503_and_its_record_may_stand(self) -> None:
        hub = self.hub()
        self.assertEqual(hub.sell(1, 1).status, 201)
        program = hub.program()
        os.kill(program, signal.SIGSTOP)
        began = time.monotonic()
        late = hub.sell(1, 2, lines=[{"class": "21", "base": 1000}])
        seconds = time.monotonic() - began
        os.kill(program, signal.SIGCONT)
        self.assertEqual((late.status, late.name, late.headers["retry-after"]), (503, "unavailable", "2"))
        self.assertTrue(29 < seconds < 40, seconds)
        again = hub.sell(1, 2)
        self.assertEqual((again.status, again.json["answer"]), (200, "again"))
        self.assertEqual(hub.state()["records"], 2)


class StopTest(Running):
    """The end in order."""

    def test_a_stop_amid_64_requests(self) -> None:
        hub = self.hub(environment={"STAND_IN_SLEEP": "0.01"})
        sellers = self.many(hub)

        async def sell_until_stopped() -> None:
            tasks = [asyncio.ensure_future(till.sell(10_000)) for till in sellers]
            while sum(len(till.sold) for till in sellers) < 2 * TILLS:
                await asyncio.sleep(0.01)
            hub.process.send_signal(signal.SIGTERM)
            await asyncio.get_running_loop().run_in_executor(None, hub.wait)
            for task in tasks:
                task.cancel()
            await asyncio.gather(*tasks, return_exceptions=True)

        tills.run(sell_until_stopped())
        self.assertEqual(hub.process.returncode, 0)
        rows = self.rows()
        at = {row[2]: int(row[0]) for row in rows}
        told = {num: place for till in sellers for place, num, _ in till.sold.values()}
        # each answered is there, and what is there was answered: nothing under way was cut off
        self.assertEqual({num: at.get(num) for num in told}, told)
        self.assertEqual(len(rows), len(told))
        self.is_sound()
        again = self.hub()
        for till in sellers:
            serial = len(till.sold) + 1
            answer = again.sell(till.number, serial)
            self.assertEqual((answer.json["answer"], answer.json["num"]), ("taken", f"T{till.number}-{serial}"))

    def test_a_stop_answers_what_is_under_way_and_hands_over_what_waits(self) -> None:
        hub = self.hub()
        self.assertEqual(hub.sell(1, 1).status, 201)
        program = hub.program()
        os.kill(program, signal.SIGSTOP)
        answers: List[Answer] = []
        under_way = threading.Thread(target=lambda: answers.append(hub.sell(1, 2)))
        under_way.start()
        time.sleep(2)
        hub.process.send_signal(signal.SIGTERM)
        until(lambda: hub.ask("GET", "/health").status == 503, "new requests get 503")
        self.assertEqual(hub.sell(2, 1).status, 503)
        os.kill(program, signal.SIGCONT)
        under_way.join(PATIENCE)
        self.assertEqual((answers[0].status, answers[0].json["answer"]), (201, "taken"))
        self.assertEqual(hub.wait(), 0)
        status, text = self.place.run("list", self.place.file, "waiting")
        self.assertEqual((status, text), (0, "chain 2 noted 2\n"))

    def test_a_second_signal_kills_the_program_at_once(self) -> None:
        hub = self.with_one_that_waits()
        hub.process.send_signal(signal.SIGINT)
        time.sleep(1)
        self.assertIsNone(hub.process.poll())
        self.assertEqual(hub.stop(signal.SIGINT), 137)
        self.is_sound()

    def test_an_end_that_no_restart_mends_is_the_hubs(self) -> None:
        self.assertEqual(self.place.run("serve", self.place.file, "12345678Z")[0], 0)
        until(lambda: os.path.exists(self.place.file), "the file is another issuer's")
        hub = self.hub()
        self.assertEqual(hub.wait(), 13)

    def test_a_file_that_another_program_holds_is_waited_for(self) -> None:
        first = self.hub()
        self.assertEqual(first.sell(1, 1).status, 201)
        second = self.hub()
        until(lambda: second.logged("in use by another program"), "the second one is told")
        self.assertEqual(first.stop(), 0)
        until(lambda: second.sell(1, 2).status == 201, "the second one sells")


class DiskTest(Running):
    """A full disk."""

    def test_a_full_disk_is_503_and_then_taken_and_nothing_stands_twice(self) -> None:
        disk = os.path.join(self.place.path, "disk")
        os.mkdir(disk)
        mounted = subprocess.run(["mount", "-t", "tmpfs", "-o", "size=256k", "tmpfs", disk], stderr=subprocess.DEVNULL, check=False)
        if mounted.returncode:
            self.skipTest("a small disk can't be mounted here")
        self.addCleanup(subprocess.call, ["umount", disk])
        self.place.file = os.path.join(disk, "shop.chain")
        hub = self.hub()
        self.assertEqual(hub.sell(1, 1).status, 201)
        filler = os.path.join(disk, "filler")
        with open(filler, "wb", buffering=0) as file:
            try:
                while True:
                    file.write(b"x" * 1024)
            except OSError:
                pass
        serial, answer = 1, hub.sell(1, 1)
        while answer.status in (200, 201) and serial < 2_000:
            serial += 1
            answer = hub.sell(1, serial)
        self.assertEqual((answer.status, answer.name), (503, "unavailable"))
        os.remove(filler)
        until(lambda: hub.sell(1, serial).status in (200, 201), "it is taken")
        self.assertEqual(hub.sell(1, serial).json["answer"], "again")
        hub.stop()
        self.assertEqual([row[2] for row in self.rows()], [f"T1-{number}" for number in range(1, serial + 1)])
        self.is_sound()

    def test_a_limit_on_the_files_size_is_a_fault_of_the_disk_and_its_reason_is_told(self) -> None:
        limited = os.path.join(self.place.path, "limited")
        with open(limited, "w", encoding="utf-8") as file:  # it ends by the signal at once, unless that is ignored
            file.write(f'#!/bin/sh\nkill -s XFSZ $$\nulimit -f 20\nexec {Options.program} "$@"\n')
        os.chmod(limited, 0o700)
        hub = self.hub(program=limited)
        serial, answer = 1, hub.sell(1, 1)
        while answer.status == 201 and serial < 2_000:
            serial += 1
            answer = hub.sell(1, serial)
        self.assertEqual((answer.status, answer.name), (503, "unavailable"))
        self.assertGreater(serial, 5)
        self.assertTrue(hub.logged(r"shop\.chain: input or output error$"), hub.log)
        self.assertFalse(hub.logged(f"ended with status {128 + signal.SIGXFSZ}"), hub.log)
        hub.end()
        hub = self.hub()
        self.assertIn(hub.sell(1, serial).json["answer"], ("taken", "again"))
        hub.stop()
        self.assertEqual([row[2] for row in self.rows()], [f"T1-{number}" for number in range(1, serial + 1)])
        self.is_sound()


class SlowTest(Running):
    """Connections that are silent, or send a byte a second, and tills beside them."""

    @classmethod
    def setUpClass(cls) -> None:
        hard = resource.getrlimit(resource.RLIMIT_NOFILE)[1]
        resource.setrlimit(resource.RLIMIT_NOFILE, (hard, hard))

    def sell_beside(self, slow_ones: int, count: int, sellers: int, kinds: int) -> "tuple[Hub, List[Till], int]":
        """Tills that sell beside so many slow connections, over a hub that begins with 1,024 file handles; how many it had."""
        hub = self.hub(prefix=("prlimit", "--nofile=1024:8192"))
        some, slow = self.many(hub, sellers), Slow(hub.port, slow_ones, self.place.owner, kinds)
        handles = 0

        async def work() -> None:
            nonlocal handles
            await slow.begin()
            for _ in range(600):
                await asyncio.sleep(0.1)
                if slow.opened == slow_ones:
                    break
            await asyncio.sleep(3)  # those that are too many are accepted first, and then closed
            handles = len(os.listdir(f"/proc/{hub.process.pid}/fd"))
            await tills.sell_together(some, count)
            slow.stop()

        tills.run(work())
        return hub, some, handles

    def test_1000_slow_connections_and_64_tills(self) -> None:
        count = max(2, Options.sales // 10)
        hub, sellers, _ = self.sell_beside(1_000, count, TILLS, 3)
        with open(f"/proc/{hub.process.pid}/status", encoding="utf-8") as status:
            peak = next(int(line.split()[1]) for line in status if line.startswith("VmHWM"))
        self.assertLess(peak, 100_000)
        self.assertEqual([till.repeats for till in sellers], [0] * len(sellers))
        self.assertEqual(hub.stop(), 0)
        self.stands_once(sellers, count)

    def test_2500_slow_connections_and_eight_tills(self) -> None:
        hub, sellers, handles = self.sell_beside(2_500, 5, 8, 2)
        # beyond 2,000 those that have owed a request longest are closed, and never a till amid its request
        self.assertTrue(1_900 < handles < 2_100, handles)
        self.assertEqual(hub.stop(), 0)
        self.stands_once(sellers, 5)

    def test_a_request_must_have_arrived_within_75_seconds(self) -> None:
        hub = self.hub()
        slow = Slow(hub.port, 6, self.place.owner)

        async def work() -> None:
            await slow.begin()
            await asyncio.wait(slow.tasks, timeout=100)

        tills.run(work())
        self.assertEqual([70 < seconds < 95 for seconds in slow.ends], [True] * 6, slow.ends)


class ReadyTest(Running):
    """What systemd is told."""

    def test_systemd_is_told_once_the_program_has_answered(self) -> None:
        path = os.path.join(self.place.path, "notify")
        with socket.socket(socket.AF_UNIX, socket.SOCK_DGRAM) as told:
            told.bind(path)
            told.settimeout(PATIENCE)
            hub = self.hub(environment={"NOTIFY_SOCKET": path})
            self.assertEqual(told.recv(100), b"READY=1")
            for is_sound in (True, False):
                if not is_sound:
                    os.chmod(self.place.tokens, 0o644)
                hub.process.send_signal(signal.SIGHUP)
                self.assertEqual([told.recv(100), told.recv(100)], [b"RELOADING=1", b"READY=1"])
                until(lambda: hub.logged("read again: tokens" if is_sound else "the old ones stay"), "the log says so")
            hub.process.send_signal(signal.SIGTERM)
            self.assertEqual(told.recv(100), b"STOPPING=1")
            self.assertEqual(hub.wait(), 0)


if __name__ == "__main__":
    unittest.main()
