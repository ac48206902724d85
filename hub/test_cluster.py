#!/usr/bin/python3
"""Machines that take over by themselves, tried with the real things: three machines of namespaces with systemd, Corosync, Pacemaker and
fence_ipmilan over ipmi_sim, by the units and the configuration that are shipped; 16 tills of 8 shops sell through the groups' addresses,
half of them over the proxy, while a machine is lost.

    hub/test_cluster.py [--program PATH] [--place FOLDER] [--rounds N] [--record] [FAULT ..]
    hub/test_cluster.py --recorded

FAULTs (all, N rounds each, 1): `kill` all processes of a machine at once, `cut` its cable, `freeze` it as a whole, `thaw` (frozen, and it goes
on after 4 to 14 s), `silent` (frozen or cut, while its fencing device is silent for a minute), `hub` (a hub's process is killed), `standby`
(a planned move). Root alone can run it, and it installs debootstrap, openipmi and nginx-light where they are missing. The tree of Debian in
FOLDER (/var/tmp/verifactu-cluster, 1 GB) is made once, within ten minutes; a round takes two.

It asserts of each round: each sale that was answered stands once in its shop's export, as answered, in its till's order; files audit as
sound; no two machines have a process of one group's hub or adapter at a sampled moment; each till sells again within 120 s of the fault, and
behind a silent device of its end, and nobody took over before; no sale waits longer. Of the shops with an adapter the agency has each record once, in order.

--record writes hub/cluster.record: the files that this was run over, and what was seen. --recorded says which have changed since.
"""
from __future__ import annotations

import argparse
import asyncio
import datetime
import fcntl
import hashlib
import json
import os
import random
import re
import shutil
import subprocess
import sys
import time
from typing import Any, Dict, List, Optional, Tuple

from cluster_place import CLUSTER, GROUPS, HERE, MACHINES, ROOT, SIDE, WITH_ADAPTER, Place, shops_of, text_of
from tills import Till

FAULTS = ("kill", "cut", "freeze", "thaw", "silent", "hub", "standby")
LIMIT = 120  # seconds after which a till that doesn't sell again has failed
SILENCE = 60
PROXY_PORT = 8080
RECORD = os.path.join(HERE, "cluster.record")
COMMANDS = {"debootstrap": "debootstrap", "ipmi_sim": "openipmi", "nginx": "nginx-light", "ip": "iproute2"}
INSIDE = "VERIFACTU_CLUSTER_INSIDE"
Seen = Dict[str, Any]


class ClusterTill(Till):
    """A till that sells until it is stopped. `moments` has when each answered sale was first asked, and when it was answered."""

    def __init__(self, group: int, shop: str, number: int, token: str) -> None:
        over_proxy = number == 2
        address, port = (SIDE, PROXY_PORT) if over_proxy else (f"10.0.0.10{group}", 8730)
        super().__init__(port, number, token, address, f"/shops/{shop}")
        self.shop, self.group = shop, group
        self.patience = 40 if over_proxy else 5
        self.serial = 1
        self.stopped = False
        self.moments: List[Tuple[float, float]] = []

    async def sell_on(self) -> None:
        """Sells a ticket each second, and asks the same again where it isn't answered."""
        self.stopped, self.moments, self.repeats = False, [], 0
        began = time.time()
        while not self.stopped:
            body = json.dumps({"serial": self.serial, "series": f"T{self.number}", "kind": "F2", "lines": [{"class": "21", "base": self.serial}]})
            try:
                is_answered = await asyncio.wait_for(self.ask(self.serial, body), self.patience)
            except asyncio.TimeoutError:
                self.close()
                is_answered = False
            if is_answered:
                self.moments.append((began, time.time()))
                self.serial += 1
                await asyncio.sleep(0.8)
                began = time.time()
            else:
                self.repeats += 1
                await asyncio.sleep(0.5)
        self.close()

    def again_after(self, moment: float) -> Optional[float]:
        """Seconds from a moment to the first answer to a sale that was first asked after it."""
        return next((ended - moment for began, ended in self.moments if began > moment), None)

    def longest_wait(self, moment: float) -> float:
        """The longest that a sale waited for its answer, of those that were answered after a moment."""
        return max((ended - began for began, ended in self.moments if ended > moment), default=0.0)


class Watch:
    """Which machines have a process of each group, looked at five times a second."""

    def __init__(self, place: Place) -> None:
        self.place = place
        self.seen: List[Tuple[float, Dict[int, List[int]]]] = []
        self.overlaps: List[str] = []
        self.stopped = False

    async def run(self) -> None:
        """Looks until it is stopped."""
        while not self.stopped:
            hubs = {group: self.place.units("verifactu-group", group) for group in GROUPS}
            adapters = {group: self.place.units("verifactu-group-agency", group) for group in WITH_ADAPTER}
            for kind, at in (("hubs", hubs), ("adapters", adapters)):
                self.overlaps += [f"{kind} of g{group} at {machines}" for group, machines in at.items() if len(machines) > 1]
            self.seen.append((time.time(), hubs))
            await asyncio.sleep(0.2)

    def taken_over(self, groups: List[int], victim: int, before: float) -> bool:
        """Whether another machine than the victim had one of these groups before a moment."""
        return any(set(at[group]) - {victim} for moment, at in self.seen if moment < before for group in groups)


class Trial:
    """The tills, and rounds of faults."""

    def __init__(self, place: Place) -> None:
        self.place = place
        self.tills: List[ClusterTill] = []
        self.rng = random.Random()
        for group in GROUPS:
            for line in text_of(f"{place.shared}/g{group}/tokens").splitlines():
                _, shop, number, token = line.split()
                self.tills.append(ClusterTill(group, shop, int(number), token))

    async def later(self, work: Any, *words: Any) -> Any:
        """Something that takes a while, beside the tills."""
        return await asyncio.get_running_loop().run_in_executor(None, work, *words)

    async def whole(self, seconds: float = 300) -> bool:
        """Waits until the cluster is whole."""
        end = time.time() + seconds
        while time.time() < end:
            try:
                if await self.later(self.place.is_whole):
                    return True
            except subprocess.TimeoutExpired:
                pass
            await asyncio.sleep(1)
        return False

    async def round(self, fault: str, number: int) -> Seen:
        """One fault, and what came of it; `wrong` has to be empty."""
        if not await self.whole():
            return {"fault": fault, "round": number, "wrong": ["the cluster wasn't whole before"]}
        watch = Watch(self.place)
        loop = asyncio.get_running_loop()
        watching = loop.create_task(watch.run())
        selling = [loop.create_task(till.sell_on()) for till in self.tills]
        await self.all_tills(lambda till: len(till.moments) >= 3, 90)
        await asyncio.sleep(self.rng.random())
        at = watch.seen[-1][1]
        victim = max(MACHINES, key=lambda machine: (sum(machine in machines for machines in at.values()), self.rng.random()))
        lost = [group for group, machines in at.items() if victim in machines]
        result: Seen = {"fault": fault, "round": number, "victim": f"n{victim}", "groups": lost, "load": round(os.getloadavg()[0], 1)}
        moment = time.time()
        result["wrong"] = await self.strike(fault, number, victim, lost, watch)
        since = moment + SILENCE if fault == "silent" else moment
        await self.all_tills(lambda till: till.again_after(since) is not None, LIMIT + since - time.time() + 10)
        await asyncio.sleep(2)
        if fault == "standby":
            await self.later(self.place.host, victim, "in", "crm", "node", "online")
        result["whole again"] = await self.whole()
        for till in self.tills:
            till.stopped = True
        await asyncio.wait(selling, timeout=60)
        watch.stopped = True
        await watching
        self.judge(result, since, lost, watch, selling)
        result["wrong"] += await self.later(self.files_wrong)
        return result

    async def all_tills(self, true: Any, seconds: float) -> None:
        """Waits until something is true of all tills."""
        end = time.time() + seconds
        while time.time() < end and not all(map(true, self.tills)):
            await asyncio.sleep(0.1)

    async def strike(self, fault: str, number: int, victim: int, lost: List[int], watch: Watch) -> List[str]:
        """Does it; what is wrong already."""
        began = time.time()
        if fault == "hub":
            os.kill(self.place.hub_process(victim, lost[0]), 9)
        elif fault == "standby":
            await self.later(self.place.host, victim, "in", "crm", "node", "standby")
        elif fault == "silent":
            self.place.box(victim, False)
            await self.later(self.place.host, victim, "freeze" if number % 2 else "cut")
            await asyncio.sleep(SILENCE - (time.time() - began))
            self.place.box(victim, True)
            return [f"taken over before the device answered: {lost}"] if watch.taken_over(lost, victim, began + SILENCE) else []
        else:
            await self.later(self.place.host, victim, {"kill": "off", "cut": "cut"}.get(fault, "freeze"))
            if fault == "thaw":
                await asyncio.sleep(4 + 10 * self.rng.random())
                await self.later(self.place.host, victim, "thaw")
        return []

    def judge(self, result: Seen, since: float, lost: List[int], watch: Watch, selling: List["asyncio.Task[None]"]) -> None:
        """What the tills and the samples show."""
        again = {till: till.again_after(since) for till in self.tills}
        most_wait = LIMIT + (SILENCE if result["fault"] == "silent" else 0)
        wrong = result["wrong"]
        wrong += [f"{till.shop} till {till.number} doesn't sell again within {LIMIT} s" for till, seconds in again.items() if seconds is None or seconds > LIMIT]
        wrong += [f"{till.shop} till {till.number}: {task.exception()}" for till, task in zip(self.tills, selling) if task.done() and task.exception()]
        wrong += sorted(set(watch.overlaps)) + ([] if result["whole again"] else ["the cluster isn't whole afterwards"])
        waits = {till: till.longest_wait(since) for till in self.tills}
        wrong += [f"{till.shop} till {till.number}: a sale waits {wait:.0f} s" for till, wait in waits.items() if wait > most_wait]
        result["longest wait"] = round(max(wait for till, wait in waits.items() if till.group in lost), 1)
        of_lost = [(till, seconds or 999.0) for till, seconds in again.items() if till.group in lost]
        result["sells after"] = round(max(seconds for till, seconds in of_lost if till.number == 1), 1)
        result["over the proxy"] = round(max(seconds for till, seconds in of_lost if till.number == 2), 1)
        result["samples"], result["sales"] = len(watch.seen), sum(len(till.moments) for till in self.tills)
        result["asked again"] = sum(till.repeats for till in self.tills)
        power = [line.split() for line in text_of(f"{self.place.path}/power").splitlines()]
        offs = [float(words[0]) - since for words in power if float(words[0]) > since and words[2:4] == ["power", "0"]]
        result["power off after"] = round(offs[0], 1) if offs else None

    # ---- the files

    def ask(self, *words: str) -> "subprocess.CompletedProcess[str]":
        """A command of the program."""
        return subprocess.run([self.place.program, *words], stdin=subprocess.DEVNULL, stdout=subprocess.PIPE, text=True, check=False)

    def files_wrong(self) -> List[str]:
        """What is wrong with the shops' files, and with what their agencies have."""
        wrong: List[str] = []
        for group in GROUPS:
            for shop in shops_of(group):
                file = f"{self.place.shared}/g{group}/{shop}.chain"
                audit = self.ask("audit", file)
                if audit.returncode or not audit.stdout.startswith("sound "):
                    wrong.append(f"{shop}: audit {audit.returncode}: {audit.stdout.strip()}")
                records = [json.loads(line) for line in self.ask("export", file).stdout.splitlines()][1:]
                wrong += sales_wrong(shop, records, [till for till in self.tills if till.shop == shop])
                if group in WITH_ADAPTER:
                    wrong += self.agency_wrong(shop, file)
        return wrong

    def agency_wrong(self, shop: str, file: str) -> List[str]:
        """Whether a shop's agency has each record once, in order, once nothing waits."""
        end = time.time() + 60
        while time.time() < end and len(self.ask("list", file, "waiting").stdout.splitlines()) > 1:
            time.sleep(0.5)
        records = [json.loads(line)["huella"] for line in self.ask("export", file).stdout.splitlines() if '"huella"' in line and '"seconds"' in line]
        rows = [json.loads(line) for line in text_of(file.replace(".chain", ".journal.state")).splitlines()]
        processed = [content["huella"] for sort, content, _ in rows if sort == "processed"]
        return [] if processed == records else [f"{shop}: its agency has {len(processed)} records, its file {len(records)}, or in another order"]


def sales_wrong(shop: str, records: List[Any], tills: List[ClusterTill]) -> List[str]:
    """What is wrong with a shop's records: each answered sale stands once as it was answered, a till's in order, and no more than one of a till
    that wasn't answered."""
    wrong: List[str] = []
    records = [record for record in records if record["t"] == "alta"]
    nums = [record["num"] for record in records]
    if len(set(nums)) != len(nums):
        wrong.append(f"{shop}: a number stands twice")
    for till in tills:
        mine = [(place, record["num"], record["huella"]) for place, record in enumerate(records, 1) if record["num"].startswith(f"T{till.number}-")]
        answered = [till.sold[serial] for serial in sorted(till.sold)]
        in_order = [num for _, num, _ in mine] == [f"T{till.number}-{serial}" for serial in range(1, len(mine) + 1)]
        if not in_order or mine[:len(answered)] != answered or len(mine) > len(answered) + 1:
            wrong.append(f"{shop} till {till.number}: {len(mine)} records, {len(answered)} answered, or other ones")
    return wrong


# ---- the proxy


def begin_proxy(place: Place) -> "subprocess.Popen[bytes]":
    """nginx by the example, in clear and with one group more."""
    example = text_of(f"{CLUSTER}/nginx.conf").replace("listen 443 ssl", f"listen {SIDE}:{PROXY_PORT}").replace("/etc/nginx/", f"{place.path}/proxy/")
    example = re.sub(r" *ssl_certificate.*\n", "", example)
    fourth = "upstream g4 { server 10.0.0.104:8730 max_fails=0; keepalive 64; }\n"
    at = f"{place.path}/proxy"
    place.put("verifactu-groups", "".join(f"{shop} g{group};\n" for group in GROUPS for shop in shops_of(group)), below=at)
    head = f"daemon off;\nworker_processes 1;\npid {at}/pid;\nerror_log {at}/error.log;\nevents {{}}\n"
    place.put("nginx.conf", f"{head}http {{\naccess_log off;\n{example}{fourth}}}\n", below=at)
    os.chmod(place.path, 0o755)
    return subprocess.Popen(["nginx", "-c", f"{at}/nginx.conf", "-e", f"{at}/error.log"])


# ---- the record


def run_over() -> List[str]:
    """The files that a run rests on."""
    ours = re.compile(r"(hub_\w+|verifactu_hub|cluster_place|test_cluster|tills)\.py|cluster_host\.sh")
    hub = [f"hub/{name}" for name in sorted(os.listdir(HERE)) if ours.fullmatch(name)]
    units = [f"examples/systemd/{name}" for name in ("verifactu-group@.service", "verifactu-group-agency@.service")]
    return hub + units + [f"examples/cluster/{name}" for name in sorted(os.listdir(CLUSTER))] + ["examples/agency/agency.py", "examples/agency/skeleton.py"]


def sum_of(name: str) -> str:
    """A file's sum."""
    with open(os.path.join(ROOT, name), "rb") as file:
        return hashlib.sha256(file.read()).hexdigest()


def write_record(over: Dict[str, str], results: List[Seen], program: str) -> None:
    """What was run, over which files as they were when it began."""
    version = subprocess.run([program, "--version"], stdout=subprocess.PIPE, text=True, check=True).stdout.splitlines()
    lines = [f"# hub/test_cluster.py --record wrote this on {datetime.date.today()}: what it was run over, and what was seen (seconds from the fault)."]
    lines += [f"over {over[name]} {name}" for name in over] + [f"program {sum_of(program)} {' '.join(version)}"]
    lines += ["seen " + json.dumps(result) for result in results]
    with open(RECORD, "w", encoding="utf-8") as file:
        file.write("\n".join(lines) + "\n")


def recorded() -> int:
    """Says which files have changed since the run that is recorded; 1 where there is none, or one in which something was wrong."""
    rows = [line.split(" ", 2) for line in text_of(RECORD).splitlines()] if os.path.exists(RECORD) else []
    over = {words[2]: words[1] for words in rows if words[0] == "over"}
    seen = [json.loads(" ".join(words[1:])) for words in rows if words[0] == "seen"]
    if {result["fault"] for result in seen} != set(FAULTS) or any(result["wrong"] for result in seen):
        print("hub/cluster.record isn't that of a run of all faults in which nothing was wrong")
        return 1
    changed = [name for name in sorted({*over, *run_over()}) if not os.path.exists(os.path.join(ROOT, name)) or over.get(name) != sum_of(name)]
    if changed:
        print(f"hub/test_cluster.py hasn't been run since these changed: {' '.join(changed)}")
    return 0


# ---- the run


def have_commands(commands: Dict[str, str]) -> None:
    """Installs what is missing of these commands' packages."""
    missing = [package for command, package in commands.items() if shutil.which(command) is None]
    if missing:
        quiet = {"stdin": subprocess.DEVNULL, "stdout": subprocess.DEVNULL, "env": {**os.environ, "DEBIAN_FRONTEND": "noninteractive"}}
        for words in (["update"], ["install", "-y", "--no-install-recommends", *missing]):
            subprocess.run(["apt-get", *words], check=True, **quiet)  # type: ignore[call-overload]


async def rounds(trial: Trial, faults: List[str], options: argparse.Namespace) -> List[Seen]:
    """So many rounds of each fault, told as they end; recorded after one of each."""
    results: List[Seen] = []
    over = {name: sum_of(name) for name in run_over()}
    for number in range(1, options.rounds + 1):
        for fault in faults:
            result = await trial.round(fault, number)
            print(json.dumps(result), flush=True)
            results.append(result)
        if options.record and not any(result["wrong"] for result in results):
            write_record(over, results, trial.place.program)
    return results


def in_namespaces(script: str) -> int:
    """Runs a script of these tests again, with a network, mounts and processes of its own, which end with it."""
    words = ["unshare", "--net", "--mount", "--propagation", "private", "--pid", "--fork", "--kill-child", "--mount-proc", "bash", "-c", '"$@"; exit $?', "bash"]
    return subprocess.run([*words, sys.executable, os.path.realpath(script), *sys.argv[1:]], env={**os.environ, INSIDE: "1"}, check=False).returncode


def run(options: argparse.Namespace) -> int:
    """All of it, in namespaces of its own."""
    place = Place(options.place, os.path.realpath(options.program))
    place.make_files()
    place.make_groups()
    proxy = None
    try:
        place.begin()
        proxy = begin_proxy(place)
        results = asyncio.run(rounds(Trial(place), options.faults or list(FAULTS), options))
    finally:
        if proxy is not None:
            proxy.terminate()
            proxy.wait()
        place.end()
    wrong = [f"{result['fault']} {result['round']}: {fault}" for result in results for fault in result["wrong"]]
    print("\n".join(wrong) if wrong else f"{len(results)} rounds, {sum(result['sales'] for result in results)} sales: nothing wrong")
    return 1 if wrong else 0


def main() -> int:
    """0 where nothing is wrong."""
    parser = argparse.ArgumentParser(description="Machines that take over by themselves, tried with the real things.")
    parser.add_argument("--program", default=os.environ.get("VERIFACTU", "/usr/bin/verifactu"))
    parser.add_argument("--place", default="/var/tmp/verifactu-cluster")
    parser.add_argument("--rounds", type=int, default=1)
    parser.add_argument("--record", action="store_true")
    parser.add_argument("--recorded", action="store_true")
    parser.add_argument("faults", nargs="*", metavar="FAULT")
    options = parser.parse_args()
    if not set(options.faults) <= set(FAULTS):
        parser.error(f"FAULT is one of {', '.join(FAULTS)}")
    if options.recorded:
        return recorded()
    if INSIDE in os.environ:
        return run(options)
    if os.geteuid():
        print("hub/test_cluster.py is for root")
        return 1
    have_commands(COMMANDS)
    os.makedirs(options.place, exist_ok=True)
    alone = open(f"{options.place}/lock", "w", encoding="utf-8")
    fcntl.flock(alone, fcntl.LOCK_EX | fcntl.LOCK_NB)
    Place(options.place, options.program).make_tree()
    return in_namespaces(__file__)


if __name__ == "__main__":
    sys.exit(main())
