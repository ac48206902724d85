#!/usr/bin/python3
"""A group of shops on DRBD under Pacemaker, in three guests of qemu with Debian's kernel: two with a half of the disk, and a third vote.

    hub/test_cluster_disk.py [--program PATH] [--place FOLDER] [FAULT ..]

FAULTs (all, once each), of the guest that has the group: `kill` (its process is killed), `stop` (it stands still until it is fenced),
`pause` (it stands still for 72 s, until the others have just lost it, and goes on), `cut` (its network). Four tills of two shops sell
meanwhile. It asserts: each sale that was answered stands once in the survivor's file, as answered; files audit as sound; the halves never
parted, and are the same bytes once they are joined again. There is no limit of seconds but one for hangs: the guests have no help of the
processor, so the token is 30 s long, and each start and stop may take eight times what the example says. Root alone can run it; FOLDER is
that of hub/test_cluster.py, and takes 3 GB.
"""
from __future__ import annotations

import argparse
import asyncio
import glob
import json
import os
import re
import shutil
import socket
import subprocess
import sys
import time
from typing import Any, Dict, List

from cluster_place import BUSY, CLUSTER, HERE, MACHINES, Place, shops_of, text_of
from test_cluster import COMMANDS, INSIDE, ClusterTill, in_namespaces, have_commands, sales_wrong

FAULTS = ("kill", "stop", "pause", "cut")
HANGS_AFTER = 1_800  # seconds after which a guest is taken to hang
PAUSE = 72
SLOWER = 8  # times that starts and stops may take longer than the example says
# A fenced guest would be back before the other one has taken over, where a machine needs a minute: so it stays off until the test switches it on.
STAY_OFF = BUSY + "stonith-action=off "
OF_GUESTS = {"qemu-system-x86_64": "qemu-system-x86", "qemu-img": "qemu-utils", "busybox": "busybox-static", "mke2fs": "e2fsprogs"}
MODULES = ("virtio_pci", "virtio_blk", "virtio_net", "crc32c_generic", "ext4", "drbd")
HALF = 63 << 20  # bytes of a disk that are the group's: the rest has DRBD's own
INIT = """#!/bin/busybox sh
/bin/busybox --install -s /bin
mkdir -p /proc /sys /dev /root
mount -t proc proc /proc; mount -t sysfs sysfs /sys; mount -t devtmpfs devtmpfs /dev
for module in $(cat /modules/order); do insmod /modules/$module.ko; done
for word in $(cat /proc/cmdline); do case $word in n=*) n=${word#n=} ;; esac; done
while [ ! -e /dev/vda ] || ! ip link show eth0 >/dev/null 2>&1; do sleep 1; done
mount -t ext4 /dev/vda /root; echo n$n >/root/etc/hostname
ip link set lo up; ip addr add 10.0.0.1$n/24 dev eth0; ip link set eth0 up; ip route add default via 10.0.0.254
mount --move /dev /root/dev; mount --move /proc /root/proc; mount --move /sys /root/sys
exec switch_root /root /lib/systemd/systemd
"""
# A shell for the test, on a network that nobody else reaches; without ssh, whose keys take these guests a minute.
SHELL = {"shell.socket": "[Socket]\nListenStream=7000\nAccept=yes\n",
         "shell@.service": "[Service]\nExecStart=/bin/bash\nStandardInput=socket\nStandardError=inherit\nEnvironment=HOME=/root\n"}
# Beside other work a guest may get a twentieth of a processor: nothing of systemd's own gives up meanwhile.
PATIENT = {"system.conf.d/patient.conf": "[Manager]\nDefaultTimeoutStartSec=1h\nDefaultTimeoutStopSec=1h\n",
           "system/systemd-journald.service.d/patient.conf": "[Service]\nTimeoutStartSec=1h\nWatchdogSec=0\n"}
# What makes the group's disk, as docs/HOSTING.md says: MAKE at both machines, then FIRST at one of them.
MAKE = "modprobe drbd; drbdadm create-md --force g1 && drbdadm up g1"
FIRST = "drbdadm primary --force g1 && mkfs.ext4 -q /dev/drbd1 && mount /dev/drbd1 /srv/groups/g1 && tar xp -C /srv/groups/g1"


class Guests(Place):
    """Three guests of qemu."""

    script = os.path.join(HERE, "cluster_guest.sh")

    def make_kernel(self) -> None:
        """Debian's kernel, and a first file system with the modules that a guest needs."""
        at = f"{self.path}/kernel"
        if not os.path.isdir(at):
            depends = subprocess.run(["apt-cache", "depends", "linux-image-amd64"], stdout=subprocess.PIPE, text=True, check=True).stdout
            found = re.search(r"Depends: (linux-image-\S+)", depends)
            assert found is not None, depends
            os.makedirs(f"{self.path}/package", exist_ok=True)
            subprocess.run(["apt-get", "download", found[1]], cwd=f"{self.path}/package", check=True)
            subprocess.run(["dpkg", "-x", glob.glob(f"{self.path}/package/{found[1]}_*.deb")[0], at], check=True)
        shutil.copy(glob.glob(f"{at}/boot/vmlinuz-*")[0], f"{self.path}/vmlinuz")
        first = f"{self.path}/first"
        shutil.rmtree(first, ignore_errors=True)
        os.makedirs(f"{first}/bin")
        shutil.copy(shutil.which("busybox") or "", f"{first}/bin/busybox")
        self.put("init", INIT, 0o755, first)
        order: List[str] = []
        for name in MODULES:
            self.add_module(name, order)
        self.put("modules/order", " ".join(order), below=first)
        subprocess.run(f"cd {first} && find . | busybox cpio -o -H newc | gzip >{self.path}/initrd", shell=True, check=True, stderr=subprocess.DEVNULL)

    def module(self, name: str) -> str:
        """The path of a module of the kernel."""
        return glob.glob(f"{self.path}/kernel/lib/modules/*/kernel/**/{name}.ko", recursive=True)[0]

    def add_module(self, name: str, order: List[str]) -> None:
        """A module, after those that it depends on."""
        if name in order:
            return
        with open(self.module(name), "rb") as file:
            found = re.search(rb"\0depends=([a-z0-9_,]*)\0", file.read())
        assert found is not None, name
        for before in filter(None, found[1].decode().split(",")):
            self.add_module(before, order)
        os.makedirs(f"{self.path}/first/modules", exist_ok=True)
        shutil.copy(self.module(name), f"{self.path}/first/modules/{name}.ko")
        order.append(name)

    def make_image(self) -> None:
        """The file system of the guests: the tree, and over it what the packages and the example bring."""
        joined, empty = f"{self.path}/joined", f"{self.path}/empty"
        for folder in (joined, empty):
            os.makedirs(folder, exist_ok=True)
        subprocess.run(["mount", "-t", "overlay", "overlay", "-o", f"lowerdir={self.files}:{self.tree}", joined], check=True)
        for folder in ("usr/share/doc", "usr/share/locale", "usr/share/man", "var/cache", "var/lib/apt"):
            subprocess.run(["mount", "--bind", empty, f"{joined}/{folder}"], check=True)
        with open(f"{self.path}/guest.img", "wb") as image:
            image.truncate(1500 << 20)
        subprocess.run(["mke2fs", "-q", "-t", "ext4", "-F", "-d", joined, f"{self.path}/guest.img"], check=True)
        subprocess.run(["umount", "-R", joined], check=True)

    def make_files(self) -> None:
        """As of the other machines, with the DRBD resource, and the modules where they are looked for."""
        super().make_files()
        for name in ("verifactu-group@.service.d/machine.conf", "corosync.service.d/late.conf"):
            os.remove(f"{self.files}/etc/systemd/system/{name}")
        for name, text in SHELL.items():
            self.put(f"etc/systemd/system/{name}", text)
        for name, text in PATIENT.items():
            self.put(f"etc/systemd/{name}", text)
        os.makedirs(f"{self.files}/etc/systemd/system/sockets.target.wants")
        os.symlink("../shell.socket", f"{self.files}/etc/systemd/system/sockets.target.wants/shell.socket")
        self.put("etc/corosync/corosync.conf", text_of(f"{CLUSTER}/corosync.conf").replace("token: 3000", "token: 30000"))
        resource = text_of(f"{CLUSTER}/g1.res").replace("/dev/vg/g1", "/dev/vdb")
        resource = resource.replace("disk {", "disk { c-min-rate 0;").replace("crm-fence-peer.sh", "crm-fence-peer.sh --timeout=600 --dc-timeout=300")
        self.put("etc/drbd.d/g1.res", resource.replace("net {", "net { timeout 200; ping-int 30; ping-timeout 100; connect-int 30;"))
        for name in ("drbd", "lru_cache", "libcrc32c"):
            to = self.module(name).replace(f"{self.path}/kernel", f"{self.files}/usr")
            os.makedirs(os.path.dirname(to), exist_ok=True)
            shutil.copy(self.module(name), to)

    def configuration(self) -> str:
        """Of one group without adapters, on DRBD; all takes longer here."""
        group = re.sub(r"primitive g1-agency .*\n(?:  .*\n)*", "", text_of(f"{CLUSTER}/group.crm")).replace("g1-disk g1-agency", "g1-disk")
        made = text_of(f"{CLUSTER}/cluster.crm") + group + text_of(f"{CLUSTER}/group-drbd.crm")
        made = made.replace("property ", STAY_OFF).replace("power_wait=1", "power_wait=1 power_timeout=120 shell_timeout=60 login_timeout=60")
        return re.sub(r"(timeout|interval)=(\d+)s", lambda found: f"{found[1]}={SLOWER * int(found[2])}s", made)

    def host(self, number: int, *words: str, seconds: float = 60) -> "subprocess.CompletedProcess[str]":
        """A word of the script, or a command in a guest."""
        if words[0] != "in":
            return super().host(number, *words, seconds=seconds)
        return self.talk(number, " ".join(words[1:]), b"", seconds)

    def talk(self, number: int, line: str, given: bytes, seconds: float) -> "subprocess.CompletedProcess[str]":
        """A line of shell at a guest, with standard input: its status, 255 where the guest doesn't answer, and what it printed."""
        told = b""
        try:
            with socket.create_connection((f"10.0.0.1{number}", 7000), timeout=seconds) as shell:
                shell.sendall(f"{{ {line}\n}} 2>&1; echo \"= $?\"; exit\n".encode() + given)
                shell.shutdown(socket.SHUT_WR)
                while part := shell.recv(65_536):
                    told += part
        except OSError:
            pass
        text, found, status = told.decode(errors="replace").rpartition("= ")
        return subprocess.CompletedProcess(line, int(status) if found else 255, text, "")

    def do(self, number: int, line: str, given: bytes = b"") -> str:
        """A line of shell that has to end well."""
        done = self.talk(number, line, given, HANGS_AFTER)
        if done.returncode:
            raise AssertionError(f"n{number}: {line}: {done.returncode}: {done.stdout}")
        return done.stdout

    def begin(self) -> None:
        """The guests with empty disks, the group's disk, and the cluster's configuration."""
        self.begin_network()
        for number in MACHINES:
            shutil.rmtree(f"{self.path}/guest{number}", ignore_errors=True)
            self.host(number, "on")
        for number in MACHINES:
            self.wait_for("it is up", lambda n=number: self.host(n, "on").returncode == self.host(n, "in", "true").returncode == 0)  # type: ignore[misc]
        for number in (1, 2):
            self.do(number, MAKE)
        self.do(1, FIRST, subprocess.run(["tar", "c", "-C", f"{self.shared}/g1", "."], stdout=subprocess.PIPE, check=True).stdout)
        self.do(1, "umount /srv/groups/g1 && drbdadm secondary g1")
        self.do(1, "cat >/root/cluster.crm", self.configuration().encode())
        self.load("/root/cluster.crm", HANGS_AFTER)

    def wait_for(self, what: str, true: Any) -> None:
        """Until something is so."""
        end = time.time() + HANGS_AFTER
        while time.time() < end:
            if true():
                return
            time.sleep(2)
        raise AssertionError(f"not within {HANGS_AFTER} s: {what}")

    def owner(self) -> int:
        """The guest that has the whole group, where all is as it should be; else 0. What is off is switched on."""
        for number in MACHINES:
            self.host(number, "on")
        for number in MACHINES:
            told = self.host(number, "in", "crm_mon -1r; drbdadm dstate g1; drbdadm cstate g1", seconds=300).stdout
            hub = re.search(r"g1-hub\s.*Started n(\d)", told)
            if hub is not None and "Online: [ n1 n2 n3 ]" in told and re.search(r"Unpromoted: \[ n\d \]", told) and (
                    number == 3 or "UpToDate/UpToDate" in told and "Connected" in told):
                return int(hub[1])
        return 0

    def end(self) -> None:
        """Ends all guests and boxes."""
        for number in MACHINES:
            self.host(number, "off")
        for box in self.boxes.values():
            box.kill()
            box.wait()


class Disks:
    """Rounds of faults over the guests."""

    def __init__(self, place: Guests) -> None:
        self.place = place
        self.tills: List[ClusterTill] = []
        for line in text_of(f"{place.shared}/g1/tokens").splitlines():
            _, shop, number, token = line.split()
            till = ClusterTill(1, shop, int(number), token)
            till.address, till.port, till.patience = "10.0.0.101", 8730, 40
            self.tills.append(till)

    async def until(self, true: Any) -> bool:
        """Waits for something of the tills; False where that doesn't come."""
        end = time.time() + HANGS_AFTER
        while time.time() < end and not all(map(true, self.tills)):
            await asyncio.sleep(0.5)
        return all(map(true, self.tills))

    async def round(self, fault: str) -> Dict[str, Any]:
        """One fault of the guest that has the group; `wrong` has to be empty."""
        loop = asyncio.get_running_loop()
        victim = await loop.run_in_executor(None, self.whole)
        selling = [loop.create_task(till.sell_on()) for till in self.tills]
        wrong = [] if await self.until(lambda till: len(till.moments) >= 5) else ["the tills don't sell before"]
        moment = time.time()
        if fault == "pause":
            await loop.run_in_executor(None, self.place.host, victim, "freeze")
            await asyncio.sleep(PAUSE)
            await loop.run_in_executor(None, self.place.host, victim, "thaw")
        else:
            await loop.run_in_executor(None, self.place.host, victim, {"kill": "off", "stop": "freeze", "cut": "cut"}[fault])
        if not await self.until(lambda till: till.again_after(moment) is not None):
            wrong.append("the tills don't sell again")
        after = max(till.again_after(moment) or 0 for till in self.tills)
        at = await loop.run_in_executor(None, self.whole)
        wrong += ["nobody took over"] if at == victim and fault != "pause" else []
        for till in self.tills:
            till.stopped = True
        await asyncio.wait(selling, timeout=120)
        wrong += [str(task.exception()) for task in selling if task.done() and task.exception()]
        wrong += await loop.run_in_executor(None, self.wrong_at, at)
        return {"fault": fault, "victim": f"n{victim}", "afterwards at": f"n{at}", "sells after": round(after), "whole after": round(time.time() - moment),
                "sales": sum(len(till.sold) for till in self.tills), "load": round(os.getloadavg()[0], 1), "wrong": wrong}

    def whole(self) -> int:
        """The guest that has the group, once both halves are joined."""
        found: List[int] = []
        self.place.wait_for("the cluster is whole", lambda: found.append(self.place.owner()) or found[-1])
        return found[-1]

    def wrong_at(self, owner: int) -> List[str]:
        """What is wrong with the files at this guest, and with the halves."""
        wrong: List[str] = []
        for shop in shops_of(1):
            file = f"/srv/groups/g1/{shop}.chain"
            audit = self.place.host(owner, "in", f"verifactu audit {file}", seconds=HANGS_AFTER).stdout
            if not audit.startswith("sound "):
                wrong.append(f"{shop}: {audit}")
            records = [json.loads(line) for line in self.place.do(owner, f"verifactu export {file}").splitlines()][1:]
            wrong += sales_wrong(shop, records, [till for till in self.tills if till.shop == shop])
        for number in (1, 2):
            if "Split-Brain" in self.place.do(number, "dmesg"):
                wrong.append(f"n{number}: the halves parted")
        self.place.do(owner, "sync -f /srv/groups/g1")
        if self.half(1) != self.half(2):
            wrong.append("the halves differ")
        return wrong

    def half(self, number: int) -> bytes:
        """The group's bytes of a half."""
        with open(f"{self.place.path}/guest{number}/data", "rb") as file:
            return file.read(HALF)


async def rounds(disks: Disks, faults: List[str]) -> List[Dict[str, Any]]:
    """A round of each fault, told as it ends."""
    results = []
    for fault in faults:
        results.append(await disks.round(fault))
        print(json.dumps(results[-1]), flush=True)
    return results


def run(options: argparse.Namespace) -> int:
    """All of it, in namespaces of its own."""
    place = Guests(options.place, os.path.realpath(options.program))
    place.make_groups()
    place.make_files()
    place.make_image()
    try:
        place.begin()
        results = asyncio.run(rounds(Disks(place), options.faults or list(FAULTS)))
    finally:
        place.end()
    return 1 if any(result["wrong"] for result in results) else 0


def main() -> int:
    """0 where nothing is wrong."""
    parser = argparse.ArgumentParser(description="A group of shops on DRBD under Pacemaker, in guests.")
    parser.add_argument("--program", default=os.environ.get("VERIFACTU", "/usr/bin/verifactu"))
    parser.add_argument("--place", default="/var/tmp/verifactu-cluster")
    parser.add_argument("faults", nargs="*", metavar="FAULT")
    options = parser.parse_args()
    if not set(options.faults) <= set(FAULTS):
        parser.error(f"FAULT is one of {', '.join(FAULTS)}")
    if INSIDE in os.environ:
        return run(options)
    have_commands({**COMMANDS, **OF_GUESTS})
    os.makedirs(options.place, exist_ok=True)
    place = Guests(options.place, os.path.realpath(options.program))
    place.make_tree()
    place.make_kernel()
    return in_namespaces(__file__)


if __name__ == "__main__":
    sys.exit(main())
