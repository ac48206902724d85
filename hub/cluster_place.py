"""Where hub/test_cluster.py runs: a tree of Debian, what the package and examples/cluster bring, three machines, and the boxes that switch
their power. All of it lies below one folder, and runs in namespaces of its own: nothing of this machine's network is touched."""
from __future__ import annotations

import os
import re
import secrets
import shutil
import signal
import subprocess
import sys
import time
from typing import Dict, List

HERE = os.path.dirname(os.path.realpath(__file__))
ROOT = os.path.dirname(HERE)
sys.path.insert(0, os.path.join(ROOT, "tools"))

import package_hub  # noqa: E402

HOST = os.path.join(HERE, "cluster_host.sh")
CLUSTER = os.path.join(ROOT, "examples", "cluster")
MACHINES = (1, 2, 3)
GROUPS = (1, 2, 3, 4)
WITH_ADAPTER = (1, 2)  # groups whose shops have an adapter; the others' are trials
STARTED = len(MACHINES) + 3 * len(GROUPS) + len(WITH_ADAPTER)  # resources that a whole cluster has started
SIDE = "10.0.0.254"  # of the tills and the proxy
NIF = "89890001K"
USER = 880
BASE = ["systemd", "systemd-sysv", "dbus", "iproute2", "iputils-ping", "procps", "ca-certificates", "curl"]
PACKAGES = ["pacemaker", "pacemaker-cli-utils", "corosync", "crmsh", "resource-agents", "fence-agents", "ipmitool", "python3-aiohttp",
            "python3-prometheus-client", "openssl", "drbd-utils", "iputils-arping", "kmod", "psmisc"]
MASKED = ["systemd-udevd.service", "systemd-timesyncd.service", "getty.target", "systemd-logind.service", "apt-daily.timer", "apt-daily-upgrade.timer",
          "fstrim.timer", "e2scrub_all.timer", "e2scrub_reap.service", "systemd-binfmt.service", "sys-kernel-debug.mount", "sys-kernel-tracing.mount",
          "systemd-resolved.service", "dev-hugepages.mount", "dev-mqueue.mount", "nginx.service"]
BOX = """name "n{n}"
set_working_mc 0x20
startlan 1
 addr 10.0.0.2{n} 623
 priv_limit admin
 allowed_auths_callback none md2 md5 straight
 allowed_auths_user none md2 md5 straight
 allowed_auths_operator none md2 md5 straight
 allowed_auths_admin none md2 md5 straight
 guid a123456789abcdefa123456789abcde{n}
endlan
chassis_control "{host} {n}"
user 1 true "" "test" user 10 none md2 md5 straight
user 2 true "cluster" "test" admin 10 none md2 md5 straight
"""
COMMANDS_OF_BOX = """mc_setbmc 0x20
mc_add 0x20 0 no-device-sdrs 0x23 9 8 0x9f 0x1291 0xf02 persist_sdr
sel_enable 0x20 1000 0x0a
mc_enable 0x20
"""
# What a machine of namespaces can't have: device nodes of its own.
NO_DEVICES = "[Service]\nPrivateDevices=no\n"
# It boots in 2 s and a real machine in 20 to 100: the cluster's part waits, so that a fenced one doesn't come back amid the takeover.
LATE = '[Service]\nExecStartPre=/bin/sh -c "[ -e /shared/quick ] || exec sleep 15"\n'
REGISTER = "[Service]\nExecStart=\nExecStart=/usr/bin/python3 /usr/share/verifactu/agency/agency.py --register --pairs /srv/groups/%i/pairs\n"
# Beside other work Pacemaker would start one thing at a time.
BUSY = "property load-threshold=1000% node-action-limit=12 "


def text_of(path: str) -> str:
    """A file's text."""
    with open(path, encoding="utf-8") as file:
        return file.read()


def shops_of(group: int) -> List[str]:
    """The names of a group's shops."""
    return [f"s{2 * group - 1}", f"s{2 * group}"]


def apt_source() -> str:
    """Where this machine takes Debian's packages from."""
    words = ["apt-get", "indextargets", "--format", "$(SITE)", "Created-By: Packages"]
    return subprocess.run(words, stdout=subprocess.PIPE, text=True, check=True).stdout.split()[0]


class Place:
    """The folder with all of it, and the three machines, each of which `script` makes and ends."""

    script = HOST

    def __init__(self, path: str, program: str) -> None:
        self.path, self.program = path, program
        self.tree, self.files, self.shared = (os.path.join(path, name) for name in ("tree", "files", "shared"))
        at = next(line.split()[1] for line in text_of("/proc/mounts").splitlines() if line.split()[2] == "cgroup2")
        self.cgroup = os.path.join(at, "verifactu-cluster" + path.replace("/", "-"))
        self.boxes: Dict[int, "subprocess.Popen[bytes]"] = {}
        os.environ.update({"PLACE": path, "CG": self.cgroup})

    # ---- what lies there

    def make_tree(self) -> None:
        """A tree of Debian with the engine, from this machine's own source of packages; one that is there stays."""
        if os.path.exists(f"{self.tree}/made"):
            return
        shutil.rmtree(self.tree, ignore_errors=True)
        source = apt_source()
        subprocess.run(["debootstrap", "--variant=minbase", "--include=" + ",".join(BASE), "bookworm", self.tree, source], check=True)
        self.put("usr/sbin/policy-rc.d", "#!/bin/sh\nexit 101\n", 0o755, self.tree)
        apt = f"apt-get update && apt-get install -y --no-install-recommends {' '.join(PACKAGES)} && apt-get clean"
        subprocess.run(["chroot", self.tree, "env", "DEBIAN_FRONTEND=noninteractive", "sh", "-c", apt], check=True, stdin=subprocess.DEVNULL)
        self.put("made", "", 0o644, self.tree)

    def put(self, name: str, text: str, mode: int = 0o644, below: str = "") -> None:
        """A file of the machines."""
        path = os.path.join(below or self.files, name)
        os.makedirs(os.path.dirname(path), exist_ok=True)
        with open(path, "w", encoding="utf-8") as file:
            file.write(text)
        os.chmod(path, mode)

    def make_files(self) -> None:
        """What goes over the tree at each machine: both packages' files, the account, the cluster's configuration."""
        shutil.rmtree(self.files, ignore_errors=True)
        for name, (content, mode) in package_hub.tree().items():
            self.put(f"usr/{name}", content.decode(), mode)
        for name in ("agency.py", "skeleton.py"):
            self.put(f"usr/share/verifactu/agency/{name}", text_of(os.path.join(ROOT, "examples", "agency", name)), 0o755)
        shutil.copy(self.program, f"{self.files}/usr/bin/verifactu")
        for name, line in (("passwd", f"verifactu:x:{USER}:{USER}::/var/lib/verifactu:/usr/sbin/nologin"), ("group", f"verifactu:x:{USER}:")):
            self.put(f"etc/{name}", text_of(f"{self.tree}/etc/{name}") + line + "\n")
        self.put("etc/corosync/corosync.conf", text_of(f"{CLUSTER}/corosync.conf"))
        self.put("etc/corosync/authkey", secrets.token_hex(128), 0o400)
        self.put("etc/verifactu/fence-password", "#!/bin/sh\necho test\n", 0o700)
        self.put("etc/hosts", "127.0.0.1 localhost\n" + "".join(f"10.0.0.1{n} n{n}\n" for n in MACHINES))
        self.put("etc/machine-id", "")
        self.put("etc/systemd/system/verifactu-group@.service.d/machine.conf", NO_DEVICES)
        self.put("etc/systemd/system/verifactu-group-agency@.service.d/adapter.conf", REGISTER)
        self.put("etc/systemd/system/corosync.service.d/late.conf", LATE)
        for unit in MASKED:
            os.symlink("/dev/null", f"{self.files}/etc/systemd/system/{unit}")
        for folder in ["var/log/journal", *(f"srv/groups/g{group}" for group in GROUPS)]:
            os.makedirs(f"{self.files}/{folder}")

    def make_groups(self) -> None:
        """The groups' storage, with empty shops: what an operator puts on each group's disk."""
        shutil.rmtree(self.shared, ignore_errors=True)
        for group in GROUPS:
            at, run = f"{self.shared}/g{group}", f"/run/verifactu-group-g{group}"
            has_adapter = group in WITH_ADAPTER
            shops = {name: f" {run}/{name}.to {run}/{name}.from" if has_adapter else "" for name in shops_of(group)}
            self.put("shops", "".join(f"{name} {NIF} /srv/groups/g{group}/{name}.chain{fifos}\n" for name, fifos in shops.items()), below=at)
            self.put("pairs", "".join(f"{fifos} /srv/groups/g{group}/{name}.journal\n".lstrip() for name, fifos in shops.items() if has_adapter), below=at)
            self.put("tokens", "".join(f"till {name} {till} {secrets.token_hex(24)}\n" for name in shops for till in (1, 2)), 0o600, at)
            self.put("env", f"HUB_WORDS=--listen 10.0.0.10{group}:8730 --host test\n", below=at)
            for path in (at, *(f"{at}/{name}" for name in os.listdir(at))):
                os.chown(path, USER, USER)
            os.chmod(at, 0o700)

    def configuration(self) -> str:
        """The cluster's, from examples/cluster: its groups' storage is a folder that all machines have, and not a device."""
        group_text = text_of(f"{CLUSTER}/group.crm").replace("/dev/drbd1", "/shared/g1").replace("fstype=ext4 options=noatime", "fstype=none options=bind")
        made = text_of(f"{CLUSTER}/cluster.crm").replace("property ", BUSY)
        for group in GROUPS:
            text = group_text.replace("10.0.0.101", f"10.0.0.10{group}").replace("50: n1", f"50: n{(group - 1) % 3 + 1}")
            if group not in WITH_ADAPTER:
                text = re.sub(r"primitive g1-agency .*\n(?:  .*\n)*", "", text).replace("g1-disk g1-agency", "g1-disk")
            made += re.sub(r"\bg1\b", f"g{group}", text)
        return made

    # ---- the machines

    def host(self, number: int, *words: str, seconds: float = 60) -> "subprocess.CompletedProcess[str]":
        """A word of the script."""
        return subprocess.run([self.script, str(number), *words], stdin=subprocess.DEVNULL, stdout=subprocess.PIPE, stderr=subprocess.STDOUT, text=True,
                              timeout=seconds, check=False)

    def begin_network(self) -> None:
        """A network, on which the tills are, and three boxes that switch power."""
        for words in (["link", "set", "lo", "up"], ["link", "add", "vfcbr", "type", "bridge"], ["link", "set", "vfcbr", "up"],
                      *(["addr", "add", f"{address}/24", "dev", "vfcbr"] for address in (SIDE, *(f"10.0.0.2{n}" for n in MACHINES)))):
            subprocess.run(["ip", *words], check=True)
        self.put("power", "", below=self.path)
        for number in MACHINES:
            self.begin_box(number)

    def begin(self) -> None:
        """Three machines with empty disks, and the cluster's configuration."""
        self.begin_network()
        for number in MACHINES:
            self.host(number, "off")
            shutil.rmtree(f"{self.path}/n{number}", ignore_errors=True)
        self.put("quick", "", below=self.shared)
        for number in MACHINES:
            self.host(number, "on")
        self.put("cluster.crm", self.configuration(), below=self.shared)
        self.load("/shared/cluster.crm", 120)
        os.remove(f"{self.shared}/quick")

    def load(self, path: str, seconds: float) -> None:
        """The first machine loads a configuration once it sees all three."""
        end = time.time() + seconds
        while "Online: [ n1 n2 n3 ]" not in self.host(1, "in", "crm_mon", "-1r", seconds=seconds).stdout:
            if time.time() > end:
                raise AssertionError(f"the machines don't see each other within {seconds} s")
            time.sleep(1)
        loaded = self.host(1, "in", "crm", "configure", "load", "update", path, seconds=600)
        if loaded.returncode or "ERROR" in loaded.stdout:
            raise AssertionError(f"the configuration isn't taken: {loaded.stdout}")

    def begin_box(self, number: int) -> None:
        """What switches a machine's power: Debian's ipmi_sim, asked by fence_ipmilan over the network."""
        at = f"{self.path}/box{number}"
        os.makedirs(f"{at}/state", exist_ok=True)
        self.put("lan.conf", BOX.format(n=number, host=self.script), below=at)
        self.put("commands", COMMANDS_OF_BOX, below=at)
        with open(f"{at}/log", "w", encoding="utf-8") as log:
            self.boxes[number] = subprocess.Popen(["ipmi_sim", "-n", "-s", f"{at}/state", "-c", f"{at}/lan.conf", "-f", f"{at}/commands"],
                                                  stdin=subprocess.DEVNULL, stdout=log, stderr=log)

    def box(self, number: int, answers: bool) -> None:
        """A box falls silent, or answers again."""
        self.boxes[number].send_signal(signal.SIGCONT if answers else signal.SIGSTOP)

    def is_whole(self) -> bool:
        """Whether all machines are there and all resources started; what failed before is cleaned up, as an operator does."""
        at = next((n for n in MACHINES if self.host(n, "status").returncode == 0), None)
        if at is None:
            return False
        told = self.host(at, "in", "crm_mon", "-1r").stdout
        if "Online: [ n1 n2 n3 ]" not in told:
            return False
        if "Failed Resource Actions" in told:
            self.host(at, "in", "crm_resource", "--cleanup")
        return len(re.findall(r"Started n\d", told)) == STARTED and "pending" not in told

    def units(self, unit: str, group: int) -> List[int]:
        """The machines that have a process of a group's unit."""
        slice_ = unit.replace("-", "\\x2d")
        found = []
        for number in MACHINES:
            try:
                if text_of(f"{self.cgroup}/n{number}/system.slice/system-{slice_}.slice/{unit}@g{group}.service/cgroup.procs").strip():
                    found.append(number)
            except OSError:
                continue
        return found

    def hub_process(self, number: int, group: int) -> int:
        """The process of a group's hub at a machine."""
        return int(text_of(f"{self.cgroup}/n{number}/system.slice/system-verifactu\\x2dgroup.slice/verifactu-group@g{group}.service/cgroup.procs").split()[0])

    def end(self) -> None:
        """Ends all machines and boxes. What they wrote stays to be looked at until the next time, and the tree for all times."""
        for number in MACHINES:
            self.host(number, "off")
        for box in self.boxes.values():
            box.kill()
            box.wait()
        for at in [*(f"{self.cgroup}/n{number}" for number in MACHINES), self.cgroup]:
            if os.path.isdir(at):
                os.rmdir(at)
