#!/usr/bin/env python3
"""Makes out/package/verifactu-hub_VERSION_all.deb: the hub (docs/HUB.md), its units and its clients, beside the program's own package.

usage: tools/package_hub.py

VERSION is the newest one of CHANGELOG.md. It refuses where the tree differs from its commit. Every file has the commit's date, so one commit
gives the same bytes.
"""
from __future__ import annotations

import hashlib
import os
import re
import subprocess
import sys
import tempfile

from lanes import ROOT
from package import DOC, PLACE, UNITS, Refused, output, owner, put, rights, set_dates, text_of

SHARE = "share/verifactu-hub"
UNITS_OF_HUB = ("verifactu-hub@.service", "verifactu-hosting.service", "verifactu-group@.service", "verifactu-group-agency@.service")
PARTS = ("verifactu_hub.py", "hub_books.py", "hub_connections.py", "hub_faults.py", "hub_forms.py", "hub_hosting.py", "hub_http.py", "hub_limits.py",
         "hub_log.py", "hub_metrics.py", "hub_pipe.py", "hub_served.py", "hub_shops.py", "hub_tokens.py", "openapi.json", "page.html", "page.css", "page.js")
PAGES = ("HUB.md", "HOSTING.md")
CLUSTER = ("corosync.conf", "cluster.crm", "group.crm", "group-drbd.crm", "g1.res", "nginx.conf")
LAUNCHER = b"""#!/bin/sh
exec "$(dirname "$(readlink -f "$0")")/../share/verifactu-hub/verifactu_hub.py" "$@"
"""
CLIENTS = ("till.py", "till.php", "till.js", "Till.java")
# An upgrade stops the hubs that run, and starts those that are enabled.
ENABLED = """[ -d /run/systemd/system ] || exit 0
systemctl daemon-reload || true
[ -n "$2" ] || exit 0
for unit in /etc/systemd/system/multi-user.target.wants/verifactu-hub@*.service /etc/systemd/system/multi-user.target.wants/verifactu-hosting.service; do
    [ ! -L "$unit" ] || systemctl start --no-block "${unit##*/}" || true
done"""
SCRIPTS = {
    "postinst": ENABLED,
    "prerm": "[ ! -d /run/systemd/system ] || systemctl stop 'verifactu-hub@*.service' verifactu-hosting.service || true\nrm -rf /usr/share/verifactu-hub/__pycache__",
    "postrm": "[ ! -d /run/systemd/system ] || systemctl daemon-reload || true",
}
CONTROL = """Package: verifactu-hub
Version: {version}
Architecture: all
Maintainer: {maintainer}
Installed-Size: {size}
Depends: verifactu, python3 (>= 3.9), python3-aiohttp (>= 3.8)
Recommends: python3-prometheus-client
Section: misc
Priority: optional
Description: tills of several machines over one verifactu, and a page for the owner
 Starts verifactu serve, keeps it up, and speaks HTTP with JSON to tills on
 other machines, and a page that only reads to the shop's owner. It serves one
 shop or many.
"""


def version() -> str:
    """The newest version that CHANGELOG.md has."""
    found = re.search(r"^## (\d+\.\d+\.\d+)", text_of(os.path.join(ROOT, "CHANGELOG.md")).decode(), re.MULTILINE)
    if found is None:
        raise Refused("CHANGELOG.md has no version")
    return found[1]


def tree() -> dict[str, tuple[bytes, int]]:
    """The bytes and the mode of each file below /usr."""
    made = {f"{SHARE}/{name}": text_of(os.path.join(ROOT, "hub", name)) for name in PARTS}
    made.update({f"{DOC}-hub/clients/{name}": text_of(os.path.join(ROOT, "hub", "clients", name)) for name in CLIENTS})
    made.update({f"{DOC}-hub/{name}": text_of(os.path.join(ROOT, "docs", name)) for name in PAGES})
    made.update({f"{DOC}-hub/cluster/{name}": text_of(os.path.join(ROOT, "examples", "cluster", name)) for name in CLUSTER})
    made.update({f"{UNITS}/{name}": text_of(os.path.join(ROOT, "examples", "systemd", name)) for name in UNITS_OF_HUB})
    made["bin/verifactu-hub"] = LAUNCHER
    made[f"{DOC}-hub/copyright"] = rights()
    return {name: (text, 0o755 if name.endswith(("/verifactu_hub.py", "/verifactu-hub")) else 0o644) for name, text in made.items()}


def make(made: dict[str, tuple[bytes, int]], date: int, to: str) -> None:
    """The package."""
    with tempfile.TemporaryDirectory() as root:
        for name, (text, mode) in made.items():
            put(root, f"usr/{name}", text, mode)
        size = sum(len(text) for text, _ in made.values()) // 1024 + 1
        put(root, "DEBIAN/control", CONTROL.format(version=version(), maintainer=owner("Maintainer"), size=size).encode(), 0o644)
        sums = "".join(f"{hashlib.md5(text).hexdigest()}  usr/{name}\n" for name, (text, _) in sorted(made.items()))
        put(root, "DEBIAN/md5sums", sums.encode(), 0o644)
        for name, script in SCRIPTS.items():
            put(root, f"DEBIAN/{name}", f"#!/bin/sh\nset -e\n{script}\n".encode(), 0o755)
        set_dates(root, date)
        subprocess.run(["dpkg-deb", "--root-owner-group", "-Zgzip", "-z9", "--build", root, to], check=True, stdout=subprocess.DEVNULL,
                       env={**os.environ, "SOURCE_DATE_EPOCH": str(date)})


def main() -> int:
    """0 where the package was made."""
    if sys.argv[1:]:
        print("usage: tools/package_hub.py", file=sys.stderr)
        return 2
    try:
        if output("git", "status", "--porcelain", "--untracked-files=no"):
            raise Refused("files differ from the commit: commit them first")
        os.makedirs(PLACE, exist_ok=True)
        to = os.path.join(PLACE, f"verifactu-hub_{version()}_all.deb")
        make(tree(), int(output("git", "log", "-1", "--format=%ct")), to)
    except (Refused, OSError, subprocess.CalledProcessError) as fault:
        print(f"verifactu-hub: no package: {fault}", file=sys.stderr)
        return 1
    print(os.path.relpath(to))
    return 0


if __name__ == "__main__":
    sys.exit(main())
