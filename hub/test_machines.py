"""A till on another machine, by a network namespace: over plain HTTP, over --tls, and over nginx by the example of docs/HUB.md."""
from __future__ import annotations

import json
import os
import re
import shutil
import subprocess
import unittest
from typing import List

from trying import HERE, PYTHON, Agency, Hub, Place, until

SIDE = "10.87.30.1"
TILL = "10.87.30.2"
CODE = """
import ssl, sys, urllib.request
url, token, body, trusted = sys.argv[1:]
context = ssl.create_default_context(cafile=trusted) if trusted else None
asked = urllib.request.Request(url + "/v1/sales", body.encode(), {"Authorization": "Bearer " + token})
print(urllib.request.urlopen(asked, timeout=60, context=context).read().decode())
"""


class MachineTest(unittest.TestCase):
    """Two machines on one network."""

    def setUp(self) -> None:
        self.name = f"till{os.getpid()}"
        if shutil.which("ip") is None or self.ip("netns", "add", self.name):
            self.skipTest("no network namespace can be made here")
        self.addCleanup(self.ip, "netns", "del", self.name)
        side, other = f"vh{os.getpid()}", f"vt{os.getpid()}"
        for words in (["link", "add", side, "type", "veth", "peer", "name", other, "netns", self.name], ["addr", "add", f"{SIDE}/24", "dev", side],
                      ["link", "set", side, "up"], ["-n", self.name, "addr", "add", f"{TILL}/24", "dev", other],
                      ["-n", self.name, "link", "set", other, "up"]):
            self.assertEqual(self.ip(*words), 0, words)
        self.addCleanup(self.ip, "link", "del", side)
        self.place = Place()
        self.addCleanup(self.place.remove)
        self.agency = Agency(self.place)
        self.addCleanup(self.agency.end)
        subprocess.run(["openssl", "req", "-x509", "-newkey", "ec", "-pkeyopt", "ec_paramgen_curve:P-256", "-nodes", "-days", "2", "-subj", "/CN=shop",
                        "-addext", f"subjectAltName=IP:{SIDE}", "-keyout", f"{self.place.path}/key.pem", "-out", f"{self.place.path}/cert.pem"],
                       check=True, stderr=subprocess.DEVNULL)

    def ip(self, *words: str) -> int:
        """A command of `ip`."""
        return subprocess.run(["ip", *words], stderr=subprocess.DEVNULL, check=False).returncode

    def hub(self, *words: str, address: str) -> Hub:
        """A hub at this address."""
        found = Hub(self.place, *self.agency.words, *words, environment=self.agency.environment, address=address)
        self.addCleanup(found.end)
        return found

    def sells(self, url: str) -> None:
        """Whether a till on the other machine sells twice under one serial at this address, once."""
        body = json.dumps({"serial": 1, "series": "A", "kind": "F2", "lines": [{"class": "21", "total": 1000}]})
        trusted = f"{self.place.path}/cert.pem" if url.startswith("https") else ""
        for answer in ("taken", "again"):
            words = ["ip", "netns", "exec", self.name, PYTHON, "-c", CODE, url, self.place.till[1], body, trusted]
            told = json.loads(subprocess.run(words, stdout=subprocess.PIPE, text=True, check=True).stdout)
            self.assertEqual((told["answer"], told["num"], told["ticket"]["total"]), (answer, "A-1", 1000))

    def test_in_clear_with_a_warning(self) -> None:
        hub = self.hub(address=f"{SIDE}:0")
        self.assertTrue(hub.logged(f"warning: {SIDE}"))
        self.sells(f"http://{SIDE}:{hub.port}")

    def test_over_tls(self) -> None:
        hub = self.hub("--tls", f"{self.place.path}/cert.pem", f"{self.place.path}/key.pem", address=f"{SIDE}:0")
        self.assertFalse(hub.logged("warning"))
        self.sells(f"https://{SIDE}:{hub.port}")

    def test_over_nginx_by_the_pages_example(self) -> None:
        if shutil.which("nginx") is None:
            self.skipTest("nginx isn't there")
        hub = self.hub(address="127.0.0.1:0")
        with open(os.path.join(HERE, "..", "docs", "HUB.md"), encoding="utf-8") as page:
            found = re.search(r"```nginx\n(.*?)```", page.read(), re.DOTALL)
        assert found is not None
        example = found[1].replace("listen 443", f"listen {SIDE}:8443").replace(":8730", f":{hub.port}").replace("/etc/verifactu/", self.place.path + "/")
        self.start_nginx(["daemon off;", "worker_processes 1;", f"pid {self.place.path}/pid;", f"error_log {self.place.path}/error.log;", "events {}",
                          "http {", "access_log off;", example, "}"])
        until(lambda: self.hub_answers(), "nginx answers")
        self.sells(f"https://{SIDE}:8443")

    def start_nginx(self, lines: List[str]) -> None:
        """Runs nginx by a configuration of these lines."""
        with open(f"{self.place.path}/nginx.conf", "w", encoding="utf-8") as file:
            file.write("\n".join(lines))
        os.chmod(self.place.path, 0o755)  # its workers are of another user
        nginx = subprocess.Popen(["nginx", "-c", f"{self.place.path}/nginx.conf", "-e", f"{self.place.path}/error.log"])
        self.addCleanup(nginx.wait)
        self.addCleanup(nginx.terminate)

    def hub_answers(self) -> bool:
        """Whether the hub answers over nginx."""
        words = ["curl", "-s", "-o", "/dev/null", "--cacert", f"{self.place.path}/cert.pem", f"https://{SIDE}:8443/health"]
        return subprocess.run(words, check=False).returncode == 0


if __name__ == "__main__":
    unittest.main()
