#!/usr/bin/env python3
"""A till over the hub, in Python: python3 till.py http://127.0.0.1:8730 TOKEN till.json [SALES [PAUSE]]

It makes SALES sales (2) at a shelf price, asks again PAUSE seconds (2) after a request without an answer, and cuts its connection amid the
second sale. What it asks stands in till.json, on its own disk, before it is asked: where it was ended amid a sale it asks that one again first.
Before the first sale of a day it looks whether the chain has all of its sales: over an older copy it sells nothing.
"""
import datetime
import http.client
import json
import os
import sys
import time
from urllib.parse import urlsplit


class Till:
    """Its hub, and what it keeps: its last sale, whether that one is open, and the greatest serial whose record stands."""

    def __init__(self, hub, token, path, pause):
        self.hub, self.token, self.path, self.pause = hub, token, path, pause
        self.checked = None
        self.kept = {"sale": {"serial": 0}, "open": False, "taken": 0}
        self.is_new = not os.path.exists(path)
        if not self.is_new:
            with open(path, encoding="utf-8") as file:
                self.kept.update(json.load(file))

    def keep(self, **changes):
        """Writes what it keeps, whole or not at all."""
        self.kept.update(changes)
        with open(self.path + ".new", "w", encoding="utf-8") as file:
            json.dump(self.kept, file)
            file.flush()
            os.fsync(file.fileno())
        os.replace(self.path + ".new", self.path)
        folder = os.open(os.path.dirname(self.path) or ".", os.O_RDONLY)
        os.fsync(folder)
        os.close(folder)

    def ask_once(self, method, path, body, is_cut):
        """Status and answer, or None where there was no answer, or one that isn't the hub's: then nothing is known."""
        url = urlsplit(self.hub)
        headers = {"Authorization": f"Bearer {self.token}", "Content-Type": "application/json"}
        connection = getattr(http.client, f"{url.scheme.upper()}Connection")(url.netloc, timeout=40)
        try:
            connection.request(method, url.path + path, body, headers)
            if is_cut:
                return None
            answer = connection.getresponse()
            status, text = answer.status, answer.read()
        except (OSError, http.client.HTTPException):
            return None
        finally:
            connection.close()
        try:
            told = json.loads(text)
        except ValueError:
            told = None
        wanted = "serial" if body is None else "record"
        if isinstance(told, dict) and (str(told.get("type")).startswith("urn:verifactu:") or status < 300 and wanted in told):
            return status, told
        if status < 500:
            print(f"something between till and hub answers {status}: {text[:80]!r}", file=sys.stderr)  # for a person
        return None

    def ask(self, method, path, body=None, is_cut=False):
        """Asks the same until there is an answer that says something certain."""
        answer = self.ask_once(method, path, body, is_cut)
        while answer is None or answer[0] == 429 or answer[0] >= 500:
            time.sleep(self.pause)
            answer = self.ask_once(method, path, body, False)
        return answer

    def check(self):
        """Before the first sale of a day: a chain that lacks a sale of this till is an older copy, over which nothing may be sold."""
        status, told = self.ask("GET", "/v1/last")
        if status != 200:
            sys.exit(f"{told['title']}: {told['detail']}")
        if told["serial"] < self.kept["taken"]:
            sys.exit(f"the chain is an older copy: it has serial {told['serial']}, and {self.kept['taken']} was sold. Nothing is sold")
        if self.is_new:  # or its disk was lost: it goes on with the serial that the chain has
            self.keep(sale={"serial": told["serial"]}, taken=told["serial"])
            self.is_new = False
        self.checked = datetime.date.today()

    def settle(self, sale, is_cut=False):
        """Asks until there is an answer, the same under the same serial, and prints the ticket."""
        self.keep(sale=sale, open=True)
        status, told = self.ask("POST", "/v1/sales", json.dumps(sale), is_cut)
        if status in (200, 201):
            self.keep(open=False, taken=sale["serial"])
            if told["record"]["total"] != sum(line["total"] for line in sale["lines"]):
                sys.exit(f"serial {sale['serial']} was given to two sales: {told['record']}")
            print(told["answer"], told["num"], told["ticket"]["date"], told["ticket"]["total"])
            print(told["ticket"]["link"], flush=True)
            return
        if status in (400, 409, 413):  # it isn't registered; else it stays open, for an earlier try may have been
            self.keep(open=False)
        sys.exit(f"{told['title']}: {told['detail']}")

    def sell(self, count):
        """Makes so many sales, after the one that is open."""
        self.check()
        if self.kept["open"]:
            self.settle(self.kept["sale"])
        for made in range(count):
            if self.checked != datetime.date.today():
                self.check()
            lines = [{"class": "21", "total": 250 if made % 2 else 1000}]
            self.settle({"serial": self.kept["sale"]["serial"] + 1, "series": "A", "kind": "F2", "lines": lines}, made == 1)


if __name__ == "__main__":
    HUB, TOKEN, PATH, *MORE = sys.argv[1:]
    SALES, PAUSE = (MORE + ["2", "2"][len(MORE):])[:2]
    Till(HUB, TOKEN, PATH, float(PAUSE)).sell(int(SALES))
