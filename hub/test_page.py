"""The owner's page in a browser, which is told what to do over its own protocol. Not run where no browser is there."""
from __future__ import annotations

import asyncio
import base64
import json
import os
import shutil
import subprocess
import tempfile
import time
import unittest
from typing import Any, Dict, List, Optional

import aiohttp

from trying import PATIENCE, STAND_IN, Agency, Hub, Options, Place, until

BROWSER = shutil.which("chromium") or shutil.which("chromium-browser") or shutil.which("google-chrome")
PICTURES = os.environ.get("PICTURES", "")  # a folder for pictures of the page, for whoever wants to look at it
SIZES = {"desk": (1280, 1000), "phone": (390, 844)}
# the least contrast of all texts that are seen against what is behind them, by the formula of WCAG 2
CONTRAST = """(() => {
  const parts = (text) => (text.match(/[\\d.]+/g) || []).map(Number);
  const light = ([r, g, b]) => [r, g, b].map((c) => c / 255).map((c) => (c <= 0.03928 ? c / 12.92 : ((c + 0.055) / 1.055) ** 2.4))
    .reduce((sum, c, i) => sum + c * [0.2126, 0.7152, 0.0722][i], 0);
  const behind = (it) => {
    for (; it; it = it.parentElement) {
      const colour = parts(getComputedStyle(it).backgroundColor);
      if (colour.length === 3 || colour[3] > 0) return colour;
    }
    return [255, 255, 255];
  };
  let least = 21;
  for (const it of document.querySelectorAll("body *")) {
    const hasText = [...it.childNodes].some((node) => node.nodeType === 3 && node.textContent.trim());
    if (!it.checkVisibility() || !hasText || it.disabled) continue;
    for (let up = it; up; up = up.parentElement) if (getComputedStyle(up).opacity !== "1") return 0;
    const [a, b] = [light(parts(getComputedStyle(it).color)), light(behind(it))].sort((x, y) => y - x);
    least = Math.min(least, (a + 0.05) / (b + 0.05));
  }
  return least;
})()"""


class Browser:
    """A browser without a window, at one page."""

    def __init__(self) -> None:
        self.folder = tempfile.mkdtemp(prefix="verifactu-browser-")
        words = ["--headless=new", "--no-sandbox", "--disable-gpu", "--disable-dev-shm-usage", "--remote-debugging-port=0",
                 "--no-first-run", "--lang=es"]
        self.process = subprocess.Popen([str(BROWSER), *words, f"--user-data-dir={self.folder}", "about:blank"],
                                        stdout=subprocess.DEVNULL, stderr=subprocess.DEVNULL)
        self.loop = asyncio.new_event_loop()
        self.number = 0
        self.complaints: List[str] = []
        port_file = os.path.join(self.folder, "DevToolsActivePort")
        self.port = until(lambda: _first_line(port_file), "the browser listens")
        self.loop.run_until_complete(self._join())

    async def _join(self) -> None:
        self.session = aiohttp.ClientSession()
        async with self.session.get(f"http://127.0.0.1:{self.port}/json") as answer:
            page = next(it for it in await answer.json() if it["type"] == "page")
        self.socket = await self.session.ws_connect(page["webSocketDebuggerUrl"], max_msg_size=0)
        for domain in ("Page", "Runtime", "Network", "Log"):
            await self._ask(f"{domain}.enable")

    async def _ask(self, method: str, **words: Any) -> Any:
        self.number += 1
        await self.socket.send_json({"id": self.number, "method": method, "params": words})
        while True:
            said = json.loads((await self.socket.receive()).data)
            if said.get("method") == "Runtime.exceptionThrown":
                self.complaints.append(str(said["params"]["exceptionDetails"]))
            if said.get("method") == "Log.entryAdded" and said["params"]["entry"]["source"] == "security":
                self.complaints.append(said["params"]["entry"]["text"])
            if said.get("id") == self.number:
                return said.get("result", said)

    def ask(self, method: str, **words: Any) -> Any:
        """What the browser answers."""
        return self.loop.run_until_complete(self._ask(method, **words))

    def run(self, script: str) -> Any:
        """The value of a script on the page."""
        return self.ask("Runtime.evaluate", expression=script, returnByValue=True, awaitPromise=True)["result"].get("value")

    def text(self, id_: str) -> Optional[str]:
        """What is seen of a part of the page, None where it is hidden. A blank stands for each kind of blank."""
        part = f'document.getElementById("{id_}")'
        found: Optional[str] = self.run(f'(it => it && it.checkVisibility() ? it.innerText.replace(/\\s/g, " ") : null)({part})')
        return found

    def choose(self, id_: str, value: str) -> None:
        """Writes into a field."""
        part = f'document.getElementById("{id_}")'
        self.run(f'{part}.value = "{value}"; {part}.dispatchEvent(new Event("change"))')

    def picture(self, name: str) -> None:
        """Takes pictures, light and dark, of a desk and a phone, where somebody wants them."""
        for size, (width, height) in SIZES.items() if PICTURES else ():
            self.ask("Emulation.setDeviceMetricsOverride", width=width, height=height, deviceScaleFactor=1, mobile=size == "phone")
            for theme in ("light", "dark"):
                self.theme(theme)
                data = self.ask("Page.captureScreenshot", captureBeyondViewport=True)["data"]
                with open(os.path.join(PICTURES, f"{name}-{size}-{theme}.png"), "wb") as file:
                    file.write(base64.b64decode(data))
        self.ask("Emulation.clearDeviceMetricsOverride")

    def theme(self, name: str) -> None:
        """Light or dark."""
        self.ask("Emulation.setEmulatedMedia", features=[{"name": "prefers-color-scheme", "value": name}])

    def end(self) -> None:
        """Ends it."""
        self.loop.run_until_complete(self.socket.close())
        self.loop.run_until_complete(self.session.close())
        self.loop.close()
        self.process.kill()
        self.process.wait()
        shutil.rmtree(self.folder, ignore_errors=True)


def _first_line(path: str) -> str:
    if not os.path.exists(path):
        return ""
    with open(path, encoding="ascii") as file:
        return file.readline().strip()


@unittest.skipUnless(BROWSER, "no chromium is there")
class PageTest(unittest.TestCase):
    """What the owner sees."""

    def setUp(self) -> None:
        self.place = Place()
        self.addCleanup(self.place.remove)
        self.browser = Browser()
        self.addCleanup(self.browser.end)

    def begin(self, verdicts: str = "", **environment: str) -> None:
        """A hub, and the owner's password in the browser."""
        self.agency = Agency(self.place, verdicts)
        self.addCleanup(self.agency.end)
        self.environment: Dict[str, str] = {**self.agency.environment, **environment}
        self.start(*self.agency.words)

    def start(self, *words: str) -> None:
        """Starts a hub."""
        self.hub = Hub(self.place, *words, environment=self.environment)
        self.addCleanup(self.hub.end)

    def open(self, password: str = "") -> None:
        """Opens the page."""
        self.browser.ask("Page.navigate", url=f"http://owner:{password or self.place.owner}@127.0.0.1:{self.hub.port}/")

    def sees(self, id_: str, words: str) -> None:
        """Waits until the words are seen in a part of the page."""
        end = time.monotonic() + PATIENCE
        while words not in (self.browser.text(id_) or ""):
            if time.monotonic() > end:
                self.fail(f"{id_} says {self.browser.text(id_)!r}, not {words!r}; {self.browser.complaints}")
            time.sleep(0.1)

    def sell(self, serial: int, total: int = 1000) -> str:
        """A sale of till 1: its day."""
        answer = self.hub.sell(1, serial, total)
        self.assertEqual(answer.status, 201, answer.body)
        return str(answer.json["ticket"]["date"])

    def is_clear(self) -> None:
        """Whether each text can be read, light and dark."""
        for theme in ("light", "dark"):
            self.browser.theme(theme)
            self.assertGreaterEqual(self.browser.run(CONTRAST), 4.5, theme)

    def test_money_of_a_day_and_of_each_day(self) -> None:
        self.begin("T1-2 1 vet 1110, T1-3 1 warn 2000")
        for serial in (1, 2, 3, 4):
            day = self.sell(serial, 1000 * serial)
        self.hub.ask("POST", "/v1/cancellations", self.place.till[1], {"serial": 5, "num": "T1-4"})
        until(lambda: (state := self.hub.state())["noted"] == 5 and state["refused"], "all is noted, and listed")
        self.open()
        # 10 and 30 euros: one of 20 was refused, one of 40 cancelled
        self.sees("day-total", "40,00 €")
        self.sees("day-refused", "Rechazado, no se suma: T1-2 (20,00 €).")
        self.sees("month-refused", "T1-2 (20,00 €)")
        self.sees("all-sums", "40,00 €")
        self.sees("refused", "expida una factura rectificativa")
        self.sees("errors", "T1-3")
        self.sees("errors", "aceptado con errores (código 2000)")
        self.sees("newest", "anulada")
        self.assertEqual(self.browser.text("waiting"), "0")
        self.assertIsNone(self.browser.text("trial"))
        self.assertIsNone(self.browser.text("refused-pages"))
        self.browser.run('document.getElementById("days-part").open = true')
        self.sees("days-note", "Leído")
        rows = self.browser.run('[...document.querySelectorAll("#days tr")].map((row) => row.innerText.replace(/\\s+/g, " "))')
        self.assertEqual(len(rows), int(day[-2:]))
        self.assertTrue(rows[-1].startswith("/".join(reversed(day.split("-")))) and rows[-1].endswith("40,00 € 1"), rows[-1])
        self.is_clear()
        self.browser.picture("money")
        self.browser.choose("day", "2024-01-31")
        until(lambda: self.browser.text("day-total") == "0,00 €", "the day is read")
        self.assertIsNone(self.browser.text("day-refused"))
        self.browser.choose("month", "2024-01")
        self.sees("days", "31/01/2024")
        self.browser.choose("day", "")
        self.sees("day-fault", "Escriba el día")
        self.assertEqual(self.browser.complaints, [])

    def test_fifty_refused_at_once(self) -> None:
        self.begin(",".join(f"T1-{number} 1 vet 1110" for number in range(1, 61)))
        for serial in range(1, 61):
            self.sell(serial)
        until(lambda: self.hub.state()["refused_count"] == 60, "all are listed")
        self.open()
        self.sees("refused-which", "1 a 50 de 60")
        self.sees("day-refused", "y 10 más")
        self.assertEqual(self.browser.run('document.querySelectorAll("#refused li").length'), 50)
        self.browser.run('document.getElementById("refused-after").click()')
        self.sees("refused-which", "51 a 60 de 60")
        self.assertEqual(self.browser.run('document.querySelectorAll("#refused li").length'), 10)
        self.browser.run('document.getElementById("refused-before").click()')
        self.sees("refused-which", "1 a 50 de 60")

    def test_a_hub_that_is_gone_and_one_that_is_a_trial(self) -> None:
        self.begin()
        self.sell(1)
        self.open()
        self.sees("records", "1")
        self.hub.stop()
        self.sees("gone", "El servicio no contesta.")
        self.assertTrue(self.browser.run('document.body.classList.contains("stale")'))
        self.is_clear()
        self.browser.picture("gone")
        self.start()
        self.open()
        self.sees("trial", "Prueba.")
        self.is_clear()

    @unittest.skipUnless(Options.program == STAND_IN, "the stand-in says it when it is told to")
    def test_an_adapter_for_practice_is_a_trial(self) -> None:
        self.begin(STAND_IN_FOR_PRACTICE="1")
        self.sell(1)
        self.open()
        self.sees("trial", "Nada de esto se envía")

    def test_a_program_that_does_not_come_up(self) -> None:
        self.begin()
        first = self.hub
        self.start(*self.agency.words)
        until(lambda: self.hub.logged("in use by another program"), "it is told")
        self.open()
        until(lambda: "Motivo, en inglés" in (self.browser.run("document.body.innerText") or ""), "the reason is seen")
        self.assertIn("las cajas no pueden vender ahora", self.browser.run("document.body.innerText"))
        self.is_clear()
        first.stop()


if __name__ == "__main__":
    unittest.main()
