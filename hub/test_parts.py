"""The pipe, the forms, who may ask and which shops there are, each by itself."""
from __future__ import annotations

import asyncio
import base64
import os
import stat
import sys
import tempfile
import unittest
import unittest.mock
from typing import Any, Awaitable, Callable, Dict, List

import hub_forms
import hub_pipe
import hub_shops
import hub_tokens
from hub_forms import BadRequest, Receipt, Refused, last_line, parting_line, read_command, read_json, receipt_reader, ticket_line
from hub_pipe import CHAIN, BadLine, Ending, Line, Shop, Unavailable
from hub_shops import ShopsFault, read_shops
from trying import Street

HUELLA = "A" * 64
LINK = "https://prewww2.aeat.es/wlpl/TIKE-CONT/ValidarQR?nif=89890001K&numserie=A-1&fecha=01-01-2025&importe=10.00"


class Program:
    """A program of a few lines of Python: `answer(number, line)` gives what it prints, and `end` is free to call."""

    def __init__(self, body: str, more: str = "") -> None:
        self.folder = tempfile.TemporaryDirectory()
        self.path = os.path.join(self.folder.name, "program")
        self.lines = os.path.join(self.folder.name, "lines")
        with open(self.path, "w", encoding="utf-8") as file:
            file.write(f"#!{sys.executable}\nimport os, sys, time\nend = os._exit\nfolder = {self.folder.name!r}\n{more}\n"
                       f"def answer(number, line):\n{body}\n"
                       f"for number, line in enumerate(sys.stdin, 1):\n"
                       f"    with open({self.lines!r}, 'a') as told: told.write(line)\n"
                       "    said = answer(number, line[:-1])\n"
                       "    if said is not None: print(said, flush=True)\n")
        os.chmod(self.path, 0o700)

    def told(self) -> List[str]:
        """All lines that it ever read."""
        with open(self.lines, encoding="utf-8") as file:
            return file.read().splitlines()


def sale(till: int, serial: int, **more: Any) -> Line[Any]:
    """A sale's line."""
    return Line(f"sale {till} {serial} A F2", receipt_reader(till, serial), " 21:1", **more)


TAKES = """
    words = line.split()
    if words[0] == 'customer': return 'customer ' + words[1]
    return f'till {words[1]} serial {words[2]} taken 1 A-1 ' + 'A' * 64 if words[0] == 'sale' else 'chain 3 noted 2'
"""


class PipeTest(unittest.TestCase):
    """`Shop` over programs that were made for it."""

    def over(self, program: Program, work: Callable[[Shop], Awaitable[Any]]) -> Any:
        """Runs `work` over a shop."""

        async def run() -> Any:
            shop = Shop([program.path])
            shop.start()
            try:
                return await asyncio.wait_for(work(shop), 60)
            finally:
                shop.kill()
                await shop.ended

        return asyncio.run(run())

    def test_many_lines_are_in_flight_and_each_gets_its_own_answer(self) -> None:
        async def work(shop: Shop) -> Any:
            return await asyncio.gather(*(shop.ask(sale(1 + at % 64, 1 + at)) for at in range(200)), shop.counts())

        *receipts, counts = self.over(Program(TAKES), work)
        self.assertEqual({receipt.answer for receipt in receipts}, {"taken"})
        self.assertEqual(counts, hub_pipe.Counts(3, 2))

    def test_an_answer_to_another_line_is_none_and_ends_the_program(self) -> None:
        wrong = {"another till's": "till 2 serial 1 taken 1 A-1 " + HUELLA, "another serial's": "till 1 serial 2 taken 1 A-1 " + HUELLA,
                 "half an answer": "till 1 serial 1 taken 1", "another line's number": "line 7 Kind", "no answer": "hello"}
        for name, answer in wrong.items():
            with self.subTest(name):
                async def work(shop: Shop) -> Any:
                    first, second = shop.ask(sale(1, 1)), shop.ask(CHAIN)
                    with self.assertRaises(Unavailable):
                        await first
                    await second
                    return shop.starts

                program = Program(f"    return {answer!r} if line[0] == 's' else 'chain 0 noted 0'")
                self.assertEqual(self.over(program, work), 2)

    def test_what_was_not_answered_is_written_again_in_its_order(self) -> None:
        body = "    if number == 3 and not os.path.exists(folder + '/died'):\n        open(folder + '/died', 'w'); end(0)\n" + TAKES

        async def work(shop: Shop) -> Any:
            return await asyncio.gather(*(shop.ask(sale(1, serial)) for serial in range(1, 6)))

        program = Program(body)
        self.over(program, work)
        self.assertEqual([line.split()[2] for line in program.told()], ["1", "2", "3", "3", "4", "5"])

    def test_a_line_at_whose_turn_the_program_ended_twice_is_not_asked_again(self) -> None:
        async def work(shop: Shop) -> Any:
            first, second = shop.ask(sale(1, 13)), shop.ask(sale(1, 14))
            with self.assertRaises(Unavailable):
                await first
            return await second

        program = Program("    if ' 13 ' in line: end(6)\n" + TAKES)
        self.assertIsInstance(self.over(program, work), Receipt)
        self.assertEqual(sum(" 13 " in line for line in program.told()), 2)

    def test_a_fault_of_the_disk_is_no_answer(self) -> None:
        body = ("    if number == 2 and not os.path.exists(folder + '/full'):\n        open(folder + '/full', 'w')\n"
                "        print('till 1 serial 2 fault disk', flush=True); time.sleep(0.2); end(6)\n") + TAKES

        async def work(shop: Shop) -> Any:
            return await asyncio.gather(*(shop.ask(sale(1, serial)) for serial in (1, 2, 3)))

        self.assertEqual([receipt.answer for receipt in self.over(Program(body), work)], ["taken"] * 3)

    def test_a_customer_is_said_before_the_first_line_that_names_it_and_again_after_a_restart(self) -> None:
        async def work(shop: Shop) -> Any:
            for serial in (1, 2):
                await shop.ask(sale(1, serial, customer=("B12345674", "Bar Sol")))
            assert shop.run is not None
            shop.run.kill()
            await shop.ask(sale(1, 3, customer=("B12345674", "Bar Sol")))

        program = Program(TAKES)
        self.over(program, work)
        said, sold = "customer C1 B12345674 Bar Sol", "sale 1 {} A F2 to=C1 21:1"
        self.assertEqual(program.told(), [said, sold.format(1), sold.format(2), said, sold.format(3)])

    def test_a_refused_customer_is_the_word_of_all_that_named_it_and_its_key_is_not_used_again(self) -> None:
        async def work(shop: Shop) -> Any:
            party = ("X", "Bar Sol")
            both = await asyncio.gather(*(shop.ask(sale(till, 1, customer=party)) for till in (1, 2)), return_exceptions=True)
            third = await asyncio.gather(shop.ask(sale(1, 1, customer=party)), return_exceptions=True)
            return [fault.word for fault in both + third]

        program = Program("    return f'line {number} ' + ('Nif' if line[0] == 'c' else 'Customer')")
        self.assertEqual(self.over(program, work), ["Nif"] * 3)
        self.assertEqual([line.split()[1] for line in program.told() if line[0] == "c"], ["C1", "C2"])

    def test_near_the_greatest_number_of_customers_the_program_is_started_again(self) -> None:
        async def work(shop: Shop) -> Any:
            lines = [sale(1, serial, customer=("B12345674", f"Bar {serial}")) for serial in range(1, 8)]
            return await asyncio.gather(*map(shop.ask, lines)), shop.starts

        with unittest.mock.patch("hub_pipe.MOST_CUSTOMERS", 3):
            receipts, starts = self.over(Program(TAKES), work)
        self.assertEqual((len(receipts), starts), (7, 3))

    def test_statuses_that_no_restart_mends_end_the_shop(self) -> None:
        for status in (2, 7, 11, 13):
            with self.subTest(status):
                async def work(shop: Shop) -> Any:
                    with self.assertRaises(Unavailable):
                        await shop.ask(CHAIN)
                    return await shop.ended, shop.starts

                self.assertEqual(self.over(Program(f"    end({status})"), work), (status, 1))

    def test_a_program_that_answers_nothing_is_started_again_ever_later(self) -> None:
        async def work(shop: Shop) -> Any:
            asked = [shop.ask(CHAIN) for _ in range(4)]
            await asyncio.sleep(4)
            return shop.starts, sum(future.done() for future in asked)

        # at 0, 1 and 3 seconds, the next at 7
        starts, failed = self.over(Program("    end(6)"), work)
        self.assertIn(starts, (2, 3))
        self.assertEqual(failed, 1)

    def test_what_is_waited_for_no_more_is_not_written_again(self) -> None:
        async def work(shop: Shop) -> Any:
            first, second = shop.ask(sale(1, 1)), shop.ask(sale(2, 1))
            while not os.path.exists(program.lines):
                await asyncio.sleep(0.01)
            first.cancel()
            assert shop.run is not None
            shop.run.kill()
            await second

        program = Program("    time.sleep(60) if line.startswith('sale 1 ') else None\n" + TAKES)
        self.over(program, work)
        self.assertEqual([line.split()[1] for line in program.told()], ["1", "2"])


class FormsTest(unittest.TestCase):
    """Bodies to lines, answers to values."""

    def line(self, verb: str, body: str, bases: List[str]) -> str:
        """The line that a body becomes, for till 3."""
        line = read_command(verb, body.encode()).line(3, bases)
        return line.head + (" to=KEY" if line.customer else "") + line.tail

    def test_each_form_becomes_its_line(self) -> None:
        sale_body = ('{"serial":7,"series":"A","kind":"R1","customer":{"nif":"B12345674","name":"Bar Sol"},"rect":"S",'
                     '"refs":[{"num":"A-1","date":"2025-01-31"}],"lines":[{"class":"21","base":-100}]}')
        self.assertEqual(self.line("sale", sale_body, ["21:-100"]), "sale 3 7 A R1 to=KEY rect=S ref=A-1@31-01-2025 21:-100")
        self.assertEqual(self.line("fix", '{"serial":8,"num":"A-1","kind":"F2","lines":[]}', ["10:1"]), "fix 3 8 A-1 F2 10:1")
        self.assertEqual(self.line("cancel", '{"serial":9,"num":"A/1"}', []), "cancel 3 9 A/1")

    def test_what_may_not_become_a_line_is_no_request(self) -> None:
        good = {"serial": "1", "series": '"A"', "kind": '"F2"', "lines": '[{"class":"21","total":1}]',
                "customer": '{"nif":"B12345674","name":"Bar"}', "refs": '[{"num":"A-1","date":"2025-01-01"}]', "rect": '"S"'}
        bad_words = ['""', '"A B"', '"A\\nB"', '"A\\tB"', '"A=B"', '"A\\u0000"', '"\\u00d1"', '"A\\u2028"', '"%s"' % ("A" * 81), "1", "null", "true",
                     "[]"]
        bad_numbers = ["1.0", "1e3", "true", '"1"', "null", "NaN", "Infinity", "10000000000000", "-10000000000000", "9" * 5000, "[]"]
        bad = {"series": bad_words, "kind": bad_words, "serial": bad_numbers, "rect": ['"T"', "1", "[]", "null"],
               "lines": ["1", "[1]", '[{"class":"21"}]', '[{"class":"21","base":1,"total":1}]', '[{"class":"21","base":1,"x":1}]']
               + [f'[{{"class":{word},"base":1}}]' for word in bad_words] + [f'[{{"class":"21","{key}":{number}}}]' for number in bad_numbers
                                                                             for key in ("base", "total")],
               "customer": ["null", '{"nif":"B12345674"}', '{"nif":"B12345674","nome":"Bar"}']
               + [f'{{"nif":{word},"name":"Bar"}}' for word in bad_words]
               + [f'{{"nif":"B12345674","name":{name}}}' for name in ('""', '"A\\nB"', '"A\\rB"', '"A\\u0085"', '"A\\u2028"', '"\\ud800"',
                                                                       '"%s"' % ("A" * 201), "1")],
               "refs": ["{}", '[{"num":"A-1","date":"01-01-2025"}]', '[{"num":"A-1","date":"2025-01-01 "}]', '[{"num":"A 1","date":"2025-01-01"}]']}
        read_command("sale", self.body(good))
        for key, values in bad.items():
            for value in values:
                with self.subTest(key=key, value=value[:40]), self.assertRaises(BadRequest):
                    read_command("sale", self.body({**good, key: value}))
        for key in ("serial", "series", "kind", "lines"):
            with self.subTest(missing=key), self.assertRaises(BadRequest):
                read_command("sale", self.body({name: value for name, value in good.items() if name != key}))

    def body(self, values: "dict[str, str]") -> bytes:
        """An object of values that are JSON already."""
        return ("{" + ",".join(f'"{key}":{value}' for key, value in values.items()) + "}").encode()

    def test_what_is_no_json_object_is_no_request(self) -> None:
        for body in (b"", b"[]", b"1", b"{", b'{"serial":1,"serial":1}', b'{"a":{"b":1,"b":2}}', b"\xff", b'\xef\xbb\xbf{}', b"[" * 60_000,
                     "{}".encode("utf-16"), b'{"a":1}x', b"{'a':1}"):
            with self.subTest(body[:20]), self.assertRaises(BadRequest):
                read_json(body)

    def test_answers_are_read_only_where_they_are_whole(self) -> None:
        read = receipt_reader(1, 5)
        self.assertEqual(read(f"till 1 serial 5 again 3 A-2 {HUELLA}"), Receipt("again", 3, "A-2", HUELLA))
        self.assertEqual(read("till 1 serial 5 refused passed 9"), Refused("passed 9"))
        self.assertIs(read("till 1 serial 5 fault disk"), Ending)
        self.assertIs(read("till 1 serial 5 fault stopped 1"), Ending)
        for answer in ("till 1 serial 5", f"till 1 serial 50 taken 3 A-2 {HUELLA}", f"till 11 serial 5 taken 3 A-2 {HUELLA}",
                       f"till 1 serial 5 taken 3 A-2 {HUELLA} ", f"till 1 serial 5 sold 3 A-2 {HUELLA}"):
            self.assertIsNone(read(answer), answer)
        self.assertEqual(last_line(4).read("last 4 25"), 25)
        self.assertIsNone(last_line(4).read("last 5 25"))
        self.assertEqual(parting_line("21", 1000).read("lines 21:413 21:413"), ["21:413", "21:413"])
        self.assertEqual(parting_line("21", 1000).read("lines none"), [])
        self.assertIsNone(parting_line("21", 1000).read("lines 10:413 21:413"))

    def test_a_ticket_has_cents_days_and_the_listings_word(self) -> None:
        answer = f"ticket 2 A-1 31-01-2025 R5 -1.74 -10.00 2025-01-31T10:00:00+01:00 {HUELLA} {LINK} vet 1110"
        self.assertEqual(ticket_line("A-1", "test").read(answer), {
            "place": 2, "num": "A-1", "date": "2025-01-31", "kind": "R5", "cuota": -174, "total": -1000, "moment": "2025-01-31T10:00:00+01:00",
            "huella": HUELLA, "link": LINK, "state": "vet", "code": 1110})
        self.assertEqual(ticket_line("A-1", "test").read("ticket A-1 unknown"), {})
        self.assertIsNone(ticket_line("A-2", "test").read(answer))

    def test_rows_and_sums_are_read(self) -> None:
        alta = f"7 alta A-1 31-01-2025 F1 0.21 1.21 S X {HUELLA} con-errores 2000"
        self.assertEqual(hub_forms.read_row(alta), {
            "place": 7, "record": "alta", "num": "A-1", "date": "2025-01-31", "kind": "F1", "cuota": 21, "total": 121, "subsanacion": "S",
            "rechazo": "X", "huella": HUELLA, "state": "con-errores", "code": 2000})
        anulacion = f"8 anulacion A-1 31-01-2025 N S {HUELLA} pending"
        self.assertEqual(hub_forms.read_row(anulacion), {
            "place": 8, "record": "anulacion", "num": "A-1", "date": "2025-01-31", "sin_registro": "N", "rechazo": "S", "huella": HUELLA,
            "state": "pending"})
        text = "21 1 200.00 42.00 0.00\n10+ 1 -10.00 -1.00 -0.14\nstatement 01-2025 lines 2 base 190.00 tax 41.00 surcharge -0.14\n"
        self.assertEqual(hub_forms.read_statement(text, "01-2025"), {
            "lines": 2, "base": 19000, "tax": 4100, "surcharge": -14,
            "classes": [{"class": "21", "lines": 1, "base": 20000, "tax": 4200, "surcharge": 0},
                        {"class": "10+", "lines": 1, "base": -1000, "tax": -100, "surcharge": -14}]})
        self.assertIsNone(hub_forms.read_statement(text, "02-2025"))
        self.assertEqual(hub_forms.read_listing("chain 0 noted 0\n"), [])
        self.assertIsNone(hub_forms.read_listing(f"{alta}\n"))


class PackageTest(unittest.TestCase):
    """What the package has."""

    def test_each_part_of_the_hub_is_in_its_package(self) -> None:
        here = os.path.dirname(os.path.realpath(__file__))
        with open(os.path.join(here, "..", "tools", "package_hub.py"), encoding="utf-8") as tool:
            text = tool.read()
        parts = [name for name in os.listdir(here) if name.startswith("hub_") and name.endswith(".py")]
        self.assertIn("hub_http.py", parts)
        self.assertEqual([name for name in parts if f'"{name}"' not in text], [])
        self.assertEqual([name for name in os.listdir(os.path.join(here, "clients")) if f'"{name}"' not in text], [])


class TokensTest(unittest.TestCase):
    """The file of tokens."""

    def read(self, text: str, mode: int = 0o600) -> hub_tokens.Tokens:
        """Reads a file of this text."""
        with tempfile.TemporaryDirectory() as folder:
            path = os.path.join(folder, "tokens")
            with open(path, "w", encoding="utf-8") as file:
                file.write(text)
            os.chmod(path, mode)
            self.assertEqual(stat.S_IMODE(os.stat(path).st_mode), mode)
            return hub_tokens.read_tokens(path)

    def test_each_token_says_who_asks(self) -> None:
        one, two, owner = "1" * 32, "2" * 40, "o" * 32
        tokens = self.read(f"# tills\ntill 64 {one}\n\ntill 64 {two}\nowner {owner}\n", 0o400)

        def basic(pair: str) -> str:
            return "Basic " + base64.b64encode(pair.encode()).decode()

        self.assertEqual([str(tokens.asker(f"Bearer {token}")) for token in (one, two, owner)], ["till 64", "till 64", "owner"])
        self.assertEqual(str(tokens.asker(basic(f"owner:{owner}"))), "owner")
        for value in ("", one, "Bearer", f"Bearer {one}x", f"Bearer {one[:-1]}", f"Digest {one}", basic(f"owner:{one}"), basic(f"till:{owner}"),
                      basic(owner), "Basic %%%", "Basic " + base64.b64encode(b"\xff").decode()):
            self.assertIsNone(tokens.asker(value), value)

    def test_a_file_that_is_wrong_is_not_taken(self) -> None:
        token = "1" * 32
        for text in ("", "# none\n", f"till {token}\n", f"till 0 {token}\n", f"till 65 {token}\n", f"till 01 {token}\n", "owner short\n",
                     f"owner {token}\ntill 1 {token}\n", f"owner {token} {token}\n", f"clerk {token}\n", f"owner {'1' * 31}ñ\n"):
            with self.subTest(text), self.assertRaises(hub_tokens.TokensFault):
                self.read(text)
        for mode in (0o640, 0o604, 0o644, 0o700, 0o660):
            with self.subTest(oct(mode)), self.assertRaises(hub_tokens.TokensFault):
                self.read(f"owner {token}\n", mode)


class ShopsTest(unittest.TestCase):
    """SHOPS and TOKENS, read by themselves."""

    def read(self, text: str, has_host: bool = True) -> Dict[str, hub_shops.ShopLine]:
        """Reads shops of this text."""
        street = Street([])
        self.addCleanup(street.remove)
        with open(street.shops, "w", encoding="utf-8") as file:
            file.write(text)
        return read_shops(street.shops, has_host)

    def test_each_line_is_a_shop(self) -> None:
        shops = self.read("# shops\n\na 1 /a.chain\nbar-sol-2 2 b.chain /to /from\n" + "x" * 32 + " 1 x\n")
        self.assertEqual(list(shops), ["a", "bar-sol-2", "x" * 32])
        self.assertEqual(shops["a"].serve("/p"), ["/p", "serve", "/a.chain", "1"])
        self.assertEqual(shops["bar-sol-2"].serve("/p"), ["/p", "--agency", "/to", "/from", "serve", "b.chain", "2"])
        self.assertEqual([shop.is_trial for shop in shops.values()], [True, False, True])
        self.assertEqual(self.read(""), {})

    def test_a_faulty_line_is_named(self) -> None:
        for line in ("a", "a 1", "a 1 f to", "a 1 f to from more", "A 1 f", "a_b 1 f", "ñ 1 f", "x" * 33 + " 1 f", "b 1 other", "a 1 b.chain",
                     "a 1 f same same", "a 1 f f from"):
            with self.subTest(line), self.assertRaisesRegex(ShopsFault, "line 3: "):
                self.read(f"# one that is right\nb 1 b.chain\n{line}\n")
        with self.assertRaisesRegex(ShopsFault, "line 1: TO and FROM need --host"):
            self.read("a 1 f to from\n", has_host=False)
        with self.assertRaises(ShopsFault):
            read_shops("/nowhere", True)

    def test_tokens_name_their_shop(self) -> None:
        street = Street(["a"], 64)
        self.addCleanup(street.remove)
        tokens = hub_tokens.read_tokens(street.tokens, True)
        askers = [str(tokens.asker(f"Bearer {token}")) for token in (street.till["a", 64], street.owner["a"], street.host)]
        self.assertEqual((askers, tokens.shops()), (["a till 64", "a owner", "host"], {"a"}))
        for user, token in (("owner", street.host), ("host", street.host), ("owner", street.till["a", 1])):
            self.assertIsNone(tokens.asker("Basic " + base64.b64encode(f"{user}:{token}".encode()).decode()))
        for line in ("till 1 TOKEN", "till a 0 TOKEN", "till a 65 TOKEN", "owner TOKEN", "owner A TOKEN", "host a TOKEN", "till a b 1 TOKEN"):
            with open(street.tokens, "w", encoding="ascii") as file:
                file.write(line.replace("TOKEN", "t" * 32) + "\n")
            with self.subTest(line), self.assertRaisesRegex(hub_tokens.TokensFault, "line 1"):
                hub_tokens.read_tokens(street.tokens, True)


if __name__ == "__main__":
    unittest.main()
