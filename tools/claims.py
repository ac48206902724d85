#!/usr/bin/env python3
"""Makes docs/CLAIMS.md: each claim as a sentence, with the clause that says it, the definitions that it cites and the wrong bodies that it
refuses.

usage: tools/claims.py             writes the page
       tools/claims.py --check     writes nothing, and says what is amiss: the page isn't what this makes; a claim has neither a wrong body
                                   nor a reason for having none; or a wrong body names a clause that isn't there

A claim is one plain sentence right above its clause, in a comment of its own form: `//= ` above an `ensures` of a source, `--= ` above a
field of a record, a constructor or a definition of specs. It may go on over further such lines; one that begins with `No body: ` says why
no wrong body is there. A wrong body names the clause that refuses it by a line `clause: FUNCTION.NAME`, `clause: RECORD.FIELD` or `clause:
DEFINITION`, after `CRATE/` where the clause stands in another crate, and a method after its type or trait and `::` where its name alone is
another's too. A name that a function and a definition share is the function's.
"""
from __future__ import annotations

import glob
import os
import re
import sys
from collections.abc import Iterator
from dataclasses import dataclass, field

from lanes import ROOT, all_below, crates

PAGE = os.path.join("docs", "CLAIMS.md")
TAG = re.compile(r"^\s*(?://|--)= (.*)$")
NO_BODY = "No body: "
FUNCTION = re.compile(r"^\s*(?:pub(?:\([a-z]+\))? )?(?:const )?fn (\w+)")
IMPL = re.compile(r"^impl\b(?:<[^{]*?>)? *(?:[\w:<>, ]+ for )?(\w+)")
TRAIT = re.compile(r"^(?:pub )?trait (\w+)")
ENSURES = re.compile(r"^\s*ensures(?: (\w+))?\*? \{")
RECORD = re.compile(r"^\s*pub (?:record|data) (\w+)")
FIELD = re.compile(r"^\s+(?:pub )?(\w+) : ")
DEFINED = re.compile(r"^\s*(?:abbrev )?pub (?:record |data |abbrev )?([^\s:(]+)")
IMPORT = re.compile(r"(?:ghost )?use Rattle\.(\w+)\.specs\.([\w.]+)\.\{([^}]*)\}")
WORD = re.compile(r"[A-Za-z_][\w]*")
# A clause that a reason names, of whatever crate.
CITED = re.compile(r"`([a-z_]+)/([\w:.]+)`")


@dataclass
class Clause:
    crate: str
    path: str
    line: int
    name: str
    text: str
    sentence: str = ""
    reason: str = ""
    bodies: list[str] = field(default_factory=list)


def lines_of(path: str) -> list[str]:
    with open(os.path.join(ROOT, path), encoding="utf-8") as text:
        return text.read().split("\n")


def files_of(crate: str, part: str, ending: str) -> list[str]:
    found = glob.glob(os.path.join(ROOT, "crates", crate, part, "**", "*" + ending), recursive=True)
    return sorted(os.path.relpath(it, ROOT) for it in found)


def sentence_above(lines: list[str], at: int) -> tuple[str, str]:
    """What the claim's lines right above this one say, and the reason for having no wrong body."""
    told: list[str] = []
    while at > 0 and (found := TAG.match(lines[at - 1])):
        told.insert(0, found[1].strip())
        at -= 1
    whole = " ".join(told)
    sentence, _, reason = whole.partition(NO_BODY)
    return sentence.strip(), reason.strip()


def braced(lines: list[str], at: int) -> str:
    """The lines from this one on until the braces that it opens are closed."""
    depth, taken = 0, []
    for line in lines[at:]:
        taken.append(line)
        depth += line.count("{") - line.count("}")
        if depth <= 0:
            break
    return "\n".join(taken)


def indented(lines: list[str], at: int) -> str:
    """This line and those after it that are indented further."""
    depth = len(lines[at]) - len(lines[at].lstrip())
    taken = [lines[at]]
    for line in lines[at + 1 :]:
        if not line.strip() or len(line) - len(line.lstrip()) <= depth:
            break
        taken.append(line)
    return "\n".join(taken)


def clauses_of_source(crate: str, path: str) -> Iterator[Clause]:
    lines, owner, function, depth = lines_of(path), "", "", 0
    for at, line in enumerate(lines):
        if line.startswith("impl") or TRAIT.match(line):
            owner = found[1] + "::" if (found := TRAIT.match(line) or IMPL.match(line)) else ""
        elif line.startswith("}"):
            owner = ""
        elif found := FUNCTION.match(line):
            function, depth = owner + found[1], len(line) - len(line.lstrip()) + 4
        # One that is indented further is that of a closure within.
        elif (found := ENSURES.match(line)) and len(line) - len(line.lstrip()) == depth:
            name = f"{function}.{found[1]}" if found[1] else function
            yield Clause(crate, path, at + 1, name, braced(lines, at), *sentence_above(lines, at))


def clauses_of_specs(crate: str, path: str) -> Iterator[Clause]:
    lines, record = lines_of(path), ""
    for at, line in enumerate(lines):
        if found := RECORD.match(line):
            record = found[1]
            yield Clause(crate, path, at + 1, record, indented(lines, at), *sentence_above(lines, at))
        elif line.lstrip().startswith("abbrev pub ") and (found := DEFINED.match(line)):
            record = ""
            yield Clause(crate, path, at + 1, found[1], definition(lines, at, found[1]), *sentence_above(lines, at))
        elif record and (found := FIELD.match(line)):
            yield Clause(crate, path, at + 1, f"{record}.{found[1]}", indented(lines, at), *sentence_above(lines, at))


def definition(lines: list[str], at: int, name: str) -> str:
    """The lines of a definition, up to the next blank one."""
    taken = []
    for line in lines[at:]:
        if not line.strip():
            break
        taken.append(line)
    return "\n".join(taken)


def all_clauses(names: list[str]) -> list[Clause]:
    found: list[Clause] = []
    for crate in names:
        for path in files_of(crate, "src", ".rt"):
            found += clauses_of_source(crate, path)
        for path in files_of(crate, "specs", ".antt"):
            found += clauses_of_specs(crate, path)
    return found


class Definitions:
    """Where each definition of specs stands, and what a file's names stand for."""

    def __init__(self, names: list[str]) -> None:
        self.places: dict[tuple[str, str], int] = {}
        for crate in names:
            for path in files_of(crate, "specs", ".antt"):
                for at, line in enumerate(lines_of(path)):
                    if (found := DEFINED.match(line)) and not line.startswith(" "):
                        self.places.setdefault((path, found[1]), at + 1)

    def names_in(self, path: str) -> dict[str, tuple[str, str]]:
        """The names that this file may cite, each with its definition's file and name there."""
        text = "\n".join(lines_of(path))
        known = {name: (at, name) for at, name in self.places if at == path}
        for crate, module, listed in IMPORT.findall(text):
            place = os.path.join("crates", crate, "specs", *module.split(".")) + ".antt"
            for item in listed.split(","):
                name, _, other = item.strip().partition(" as ")
                if (place, name) in self.places:
                    known[other or name] = (place, name)
        return known

    def cited_by(self, clause: Clause) -> list[tuple[str, str]]:
        """The definitions that a clause cites, in the order of its text."""
        known = self.names_in(clause.path)
        own = clause.name.split(".")[0]
        found = dict.fromkeys(known[word] for word in WORD.findall(clause.text) if word in known)
        return [it for it in found if it != (clause.path, own)]


def named_by(edit: str) -> list[str]:
    return [line[8:].strip() for line in lines_of(edit) if line.startswith("clause: ")]


def give_bodies(clauses: list[Clause], names: list[str]) -> list[str]:
    """Gives each clause the wrong bodies that name it, and says which name one that isn't there."""
    amiss = []
    for crate in names:
        for edit in files_of(crate, "must-fail", ".edit") + files_of(crate, "wrong-bodies", ".edit"):
            for named in named_by(edit):
                home, _, name = named.rpartition("/")
                found = [it for it in clauses if it.crate == (home or crate) and (it.name == name or it.name.endswith("::" + name))]
                found = [it for it in found if it.path.endswith(".rt")] or found
                if len(found) != 1:
                    amiss.append(f"{edit} names the clause {named}, which {'is no one clause' if found else 'is not there'}")
                for it in found:
                    it.bodies.append(edit)
    return amiss


def link(text: str, path: str, line: int = 0) -> str:
    return f"[{text}](../{path}{f'#L{line}' if line else ''})"


def links_of(bodies: list[str]) -> str:
    return ", ".join(link(os.path.basename(it)[: -len(".edit")], it) for it in bodies)


def link_reasons(clauses: list[Clause]) -> list[str]:
    """Makes a link of each clause that a reason names as `CRATE/NAME`, with its wrong bodies, and says which one isn't there."""
    amiss = []
    for clause in clauses:
        for crate, name in CITED.findall(clause.reason):
            found = [it for it in clauses if it.crate == crate and (it.name == name or it.name.endswith("::" + name))]
            found = [it for it in found if it.path.endswith(".rt")] or found
            if len(found) != 1:
                why = "is no one clause" if found else "is not there"
                amiss.append(f"{clause.path}:{clause.line}: the reason names {crate}/{name}, which {why}")
                continue
            told = link(f"`{found[0].name}`", found[0].path, found[0].line) + f" of `{crate}`"
            told += f" ({links_of(found[0].bodies)})" if found[0].bodies else ""
            clause.reason = clause.reason.replace(f"`{crate}/{name}`", told)
    return amiss


def row(clause: Clause, definitions: Definitions) -> str:
    cited = ", ".join(link(f"`{name}`", path, definitions.places[path, name]) for path, name in definitions.cited_by(clause))
    refused = links_of(clause.bodies) or clause.reason
    return f"| {clause.sentence} | {link(f'`{clause.name}`', clause.path, clause.line)} | {cited} | {refused} |"


HEAD = """# Claims

Each claim, with the clause that says it, the definitions that this cites, and wrong bodies that it refuses: functions with a mistake put
in, which the prover can't prove to meet the clause. What the whole comes to, what is tested only, and what is neither stands in
[PROVED.md](PROVED.md). `tools/claims.py` makes this page from the sources; the highest crate comes first.
"""
TABLE = "| What holds | Clause | Definitions | Wrong bodies |\n|---|---|---|---|\n"


def page(tagged: list[Clause], order: list[str], definitions: Definitions) -> str:
    parts = [HEAD]
    for crate in order:
        rows = [row(it, definitions) for it in tagged if it.crate == crate]
        if rows:
            parts.append(f"\n## {crate}\n\n" + TABLE + "\n".join(rows) + "\n")
    return "".join(parts)


def main() -> int:
    if sys.argv[1:] not in ([], ["--check"]):
        print("usage: tools/claims.py [--check]", file=sys.stderr)
        return 2
    below = crates()
    names = sorted(below)
    clauses = all_clauses(names)
    amiss = give_bodies(clauses, names) + link_reasons(clauses)
    tagged = [it for it in clauses if it.sentence]
    amiss += [f"{it.path}:{it.line}: the claim of {it.name} has neither a wrong body nor a reason for having none" for it in tagged
              if not it.bodies and not it.reason]
    order = sorted(names, key=lambda it: (-len(all_below(below, it)), it))
    text = page(tagged, order, Definitions(names))
    place = os.path.join(ROOT, PAGE)
    if sys.argv[1:] == []:
        with open(place, "w", encoding="utf-8") as out:
            out.write(text)
    elif not os.path.exists(place) or "\n".join(lines_of(PAGE)) != text:
        amiss.append(f"{PAGE} isn't what tools/claims.py makes of the sources: run it, and commit the page")
    for it in amiss:
        print(it)
    return 1 if amiss else 0


if __name__ == "__main__":
    sys.exit(main())
