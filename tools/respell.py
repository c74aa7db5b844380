#!/usr/bin/env python3
"""Brings this repository's own definitions and lemmas to the spelling of today's Rattle.

usage: python3 tools/respell.py [--table]      at the top of the repository, once, after port.py

A name that the repository declares in specs/ or proofs/ and that has a dash loses it: a type or a fact is written in
upper camel case, everything else in snake case. Operators keep their signs. Names that Rattle makes from the code (goals,
invariants, measures) are not touched, nor is anything in Rust code, in strings, in inputs or in outputs.
--table prints the table of names and changes nothing.
"""

import os
import re
import sys

# Names whose plain spelling would fall together with another name, or hold a word that the library has renamed.
OTHERS = {
    "Fixed-Point": "FixedArithmetic",  # FixedPoint is the setting in the code
    "At-Node": "IsAtNode",  # AtNode is a case of RunFault
    "getD-pairs": "get_or_pairs",
    "getD-parts": "get_or_parts",
    "place-getD": "place_get_or",
}

# The files that speak of the names that Rattle makes.
MADE = ("Answers.antt", "Invariants.antt", "Choices.antt", "Proof.antt")

TOKEN = re.compile(r"[^\s(){}.;,@\"«»`]+")
DECLARED = re.compile(
    r"^\s*(?:(?:pub|abbrev|unfoldable|record|data|ruleset|mod|mutual)\s+)*([^\s(){}.;,@\"«»]+)((?:\s+(?:\([^()]*(?:\([^()]*\)[^()]*)*\)|\{[^{}]*\}))*)\s*:(?:\s(.*))?$"
)
RULESET = re.compile(r"^\s*(?:pub\s+)?ruleset\s+([^\s(){}.;,@\"«»]+)\s*=")
BOUND = re.compile(r"(?:\blet\s+|\bas\s+|λ \(?)([^\s(){}.;,@\"«»]+)")
STRING = re.compile(r'"(?:[^"\\\n]|\\.)*"')
SPAN = re.compile(r"`[^`\n]*`")


def files(kinds):
    for top in ("crates", "docs", "README.md"):
        if os.path.isfile(top):
            if top.endswith(kinds):
                yield top
            continue
        for folder, below, names in os.walk(top):
            below[:] = sorted(d for d in below if d not in ("out", "target"))
            for name in sorted(names):
                if name.endswith(kinds):
                    yield os.path.join(folder, name)


def is_dashed(name):
    return re.search(r"[\w']-[\w]", name) is not None


def respelled(name):
    if name in OTHERS:
        return OTHERS[name]
    if re.match(r"[A-Z]", name):
        return "".join(part[:1].upper() + part[1:] for part in name.split("-"))
    return re.sub(r"(?<=[\w'])-(?=\w)", "_", name)


def declared():
    found = set()
    for path in files((".antt",)):
        answers = os.path.basename(path) in MADE
        with open(path, encoding="utf-8") as f:
            for line in f:
                for m in [RULESET.match(line)] + ([] if answers else list(BOUND.finditer(line))):
                    if m and is_dashed(m[1]):
                        found.add(m[1])
                m = DECLARED.match(line.rstrip("\n"))
                if not m or not is_dashed(m[1]):
                    continue
                if answers and re.match(r"\s*(?:goal|Goals|Given|needs?)\b", m[3] or ""):
                    continue
                found.add(m[1])
    return {name: respelled(name) for name in found}


def turned(text, table, made=False):
    """The text with its names turned; where made is set, not the names of steps that Rattle makes, as in c.NAME."""

    def one(m):
        if made and re.search(r"(?:^|[^\w'.])(?:c|w|l|l\.initial)\.$", text[: m.start()]):
            return m[0]
        return table.get(m[0], m[0])

    return TOKEN.sub(one, text)


def code_line(line, table, comment, made):
    """A line of antt, or of a clause: its code turned, its comment only in code spans or where a type is named."""
    at = line.find(comment)
    while at > 0 and not line[at - 1].isspace():
        at = line.find(comment, at + 1)
    code, rest = (line, "") if at < 0 else (line[:at], line[at:])
    parts, last = [], 0
    for m in STRING.finditer(code):
        parts += [turned(code[last : m.start()], table, made), m[0]]
        last = m.end()
    parts.append(turned(code[last:], table, made))
    rest = SPAN.sub(lambda m: turned(m[0], table), rest)
    rest = TOKEN.sub(lambda m: table[m[0]] if m[0] in table and m[0][0].isupper() else m[0], rest)
    return "".join(parts) + rest


def main(args):
    table = declared()
    if args == ["--table"]:
        for old in sorted(table):
            print(f"{old}\t{table[old]}")
        return 0
    if args:
        print(__doc__)
        return 2
    news = {}
    for old in sorted(table):
        if table[old] in news:
            print(f"these fall together: {old} and {news[table[old]]}")
            return 1
        news[table[old]] = old
    changed = 0
    for path in files((".antt", ".rt", ".md", ".edit")):
        with open(path, encoding="utf-8") as f:
            before = f.read()
        if path.endswith(".md"):
            after = SPAN.sub(lambda m: turned(m[0], table), before)
        else:
            comment = "--" if path.endswith(".antt") else "//"
            made = os.path.basename(path) in MADE
            after = "".join(code_line(line, table, comment, made) for line in before.splitlines(keepends=True))
        if after != before:
            changed += 1
            with open(path, "w", encoding="utf-8") as f:
                f.write(after)
    print(f"respelled {len(table)} names in {changed} files")
    return 0


if __name__ == "__main__":
    raise SystemExit(main(sys.argv[1:]))
