#!/usr/bin/env python3
"""Counts the places in crates/*/src that docs/DESIGN-PASS.md speaks of.

    python3 tools/places.py [-v] [FOLDER]

One line for each question, with the number of places; -v prints the places too. FOLDER is a checkout, the present one by default.
"""
import collections
import pathlib
import re
import sys

VERBOSE = "-v" in sys.argv
FOLDERS = [a for a in sys.argv[1:] if a != "-v"]
ROOT = pathlib.Path(FOLDERS[0] if FOLDERS else ".")
SOURCES = {p: p.read_text() for p in sorted(ROOT.glob("crates/*/src/**/*.rt"))}


def report(point, question, places):
    print(f"{point}  {len(places):3}  {question}")
    if VERBOSE:
        for place in places:
            print(f"          {place}")


def at(path, text, offset, said):
    line = text.count("\n", 0, offset) + 1
    return f"{path.relative_to(ROOT)}:{line}: {' '.join(said.split())[:110]}"


def found(pattern, flags=re.M):
    return [at(p, t, m.start(), m.group(0)) for p, t in SOURCES.items() for m in re.finditer(pattern, t, flags)]


FUNCTION = re.compile(r"^( *)(?:pub(?:\(crate\))? )?fn (\w+)", re.M)


def functions():
    """Every function: path, offset, name, text from `fn` to its last brace."""
    for path, text in SOURCES.items():
        for m in FUNCTION.finditer(text):
            # a trait's function without a body ends at a semicolon
            bare = re.compile(r"[^{;]*(?:\{[^{}\n]*\}[^{;]*)*;").match(text, m.end())
            end = bare or re.compile(r"^" + m.group(1) + r"\}$", re.M).search(text, m.end())
            if end:
                yield path, m.start(), m.group(2), text[m.start():end.end()]


KEPT = {"fn", "let", "mut", "if", "else", "for", "in", "while", "loop", "match", "return", "as", "pub", "crate", "self", "Self", "impl",
        "requires", "ensures", "where", "ref", "move", "break"}


def skeleton(text):
    text = re.sub(r"//[^\n]*", "", text)
    text = re.sub(r"^\s*(requires|ensures)\b[^\n]*$", "", text, flags=re.M)
    tokens = re.findall(r"[A-Za-z_]\w*|\d\w*|\"[^\"]*\"|'[^']*'|\S", text)
    return tuple(t if t in KEPT or not re.match(r"[A-Za-z_0-9\"']", t) else "x" for t in tokens)


def parameters(text):
    head = text[:text.find("{")] if "{" in text else text
    inner = re.search(r"\((.*?)\)\s*(->|\n\s*(?:requires|ensures|where|\{)|;|$)", head, re.S)
    if not inner:
        return []
    depth, current, out = 0, "", []
    for c in inner.group(1):
        depth += c in "(<[" and 1 or (c in ")>]" and -1 or 0)
        if c == "," and depth == 0:
            out.append(" ".join(current.split()))
            current = ""
        else:
            current += c
    out.append(" ".join(current.split()))
    return [p for p in out if ":" in p]


# 1: own shapes of Option and Result, flags, codes
report(1, "faults told by an Option", found(r"->\s*(?:Result<)?Option<\w*(?:Fault|Refusal)>"))
report(1, "enums of two cases, one with a value and one without", found(r"enum \w+(?:<\w+>)? \{\s*(?:\w+\([^)]*\),\s*\w+,|\w+,\s*\w+\([^)]*\),)\s*\}"))
report(1, "flags beside a value", found(r"\b\w+: bool,|&\[bool\]|Vec<bool>"))
report(1, "pairs of numbers for a refusal", found(r"->\s*\(u8, usize\)|fn (?!number)\w*number\w*\([^)]*\) -> u32 \{"))

# 2: twins
groups = collections.defaultdict(list)
for path, offset, name, text in functions():
    shape = skeleton(text)
    if len(shape) > 24:
        groups[shape].append(at(path, SOURCES[path], offset, name))
twins = [" = ".join(g) for g in groups.values() if len(g) > 1]
report(2, "groups of functions that differ in names and numbers alone", twins)

# 3: loops that count
report(3, "for over a range of numbers, with the number used", found(r"^\s*for [a-z]\w* in \S+\.\..*$"))
report(3, "while, but for while let", found(r"^\s*while (?!let).*$"))
report(3, "a place written by the loop's own index", found(r"for \((\w+), \w+\) in [^\n]*enumerate\(\) \{(?:[^{}]|\{[^{}]*\})*?\b\w+\[\1\]", re.S))
report(3, "a counter kept by hand", found(r"^\s*\w+ \+= 1;$|saturating_add\(1\)"))

# 4: conversions and printing by hand
report(4, "a match that passes a value on", found(r"match [^{}]+\{\s*(?:Ok|Some)\((\w+)\) => (?:(?:Ok|Some)\(\1\)|\1),\s*(?:Err|None)[^\n]*"))
report(4, "a match that keeps one side", found(r"match [^{}]+\{\s*Ok\((?:_|\(\))\) => [^\n]*\s*Err\([^\n]*|Err\(_\) => None,|None => None,"))
report(4, "functions that turn one fault into another", found(r"fn (?!from\b)\w+\(\w+: \w*Fault\) -> \w*Fault"))
report(4, "functions that print a value into a String", found(r"fn \w+(?:<[^>]*>)?\([^)]*heap: Global[^)]*\) -> Result<String"))

# 5: facts and parameters that stand together
clauses = collections.defaultdict(set)
pairs = collections.defaultdict(set)
for path, offset, name, text in functions():
    where = at(path, SOURCES[path], offset, name)
    for m in re.finditer(r"^\s*requires(?: \w+)? \{ (.*) \}$", text, re.M):
        clauses[(path.parts[-3] if "src" in path.parts else "", re.sub(r"\.(now|old|new)\b", "", m.group(1)))].add(where)
    given = [p for p in parameters(text) if not re.match(r"(heap|rt|alloc|_\w*)\b", p)]
    for a in range(len(given)):
        for b in range(a + 1, len(given)):
            pairs[(path.relative_to(ROOT).parts[1], given[a], given[b])].add(where)
report(5, "facts asked by three functions or more of a crate", [f"{k[1]}: {len(v)}" for k, v in clauses.items() if len(v) > 2])
report(5, "pairs of parameters of three functions or more of a crate", [f"{k[0]}: {k[1]}, {k[2]}: {len(v)}" for k, v in pairs.items() if len(v) > 2])

# 6: buffers with a length, lists side by side, indices for links
report(6, "arrays as long as a limit", found(r"\[[^\]\n]*; MAX_\w+\]"))
report(6, "lists of flags beside a list", found(r"Vec<bool>"))
report(6, "links by index", found(r"^    (?:Sum|Difference|Register)\(usize.*|^    pub sources: Vec<usize>,"))

# 7: switches on which step
report(7, "a switch by a name", found(r"\"(?:word)\" => .*"))
report(7, "an enum that passes each call on", found(r"RoundingChoice::Floor => Floor\.\w+|OverflowChoice::Wrap => Wrap\.\w+"))

# 8: answers
ANSWERS = {p: p.read_text() for p in sorted(ROOT.glob("crates/*/proofs/**/Answers.antt"))}
alone = [at(p, t, m.start(), m.group(0)) for p, t in ANSWERS.items() for m in re.finditer(r"^[\w-]+(?: g)? c = (?:search rules|grind \(arith, common_steps\))$", t, re.M)]
report(8, "answers that say only what the check tries by itself", alone)
