#!/usr/bin/env python3
"""Counts the places of docs/DESIGN-PASS.md in crates/*/src, point by point.

usage: tools/places.py [-v]     in the tree as it stands; -v lists each place
       tools/places.py [-v] COMMIT    as that commit has it
"""

import os
import re
import subprocess
import sys

ARGS = [a for a in sys.argv[1:] if a != "-v"]
LIST = "-v" in sys.argv[1:]


def run(*words):
    return subprocess.run(words, check=True, capture_output=True, text=True).stdout


def files(ending):
    top = run("git", "rev-parse", "--show-toplevel").strip()
    if ARGS:
        names = run("git", "-C", top, "ls-tree", "-r", "--name-only", ARGS[0], "crates").split("\n")
    else:
        names = run("git", "-C", top, "ls-files", "-co", "--exclude-standard", "crates").split("\n")
    for name in sorted(names):
        if not re.fullmatch(ending, name):
            continue
        if ARGS:
            yield name, run("git", "-C", top, "show", f"{ARGS[0]}:{name}")
        elif os.path.exists(os.path.join(top, name)):
            with open(os.path.join(top, name), encoding="utf-8") as f:
                yield name, f.read()


def code(text):
    """The text without comments and clauses, its lines kept."""
    text = re.sub(r"//[^\n]*", "", text)
    return re.sub(r"(?m)^\s*(requires|ensures)\b.*$", "", text)


SOURCES = [(name, code(text)) for name, text in files(r"crates/\w+/src/.*\.rt")]


def lines(pattern):
    for name, text in SOURCES:
        for number, line in enumerate(text.split("\n"), 1):
            for _ in re.finditer(pattern, line):
                yield f"{name}:{number}: {line.strip()}"


def blocks(head, inside):
    """Items whose head and body match, as an enum with a variant."""
    for name, text in SOURCES:
        for m in re.finditer(head + r"[^{}]*\{([^{}]*)\}", text):
            if re.search(inside, m.group(m.lastindex)):
                yield f"{name}:{text[: m.start()].count(chr(10)) + 1}: {m.group(0).split('{')[0].strip()}"


def signatures(test):
    for name, text in SOURCES:
        for m in re.finditer(r"\bfn (\w+)(?:<[^(]*>)?\(([^{]*?)\)\s*(?:->[^{]*?)?\{", text):
            if test(m.group(2)):
                yield f"{name}:{text[: m.start()].count(chr(10)) + 1}: fn {m.group(1)}"


def together(*names):
    return lambda parameters: all(re.search(rf"\b{n}\s*:", parameters) for n in names)


# Functions by hand for what std or a derive has, by the names that they had.
WRITTEN = (
    "wide|deeper|greater|least|less|capped|risen|behind_end|bits|natural|to_u16|magnitude|number16|number32|with_sign|high|low|is_digit|is_blank|is_zero|is_counted|is_kept"
    "|both|saturating_add|is_same|same|same_\\w+|sum|is_job_mark|is_code_mark|counted|value_kind|field_number|letter_number|is_filled|fill|copy|adds_after|behind|sized|numbers"
)

POINTS = [
    ("1 enums of the shape of Option or Result", lambda: blocks(r"\benum \w+", r"\b(Refused|Foreign|Fails)\b")),
    ("1 flags beside a value", lambda: lines(r"^\s*(pub )?(good|failed|whole|minus|overflowed): bool,")),
    ("1 numbers for refusals", lambda: lines(r"Refused\(\d+,|\b(return|=>) 1[1-4]\b|\brefusal: usize\b")),
    ("1 numbers for kinds, opcodes, events, commands", lambda: lines(r"\bmatch (kind|opcode|what|name|k|code\[place\])\b|\bif (kind|opcode|what|event) [=!]= \d|\bkind\(inside, \d|\bdid\(\w+, \d")),
    ("2 the same head of a function twice or more", lambda: twins()),
    ("3 loops that are no `for`", lambda: lines(r"^\s*(let \w+ = )?(while|loop)\b")),
    ("4 functions that std or a derive has", lambda: lines(rf"\bfn ({WRITTEN})\b\(")),
    ("4 wrapping sums by `std::num`", lambda: lines(r"std::num::wrapping_")),
    ("5 registers, counts and threads as parameters", lambda: signatures(together("registers", "counts", "threads"))),
    ("5 an array lent beside its cursor", lambda: signatures(lambda p: re.search(r"\b(self|s: Cursor)\b", p) and re.search(r"\b(due|items|ends|starts|heights): &", p))),
    ("6 parallel arrays and packed numbers", lambda: lines(r"^\s*(pub )?(starts|ends|needs|rows): \[|\[u8; 128\]|\bpart >= 128|\* 128\b|\+ 128\b|\bREAD\b")),
    ("6 arrays copied to a local to be read", lambda: lines(r"^\s*let \w+ = \w+\.(cells|readlog|writelog|readcounts|registers|counts|threads|heights|starts|ends|needs|rows);")),
    ("7 a number that says which step to run", lambda: lines(r"\bwhat: u64\b|\bk: usize\b.*\bname\b|\bfield_number\b")),
    ("8 answers", lambda: (name for name, _ in files(r"crates/\w+/proofs/.*/Answers\.antt"))),
    ("8 lines of proofs", lambda: (line for _, text in files(r"crates/\w+/proofs/.*\.antt") for line in text.split("\n") if line)),
]


def twins():
    """Functions whose bodies are alike but for names and numbers."""
    seen = {}
    for name, text in SOURCES:
        for m in re.finditer(r"(?m)^( *)(?:pub )?fn (\w+)[^{]*\{\n(.*?)^\1\}", text, re.S):
            body = re.sub(r"\b\w+\b", lambda w: w.group(0) if w.group(0) in KEPT else "x", m.group(3))
            body = re.sub(r"\s+", " ", body)
            if len(body) > 60:
                seen.setdefault(body, []).append(f"{name}:{text[: m.start()].count(chr(10)) + 1}: fn {m.group(2)}")
    for places in seen.values():
        if len(places) > 1:
            yield from places


KEPT = set("if else while for in loop match return let mut as true false self".split())

for title, places in POINTS:
    found = list(places())
    print(f"{len(found):6d}  {title}")
    if LIST and not title.startswith("8"):
        for place in found:
            print("        " + place)
