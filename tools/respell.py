#!/usr/bin/env python3
"""Brings the repository's own definitions and lemmas to the spelling of today's Rattle: words in snake case. Run once, at the top, behind port.py.

A name that is declared in a file of specs/ or of proofs/ (other than a Proof.antt, which walks code by names of that time) and has a capital or a dash
inside is respelled wherever it stands as a name: in .antt files, in the clauses of .rt files, in edits, and between back quotes or in code blocks of
comments and pages. Where two names would fall together, the one with capitals becomes the snake-case name and the other is spelled with dashes. A name
that a file brings in from outside the repository stays in that file. Prints OLD NEW for each name.
"""
import glob
import re
import sys
from collections import defaultdict

STOP = r"\s(){}\[\],;.:«»`\"|"
TOKEN = re.compile(rf"[^{STOP}]+")
OWN = {line.split(":")[0] for line in open("crates.txt") if ":" in line and not line.startswith("#")}
DECLARED = re.compile(rf"^\s*(?:\| )?((?:pub |abbrev |unfoldable )*)((?:[^{STOP}]+ )*[^{STOP}]+) :(?: |$)")
USE = re.compile(r"\buse\s+([^\s{;]+?)\.\{([^}]*)\}")
EQUATION = re.compile(rf"^\s*([^{STOP}]+)\b[^:]* =(?: |$)")


def snake(name):
    return re.sub(r"(?<=[a-z0-9₀-₉'])([A-Z])", lambda m: "_" + m.group(1).lower(), name).replace("-", "_")


def outside(text):
    """Names that a file brings in from outside the repository."""
    names = set()
    for module, items in USE.findall(text):
        parts = module.split(".")
        if not (parts[0] == "Rattle" and parts[1] in OWN):
            names |= {item.split(" as ")[0].strip() for item in items.split(",")}
    return names


def antt_files():
    return sorted(glob.glob("crates/*/specs/**/*.antt", recursive=True) + glob.glob("crates/*/proofs/**/*.antt", recursive=True))


def table():
    texts = {path: open(path).read() for path in antt_files()}
    declared, foreign = set(), set()
    for path, text in texts.items():
        foreign |= outside(text)
        if path.endswith("/Proof.antt"):
            continue
        for line in text.split("\n"):
            found = DECLARED.match(line.split(" -- ")[0])
            if found and not line.lstrip().startswith("--"):
                declared |= set(found.group(2).split())
    declared = {name for name in declared if re.match(r"[a-zα-ω]", name) and re.fullmatch(r"[\w'\-]+", name)}
    turning = {name for name in declared if "-" in name or re.search(r"[a-z0-9₀-₉'][A-Z]", name)}
    groups = defaultdict(set)
    for name in declared | foreign:
        groups[snake(name) if re.match(r"[a-z]", name) else name].add(name)
    new = {}
    for name in turning:
        new[name] = snake(name)
    for made, names in groups.items():
        own = {name for name in names if name in declared}
        if len(names) < 2 or not own:
            continue
        capitals = [name for name in own if re.search(r"[A-Z]", name)]
        if made in foreign - declared:  # the word of another library keeps its spelling
            for name in own:
                new[name] = name if "-" in name else re.sub(r"_", "-", made) if capitals and name in capitals else name
            continue
        if capitals:
            for name in own - {capitals[0]}:
                new[name] = made.replace("_", "-")
    return {old: made for old, made in new.items() if old != made}, texts


def names_turned(text, new):
    return TOKEN.sub(lambda m: new.get(m.group(0), m.group(0)), text)


def quoted_turned(text, new):
    return re.sub(r"`[^`]*`", lambda m: names_turned(m.group(0), new), text)


def camel_only(new):
    return {old: made for old, made in new.items() if re.search("[A-Z]", old)}


def antt_turned(text, new):
    stay = outside(text)
    here = {old: made for old, made in new.items() if old not in stay}
    lines = []
    for line in text.split("\n"):
        at = re.search(r"(^|\s)--(\s|$)", line)
        if at:
            lines.append(names_turned(line[: at.start()], here) + quoted_turned(names_turned(line[at.start() :], camel_only(here)), here))
        else:
            lines.append(names_turned(line, here))
    return "\n".join(lines)


def rt_turned(text, new):
    stay = outside(text)
    here = {old: made for old, made in new.items() if old not in stay}
    text = re.sub(r"//[^\n]*", lambda m: quoted_turned(names_turned(m.group(0), camel_only(here)), here), text)
    text = re.sub(r"ghost use [^;]*;", lambda m: names_turned(m.group(0), here), text)

    def clauses(text):
        out, at = [], 0
        for m in re.finditer(r"\b(requires|ensures)\b[^{}\n]*\{|\bghost [a-z_]+: \{", text):
            if m.start() < at:
                continue
            depth, end = 1, m.end()
            while depth:
                depth += {"{": 1, "}": -1}.get(text[end], 0)
                end += 1
            out += [text[at : m.start()], names_turned(text[m.start() : end], here)]
            at = end
        return "".join(out) + text[at:]

    return clauses(text)


def page_turned(text, new):
    """Names between back quotes, and in code blocks."""
    out = []
    for n, part in enumerate(re.split(r"(^```.*?^```)", text, flags=re.S | re.M)):
        if n % 2:
            out.append(names_turned(part, new))
        else:
            for line in part.split("\n"):
                out.append((names_turned if line.startswith("    ") else quoted_turned)(line, new))
                out.append("\n")
            out.pop()
    return "".join(out)


def write(path, old, made):
    if old != made:
        open(path, "w").write(made)


def main():
    new, texts = table()
    for path, text in texts.items():
        write(path, text, antt_turned(text, new))
    for path in glob.glob("crates/*/src/**/*.rt", recursive=True):
        text = open(path).read()
        write(path, text, rt_turned(text, new))
    for path in glob.glob("crates/*/must-fail/*.edit"):
        text = open(path).read()
        write(path, text, antt_turned(text, new))
    for path in ["README.md"] + glob.glob("docs/*.md") + glob.glob("docs/landings/*.md"):
        text = open(path).read()
        write(path, text, page_turned(text, new))
    for old in sorted(new):
        print(old, new[old])


main()
