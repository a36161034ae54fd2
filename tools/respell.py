#!/usr/bin/env python3
"""Respells the repository's own definitions and lemmas as today's Rattle spells names: words in snake case, facts in camel case.

usage: tools/respell.py        once, at the top of the repository, after the kit's port.py

respell.tsv beside this file has a row for each name: old, a tab, new. Whole words of crates/*/{specs,proofs}/**/*.antt turn, and in
crates/*/src/**/*.rt the words of ghost items and clauses. Names that Rattle makes stay: those behind a dot, but for the fields and
qualified names listed as DOTTED, and those that a proof file declares at a goal's type. Comments keep their words, but for names in camel case,
and strings stay.
"""
import pathlib
import re

HERE = pathlib.Path(__file__).resolve().parent
ROOT = HERE.parent
TABLE = dict(line.split("\t") for line in (HERE / "respell.tsv").read_text().splitlines())
CAMEL = {old: new for old, new in TABLE.items() if re.search("[a-z0-9][A-Z]", old)}
# Own fields and words behind an alias of their module: these turn behind a dot as well.
DOTTED = set("gaveUp gaveUps giveUp givenUp isApproval packets-is sentNow sheet-is table-id unit-is wrote-all".split())
WORD = re.compile(r"[^\s(){}.;,@\"«»]+")
COMMENT = re.compile(r"(?<![^\s(){}.;,@\"«»])--[^\n]*")
STRING = re.compile(r'"(?:[^"\\\n]|\\.)*"')
PATH = re.compile(r"Rattle(?:\.[\w+]+)+\.$|(?:^|[^\w.])(?:spec|st|rules|errors)\.$")


def turn(text, table, own=frozenset()):
    """The text with each whole word of the table turned, where it stands behind no dot or is a dotted word of ours."""

    def one(m):
        word = m[0]
        if word not in table or word in own:
            return word
        if m.start() and text[m.start() - 1] == "." and word not in DOTTED and not PATH.search(text[: m.start()]):
            return word
        return table[word]

    return WORD.sub(one, text)


def antt(text):
    goals = set(re.findall(r"(?m)^(?:pub )?(\S+) : (?:goal|given)\.", text))
    out, at = [], 0
    for m in sorted([*COMMENT.finditer(text), *STRING.finditer(text)], key=lambda m: m.start()):
        if m.start() < at:
            continue
        out.append(turn_code(text, at, m.start(), goals))
        out.append(turn(m[0], CAMEL) if m[0].startswith("--") else m[0])
        at = m.end()
    out.append(turn_code(text, at, len(text), goals))
    return "".join(out)


def turn_code(text, start, end, goals):
    return turn(text[start:end], TABLE, goals)


GHOST = re.compile(r"ghost use [^;]*;|\b(?:requires|ensures|ghost)\b[^{;\n]*(?=\{)")


DEFAULT = re.compile(r"\s*=\s*\{")


def closing(text, at):
    deep = 0
    for i in range(at, len(text)):
        deep += (text[i] == "{") - (text[i] == "}")
        if deep == 0:
            return i + 1
    return len(text)


def rt(text):
    out, at = [], 0
    for m in GHOST.finditer(text):
        if m.start() < at:
            continue
        end = m.end()
        if not m[0].endswith(";"):
            end = closing(text, end)
            if default := DEFAULT.match(text, end):
                end = closing(text, default.end() - 1)
        out.append(text[at : m.start()])
        out.append(turn(text[m.start() : end], TABLE))
        at = end
    out.append(text[at:])
    return "".join(out)


def main():
    changed = 0
    for path in sorted((ROOT / "crates").glob("*/**/*")):
        parts = path.relative_to(ROOT / "crates").parts
        if path.suffix == ".antt" and parts[1] in ("specs", "proofs"):
            new = antt(path.read_text())
        elif path.suffix == ".rt" and parts[1] == "src":
            new = rt(path.read_text())
        else:
            continue
        if new != path.read_text():
            path.write_text(new)
            changed += 1
    print(f"respell: {changed} files")


main()
