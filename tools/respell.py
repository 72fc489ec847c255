#!/usr/bin/env python3
"""Respells the repository's own names of definitions, lemmas, fields and constructors in snake case.

usage: tools/respell.py     at the top, once, right after port.py

A word in camel case that begins small is turned wherever it stands in specs/, proofs/, sources, must-fail edits and
pages: `legalFor-iff-ends` becomes `legal_for-iff-ends`, since a dash joins two names. A record's field and a
constructor have no dash: `under-only` becomes `under_only`. Strings and Rust's own names have no such words. The
names that fall together are printed.
"""

import pathlib
import re

CAMEL = re.compile(r"(?<![A-Za-z0-9_'·])[a-z][a-z0-9]*(?:[A-Z][A-Za-z0-9]*)+(?![A-Za-z0-9_])")
DASHED = re.compile(r"(?<![^\s(){}\[\],;.`\"«»:=·|←→])[^\s(){}\[\],;.`\"«»:=·|←→]*-[^\s(){}\[\],;.`\"«»:=·|←→]*")
HEAD = re.compile(r"^(\s*)(?:pub )?(?:record|data)\s")
MEMBER = re.compile(r"^\s+(?:pub )?([^\s(){}:;,.]+) :")
# Names of the library that older pages cite.
NOT_OWN = {"getD", "toZ", "ofZ", "ltZ", "leZ", "zigZag"}


def snake(word):
    return re.sub(r"(?<=[a-z0-9])[A-Z]", lambda m: "_" + m.group(0).lower(), word)


def members(text):
    """The fields of the records and the constructors of the data types in a file."""
    found, depth = set(), None
    for line in text.split("\n"):
        head = HEAD.match(line)
        if head:
            depth = len(head.group(1))
            for name in re.findall(r"\bconstructor\s+([^\s(){}:;,.]+)", line):
                found.add(name)
        elif depth is not None and line.strip() and not line.strip().startswith("--"):
            if len(line) - len(line.lstrip()) <= depth:
                depth = None
            elif MEMBER.match(line):
                found.add(MEMBER.match(line).group(1))
    return found


def main():
    files = sorted(p for p in pathlib.Path("crates").rglob("*")
                   if p.suffix in (".antt", ".rt", ".edit") and "out" not in p.parts)
    texts = {p: p.read_text() for p in files}
    for page in [pathlib.Path("README.md"), *sorted(pathlib.Path("docs").glob("*.md"))]:
        texts[page] = page.read_text()
    antt = [t for p, t in texts.items() if p.suffix == ".antt"]
    dashed = {m for t in antt for m in members(t) if "-" in m}
    camel = {w for t in antt for w in CAMEL.findall(t)} - NOT_OWN

    before = {w for t in antt for w in re.findall(r"[A-Za-z][\w'-]*", t)}
    new = {}
    for old in sorted(camel | dashed):
        new.setdefault(snake(old).replace("-", "_") if old in dashed else snake(old), []).append(old)
    for name, olds in sorted(new.items()):
        if len(olds) > 1 or name in before:
            print(f"{name}: {', '.join(olds)}{', and the name is there already' if name in before else ''}")

    def camels(text):
        return CAMEL.sub(lambda m: snake(m.group(0)) if m.group(0) in camel else m.group(0), text)

    def dashes(text):
        return DASHED.sub(lambda m: m.group(0).replace("-", "_") if m.group(0) in dashed else m.group(0), text)

    for p, t in texts.items():
        u = camels(t if p.suffix == ".md" else dashes(t))
        if u != t:
            p.write_text(u)


if __name__ == "__main__":
    main()
