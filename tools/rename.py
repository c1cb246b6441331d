#!/usr/bin/env python3
"""Brings the repository's own definitions and lemmas to today's spelling: run once, at the top, right after the kit's port.py.

    tools/rename.py

tools/names.txt has a line for each name: as port.py leaves it, as it is to be, and what it is (a word, a field of a record, or a word
that is also the name of a function of src/). Words are in snake case; a dash stands between two names; a lemma that would have its
definition's or its function's name ends in _lem. Functions, fields and types of src/ keep their names.
"""

import os
import re
import subprocess

HERE = os.path.dirname(os.path.abspath(__file__))
ROOT = os.path.dirname(HERE)
TOKEN = re.compile(r"[A-Za-z_][A-Za-z0-9_'′-]*")
CAMEL = re.compile(r"[a-z0-9][A-Z]")


def table():
    with open(os.path.join(HERE, "names.txt"), encoding="utf-8") as f:
        rows = [line.split() for line in f]
    return {old: (new, kind) for old, new, kind in rows}


def turned(text, names, camel_only):
    """The text with each name of the table turned; only those in camel case where the text is of src/ or a page."""

    def one(match):
        word = match.group(0)
        trail = ""
        while word and word[-1] == "-":  # a dash that ends a word is the text's own
            word, trail = word[:-1], trail + "-"
        new, kind = names.get(word, (None, None))
        if new is None or (camel_only and not CAMEL.search(word)):
            return match.group(0)
        start = match.start()
        dotted = text[start - 1 : start] == "." and text[start - 2 : start - 1] not in ("", " ", "\n", "(")
        if dotted and kind != "field" and not CAMEL.search(word) and not aliased(text, start):
            return match.group(0)
        if kind == "fn" and in_comment(text, start):
            return match.group(0)
        return new + trail

    return TOKEN.sub(one, text)


def aliased(text, start):
    """Whether the word that begins here stands behind the name of a module, as `laws.word` does under `use .. as laws`."""
    before = re.search(r"([A-Za-z_][A-Za-z0-9_]*)\.$", text[:start])
    return bool(before and re.search(r"(?m)^use \S+ as " + before.group(1) + r"$", text))


def in_comment(text, start):
    line = text[text.rfind("\n", 0, start) + 1 : start]
    return line.lstrip().startswith("--") or " -- " in line


def edited(text, names):
    """A must-fail edit: its lines follow the file that they are for."""
    out, camel_only = [], False
    for line in text.splitlines(keepends=True):
        if line.startswith("file:"):
            camel_only = line.strip().endswith(".rt")
        out.append(line if line.startswith(("file:", "#")) else turned(line, names, camel_only))
    return "".join(out)


def main():
    names = table()
    listed = subprocess.run(["git", "ls-files", "crates"], cwd=ROOT, capture_output=True, text=True, check=True).stdout.split("\n")
    for name in listed:
        path = os.path.join(ROOT, name)
        if not name.endswith((".antt", ".rt", ".edit")):
            continue
        with open(path, encoding="utf-8") as f:
            text = f.read()
        if name.endswith(".edit"):
            new = edited(text.replace("′", "'"), names)
        else:
            new = turned(text.replace("′", "'"), names, name.endswith(".rt"))
        if new != text:
            with open(path, "w", encoding="utf-8") as f:
                f.write(new)


if __name__ == "__main__":
    main()
