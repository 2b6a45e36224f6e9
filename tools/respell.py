#!/usr/bin/env python3
"""Spells the names of this repository's own definitions and lemmas in snake case, by respell.tsv beside this script.

usage: python3 tools/respell.py        at the top, once, after the toolchain's own script

A row of respell.tsv: the old name, a tab, the new one, and for some a tab and the files in which alone it turns. Whole words turn in
.antt files, in .rt files, in the texts of must-fail edits and in code spans of comments and of pages. Strings and other prose stay, and so does
a name where a file imports it from a library. Files specs/Contracts.antt become specs/Promises.antt, since the toolchain makes a module of the
old name.
"""
import os
import re

HERE = os.path.dirname(os.path.abspath(__file__))
WORD = re.compile(r'[^\s(){}.;,:@"«»`]+')
TEXT = re.compile(r'"(?:[^"\\\n]|\\.)*"|(?:--|//)[^\n]*')
SPAN = re.compile(r"`[^`\n]*`")


def rows():
    everywhere, some = {}, {}
    with open(os.path.join(HERE, "respell.tsv"), encoding="utf-8") as f:
        for line in f:
            old, new, *files = line.rstrip("\n").split("\t")
            if files:
                for name in files[0].split():
                    some.setdefault(name, {})[old] = new
            else:
                everywhere[old] = new
    return everywhere, some


def of_libraries(text, own):
    """The names that the file imports from a library that is not this repository's."""
    found = set()
    for path, items in re.findall(r"use ([^\s;{]+?)\.\{([^}]*)\}", text):
        steps = path.split(".")
        if steps[0] != "Rattle" or len(steps) < 2 or steps[1] not in own:
            found.update(it.strip().split(" as ")[0].strip() for it in items.split(","))
    return found


def words(text, table):
    return WORD.sub(lambda m: table.get(m[0], m[0]), text)


def code(text, table):
    """Turns code, and in comments what stands in backticks."""
    out, last = [], 0
    for m in TEXT.finditer(text):
        out.append(words(text[last : m.start()], table))
        quiet = m[0]
        out.append(quiet if quiet[0] == '"' else SPAN.sub(lambda s: words(s[0], table), quiet))
        last = m.end()
    return "".join(out) + words(text[last:], table)


def turned(path, text, table, own):
    table = {old: new for old, new in table.items() if old not in of_libraries(text, own)}
    if path.endswith(".md"):
        text = SPAN.sub(lambda s: words(s[0], table), text)
        return text.replace("specs/Contracts", "specs/Promises")
    if path.endswith(".edit"):
        lines = [line if line.startswith("file: ") else line[:5] + code(line[5:], table) for line in text.split("\n")]
        text = "\n".join(lines).replace("specs/Contracts.antt", "specs/Promises.antt")
    else:
        text = code(text, table)
    text = text.replace(".specs.Contracts", ".specs.Promises")
    return re.sub(r"(?m)^((?:pub )?mod )Contracts$", r"\1Promises", text) if path.endswith("specs/Lib.antt") else text


def main():
    everywhere, some = rows()
    own = set(os.listdir("crates"))
    paths = [os.path.join(d, f) for top in ("crates", "docs") for d, _, fs in os.walk(top) for f in fs]
    for path in sorted([*paths, "README.md"]):
        if "/out/" in path or not path.endswith((".antt", ".rt", ".edit", ".md")):
            continue
        with open(path, encoding="utf-8", newline="") as f:
            was = f.read()
        new = turned(path, was, {**everywhere, **some.get(path, {})}, own)
        if new != was:
            with open(path, "w", encoding="utf-8", newline="") as f:
                f.write(new)
        if path.endswith("/specs/Contracts.antt"):
            os.rename(path, path[: -len("Contracts.antt")] + "Promises.antt")


main()
