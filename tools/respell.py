#!/usr/bin/env python3
"""Brings the repository's own names in specs/, proofs/, clauses and documents to Rattle's spelling: words in snake case, types and modules in camel case.

usage: python3 tools/respell.py            at the top of the repository, once, after port.py

What it changes, and nothing else:
- a word that begins with a small letter and has a capital in it, as firstFault, gets underscores: first_fault; so do the parts of a name with dashes;
- a field of a record in specs/ with dashes, as deep-most, is a Rust identifier: deep_most. It keeps its dash where it would fall together with a definition;
- a lemma or field whose name a definition now has gets _lem, as LEMMAS says.
Functions of src/, names for C, strings, inputs and outputs have no such names. A dash that joins two names in a lemma stays.
"""

import os
import re

# a name that a definition now has, and where it is meant
LEMMAS = {
    "goes_on": "crates/years/",
    "last_row": "crates/filerules/",
    "left_by": "crates/account/",
    "on_line": "crates/rules/",
    "stands_on": "crates/account/",
    "taken_at": "crates/",
}
WORD = re.compile(r"[^\s(){}\[\];,.@:=|\\/\"`λ→⌜⌝]+")
HUMP = re.compile(r"(?<=[a-z0-9])([A-Zℤℕ])")
FIELD = re.compile(r"^  (?:pub )?([^ :{(]+) : ", re.M)
ITEM = re.compile(r"^(?:abbrev |unfoldable )?(?:pub )?([^ :{(]+) : ", re.M)
DATA = re.compile(r"^(?:pub )?data .*\n((?:  .*\n?)*)", re.M)
SPAN = re.compile(r"`[^`\n]+`")


def texts(*endings):
    for folder, dirs, files in os.walk("crates"):
        dirs[:] = sorted(d for d in dirs if d not in ("out", "data"))
        for name in sorted(files):
            if name.endswith(endings):
                yield os.path.join(folder, name)


def read(path):
    with open(path, encoding="utf-8") as f:
        return f.read()


def snake(word):
    """The word in snake case, part by part; a part that begins with a capital is a type or a module and stays."""
    return "-".join(HUMP.sub(lambda m: "_" + m.group(1).lower(), part) if part[:1].islower() else part for part in word.split("-"))


def renamed():
    """Each name that changes, and what it becomes."""
    fields, others, words = set(), set(), set()
    for path in texts(".antt", ".rt"):
        text = read(path)
        words |= set(WORD.findall(text))
        if not path.endswith(".antt"):
            continue
        cases = {name for body in DATA.findall(text) for name in FIELD.findall(body)}
        others |= {snake(name) for name in cases | set(ITEM.findall(text))}
        if "/specs/" in path:
            fields |= {name for name in FIELD.findall(text) if "-" in name and name not in cases}
    names = {word: snake(word) for word in words if snake(word) != word}
    taken = others | {snake(word) for word in words if "-" not in word}
    fall = [f for f in fields if f.replace("-", "_") in others or (f.replace("-", "_") in taken and f.replace("-", "_") in names.values())]
    names |= {f: snake(f).replace("-", "_") for f in fields if f not in fall}
    return names


def main():
    names = renamed()

    def turn(path, text, word):
        if word in LEMMAS and path.startswith(LEMMAS[word]) and path.endswith(".antt"):
            return word + "_lem"
        return names.get(word, word)

    for path in texts(".antt", ".rt"):
        text = read(path)
        new = WORD.sub(lambda m: turn(path, text, m.group(0)), text)
        if new != text:
            with open(path, "w", encoding="utf-8") as f:
                f.write(new)
    pages = ["README.md"] + [os.path.join("docs", p) for p in sorted(os.listdir("docs")) if p.endswith(".md")]
    for path in pages:
        text = read(path)
        new = SPAN.sub(lambda m: WORD.sub(lambda w: names.get(w.group(0), w.group(0)), m.group(0)), text)
        if new != text:
            with open(path, "w", encoding="utf-8") as f:
                f.write(new)
    for old, new in sorted(names.items()):
        print(old, new)


if __name__ == "__main__":
    main()
