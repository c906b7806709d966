#!/usr/bin/env python3
"""Respells this repository's own names from camelCase to snake_case: definitions, lemmas, fields and variables of specs/ and proofs/, and what the clauses,
`ghost use` items and comments of src/ and the must-fail edits cite of them. Functions, exported names and text between quotes keep their spelling.

usage: tools/snake-names.py [--check]     at the top of the repository, once, after the kit's port.py; --check lists the names that would fall together
"""
import os
import re
import sys

WORD = re.compile(r"(?<![\w'\"])[a-z][a-z0-9_]*[A-Z][\w]*|(?<=-)[a-z][a-z0-9_]*[A-Z][\w]*")
QUOTED = re.compile(r'b?"(?:\\.|[^"\\\n])*"')
# What an older library called `getD` is `get_or` today; the repository's own lemmas about it follow.
SPECIAL = {"getD": "get_or"}


def snake(word):
    if word in SPECIAL:
        return SPECIAL[word]
    word = re.sub(r"([a-z0-9])([A-Z])", r"\1_\2", word)
    return re.sub(r"([A-Z]+)([A-Z][a-z])", r"\1_\2", word).lower()


def turned(text, keep_quoted):
    out, at = [], 0
    spans = [m.span() for m in QUOTED.finditer(text)] if keep_quoted else []
    for a, b in [*spans, (len(text), len(text))]:
        out.append(WORD.sub(lambda m: snake(m.group(0)), text[at:a]))
        out.append(text[a:b])
        at = b
    return "".join(out)


# A variable of one proof that would fall together with the definition `isRight`.
BEFORE = {"crates/pool_sets/proofs/Pass.antt": [(re.compile(r"\bis_right\b"), "right_it_is")]}
# A function's theorem is the function's name with `_spec`.
THEOREM = re.compile(r"(?m)^pub ((?:[a-z0-9_+]+-)+spec) :")


def theorem_named(text):
    for name in THEOREM.findall(text):
        text = re.sub(rf"(?<![\w'-]){re.escape(name)}(?![\w'-])", name.replace("-", "_"), text)
    return text


def files():
    for folder, dirs, names in os.walk("crates"):
        dirs[:] = sorted(d for d in dirs if d != "out")
        for name in sorted(names):
            if name.endswith((".antt", ".rt", ".edit")):
                yield os.path.join(folder, name)


def main():
    check = "--check" in sys.argv
    for path in files():
        with open(path, encoding="utf-8") as f:
            text = f.read()
        new = text
        for pattern, name in BEFORE.get(path, []):
            new = pattern.sub(name, new)
        new = turned(new, path.endswith((".rt", ".edit")))
        if path.endswith("/Proof.antt"):
            new = theorem_named(new)
        if new == text:
            continue
        if check:
            words = set(re.findall(r"[A-Za-z_]\w*", text))
            for m in sorted(set(WORD.findall(text))):
                if snake(m) in words:
                    print(f"{path}: {m} and {snake(m)}")
        else:
            with open(path, "w", encoding="utf-8") as f:
                f.write(new)


main()
