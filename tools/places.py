#!/usr/bin/env python3
"""Counts the places that docs/DESIGN-PASS.md speaks of, over crates/*/src and crates/*/proofs.

    tools/places.py [FOLDER]            a line for each count, by the page's points
    tools/places.py -v POINT [FOLDER]   the places themselves of the counts of that point
"""
import collections
import glob
import os
import re
import sys

WORDS = {"if", "else", "return", "let", "mut", "while", "loop", "match", "true", "false", "as", "T", "Self", "for", "in"}


def read(pattern):
    return {f: open(f, encoding="utf8").read() for f in sorted(glob.glob(pattern, recursive=True))}


def at(name, text, pattern, flags=re.M):
    return [f"{name}: {m.group(0).strip()}" for m in re.finditer(pattern, text, flags)]


def lines(sources, pattern):
    """The lines of code, comments left out, in which the pattern stands."""
    rule = re.compile(pattern)
    return [
        f"{f}:{i}: {line.strip()}"
        for f, text in sources.items()
        for i, line in enumerate(text.split("\n"), 1)
        if not line.lstrip().startswith("//") and rule.search(line)
    ]


def functions(sources):
    """Each function: its file and name, its parameters, its clauses and its body."""
    found = []
    for f, text in sources.items():
        for m in re.finditer(r"^( *)(?:pub(?:\([a-z]+\))? )?fn (\w+)(.*?)^\1?\s*\{\n(.*?)^\1\}", text, re.M | re.S):
            head = m.group(3)
            inner = re.match(r"(?:<[^>]*>)?\((.*?)\)(?: ->|\s|$)", head, re.S)
            parameters = [p for p in re.split(r",\s*(?![^<(\[]*[>)\]])", inner.group(1).strip()) if p] if inner else []
            found.append((f, m.group(2), parameters, head, m.group(4)))
    return found


def shape(body):
    """A body but for the names, the numbers and the types of numbers in it."""
    body = re.sub(r"\s+", " ", re.sub(r"//.*", "", body)).strip()
    body = re.sub(r"\b(0x[0-9a-f_]+|\d[\d_]*)(u\d+|usize)?\b", "#", body)
    body = re.sub(r"\b(u8|u16|u32|u64|usize|u128)\b", "T", body)
    names = {}
    return re.sub(r"[A-Za-z_]\w*", lambda m: m.group(0) if m.group(0) in WORDS else names.setdefault(m.group(0), f"v{len(names)}"), body)


def groups(found):
    """Functions of one shape, where two or more are."""
    by_shape = collections.defaultdict(list)
    for f, name, _, _, body in found:
        form = shape(body)
        if len(form) > 12:
            by_shape[form].append(f"{f} {name}")
    return [x for same in by_shape.values() if len(same) > 1 for x in same]


def facts(found):
    """Facts of the contracts of three functions or more, by their word."""
    users = collections.defaultdict(set)
    for f, name, _, head, _ in found:
        for word in set(re.findall(r"\b([A-Z]\w+) (?:\(?\w+ )*?\w+\.(?:now|old)\b", head)):
            users[word].add(f"{f} {name}")
    return [f"{word}: {len(u)} functions" for word, u in sorted(users.items(), key=lambda x: -len(x[1])) if len(u) > 2]


def fields(sources, pattern):
    return [
        f"{f}: {m.group(1)}.{x.strip()}"
        for f, text in sources.items()
        for m in re.finditer(r"^(?:pub )?struct (\w+)[^{;]*\{\n(.*?)^\}", text, re.M | re.S)
        for x in re.findall(pattern, m.group(2), re.M)
    ]


def own_enums(sources):
    """Enums one of whose variants says that there is nothing, or why."""
    rule = re.compile(r"^    (?:Refused|No|Unreadable)\(|^    (?:Nothing|End|Broken|Start|Damaged|None),", re.M)
    return [
        f"{f} {m.group(1)}"
        for f, text in sources.items()
        for m in re.finditer(r"^(?:pub )?enum (\w+) \{\n(.*?)^\}", text, re.M | re.S)
        if rule.search(m.group(2)) and m.group(1) != "Refusal"
    ]


def plain_types(sources):
    return [x for f, text in sources.items() for x in at(f, text, r"#\[derive\(Clone, Copy\)\]\n(?:pub )?(?:struct|enum) \w+")]


def repeats(answers):
    """Definitions of one file of answers that differ only in the goal that they are of: those past the first."""
    found = []
    for f, text in answers.items():
        same = collections.Counter()
        for block in re.split(r"\n\s*\n", text):
            first = block.split("\n")[0]
            if " : " not in first or block.startswith(("use", "--")):
                continue
            form = re.sub(r"(goal\.)?\b(After|In|Then|Else|Start)[\w◌-]*", "X", block)
            for name in set(re.findall(r"^(?:pub )?(\S+) : ", block, re.M)):
                form = re.sub(r"(?<![\w-])" + re.escape(name) + r"(?![\w-])", "NAME", form)
            form = re.sub(r"(?<=[a-z_])-(after|then|in|arg|slice_known|when|if)[\w-]*|-\d+\b", "", form)
            form = re.sub(r"\s+", " ", form)
            same[form] += 1
            if same[form] > 1:
                found.append(f"{f}: {first}")
    return found


def counts():
    src = read("crates/*/src/**/*.rt")
    answers = read("crates/*/proofs/**/Answers.antt")
    found = functions(src)
    return [
        ("1", "own enums of the shape of Option or Result", own_enums(src)),
        ("1", "flags among the fields of structs", fields(src, r"^.*: bool,$")),
        ("1", "numbers for a refusal, a kind or a reason among the fields of structs", fields(src, r"^.*\b(?:no|why|code|form|mode|op|kind): (?:u8|u32|usize),$")),
        ("1", "lines that answer a number for none", lines(src, r"^\s*return (0|129|WRONG);$")),
        ("2", "functions of the same body as another, but for names, numbers and the types of numbers", groups(found)),
        ("3", "while and loop", lines(src, r"^\s*(while|loop)\b")),
        ("4", "fields compared one by one", lines(src, r"\.(hi|lo|len|family|form) (==|!=|<) \w+\.?(hi|lo|len|family|form)?\b")),
        ("4", "types that derive Clone and Copy alone", plain_types(src)),
        ("4", "refusals made numbers by hand", lines(src, r"\.number\(\)")),
        ("5", "facts in the contracts of three functions or more", facts(found)),
        ("5", "functions with eight parameters or more", [f"{f} {n}" for f, n, p, _, _ in found if len(p) > 7]),
        ("6", "arrays made on the stack", lines(src, r"let mut [a-z_]+(: [^=]*)? = \[")),
        ("6", "stacks with their pointer beside", lines(src, r"\bsp\b.* = ")),
        ("7", "parameters that are a flag", [f"{f} {n}: {x}" for f, n, p, _, _ in found for x in p if x.endswith(": bool")]),
        ("7", "parameters that are the number of an operation", [f"{f} {n}" for f, n, p, _, _ in found for x in p if x == "op: usize"]),
        ("7", "tests of the number of a pool's form", lines(src, r"\[(5|FORM)\] (==|!=) 0")),
        ("8", "definitions among the answers that differ only in their goal", repeats(answers)),
        ("8", "files of answers", list(answers)),
        ("8", "lines of answers", [x for text in answers.values() for x in text.split("\n")]),
    ]


def main(words):
    point = None
    if words[:1] == ["-v"] and len(words) > 1:
        point, words = words[1], words[2:]
    if len(words) > 1 or words[:1] == ["-v"]:
        sys.exit(__doc__)
    os.chdir(words[0] if words else os.path.join(os.path.dirname(os.path.abspath(__file__)), ".."))
    for number, name, places in counts():
        if point is None or point == number:
            print(f"{number}  {len(places):6}  {name}")
        if point == number:
            for place in places:
                print(f"        {place}")


if __name__ == "__main__":
    main(sys.argv[1:])
