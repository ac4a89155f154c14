#!/usr/bin/env python3
"""Spells the repository's own definitions, fields, constructors and lemmas as Rattle's guide does: words in snake case.

usage: python3 tools/respell.py        once, at the top, right after /opt/rattle/port/port.py

A name that a file of specs/ or of lemmas in proofs/ declares turns, if it has a dash or is in lower camel case: countBelow to count_below,
none-member to none_member. A lemma whose new name a definition has too gets _lem, a field _fits. Types, modules and names that a file imports from a library stay.
It turns .antt files, ghost text of .rt files, must-fail edits, and code spans of README.md and docs/*.md; src/'s own names have neither form.
"""

import glob
import os
import re
import sys

WORD = re.compile(r"""[^\s(){}.;,@"«»`\[\]\\:|]+""")
DECLARED = re.compile(
    r"""^\s*(?:(?:unfoldable|abbrev|pub)\s+)*(?:(?:record|data)\s+)?([^\s(){}.;,@"«»:]+)(?:\s+[({].*)?\s+:(?:\s|$)"""
)
USED = re.compile(r"^\s*(?:ghost )?(?:pub )?use ((?!Rattle\.(?!std\.))[^\s{;]+)\.\{(.*)\}")


# Fields that say how much fits, of the names that definitions have too.
FIELDS = {"grammar-count", "line-count", "question-count"}


def files(*patterns):
    found = []
    for pattern in patterns:
        found += glob.glob(pattern, recursive=True)
    return sorted(p for p in found if "/out/" not in p)


def read(path):
    with open(path, encoding="utf-8") as f:
        return f.read()


def snake(name):
    name = re.sub(r"(?<=[a-z0-9])([A-Z])", lambda m: "_" + m[1].lower(), name)
    return re.sub(r"(?<=[\w?])-(?=\w)", "_", name)


def declared(text):
    for line in text.split("\n"):
        it = DECLARED.match(line)
        if it and not re.match(r"\s*(?:let|use|module|in|--|λ)(?!\S)", line):
            yield it[1]


def table():
    names, foreign = set(), set()
    for path in files("crates/*/specs/**/*.antt", "crates/*/proofs/**/*.antt"):
        text = read(path)
        for line in text.split("\n"):
            it = USED.match(line)
            if it:
                foreign |= {part.split(" as ")[0].strip() for part in it[2].split(",")}
        if os.path.basename(path) == "Proof.antt":
            continue
        names.update(declared(text))
    turned = {}
    for name in sorted(names - foreign):
        if name[0].isupper() or not re.search(r"(?<=[\w?])-(?=\w)|[a-z0-9][A-Z]", name):
            continue
        turned[name] = snake(name)
    taken = {}
    for name in sorted(names | foreign):
        taken.setdefault(turned.get(name, name), []).append(name)
    for new, olds in sorted(taken.items()):
        if len(olds) < 2:
            continue
        head = ([o for o in olds if re.search("[A-Z]", o)] + [o for o in olds if "-" not in o] + olds)[0]
        for old in olds:
            if old != head:
                turned[old] = new + ("_fits" if old in FIELDS else "_lem")
        print("together:", new, "from", ", ".join(f"{o} -> {turned.get(o, o)}" for o in olds))
    seen = {}
    for old, new in turned.items():
        if new in seen or new in names - set(turned):
            sys.exit(f"two names would be {new}: {old}, {seen.get(new, new)}")
        seen[new] = old
    return turned


def turn(text, turned):
    return WORD.sub(lambda m: turned.get(m[0], m[0]), text)


def antt(text, turned):
    out = []
    for line in text.split("\n"):
        code, dashes, comment = line.partition("-- ")
        if code.strip() and not code.endswith(" "):
            code, dashes, comment = line, "", ""
        out.append(turn(code, turned) + dashes + spans(comment, turned))
    return "\n".join(out)


def spans(text, turned):
    return re.sub(r"`[^`\n]+`", lambda m: turn(m[0], turned), text)


def rust(text, turned):
    out = []
    for line in text.split("\n"):
        code, slashes, comment = line.partition("//")
        parts = re.split(r'("(?:[^"\\]|\\.)*")', code)
        code = "".join(p if p[:1] == '"' else turn(p, turned) for p in parts)
        out.append(code + slashes + spans(comment, turned))
    return "\n".join(out)


def edit(text, turned):
    return "\n".join(
        line if line.startswith("file:") else turn(line, turned) for line in text.split("\n")
    )


def main():
    turned = table()
    jobs = [
        (antt, files("crates/*/specs/**/*.antt", "crates/*/proofs/**/*.antt")),
        (rust, files("crates/*/src/**/*.rt")),
        (edit, files("crates/*/must-fail/*.edit")),
        (spans, files("README.md", "docs/*.md")),
    ]
    for how, paths in jobs:
        for path in paths:
            old = read(path)
            new = how(old, turned)
            if new != old:
                with open(path, "w", encoding="utf-8") as f:
                    f.write(new)
    print(f"{len(turned)} names turned")


main()
