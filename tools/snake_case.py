#!/usr/bin/env python3
"""Brings the definitions and lemmas of this repository to snake case, in crates/ and in the pages that name them.

usage: tools/snake_case.py      at the top of the repository, once, after port.py

A word that begins with a small letter and has a capital within a part (`edgesOf`, `in-edgesOf`) becomes snake case (`edges_of`,
`in-edges_of`); `getD` in a name becomes `get_or`. A part that begins with a capital is a fact or a type and stays (`in-SameMinpaths`).
Text of src/ that is no ghost text, no clause and no comment has no such word, so functions, exported names and strings keep theirs.
"""
import collections
import glob
import re
import sys

TOKEN = re.compile(r"[^\s(){}\[\];,.:⌜⌝|`\"'*]+")
# A capital behind `_` is a fact in a name of the kit, and stays.
CAMEL = re.compile(r"(?:^|[-+])[a-zμ](?:[a-z0-9_]*[a-z0-9])?[A-Z]")


def snake(name):
    parts = re.split(r"([-+])", name)
    for i, part in enumerate(parts):
        if part and (part[0].islower() or part[0] == "μ"):
            part = re.sub(r"^getD$", "get_or", part)
            part = re.sub(r"(?<=[a-z0-9])([A-Z])|(?<=[A-Z])([A-Z])(?=[a-z])", lambda m: "_" + m.group(0), part).lower()
        parts[i] = part
    return "".join(parts)


def files():
    found = []
    for pattern in ("crates/**/*.antt", "crates/**/*.rt", "crates/**/*.edit", "docs/*.md", "docs/believe", "README.md"):
        found += [f for f in glob.glob(pattern, recursive=True) if "/out/" not in f]
    return sorted(found)


def declared():
    """The words that the crates' specs and proofs have, declared or bound, and that are not in snake case."""
    words = collections.Counter()
    for f in glob.glob("crates/**/*.antt", recursive=True):
        if "/out/" in f:
            continue
        for line in open(f, encoding="utf-8"):
            if line.lstrip().startswith("--"):
                continue
            for t in TOKEN.findall(line):
                if CAMEL.search(t) and not t.startswith("Rattle"):
                    words[t] += 1
    return words


def main():
    words = declared()
    names = {w: snake(w) for w in words if snake(w) != w}
    together = collections.defaultdict(list)
    for w, s in names.items():
        together[s].append(w)
    for s, ws in together.items():
        if len(ws) > 1:
            sys.exit(f"fall together as {s}: {ws}")
    changed = 0
    for f in files():
        text = open(f, encoding="utf-8").read()
        new = TOKEN.sub(lambda m: names.get(m.group(0), m.group(0)), text)
        if new != text:
            open(f, "w", encoding="utf-8").write(new)
            changed += 1
    for w in sorted(names):
        print(f"{w} {names[w]}")
    print(f"{len(names)} words in {changed} files", file=sys.stderr)


if __name__ == "__main__":
    main()
