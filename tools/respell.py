#!/usr/bin/env python3
"""Brings the definitions, fields, constructors and lemmas of this repository to the spelling of Rattle's guides, in place.

usage: tools/respell.py        at the top of the repository
       tools/respell.py --list the names alone, old and new

A word is in snake case: mostUnits is most_units, put-first is put_first. A dash stays where it joins two names, as in after-append.
A lemma that would have a definition's name gets _lem, and one that would have the name of a word of std that its file imports keeps its
own. Types and modules, functions of src/, exported names, strings and what Rattle
itself makes (the names of goals in proofs/F/) stay as they are. Text in .md files is turned between backticks only.
"""

import collections
import glob
import os
import re
import sys

DEFS = r"(?:(?:abbrev|unfoldable|opaque|pub|instance)\s+)*"
TOKEN = re.compile(r'"(?:\\.|[^"\\\n])*"|[^\s(){}\[\],;.:"|@`λ→×]+')
# Words that a library's lemmas are named after.
JOINS = set("append map take drop set length sum reverse zero suc one nil cons min max add mul sub eq le lt".split())


def snake(name):
    return re.sub(r"(?<=[a-z0-9])([A-Z])", lambda m: "_" + m[1].lower(), name)


def declared(text):
    """The names that a file declares: (name, kind), where kind is 'definition', 'part' (a field or a constructor)."""
    block = None
    for line in text.split("\n"):
        line = re.sub(r"\s*--(?=\s|$).*", "", line)
        if not line.strip():
            continue
        depth = len(line) - len(line.lstrip())
        if block is not None and depth > block:
            m = re.match(r"\s*(?:pub\s+)?((?:[^\s(){},.=|:]+\s+)*[^\s(){},.=|:]+)\s*:(?:\s|$)", line)
            if m:
                yield from ((w, "part") for w in m[1].split() if w != "pub")
            continue
        block = None
        m = re.match(r"( *)" + DEFS + r"(record|data)\s+(\S+)", line)
        if m:
            block = depth
            continue
        m = re.match(r" *" + DEFS + r"((?!use\b|mod\b|let\b|in\b|where\b)[^\s(){},.=|:]+)(?:\s+(?:[^\s(){},.=|:]+|[({][^(){}]*[)}]))*\s*:(?:\s|$)", line)
        if m and depth == 0:
            yield m[1], "definition"


def files(*patterns):
    for p in patterns:
        yield from sorted(f for f in glob.glob(p, recursive=True) if os.path.isfile(f) and "/out/" not in f)


def read(path):
    with open(path, encoding="utf-8") as f:
        return f.read()


def names():
    """What is renamed: old to new."""
    shared, parts, local = set(), set(), set()
    own = set()
    for f in files("crates/*/specs/**/*.antt", "crates/*/proofs/*.antt"):
        text = read(f)
        for name, kind in declared(text):
            (parts if kind == "part" else shared).add(name)
            if "-" in name and name.replace("-", "_") in from_std(text):
                own.add(name)
    for f in files("crates/*/proofs/*/**/*.antt"):
        for name, kind in declared(read(f)):
            local.add(name)
    for f in files("crates/*/specs/**/*.antt", "crates/*/proofs/**/*.antt", "crates/*/src/**/*.rt"):
        local |= set(re.findall(r"\bas ([a-z]\w*[A-Z]\w*)", read(f)))
    words = {snake(n) for n in shared if "-" not in n}
    new = {}

    def joined(name):
        first, *rest = snake(name).split("-")
        for cut in range(len(rest)):
            left, right = "_".join([first, *rest[:cut]]), "_".join(rest[cut:])
            if left in words and (right in words or right in JOINS):
                return left + "-" + right
        return "_".join([first, *rest])

    for name in sorted(shared | parts | {n for n in local if "-" not in n}):
        if not re.match(r"[a-z]", name) or name.startswith("--") or name in own:
            continue
        to = joined(name) if "-" in name and (name in shared or name in parts) else snake(name) if "-" not in name else name
        if to != name:
            new[name] = to
    kept = (shared | parts | local) - set(new)
    taken = collections.Counter(new.values())
    for name, to in sorted(new.items()):
        if "-" in name and (taken[to] > 1 or to in kept):
            new[name] = to + "_lem"
    left = [(k, v) for k, v in new.items() if v in kept or collections.Counter(new.values())[v] > 1]
    if left:
        print(f"respell: names that fall together: {left}", file=sys.stderr)
        raise SystemExit(1)
    return new, {n for n in new if n in parts}


def turn(text, new, fields, dashes):
    """The text with the names in new turned; a name with a dash behind a dot only in a path, or where it is a field."""

    def one(m):
        word, at = m[0], m.start()
        if word not in new or word.startswith('"'):
            return word
        if "-" in word and (not dashes or text[at - 1 : at] == "." and word not in fields and not re.search(r"Rattle(?:\.\w+)*\.$", text[max(0, at - 200) : at])):
            return word
        return new[word]

    return TOKEN.sub(one, text)


def from_std(text):
    """The names that a file imports from std, which keep their spelling there."""
    found = set()
    for m in re.finditer(r"use (?:Rattle\.std|borrow|denote|mathlib|Prim|lib)[\w.]*\.\{([^}]*)\}", text):
        found |= {w.strip() for w in m[1].split(",")}
    return found


def sweep():
    """Turns what is declared inside another definition, or is part of a lemma's name, in the shared files of proofs/."""
    for f in files("crates/*/proofs/*.antt"):
        text = read(f)
        camel = {w for w in TOKEN.findall(text) if re.match(r"[a-z]", w) and re.search(r"[a-z][A-Z]", w)} - from_std(text)
        done = TOKEN.sub(lambda m: snake(m[0]) if m[0] in camel else m[0], text)
        if done != text:
            with open(f, "w", encoding="utf-8") as out:
                out.write(done)


def main(argv):
    new, fields = names()
    if "--list" in argv:
        for k, v in new.items():
            print(k, v)
        return
    for f in files("crates/*/specs/**/*.antt", "crates/*/proofs/**/*.antt", "crates/*/src/**/*.rt", "crates/*/must-fail/*.edit"):
        text = read(f)
        mine = {k: v for k, v in new.items() if k not in from_std(text)}
        done = turn(text, mine, fields, not f.endswith(".rt") or "must-fail" in f)
        if done != text:
            with open(f, "w", encoding="utf-8") as out:
                out.write(done)
    sweep()
    for f in files("README.md", "docs/**/*.md"):
        text = read(f)
        done = re.sub(r"`[^`\n]+`", lambda m: turn(m[0], new, fields, True), text)
        if done != text:
            with open(f, "w", encoding="utf-8") as out:
                out.write(done)


main(sys.argv[1:])
