#!/usr/bin/env python3
"""Spells the definitions and lemmas of crates/ in snake case: words of lower case joined by '_', types and modules as they are.

    python3 tools/respell.py          at the top of the repository, once, right after port.py

A name of specs/ or proofs/ that begins in lower case and has a capital or a dash in it is respelled, in .antt files, .rt files, must-fail
edits and the code spans of pages. Where a lemma and a definition would fall together, or a name would meet another of a file, the one with
the dash gets '_lem'. Names that a library has too stay. Functions of src/, strings, inputs and outputs are not touched: none of their names
has such a spelling.
"""
import collections
import os
import re

TOKEN = re.compile(r'[^\s(){}.;,@"«»\[\]λ:`]+')
DECLARED = re.compile(
    r'(?m)^ *(?:(?:abbrev|unfoldable|pub|private|instance|infix\w*|data|record|ruleset)\s+)*([^\s(){}.;,@"«»:]+)(?: \{[^{}\n]*\})* :'
)
USED = re.compile(r"(?m)^\s*(?:ghost )?use ([^\s{;]+?)(?:\.\{([^}]*)\})?;?$")
HUMP = re.compile(r"^[a-z].*[a-z0-9][A-Z]")


def files(*endings):
    for folder, folders, names in os.walk("crates"):
        folders[:] = sorted(f for f in folders if f != "out")
        for name in sorted(names):
            if name.endswith(endings):
                yield os.path.join(folder, name)


def read(path):
    with open(path, encoding="utf-8") as f:
        return f.read()


def is_ours(path):
    steps = path.split(".")
    return steps[0] == "Rattle" and steps[1] not in ("std", "core", "io", "os", "libc")


def snake(name):
    return re.sub(r"(?<=[a-z0-9])([A-Z])", lambda m: "_" + m[1].lower(), name).replace("-", "_")


def table():
    foreign, ours, tokens = set(), set(), []
    for path in files(".antt", ".rt"):
        text = read(path)
        for where, items in USED.findall(text):
            if not is_ours(where):
                foreign.update(it.strip().split(" as ")[0] for it in items.split(","))
        if path.endswith(".antt"):
            code = re.sub(r"--[^\n]*", "", text)
            ours.update(DECLARED.findall(code))
            if not path.endswith("/Proof.antt"):
                tokens.append(set(TOKEN.findall(code)))
    named = {n for n in ours if (HUMP.match(n) or "-" in n) and n[0].islower() and n not in foreign}
    alike = collections.defaultdict(set)
    for n in named:
        alike[snake(n)].add(n)
    new = {n: snake(n) for n in named}
    for n in named:
        meets = len(alike[snake(n)]) > 1 or any(n in t and snake(n) in t for t in tokens)
        if meets and "-" in n:
            new[n] += "_lem"
    return new, ours


def main():
    new, ours = table()
    # in pages also the names that port.py itself has respelled
    paged = lambda n: new.get(n) or (snake(n) if n not in ours and snake(n) in ours else n)
    turn = lambda text: TOKEN.sub(lambda m: new.get(m[0], m[0]), text)
    for path in files(".antt", ".rt", ".edit"):
        text = read(path)
        after = turn(text)
        if after != text:
            with open(path, "w", encoding="utf-8") as f:
                f.write(after)
    pages = ["README.md", *(os.path.join("docs", f) for f in sorted(os.listdir("docs")) if f.endswith(".md"))]
    span = lambda m: "`" + TOKEN.sub(lambda w: paged(w[0]), m[1]) + "`"
    for path in pages:
        text = read(path)
        after = re.sub(r"`([^`\n]+)`", span, text)
        if after != text:
            with open(path, "w", encoding="utf-8") as f:
                f.write(after)
    print(f"{len(new)} names respelled; with _lem: {', '.join(sorted(n for n in new.values() if n.endswith('_lem')))}")


if __name__ == "__main__":
    main()
