#!/usr/bin/env python3
"""Turns the proofs that walk the code, proofs/F/Proof.antt, into Invariants.antt and Answers.antt.

    python3 tools/answers.py NAMES CRATE..      NAMES/CRATE/names.json is what `rattle check --generated DIR --old-names` writes

Answers that only say `search rules` go, since the check tries that and more. Paths such as c.before.before.f.ensures become c.f-x.ensures, and an
invariant over variables in a row one over the record l. What it cannot place is said in a line 'left:'.
"""
import json
import os
import re
import sys

HEAD = re.compile(r"(?m)^(?=\S)")

def plain(name):
    return re.sub(r"[-_]", "", re.sub("_lem$", "", name)).lower()


def pieces(text):
    """The declarations of a file, each with its comments, and the lines of its header."""
    uses, decls, block = [], [], []
    for para in re.split(r"\n(?:[ \t]*\n)+", text.strip("\n")):
        lines = para.split("\n")
        while lines and re.match(r"use ", lines[0]):
            uses.append(lines.pop(0))
        if not lines:
            continue
        # a paragraph may hold only a part of a declaration: a continued where block
        if lines[0][:1].isspace() and decls:
            decls[-1] += "\n\n" + "\n".join(lines)
        else:
            decls.append("\n".join(lines))
    return uses, decls


class Names:
    def __init__(self, it):
        self.it = it
        self.places = {p[0]: p for p in it["places"]}
        self.needs = it["needs"]

    def need(self, name, decl):
        tries = [name, re.sub(r"^overflow[-_]", "", name), decl]
        for want in tries:
            found = [i for i, (old, new) in enumerate(self.needs) if plain(old) == plain(want)]
            if len(found) == 1:
                return found[0]
        for want in tries:
            found = [i for i, (old, new) in enumerate(self.needs) if plain(new) == plain(want)]
            if len(found) == 1:
                return found[0]
        return None

    def steps(self, place):
        """The steps on the way to a place, the last first: old name, new name."""
        found = []
        while place in self.places:
            _, parent, step, *_ = self.places[place]
            found.append(step)
            place = parent
        return found


START = ("args", "requires", "ranges", "lifetimes", "well_formed", "utf8", "type_inv")


def turned_paths(text, steps, told):
    """c.before...step.field, by the steps known there."""

    def turn(m):
        parts = m[2].split(".")[1:]
        while parts and parts[0] == "before":
            parts.pop(0)
        if not parts:
            told.append(m[0])
            return m[0]
        step = parts[0].replace("well-formed", "well_formed")
        if step in START or step == "pre":
            head = "requires" if step == "pre" else step
            return ".".join(["c", head, *parts[1:]])
        found = [new for old, new in steps if plain(old) == plain(step)]
        if not found:
            found = [new for old, new in steps if plain(new) == plain(step)]
        if not found:
            told.append(m[0])
            return m[0]
        rest = parts[1:]
        if rest[:1] == ["given"]:
            rest = ["is", *rest[2:]] if rest[1:] == ["1"] else rest
        return ".".join(["c", found[0], *rest])

    text = re.sub(r"(?<![\w.'-])(c)((?:\.[^\s(){}.;,]+)+)", turn, text)
    return text


def with_lets(text, told):
    """let p = c.before.before in ..: the path written out."""
    while True:
        m = re.search(r"let (\w+) = (c(?:\.before)+) in\s*", text)
        if not m:
            return text
        name, path = m[1], m[2]
        text = text[: m.start()] + re.sub(rf"(?<![\w.'-]){name}(?=\.)", path, text[m.end():])


def invariant(decl, loops, changed, told):
    m = re.match(r"abbrev (\S+) : tie\.(\S+)\n((?:unfolding[^\n]*\n)?)\1 ([^=]*)= ?(.*)\Z", decl, re.S)
    if not m:
        told.append(decl.split("\n")[0])
        return None
    _, kind, unfolding, args, body = m.groups()
    args = args.split()
    loop = re.sub(r"^(invariant|decreases)[-_]", "", kind)
    found = [i for i, (names, _) in enumerate(loops) if plain(names[0]) == plain(loop)]
    if len(found) != 1:
        told.append(decl.split("\n")[0])
        return None
    (old, new), variables = loops[found[0]]
    flags = changed[found[0]]
    firsts = [(v, f"l.initial.{v}" if f else f"l.{v}") for v, f in zip(variables, flags)]
    lasts = [(v, f"l.{v}") for v, f in zip(variables, flags) if f]
    rows = firsts + lasts
    if len(rows) != len(args):
        told.append(f"{decl.splitlines()[0]}: {len(args)} variables for {len(rows)}: {args} / {rows}")
        return None
    to = {a: path for a, (v, path) in zip(args, rows)}
    bound = set(re.findall(r"λ \(?(\w+)", body)) | set(re.findall(r"\((\w+) :", body))
    for b in bound & set(to):
        told.append(f"{decl.splitlines()[0]}: {b} is bound inside")
    body = re.sub(r"(?<![\w.'₀-])([A-Za-z_]\w*'*₀?)(?![\w'₀-])", lambda w: to.get(w[1], w[1]) if w[1] not in bound else w[1], body)
    word = re.split("[-_]", kind)[0]
    return f"abbrev pub {word}-{new} : goal.{word}-{new}\n{unfolding}{word}-{new} l = {body}"


def turn(path, home, names, told):
    with open(path, encoding="utf-8") as f:
        text = f.read()
    it = Names(names)
    uses, decls = pieces(text)
    kept = []
    for u in uses:
        if re.search(r"\.(Statement|Tie|Reads|Lts)(\.\{| as |$)", u):
            continue
        kept.append(u.replace("borrow.Author.Rules.{rules}", "Rattle.std.proofs.Common.{rules}"))
    invariants, answers, lemmas = [], [], []
    for decl in decls:
        if re.search(r"(?m)^pub \S+[-_]spec :", decl):
            continue
        body = re.sub(r"(?m)^--[^\n]*\n", "", decl)
        said = "".join(re.findall(r"(?m)^--[^\n]*\n", decl))
        if re.match(r"abbrev (invariant|decreases)", body):
            made = invariant(body, it.it["loops"], it.it["changed"], told)
            if made:
                invariants.append(said + made)
            continue
        m = re.match(r"(\S+) : tie\.Need-(\S+)[^\n]*\n", body)
        if not m:
            lemmas.append(decl)
            continue
        name = m[1]
        term = re.search(rf"(?m)^{re.escape(name)} [^=\n]*= ?", body)
        if not term:
            told.append(body.split("\n")[0])
            continue
        middle, value = body[m.end(): term.start()], body[term.end():]
        if re.sub(r"\s+", " ", value.strip()) == "search rules" and not middle.strip():
            continue
        at = it.need(m[2], name)
        if at is None:
            told.append(f"{body.splitlines()[0]} = {value.strip()[:80]}")
            continue
        new = it.needs[at][1]
        steps = it.steps(it.it["asked_at"][at][0])
        lost = []
        value = with_lets(value, lost)
        value = turned_paths(value, steps, lost)
        if lost:
            told.append(f"{new}: {', '.join(lost)}")
        answers.append(f"{said}pub {new} : goal.{new}\n{middle}{new} c = {value}")
    folder = os.path.dirname(path)
    # lemmas that stand in the file go where they are used
    files = []
    if invariants:
        files.append(("Invariants.antt", kept + [f"use {home}.Given as goal"], invariants))
    if answers:
        files.append(("Answers.antt", kept + [f"use {home}.Goals as goal"], lemmas + answers))
    elif lemmas:
        told.append("a proof by hand, left as it is")
        return
    for file, head, parts in files:
        with open(os.path.join(folder, file), "w", encoding="utf-8") as f:
            f.write("\n".join(head) + "\n\n" + "\n\n".join(parts) + "\n")
    os.remove(path)


def main(argv):
    where, crates = argv[0], argv[1:]
    for crate in crates:
        with open(os.path.join(where, crate, "names.json"), encoding="utf-8") as f:
            names = json.load(f)
        for folder, _, files in sorted(os.walk(os.path.join("crates", crate, "proofs"))):
            if "Proof.antt" not in files:
                continue
            below = os.path.relpath(folder, os.path.join("crates", crate, "proofs")).replace("/", ".")
            key = f"Rattle-{crate}-proofs.{below}.Lts"
            told = []
            if key not in names:
                print(f"left: {folder}: not in names.json")
                continue
            turn(os.path.join(folder, "Proof.antt"), f"Rattle.{crate}.proofs.{below}", names[key], told)
            for t in told:
                print(f"left: {folder}: {t}")


if __name__ == "__main__":
    main(sys.argv[1:])
