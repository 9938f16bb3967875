#!/usr/bin/env python3
"""forms.py: the places of crates/*/src that are written in an older form, a list a point (docs/DESIGN-PASS.md).

  forms.py [POINT..]     prints the places of each point, 1 to 8, and how many they are; all points where none is named

Run at the top of the repository. The lists go by text: the page says of each place that is still listed why it stays.
"""
import collections
import glob
import re
import sys


class Function:
    def __init__(self, file, line, name, params, ret, clauses, body):
        self.file, self.line, self.name = file, line, name
        self.params, self.ret, self.clauses, self.body = params, ret, clauses, body

    def place(self):
        return f"{self.file}:{self.line} {self.name}"


def balanced(text, start, open_, close):
    depth, i = 0, start
    while i < len(text):
        if text[i] == open_:
            depth += 1
        elif text[i] == close:
            depth -= 1
            if depth == 0:
                return i
        i += 1
    return len(text)


def without_comments(text):
    return "\n".join(re.sub(r"(?<![:\"])//.*", "", line) for line in text.split("\n"))


def functions(file):
    text = without_comments(open(file).read())
    found = []
    for m in re.finditer(r"^[ \t]*(?:pub(?:\([a-z]+\))? )?(?:const )?(?:extern \"C\" )?fn (\w+)(<[^(]*>)?\(", text, re.M):
        end = balanced(text, m.end() - 1, "(", ")")
        params = text[m.end():end]
        body_start, i = None, end + 1
        head = end + 1
        while i < len(text):
            line_start = text.rfind("\n", 0, i) + 1
            if text[i] == "{":
                before = text[head:i]
                clause = re.search(r"(requires|ensures)\*?( \w+)? $", before)
                close = balanced(text, i, "{", "}")
                if clause:
                    i = close + 1
                    continue
                body_start = i
                break
            if text[i] == ";":
                break
            i += 1
        if body_start is None:
            continue
        close = balanced(text, body_start, "{", "}")
        line = text.count("\n", 0, m.start()) + 1 + (1 if text[m.start()] == "\n" else 0)
        clauses = re.findall(r"(requires|ensures)\*?(?: \w+)? \{(.*)\}", text[end:body_start])
        ret = re.search(r"-> ([^\n{]*)", text[end:body_start])
        names = [p.strip() for p in re.split(r",(?![^<\[(]*[>\])])", params) if p.strip()]
        found.append(Function(file, line, m.group(1), names, ret.group(1).strip() if ret else "", clauses, text[body_start + 1:close]))
    return found


FILES = sorted(glob.glob("crates/*/src/**/*.rt", recursive=True))
FUNCTIONS = [f for file in FILES for f in functions(file)]


def grep(pattern, skip=None):
    out = []
    for file in FILES:
        for n, line in enumerate(without_comments(open(file).read()).split("\n"), 1):
            if re.search(pattern, line) and not re.match(r"\s*(ghost |pub )*use ", line) and not re.match(r"\s*(requires|ensures)", line) and not (skip and re.search(skip, line)):
                out.append(f"{file}:{n} {line.strip()}")
    return out


def own_enums():
    """enums, but those that are plain lists of names; numbers that stand for none"""
    out = []
    for file in FILES:
        text = without_comments(open(file).read())
        for m in re.finditer(r"^[ \t]*(?:pub )?enum (\w+)[^{]*\{", text, re.M):
            body = text[m.end():balanced(text, m.end() - 1, "{", "}")]
            if re.search(r"[({]", body):
                out.append(f"{file}:{text.count(chr(10), 0, m.start()) + 1} enum {m.group(1)}")
        for m in re.finditer(r"^[ \t]*(?:pub )?struct (\w+)[^{;]*\{", text, re.M):
            body = text[m.end():balanced(text, m.end() - 1, "{", "}")]
            flags = re.findall(r"(\w+): (?:bool|Option<\w+>)\b", body)
            if len(re.findall(r"^\s*(?:pub )?\w+:", body, re.M)) == 2 and flags:
                out.append(f"{file}:{text.count(chr(10), 0, m.start()) + 1} struct {m.group(1)}: flag {flags[0]} beside a value")
    out += grep(r"(== |!= |=> |= |return )255\b|\b255u8\b|<= 63\b|place: 64\b")
    out += grep(r"fn (first_\w+.*-> u(8|size)\b|number\(|line_named|is_of_job)", skip=r"Option")
    return out


def twins():
    """functions whose bodies are the same but for names, types, numbers and constants"""
    def shape(f):
        seen = {}
        def name(m):
            w = m.group(0)
            if w in ("let", "mut", "if", "else", "while", "for", "in", "match", "return", "as", "true", "false", "self", "Some", "None", "Ok", "Err", "len"):
                return w
            if re.fullmatch(r"u8|u16|u32|u64|usize|i32|i64|bool", w):
                return "T"
            return seen.setdefault(w, f"v{len(seen)}")
        body = re.sub(r"\bb?\"(\\.|[^\"])*\"", "S", f.body)
        body = re.sub(r"0x[0-9a-f]+|\b\d[\d_]*(u8|u16|u32|u64|usize)?\b", "0", body)
        return re.sub(r"\s+", " ", re.sub(r"[A-Za-z_]\w*", name, body)).strip()
    groups = collections.defaultdict(list)
    for f in FUNCTIONS:
        s = shape(f)
        if len(s) > 12 and f.ret != "" or len(s) > 40:
            groups[s].append(f)
    return ["  ".join(f.place() for f in g) for g in groups.values() if len(g) > 1]


def loops():
    """`while` loops, and `loop`"""
    return grep(r"^\s*('\w+: )?(while|loop)\b")


def by_hand():
    """widening casts, and functions that do what a derive, From or the library does"""
    out = grep(r"\b(\w+|\)) as (u16|u32|u64|usize|i32|i64)\b")
    names = r"^(lesser|smaller|min\w*|max\w*|same|wide|number|at_most_\d+|is_digit|copy\w*|join\d*|value|magnitude|print_refused|say_refused|print_number|mark|with_\w+|empty\w*|begun|nothing)$"
    out += [f.place() for f in FUNCTIONS if re.match(names, f.name)]
    return out


def travelling():
    """parameters that stand together in three functions or more, and facts that stand in the contracts of three or more"""
    out = []
    sets = collections.defaultdict(set)
    from itertools import combinations
    for f in FUNCTIONS:
        ps = [p for p in f.params if not re.match(r"&?(mut )?self\b|rt:|out:|at:", p)]
        for k in (3, 4, 5, 6, 7):
            for c in combinations(sorted(ps), k):
                sets[c].add(f.place())
    best = [(c, fs) for c, fs in sets.items() if len(fs) >= 3]
    best.sort(key=lambda x: (-len(x[0]), -len(x[1])))
    done = []
    for c, fs in best:
        if any(set(c) <= set(d) for d, _ in done):
            continue
        done.append((c, fs))
    out += [f"({', '.join(c)}): {len(fs)} functions" for c, fs in done]
    facts = collections.defaultdict(set)
    for f in FUNCTIONS:
        for kind, text in f.clauses:
            if kind == "requires":
                for part in re.split(r" × ", text.strip()):
                    part = part.strip().strip("()")
                    facts[part].add(f.place())
    out += [f"requires {p}: {len(fs)} functions" for p, fs in facts.items() if len(fs) >= 3]
    return out


def buffers():
    """structs with a list and its length beside it or with two lists, parts of a list by such a length, and lists with a count as parameters"""
    out = []
    for file in FILES:
        text = without_comments(open(file).read())
        for m in re.finditer(r"^[ \t]*(?:pub )?struct (\w+)[^{;]*\{", text, re.M):
            body = text[m.end():balanced(text, m.end() - 1, "{", "}")]
            lists = re.findall(r"(\w+): \[[^\]]*;[^\]]*\]", body)
            lengths = re.findall(r"\b(count|len|length): \w+", body)
            if lists and lengths or len(lists) > 1:
                out.append(f"{file}:{text.count(chr(10), 0, m.start()) + 1} struct {m.group(1)}: {', '.join(lists + lengths)}")
    for f in FUNCTIONS:
        if any(re.match(r"(count|len|end): (usize|u8)$", p) for p in f.params) and any(re.match(r"\w+: &(mut )?\[|\w+: \[", p) for p in f.params):
            out.append(f.place())
    out += grep(r"\[\.\.count\]")
    return out


def switches():
    """functions that match on a parameter that is an enum of plain names"""
    plain = set()
    for file in FILES:
        text = without_comments(open(file).read())
        for m in re.finditer(r"^[ \t]*(?:pub )?enum (\w+)[^{]*\{", text, re.M):
            body = text[m.end():balanced(text, m.end() - 1, "{", "}")]
            if not re.search(r"[({]", body):
                plain.add(m.group(1))
    out = []
    for f in FUNCTIONS:
        for p in f.params:
            m = re.match(r"(\w+): &?(\w+)$", p)
            if m and m.group(2) in plain:
                out.append(f"{f.place()} by {m.group(1)}: {m.group(2)}")
    return out


def proofs():
    """answers that are the same text as two others in one file, and answer files"""
    out = []
    for file in sorted(glob.glob("crates/*/proofs/**/Answers.antt", recursive=True)):
        bodies = collections.Counter()
        for m in re.finditer(r"^(?:pub )?[\w+-]+ (?:t )?c = (.*)$", open(file).read(), re.M):
            bodies[m.group(1)] += 1
        for text, n in bodies.items():
            if n >= 3:
                out.append(f"{file}: {n} times {text[:90]}")
    return out


POINTS = {"1": own_enums, "2": twins, "3": loops, "4": by_hand, "5": travelling, "6": buffers, "7": switches, "8": proofs}

if __name__ == "__main__":
    for point in sys.argv[1:] or POINTS:
        places = POINTS[point]()
        print(f"{point}: {len(places)} places, {POINTS[point].__doc__}")
        if len(sys.argv) > 1:
            for place in places:
                print("  " + place)
