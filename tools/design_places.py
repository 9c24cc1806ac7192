#!/usr/bin/env python3
"""Counts the places that docs/DESIGN-PASS.md speaks of, point by point, in the code of crates/*/src.

usage: python3 tools/design_places.py [POINT] [--count] [--open | --kept]

Run at the top of the tree, of any commit; POINT is 1 to 8, none means all. Each line is `file:line: what`,
files below crates/; a line with the number of places closes each part of a point, and `POINT n: N` each
point. --count writes those closing lines alone. (C) stands beside places that the C interface fixes. --kept
lists the places that have a reason beside them, with it, and --open those that have none (design_reasons.py).

Nothing is written and no program is run: the code is read as text, taken apart by brackets (design_tree.py).
Points 1 and 2 are in design_types.py, 3 and 4 in design_code.py, 5 to 8 here. What a search finds that is no
place of its point, and what it can't find, is named in tables beside the search, each with its reason.
"""
import collections
import os
import re
import sys

sys.dont_write_bytecode = True

from design_code import point3, point4
from design_tree import FNS, TEXTS, TYPES, at_line, balanced, blocks, crate, fields, files, is_c, line_of
from design_tree import mark_c, one_space, split_top
from design_reasons import reason
from design_types import point1, point2

# ---- point 5 ----

# Groups of parameters that a struct can hold; each is counted by the functions that take all of its names.
GROUPS = [
    "readings used log entries", "readings log", "out at", "kinds lengths", "kinds lengths write read",
    "kinds lengths bytes", "coded kinds lengths", "address kinds lengths", "len at send_stop",
    "send_stop restart", "remaining queue batch", "kinds lengths bytes readings buffer log out", "o s",
    "chunk i", "log k", "places n", "x y", "state readings log", "frequency clk", "words v", "words row", "stat length",
    "log used places out",
]


def conjuncts(clause):
    """The facts of a clause: it is split at each × that stands in no bracket, brackets around a fact go."""
    facts = []
    for x in split_top(one_space(clause).replace("<", "⟨"), "×"):
        while x.startswith("(") and balanced(x, 0, "(", ")") == len(x):
            x = x[1:-1].strip()
        more = split_top(x, "×")
        facts += conjuncts(x) if len(more) > 1 else [x.replace("⟨", "<")]
    return facts


def normal(fact):
    """Numbers are put as N, so that the same fact of other sizes is one fact."""
    return re.sub(r"\b(?:0x[0-9A-Fa-f]+|\d+)\b", "N", fact)


def required():
    found = collections.OrderedDict()
    for f in FNS:
        for fact in sorted({normal(x) for clause in f.requires for x in conjuncts(clause)}):
            found.setdefault(fact, []).append(f)
    for fact, fs in sorted(found.items(), key=lambda x: -len(x[1])):
        if len(fs) >= 3:
            yield fs[0].file, fs[0].line, f"{len(fs)} fn require {fact}"


def groups():
    for listed in GROUPS:
        names = listed.split()
        fs = [f for f in FNS if set(names) <= {n for n, _ in f.params}]
        if len(fs) >= 3:
            n = len({crate(f) for f in fs})
            yield fs[0].file, fs[0].line, f"{len(fs)} fn in {n} crate{'s'[:n - 1]}: {', '.join(names)}"


def travelling():
    """All sets of two or more parameters that some functions share, where three or more take them."""
    plain = [[(n, t.replace("mut ", "")) for n, t in f.params if t != "Self" and n != "rt"] for f in FNS]
    rows = [(f, frozenset(r)) for f, r in zip(FNS, plain) if len(r) > 1]
    plain = {r for _, r in rows}
    closed, fresh = set(plain), set(plain)
    while fresh:
        fresh = {a & b for a in fresh for b in plain if len(a & b) > 1} - closed
        closed |= fresh
    found = [(c, [f for f, r in rows if c <= r]) for c in closed]
    for c, fs in sorted(found, key=lambda x: (-len(x[1]), -len(x[0]), sorted(x[0]))):
        if len(fs) >= 3:
            yield fs[0].file, fs[0].line, f"{len(fs)} fn: " + ", ".join(f"{n}: {t}" for n, t in sorted(c))


def point5():
    yield "5a facts that three or more functions require", list(required())
    yield "5b parameters that travel together", list(groups())
    yield "5c the same by search, all sets, not counted", list(travelling())


# ---- point 6 ----

# A buffer with a length or a place in it. Where one of the third names stands beside them, the number is that
# one's.
BESIDE = [
    ("out", "at", "filled"), ("text", "held", ""), ("line", "held", ""), ("log", "entries", ""),
    ("log", "k", ""), ("log", "used", "readings"), ("log", "n", "readings places"), ("places", "n", ""),
    ("places", "count", ""),
    ("readings", "used", ""), ("readings", "first", ""), ("chunk", "filled", ""), ("chunk", "i", ""),
    ("chunk", "at", "out values"), ("bytes", "at", "out"), ("line", "at", "out"), ("buffer", "at", "out"),
    ("text", "n", ""), ("table", "row", ""), ("table", "n", ""),
]
# Fields that say how much of a buffer is meant that is lent beside the struct.
LENGTHS = {"at", "filled", "held", "used", "made", "count", "end", "ops", "bytes", "reads", "readings"}


def lengths_beside():
    """One place for each pair in a file."""
    seen = collections.OrderedDict()
    for f in FNS:
        names = dict(f.params)
        for buffer, number, others in BESIDE:
            pair = "[" in names.get(buffer, "") and re.match(r"(usize|u16)$", names.get(number, ""))
            if pair and not set(others.split()) & set(names):
                seen.setdefault((f.file, buffer, number), []).append(f)
    for (file, buffer, number), fs in seen.items():
        yield file, fs[0].line, f"{buffer} with {number} in {len(fs)} fn"


def parallel():
    seen = collections.OrderedDict()
    for f in FNS:
        if {"kinds", "lengths"} <= {n for n, _ in f.params}:
            seen.setdefault(f.file, []).append(f)
    for file, fs in seen.items():
        yield file, fs[0].line, f"kinds beside lengths in {len(fs)} fn{mark_c(all(is_c(f) for f in fs))}"


# A loop answers from inside, or gathers a test of all.
FOUND = re.compile(
    r"if [^{]*\{\s*return (true|false|[a-z]\w*|[\w:]+\([^)]*\));|=> return |return [A-Z]\w* \{"
    r"|so_far = so_far &"
)


def searches():
    for f in FNS:
        for word in ("while", "loop"):
            for m, _, inner in blocks(f, word):
                looks = re.search(r"\w\[(?!\.\.)|written_at|reading_at", inner)
                if FOUND.search(inner) and looks and not re.search(r"perform\(|put_read\(", inner):
                    yield f.file, at_line(f, m.start()), f.name


def carried():
    """A struct that holds its buffers as well has them together: it is no place."""
    for y in TYPES:
        names = [n for n, t in fields(y) if t == "usize" and n in LENGTHS]
        if names and not any(t.startswith("&") for _, t in fields(y)):
            yield y.file, y.line, f"{y.name}: {', '.join(names)}{mark_c('repr(C)' in y.above)}"


def point6():
    yield "6a buffers with a length or a place beside them", list(lengths_beside())
    yield "6b parallel arrays", list(parallel())
    yield "6c lists searched by hand", list(searches())
    yield "6d structs that carry the length of a buffer that is lent beside them", list(carried())


# ---- point 7 ----

SWITCHES = {"coded", "stop", "buffered", "picture"}
# A bit of a word, and a field of a result.
NOT_SWITCHES = {"word_of", "result"}
CALL = r" == \w+ \{\s*(?:if [^{]*\{\s*)?(?:return )?(?:\w+::)*[a-z]\w*\("


def switches():
    for f in FNS:
        tests = collections.Counter(re.findall(r"\bif (\w+(?:\.\w+)?) == (?:0x)?\d", f.body))
        for v, n in tests.items():
            if n >= 2 and len(re.findall(r"\bif " + re.escape(v) + CALL, f.body)) >= 2:
                yield f.file, f.line, f"{f.name}: {n} tests of {v}"


def handed_down():
    for f in FNS:
        for n, t in f.params:
            if t == "bool" and n in SWITCHES and f.name not in NOT_SWITCHES:
                yield f.file, f.line, f"{f.name}({n})"


def tables():
    for file, text in TEXTS.items():
        for m in re.finditer(r"\[fn\(|: fn\(|&dyn |Box<dyn", text):
            yield file, line_of(text, m.start()), m.group(0)


def point7():
    yield "7a a switch by number on which step or call to run", list(switches())
    yield "7b a flag handed down that chooses what is run", list(handed_down())
    yield "7c tables of functions", list(tables())


# ---- point 8 ----

ANSWER = re.compile(
    r"(?m)^(?!pub |abbrev |use |unfolding |--|open |let |\s)([^\s:=]+)((?: [^\s=:]+)*) ="
    r"((?:[^\n]*\n)(?:[ )\]][^\n]*\n?)*)"
)


def kind_of(path):
    """Answers and invariants of a function lie in a folder of its name; what lies above is lemmas."""
    base = os.path.basename(path)
    return base if base in ("Answers.antt", "Invariants.antt") and path.count("/") > 3 else "lemmas"


def proof_files():
    count = collections.Counter((p.split("/")[1], kind_of(p)) for p in files("crates/*/proofs/**/*.antt"))
    kinds = ("Answers.antt", "Invariants.antt", "lemmas")
    for c in sorted({c for c, _ in count}):
        a, i, l = (count[(c, k)] for k in kinds)
        yield f"{c}/proofs", 0, f"{a} Answers, {i} Invariants, {l} files of lemmas"
    a, i, l = (sum(v for (_, k), v in count.items() if k == kind) for kind in kinds)
    yield "all", 0, f"{a} Answers, {i} Invariants, {l} files of lemmas"


def repeated():
    """Right sides of answers, places of the code (c.name ..) as one sign; whether each names a lemma."""
    same = collections.OrderedDict()
    for path in files("crates/*/proofs/**/Answers.antt"):
        if kind_of(path) == "lemmas":
            continue
        text = open(path, encoding="utf-8").read()
        for m in ANSWER.finditer(text):
            right = re.sub(r"\bc\.[\w'.-]+", "c.X", re.sub(r"\s+", " ", m.group(3)).strip())
            same.setdefault(right, []).append((path[len("crates/"):], line_of(text, m.start())))
    for right, found in sorted(same.items(), key=lambda x: -len({p for p, _ in x[1]})):
        number = len({p for p, _ in found})
        if number >= 3:
            named = re.sub(r"c\.X|\bsimp\b|\brw\b|\bsearch rules\b|\brefl\b|λ \w+\.|\b_\b", "", right)
            place = (found[0][0], found[0][1], f"{len(found)} times in {number} files: {right[:90]}")
            yield bool(re.search(r"\w", named)), place


def point8():
    same = list(repeated())
    yield "8a crates with proof files, and all, not counted", list(proof_files())
    yield "8b answers that name a lemma and stand in three or more files", [x for named, x in same if named]
    yield "8c such answers that name none, not counted", [x for named, x in same if not named]


# ---- all ----

POINTS = dict(zip("12345678", (point1, point2, point3, point4, point5, point6, point7, point8)))


def asked_for(file, line, what, counted):
    if "--open" in sys.argv or "--kept" in sys.argv:
        return counted and (reason(file, line, what) is not None) == ("--kept" in sys.argv)
    return True


def main():
    asked = [a for a in sys.argv[1:] if not a.startswith("-")] or list(POINTS)
    for p in asked:
        total = 0
        for title, part in POINTS[p]():
            part = [x for x in part if asked_for(*x, counted=not title.endswith("not counted"))]
            for file, line, what in part if "--count" not in sys.argv else []:
                print(f"{file}:{line}: {what}")
                if "--kept" in sys.argv:
                    print(f"    {reason(file, line, what)}")
            print(f"{title}: {len(part)}")
            total += 0 if title.endswith("not counted") else len(part)
        print(f"POINT {p}: {total}")


main()
