#!/usr/bin/env python3
"""Spells this repository's own definitions, lemmas, constructors, fields and parameters of specs/ and proofs/ in snake case.

usage: python3 tools/snake_names.py [--list]

Run once at the top, after port.py. `set-config` becomes `set_config`, `Ran-as` becomes `RanAs`, and the prime of `x′` an apostrophe.
What Rattle makes (goals, steps), what a library's text spells, Rust code, strings, inputs and outputs keep their names.
--list writes nothing and prints the names that would fall together.
"""
import collections
import os
import re
import sys

TOKEN = re.compile(r"[^\s(){}.;,@\"«»]+")
WORDS = r"(?:(?:pub|abbrev|unfoldable|pattern|data|record|ruleset|module|axiom|tactic) +)*"
DECLARED = re.compile(r"(?m)^ *" + WORDS + r"([^\s(){}.;,@\"«»:]+)(?: \{[^{}\n]*\})* :(?= |$)")
BOUND = re.compile(r"(?<![^\s(){};,@«»])[A-Za-z][^\s(){}.;,@\"«»]*")
USED = re.compile(r"(?m)^(?:ghost )?use ([^\s;{]+?)\.?(?:\{([^}]*)\})?(?: as ([^\s;]+))?;?$")
MADE = re.compile(r"^(?:tie\.Need-|goal\.|tie\.Invariant)")
GHOST = re.compile(r"(?ms)^ *(?:pub )?ghost use [^;]*;|\b(?:requires|ensures)\*?(?: \w+)? \{|\bghost(?: invariant)?(?: \w+:)? \{|#!?\[tactic\([^\]]*\)\]")
SPAN = re.compile(r"`[^`\n]+`")


# A name that is declared as a function into `Type` is a type.
TYPED = re.compile(r"(?m)^ *" + WORDS + r"([a-z][^\s(){}.;,@\"«»:]*)(?: \{[^{}\n]*\})* :((?:[^\n]|\n {4})*)$")
# The Rust has a constant of this name, which a file may use beside the definition.
APART = {"LONGEST-KEPT": "longest_kept"}


def camel(name):
    return "".join(p[:1].upper() + p[1:] for p in name.split("-"))


def snake(name):
    if name in APART:
        return APART[name]
    bare = name.replace("′", "'")
    if "-" not in bare:
        return bare
    parts = bare.split("-")
    first = parts[0]
    if first[:1].isupper() and not first.isupper():
        return "".join(p[:1].upper() + p[1:] for p in parts)
    if bare.upper() == bare:
        return bare.replace("-", "_")
    return "_".join(p for p in parts)


def files(kinds):
    for folder, dirs, names in os.walk("crates"):
        dirs[:] = sorted(d for d in dirs if d not in ("out", "data"))
        for name in sorted(names):
            if name.endswith(kinds):
                yield os.path.join(folder, name)


def is_of_function(path):
    return "/proofs/" in path and not re.search(r"/proofs/[A-Z]\w*\.antt$", path)


def read(path):
    with open(path, encoding="utf-8", newline="") as f:
        return f.read()


def uncommented(text):
    return re.sub(r"(?m)(?<![^\s(){}.;,])--[ \n].*$", " ", text)


def brought(text):
    """The names that a file imports from libraries."""
    out = set()
    for path, names, alias in USED.findall(text):
        own = re.match(r"Rattle\.(?!std|core|std_alloc|std_io|std_heap|std_collections|io|libc|os)\w+", path)
        if own or path.startswith("package"):
            continue
        for it in names.split(","):
            it = it.strip()
            if it:
                out.add(it.split(" as ")[0].strip())
                out.add(it.split(" as ")[-1].strip())
    return out


def table():
    """Each name of ours that is respelled, with its new spelling; and by file the parameters that are."""
    ours, local = {}, {}
    for path in files((".antt",)):
        text = uncommented(read(path))
        theirs = brought(text)
        here = set()
        declared = DECLARED.findall(text)
        if is_of_function(path):
            # What answers a goal, and a function's own theorem, have the names that Rattle wants.
            answers = set(re.findall(r"(?m)^(?:pub )?([^\s:]+) : (?:\([^)]*\) → )*(?:tie|goal)\.", text))
            ends = set(re.findall(r"(?m)^pub ([^\s:]+[-_]spec) :", text))
            declared = [d for d in declared if d not in answers and d not in ends]
            here |= {d for d in declared if "-" in d or "′" in d}
        else:
            for d in declared:
                if ("-" in d or "′" in d) and d not in theirs:
                    ours[d] = snake(d)
            for d, kind in TYPED.findall(text):
                if re.search(r"(?:→ |^ *)Type 0 *$", kind) and d not in theirs:
                    ours[d] = camel(d)
            # What is left is bound in the file: parameters and what `let` names.
            imported = set(TOKEN.findall(" ".join(m[0] for m in USED.finditer(text))))
            here |= {w for w in BOUND.findall(text) if ("-" in w or "′" in w) and w not in imported}
        local[path] = {w: snake(w) for w in here if re.match(r"[A-Za-z]", w) and w not in theirs}
    ours = {k: v for k, v in ours.items() if re.match(r"[A-Za-z]", k)}
    return ours, local


def respell(text, names, keep=frozenset()):
    def one(m):
        word = m[0]
        if word in keep:
            return word
        return names.get(word, word)

    return TOKEN.sub(one, text)


def respelled_rt(text, names):
    """Only clauses, ghost lines, attributes of tactics and code spans of comments."""
    out, at = [], 0
    theirs = brought(text)
    while True:
        m = GHOST.search(text, at)
        if not m:
            out.append(text[at:])
            break
        out.append(text[at:m.start()])
        end = m.end()
        if m[0].endswith("{"):
            deep = 1
            while deep and end < len(text):
                deep += (text[end] == "{") - (text[end] == "}")
                end += 1
        out.append(respell(text[m.start():end], names, theirs))
        at = end
    whole = "".join(out)
    in_span = lambda s: "`" + respell(s[0][1:-1], names) + "`"
    return re.sub(r"(?m)^(\s*//.*)$", lambda m: SPAN.sub(in_span, m[0]), whole)


def move_inner():
    """The module `inner` of definitions that only inner contracts cite is `Inner`."""
    for folder, dirs, names in list(os.walk("crates")):
        if os.path.basename(folder) == "specs" and os.path.isfile(os.path.join(folder, "inner.antt")):
            for name in ("inner", "inner.antt"):
                if os.path.exists(os.path.join(folder, name)):
                    os.rename(os.path.join(folder, name), os.path.join(folder, name.replace("inner", "Inner")))
    for path in list(files((".antt", ".rt", ".edit"))):
        text = read(path)
        done = re.sub(r"\bspecs\.inner\b", "specs.Inner", text)
        done = re.sub(r"(?m)^((?:pub )?mod )inner$", r"\1Inner", done).replace("specs/inner/", "specs/Inner/")
        if done != text:
            with open(path, "w", encoding="utf-8", newline="") as f:
                f.write(done)


def main():
    ours, local = table()
    told = []
    by_new = collections.defaultdict(set)
    for old, new in ours.items():
        by_new[new].add(old)
    for new, olds in by_new.items():
        if len(olds) > 1:
            told.append(f"two names become {new}: {' '.join(sorted(olds))}")
    write = "--list" not in sys.argv[1:]
    for path in list(files((".antt", ".rt", ".edit"))):
        text = read(path)
        if path.endswith(".antt"):
            code = uncommented(text)
            theirs = brought(code)
            names = {**ours, **local[path]}
            present = set(TOKEN.findall(code))
            for word in sorted(present):
                new = names.get(word)
                if new and new != word and word not in theirs and new in present:
                    told.append(f"{path}: {word} and {new}")
            done = respell(text, names, theirs)
        elif path.endswith(".rt"):
            present = set(TOKEN.findall(text))
            for word in sorted(present):
                new = ours.get(word)
                if new and new != word and new in present and re.search(r"\b(?:use|const|static)\b[^;]*\b" + re.escape(new) + r"\b", text):
                    told.append(f"{path}: {word} and {new}")
            done = respelled_rt(text, ours)
        else:
            done = re.sub(r"(?m)^((?:old|new):.*|# .*)$", lambda m: respell(m[0], ours), text)
        if done != text and write:
            with open(path, "w", encoding="utf-8", newline="") as f:
                f.write(done)
    if write:
        move_inner()
    print("\n".join(told))
    print(f"{len(ours)} names of definitions and lemmas respelled")


if __name__ == "__main__":
    main()
