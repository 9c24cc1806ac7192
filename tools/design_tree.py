"""The code of crates/*/src as functions and types, taken apart by brackets, for design_places.py."""
import collections
import glob
import re

Fn = collections.namedtuple("Fn", "file line name params result requires ensures body body_line whole")
Type = collections.namedtuple("Type", "file line kind name parts above")

HEAD = re.compile(r"(?m)^ *(?:pub(?:\([a-z]+\))? )?(?:const )?(?:extern \"C\" )?fn ([A-Za-z_0-9]+)")
TYPE = re.compile(r"(?m)^(?:pub )?(struct|enum) ([A-Za-z_0-9]+)[^{;(]*\{")
# What a function answers: a type, in which `;` stands only between square brackets.
RESULT = re.compile(
    r"\s*(?:->\s*((?:\[[^\]]*\]|[^{;\[])*?))?(?=\s*(?:where\b|requires|ensures|decreases|\{|;))"
)
WHERE = re.compile(r"\s*where\b.*?(?=\n\s*(?:requires|ensures|decreases)\b|\{)", re.S)
CLAUSE = re.compile(r"\s*(?://[^\n]*\s*)*(requires|ensures|decreases)\*?(?: \w+)?\s*\{")
CHARACTER = re.compile(r"'(\\.[^']*|[^'\\])'")


def string_end(text, at):
    """The index of the quote that closes the string which begins at `at`."""
    at += 1
    while text[at] != '"':
        at += 2 if text[at] == "\\" else 1
    return at


def balanced(text, at, opening, closing):
    """The index behind the bracket that closes the one at `at`; strings, comments are passed over."""
    depth = 0
    while at < len(text):
        c = text[at]
        character = CHARACTER.match(text, at)
        if text.startswith("//", at):
            end = text.find("\n", at)
            at = len(text) if end < 0 else end
        elif c == '"':
            at = string_end(text, at)
        elif character:
            at = character.end() - 1
        elif c == opening:
            depth += 1
        elif c == closing:
            depth -= 1
            if depth == 0:
                return at + 1
        at += 1
    return len(text)


def split_top(text, by=","):
    """Splits at the commas that stand in no bracket."""
    parts, depth, now = [], 0, ""
    for i, c in enumerate(text):
        if c in "([{<":
            depth += 1
        elif c in ")]}" or c == ">" and text[i - 1] not in "-=":
            depth -= 1
        if c == by and depth == 0:
            parts.append(now)
            now = ""
        else:
            now += c
    return [p.strip() for p in parts + [now] if p.strip()]


def one_space(text):
    return re.sub(r"\s+", " ", re.sub(r"//[^\n]*", "", text)).strip()


def line_of(text, at):
    return text.count("\n", 0, at) + 1


def above(text, at):
    """The attributes and comments in the lines straight above."""
    lines = text[:at].split("\n")[:-1]
    found = []
    while lines and re.match(r" *(#\[|//)", lines[-1]):
        found.append(lines.pop().strip())
    return " ".join(found)


def behind_generics(text, at):
    if text[at] != "<":
        return at
    depth = 0
    while True:
        depth += (text[at] == "<") - (text[at] == ">" and text[at - 1] not in "-=")
        at += 1
        if depth == 0:
            return at


def parameters(text):
    params = []
    for p in split_top(re.sub(r"//[^\n]*", "", text)):
        name, colon, kind = p.partition(":")
        params.append((name.replace("mut ", "").strip(), one_space(kind)) if colon else (p, "Self"))
    return params


def clauses_from(text, at):
    """The texts of requires and of ensures that stand from `at` on, and the index behind them."""
    found = {"requires": [], "ensures": [], "decreases": []}
    while True:
        c = CLAUSE.match(text, at)
        if not c:
            return found, at
        at = balanced(text, c.end() - 1, "{", "}")
        found[c.group(1)].append(text[c.end():at - 1])


def functions(name, text):
    for m in HEAD.finditer(text):
        opening = text.find("(", behind_generics(text, m.end()))
        closing = balanced(text, opening, "(", ")")
        head = RESULT.match(text, closing)
        at = head.end() if head else closing
        where = WHERE.match(text, at)
        found, at = clauses_from(text, where.end() if where else at)
        start = text.find("{", at)
        semicolon = text.find(";", at)
        if start < 0 or 0 <= semicolon < start:
            continue
        end = balanced(text, start, "{", "}")
        yield Fn(
            name, line_of(text, m.start()), m.group(1), parameters(text[opening + 1:closing - 1]),
            one_space(head.group(1) or "") if head else "", found["requires"], found["ensures"],
            text[start + 1:end - 1], line_of(text, start), text[m.start():end],
        )


def types(name, text):
    for m in TYPE.finditer(text):
        end = balanced(text, m.end() - 1, "{", "}")
        parts = split_top(re.sub(r"//[^\n]*|#\[[^\]]*\]", "", text[m.end():end - 1]))
        parts = [re.sub(r"^pub ", "", one_space(p)) for p in parts]
        yield Type(name, line_of(text, m.start()), m.group(1), m.group(2), parts, above(text, m.start()))


def files(pattern="crates/*/src/**/*.rt"):
    return sorted(glob.glob(pattern, recursive=True))


TEXTS = {f[len("crates/"):]: open(f, encoding="utf-8").read() for f in files()}
FNS = [f for n, t in TEXTS.items() for f in functions(n, t)]
TYPES = [y for n, t in TEXTS.items() for y in types(n, t)]


def fields(y):
    """Names and types of a struct's fields."""
    if y.kind != "struct":
        return []
    return [tuple(x.strip() for x in p.split(":", 1)) for p in y.parts if ":" in p]


def crate(x):
    return x.file.split("/")[0]


def is_c(f):
    return 'extern "C"' in f.whole.split("{")[0]


def mark_c(yes):
    """Beside a place that the C interface fixes."""
    return " (C)" if yes else ""


def at_line(f, index):
    """The line of an index into a function's body."""
    return f.body_line + f.body.count("\n", 0, index)


def blocks(f, word):
    """The loops of a function that begin with this word: the match, the test, the block."""
    for m in re.finditer(r"(?<![\w'])" + word + r"\b", f.body):
        if f.body.rfind("\n", 0, m.start()) < f.body.rfind("//", 0, m.start()):
            continue
        opening = f.body.find("{", m.end())
        yield m, f.body[m.end():opening].strip(), f.body[opening:balanced(f.body, opening, "{", "}")]
