"""Points 3 and 4 of docs/DESIGN-PASS.md, for design_places.py: loops, and what is written by hand."""
import collections
import re

from design_tree import FNS, TYPES, at_line, blocks, one_space

# ---- point 3 ----


def counted(inner):
    """The names that a loop's block moves on by an amount."""
    steps = re.findall(r"\b([a-z_]\w*) (?:\+=|-=) |\b([a-z_]\w*) = \2 \+ |\b(i) = end\b", inner)
    return sorted({a or b or c for a, b, c in steps})


def calls_itself_with_less(f):
    called = re.search(r"(?<![\w.:])" + f.name + r"\([^;]*- 1", f.body)
    return called and not re.search(r"let " + f.name + r"\b", f.body)


def point3():
    part, others = [], []
    for f in FNS:
        for word in ("while", "loop"):
            for m, test, inner in blocks(f, word):
                names = counted(inner)
                what = f"{f.name}: {word} {test[:40]}" + ("; counts " + ", ".join(names) if names else "")
                # A machine's loop performs accesses until it stops: what it counts is no index of a loop.
                machine = re.search(r"\b(perform|step)\(", inner) or not names
                where = others if machine and not test.startswith("turns > 0") else part
                where.append((f.file, at_line(f, m.start()), what))
        if calls_itself_with_less(f):
            part.append((f.file, f.line, f"{f.name}: calls itself with one less"))
    yield "3a loops and recursion that count by hand", sorted(part)
    yield "3b loops that count no index (machines, reads until the end), not counted", sorted(others)


# ---- point 4 ----


def equality():
    for f in FNS:
        if f.result == "bool" and "match " in f.body:
            arms = re.findall(r"(?m)^\s*[A-Z]\w*(?:::\w+)?(?:\([^)]*\))? => ([^\n]*?),?$", f.body)
            plain = [a for a in arms if a in ("true", "false")]
            if len(plain) >= 2 and len(plain) >= len(arms) - 1:
                yield f.file, f.line, f"{f.name}: {len(plain)} arms true or false"


def casts():
    for f in FNS:
        if re.match(r"^\s*[a-z]\w* as (u8|u16|u32|u64|usize)\s*$", f.body):
            yield f.file, f.line, f"{f.name}: {f.params[0][1]} as {f.result}"


# The functions that turn a value of one type into the value of another that stands for it.
CONVERSIONS = re.compile(
    r"(number|detail)_of|told|numbers$|state$|entry_of$|show$|of$|mode$|form$|bit$|mark$|word$|point$|place$"
    r"|(setup|abort|read|write|queue|fill|wait|stop|reason|tried|round|caller|poll)_of$|of_\w+$"
    r"|transfer_from$|place_from$|who_from$|pending$"
)


def conversions():
    own = {y.name for y in TYPES}
    for f in FNS:
        kinds = [t for _, t in f.params]
        read = any(re.match(r"&\[u(8|32)\]|&mut", t) for t in kinds)
        if CONVERSIONS.match(f.name) and len(kinds) <= 3 and not read and own & {f.result, *kinds}:
            yield f.file, f.line, f"{f.name}: {', '.join(kinds)} to {f.result}"


def copied_fields(f, literal):
    """How many fields a literal takes over from one value, under their names, and that value's name."""
    found = collections.Counter()
    for name, value, field in re.findall(r"(\w+): (\w+)\.(\w+)\b(?!\()", literal):
        if name == field:
            found[value] += 1
    for name in re.findall(r"(?m)^\s*(\w+),$", literal):
        for value in re.findall(r"let " + name + r" = (\w+)\." + name + ";", f.body):
            found[value] += 1
    return found.most_common(1)[0] if found else ("", 0)


def copies():
    for f in FNS:
        for m in re.finditer(r"\b([A-Z]\w*) \{([^{}]*)\}", f.body):
            value, count = copied_fields(f, m.group(2))
            if count >= 2:
                yield f.file, at_line(f, m.start()), f"{f.name}: {m.group(1)}, {count} fields of {value}"


def built_again():
    for f in FNS:
        same = []
        heads = list(re.finditer(r"(?m)^\s*([A-Z]\w*::\w+(?:\([^)]*\))?) =>", f.body))
        for m, after in zip(heads, heads[1:] + [None]):
            matched = m.group(1)
            arm = one_space(f.body[m.end():after.start() if after else len(f.body)])
            if re.search(re.escape(matched) + r"(?![\w(:])", arm) and not arm.startswith("match"):
                same.append(matched)
        if same:
            yield f.file, f.line, f"{f.name}: {', '.join(same[:3])}{' ..' if len(same) > 3 else ''}"


SATURATING = re.compile(
    r"^if \w+ < \w+ \{ \w+ - \w+ \} else \{ 0 \}$|^if 0 < n \{ n - 1 \} else \{ 0 \}$"
    r"|.*< (u64::MAX|4294967295|65535) \{ (return )?\w+ \+ 1|.*if (\w+) < (\w+) \{ \3 \+ 1 \} else \{ \3 \}"
)


def arithmetic():
    for f in FNS:
        text = one_space(f.body)
        if re.match(r"^if (\w+) < (\w+) \{ (\1|\2) \} else \{ (\1|\2) \}$", text):
            yield f.file, f.line, f"{f.name}: min"
        elif SATURATING.match(text):
            yield f.file, f.line, f"{f.name}: saturating"
        elif "wrapping_add_usize" in text:
            yield f.file, f.line, f"{f.name}: wrapping"


PRINTS = re.compile(
    r"(push|copy)(2|4|8|_digits|_entry|_entries|_reply|_answer|_number|_word|_plain|_kind|_sign)$"
    r"|say_(sign|direction|hex)$"
)


def printing():
    for f in FNS:
        if PRINTS.match(f.name) and not f.file.startswith("explain_lines"):
            yield f.file, f.line, f.name
        elif f.name in ("char", "digit", "digit_value", "pair", "number") and f.file.startswith("text_"):
            yield f.file, f.line, f"{f.name} (digits)"


def point4():
    yield "4a equality: a match that answers true or false for each variant", list(equality())
    yield "4b conversion: a function that is one `as`", list(casts())
    yield "4c conversion between own types, or between an own type and numbers", list(conversions())
    yield "4d copying: a literal that takes two or more fields over from one value", list(copies())
    yield "4e copying: an arm of a match that builds what it matched", list(built_again())
    yield "4f order and arithmetic that std has: min, saturating, wrapping", list(arithmetic())
    yield "4g printing and reading of numbers", list(printing())
