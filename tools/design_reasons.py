"""Whether a place that design_places.py lists has its reason beside it: a comment that says what stays, and why."""
import re

from design_tree import FNS, TEXTS, TYPES, crate, line_of

STAYS = re.compile(r"\bstays?\b", re.I)
# Words of a fact that name nothing of its own.
COMMON = {"old", "now", "new", "length", "get_or", "self", "fn", "require", "N"}


def comments(text):
    """Runs of comment lines: the first line, the last, the words."""
    found, lines = [], text.split("\n")
    for i, line in enumerate(lines, 1):
        m = re.match(r"\s*//+(.*)", line) or re.search(r"[;,{}] // (.*)", line)
        if m and found and found[-1][1] == i - 1 and line.lstrip().startswith("//"):
            found[-1] = (found[-1][0], i, found[-1][2] + " " + m.group(1).strip())
        elif m:
            found.append((i, i, m.group(1).strip()))
    return found


REASONS = {file: [c for c in comments(text) if STAYS.search(c[2])] for file, text in TEXTS.items()}


def top_of(file, line):
    """The first line of the comments and attributes straight above."""
    lines = TEXTS[file].split("\n")
    while line > 1 and re.match(r"\s*(//|#\[)", lines[line - 2]):
        line -= 1
    return line


def spans(file, line):
    """The function, type or line that a place stands in, with what stands above it."""
    if file not in TEXTS:
        return []
    inside = [(f.line, f.line + f.whole.count("\n")) for f in FNS if f.file == file]
    for y in TYPES:
        if y.file == file:
            end = TEXTS[file].find("\n}", sum(len(x) + 1 for x in TEXTS[file].split("\n")[:y.line - 1]))
            inside.append((y.line, line_of(TEXTS[file], end + 1)))
    found = [(a, b) for a, b in inside if a <= line <= b] or [(line, line)]
    return [(top_of(file, a), b) for a, b in found]


def places(file, line, what):
    """The place itself, and the others of its group."""
    found = [(file, line)]
    for name, at in re.findall(r"([\w/]+\.\w+):(\d+)", what):
        home = name.split(".")[0].split("/")[0]
        word = name.split(".")[1]
        items = [(x.file, x.line) for x in FNS + TYPES if crate(x) == home and x.name == word]
        found += [x for x in items if x[1] == int(at)]
    return found


def names_of(what):
    """The parameters or the fact that a place is about, and whether its reason may stand in another file."""
    m = re.match(r"(\w+): \S.* in \d+ fn", what) or re.match(r"(\w+) with (\w+) in", what)
    if m:
        return [x for x in m.groups() if x], False
    if what.startswith("kinds beside lengths"):
        return ["kinds"], False
    m = re.match(r"\d+ fn in \d+ crates?: (.*)", what)
    if m:
        return m.group(1).split(", "), True
    m = re.match(r"\d+ fn require (.*)", what)
    if m:
        words = [w for w in re.findall(r"[A-Za-z_]\w*", m.group(1)) if w not in COMMON]
        return [w for w in words if w[0].isupper()] or words, True
    return [], False


def reason(file, line, what):
    """The comment that says why a place stays as it is, or None."""
    for home, at in places(file, line, what):
        for a, b in spans(home, at):
            for first, last, text in REASONS.get(home, []):
                if a <= first and last <= b:
                    return f"{home}:{first}: {text}"
    names, anywhere = names_of(what)
    if names and any(n[0].isupper() for n in names):
        homes = list(REASONS)
    else:
        homes = [x for x in REASONS if x.split("/")[0] == file.split("/")[0]] if anywhere else [file]
    for home in homes:
        for first, _, text in REASONS.get(home, []) if names else []:
            if all(re.search(rf"\b{re.escape(n)}\b", text) for n in names):
                return f"{home}:{first}: {text}"
    return None
