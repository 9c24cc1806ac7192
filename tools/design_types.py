"""Points 1 and 2 of docs/DESIGN-PASS.md, for design_places.py: what values are, and what stands twice."""
import collections
import difflib
import re

from design_tree import FNS, TEXTS, TYPES, at_line, crate, fields, is_c, line_of, mark_c, one_space

# ---- point 1 ----

ERRORS = r"\b(Refusal|AbortReason|Reply|Ran)\b"
NO_VALUE = r"^(None|Nothing|Nowhere|Unknown|No|Never|Malformed|Bad|Invalid)$"
# Of the shape of Option, but no value that may be missing: two accesses of a machine with what they carry.
NOT_OPTION = {"AbortPoint"}
# Its first variant is one of several kinds of the same thing, not a missing one.
NOT_MISSING = {"Wants"}
# Flags that are a setting of their own: no value beside them depends on them.
SETTINGS = {"coded", "general_call", "restart", "send_stop"}
NUMBERS = r"^&?(mut )?(\[)?(u8|u16|u32|u64|usize)(; \d+)?\]?$"
KINDS = {"kind", "kinds", "form", "group", "row", "code", "last", "begin", "number", "which"}
# Under these names a number of lines, a row of any table, or a packet error code: amounts, no kinds.
AMOUNTS = {
    ("answer_lines", "number"), ("explain_lines", "number"), ("svg_lines", "number"),
    ("replay_scan_readings", "number"), ("regs", "row"), ("text_tables", "row"),
    ("transfer_code", "code"), ("words_code", "code"), ("export_steps", "code"),
}
# Kinds under other names: an answer's number, and a direction (for which there is an enum) as a flag.
KINDS_BY_FILE = {("explain_frames/src/lib.rt", "n", "u32"), ("explain_beside/src/beside.rt", "read", "bool")}
# A literal beside computed results is here a true amount, or a number for one variant of several.
TRUE_ZERO = {
    ("transfer", "less"), ("transfer", "difference"), ("transfer_fast_blocking", "free"),
    ("text_stdin", "count"), ("text_stdin", "reads_left"), ("explain", "turns_left"),
    ("bus_svg", "turns_left"), ("regs", "value"), ("regs", "head"), ("bus", "bit"),
    ("slave_respond", "count"), ("words", "form"),
}
NO_PLAN = "Plan { words: 0, count: 0 }"


def option_or_result(y):
    held = [p for p in y.parts if "(" in p]
    bare = [p for p in y.parts if "(" not in p]
    with_error = [p for p in held if re.search(ERRORS, p) or re.match("TooHigh|Failed|Refused|Illegal", p)]
    if len(y.parts) == 2 and len(held) == 1:
        return "Option: " + " | ".join(y.parts)
    if len(y.parts) == 2 and len(held) == 2 and len(with_error) == 1:
        return "Result: " + " | ".join(y.parts)
    if len(y.parts) > 2 and any(re.match(NO_VALUE, p) for p in bare) and y.name not in NOT_MISSING:
        return "a variant for no value: " + " | ".join(p.split("(")[0] for p in y.parts)
    return None


def own_enums():
    for y in TYPES:
        what = option_or_result(y) if y.kind == "enum" and y.name not in NOT_OPTION else None
        if what:
            yield y.file, y.line, f"{y.name}: {what}"


def flags():
    for y in TYPES:
        names = [n for n, t in fields(y) if t == "bool" and n not in SETTINGS]
        if names:
            yield y.file, y.line, f"{y.name}.{', .'.join(names)}{mark_c('repr(C)' in y.above)}"
    for f in FNS:
        names = [n for n, _ in f.params]
        for flag, value in (("has", "byte"), ("buffered", "buffer")):
            if flag in names and value in names:
                yield f.file, f.line, f"fn {f.name}({flag}, {value})"


def kinds_in_types():
    for y in TYPES:
        for n, t in fields(y):
            if n in KINDS and re.match(NUMBERS, t) and (crate(y), n) not in AMOUNTS:
                yield y.file, y.line, f"{y.name}.{n}: {t}{mark_c('repr(C)' in y.above)}"
        for p in y.parts if y.kind == "enum" and len(y.parts) < 10 else []:
            if re.match(r"(Master|Answer)\((u8|u32), (u16|u32)\)|Mark(ed)?\(u8\)", p):
                yield y.file, y.line, f"{y.name}::{p}: a form, a number or a mark"


def kinds_in_parameters():
    """One place for each name and type in a file."""
    seen = collections.OrderedDict()
    for f in FNS:
        for n, t in f.params:
            named = n in KINDS and re.match(NUMBERS, t) and (crate(f), n) not in AMOUNTS
            if named or (f.file, n, t) in KINDS_BY_FILE:
                seen.setdefault((f.file, n, t.replace("mut ", "")), []).append(f)
    for (file, n, t), fs in seen.items():
        yield file, fs[0].line, f"{n}: {t} in {len(fs)} fn{mark_c(all(is_c(f) for f in fs))}"


def kinds_in_constants():
    groups = (
        (r"(?:u32|u64) = (?:0x[1-9]0000|\d+)", "kinds", 5),
        (r"u8 = OFFSETS\[\d+\]", "registers", 5),
        (r"u8 = [01]", "marks", 2),
    )
    for file, text in TEXTS.items():
        for value, what, least in groups:
            names = re.findall(r"(?m)^(?:pub )?const ([A-Z_0-9]+): " + value + ";", text)
            if len(names) >= least:
                line = line_of(text, text.index("const " + names[0] + ":"))
                yield file, line, f"{len(names)} constants for {what}, {names[0]} to {names[-1]}"


def kinds_in_bodies():
    for f in FNS:
        if re.search(r"\b(word|places\[i\]) (/ 65536|- value\b)|value = word % 0x10000", f.body):
            yield f.file, f.line, f"{f.name}: a sign's kind taken out of a word"
        for m in re.finditer(r"push_answer\(out, at, (\d+)|number == (\d+)|return (22);", f.body):
            number = m.group(1) or m.group(2) or m.group(3)
            yield f.file, at_line(f, m.start()), f"{f.name}: refusal {number} by its number"


def numbers_for_nothing():
    for f in FNS:
        if f.result not in ("u8", "u16", "u32", "u64", "usize", "Plan") or (crate(f), f.name) in TRUE_ZERO:
            continue
        # What it answers: `return x;`, arms of a match, the last expression of the body and of its blocks.
        ends = re.findall(r"return ([^;]+);", f.body) + re.findall(r"=> ([^{,]+),", f.body)
        ends += re.findall(r"(?:^|[{};])\s*([^{};]+?)\s*(?=\}|$)", f.body.strip())
        values = {one_space(e) for e in ends}
        literal = {v for v in values if re.match(r"^(0|16|255|8199)$", v)}
        if NO_PLAN in f.body:
            literal = {"Plan of 0"}
        computed = {v for v in values - literal if not re.match(r"^(0x)?[0-9A-Fa-f_]+$", v)}
        if literal and computed and not re.match(r"(number|detail)_of", f.name):
            yield f.file, f.line, f"{f.name}: {' or '.join(sorted(literal))} for nothing"


def point1():
    yield "1a enums of the shape of Option or Result", list(own_enums())
    yield "1b structs and functions with a flag beside a value", list(flags())
    kinds = list(kinds_in_types()) + list(kinds_in_parameters()) + list(kinds_in_constants())
    yield "1c numbers for kinds, forms, marks and refusals", kinds + list(kinds_in_bodies())
    yield "1d numbers answered where there is nothing", list(numbers_for_nothing())


# ---- point 2 ----

KEYWORDS = set(
    "as break const continue else enum fn for if in let loop match mut return self struct while true false "
    "Self pub impl".split()
)
TOKEN = re.compile(
    r'b?"(?:\\.|[^"\\])*"|b?\'(?:\\.|[^\'\\])\'|[A-Za-z_][A-Za-z_0-9]*|\d[\w]*|::|->|=>|[^\s\w]'
)
# Alike in shape, but not the same thing of another type, size or constant: what they call or test differs.
NOT_TWINS = [
    {"is_answer", "is_unknown"},
    {"put", "push_opening"},
    {"crc8_by", "push_bytes", "push_text"},
    {"push_addressed", "push_word"},
    {"number_of_refusal", "detail_of_refusal"},
    {"number_of", "detail_of"},
    {"is_write_read", "needs_more_bytes"},
    {"push_note", "push_written"},
    {"push_shape", "push_open", "push_address"},
    {"stop_polled", "stop_quiet"},
    {"next_read", "next_round"},
    {"poll_of", "write_of"},
    {"of_read", "of_queue"},
    {"of_write", "of_fill"},
]
# Twins that are further apart than the search allows: crate.function, or crate/file.function.
TWINS = [
    # hexadecimal digits of 1, 2 and 4 bytes, computed or from a table
    "text_hex.push2 text_hex.push4 text_hex.push8 answer_text.copy2 answer_text.copy4 answer_text.copy8",
    "explain_beside.letter explain_bus.letter svg_text.letter",  # w or r
    "counts.least transfer.smaller svg_picture.drawn",  # the smaller of two
    "explain.turns_left bus_svg.turns_left",
    # one more, up to the most
    "answer_lines.number_after replay_state.next_line text_stdin.count_on transfer_steps.one_longer",
    # polls that find nothing
    "slave_fast_polls.respond slave_fast_polls.listen transfer_fast_polls/flag.polls"
    " transfer_fast_polls/level.polls transfer_fast_polls.batch transfer_fast_polls.space"
    " transfer_fast_polls.stop",
    # where all is within the buffers
    "transfer_fast_blocking.burst transfer_fast_read_async.burst transfer_fast_write_async.burst",
    "transfer_fast_blocking.run slave_fast_bytes.drain",  # bytes in one loop
    # plain and coded
    "i2c.write_read_by i2c.write_read_coded", "i2c.read_by i2c.read_coded", "i2c.write_by i2c.write_coded",
    # an element, or 0
    "transfer_steps.kind_at transfer_steps.length_at slave_respond.byte_of transfer_access.byte_of",
    # a number, or a bad line
    "replay_frames.listen replay_frames.fill replay_frames.fill_head replay_frames.read"
    " replay_frames.reading",
    "transfer_after_blocking.byte_written transfer_after_blocking.byte_taken",  # the next byte
    # a place in the FIFO, or none
    "transfer_after_blocking.after_room transfer_after_async.after_full transfer_after_async.after_free",
    "explain_bus.bus_line svg_picture.picture",  # a sequence, where the buffers are large enough
    "regs_runs.put_read regs_runs.put_write regs_runs.put_mark",
    # from a point ahead
    "transfer_fast.read_from transfer_fast.write_from transfer_fast.rounds_from transfer_fast.fills_from",
    "i2c_slave.reset i2c_slave.listen i2c_slave.respond_to_read i2c_slave.respond_till_stop"
    " i2c_slave.respond_and_fill",
]
SAME_NAME = collections.Counter((crate(f), f.name) for f in FNS)
# What the programs keep of a run: how the input stands and whether all was written.
STOPPED = {"Stopped", "Read"}


def shape(text):
    """The tokens, with types, numbers and strings as one sign each, names by the order in which they come."""
    names, out = {}, []
    for t in TOKEN.findall(re.sub(r"//[^\n]*", "", text)):
        if re.match(r"(u8|u16|u32|u64|usize)$", t):
            out.append("T")
        elif t in KEYWORDS:
            out.append(t)
        elif t.startswith(("b'", 'b"', '"', "'")):
            out.append("S")
        elif re.match(r"[A-Za-z_]", t):
            out.append("n%d" % names.setdefault(t, len(names)))
        else:
            out.append("N" if re.match(r"\d", t) else t)
    return out


def code_of(f):
    """Parameters, result and body, without clauses."""
    return "(" + ", ".join(f"{n}: {t}" for n, t in f.params) + ") -> " + f.result + " {" + f.body + "}"


def grouped(items, alike):
    groups = []
    for x in items:
        home = [g for g in groups if any(alike(x, y) for y in g)]
        for g in home[1:]:
            home[0].extend(g)
            groups.remove(g)
        if home:
            home[0].append(x)
        else:
            groups.append([x])
    return [g for g in groups if len(g) > 1]


def close(a, b):
    """Whether two bodies of some length share nine tokens in ten, names aside."""
    a, b = (["n" if re.match(r"n\d+$", t) else t for t in x] for x in (a, b))
    if min(len(a), len(b)) < 60 or max(len(a), len(b)) > 1.15 * min(len(a), len(b)):
        return False
    m = difflib.SequenceMatcher(None, a, b, autojunk=False)
    return m.real_quick_ratio() > 0.9 and m.quick_ratio() > 0.9 and m.ratio() > 0.9


def twins_of_functions():
    shapes = {id(f): shape(code_of(f)) for f in FNS}

    def alike(a, b):
        sa, sb = shapes[id(a)], shapes[id(b)]
        return is_c(a) == is_c(b) and (sa == sb or close(sa, sb))

    groups = grouped([f for f in FNS if f.name != "main"], alike)
    groups = [g for g in groups if not any({x.name for x in g} <= names for names in NOT_TWINS)]
    for listed in TWINS:
        wanted = set(listed.split())
        named = [f for f in FNS if {f"{crate(f)}.{f.name}", path_of(f)} & wanted]
        if len(named) > 1:
            home = [g for g in groups if any(x in g for x in named)]
            groups = [g for g in groups if g not in home]
            all_of = {id(x): x for g in home + [named] for x in g}.values()
            groups.append(sorted(all_of, key=lambda x: (x.file, x.line)))
    return sorted(groups, key=lambda g: (g[0].file, g[0].line))


def path_of(f):
    return f.file.replace("/src/", "/").replace(".rt", "") + "." + f.name


def name_of(f):
    """With the file where the crate has several functions of that name."""
    return f"{crate(f)}.{f.name}" if SAME_NAME[crate(f), f.name] == 1 else path_of(f)


def types_alike(a, b):
    if {a.name, b.name} <= STOPPED:
        return True
    if a.kind != b.kind or len(a.parts) != len(b.parts) or len(a.parts) < 2:
        return False
    if a.kind == "enum":
        sa, sb = ([re.sub(r"^\w+", "V", p) for p in y.parts] for y in (a, b))
        return sa == sb and any("(" in p for p in a.parts) and not {a.name, b.name} & NOT_OPTION
    fa, fb = fields(a), fields(b)
    same_types = sorted(t for _, t in fa) == sorted(t for _, t in fb)
    if same_types and len({n for n, _ in fa} ^ {n for n, _ in fb}) <= 2:
        return True
    return len(fa) > 2 and len(set(fa) ^ set(fb)) <= 2


def point2():
    part = []
    for g in twins_of_functions():
        names = ", ".join(f"{name_of(x)}:{x.line}" for x in g)
        part.append((g[0].file, g[0].line, f"{len(g)} fn{mark_c(all(is_c(x) for x in g))}: {names}"))
    yield "2a groups of functions of the same shape", part
    part = []
    for g in grouped(TYPES, types_alike):
        names = ", ".join(f"{crate(x)}.{x.name}:{x.line}" for x in g)
        part.append((g[0].file, g[0].line, f"{len(g)} types: {names}"))
    yield "2b groups of types of the same parts", part
