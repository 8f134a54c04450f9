#!/usr/bin/env python3
"""The places in crates/*/src that the points of docs/DESIGN-PASS.md count. usage: tools/places.py [POINT] [ROOT]"""
import collections, glob, re, sys

point = sys.argv[1] if len(sys.argv) > 1 else "all"
root = sys.argv[2] if len(sys.argv) > 2 else "."
files = sorted(glob.glob(f"{root}/crates/*/src/*.rt"))
text = {it: open(it, encoding="utf-8").read() for it in files}
short = lambda it: it[len(root) + 1:].replace("crates/", "", 1).replace("src/", "", 1)


def lines(pattern):
    for it in files:
        for number, line in enumerate(text[it].split("\n"), 1):
            if re.search(pattern, line) and not line.lstrip().startswith(("//", "ghost use")):
                yield f"{short(it)}:{number}: {line.strip()}"


def functions():
    """Each function: file, name, parameters, requires, body."""
    for it in files:
        for found in re.finditer(r"(?m)^( *)(?:pub )?(?:extern \"C\" )?fn (\w+)(?:<[^(]*>)?\(", text[it]):
            at, depth = found.end(), 1
            while depth:
                depth += {"(": 1, ")": -1}.get(text[it][at], 0)
                at += 1
            parameters = text[it][found.end():at - 1]
            indent = found[1]
            begin = re.compile(rf"(?m)^{indent}{{(.*)$|(?:->[^\n]*) {{$|\) {{$").search(text[it], at - 1)
            if not begin:
                continue
            head = text[it][at:begin.start()]
            end = text[it].find(f"\n{indent}}}", begin.start())
            body = "" if begin[1] == "}" else text[it][begin.end():end]
            yield it, found[2], re.sub(r"\s+", " ", parameters).strip(" ,"), head, body


def show(title, found):
    found = list(found)
    print(f"== {title}: {len(found)}")
    for it in found:
        print(f"   {it}")


def twins():
    """Functions whose text is the same once types, numbers, constants and names are taken out, by the shape of at least 40 characters of body."""
    shapes = collections.defaultdict(list)
    for it, name, parameters, _, body in functions():
        shape = re.sub(r"\b(u8|u16|u32|u64|usize|i32|f64|bool)\b", "T", re.sub(r"//[^\n]*", "", body))
        shape = re.sub(r"\b[A-Z][A-Z0-9_]+\b|\b\d\w*\b", "K", shape)
        shape = re.sub(r"\b[a-z_]\w*\b", "x", shape)
        shape = re.sub(r"\s+", "", shape)
        if len(shape) >= 20:
            shapes[shape].append(f"{short(it)}:{name}")
    for group in shapes.values():
        if len(group) > 1:
            yield ", ".join(group)


def facts():
    """Facts that three or more functions ask for, by their first word."""
    found = collections.defaultdict(list)
    for it, name, _, head, _ in functions():
        for fact in set(re.findall(r"\b([A-Z]\w+|in_range|possible_display) [a-z(]", " ".join(re.findall(r"requires[^{]*{([^}]*)}", head)))):
            found[fact].append(name)
    for fact, names in sorted(found.items()):
        if len(names) > 2:
            yield f"{fact}: {len(names)} functions"


def together():
    """Pairs of parameters, name and type, that stand together in three or more functions."""
    found = collections.Counter()
    for _, _, parameters, _, _ in functions():
        names = sorted({it.strip() for it in re.split(r",(?![^<\[]*[>\]])", parameters) if ":" in it})
        for i, a in enumerate(names):
            for b in names[i + 1:]:
                found[f"{a}; {b}"] += 1
    for pair, n in found.most_common():
        if n > 2:
            yield f"{n} x {pair}"


POINTS = {
    "1": [
        ("enums", lambda: lines(r"^(pub )?enum ")),
        ("fields that are a flag or a number for a kind", lambda: lines(r"^    (pub )?(stop|answer|continues|begun|known|present|agrees|code|first|start_code|picture_type|intra): ")),
        ("parameters that are a number for a kind", lambda: lines(r"\b(picture_type|t|number|code|plane|kind|table|mark|stop): (u8|u32|i32|usize)\b")),
        ("returned numbers of refusals", lambda: lines(r"return [0-9]+;|Refused\([0-9a-z]+\)|answer: [0-9]|stop: [0-9]|refused\(")),
    ],
    "2": [("groups of twins", twins)],
    "3": [("loops that are no for", lambda: lines(r"^ *(while |loop {)")), ("counted by hand", lambda: lines(r"^ *\w+ [-+]= 1;"))],
    "4": [("by hand", lambda: lines(r"\bfn (same\w*|abs|more|flag|signed|twos_complement|number_at|operation_of|plane_number|plane_of|copy_\w+|print_\w+|show_\w+|fresh\w*|\w+_error_code|zeroed|blank|is_set_as|has_reference_frame_as)\b"))],
    "5": [("facts asked for by three or more", facts), ("parameters together", together)],
    "6": [("arrays and lengths", lambda: lines(r"\[\w+; ?\w+\]|_INDEX: |_VALUE: |&\w+\[\.\.\w+\]"))],
    "7": [("switches on a step", lambda: lines(r"^ *match "))],
}
for it, parts in POINTS.items():
    if point in (it, "all"):
        for title, found in parts:
            show(f"point {it}, {title}", found())
