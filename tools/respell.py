#!/usr/bin/env python3
"""Brings the repository's own definitions and lemmas to the spelling of today's Rattle.

usage: respell.py [--dry] [FOLDER]      once, behind the kit's port.py, at the top of the repository or in FOLDER

A definition, lemma, field or constructor in camel case is written in snake case. A dash in such a name stays where it joins two names, as in
`run-bind`, and is an underscore where it leads to a plain word, as in `g_any`. The choice if .. then .. else, which is the library's own with another
precedence, is when .. then .. else. A file of specs/ that has the name of a module that Rattle makes (contracts) is renamed, structs and enums that the
older language copied derive Clone and Copy, and each root file asks for the tactics. Names of functions, files and strings stay. A new name that is already
a name of the same file is printed. README and docs/ get the new names, too.
"""
import os
import re
import sys

args = [a for a in sys.argv[1:] if a != "--dry"]
dry = "--dry" in sys.argv
top = args[0] if args else "."
W = re.compile(r"--[^\n]*|\"(?:[^\"\\]|\\.)*\"|«[^»\n]*»|[^\s(){}.;,@\"«»\[\]\\|]+")
DECLARED = re.compile(r"^ *(?:abbrev |unfoldable |pub |infixr? \S+ |infixl \S+ )*([a-z][^\s:(){}.]*)(?=[ \n][^\n=]*:| :)", re.M)
# words of the library that lemmas are named after
WORDS = set("length append take drop set sum map reverse get_or replicate put_mid mid_of min max mul add sub div mod pow cond nat_abs pos bind".split())


def read(path):
    with open(path, encoding="utf-8") as f:
        return f.read()


def write(path, text):
    if not dry:
        with open(path, "w", encoding="utf-8") as f:
            f.write(text)


def files(*ends):
    for folder, dirs, names in os.walk(os.path.join(top, "crates")):
        dirs[:] = sorted(d for d in dirs if d != "out")
        for n in sorted(names):
            if n.endswith(ends):
                yield os.path.join(folder, n)


def snake(word):
    if not re.match(r"[a-z]", word) or not re.search("[A-Z]", word):
        return word
    return re.sub(r"(?<=[a-z0-9])([A-Z])", r"_\1", re.sub(r"TypeB(?=[A-Z])", "TypeB_", word)).lower()


antt = {p: read(p) for p in files(".antt")}
rt = {p: read(p) for p in files(".rt")}
declared = set()
for p, t in antt.items():
    code = re.sub(r"--[^\n]*", "", t)
    declared |= {m for m in re.findall(r"(?m)^ *(?:abbrev |unfoldable |pub )*([a-z][^\s:(){}.]*) :", code)}
parts = {snake(d) for d in declared if "-" not in d} | WORDS


def new(word):
    if "-" not in word:
        return snake(word)
    bits = [snake(b) for b in word.split("-")]
    out = bits[0]
    for b in bits[1:]:
        out += ("-" if b in parts or not re.match(r"[a-z]", b) else "_") + b
    return out


# a name that a Proof.antt gives an answer goes with the answer's form, and stays here
goals = set()
for p, t in antt.items():
    if p.endswith("Proof.antt"):
        goals |= set(re.findall(r"(?m)^(?:abbrev |pub )*(\S+) : tie\.", t)) | set(re.findall(r"(?m)^pub (\S+-spec|\S+_spec) :", t))
renamed = {}
for d in declared:
    if new(d) != d and (d not in goals or "-" not in d):
        renamed[d] = new(d)
tokens = {}
for p, t in antt.items():
    for m in W.finditer(t):
        if m[0][:2] != "--" and m[0][0] not in '"«':
            tokens.setdefault(m[0], set()).add(p)
for p, t in rt.items():
    for m in re.finditer(r"(?<!\w)[A-Za-z][\w'-]*[\w']", re.sub(r"//[^\n]*|\"[^\"\n]*\"", "", t)):
        tokens.setdefault(m[0], set()).add(p)
for w in tokens:
    if "-" not in w and snake(w) != w:
        renamed[w] = snake(w)
# a dash stays where the name without it is another name
plain = {b for a, b in renamed.items() if "-" not in a}
renamed = {a: b for a, b in renamed.items() if "-" not in a or not (b in tokens or b in plain)}
taken = {}
for a, b in renamed.items():
    taken.setdefault(b, []).append(a)
for b, olds in taken.items():
    if len(olds) > 1:
        print("fall together:", b, olds)
for a, b in sorted(renamed.items()):
    for p in sorted(tokens.get(a, set()) & tokens.get(b, set())):
        t = antt.get(p) or rt.get(p)
        bare = [m for m in re.finditer(r"(?<![\w.'’-])" + re.escape(b) + r"(?![\w'’-])", re.sub(r"--[^\n]*|//[^\n]*", "", t))]
        bare = [m for m in bare if not re.search(r"use \S*$", re.sub(r"--[^\n]*|//[^\n]*", "", t)[: m.start()].split("\n")[-1])]
        if bare:
            print(f"look: {p}: {a} -> {b}, which is there already")
if dry:
    print(len(renamed), "names")
    open("/tmp/renamed.txt", "w").write("\n".join(f"{a} {b}" for a, b in sorted(renamed.items())))


def in_words(found):
    """The new name of a word of a comment, where a dash may be a plain one."""
    return renamed.get(found[0], found[0]) if "-" not in found[0] else found[0]


def turn(text):
    def one(m):
        w = m[0]
        if w.startswith("--"):
            return "--" + re.sub(r"[A-Za-z][\w'-]*", in_words, w[2:])
        if w[0] == "«":
            return "«" + renamed.get(w[1:-1], w[1:-1]) + "»"
        if w[0] == '"':
            return w
        if w in renamed:
            return renamed[w]
        # operators with a name, as a∙name◌
        return "◌".join(renamed.get(x, x) for x in w.split("◌")) if "◌" in w else w

    return W.sub(one, text)


for p, t in antt.items():
    write(p, turn(t))
for p, t in rt.items():
    u = re.sub(r"//[^\n]*|(?<!\w)[A-Za-z][\w'-]*[\w']", lambda k: re.sub(r"[A-Za-z][\w'-]*", in_words, k[0]) if k[0][0] == "/" else renamed.get(k[0], k[0]), t)
    u = u.replace("#[derive(Drop)]", "#[derive(Clone, Copy)]")
    if os.path.basename(p) in ("lib.rt", "main.rt") and "#![tactic(auto)]" not in u:
        head = re.match(r"(?:[ \t]*//[^\n]*\n)*", u)[0]
        u = head + "#![tactic(auto)]\n" + u[len(head):]
    write(p, u)
for p in files(".antt"):
    if p.endswith("/specs/Contracts.antt") and not dry:
        os.rename(p, p.replace("Contracts.antt", "Promises.antt"))
for p in files(".rt", ".antt"):
    t = read(p)
    u = re.sub(r"(Rattle\.\w+\.specs\.)Contracts\b", r"\1Promises", t)
    if p.endswith("/specs/Lib.antt"):
        u = re.sub(r"(?m)^pub mod Contracts$", "pub mod Promises", u)
    if u != t:
        write(p, u)
for p in files(".rt", ".antt"):
    t = read(p)
    u = t.replace("if◌then◌else◌", "when◌then◌else◌")
    if p.endswith(".antt"):
        u = re.sub(r"--[^\n]*|(?<![\w.'-])if(?![\w'-])", lambda m: m[0] if m[0].startswith("--") else "when", u)
    elif u != t:
        u = re.sub(r"\bif\b([^{}\n]*)\bthen\b", r"when\1then", u)
    if u != t:
        write(p, u)
pages = [os.path.join(top, "README.md")] + [os.path.join(top, "docs", n) for n in sorted(os.listdir(os.path.join(top, "docs"))) if n.endswith(".md")]
pages += [os.path.join(top, "docs/changes", n) for n in sorted(os.listdir(os.path.join(top, "docs/changes")))]
for p in pages:
    t = read(p)
    u = re.sub(r"`[^`\n]*`", lambda q: re.sub(r"[A-Za-z][\w'-]*[\w']", lambda k: renamed.get(k[0], k[0]), q[0]), t)
    u = re.sub(r"specs/Contracts\.antt", "specs/Promises.antt", u)
    write(p, u)
