#!/usr/bin/env python3
"""Respell the repository's own definitions, lemmas and fields in snake case, once, right after the toolchain's port.py.

Run at the top of the repository. In .antt files and in the clauses of .rt files a name in camel case with a small first letter, and a lemma's name with
a dash, get underscores; so do the same names in must-fail edits and in the pages, where port.py's own renamings are brought over too. Functions of src/,
their fields, goals' names (proofs/F/) and names of the library stay. Names that would fall together stop the script, and nothing is written.
"""
import glob
import re
import sys

ANTT = sorted(glob.glob("crates/*/specs/*.antt") + glob.glob("crates/*/proofs/**/*.antt", recursive=True))
RT = sorted(glob.glob("crates/*/src/*.rt"))
EDITS = sorted(glob.glob("crates/*/must-fail/*.edit") + glob.glob("tests/**/*.edit", recursive=True))
PAGES = ["README.md"] + sorted(glob.glob("docs/**/*.md", recursive=True))

# a name as antt reads it; a dot ends it
TOKEN = re.compile(r"[^\s(){}\[\],.;:λ«»\"|=⌜⌝`*]+")
SIGNATURE = re.compile(r"^(?:unfoldable |abbrev |pub |data |record )*([^\s:(){}]+)\s*(?:[({][^)}]*[)}]\s*)*:(?:\s|$)")
CAMEL = re.compile(r"^[a-z]+[0-9]*[A-Z][A-Za-z0-9]*'*$")


# lemmas that would have their function's name, and get the ending that the library gives such a lemma
LEMMAS = {name: name.replace("-", "_") + "_lem" for name in ("left_by", "to_both", "to-pair", "to-register", "well-of", "restart-byte")}


def snake(name):
    name = re.sub(r"(?<=[a-z0-9])([A-Z]+)", lambda m: "_" + m.group(1).lower(), name)
    return name.replace("-", "_")


def text(path):
    with open(path, encoding="utf-8") as f:
        return f.read()


def lemma_file(path):
    """Whether its top-level names are the authors' own: a file right in specs/ or proofs/, and not a function's folder."""
    return path.count("/") == 3


texts = {path: text(path) for path in ANTT + RT}
defined = {}
for path in ANTT:
    for line in texts[path].splitlines():
        m = SIGNATURE.match(line)
        if m:
            defined.setdefault(m.group(1), []).append(path)

tokens = set()
imported = set()
fields = set()
for path, body in texts.items():
    for line in body.splitlines():
        line = line.split("--")[0] if path.endswith(".antt") else line.split("//")[0]
        tokens |= set(TOKEN.findall(line))
        if re.match(r"\s*(ghost )?use (Rattle\.(std|libc|io|os|core)|Prim|mathlib|native|lib|borrow|denote)\b", line):
            imported |= set(TOKEN.findall(line))
        fields |= set(re.findall(r"\.([^\s(){}\[\],.;:λ«»\"|=]+)", line))

names = {}
for token in tokens:
    if token in imported:
        continue
    if CAMEL.match(token):
        names[token] = snake(token)
for token, paths in defined.items():
    if "-" not in token or token in imported:
        continue
    if any(lemma_file(path) for path in paths) or token.endswith("-spec"):
        names[token] = snake(token)
names.update(LEMMAS)

words = set()
for path in RT:
    words |= set(re.findall(r"(?:let|let mut|const|struct|enum|type|static)\s+([A-Za-z_0-9]+)", texts[path]))
    words |= set(re.findall(r"([a-z_0-9]+)\s*:", texts[path]))

stop = False
made = {}
for old, new in sorted(names.items()):
    if new in tokens and new in defined and new not in LEMMAS:
        print(f"falls together: {old} and the definition {new} ({defined[new][0]}; {defined.get(old, ['a field'])[0]})")
        stop = True
    elif new in tokens:
        print(f"look: {old} becomes {new}, which is a word already")
    if new in words:
        print(f"look: {old} becomes {new}, which src/ has as a parameter, a field or a local")
    if new in made:
        print(f"falls together: {old} and {made[new]} as {new}")
        stop = True
    if "-" in old and old in fields:
        print(f"look: {old} is a field somewhere")
    made[new] = old
if "--dry" in sys.argv or (stop and "--anyhow" not in sys.argv):
    print(len(names), "names")
    sys.exit(1 if stop else 0)


def turned(body, known):
    return TOKEN.sub(lambda m: known(m.group(0)), body)


for path in ANTT + RT:
    new = turned(texts[path], lambda t: names.get(t, t))
    if new != texts[path]:
        with open(path, "w", encoding="utf-8") as f:
            f.write(new)

after = {names.get(name, name) for name in defined}


def late(token):
    """A name of the older spelling, in an edit or a page."""
    if token in names:
        return names[token]
    if token not in after and (CAMEL.match(token) or "-" in token) and snake(token) in after:
        return snake(token)
    return token


for path in EDITS:
    body = text(path)
    new = turned(body, late)
    if new != body:
        with open(path, "w", encoding="utf-8") as f:
            f.write(new)
for path in PAGES:
    body = text(path)
    new = re.sub(r"`[^`\n]+`", lambda m: turned(m.group(0), late), body)
    if new != body:
        with open(path, "w", encoding="utf-8") as f:
            f.write(new)
