#!/usr/bin/env python3
"""Respell the lemmas with a dash that stand inside a module with parameters, which tools/port_names.py did not see, once.

Run at the top of the repository. A name with a dash that a file of specs/ or proofs/ defines, and that is no goal, gets underscores, and the ending `_lem` where a definition
has that name already; in .antt files, and in the must-fail edits and the pages that name it. Names of the library, of goals and of steps stay.
"""
import glob
import re
import sys

FILES = sorted(glob.glob("crates/*/specs/*.antt") + glob.glob("crates/*/proofs/**/*.antt", recursive=True))
EDITS = sorted(glob.glob("crates/*/must-fail/*.edit"))
PAGES = ["README.md", "tests/README.md", "rust/README.md"] + sorted(glob.glob("docs/*.md"))

TOKEN = re.compile(r"[^\s(){}\[\],.;:λ«»\"|=⌜⌝`*]+")
SIGNATURE = re.compile(r"^\s*(?:unfoldable |abbrev |pub |data |record )*([^\s:(){}]+)\s*(?:[({][^)}]*[)}]\s*)*:(?:\s|$)")


def text(path):
    with open(path, encoding="utf-8") as f:
        return f.read()


texts = {path: text(path) for path in FILES}
defined, imported, goals, tokens, members = {}, set(), set(), set(), set()
for path, body in texts.items():
    for line in body.splitlines():
        line = line.split("--")[0]
        if re.match(r"\s*use (Rattle\.(std|libc|io|os|core)|Prim|mathlib|native|lib|borrow|denote)\b", line):
            imported |= set(TOKEN.findall(line))
            continue
        tokens |= set(TOKEN.findall(line))
        members |= set(re.findall(r"\.([^\s(){}\[\],.;:λ«»\"|=]+)", line))
        m = SIGNATURE.match(line)
        if m and re.search(r":\s*(goal|tie)\.", line):
            goals.add(m[1])
        elif m:
            defined.setdefault(m[1], []).append(path)

# fields of the authors' own records, which stand behind a dot too
FIELDS = ("all-waits", "all-holds")

names = {}
for name in defined:
    if "-" in name and name not in imported and name not in goals and re.match(r"^[A-Za-z][\w'-]*$", name):
        new = name.replace("-", "_")
        if new in tokens or new in names.values() or new in imported:
            new += "_lem"
        names[name] = new

if "--dry" in sys.argv:
    for name, new in sorted(names.items()):
        notes = [w for w, held in (("a goal too", name in goals), ("a member too", name in members), ("ends in _lem", new.endswith("_lem")), ("TAKEN", new in tokens)) if held]
        print(name, new, *notes, sep="  ")
    print(len(names))
    sys.exit()


def turned(body):
    def one(m):
        behind_a_dot = m.start() and body[m.start() - 1] == "."
        return m[0] if behind_a_dot and m[0] not in FIELDS else names.get(m[0], m[0])

    return TOKEN.sub(one, body)


for path in FILES:
    new = turned(texts[path])
    if new != texts[path]:
        with open(path, "w", encoding="utf-8") as f:
            f.write(new)
for path in EDITS + PAGES:
    body = text(path)
    if path.endswith(".edit"):
        new = re.sub(r"(?m)^refused: (\S+)$", lambda m: "refused: " + names.get(m[1], m[1]), body)
    else:
        new = re.sub(r"`[^`\n]+`", lambda m: turned(m[0]), body)
    if new != body:
        with open(path, "w", encoding="utf-8") as f:
            f.write(new)
