#!/usr/bin/env python3
"""Brings this repository's own names to the spelling of the Rattle it is ported to: words in snake case. Run once, after the port's own script.

A name counts as the repository's own where a file of specs/, or a lemma file that stands right in proofs/, declares it. Types, modules and
constructors keep their capitals. The names of a function's goals, which the checker makes, are left alone, and so is all that src/ declares.
"""
import glob
import os
import re
import sys

os.chdir(os.path.dirname(os.path.dirname(os.path.abspath(__file__))))

DECLARES = re.compile(r'^\s*(?:(?:abbrev|unfoldable|pub|data|record) )*([^\s(){}:;,"]+)\s*(?:\([^)]*\)\s*|\{[^}]*\}\s*)*:(?:\s|$)')
TOKEN = re.compile(r"[^\s(){}\[\].:;,@\"`«»⌜⌝|]+")


def read(path):
    with open(path, encoding="utf-8") as f:
        return f.read()


def snake(name):
    if name[0].isupper() and "-" not in name:
        return name
    parts = [re.sub(r"(?<=[a-z0-9])([A-Z])", lambda m: "_" + m.group(1).lower(), p) for p in name.split("-")]
    return "_".join(parts)


lemma_files = glob.glob("crates/*/specs/*.antt") + glob.glob("crates/*/proofs/*.antt")
own = set()
for path in lemma_files:
    for line in read(path).splitlines():
        m = DECLARES.match(line)
        if m and not m.group(1).startswith("--"):
            own.add(m.group(1))
turned = {n: snake(n) for n in own if "◌" not in n and snake(n) != n}
# A lemma that would have its definition's name says that it is one.
definitions = {snake(n) for n in own if "-" not in n}
turned = {n: new + "_lem" if "-" in n and new in definitions else new for n, new in turned.items()}
turned["andThen"] = "and_then"

code = glob.glob("crates/*/src/*.rt") + lemma_files + [p for p in glob.glob("crates/*/proofs/**/*.antt", recursive=True) if p not in lemma_files]
tokens = {}
for path in code:
    for t in TOKEN.findall(read(path)):
        tokens.setdefault(t, set()).add(path)

if "--together" in sys.argv:
    back = {}
    for old, new in turned.items():
        back.setdefault(new, []).append(old)
    for new, olds in sorted(back.items()):
        if len(olds) > 1:
            print("fall together:", *olds, "as", new)
        if new in tokens:
            print("stands already:", new, "from", *olds, "in", *sorted(tokens[new])[:6])
    sys.exit()


def turn(text):
    text = text.replace("◌andThen◌", "◌and_then◌")
    return TOKEN.sub(lambda m: turned.get(m.group(0), m.group(0)), text)


def rewrite(path, f):
    old = read(path)
    new = f(old)
    if new != old:
        with open(path, "w", encoding="utf-8") as out:
            out.write(new)


for path in code + glob.glob("crates/*/must-fail/*.edit"):
    rewrite(path, turn)

# Pages name definitions and lemmas between backticks; a path there, as of an edit, stays.
known = set()
for path in code:
    known.update(TOKEN.findall(read(path)))


def turn_page(text):
    def one(m):
        name = m.group(1)
        new = turned.get(name, name if name in known else snake(name))
        return "`" + (new if new in known else name) + "`"

    return re.sub(r"`([A-Za-z][\w'-]*)`", one, text)


for path in ["README.md", "ARCHITECTURE.md"] + glob.glob("docs/*.md"):
    rewrite(path, turn_page)
