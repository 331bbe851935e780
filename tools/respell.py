#!/usr/bin/env python3
"""Spells the repository's own definitions and lemmas as today's Rattle does: words in snake case, a dash only between two names.

usage: python3 tools/respell.py [--list]     at the top of the repository, once, after the toolchain's own script

It turns the names that specs/*.antt and proofs/*.antt declare, wherever they stand in crates/*/{src,specs,proofs}, and in the code
spans of the pages. A function of src/ keeps its name, and so does what Rattle makes of it: in proofs/FUNCTION/ the answers, and a name
behind a dot. --list prints the table and writes nothing.
"""

import glob
import os
import re
import sys

WORD = re.compile(r'[^\s(){}.;,@"«»`\[\]]+')
DECLARED = re.compile(r"(?m)^ *(?:(?:unfoldable|abbrev|pub) )*(?:(data|record|module) )?([^\s:(){}.,;]+)(?: (?:\([^)]*\)|\{[^}]*\}))* :(?= |$)")
# A module under a short name: behind it and a dot stands a name of ours, and elsewhere in proofs/FUNCTION/ what Rattle makes.
ALIAS = re.compile(r"(?m)^ *(?:pub )?use (\S+) as (\S+)$")
CHAIN = re.compile(r"([^\s(){};,@\"«»`\[\].]+)\.$")
# Names of the library that a dash may join to another name.
LIBRARY = set("length append take drop map xor get_or zeros replicate slot and or not bit_xor bit_and".split())
# A name of the library stays. Lemmas that would have their function's name get _lem, as where two names fall together.
OWN = {"add-zero": "add-zero", "isOpen": "session_is_open", "row-set": "row_set_lem", "row_count": "row_count_lem", "steps_back": "steps_back_lem"}


def crates(root):
    for folder in ("src", "specs", "proofs"):
        for ending in ("rt", "antt"):
            yield from sorted(glob.glob(os.path.join(root, "crates", "*", folder, "**", "*." + ending), recursive=True))


def declared(root):
    """The names that specs/ and the lemma files of proofs/ declare; the first set has those that a dash may join."""
    terms, lemmas = set(), set()
    for kind in ("specs", "proofs"):
        for path in sorted(glob.glob(os.path.join(root, "crates", "*", kind, "*.antt"))):
            with open(path, encoding="utf-8") as f:
                for sort, name in DECLARED.findall(f.read()):
                    if sort != "module" and name != "_":
                        (terms if kind == "specs" or sort else lemmas).add(name)
    return terms, lemmas


def snake(name):
    return re.sub(r"(?<=[a-z0-9])[A-Z]", lambda m: "_" + m[0].lower(), name)


def spelled(name, terms):
    if name in OWN:
        return OWN[name]
    if "◌" in name or not re.search(r"[A-Za-z]", name):
        return name
    parts = name.split("-")
    fact = lambda p: p[:1].isupper()
    joined = lambda p: p in terms or snake(p) in terms or p in LIBRARY or fact(p) or not re.match(r"[a-z]", p)
    between = "-" if all(map(joined, parts)) else "_"
    return between.join(p if fact(p) else snake(p) for p in parts)


def table(root):
    terms, lemmas = declared(root)
    rows = {n: spelled(n, terms) for n in sorted(terms | lemmas)}
    taken = {rows[n] for n in terms}
    for n in sorted(lemmas - terms):
        if n != rows[n] and rows[n] in taken:
            rows[n] += "_lem"
        if rows[n] in taken:
            print(f"respell: {n} falls together with another name", file=sys.stderr)
        taken.add(rows[n])
    return {a: b for a, b in rows.items() if a != b}


def turned(text, rows, made, inner=False):
    """The text with each word of the table turned, but for the words in 'made' and, where 'inner', what Rattle makes."""
    modules = {a for m, a in ALIAS.findall(text) if not re.search(r"\.(Tie|Goals|Given|Lts)$", m)}

    def one(m):
        word = m[0]
        bare = word.rstrip("'")
        new = rows.get(word) or (rows.get(bare) and rows[bare] + word[len(bare):])
        if not new or word in made:
            return word
        if inner and "-" in word and text[m.start() - 1 : m.start()] == ".":
            head = CHAIN.search(text, max(0, m.start() - 80), m.start())
            if not head or head[1] not in modules:
                return word
        return new

    return WORD.sub(one, text)


def quoted(text, rows, made):
    """As turned, but what is quoted in the code of src/ stays."""
    parts = re.split(r'("(?:\\.|[^"\\])*")', text, flags=re.S)
    return "".join(p if k % 2 else turned(p, rows, made) for k, p in enumerate(parts))


def main(argv):
    rows = table(".")
    if "--list" in argv:
        for a, b in sorted(rows.items()):
            print(f"{a}\t{b}")
        return
    for path in crates("."):
        with open(path, encoding="utf-8") as f:
            old = f.read()
        made = set()
        if re.search(r"/proofs/.+/", path):
            made = {n for _, n in DECLARED.findall(old) if "-" in n}
            new = turned(old, rows, made, True)
        elif path.endswith(".rt"):
            new = quoted(old, rows, made)
        else:
            new = turned(old, rows, made)
        if new != old:
            with open(path, "w", encoding="utf-8") as f:
                f.write(new)
    now = set().union(*declared("."))
    for path in ["README.md", *glob.glob("docs/**/*.md", recursive=True)]:
        with open(path, encoding="utf-8") as f:
            old = f.read()
        pages = {**rows, **{w: snake(w) for w in WORD.findall(old) if snake(w) != w and snake(w) in now}}
        new = re.sub(r"`[^`\n]+`", lambda m: turned(m[0], pages, set()), old)
        new = turned(new, {a: b for a, b in pages.items() if re.search(r"[a-z][A-Z]", a)}, set())
        if new != old:
            with open(path, "w", encoding="utf-8") as f:
                f.write(new)


if __name__ == "__main__":
    main(sys.argv[1:])
