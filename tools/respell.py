#!/usr/bin/env python3
"""Brings this repository's own definitions and lemmas to the kit's spelling: words in snake case, types in camel case.

usage: tools/respell.py            at the top of the repository, once, after the kit's port.py; rewrites files in place
       tools/respell.py --list     prints old and new names, and changes nothing

port.py respells what comes from the kit and a few names that look like the kit's. This script does the rest:
- definitions, fields and imported names in camel case (pageBytes) go to snake case (page_bytes);
- a dash in the name of a lemma, a field or a constructor becomes `_` (plus-below, plus_below);
- a lemma that would then have a definition's name gets `_lem` behind it.
Names of Rattle functions, exported C names, texts, inputs and outputs are left alone, and so are the names that the kit
gives to goals and steps. Must-fail edits are respelled too, since each has to fit the text that it edits, and so are the
names that README and docs/ cite between backquotes (docs/landings aside, which tell what was).
"""

import os
import re
import sys

WORD = r"[A-Za-z_][A-Za-z0-9_'₀-₉-]*"
TOKEN = re.compile(r"(?<![A-Za-z0-9_'₀-₉-])" + WORD)
CAMEL = re.compile(r"^[a-z][a-z0-9]*(?:[A-Z][A-Za-z0-9]*)+[₀-₉']*$")
DECLARED = re.compile(r"^( *)((?:abbrev |unfoldable |pub |ruleset )*)(%s(?: %s)*) :(?!:)" % (WORD, WORD), re.M)
USED = re.compile(r"^\s*(?:pub |ghost )*use ([\w.'₀-₉-]+)\.\{([^}]*)\}", re.M)


def files(root, *ends):
    for folder, dirs, names in os.walk(os.path.join(root, "crates")):
        dirs[:] = sorted(d for d in dirs if d != "out")
        for n in sorted(names):
            if n.endswith(ends):
                yield os.path.join(folder, n)


def read(path):
    with open(path, encoding="utf-8") as f:
        return f.read()


def write(path, text):
    with open(path, "w", encoding="utf-8") as f:
        f.write(text)


def snake(name):
    """pageBytes -> page_bytes; inMode1 -> in_mode1; plus-below -> plus_below"""
    return re.sub(r"([a-z0-9])([A-Z])", r"\1_\2", name).lower().replace("-", "_")


def code(text):
    """Without comments."""
    return re.sub(r"(?m)(?:^|(?<= ))--(?: .*)?$", "", text)


def renames(root):
    """The table for every file, and the part of it that goes by name alone, never behind a dot."""
    crates = set(os.listdir(os.path.join(root, "crates")))
    definitions, lemmas, fields, camel, foreign, beside = set(), set(), set(), set(), set(), set()
    for p in files(root, ".antt"):
        text = code(read(p))
        for m in USED.finditer(text):
            parts = m.group(1).split(".")
            if parts[0] != "Rattle" or parts[1] not in crates:
                foreign |= {w.split(" as ")[0].strip() for w in m.group(2).split(",")}
        for m in DECLARED.finditer(text):
            inside, marks, names = m.groups()
            after = text[m.end():m.end() + 60].lstrip()
            for n in names.split():
                if after.startswith("tie.") or after.startswith("{M : Type 1}") or n.endswith("-spec"):
                    continue
                if inside:
                    fields.add(n)
                elif "/specs/" in p or "abbrev" in marks or "unfoldable" in marks:
                    definitions.add(n)
                else:
                    lemmas.add(n)
        here = {m.group() for m in TOKEN.finditer(text) if CAMEL.match(m.group())}
        beside |= {m.group(3) for m in DECLARED.finditer(text) if m.group(1)} & {snake(n) for n in here}
        camel |= here
    for p in files(root, ".rt"):
        text = re.sub(r'"[^"\n]*"', '""', read(p))
        camel |= {m.group() for m in TOKEN.finditer(text) if CAMEL.match(m.group())}
    types = {n for n in definitions | lemmas | fields if n[0].isupper()}
    definitions, lemmas, fields = definitions - types, lemmas - types - definitions, fields - types
    taken = {snake(n) for n in definitions | camel}
    table, bare = {n: snake(n) for n in camel}, set()
    for n in definitions | fields | lemmas:
        new = snake(n)
        if new in taken and n not in definitions and (n in lemmas or n in beside or "-" in n):
            new += "_lem"
        if new != n and n not in table and n not in foreign:
            table[n] = new
            if n not in fields:
                bare.add(n)
    return table, bare


def respelled(text, table, bare):
    def one(m):
        name = m.group()
        if name not in table or (name in bare and m.start() and text[m.start() - 1] == "."):
            return name
        return table[name]

    return TOKEN.sub(one, text)


def listed(root, table):
    """Prints the table, with the files in which a new name stood already, and names that fall together."""
    stood = {}
    for p in files(root, ".antt", ".rt"):
        for m in TOKEN.finditer(code(read(p))):
            stood.setdefault(m.group(), set()).add(os.path.relpath(p, root))
    for old in sorted(table):
        both = stood.get(old, set()) & stood.get(table[old], set())
        print(old, table[old], "BOTH IN " + " ".join(sorted(both)) if both else "")
    for new in sorted(set(table.values())):
        olds = [o for o in table if table[o] == new]
        if len(olds) > 1:
            print("FALL TOGETHER", new, olds)


def main(argv):
    root = os.getcwd()
    table, bare = renames(root)
    if argv == ["--list"]:
        listed(root, table)
        return 0
    # a name that is a lemma's and a Rattle function's at once stays in sources
    sources = {o: n for o, n in table.items() if CAMEL.match(o)}
    for p in files(root, ".antt", ".rt", ".edit"):
        text = read(p)
        new = respelled(text, table if p.endswith(".antt") else sources, bare)
        if new != text:
            write(p, new)
    declared = {n for p in files(root, ".antt") for m in DECLARED.finditer(read(p)) for n in m.group(3).split()}
    docs = [os.path.join(root, "docs", n) for n in os.listdir(os.path.join(root, "docs")) if n.endswith(".md")]
    for p in [os.path.join(root, "README.md"), *docs]:
        text = read(p)
        # what port.py has respelled already is cited in camel case still
        cited = {n: snake(n) for n in TOKEN.findall(text) if CAMEL.match(n) and snake(n) in declared}
        new = re.sub(r"`[^`\n]+`", lambda m: respelled(m.group(), cited | table, bare), text)
        if new != text:
            write(p, new)
    print(f"respell: {len(table)} names")
    return 0


if __name__ == "__main__":
    raise SystemExit(main(sys.argv[1:]))
