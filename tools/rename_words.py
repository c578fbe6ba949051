#!/usr/bin/env python3
"""Brings the repository's own words of specs/ and proofs/ to today's spelling: definitions, lemmas and fields in snake case.

usage: python3 tools/rename_words.py KIT/rattle      at the top of the repository, once, right after port.py

Types and modules keep their spelling, and so do functions of src/, names of the kit's libraries and names that Rattle
makes. Two words that would fall together are kept apart: the one that had a dash, a lemma, ends in `_lem`. In comments and
pages a name is turned only between backticks. Prints each word that was turned to docs/PORT-NAMES.txt.
"""

import glob
import os
import re
import sys

TOKEN = re.compile(r"[^\s(){}\[\].,;:\"`|@\\=]+")
DECL = re.compile(r"^(\s*)((?:(?:abbrev|unfoldable|pub|record|data|ruleset|instance)\s+)*)([^\s:(){}.;,=]+)\s*(:(?!=)|\(|\{|=|where)")
MADE = re.compile(r"(?:^|\s)(?:tie|goal)\.")


def snake(name):
    s = re.sub(r"(?<=[a-z0-9])([A-Z])", lambda m: "_" + m.group(1).lower(), name)
    return s.replace("-", "_")


def turns(name):
    return re.match(r"^[a-z]", name) and (re.search(r"[a-z0-9][A-Z]", name) or "-" in name) and not re.search(r"[^\w'₀-₉-]", name)


def own_files():
    found = []
    for pattern in ("crates/*/specs/**/*.antt", "crates/*/proofs/**/*.antt"):
        found += glob.glob(pattern, recursive=True)
    return sorted(f for f in found if "/out/" not in f)


def declared(path):
    """The names that a file declares, without answers to goals, which Rattle names."""
    for line in open(path, encoding="utf-8"):
        if line.startswith("--") or line.startswith("use "):
            continue
        m = DECL.match(line)
        if m and not MADE.search(line):
            yield m.group(3)


def tokens(text):
    return set(TOKEN.findall(text))


def main(argv):
    kit = argv[0]
    library = set()
    for top in ("logic", "std", "core", "antt", "std_alloc", "std_collections", "std_heap", "std_io"):
        for f in glob.glob(os.path.join(kit, top, "**", "*.antt"), recursive=True):
            library |= tokens(open(f, encoding="utf-8", errors="replace").read())
    files = own_files()
    words, plain = set(), set()
    for f in files:
        spec = re.sub(r"^.*/", "", f) == "Proof.antt"
        for n in declared(f):
            if spec and (n.endswith("-spec") or n.startswith("invariant-") or n.startswith("decreases-")):
                continue
            (words if turns(n) else plain).add(n)
    both = sorted(w for w in words if w in library)
    table, taken = {}, set()
    # A definition takes the plain word, and a lemma of that name gets the ending.
    for w in sorted(w for w in words if "-" not in w and w not in both):
        table[w] = snake(w)
        taken.add(snake(w))
    lemmas = {}
    for w in sorted(w for w in plain if w in taken):
        lemmas[w] = w + "_lem"
    taken |= (plain - set(lemmas)) | set(lemmas.values())
    for w in sorted(w for w in words if "-" in w and w not in both):
        new = snake(w)
        if new in taken:
            new += "_lem"
        while new in taken:
            new += "_too"
        taken.add(new)
        table[w] = new
    met = set()
    for f in files:
        there = tokens(open(f, encoding="utf-8").read())
        met |= {w for w in there if w in table and table[w] in there and table[w] not in lemmas}
    print("stands in a file that has the new word already:", sorted((w, table[w]) for w in met))
    print("left, since a library has the name too:", both)
    print("kept apart:", sorted((w, n) for w, n in (table | lemmas).items() if n != snake(w)))

    def turn(text):
        return TOKEN.sub(lambda m: table.get(m.group(0), m.group(0)), text)

    def turn_lemmas(text):
        return TOKEN.sub(lambda m: lemmas.get(m.group(0), m.group(0)), text)

    def ticked(text):
        return re.sub(r"`[^`\n]*`", lambda m: turn(m.group(0)), text)

    def code(line, mark):
        """A line of code: what stands before its comment is turned, and in the comment what stands in backticks."""
        cut = line.find(mark)
        if cut < 0:
            return turn(line)
        return turn(line[:cut]) + ticked(line[cut:])

    def write(path, text, old):
        if text != old:
            with open(path, "w", encoding="utf-8") as f:
                f.write(text)

    for f in files:
        old = open(f, encoding="utf-8").read()
        out = []
        for line in old.splitlines(keepends=True):
            if line.lstrip().startswith("--"):
                out.append(ticked(line))
            else:
                out.append(code(turn_lemmas(line), " -- "))
        write(f, "".join(out), old)
    for f in sorted(glob.glob("crates/*/src/**/*.rt", recursive=True)):
        old = open(f, encoding="utf-8").read()
        write(f, "".join(code(line, "//") for line in old.splitlines(keepends=True)), old)
    for f in sorted(glob.glob("crates/*/must-fail/*.edit") + glob.glob("tests/edits/*/*.edit")):
        old = open(f, encoding="utf-8").read()
        write(f, "".join(turn(line) if re.match(r"(old|new):", line) else line for line in old.splitlines(keepends=True)), old)
    for f in sorted(glob.glob("*.md") + glob.glob("docs/*.md") + glob.glob("docs/landings/*.md")):
        old = open(f, encoding="utf-8").read()
        write(f, ticked(old), old)
    with open("docs/PORT-NAMES.txt", "w", encoding="utf-8") as f:
        for w, new in sorted((table | lemmas).items()):
            f.write(f"{w} {new}\n")
    return 0


if __name__ == "__main__":
    raise SystemExit(main(sys.argv[1:]))
