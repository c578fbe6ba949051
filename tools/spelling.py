#!/usr/bin/env python3
"""Compares specs/ and src/ of two trees word by word, with what is spelling alone in the port made alike.

usage: python3 tools/spelling.py BEFORE NOW [--brackets]

BEFORE is a tree in the older Rattle's spelling, NOW one in today's. Made alike: `x′` and `x'`, paths of modules, the names of
docs/PORT-NAMES.txt, dashes, underscores and capitals within a word (not its first letter), `getD` and `get_or`, `⌜ P ⌝`, the name that a clause gives the
result, names of clauses, `now (x .entry)` and `x.old` or `x.now`. Not compared: `use` lines, comments, attributes, commas, and brackets but with --brackets. It
prints the places that differ, six at most for a file, and last how many there are. A reader judges.
"""

import difflib
import glob
import os
import re
import sys

SYNONYMS = {"getD": "get_or"}


def names(now):
    table = {}
    for line in open(os.path.join(now, "docs/PORT-NAMES.txt"), encoding="utf-8"):
        old, new = line.split()
        table[old] = new
    return table


def canonical(word, table):
    word = SYNONYMS.get(word, table.get(word, word))
    word = re.sub(r"_lem$", "", word)
    return word[:1] + word[1:].lower().replace("_", "").replace("-", "").replace("◌", "").replace("″", "''").replace("′", "'")


def contracts(text):
    text = text.replace("⌜", "").replace("⌝", "")
    text = re.sub(r"ensures(?: \w+)? \{\s*λ (\w+)\.", lambda m: "ensures { @R=" + m.group(1) + " ", text)

    def rename(m):
        return "ensures {" + re.sub(rf"(?<![\w']){re.escape(m.group(1))}(?![\w'])", "result", m.group(2))

    text = re.sub(r"ensures \{ @R=(\w+) (.*?)(?=\n\{|\n    ensures|\n    requires)", rename, text, flags=re.S)
    text = re.sub(r"(requires|ensures) (\w+) \{", r"\1 {", text)
    for part, mark in (("entry", "NOW"), ("exit", "NEW")):
        text = re.sub(rf"\(now \((\w+) \.{part}\)\)", rf"\1.{mark}", text)
        text = re.sub(rf"now \((\w+) \.{part}\)", rf"\1.{mark}", text)
    text = re.sub(r"\(now (\w+)\)", r"\1.NOW", text)
    text = re.sub(r"(?<=[{×]) now (\w+)| now (\w+)(?= ≡)", lambda m: " " + (m.group(1) or m.group(2)) + ".NOW", text)
    return re.sub(r"(\w+)\.(?:old|now)\b", r"\1.NOW", re.sub(r"(\w+)\.new\b(?!\()", r"\1.NEW", text))


def words(text, is_code, table, brackets):
    text = text.replace("″", "''").replace("′", "'")
    text = re.sub(r"Rattle·(\w+)·(specs|proofs)\.\2\.", r"Rattle.\1.\2.", text)
    text = re.sub(r"Rattle·(\w+)\.", r"Rattle.\1.", text)
    skip = ("use ", "pub use ", "ghost use", "pub mod", "mod ", "--", "//", "#")
    text = "\n".join(line for line in text.split("\n") if not line.strip().startswith(skip))
    if is_code:
        text = contracts(re.sub(r"//.*", "", text))
    text = re.sub(r" \.(?=[\w])", ".", text)
    for _ in range(4):
        text = re.sub(r"\(([\w'.]+)\)", r"\1", text)
    found = re.findall(r"[\w'ℕℤ₀-₉·◌\-]+|[^\s\w]", text)
    drop = ";," if brackets else "();,"
    return [w for w in (canonical(f, table) for f in found if f not in drop) if w]


def main(argv):
    brackets = "--brackets" in argv
    before, now = [a for a in argv if not a.startswith("--")]
    table, count = names(now), 0
    for path in sorted(glob.glob(now + "/crates/*/specs/**/*.antt", recursive=True) + glob.glob(now + "/crates/*/src/**/*.rt", recursive=True)):
        name = os.path.relpath(path, now)
        old = os.path.join(before, name)
        if not os.path.exists(old):
            print("new file", name)
            continue
        is_code = name.endswith(".rt")
        a, b = (words(open(p, encoding="utf-8").read(), is_code, table, brackets) for p in (old, path))
        places = [it for it in difflib.SequenceMatcher(None, a, b, autojunk=False).get_opcodes() if it[0] != "equal"]
        count += len(places)
        for kind, i, j, k, m in places[:6]:
            print(f"{name}: {kind}: {' '.join(a[max(0, i - 3):j + 2])}  |  {' '.join(b[max(0, k - 3):m + 2])}")
    print(count)
    return 0


if __name__ == "__main__":
    raise SystemExit(main(sys.argv[1:]))
