#!/usr/bin/env python3
"""What the documents and the header refer to is there: prints a sentence for each reference that leads nowhere.

    tests/references/check.py [--mend] [ROOT]

- docs/STATEMENTS.md: `name` crates/FILE:LINE (or :LINE, in the file named last): the name is declared on that line.
  `name`, `name` (FILE): each is declared in that file; `word_..` stands for the three names of section 1.2.
  `crate::function`: it is a function of that crate. Its edits, after gate: and also:, are those that stand in
  crates/*/must-fail and in tests/edits. Elsewhere, too, a name with - is an edit, and one with _ is declared, is a crate,
  or is a name of the tests' C files.
- docs/*.md: each path exists. docs/DECISIONS.md is numbered from 1, and whoever cites a decision or a section of
  STATEMENTS cites one that is there.
- include/kaunorpi.h: each function has its contract in the file named, and its theorems are declared in theirs.

--mend writes the right lines into the documents, and the right file or crate where a name is declared, or a file of that
place in a crate stands, in exactly one other. It says what was wrong; what it could not mend is said again next time."""
import os
import re
import sys
from pathlib import Path

ANTT = re.compile(r" *(?:(?:pub|abbrev|unfoldable|opaque|told) )*(?:(?:record|data) (\S+)|(\S+) :(?: |$))")
RT = re.compile(r' *(?:pub )?(?:extern "C" )?(?:fn|struct|enum|const|type) (\w+)()')
REFUSING = ("refused_exactly", "allowed_answered", "answered_allowed")
NAME = r"[^\s`]+"
FILE = r"\w+/(?:specs|proofs|src)/[\w/]+\.(?:antt|rt)"
AT_LINE = re.compile(rf"`({NAME})`(\s+)((?:crates/{FILE})?):(\d+)")
IN_FILES = re.compile(rf"((?:`[^`]+`[,;]?\s+(?:and\s+)?)+)\(((?:\w+,\s)*\w+:\s+\w+/\w+\.antt|{FILE}(?:,\s+(?:{FILE}|\w+\.antt))*)\)")
OF_CRATE = re.compile(r"`(\w+)::(\w+)`")
SPAN = re.compile(r"`([^`]+)`")
PATH = re.compile(r"(?:\./)?[\w.*-]+(?:/[\w.*-]+)+/?|\./\w+")
BARE_PATH = re.compile(r"(?<![\w/.`-])[\w.-]+(?:/[\w.-]+)+\.(?:antt|rt|py|md|sh|c|h|calls|txt)\b")
EDITS = re.compile(r"^ *- (gate|also): (.*(?:\n +(?![- ]).*)*)", re.M)
PROMISED = re.compile(r"Contract: (\S+)\. Theorems: (.*)\.$")


class Tree:
    """A checkout: what its files declare, and the mistakes that were found in it."""

    def __init__(self, root):
        self.root, self.known, self.wrong = root, {}, []
        self.sources = sorted(p for part in ("specs", "proofs", "src") for end in ("antt", "rt")
                              for p in (root / "crates").glob(f"*/{part}/**/*.{end}"))
        self.names = [self.named(p) for p in self.sources]
        self.pages = sorted((root / "docs").glob("*.md"))

    def declared(self, file):
        """name -> the line of this file on which it is declared; one inside a module or record gives way to another."""
        if file not in self.known:
            self.known[file], inner, path = {}, {}, self.root / file
            for number, line in enumerate(path.read_text().split("\n") if path.is_file() else [], 1):
                name = (ANTT if path.suffix == ".antt" else RT).match(line)
                if name:
                    (inner if line[0] == " " else self.known[file]).setdefault(name[1] or name[2], number)
            self.known[file] = {**inner, **self.known[file]}
        return self.known[file]

    def has(self, file, name):
        """Whether the file declares the name, or with .. at its end the three names that it stands for."""
        names = [name.removesuffix("..") + end for end in REFUSING] if name.endswith("..") else [name]
        return all(one in self.declared(file) for one in names)

    def named(self, path):
        return str(path.relative_to(self.root))

    def where_else(self, name, file):
        """The one other file that declares the name: one of the same place in another crate first."""
        files = [f for f in self.names if f != file and self.has(f, name)]
        alike = [f for f in files if f.split("/")[2:] == file.split("/")[2:]]
        return alike[0] if len(alike) == 1 else files[0] if len(files) == 1 else None

    def tell(self, page, text, start, sentence):
        self.wrong.append(f"{page}:{text.count(chr(10), 0, start) + 1}: {sentence}")

    def exists(self, path):
        """A path from the root, from crates/, or from any crate."""
        path = path.removeprefix("./").rstrip("/")
        return any(next(self.root.glob(f"{above}{path}"), None) for above in ("", "crates/", "docs/", "crates/*/"))


def rewritten(text, pieces):
    """The text with new words at some places: (start, end, new)."""
    for start, end, new in sorted(pieces, reverse=True):
        text = text[:start] + new + text[end:]
    return text


def check_lines(tree, page, text):
    """`name` FILE:LINE"""
    last, written, pieces, count = "", "", [], 0
    for one in AT_LINE.finditer(text):
        name, file, line = one[1], one[3] or last, int(one[4])
        last, count = file, count + 1
        right, now = tree.declared(file).get(name), file
        if right is None:
            other = tree.where_else(name, file)
            tree.tell(page, text, one.start(), f"`{name}` is not declared in {file}" + f"; it is in {other}" * bool(other))
            right, now = (tree.declared(other)[name], other) if other else (line, file)
        elif right != line:
            tree.tell(page, text, one.start(), f"`{name}` is declared in {file} on line {right}, not {line}")
        short = not one[3] and now == written
        pieces.append((one.start(3), one.end(), f"{'' if short else now}:{right}"))
        written = now
    if count < 100:
        tree.wrong.append(f"{page}: only {count} references to a line were found")
    return rewritten(text, pieces)


def files_meant(said):
    """The files that a bracket names: `a/proofs/X.antt, Y.antt` or `a, b: proofs/X.antt`."""
    said = " ".join(said.split())
    if ": " in said:
        crates, rest = said.split(": ")
        return [f"crates/{crate}/{rest}" for crate in crates.split(", ")]
    files = []
    for part in said.split(", "):
        files.append(f"crates/{part}" if "/" in part else f"{files[-1].rsplit('/', 1)[0]}/{part}")
    return files


def check_files(tree, page, text):
    """`name`, `name` (FILE)"""
    pieces = []
    for one in IN_FILES.finditer(text):
        files, names = files_meant(one[2]), [name for name in SPAN.findall(one[1]) if " " not in name]
        lost = [name for name in names if not any(tree.has(file, name) for file in files)]
        for name in lost:
            tree.tell(page, text, one.start(), f"`{name}` is not declared in {' or '.join(files)}")
        others = {tree.where_else(name, files[0]) for name in names}
        if lost and len(files) == len(others) == 1 and None not in others:
            pieces.append((one.start(2), one.end(2), others.pop().removeprefix("crates/")))
    return rewritten(text, pieces)


def check_functions(tree, page, text):
    """`crate::function`"""
    pieces = []
    for one in OF_CRATE.finditer(text):
        having = [p.parent.parent.name for p in tree.sources if p.parent.name == "src" and tree.has(tree.named(p), one[2])]
        if one[1] not in having:
            tree.tell(page, text, one.start(), f"crates/{one[1]} has no function {one[2]}")
            if len(having) == 1:
                pieces.append((one.start(1), one.end(1), having[0]))
    return rewritten(text, pieces)


def words_beside(tree):
    """The names that are no declarations of the sources: crates, and what the tests' C files call their own."""
    texts = [p for folder in ("tests", "bench") for p in (tree.root / folder).rglob("*.c")]
    return {word for p in texts for word in re.findall(r"\w+", p.read_text())} | {p.name for p in (tree.root / "crates").iterdir()}


def check_names(tree, page, text, edits):
    """Edits, and whatever else has a name with - or _ in it."""
    anywhere = {name for file in tree.sources for name in tree.declared(tree.named(file))} | words_beside(tree)
    for one in SPAN.finditer(text):
        name = one[1]
        if re.fullmatch(r"[a-z][a-z0-9_]*(-[a-z0-9_]+)+", name) and "_" in name and name not in edits:
            tree.tell(page, text, one.start(), f"there is no edit {name}")
        elif re.fullmatch(r"[a-z][a-z0-9]*([-_][a-z0-9]+)+'*", name) and name not in anywhere and name not in edits:
            tree.tell(page, text, one.start(), f"`{name}` is declared nowhere")


def check_paths(tree, page, text):
    pieces = []
    for one in list(SPAN.finditer(text)) + list(BARE_PATH.finditer(text)):
        path, start = (one[1], one.start(1)) if one.re is SPAN else (one[0], one.start())
        capitals = any(re.fullmatch(r"[A-Z0-9]+(\.(?!md)\w+)?", part) for part in path.split("/"))
        if not PATH.fullmatch(path) or capitals or ".." in path or path.startswith("target/") or tree.exists(path):
            continue
        tree.tell(page, text, start, f"there is no {path}")
        moved = re.fullmatch(r"(crates/)?\w+/((?:specs|proofs|src)/.*)", path)
        others = sorted(tree.root.glob(f"crates/*/{moved[2]}")) if moved else []
        if len(others) == 1:
            new = tree.named(others[0])
            pieces.append((start, start + len(path), new if moved[1] else new.removeprefix("crates/")))
    return rewritten(text, pieces)


def edits_in(tree):
    """name of an edit -> gate or also"""
    found = {file.stem: "gate" for file in tree.root.glob("crates/*/must-fail/*.edit")}
    found.update({file.stem: "also" for file in tree.root.glob("tests/edits/*/*.edit")})
    return found


def check_edits(tree, page, text, edits):
    said = {}
    for one in EDITS.finditer(text):
        for name in SPAN.findall(one[2]):
            if name in edits or "-" in name and "_" in name:
                if said.setdefault(name, one[1]) != one[1] or edits.get(name, one[1]) != one[1]:
                    tree.tell(page, text, one.start(), f"the edit {name} stands under {one[1]}, and is not there")
    for name in sorted(edits.keys() - said.keys()):
        tree.wrong.append(f"{page}: the edit {name} ({edits[name]}) is not named under gate: or also:")


def files_below(folder):
    """All files of a folder, but for what rt makes."""
    for at, folders, names in os.walk(folder):
        folders[:] = [name for name in folders if name not in ("out", "__pycache__")]
        yield from (Path(at) / name for name in names)


def check_numbers(tree):
    """Decisions are numbered in order; who cites one, or a section of STATEMENTS, cites one that is there."""
    decisions = [int(n) for n in re.findall(r"^(\d+)\. ", (tree.root / "docs/DECISIONS.md").read_text(), re.M)]
    if decisions != list(range(1, len(decisions) + 1)):
        tree.wrong.append("docs/DECISIONS.md: the decisions are not numbered 1, 2, .. in the order in which they stand")
    sections = set(re.findall(r"^### (\d\.\d+) ", (tree.root / "docs/STATEMENTS.md").read_text(), re.M))
    texts = [p for folder in ("docs", "crates", "tests", "include", "bench", "script", "examples") for p in files_below(tree.root / folder)
             if p.suffix in (".md", ".antt", ".rt", ".py", ".c", ".h", ".sh", ".edit", ".calls", "")]
    for file in sorted(texts) + [tree.root / "README.md"]:
        text = file.read_text(errors="replace") if file.is_file() else ""
        page = file.relative_to(tree.root)
        for one in re.finditer(r"DECISIONS\s+(\d+(?:(?:, | and | to )\d+)*)", text):
            for number in re.findall(r"\d+", one[1]):
                if int(number) not in decisions:
                    tree.tell(page, text, one.start(), f"there is no decision {number}")
        for one in re.finditer(r"STATEMENTS\s+(\d\.\d+(?:(?:, | and | to )\d\.\d+)*)", text):
            for number in set(re.findall(r"\d\.\d+", one[1])) - sections:
                tree.tell(page, text, one.start(), f"there is no section {number} of STATEMENTS")


def check_header(tree):
    """Each function's comment ends with `Contract: FILE. Theorems: name, name in FILE; name in FILE.`"""
    page = "include/kaunorpi.h"
    text = (tree.root / page).read_text()
    declarations = list(re.finditer(r"(/\*(?:(?!\*/).)*?\*/\n)?\w+ (kaunorpi_\w+)\(", text, re.S))
    for one in declarations:
        said = " ".join(re.sub(r"\n \*(?!/)", " ", one[1] or "")[2:].rstrip("\n")[:-2].split())
        promised = PROMISED.search(said)
        if not promised:
            tree.tell(page, text, one.start(2), f"the comment of {one[2]} does not end with its contract and theorems")
            continue
        if one[2] not in tree.declared(promised[1]):
            tree.tell(page, text, one.start(2), f"{one[2]} is not declared in {promised[1]}")
        for part in promised[2].split("; "):
            names, _, file = part.rpartition(" in ")
            for name in names.split(", "):
                if not tree.has(file, name):
                    tree.tell(page, text, one.start(2), f"`{name}` is not declared in {file}")
    if len(declarations) < 20:
        tree.wrong.append(f"{page}: only {len(declarations)} functions were found")


def main(mend, root):
    tree = Tree(root)
    edits = edits_in(tree)
    for file in tree.pages:
        page, text = tree.named(file), file.read_text()
        if file.name == "STATEMENTS.md":
            check_edits(tree, page, text, edits)
        if file.name in ("STATEMENTS.md", "TRUST.md", "DECISIONS.md"):
            check_names(tree, page, text, edits)
            right = check_lines(tree, page, text) if file.name == "STATEMENTS.md" else text
            right = check_functions(tree, page, check_files(tree, page, right))
        else:
            right = text
        right = check_paths(tree, page, right)
        if mend and right != text:
            file.write_text(right)
    check_numbers(tree)
    check_header(tree)
    for sentence in tree.wrong:
        print(f"tests/references: {sentence}")
    return 1 if tree.wrong else 0


if __name__ == "__main__":
    words = sys.argv[1:]
    roots = [word for word in words if word != "--mend"]
    sys.exit(main("--mend" in words, Path(roots[0]).resolve() if roots else Path(__file__).resolve().parents[2]))
