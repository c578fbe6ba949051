#!/usr/bin/env python3
"""The header against the exports: every function and struct of include/kaunorpi.h has the parameters and fields, in
order and type, that the crates say that crates.txt marks `staticlib`; a struct may stand in a crate below (Running does). No proof
sees the header, and two fields of one type exchanged in an export's struct are proved all the same. Prints nothing unless something
differs; compare.py HEADER CRATES tries another pair, with the crates.txt beside CRATES."""
import re
import sys
from pathlib import Path

C_TYPE = {"u8": "uint8_t", "u16": "uint16_t", "u32": "uint32_t", "u64": "uint64_t", "usize": "size_t", "i16": "int16_t",
          "i32": "int32_t"}
# A name that a clause of a contract speaks of is one word, so these exports say otherwise what the header says.
OTHERWISE = {"kaunorpi_ask_summary": [(r"^count$", "summary_places"), (r"^letters$", "summary_letters")],
             "kaunorpi_join_summaries": [(r"^(\w+?)1(_len)?$", r"first_\1\2"), (r"^(\w+?)2(_len)?$", r"second_\1\2")]}


def aliases(crates):
    """Names of types, as `Weight` in ground."""
    found = {}
    for file in crates.glob("*/src/*.rt"):
        found.update(re.findall(r"pub type (\w+) = (\w+);", file.read_text()))
    return found


def constants(crates):
    """Names of numbers, as `COUNT_LIMIT` in ground."""
    found = {}
    for file in crates.glob("*/src/*.rt"):
        found.update(re.findall(r"pub const (\w+): \w+ = (\d+);", file.read_text()))
    return found


def type_in_c(name, known):
    return C_TYPE[known.get(name, name)]


def structs_of(crates, known):
    """name -> its fields, of every struct that has C's form; an array's type is that of its entries, and their number."""
    numbers, found = constants(crates), {}
    for file in sorted(crates.glob("*/src/lib.rt")):
        for name, body in re.findall(r"#\[repr\(C\)\]\n(?:#\[[^\n]*\]\n)*pub struct (\w+) \{(.*?)\n\}", file.read_text(), re.S):
            found[name] = []
            for field, kind, entries, length in re.findall(r"pub (\w+): (?:(\w+)|\[(\w+); (\w+)\]),", body):
                one = type_in_c(kind or entries, known)
                found[name].append((field, one if kind else f"{one}[{numbers.get(length, length)}]"))
    return found


def parameter(text, known, structs):
    """One parameter of an export as C passes it: a slice is a pointer and a number of entries, a struct that is lent a pointer."""
    name, kind = (part.strip() for part in text.split(":", 1))
    const = "" if kind.startswith("&mut ") else "const "
    lent, whole = re.fullmatch(r"&(?:mut )?\[(\w+)\]", kind), re.fullmatch(r"&(?:mut )?(\w+)", kind)
    if whole:
        return [(name, (f"{const}*", structs[whole[1]]))]
    if not lent:
        return [(name, type_in_c(kind, known))]
    return [(name, f"{const}{type_in_c(lent[1], known)} *"), (name + "_len", "size_t")]


def exports(crates):
    """name -> (parameters, fields of the answer), from the crates' sources."""
    known, found = aliases(crates), {}
    structs = structs_of(crates, known)
    for crate in re.findall(r"^(\w+) staticlib:", (crates.parent / "crates.txt").read_text(), re.M):
        text = (crates / crate / "src/lib.rt").read_text()
        for name, body, answer in re.findall(r'#\[unsafe\(no_mangle\)\]\npub extern "C" fn (\w+)\((.*?)\) -> (\w+)', text, re.S):
            lent = [parameter(part, known, structs) for part in body.split(",") if part.strip()]
            found[name] = ([(said(name, one), kind) for part in lent for one, kind in part], structs[answer])
    return found


def said(function, name):
    """A parameter's name as the header has it."""
    for old, new in OTHERWISE.get(function, []):
        name = re.sub(old, new, name)
    return name


def declared(header):
    """name -> (parameters, fields of the answer), from the header."""
    text = re.sub(r"/\*.*?\*/", " ", header.read_text(), flags=re.S).replace("\\\n", " ")
    net = re.search(r"#define KAUNORPI_NET\s+(.*)", text)[1]
    numbers = dict(re.findall(r"#define (\w+) (\d+)\s*$", text, re.M))
    text = re.sub(r"^\s*#.*$", "", text, flags=re.M).replace("KAUNORPI_NET", net)
    structs, found = {}, {}
    for body, name in re.findall(r"typedef struct \w+ \{(.*?)\} (\w+);", text, re.S):
        fields = re.findall(r"(\w+) (\w+)(?:\[(\w+)\])?;", body)
        structs[name] = [(field, f"{kind}[{numbers.get(length, length)}]" if length else kind) for kind, field, length in fields]
    for answer, name, body in re.findall(r"(\w+) (kaunorpi_\w+)\(([^()]*)\);", text):
        lent = [re.fullmatch(r"(const )?(\w+) (\*?)(\w+)", " ".join(part.split())) for part in body.split(",")]
        found[name] = ([(one[4], passed(one[1] or "", one[2], one[3], structs)) for one in lent], structs[answer])
    return found


def passed(const, kind, star, structs):
    """The type of a parameter: a pointer to a struct has its fields."""
    return (f"{const}*", structs[kind]) if star and kind in structs else f"{const}{kind}" + (" *" if star else "")


def main(header, crates):
    ours, theirs, wrong = exports(crates), declared(header), 0
    for name in sorted(ours.keys() | theirs.keys()):
        if ours.get(name) != theirs.get(name):
            print(f"tests/exports: {name}: the export has {ours.get(name)}, the header {theirs.get(name)}")
            wrong = 1
    if len(ours) < 20:
        print(f"tests/exports: only {len(ours)} exports were found")
        wrong = 1
    return wrong


if __name__ == "__main__":
    root = Path(__file__).resolve().parents[2]
    sys.exit(main(*(Path(word) for word in sys.argv[1:3])) if len(sys.argv) == 3 else main(root / "include/kaunorpi.h", root / "crates"))
