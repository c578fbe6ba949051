#!/usr/bin/env python3
"""Follows README.md to the letter: writes the C programs that it shows, makes each call of its console blocks, and
compares what comes with what it says comes. A call is a line after "$ "; the lines below it are what it writes.

    tests/readme/follow.py [README]

It works in a tree of links to this one, so that what a call leaves behind is gone with it. Prints what is not as the
page says, and ends with 1.
"""
import re
import subprocess
import sys
import tempfile
from pathlib import Path

ROOT = Path(__file__).resolve().parents[2]
BLOCK = re.compile(r"^```(\w+)\n(.*?)^```$", re.M | re.S)
PROGRAM = re.compile(r"`(\w+\.c)`:\n\n```c\n(.*?)^```$", re.M | re.S)
PARTS = r"(?:docs|tests|crates|examples|include|bench|script|\.ci)/"


def calls_of(page):
    """Each call of the console blocks, and what it is to write."""
    for kind, text in BLOCK.findall(page):
        if kind == "console":
            for call in re.split(r"^\$ ", text, flags=re.M)[1:]:
                command, _, wanted = call.partition("\n")
                yield command, wanted


def make_calls(page, tree):
    """What does not go as the page says: a program that is not there or not used, a call that fails or writes otherwise."""
    programs = dict(PROGRAM.findall(page))
    calls = list(calls_of(page))
    shown = sum(kind == "c" for kind, _ in BLOCK.findall(page))
    if not programs or len(programs) != shown:
        yield f"{shown} programs in C are shown, and {len(programs)} of them named"
    for name, text in programs.items():
        (tree / name).write_text(text)
        if not any(name in command for command, _ in calls):
            yield f"{name} is shown, and no call uses it"
    for command, wanted in calls:
        run = subprocess.run(["bash", "-c", command], cwd=tree, stdin=subprocess.DEVNULL, capture_output=True, text=True)
        if run.returncode:
            yield f"{command} ends with {run.returncode}: {run.stderr.strip()}"
        elif run.stdout != wanted:
            yield f"{command} writes\n{run.stdout}and not\n{wanted}"


def missing_paths(page):
    """Paths and scripts of the repository that the page names and that are not there."""
    for name in sorted(set(re.findall(rf"`(?:bash )?(\./\w+|{PARTS}[^`\s]*|tests/run)[^`]*`", page))):
        if not list(ROOT.glob(name.removeprefix("./"))):
            yield f"{name} is named, and not there"


def main():
    page = Path(sys.argv[1] if len(sys.argv) > 1 else ROOT / "README.md").read_text()
    with tempfile.TemporaryDirectory() as folder:
        tree = Path(folder)
        made = {part for name in dict(PROGRAM.findall(page)) for part in (name, name.removesuffix(".c"))}
        for part in ROOT.iterdir():
            if part.name not in made:  # else a program that someone tried here would be written over
                (tree / part.name).symlink_to(part)
        faults = [*missing_paths(page), *make_calls(page, tree)]
    for fault in faults:
        print(f"tests/readme: {fault}")
    sys.exit(1 if faults else 0)


if __name__ == "__main__":
    main()
