#!/usr/bin/env python3
"""Case files in pieces: asks the script ./kaunorpi for a file that comes through a pipe piece after piece, each written only
when the one before it has been read, so that every read brings one piece; and for one whose last read fails. Prints nothing
unless an answer is not the one of the whole file. Run by tests/pieces/run."""
import array
import fcntl
import os
import pty
import select
import subprocess
import sys
import termios
import time
import tty
from concurrent.futures import ThreadPoolExecutor
from pathlib import Path

CASES = Path("tests/cases")
SIZES = (1, 7, 64, 4096)
MOST_PIECES = 2000  # of a file: a larger one comes in larger pieces only
PATIENCE = 300  # seconds until a piece that is not read is given up
# whole files, blocked, refused at the first and at later lines, cut off, and some of many pieces
NAMES = (
    "whole word-empty chance-00 chance-07 chance-29 word-sample-2 cap-zero ends-no-feed ends-last-byte cut-1 cut-4 line1-long "
    "line4-odd line6-g line7-missing after-the-end-2 carriage-returns digits-260-row digits-262-row places-64 "
    "places-64-whole letters-65535 letters-65536 megabyte-after-whole mask-2 mask-zero mask-64-all pocket-full-loop "
    "digits-516-row digits-518-row wide-all heavy-two-rows wide-64-all"
).split()


def unread(end):
    """How many bytes have been written and not been read."""
    count = array.array("i", [0])
    fcntl.ioctl(end, termios.FIONREAD, count)
    return count[0]


def wait_until_read(end):
    """Waits until all that was written has been read; false if nobody reads any more."""
    watch = select.poll()
    watch.register(end, 0)
    given_up = time.monotonic() + PATIENCE
    while unread(end) > 0:
        if watch.poll(0):
            return False
        if time.monotonic() > given_up:
            sys.exit(f"tests/pieces: nothing is read for {PATIENCE} s")
        time.sleep(0)
    return True


def start(end):
    return subprocess.Popen(["./kaunorpi"], stdin=end, stdout=subprocess.PIPE, stderr=subprocess.PIPE, env={**os.environ, "LC_ALL": "C"})


def by_pieces(text, size):
    """The answer to a text that is written in pieces of this size."""
    out, into = os.pipe()
    program = start(out)
    os.close(out)
    for i in range(0, len(text), size):
        try:
            os.write(into, text[i : i + size])
        except BrokenPipeError:
            break  # the program has its answer: nothing after a refusal can change it
        if not wait_until_read(into):
            break
    os.close(into)
    return program.communicate()[0]


def check_pieces(job):
    name, size = job
    answer = by_pieces((CASES / f"{name}.case").read_bytes(), size)
    if answer == (CASES / f"{name}.line").read_bytes():
        return ""
    return f"tests/pieces: {name}.case in pieces of {size} is answered: {answer!r}"


def check_failure(name):
    """The end of a terminal whose other side is closed: reading what was written there, and then a failure."""
    ours, theirs = pty.openpty()
    tty.setraw(theirs)
    program = start(ours)
    os.write(theirs, (CASES / f"{name}.case").read_bytes())
    wait_until_read(ours)
    os.close(theirs)
    answer, said = program.communicate()
    os.close(ours)
    if answer == b"" and said.endswith(b"kaunorpi: standard input: Input/output error\n") and program.returncode == 1:
        return ""
    return f"tests/pieces: {name}.case and then a read that fails: {program.returncode}, {answer!r}, {said!r}"


def main():
    jobs = [(n, s) for n in NAMES for s in SIZES if (CASES / f"{n}.case").stat().st_size <= s * MOST_PIECES]
    with ThreadPoolExecutor(os.cpu_count()) as pool:
        wrong = [w for w in pool.map(check_pieces, jobs) if w]
        wrong += [w for w in pool.map(check_failure, ["whole", "chance-07", "cut-4"]) if w]
    print("\n".join(wrong), end="\n" if wrong else "")
    sys.exit(1 if wrong else 0)


if __name__ == "__main__":
    main()
