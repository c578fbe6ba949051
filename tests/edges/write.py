#!/usr/bin/env python3
"""The edges of writing a case file from C: the table write.calls is this script's output.

    python3 tests/edges/write.py > tests/edges/write.calls

The lines of a file are written by tests/cases/make.py, from documents 01 and 02 alone; the refusals are spelled out here. Of each case
.1 asks how long the file is, the others write it into rooms of several lengths, which hold 7s at entry. Answers: 129 0 0 length;
130 refusal position. tests/round writes every accepted file of tests/cases and examples back.
"""

import sys
from pathlib import Path

sys.path.insert(0, str(Path(__file__).resolve().parents[1] / "cases"))
from make import lines_of, text

from shared.calls import HEAVY, HUGE, LIGHT, LOOSE, NONE, WIRED, all_plain, call, group, heading, heavy, loose, net as lent_net, quoted

LIMIT = 167774  # the longest file


def refusal(P, T, pre, post, caps, initial, word, marks):
    if P not in range(1, 65) or T not in range(1, 65):
        return 1, 0
    if len(pre) != P * T or len(post) != P * T or len(caps) != P or len(marks) != P or len(initial) != P:
        return 2, 0
    if heavy(P, T, pre, post):
        return heavy(P, T, pre, post)
    bad = [p for p in range(P) if initial[p] == 65535 or (caps[p] != NONE and initial[p] > caps[p])]
    if bad:
        return 3, min(bad)
    if loose(P, T, pre, post):
        return loose(P, T, pre, post)
    if len(word) > 65535:
        return 4, 0
    wrong = [k for k, letter in enumerate(word) if letter >= T]
    return (5, min(wrong)) if wrong else None


def file_of(P, T, pre, post, caps, initial, word, marks=()):
    rows = lambda flat: [flat[t * P : (t + 1) * P] for t in range(T)]
    return text(lines_of(P, T, caps, initial, rows(pre), rows(post), word, marks))


def left(file, room):
    """The file at the front of a room of 7s, as a table has it."""
    return quoted(file) + (f",7*{room - len(file)}" if room > len(file) else "")


def ask(case, edge, P, T, pre, post, caps, initial, word, rooms, marks=None):
    """How long the file is, and the file into rooms of these lengths."""
    heading(edge)
    asked = P, T, pre, post, caps, initial, word, all_plain(P) if marks is None else marks
    lent = {**lent_net(P, T, pre, post, caps, marks), "initial": initial, "word": word}
    refused = refusal(*asked)
    file = b"" if refused else file_of(*asked)
    call(f"{case}.1", "case_length", lent, [130, *refused] if refused else [129, 0, 0, len(file)])
    for k, room in enumerate(rooms, 2):
        short = refused or ((14, 0) if room < len(file) else None)
        answer = [130, *short] if short else [129, 0, 0, len(file)]
        found = [7] * room
        call(f"{case}.{k}", "write_case", {**lent, "room": found}, answer, {"room": found if short else left(file, room)})


def write(case, edge, *asked, marks=()):
    """A file, into rooms exactly long enough, one longer, one short, and empty; its length."""
    exact = len(file_of(*asked, marks))
    ask(case, edge, *asked, [exact, exact + 1, exact - 1, 0], marks=marks or None)
    return exact


def refuse(case, edge, *asked, room=200, marks=None):
    """A refusal, with a room that would do, and with one that would not."""
    assert refusal(*asked, all_plain(asked[0]) if marks is None else marks), edge
    ask(case, edge, *asked, [room, 0], marks=marks)


# 01's case without its word
SAMPLE = 3, 3, [1, 0, 0, 0, 1, 0, 0, 0, 3], [0, 1, 0, 1, 0, 2, 0, 0, 0], [NONE, NONE, 5], [1, 0, 0]
ONE = 1, 1, [0], [1], [NONE], [0]


def words():
    group("01's whole case; then words of the lengths at which lines begin and end")
    write(1, "the whole case", *SAMPLE, [0, 1, 0, 1, 2])
    ask(2, "a room far longer, and one for the longest file", *SAMPLE, [0, 1, 0, 1, 2], [300, LIMIT])
    write(3, "the empty word: no line of letters", *SAMPLE, [])
    for case, n in [(4, 1), (5, 63), (6, 64), (7, 65), (8, 127), (9, 128), (10, 129)]:
        write(case, f"letters: {n}", *SAMPLE, ([2, 0, 1, 0, 1] * 26)[:n])
    write(11, "65,535 letters: the last line has 63", *ONE, [0] * 65535)
    write(12, "65,472 letters: the last line has 64", *ONE, [0] * 65472)


def counts():
    group("counts")
    write(21, "one place, one transition, no letter: the shortest file", *ONE, [])
    write(22, "64 places: rows of 260 digits", 64, 1, [0] * 63 + [9], [8] + [1] * 63, [NONE] * 64, [3] * 64, [0])
    write(23, "64 transitions", 1, 64, [0] * 63 + [9], [8] + [1] * 63, [NONE], [3], [63, 0, 62])
    most = 64, 64, [1] * 4096, [255] * 4096, [NONE] * 64, [65534] * 64, [63] * 65535
    write(24, "the longest file without a pocket and of weights that a byte holds: 64 places, 64 transitions, 65,535 letters", *most)
    write(25, "with a pocket", *most, marks=[0] * 63 + [1])
    wide = *most[:3], [255, 256] + [255] * 62, *most[4:]
    write(26, "with a weight over 255 in the first row alone", *wide[:3], wide[3] + [255] * 4032, *wide[4:])
    assert write(27, "the longest file: in each row", *wide[:3], wide[3] * 64, *wide[4:], marks=[0] * 63 + [1]) == LIMIT
    write(28, "64 places: a row of 516 digits", 64, 1, [0] * 63 + [4095], [8] + [1] * 63, [NONE] * 64, [3] * 64, [0])


def numbers():
    group("digits: capacities and tokens, the high byte first; weights; letters")
    caps, tokens = [0, 9, 10, 255, 256, 4660, 43981, 65280, 65534, NONE], [0, 9, 10, 160, 256, 4660, 43981, 255, 65534, 65534]
    weights = [0, 1, 9, 10, 15, 16, 159, 160, 171, 255]
    write(31, "each digit, in both halves of a byte", 10, 1, weights, weights[::-1], caps, tokens, [0])
    large = [0, 1, 255, 256, 291, 1110, 1929, 2748, 3567, 4095]
    write(34, "each digit of a weight of two bytes, the high byte first", 10, 1, large, large[::-1], caps, tokens, [0])
    write(32, "Pre before Post", 2, 2, [1, 2, 3, 4], [5, 6, 7, 8], [NONE, 9], [0, 9], [1, 0])
    write(33, "tokens exactly at capacity 0", 1, 1, [1], [0], [0], [0], [])


def one_refusal():
    group("each refusal alone, and with 14")
    for k, (edge, P, T) in enumerate([("no place", 0, 3), ("65 places", 65, 3), ("as many places as can be told", HUGE, 3),
                                      ("no transition", 3, 0), ("65 transitions", 3, 65), ("as many transitions", 3, HUGE)]):
        refuse(41 + k, f"1: {edge}", P, T, *SAMPLE[2:], [0])
    for k, name in enumerate(["Pre", "Post", "capacities", "initial marking"]):
        lent = list(SAMPLE)
        lent[2 + k] = SAMPLE[2 + k][:-1]
        refuse(51 + 2 * k, f"2: {name} one too short", *lent, [0])
        lent[2 + k] = SAMPLE[2 + k] + [0]
        refuse(52 + 2 * k, f"2: {name} one too long", *lent, [0])
    for k, (edge, tokens) in enumerate([("65,535 tokens", [65535, 0, 0]), ("above capacity", [1, 0, 6]), ("both, the lower place", [1, 65535, 6])]):
        refuse(61 + k, f"3: {edge}", *SAMPLE[:5], tokens, [0])
    refuse(64, "4: 65,536 letters", *ONE, [0] * 65536, room=LIMIT)
    for k, (edge, word) in enumerate([("the first letter", [3, 0]), ("the last letter", [0, 1, 255]), ("two of them", [0, 3, 4])]):
        refuse(65 + k, f"5: {edge}", *SAMPLE, word)
    refuse(68, "5: letter 65,534", *ONE, [0] * 65534 + [1], room=LIMIT)


def two_refusals():
    group("two refusals at once, and with 14: the lower number")
    refuse(71, "1 and 2", 0, 3, *SAMPLE[2:5], [1, 0], [0])
    refuse(72, "1 and 5", 3, 65, *SAMPLE[2:], [70])
    refuse(73, "2 and 3", *SAMPLE[:5], [65535, 0, 0, 0], [0])
    refuse(74, "2 and 5", *SAMPLE[:2], SAMPLE[2][1:], *SAMPLE[3:], [3])
    refuse(75, "3 and 4", *ONE[:5], [65535], [0] * 65536, room=LIMIT)
    refuse(76, "3 and 5", *SAMPLE[:5], [1, 0, 6], [0, 3])
    refuse(77, "4 and 5", *ONE, [0] * 65535 + [1], room=LIMIT)


def pockets():
    group("marks: a line 06 where some place is a pocket, with a capacity or not; any mark but 0 is written as 1")
    for k, marks in enumerate([[0, 0, 0], [1, 0, 0], [0, 2, 0], [0, 0, 255], [128, 0, 3], [1, 1, 1]]):
        write(301 + k, f"marks {marks}", *SAMPLE, [0, 1], marks=marks)
    rows = lambda P: (P, 1, [1] * P, [1] * P, [9] * P, [1] * P, [0])
    for k, (P, pockets) in enumerate([(8, [7]), (9, [8]), (16, [15]), (17, [0, 16]), (33, [32]), (64, [0]), (64, [56]), (64, [63]), (64, range(64)), (64, [7, 8, 55, 62])]):
        write(311 + k, f"{P} places, of which pockets: {list(pockets)}", *rows(P), marks=[int(p in pockets) for p in range(P)])
    write(321, "one place, a pocket, no letter", *ONE, [], marks=[77])
    group("marks of another length: 2, after 1, before 3, 17 and 4")
    for k, marks in enumerate([[], [0], [1] * 4, [0] * 4]):
        refuse(331 + k, f"{len(marks)} marks of three places", *SAMPLE, [0], marks=marks)
    refuse(335, "2 and 3", *SAMPLE[:5], [1, 0, 6], [0], marks=[0, 0])
    refuse(336, "2 and 17", 1, 1, [0], [0], [4], [0], [0], marks=[])
    refuse(337, "2 and 4", *ONE, [0] * 65536, room=LIMIT, marks=[0, 0])
    refuse(338, "1 and 2", 0, 3, *SAMPLE[2:], [0], marks=[0])


def heavy_weights():
    group("a frame 07 for a transition with a weight over 255, and for no other")
    two = lambda *weights: (1, 2, [weights[0], weights[2]], [weights[1], weights[3]], [NONE], [0], [0, 1])
    for k, (edge, *weights) in enumerate([
        ("255 in Pre and Post of both", 255, 255, 255, 255), ("256 in Pre of the first", 256, 255, 255, 255), ("256 in Post of the first", 255, 256, 255, 255),
        ("256 in Pre of the second", 255, 255, 256, 255), ("256 in Post of the second", 255, 255, 255, 256), ("256 everywhere", 256, 256, 256, 256), ("4,095 and 0", 4095, 0, 0, 4095),
        ("1 in an 07", 1, 4095, 1, 0), ("low bytes that are 0", 256, 512, 768, 3840),
    ]):
        write(601 + k, edge, *two(*weights))
    for k, at in enumerate([0, 1, 2, 3, 4, 5, 6, 7, 8]):
        weights = [256 if i == at else w for i, w in enumerate(SAMPLE[2])]
        write(611 + k, f"256 at number {at} of Pre", *SAMPLE[:2], weights, *SAMPLE[3:], [0, 1])
    for k, (edge, P, T, pre, post) in enumerate(LIGHT):
        write(621 + k, edge, P, T, pre, post, [9000] * P, [4500] * P, [0])
    group("weights over 4,095: refusal 18, and with 14")
    for k, (edge, P, T, pre, post) in enumerate(HEAVY):
        refuse(631 + k, edge, P, T, pre, post, [9] * P, [1] * P, [0], room=40000)
    group("18 and another refusal, and with 14")
    too_much = 1, 1, [4096], [0], [4]
    refuse(651, "1 and 18", 1, 65, [4096] * 65, [0] * 65, [4], [0], [0])
    refuse(652, "2 and 18", 1, 1, [4096, 0], [0], [4], [0], [0])
    refuse(653, "2 for the marks, and 18", *too_much, [0], [0], marks=[])
    refuse(654, "18 and 3", *too_much, [5], [0])
    refuse(655, "18 and 17", 2, 1, [0, 4096], [0, 0], [4, 4], [0, 0], [0])
    refuse(656, "18 and 4", *too_much, [0], [0] * 65536, room=LIMIT)
    refuse(657, "18 and 5", *too_much, [0], [1])
    refuse(658, "18, 3, 4 and 5", *too_much, [65535], [0] * 65535 + [1], room=LIMIT)


def loose_nodes():
    group("nodes without an arc: refusal 17, and with 14; then nets that hang together by one arc")
    for k, (edge, P, T, pre, post) in enumerate(LOOSE):
        refuse(201 + k, edge, P, T, pre, post, [9] * P, [1] * P, [0], room=18000)
    for k, (edge, P, T, pre, post) in enumerate(WIRED):
        write(221 + k, edge, P, T, pre, post, [9], [1], [0])
    group("17 and another refusal, and with 14")
    bare = 1, 1, [0], [0], [4]
    refuse(231, "1 and 17", 1, 65, [0] * 65, [0] * 65, [4], [0], [0])
    refuse(232, "2 and 17", 1, 1, [0, 0], [0], [4], [0], [0])
    refuse(233, "3 and 17", *bare, [5], [0])
    refuse(234, "17 and 4", *bare, [0], [0] * 65536, room=LIMIT)
    refuse(235, "17 and 5", *bare, [0], [1])
    refuse(236, "17, 4 and 5", *bare, [0], [0] * 65535 + [1], room=LIMIT)


words()
counts()
numbers()
one_refusal()
two_refusals()
loose_nodes()
pockets()
heavy_weights()
