#!/usr/bin/env python3
"""The edges of reading a case file from C: the table casefile.calls is this script's output.

    python3 tests/edges/casefile.py > tests/edges/casefile.calls

What a file holds or which line is faulty is judged by tests/cases/make.py, written from documents 01 and 02 alone. Many more files are
in tests/cases, where the program reads them; here are those that fill the rooms, or must not. Answers: 129 0 0 places
transitions letters; 130 refusal line. Rooms hold 7s at entry.
"""

import sys
from pathlib import Path

sys.path.insert(0, str(Path(__file__).resolve().parents[1] / "cases"))
from make import WHOLE, Refused, big, judge, loose_cases, mask_cases, text, wide_cases

from shared.calls import call, group, heading, quoted

SIZES = {"caps": 64, "marks": 64, "initial": 64, "pre": 4096, "post": 4096, "word": 65535}


def flat(rows):
    return [entry for row in rows for entry in row]


def read(case, edge, data, sizes={}):
    """A file read into rooms, of which some have another size."""
    heading(edge)
    found = {name: [7] * size for name, size in {**SIZES, **sizes}.items()}
    try:
        if sizes:
            raise Refused(2, 0)
        held = judge(data)
        answer = [129, 0, 0, held["P"], held["T"], len(held["word"])]
        net = {**held, "pre": flat(held["pre"]), "post": flat(held["post"])}
        left = {name: net[name] + room[len(net[name]) :] for name, room in found.items()}
    except Refused as refused:
        answer, left = [130, *refused.args], found
    call(case, "read_case", {"file": quoted(data), **found}, answer, left)


def whole():
    group("01's whole case, and files that end too early (DECISIONS 98)")
    read(1, "the whole case", text(WHOLE))
    read(2, "the first line without its line feed", b"010303")
    read(3, "the empty file", b"")
    read(4, "a lone line feed", b"\n")
    read(5, "the whole case without its last byte", text(WHOLE)[:-1])
    read(6, "its first five lines", text(WHOLE[:5]))
    read(7, "its first six lines: the empty word", text(WHOLE[:6]))


def rooms():
    group("rooms of another length: refusal 2, before the file is looked at")
    for k, (name, size) in enumerate(SIZES.items()):
        read(11 + 3 * k, f"{name} one too short", text(WHOLE), {name: size - 1})
        read(12 + 3 * k, f"{name} one too long", text(WHOLE), {name: size + 1})
        read(13 + 3 * k, f"no room for {name}", text(WHOLE), {name: 0})
    read(29, "a room too short, and an empty file", b"", {"caps": 63})


def digits():
    group("the length of a line")
    row = big(64, 1, 5, None)
    read(31, "260 digits, the row of a net of 64 places", row)
    read(32, "262 digits", row.replace(b"\n05", b"00\n05"))
    read(33, "260 digits of a frame that is too long: 12", text(["01" + "00" * 129]))
    read(34, "262 digits of it: 12 too", text(["01" + "00" * 130]))
    wide = big(64, 1, 5, None, by=256)
    read(35, "516 digits, the row of a net of 64 places with weights over 255", wide)
    read(36, "518 digits", wide.replace(b"\n05", b"00\n05"))
    read(37, "516 digits of a frame that is too long: 12", text(["01" + "00" * 257]))
    read(38, "518 digits of it: 11", text(["01" + "00" * 258]))
    read(39, "517 digits: 11", text(["01" + "00" * 257 + "0"]))


def counts():
    group("counts")
    read(41, "64 transitions", big(1, 64, 130, None))
    read(42, "65 places", text(["014103"] + WHOLE[1:]))
    read(43, "65 transitions", text(["010341"] + WHOLE[1:]))
    read(44, "no place", text(["010003"] + WHOLE[1:]))


def words():
    one = ["010101", "02FFFF", "030000", "04000001"] + ["05" + "00" * 64] * 1023
    group("words")
    read(51, "65,535 letters", text(one + ["05" + "00" * 63]))
    read(52, "65,536 letters", text(one + ["05" + "00" * 64]))
    read(53, "65,536 letters, the last one wrong", text(one + ["05" + "00" * 63 + "09"]))
    read(54, "a letter that names no transition", text(WHOLE[:6] + ["0500010003"]))
    read(55, "a line of fewer than 64 letters before another", text(WHOLE[:6] + ["05" + "00" * 63, "0500"]))


def faults():
    group("faults of other lines")
    read(61, "tokens exactly at capacity", text(WHOLE[:2] + ["03000100000005"] + WHOLE[3:]))
    read(62, "tokens above capacity", text(WHOLE[:2] + ["03000100000006"] + WHOLE[3:]))
    read(63, "the index of a transition", text(WHOLE[:4] + ["0402000100010002"] + WHOLE[5:]))
    read(64, "an unknown kind", text(WHOLE[:6] + ["080001000102"]))
    read(65, "a lower-case digit", text([WHOLE[0], "02ffffFFFF0005"] + WHOLE[2:]))


def loose_nodes():
    group("nodes without an arc: refusal 17 on the line of the last transition; the files of tests/cases of that name")
    for k, (name, data) in enumerate(loose_cases()):
        read(101 + k, name, data)
    read(141, "17 and rooms of another length: 2", dict(loose_cases())["loose-all"], {"pre": 4095})


def masks():
    group("frame 06, the marks: 1 and 0 in their room, zeros where there is no such frame; the files of tests/cases of that name")
    for k, (name, data) in enumerate(mask_cases()):
        if name.startswith("mask-"):
            read(201 + k, name, data)
    read(291, "a file that is refused, and a room for marks too short", dict(mask_cases())["mask-zero"], {"marks": 63})


def wide_rows():
    group("frame 07 and weights up to 4,095, and 18 on its line; the files of tests/cases of that name")
    for k, (name, data) in enumerate(wide_cases()):
        if not name.startswith("kilograms-"):
            read(401 + k, name, data)
    read(501, "a file that is refused, and a room for weights too short", dict(wide_cases())["heavy-two-rows"], {"post": 4095})


whole()
rooms()
digits()
counts()
words()
faults()
loose_nodes()
masks()
wide_rows()
