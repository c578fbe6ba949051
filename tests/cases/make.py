#!/usr/bin/env python3
"""Case files and the line that each must answer, from document 01's "Case file lines", 02's E4, E5 and E6 and DECISIONS 48 and 98.

  tests/cases/make.py          writes NAME.case and NAME.line beside itself
  tests/cases/make.py --check  says nothing where the files are those that it would write

This is an implementation of its own: it splits a file at its line feeds, judges each line, replays, and writes the answer.
"""
import random
import sys
from pathlib import Path

HERE = Path(__file__).resolve().parent
NONE = 65535
HEAVIEST = 4095


class Refused(Exception):
    pass


def judge(data):
    """The net, marking and word of a file, or Refused(number, line)."""
    pieces = data.split(b"\n")
    tail = pieces.pop()
    want, net, line = "01", {"pre": [], "post": [], "word": []}, 0
    for piece in pieces:
        line += 1
        want = frame(want, net, piece, line)
    if tail:
        raise Refused(11, line + 1)
    if want != "05":
        raise Refused(12, line + 1)
    return net


def frame(want, net, piece, line):
    if not 2 <= len(piece) <= 516 or len(piece) % 2 or any(c not in b"0123456789ABCDEF" for c in piece):
        raise Refused(11, line)
    body = bytes.fromhex(piece.decode("ascii"))
    kind, rest = "%02X" % body[0], body[1:]
    if kind == "06" and want == "03" and "marks" not in net:
        net["marks"] = marks_of(rest, net["P"], line)
        return "03"
    if kind != want and (kind, want) != ("07", "04"):
        raise Refused(12, line)
    if kind == "01":
        if len(rest) != 2:
            raise Refused(12, line)
        if not (1 <= rest[0] <= 64 and 1 <= rest[1] <= 64):
            raise Refused(1, line)
        net["P"], net["T"] = rest
        return "02"
    places = net["P"]
    if kind in ("02", "03"):
        if len(rest) != 2 * places:
            raise Refused(12, line)
        numbers = [int.from_bytes(rest[k:k + 2], "big") for k in range(0, len(rest), 2)]
        if kind == "02":
            net["caps"] = numbers
            return "03"
        if any(n == 65535 or n > c for n, c in zip(numbers, net["caps"])):
            raise Refused(3, line)
        net["initial"] = numbers
        net.setdefault("marks", [0] * places)
        return "04"
    if want == "04":
        weights = weights_of(kind, rest, places, len(net["pre"]), line)
        net["pre"].append(weights[:places])
        net["post"].append(weights[places:])
        if len(net["pre"]) < net["T"]:
            return "04"
        if is_loose(net):
            raise Refused(17, line)
        return "05"
    if not 1 <= len(rest) <= 64 or len(net["word"]) % 64:
        raise Refused(12, line)
    if len(net["word"]) + len(rest) > 65535:
        raise Refused(4, line)
    if any(letter >= net["T"] for letter in rest):
        raise Refused(5, line)
    net["word"] += rest
    return "05"


def weights_of(kind, rest, places, index, line):
    """The weights of a row, Pre before Post: bytes in a 04; document 02, E6: a "frame 07 has two-byte weights and is used for a
    transition exactly when one of its weights is over 255; an 07 with none such is refusal 12"; 18 for one over 4,095."""
    size = 2 if kind == "07" else 1
    if len(rest) != 1 + 2 * size * places or rest[0] != index:
        raise Refused(12, line)
    weights = [int.from_bytes(rest[k:k + size], "big") for k in range(1, len(rest), size)]
    if kind == "07" and max(weights) <= 255:
        raise Refused(12, line)
    if max(weights) > HEAVIEST:
        raise Refused(18, line)
    return weights


def marks_of(rest, places, line):
    """Document 02, E5: "A frame 06, eight bytes, place 0 the lowest bit of the last byte"; "A bit at or past P, or an all-zero
    mask, is refusal 12"; "the file reader gives 1"."""
    mask = int.from_bytes(rest, "big")
    if len(rest) != 8 or mask == 0 or mask >> places:
        raise Refused(12, line)
    return [mask >> p & 1 for p in range(places)]


def is_loose(net):
    """Document 02, E4: "some place or transition has no arc"; "in a file, on the line of the last transition"."""
    rows = [[a + b for a, b in zip(pre, post)] for pre, post in zip(net["pre"], net["post"])]
    return not all(map(any, rows)) or not all(map(any, zip(*rows)))


def replayed(net):
    """The verdict line of a net, marking and word, loose or not."""
    marking = list(net["initial"])
    for at, letter in enumerate(net["word"]):
        pre, post = net["pre"][letter], net["post"][letter]
        short = [p for p in range(net["P"]) if marking[p] < pre[p]]
        if short:
            return "8101%08X%02X\n" % (at, short[0])
        after = [m - a + b for m, a, b in zip(marking, pre, post)]
        level = [marking[p] + post[p] if net["marks"][p] else after[p] for p in range(net["P"])]  # E5: a pocket's "tokens plus Post"
        over = [p for p in range(net["P"]) if net["caps"][p] != NONE and level[p] > net["caps"][p]]
        if over:
            return "8102%08X%02X\n" % (at, over[0])
        marking = after
    return "8100%08X%s\n" % (len(net["word"]), "".join("%08X" % m for m in marking))


def answer(data):
    """The verdict line of a file."""
    try:
        net = judge(data)
    except Refused as refusal:
        number, line = refusal.args
        return "82%02X%08X\n" % (number, line)
    return replayed(net)


def narrow_row(t, weights):
    """A frame 04, of the weights of Pre and then of Post."""
    return "04%02X" % t + "".join("%02X" % w for w in weights)


def wide_row(t, weights):
    """A frame 07."""
    return "07%02X" % t + "".join("%04X" % w for w in weights)


def lines_of(places, transitions, caps, initial, pre, post, word, marks=()):
    out = ["01%02X%02X" % (places, transitions), "02" + "".join("%04X" % c for c in caps)]
    if any(marks):  # E5: "written only if some place is a pocket"
        out.append("06%016X" % sum(1 << p for p, mark in enumerate(marks) if mark))
    out.append("03" + "".join("%04X" % m for m in initial))
    for t in range(transitions):
        weights = list(pre[t]) + list(post[t])
        out.append(narrow_row(t, weights) if max(weights, default=0) <= 255 else wide_row(t, weights))
    for k in range(0, len(word), 64):
        out.append("05" + "".join("%02X" % b for b in word[k:k + 64]))
    return out


def text(lines):
    return "".join(line + "\n" for line in lines).encode("ascii")


WHOLE = ["010303", "02FFFFFFFF0005", "03000100000000", "0400010000000100", "0401000100010002", "0402000003000000", "050001000102"]


def word_case(word):
    return text(WHOLE[:6] + ["05" + "".join("%02X" % b for b in word[k:k + 64]) for k in range(0, len(word), 64)])


def big(places, transitions, letters, rng, marks=(), by=1):
    pre = [[0] * places for _ in range(transitions)]
    post = [[0] * places for _ in range(transitions)]
    for t in range(transitions):
        pre[t][t % places], post[t][(t + 1) % places] = by, by
    for p in range(transitions + 1, places):  # what no transition has reached yet
        post[0][p] = by
    word = [t % transitions for t in range(letters)]
    return text(lines_of(places, transitions, [NONE] * places, [by] + [0] * (places - 1), pre, post, word, marks))


def wire(held):
    """Gives each loose node a loop of weight 1, the first that leaves the line as it is."""
    line, cells = replayed(held), [(p, t) for t in range(held["T"]) for p in range(held["P"])]
    has_arc = lambda p, t: held["pre"][t][p] or held["post"][t][p]
    for node in [(p, None) for p in range(held["P"])] + [(None, t) for t in range(held["T"])]:
        touching = [(p, t) for p, t in cells if node in ((p, None), (None, t))]
        if any(has_arc(*cell) for cell in touching):
            continue
        for p, t in touching:
            held["pre"][t][p] = held["post"][t][p] = 1
            if replayed(held) == line:
                break
            held["pre"][t][p] = held["post"][t][p] = 0
    assert not is_loose(held)


def loose_cases():
    """Nodes without an arc: 17, on the line of the last transition."""
    row = {0: "0400010000000100", 1: "0401000100010002", 2: "0402000003000000"}
    for name, rows in (
        ("place-0", ["0400000000000100", "0401000100000002", row[2]]),
        ("place-1", ["0400010000000000", "0401000000010002", row[2]]),
        ("place-2", [row[0], "0401000100010000", "0402010000000000"]),
        ("transition-0", ["0400000000000000", row[1], row[2]]),
        ("transition-1", ["0400010000000102", "0401000000000000", row[2]]),
        ("transition-2", [row[0], row[1], "0402000000000000"]),
        ("both", ["0400000000000000", "0401000100010000", "0402010000000000"]),
        ("all", ["0400000000000000", "0401000000000000", "0402000000000000"]),
    ):
        yield "loose-" + name, text(WHOLE[:3] + rows + WHOLE[6:])
    for name, rows in (
        ("takes", ["0400010100000100", "0401000100000000", row[2]]),  # nothing is put into place 0 or 2
        ("puts", ["0400000100010000", "0401000100000002", "0402000100000000"]),  # nothing is taken from place 0 or 2
        ("loop", [row[0], row[1], "0402000001000001"]),  # transition 2 changes nothing
    ):
        yield "wired-" + name, text(WHOLE[:3] + rows + WHOLE[6:])
    first = ["0400000000000000", row[1], row[2]]  # transition 0 is loose
    last = [row[0], row[1], "0402000000000000"]
    yield "loose-then-letter-3", text(WHOLE[:3] + first + ["050003"])
    yield "loose-then-no-letter", text(WHOLE[:3] + first + ["05"])
    yield "loose-then-too-many", text(["010102", "02FFFF", "030000", "04000001", "04010000"] + ["05" + "00" * 64] * 1024)
    yield "loose-no-word", text(WHOLE[:3] + last)
    yield "loose-no-feed", text(WHOLE[:3] + last)[:-1]
    yield "loose-then-no-feed", text(WHOLE[:3] + last + WHOLE[6:])[:-1]
    yield "loose-and-tokens", text(WHOLE[:2] + ["03000100000006"] + first + WHOLE[6:])
    yield "loose-and-counts", text(["010003"] + WHOLE[1:3] + first + WHOLE[6:])
    yield "loose-and-index", text(WHOLE[:3] + last[:2] + ["0403000000000000"] + WHOLE[6:])
    yield "loose-and-length", text(WHOLE[:3] + last[:2] + ["040200000000000000"] + WHOLE[6:])
    yield "loose-and-digit", text(WHOLE[:3] + last[:2] + ["040200000000000G"] + WHOLE[6:])
    yield "loose-and-missing", text(WHOLE[:3] + first[:2])
    yield "loose-and-index-before", text(WHOLE[:3] + [first[0], "0400000100010002", first[2]] + WHOLE[6:])
    yield "loose-one", text(["010101", "02FFFF", "030000", "04000000", "0500"])
    rows = lambda loose: [[0 if p == loose else 1 for p in range(64)]] * 64
    nothing = [[0] * 64] * 64
    yield "loose-place-63", text(lines_of(64, 64, [NONE] * 64, [1] * 64, rows(63), nothing, [0]))
    yield "loose-transition-63", text(lines_of(64, 64, [NONE] * 64, [1] * 64, rows(None)[:63] + [[0] * 64], nothing, [0]))
    yield "wired-64", text(lines_of(64, 64, [NONE] * 64, [1] * 64, [[int(p == t) for p in range(64)] for t in range(64)], nothing, [0]))


def mask_cases():
    """Frame 06: where it may stand, what it may hold, and what it does."""
    with_mask = lambda mask, tail=WHOLE[2:]: text(WHOLE[:2] + [mask] + tail)
    good = "060000000000000004"
    yield "mask-2", with_mask(good)
    yield "mask-all", with_mask("060000000000000007")
    yield "mask-uncapped", with_mask("060000000000000001")
    for name, mask in (
        ("zero", "060000000000000000"), ("past", "060000000000000008"), ("past-and-good", "06000000000000000C"), ("past-63", "068000000000000000"),
        ("first-byte", "060400000000000000"), ("bare", "06"), ("short", "0600000000000004"), ("long", "06000000000000000400"),
        ("long-in-front", "06000000000000000004"), ("longest", "06" + "00" * 128 + "04"), ("lower", "06000000000000000a"), ("odd", "06000000000000004"),
    ):
        yield "mask-" + name, with_mask(mask)
    for k in range(8):
        if k != 2:
            yield "mask-before-line-%d" % (k + 1), text(WHOLE[:k] + [good] + WHOLE[k:])
    yield "mask-twice", text(WHOLE[:2] + [good, good] + WHOLE[2:])
    yield "mask-twice-another", text(WHOLE[:2] + [good, "060000000000000001"] + WHOLE[2:])
    yield "mask-again-after-03", text(WHOLE[:2] + [good, WHOLE[2], good] + WHOLE[3:])
    yield "mask-ends-the-file", text(WHOLE[:2] + [good])
    yield "mask-no-feed", text(WHOLE[:2] + [good])[:-1]
    yield "mask-zero-no-feed", text(WHOLE[:2] + ["060000000000000000"])[:-1]
    # the lines after it have the next numbers
    yield "mask-then-tokens", with_mask(good, ["03000100000006"] + WHOLE[3:])
    yield "mask-then-index", with_mask(good, WHOLE[2:4] + ["0402000100010002"] + WHOLE[5:])
    yield "mask-then-loose", with_mask(good, WHOLE[2:5] + ["0402000000000000"] + WHOLE[6:])
    yield "mask-then-missing", with_mask(good, WHOLE[2:5])
    yield "mask-then-letter", with_mask(good, WHOLE[2:6] + ["050003"])
    yield "mask-then-no-word", with_mask(good, WHOLE[2:6])
    # tokens of four places where a 06 may stand: eight bytes
    four = lambda third: text(lines_of(4, 1, [9] * 4, [1] * 4, [[1] * 4], [[1] * 4], [0])).replace(b"\n03", b"\n" + third)
    yield "mask-for-tokens", four(b"06")
    yield "mask-then-tokens-4", four(b"06000000000000000F\n03")
    yield "mask-64-place-63", big(64, 64, 70, None, [0] * 63 + [1])
    yield "mask-64-place-56", big(64, 64, 70, None, [0] * 56 + [1] + [0] * 7)
    yield "mask-64-place-7", big(64, 64, 70, None, [0] * 7 + [1] + [0] * 56)
    yield "mask-64-all", big(64, 64, 65535, None, [1] * 64)
    yield "mask-1", big(1, 1, 3, None, [1])
    # what a pocket does: of one place, capacity, tokens, Pre, Post; and its mark
    one = lambda cap, tokens, pre, post, mark, word: text(lines_of(1, len(pre), [cap], [tokens], [[a] for a in pre], [[b] for b in post], word, [mark]))
    for name, cap, tokens, pre, post, word in (
        ("full-loop", 1, 1, [1], [1], [0]), ("room-for-one", 2, 1, [1], [1], [0] * 3), ("fits", 5, 2, [2], [3], [0]), ("one-over", 4, 2, [2], [3], [0]),
        ("post-alone-fits", 3, 2, [2], [3], [0]), ("short-first", 3, 1, [2], [3], [0]), ("only-takes", 1, 1, [1], [0], [0]), ("no-capacity", NONE, 65534, [255], [255], [0] * 3),
        ("capacity-0", 0, 0, [0, 1], [1, 0], [0]), ("loop-0", 0, 0, [1], [1], [0]), ("takes-first", 2, 2, [1, 1], [0, 1], [1, 0, 1]), ("takes-then", 2, 2, [1, 1], [0, 1], [0, 1, 1]),
        ("most", 65534, 65279, [255], [255], [0] * 2), ("most-over", 65534, 65280, [255], [255], [0] * 2),
    ):
        yield "pocket-" + name, one(cap, tokens, pre, post, 1, word)
        yield "plain-" + name, one(cap, tokens, pre, post, 0, word)
    # two places over, of which the higher is a pocket, the lower, both
    for mask in range(1, 4):
        yield "pocket-two-%d" % mask, text(lines_of(2, 1, [1, 1], [1, 1], [[1, 1]], [[1, 1]], [0], [mask & 1, mask >> 1]))
    yield "pocket-then-short", text(lines_of(2, 1, [1, 9], [1, 0], [[1, 1]], [[1, 0]], [0], [1, 0]))


def wide_cases():
    """Frame 07 and weights up to 4,095: where it may stand, what it may hold, 18, and what large weights do."""
    def of(rows, word=(0, 1, 0, 1, 2), caps=(NONE, NONE, NONE), initial=(1, 0, 0)):
        return text(lines_of(3, len(rows), caps, initial, [r[:3] for r in rows], [r[3:] for r in rows], word))
    net = [[1, 0, 0, 0, 1, 0], [0, 1, 0, 1, 0, 2], [0, 0, 3, 0, 0, 0]]  # 01's case, which has a capacity at place 2

    def put(t, k, weight):
        """01's case with this weight at place k of transition t, those of Post from 3 on."""
        return [[weight if (t, k) == (u, i) else w for i, w in enumerate(row)] for u, row in enumerate(net)]
    # the largest weight of a frame 04, the smallest of an 07, the largest of all and what is over it: in Pre and Post, at the first
    # and the last place, of the first and the last transition
    for t in (0, 2):
        for side, k in (("pre-0", 0), ("pre-2", 2), ("post-0", 3), ("post-2", 5)):
            for weight in (255, 256, 4095, 4096, 65535):
                yield "wide-%d-%s-%d" % (t, side, weight), of(put(t, k, weight))
    wide = [[256 * w for w in row] for row in net]
    yield "wide-all", of(wide, initial=(256, 0, 0))
    yield "wide-first-two", of(wide[:2] + net[2:], initial=(256, 0, 0))
    yield "wide-last", of(net[:2] + wide[2:])
    yield "wide-middle", of([net[0], wide[1], net[2]], initial=(300, 0, 0))
    yield "wide-no-word", of(wide, word=())
    # an 07 in which no weight is over 255
    small = [wide_row(t, row) for t, row in enumerate(net)]
    for t in range(3):
        yield "wide-small-%d" % t, text(WHOLE[:3 + t] + [small[t]] + WHOLE[4 + t:])
    yield "wide-zeros", text(WHOLE[:5] + [wide_row(2, [0] * 6)] + WHOLE[6:])
    yield "wide-small-255", text(WHOLE[:5] + [wide_row(2, [0, 0, 255, 255, 255, 255])] + WHOLE[6:])
    yield "wide-small-last-256", text(WHOLE[:5] + [wide_row(2, [0, 0, 255, 255, 255, 256])] + WHOLE[6:])
    # lengths, indices, digits
    good = wide_row(1, [0, 1, 0, 1, 0, 4095])
    row = lambda middle: text(WHOLE[:1] + ["02FFFFFFFFFFFF"] + WHOLE[2:4] + [middle] + WHOLE[5:])
    for name, middle in (
        ("good", good), ("short", good[:-2]), ("long", good + "00"), ("half", "0701" + "00" * 6), ("narrow-twice", "0401" + good[4:]), ("bare", "07"), ("index-only", "0701"),
        ("index-0", "0700" + good[4:]), ("index-2", "0702" + good[4:]), ("index-past", "0703" + good[4:]), ("lower", good[:-1] + "f"), ("odd", good[:-1]), ("g", good[:-1] + "G"),
        ("low-byte-first", wide_row(1, [0, 0x0100, 0, 0x0100, 0, 0x0200])), ("heavy-low-byte-first", wide_row(1, [0, 0x0100, 0, 0xFF00, 0, 0x0200])), ("post-for-pre", wide_row(1, [1, 0, 4095, 0, 1, 0])),
    ):
        yield "wide-row-" + name, row(middle)
    for k in range(8):
        yield "wide-before-line-%d" % (k + 1), text(WHOLE[:k] + [good] + WHOLE[k:])
    yield "wide-twice", text(WHOLE[:4] + [good, good] + WHOLE[5:])
    yield "wide-ends-the-file", text(WHOLE[:4] + [good])
    # 18 beside other refusals, on its line and on others
    heavy = [wide_row(t, [4096 if w else 0 for w in r]) for t, r in enumerate(net)]
    loose = wide_row(2, [4096, 0, 0, 0, 0, 0])  # and no arc at place 2
    one = lambda k, line, head=WHOLE[:3]: text(head + WHOLE[3:3 + k] + [line] + WHOLE[4 + k:])
    yield "heavy-two-rows", text(WHOLE[:4] + heavy[1:] + WHOLE[6:])
    yield "heavy-and-tokens", one(1, heavy[1], WHOLE[:2] + ["03000100000006"])
    yield "heavy-and-counts", one(1, heavy[1], ["010003"] + WHOLE[1:3])
    yield "heavy-and-index", one(1, "0702" + heavy[1][4:])
    yield "heavy-and-length", one(1, heavy[1] + "00")
    yield "heavy-and-digit", one(1, heavy[1][:-1] + "a")
    yield "heavy-and-loose", text(WHOLE[:4] + [narrow_row(1, [0, 1, 0, 1, 0, 0]), loose] + WHOLE[6:])
    yield "heavy-then-loose", text(WHOLE[:4] + [wide_row(1, [0, 4096, 0, 1, 0, 0]), narrow_row(2, [1] + [0] * 5)] + WHOLE[6:])
    yield "heavy-then-letter", text(WHOLE[:5] + [heavy[2], "050003"])
    yield "heavy-then-small", text(WHOLE[:3] + heavy[:1] + small[1:2] + WHOLE[5:])
    yield "heavy-after-small", text(WHOLE[:3] + small[:1] + heavy[1:2] + WHOLE[5:])
    yield "heavy-then-index", text(WHOLE[:3] + heavy[:1] + ["0402000100010002"] + WHOLE[5:])
    yield "heavy-no-feed", text(WHOLE[:5] + heavy[2:])[:-1]
    yield "heavy-then-no-feed", text(WHOLE[:5] + heavy[2:] + WHOLE[6:])[:-1]
    yield "heavy-behind-mask", text(WHOLE[:2] + ["060000000000000004"] + WHOLE[2:4] + heavy[1:2] + WHOLE[5:])
    yield "wide-loose", text(WHOLE[:4] + [narrow_row(1, [0, 1, 0, 1, 0, 0]), wide_row(2, [4095] + [0] * 5)] + WHOLE[6:])
    yield "wide-wired-256", of(put(2, 2, 256))  # an arc whose low byte is 0
    # 64 places and 64 transitions: rows of 516 digits; the longest file there is
    yield "wide-64", big(64, 64, 70, None, by=4095)
    yield "wide-64-heavy", big(64, 64, 70, None, by=4096)
    yield "wide-64-all", big(64, 64, 65535, None, [1] * 64, by=4095)
    # what large weights do, at one place: short and over by one, a pocket, and the most tokens that a replay reaches
    place = lambda cap, tokens, pre, post, word, mark=0: text(lines_of(1, len(pre), [cap], [tokens], [[a] for a in pre], [[b] for b in post], word, [mark]))
    for name, *asked in (
        ("just-enough", NONE, 4095, [4095], [0], [0]), ("one-short", NONE, 4094, [4095], [0], [0]), ("just-fits", 8000, 3905, [0], [4095], [0]), ("one-over", 7999, 3905, [0], [4095], [0]),
        ("loop", 4095, 4095, [4095], [4095], [0] * 3), ("loop-one-short", 4095, 4094, [4095], [4095], [0]), ("pocket-loop", 4095, 4095, [4095], [4095], [0], 1), ("pocket-fits", 8190, 4095, [4095], [4095], [0] * 3, 1),
        ("most-tokens", NONE, 65534, [0], [4095], [0] * 65535), ("past-65535", NONE, 65534, [0], [1000], [0]), ("down-to-0", NONE, 65520, [4095], [0], [0] * 16), ("below-0", NONE, 65534, [4095], [0], [0] * 17),
    ):
        yield "kilograms-" + name, place(*asked)


def cases():
    yield "whole", text(WHOLE)
    # files that end too early: DECISIONS 98
    yield "ends-no-feed", b"010303"
    yield "ends-empty", b""
    yield "ends-lone-feed", b"\n"
    yield "ends-last-byte", text(WHOLE)[:-1]
    yield "ends-five-lines", text(WHOLE[:5])
    # every number of lines, whole and cut
    for n in range(1, 8):
        yield "first-%d" % n, text(WHOLE[:n])
        yield "cut-%d" % n, text(WHOLE[:n])[:-1]
    # a fault of each kind on each line
    for k in range(7):
        line = WHOLE[k]
        for name, new in (("lower", line[:-2] + "0a"), ("return", line + "\r"), ("blank", line + "  "), ("odd", line + "0"), ("empty", ""),
                          ("nul", line[:-2] + "\0\0"), ("long", line + "00"), ("short", line[:-2]), ("kind", "08" + line[2:]), ("six", "06" + line[2:]), ("seven", "07" + line[2:]), ("zero", "00" + line[2:]), ("colon", line[:-1] + ":"), ("at", line[:-1] + "@"), ("g", line[:-1] + "G"), ("slash", line[:-1] + "/")):
            yield "line%d-%s" % (k + 1, name), text(WHOLE[:k] + [new] + WHOLE[k + 1:])
        yield "line%d-twice" % (k + 1), text(WHOLE[:k] + [line, line] + WHOLE[k + 1:])
        yield "line%d-missing" % (k + 1), text(WHOLE[:k] + WHOLE[k + 1:])
    for k in range(6):
        yield "swapped-%d" % (k + 1), text(WHOLE[:k] + [WHOLE[k + 1], WHOLE[k]] + WHOLE[k + 2:])
    for k in range(1, 6):
        yield "after-the-end-%d" % k, text(WHOLE + [WHOLE[k - 1]])
    # counts
    for name, counts in (("none", "010003"), ("no-transition", "010300"), ("p65", "014103"), ("t65", "010341"), ("both", "014141"), ("p255", "01FF01")):
        yield "counts-" + name, text([counts] + WHOLE[1:])
    yield "counts-length-first", text(["01000300"] + WHOLE[1:])
    # tokens
    for name, tokens in (("full", "03000100000005"), ("over", "03000100000006"), ("most", "03FFFEFFFE0005"), ("none", "03FFFF00000000"), ("last", "0300010000FFFF")):
        yield "tokens-" + name, text(WHOLE[:2] + [tokens] + WHOLE[3:])
    yield "tokens-before-later-fault", text(WHOLE[:2] + ["03000100000006", "XX"] + WHOLE[4:])
    yield "cap-zero", text([WHOLE[0], "02FFFFFFFF0000"] + WHOLE[2:])
    # index of a transition
    for name, row in (("wrong", "0401010000000100"), ("skip", "0402010000000100"), ("again", "0400000100010002")):
        yield "index-" + name, text(WHOLE[:4] + [row] + WHOLE[5:])
    # words
    for name, word in (("empty", []), ("sample-1", [0, 1, 0, 1]), ("sample-2", [0, 1, 0, 1, 0, 1]), ("sample-3", [2]), ("letter-3", [0, 3]), ("letter-255", [255]),
                       ("63", [0, 1, 0, 1, 2] * 12 + [0, 1, 0]), ("64", [0, 1, 0, 1, 2] * 12 + [0, 1, 0, 1]), ("65", [0, 1, 0, 1, 2] * 13), ("128", ([0, 1, 0, 1, 2] * 26)[:128]), ("129", ([0, 1, 0, 1, 2] * 26)[:129])):
        yield "word-" + name, word_case(word)
    yield "word-no-letter", text(WHOLE[:6] + ["05"])
    yield "word-65-on-a-line", text(WHOLE[:6] + ["05" + "00" * 65])
    yield "word-short-middle", text(WHOLE[:6] + ["05" + "00" * 63, "0500"])
    yield "word-short-then-bad", text(WHOLE[:6] + ["05" + "00" * 63, "0507"])
    yield "word-bad-in-first", text(WHOLE[:6] + ["05" + "00" * 63 + "03", "0500"])
    yield "word-bad-in-second", text(WHOLE[:6] + ["05" + "00" * 64, "0503"])
    rng = random.Random(7)
    one = ["010101", "02FFFF", "030000", "04000001"]
    full = ["05" + "00" * 64] * 1023
    yield "letters-65535", text(one + full + ["05" + "00" * 63])
    yield "letters-65536", text(one + full + ["05" + "00" * 64])
    yield "letters-65535-and-one", text(one + full + ["05" + "00" * 63, "0500"])
    yield "letters-65536-bad-letter", text(one + full + ["05" + "00" * 63 + "09"])
    yield "letters-65472", text(one + full)
    yield "places-64", big(64, 64, 200, rng)
    yield "places-64-whole", big(64, 64, 65535, rng)
    yield "places-1", big(1, 1, 3, rng)
    # the length of a line
    yield "digits-260", text(["01" + "00" * 129])
    yield "digits-262", text(["01" + "00" * 130])
    yield "digits-261", text(["01" + "00" * 129 + "0"])
    yield "digits-260-row", big(64, 1, 5, rng)
    yield "digits-262-row", big(64, 1, 5, rng).replace(b"\n05", b"00\n05")
    yield "digits-516", text(["01" + "00" * 257])
    yield "digits-517", text(["01" + "00" * 257 + "0"])
    yield "digits-518", text(["01" + "00" * 258])
    yield "digits-516-row", big(64, 1, 5, rng, by=256)
    yield "digits-518-row", big(64, 1, 5, rng, by=256).replace(b"\n05", b"00\n05")
    yield "digits-514-row", big(64, 1, 5, rng, by=256).replace(b"00\n05", b"\n05")
    yield "megabyte", b"0" * 1000000
    yield "megabyte-after-whole", text(WHOLE) + b"0" * 1000000
    yield "nul-bytes", b"\0" * 64
    yield "carriage-returns", text(WHOLE).replace(b"\n", b"\r\n")
    yield "feeds", b"\n" * 5
    yield "high-bytes", b"\xff\xfe\n"
    yield from loose_cases()
    yield from mask_cases()
    yield from wide_cases()
    # blocks short and over on believable nets, by chance
    for k in range(30):
        p, t = rng.randint(1, 9), rng.randint(1, 6)
        caps = [rng.choice([NONE, NONE, rng.randint(0, 9), 65534]) for _ in range(p)]
        initial = [rng.randint(0, min(c, 12)) for c in caps]
        pre = [[rng.choice([0, 0, 1, 2]) for _ in range(p)] for _ in range(t)]
        post = [[rng.choice([0, 0, 1, 2, rng.choice([0, 255])]) for _ in range(p)] for _ in range(t)]
        word = [rng.randrange(t) for _ in range(rng.choice([0, 1, 5, 64, 100, 300]))]
        wire({"P": p, "T": t, "caps": caps, "marks": [0] * p, "initial": initial, "pre": pre, "post": post, "word": word})
        data = text(lines_of(p, t, caps, initial, pre, post, word))
        yield "chance-%02d" % k, data
        if k % 3 == 0:
            at = rng.randrange(len(data))
            yield "damaged-%02d" % k, data[:at] + bytes([rng.randrange(256)]) + data[at + 1:]
    # the same with pockets, and with loops
    for k in range(20):
        p, t = rng.randint(1, 5), rng.randint(1, 4)
        caps = [rng.choice([NONE, rng.randint(2, 6), rng.randint(4, 9)]) for _ in range(p)]
        marks = [rng.choice([0, 1]) for _ in range(p)]
        initial = [rng.randint(2, min(c, 6)) for c in caps]
        pre = post = [[0]]
        while is_loose({"pre": pre, "post": post}):
            pre = [[rng.choice([0, 0, 1, 2]) for _ in range(p)] for _ in range(t)]
            post = [[rng.choice([0, a, a, a + 1]) for a in row] for row in pre]
        word = [rng.randrange(t) for _ in range(rng.choice([1, 5, 20]))]
        yield "chance-pockets-%02d" % k, text(lines_of(p, t, caps, initial, pre, post, word, marks))
    # and with weights up to 4,095
    for k in range(20):
        p, t = rng.randint(1, 5), rng.randint(1, 4)
        caps = [rng.choice([NONE, rng.randint(4000, 9000), 65534]) for _ in range(p)]
        marks = [rng.choice([0, 0, 1]) for _ in range(p)]
        initial = [rng.randint(2000, min(c, 9000)) for c in caps]
        pre = post = [[0]]
        while is_loose({"pre": pre, "post": post}):
            pre = [[rng.choice([0, 0, 1, 255, 256, rng.randint(1, 4095)]) for _ in range(p)] for _ in range(t)]
            post = [[rng.choice([0, a, 255, 256, rng.randint(0, 4095)]) for a in row] for row in pre]
        word = [rng.randrange(t) for _ in range(rng.choice([1, 5, 20]))]
        yield "chance-wide-%02d" % k, text(lines_of(p, t, caps, initial, pre, post, word, marks))


def main():
    check = "--check" in sys.argv[1:]
    made = dict(cases())
    for name, data in made.items():
        for path, want in ((HERE / (name + ".case"), data), (HERE / (name + ".line"), answer(data).encode("ascii"))):
            if not check:
                path.write_bytes(want)
            elif not path.exists() or path.read_bytes() != want:
                print("%s is not what make.py writes" % path.name)
    assert answer(made["whole"]) == "810000000005000000010000000000000001\n"
    if not check:
        print("%d case files" % len(made))


if __name__ == "__main__":
    main()
