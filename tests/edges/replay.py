#!/usr/bin/env python3
"""The edges of replay: the table replay.calls is this script's output.

    python3 tests/edges/replay.py > tests/edges/replay.calls

Written from document 01 and 02's E4, E5 and E6 alone, without the library's code: the nets are dictionaries from (place,
transition) to a weight, the numbers are unbounded, and every rule is spelled out as they word it. Answers: 129 0 letters fired; 129 1
position place, short; 129 2 position place, over; 130 refusal position. The room holds 7s at entry.
"""

from shared.calls import HEAVY, HUGE, LIGHT, LOOSE, NONE, WIRED, all_plain, call, group, heading, heavy, loose, net


def refusal(P, T, pre, post, caps, marks, initial, word, stretch, room):
    """The first refusal in order, 18 after 2 and 17 after 3, as (number, position), or None. `stretch` is None for a whole word."""
    # 1: a place or transition count outside 1..64
    if not (1 <= P <= 64 and 1 <= T <= 64):
        return 1, 0
    # 2: a lent list's or room's length disagrees with the counts, or a stretch ends before its start or past its word
    if [len(pre), len(post), len(caps), len(marks), len(initial), len(room)] != [P * T, P * T, P, P, P, P]:
        return 2, 0
    if stretch is not None:
        start, end = stretch
        if end < start or end > len(word):
            return 2, 0
        word = word[start:end]
    # 18: a weight over 4,095
    if heavy(P, T, pre, post):
        return heavy(P, T, pre, post)
    # 3: 65,535 tokens where not allowed, or tokens above capacity
    for p in range(P):
        if initial[p] == 65535 or (caps[p] != NONE and initial[p] > caps[p]):
            return 3, p
    # 17: a place or transition without an arc
    if loose(P, T, pre, post):
        return loose(P, T, pre, post)
    # 4: a word over 65,535 letters; 5: a letter names no transition
    if len(word) > 65535:
        return 4, 0
    for position, letter in enumerate(word):
        if letter not in range(T):
            return 5, position
    return None


def replay(P, T, pre, post, caps, marks, initial, word, stretch, room):
    """The answer's numbers, and the room afterwards."""
    refused = refusal(P, T, pre, post, caps, marks, initial, word, stretch, room)
    if refused is not None:
        return [130, *refused], room  # "A refusal leaves lent memory as found."
    if stretch is not None:
        word = word[stretch[0] : stretch[1]]
    Pre = {(p, t): pre[t * P + p] for p in range(P) for t in range(T)}
    Post = {(p, t): post[t * P + p] for p in range(P) for t in range(T)}
    capacity = {p: caps[p] for p in range(P) if caps[p] != NONE}
    m = dict(enumerate(initial))
    for position, t in enumerate(word):
        after = {p: m[p] + Post[p, t] - Pre[p, t] for p in m}
        level = {p: m[p] + Post[p, t] if marks[p] else after[p] for p in m}  # of a pocket "tokens plus Post must keep to the capacity"
        short = {p for p in m if not Pre[p, t] <= m[p]}
        over = {p for p in capacity if not level[p] <= capacity[p]}
        if short:  # "If any place is short, the lowest short place is named; else the lowest place over."
            return [129, 1, position, min(short)], list(m.values())
        if over:
            return [129, 2, position, min(over)], list(m.values())
        m = after
    return [129, 0, len(word)], list(m.values())


def say(case, edge, P, T, pre, post, caps, initial, word, stretch=None, room=None, marks=None):
    """A case's line, and above it which edge it is."""
    if edge:
        heading(edge)
    found = [7] * (P if room is None else room)
    marks = all_plain(P) if marks is None else marks
    numbers, left = replay(P, T, pre, post, caps, marks, initial, word, stretch, found)
    lent = {**net(P, T, pre, post, caps, marks), "initial": initial, "word": word}
    if stretch is not None:
        lent["start"], lent["end"] = stretch
    question = "replay_word" if stretch is None else "replay_stretch"
    call(case, question, {**lent, "room": found}, numbers, {"room": left})


def frames(text):
    """P, T, Pre, Post, capacities and tokens of a case file's frames 01 to 04."""
    lines = [bytes.fromhex(line) for line in text.split()]
    pairs = lambda line: [256 * line[k] + line[k + 1] for k in range(1, len(line), 2)]
    P, T = lines[0][1:]
    arcs = [line[2:] for line in lines if line[0] == 4]
    pre = [w for a in arcs for w in a[:P]]
    post = [w for a in arcs for w in a[P:]]
    return P, T, pre, post, pairs(lines[1]), pairs(lines[2])


# The net of 01's case, as its frames give it.
SAMPLE = frames(
    """010303 02FFFFFFFF0005 03000100000000
    0400010000000100 0401000100010002 0402000003000000"""
)


def samples():
    group("the net of 01's case")
    for case, edge, word in [
        (1, "sample 1", [0, 1, 0, 1]),
        (2, "sample 2", [0, 1, 0, 1, 0, 1]),
        (3, "sample 3", [2]),
        (4, "sample 4", []),
        (5, "the word of the case file", [0, 1, 0, 1, 2]),
    ]:
        say(case, edge, *SAMPLE, word)


def counts():
    group("64 places and 64 transitions, Pre and Post by the number of the entry; then counts outside 1 to 64")
    # an entry's number is t x 64 + p
    pre = [k % 6 for k in range(64 * 64)]
    post = [k % 7 for k in range(64 * 64)]
    for case, edge, cap, tokens, word in [
        (11, "fires", NONE, 20, [0, 63, 31, 62]),
        (12, "short at the last place, at the last transition", NONE, 2, [1, 63]),
        (13, "over at the last place", 22, 20, [4, 63]),
        (14, "letter 64 names no transition", NONE, 20, [0, 63, 64]),
    ]:
        say(case, edge, 64, 64, pre, post, [NONE] * 63 + [cap], [20] * 63 + [tokens], word)
    say(15, "65 places", 65, 1, [0] * 65, [0] * 65, [NONE] * 65, [0] * 65, [0])
    say(16, "65 transitions", 1, 65, [0] * 65, [0] * 65, [4], [0], [0])
    say(17, "no places", 0, 1, [], [], [], [], [])
    say(18, "no transitions", 1, 0, [], [], [4], [0], [])
    say(19, "as many places as can be said", HUGE, 1, [], [], [], [], [], room=0)
    say(20, "as many transitions", 1, HUGE, [], [], [4], [0], [])
    say(21, "a product that 64 bits would cut to 0", 2**32, 2**32, [], [], [], [], [], room=0)


def one_place():
    group("one place and one transition: capacities, tokens, weights")
    for case, edge, takes, puts, cap, tokens, word in [
        (31, "exactly at capacity", 0, 2, 5, 3, [0]),
        (32, "one above", 0, 2, 4, 3, [0]),
        (33, "the capacity rule adds Change; with Post it would stop", 3, 4, 5, 4, [0]),
        (35, "capacity 0, one token put", 0, 1, 0, 0, [0]),
        (36, "capacity 0, one token there", 1, 0, 0, 1, [0]),
        (37, "no capacity: past 65,535", 0, 255, NONE, 65534, [0]),
        (38, "the largest capacity, full, a loop", 1, 1, 65534, 65534, [0]),
        (39, "the largest capacity, full, one more", 0, 1, 65534, 65534, [0]),
        (40, "65,534 tokens are allowed", 1, 0, NONE, 65534, []),
        (41, "65,535 are not, without capacity", 1, 0, NONE, 65535, []),
        (42, "nor with one", 1, 0, 65534, 65535, []),
        (43, "tokens at capacity", 1, 0, 5, 5, []),
        (44, "tokens above capacity", 1, 0, 5, 6, []),
        (45, "a loop on a full place", 1, 1, 5, 5, [0, 0]),
        (46, "a loop on an empty place", 1, 1, 5, 0, [0]),
        (47, "the largest weight, just enough", 4095, 0, NONE, 4095, [0]),
        (48, "the largest weight, one short", 4095, 0, NONE, 4094, [0]),
        (49, "the second letter is short", 2, 0, NONE, 3, [0, 0]),
        (50, "two letters fire, the third is over", 2, 3, 5, 3, [0, 0, 0, 0]),
        (51, "letter 1 with one transition", 0, 1, NONE, 0, [1]),
    ]:
        say(case, edge, 1, 1, [takes], [puts], [cap], [tokens], word)
    say(34, "capacity 0, nothing put there: beside it", 2, 2, [0, 0, 0, 0], [0, 1, 1, 0], [0, NONE], [0, 0], [0])


def three_places():
    group("three places and one transition: which place and cause are named")
    for case, edge, pre, post, caps, initial in [
        (61, "short at 2, though 0 is over", [0, 0, 1], [1, 1, 0], [4, 9, 9], [4, 0, 0]),
        (62, "short at 1 and 2", [0, 2, 2], [1, 0, 0], [9, 9, 9], [5, 1, 1]),
        (63, "over at 1 and 2", [0, 0, 0], [1, 1, 1], [9, 3, 3], [0, 3, 3]),
        (64, "short and over at 1", [0, 3, 0], [1, 9, 1], [9, 4, 9], [0, 2, 0]),
        (65, "short at 1, over at 0 and 2", [0, 1, 0], [5, 0, 5], [4, 4, 4], [0, 0, 0]),
        (66, "over at 2 alone", [1, 1, 0], [0, 1, 1], [9, 9, 6], [1, 1, 6]),
        (67, "fires, each place just so", [1, 1, 1], [2, 0, 1], [2, 1, 3], [1, 1, 3]),
        (68, "two bad markings: the lowest", [1, 1, 1], [0, 0, 0], [9, NONE, 9], [0, 65535, 10]),
        (69, "above capacity at the last place", [1, 1, 1], [0, 0, 0], [9, 9, 9], [9, 9, 10]),
        (70, "above capacity at the first place", [1, 1, 1], [0, 0, 0], [9, 0, 9], [10, 1, 0]),
    ]:
        say(case, edge, 3, 1, pre, post, caps, initial, [0])


def stretches():
    group("stretches of a word on 01's net")
    word = [0, 1, 0, 1, 2, 0, 1]
    for case, edge, w, start, end in [
        (71, "at the start", word, 0, 2),
        (72, "at the end", word, 5, 7),
        (73, "in the middle: blocked at its third letter", word, 2, 5),
        (74, "in the middle: blocked at its first letter", word, 1, 3),
        (75, "whole", word, 0, 7),
        (76, "empty at the start", word, 0, 0),
        (77, "empty in the middle", word, 3, 3),
        (78, "empty at the end", word, 7, 7),
        (79, "one letter", word, 4, 5),
        (80, "the empty word's only stretch", [], 0, 0),
        (81, "sample 2 as a stretch", [2, 2, 0, 1, 0, 1, 0, 1, 2], 2, 8),
        (82, "reversed", word, 5, 2),
        (83, "reversed by one", word, 3, 2),
        (84, "past the end", word, 5, 8),
        (85, "empty past the end", word, 8, 8),
        (86, "start past the end, and reversed", word, 9, 3),
        (87, "far past the end", word, 0, HUGE),
        (88, "empty, far past the end", word, HUGE, HUGE),
        (89, "reversed, as far as can be", word, HUGE, 0),
        (90, "past the empty word", [], 0, 1),
        (91, "both ends past the end", word, 8, 9),
    ]:
        say(case, edge, *SAMPLE, w, (start, end))


def letters():
    group("letters that name no transition")
    say(101, "wrong letters on both sides of the stretch", *SAMPLE, [3, 0, 1, 3], (1, 3))
    say(102, "at the stretch's first letter", *SAMPLE, [3, 0, 1, 3], (0, 3))
    say(103, "at its last letter", *SAMPLE, [3, 0, 1, 3], (1, 4))
    say(104, "two inside: the lowest", *SAMPLE, [0, 0, 255, 1, 3], (1, 5))
    say(105, "an empty stretch between two", *SAMPLE, [3, 3], (1, 1))
    say(106, "after a letter that is blocked", *SAMPLE, [2, 3])
    say(107, "at the first position", *SAMPLE, [3, 0])
    say(108, "at the last position", *SAMPLE, [0, 1, 0, 3])
    say(109, "the largest letter", *SAMPLE, [0, 255, 1])


def lengths():
    group("two places and two transitions: each length wrong by one in turn")
    for case, edge, pre, post, caps, initial, room in [
        (121, "all as they should be", 4, 4, 2, 2, 2),
        (122, "Pre too short", 3, 4, 2, 2, 2),
        (123, "Pre too long", 5, 4, 2, 2, 2),
        (124, "Post too short", 4, 3, 2, 2, 2),
        (125, "Post too long", 4, 5, 2, 2, 2),
        (126, "capacities too short", 4, 4, 1, 2, 2),
        (127, "capacities too long", 4, 4, 3, 2, 2),
        (128, "initial marking too short", 4, 4, 2, 1, 2),
        (129, "initial marking too long", 4, 4, 2, 3, 2),
        (130, "room too short", 4, 4, 2, 2, 1),
        (131, "room too long", 4, 4, 2, 2, 3),
        (132, "no room", 4, 4, 2, 2, 0),
        (133, "Pre and Post, as long as they should be together", 3, 5, 2, 2, 2),
    ]:
        say(case, edge, 2, 2, [1] * pre, [2] * post, [9] * caps, [4] * initial, [0, 1], room=room)


def pockets():
    group("pockets: of each case .1 is plain, the others are pockets, all alike")
    for k, (edge, takes, puts, cap, tokens, word) in enumerate([
        ("a loop on a full place", 1, 1, 1, 1, [0]),
        ("a loop with room for one more", 1, 1, 2, 1, [0, 0, 0]),
        ("tokens plus Post exactly at capacity", 2, 3, 5, 2, [0]),
        ("one above", 2, 3, 4, 2, [0]),
        ("Post alone would keep to it", 2, 3, 3, 2, [0]),
        ("the second letter is over", 1, 2, 4, 1, [0, 0, 0]),
        ("short and over: short", 2, 3, 3, 1, [0]),
        ("only taken from", 2, 0, 3, 3, [0]),
        ("only put into, exactly at capacity", 0, 2, 5, 3, [0]),
        ("only put into, one above", 0, 2, 4, 3, [0]),
        ("capacity 0, a loop", 1, 1, 0, 0, [0]),
        ("the largest capacity and weights, exactly", 4095, 4095, 65534, 61439, [0, 0]),
        ("one above", 4095, 4095, 65534, 61440, [0, 0]),
        ("no capacity: as a plain place", 4095, 4095, NONE, 65534, [0, 0]),
        ("no capacity, past 65,535", 1, 4095, NONE, 65534, [0, 0]),
    ]):
        for n, mark in enumerate([0, 1, 2, 128, 255], 1):
            say(f"{301 + k}.{n}", edge if n == 1 else "", 1, 1, [takes], [puts], [cap], [tokens], word, marks=[mark])
    group("pockets beside plain places: which is named, and that all the others are looked at as what they are")
    full = 3, 1, [1, 1, 1], [1, 1, 1], [2, 2, 2], [2, 2, 2], [0]
    for k, marks in enumerate([[0, 0, 0], [1, 0, 0], [0, 255, 0], [0, 0, 2], [0, 1, 1], [1, 1, 1]]):
        say(321 + k, f"full places, marks {marks}", *full, marks=marks)
        say(f"{321 + k}.1", "", *full, (0, 1), marks=marks)
    say(331, "short at the last place, though a pocket is over", 2, 1, [1, 1], [1, 0], [1, 9], [1, 0], [0], marks=[1, 0])
    say(332, "a plain place over, and a pocket with a higher number", 2, 1, [0, 1], [1, 1], [1, 1], [1, 1], [0], marks=[0, 1])
    say(333, "the capped pocket is over, the uncapped one is not", 2, 1, [1, 1], [1, 1], [NONE, 4], [65534, 4], [0], marks=[1, 1])
    say(334, "64 places, the last a full pocket", 64, 1, [1] * 64, [1] * 64, [9] * 64, [9] * 64, [0], marks=[0] * 63 + [1])
    say(335, "a pocket that is freed first", 1, 2, [1, 1], [0, 1], [2], [2], [0, 1, 1], marks=[1])
    say(336, "and one that is not", 1, 2, [1, 1], [0, 1], [2], [2], [1, 0, 1], marks=[1])
    say(337, "tokens above the capacity of a pocket: 3", *full[:5], [2, 2, 3], [0], marks=[0, 0, 1])
    group("marks of another length: 2, before 3 and after 1")
    for k, marks in enumerate([[], [0], [1], [0] * 3, [0] * 4]):
        say(341 + k, f"{len(marks)} marks of two places", 2, 2, [1] * 4, [2] * 4, [9, 9], [4, 4], [0, 1], marks=marks)
    say(346, "2 and 3", 1, 1, [1], [1], [4], [5], [0], marks=[])
    say(347, "1 and 2", 1, 65, [1] * 65, [1] * 65, [4], [0], [0], marks=[0, 0])
    say(348, "2 for a stretch", 1, 1, [1], [1], [4], [0], [0], (0, 1), marks=[0, 0])


LONG = [0] * 65537 + [9]  # 65,538 letters, the last of which is wrong on every net below


def pairs():
    group("two faults at once: the lower number is given")
    # one place of capacity 4
    for case, edge, T, arcs, tokens, word in [
        (141, "1 and 2", 65, 64, 0, [0]),
        (142, "1 and 3", 65, 65, 5, [0]),
        (143, "1 and 4", 65, 65, 0, LONG[:65536]),
        (144, "1 and 5", 65, 65, 0, [65]),
        (145, "2 and 3", 1, 2, 5, [0]),
        (146, "2 and 4", 1, 2, 0, LONG[:65536]),
        (147, "2 and 5", 1, 2, 0, [1]),
        (148, "3 and 4", 1, 1, 5, LONG[:65536]),
        (149, "3 and 5", 1, 1, 5, [1]),
        (150, "4 and 5", 1, 1, 0, LONG),
    ]:
        say(case, edge, 1, T, [1] * arcs, [0] * arcs, [4], [tokens], word)
    for case, edge, T, tokens, start, end in [
        (151, "1, and 2 for a reversed stretch", 65, 0, 2, 1),
        (152, "2 for a reversed stretch, and 3", 1, 5, 2, 1),
        (153, "2 for a stretch past the end, and 3", 1, 5, 0, 3),
        (154, "3, and 5 in the stretch", 1, 5, 1, 2),
        (155, "2 for a stretch past the end, and 5 in the word", 1, 0, 1, 3),
    ]:
        say(case, edge, 1, T, [1] * T, [0] * T, [4], [tokens], [9, 9], (start, end))


def loose_nodes():
    group("nodes without an arc: refusal 17; then nets that hang together by one arc")
    for k, (edge, P, T, pre, post) in enumerate(LOOSE):
        asked = P, T, pre, post, [9] * P, [1] * P, [0]
        say(200 + 2 * k, edge, *asked)
        say(201 + 2 * k, "the same, asked for a stretch", *asked, (0, 1))
    for k, (edge, P, T, pre, post) in enumerate(WIRED):
        say(230 + 2 * k, edge, P, T, pre, post, [9], [1], [0])
        say(231 + 2 * k, "the same, asked for a stretch", P, T, pre, post, [9], [1], [0], (0, 1))
    group("17 and another refusal")
    for case, edge, P, T, arcs, tokens, word in [
        (241, "1 and 17", 1, 65, 65, 0, [0]),
        (242, "2 and 17", 1, 2, 1, 0, [0]),
        (243, "3 and 17", 1, 1, 1, 5, [0]),
        (244, "17 and 4", 1, 1, 1, 0, LONG[:65536]),
        (245, "17 and 5", 1, 1, 1, 0, [1]),
        (246, "17, 4 and 5", 1, 1, 1, 0, LONG),
        (247, "17 and no letter", 1, 1, 1, 0, []),
    ]:
        asked = P, T, [0] * arcs, [0] * arcs, [4], [tokens], word
        say(case, edge, *asked)
        say(case + 10, "the same, asked for a stretch", *asked, (0, len(word)))
    say(261, "17, and 5 outside the stretch", 1, 1, [0], [0], [4], [0], [0, 9], (0, 1))
    say(262, "2 for a stretch past the end, and 17", 1, 1, [0], [0], [4], [0], [0], (0, 2))


def heavy_weights():
    group("weights over 4,095: refusal 18; then weights at the limit")
    for k, (edge, P, T, pre, post) in enumerate(HEAVY + LIGHT):
        asked = P, T, pre, post, [9000] * P, [4500] * P, [0]
        say(601 + 2 * k, edge, *asked)
        say(602 + 2 * k, "the same, asked for a stretch", *asked, (0, 1))
    group("weights of a byte and more: short and over by one, and a word of both")
    for k, (edge, pre, post, cap, tokens, word) in enumerate([
        ("256 taken, just there", [256], [0], NONE, 256, [0]),
        ("one short", [256], [0], NONE, 255, [0]),
        ("put, exactly at capacity", [0], [4095], 8000, 3905, [0]),
        ("one above", [0], [4095], 7999, 3905, [0]),
        ("256 times as much is not the same: 257 taken and 1 put", [257, 0], [0, 1], NONE, 257, [1, 0, 1]),
        ("4,095 down to 0, and one letter more", [4095], [0], NONE, 12285, [0] * 4),
        ("a bin in kilograms: two loads and a truck", [0, 4095], [1500, 0], 6000, 2600, [0, 0, 1, 0]),
        ("and a third load", [0, 4095], [1500, 0], 6000, 2600, [0, 0, 0]),
    ]):
        say(651 + k, edge, 1, len(pre), pre, post, [cap], [tokens], word)
    group("18 and another refusal")
    for k, (edge, T, arcs, tokens, word) in enumerate([
        ("1 and 18", 65, 65, 0, [0]),
        ("2 and 18", 1, 2, 0, [0]),
        ("18 and 3", 1, 1, 5, [0]),
        ("18 and 4", 1, 1, 0, LONG[:65536]),
        ("18 and 5", 1, 1, 0, [1]),
        ("18, 3, 4 and 5", 1, 1, 65535, LONG),
        ("18 and no letter", 1, 1, 0, []),
    ]):
        asked = 1, T, [4096] * arcs, [0] * arcs, [4], [tokens], word
        say(671 + 2 * k, edge, *asked)
        say(672 + 2 * k, "the same, asked for a stretch", *asked, (0, len(word)))
    say(691, "18 and 17: a loose place", 2, 1, [0, 4096], [0, 0], [4, 4], [0, 0], [0])
    say(692, "18 at the second transition and 17 at the first", 1, 2, [0, 4096], [0, 0], [4], [0], [0])
    say(693, "18 and 3 and 17", 2, 1, [0, 4096], [0, 0], [4, 4], [5, 0], [0])
    say(694, "2 for a stretch past the end, and 18", 1, 1, [4096], [0], [4], [0], [0], (0, 2))
    say(695, "18 though no letter names that transition", 1, 2, [1, 4096], [1, 0], [4], [1], [0])
    say(696, "2 for the marks, and 18", 1, 1, [4096], [0], [4], [0], [0], marks=[])


def long_words():
    group("65,535 letters and more")
    for case, edge, takes, puts, cap, tokens, letters in [
        (161, "the most tokens that a replay reaches", 0, 4095, NONE, 65534, 65535),
        (162, "one letter too many", 0, 4095, NONE, 65534, 65536),
        (163, "short at the last letter", 1, 0, NONE, 65534, 65535),
        (164, "over at the last letter", 0, 1, 65534, 0, 65535),
    ]:
        say(case, edge, 1, 1, [takes], [puts], [cap], [tokens], LONG[:letters])
    for case, edge, start, end in [
        (171, "65,535 letters of a longer word", 1, 65536),
        (172, "65,536 letters", 0, 65536),
        (173, "65,535 letters, the last one wrong", 3, 65538),
        (174, "65,536 letters, the last one wrong", 2, 65538),
        (175, "the whole of a word too long", 0, 65538),
        (176, "one letter near the end", 65536, 65537),
        (177, "the wrong letter alone", 65537, 65538),
        (178, "empty at the end", 65538, 65538),
        (179, "past the end", 65538, 65539),
        (180, "reversed", 65538, 0),
    ]:
        say(case, edge, 1, 1, [0], [1], [NONE], [0], LONG, (start, end))


if __name__ == "__main__":
    samples()
    counts()
    one_place()
    three_places()
    stretches()
    letters()
    lengths()
    pairs()
    long_words()
    loose_nodes()
    pockets()
    heavy_weights()
