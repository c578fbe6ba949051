#!/usr/bin/env python3
"""The edges of summaries: the table summary.calls is this script's output.

    python3 tests/edges/summary.py > tests/edges/summary.calls

Written from document 01 and 02's E4, E5 and E6 alone, without the library's code: the numbers are unbounded, need and climb are the
largest over all letters and prefixes, each taken anew from their words. Answers: 129 0 made or yes, a summary with its places and letters;
129 1 no; 130 refusal position. Rooms hold 7s at entry. Where a case joins or asks what other calls made, those stand before
it, as .1 and .2 of its number.
"""

from itertools import accumulate

from shared.calls import HEAVIEST, HEAVY, HUGE, LIGHT, LOOSE, NONE, WIRED, all_plain, call, group, heading, heavy, loose, net


class Summary:
    def __init__(self, places, letters, slots):
        self.places, self.letters, self.slots = places, letters, (slots + [(0, 0, 0)] * 64)[:64]


NOTHING = Summary(0, 0, [])


def bad_count(n):
    return not 1 <= n <= 64


def summarise(P, T, pre, post, caps, word, stretch=None, marks=None):
    """(refusal or None, summary)"""
    marks = all_plain(P) if marks is None else marks
    if bad_count(P) or bad_count(T):
        return (1, 0), NOTHING
    if [len(pre), len(post), len(caps), len(marks)] != [P * T, P * T, P, P]:
        return (2, 0), NOTHING
    if stretch is not None:
        start, end = stretch
        if end < start or end > len(word):
            return (2, 0), NOTHING
        word = word[start:end]
    if heavy(P, T, pre, post):
        return heavy(P, T, pre, post), NOTHING
    if loose(P, T, pre, post):
        return loose(P, T, pre, post), NOTHING
    if len(word) > 65535:
        return (4, 0), NOTHING
    for position, t in enumerate(word):
        if t >= T:
            return (5, position), NOTHING
    slots = []
    for p in range(P):
        Pre = [pre[t * P + p] for t in word]
        Change = [post[t * P + p] - pre[t * P + p] for t in word]
        changes = list(accumulate(Change, initial=0))  # change of each prefix, the empty one first
        need = max([0] + [a - u for a, u in zip(Pre, changes)])
        climb = max(changes)
        if marks[p] and caps[p] != NONE:  # "the largest of 0 and, for each letter, the change before it plus its Post"
            climb = max([0] + [u + post[t * P + p] for t, u in zip(word, changes)])
        slots.append((need, climb, changes[-1]))
    return None, Summary(P, len(word), slots)


def empty(P):
    return ((1, 0), NOTHING) if bad_count(P) else (None, Summary(P, 0, []))


def ill(s):
    """The position of refusal 6, or None."""
    if s.letters > 65535:
        return 0
    for p, (need, climb, change) in enumerate(s.slots):
        if p < s.places:
            most = HEAVIEST * s.letters  # "with 4,095n in place of 255n" (02, E6)
            fine = 0 <= need <= most and 0 <= climb <= most and -need <= change <= climb
        else:
            fine = (need, climb, change) == (0, 0, 0)
        if not fine:
            return p
    return None


def join(a, b):
    if bad_count(a.places) or bad_count(b.places):
        return (1, 0), NOTHING
    if a.places != b.places:
        return (2, 0), NOTHING
    for s in a, b:
        if ill(s) is not None:
            return (6, ill(s)), NOTHING
    if a.letters + b.letters > 65535:
        return (7, 0), NOTHING
    slots = [
        (max(na, nb - ca), max(ka, ca + kb), ca + cb) for (na, ka, ca), (nb, kb, cb) in zip(a.slots, b.slots)
    ]
    return None, Summary(a.places, a.letters + b.letters, slots)


def ask(P, T, pre, post, caps, marks, marking, s, room):
    """(answer numbers, room)"""
    if bad_count(P) or bad_count(T) or bad_count(s.places):
        return [130, 1, 0], room
    if [len(pre), len(post), len(caps), len(marks), len(marking), len(room), s.places] != [P * T, P * T, P, P, P, P, P]:
        return [130, 2, 0], room
    if heavy(P, T, pre, post):
        return [130, *heavy(P, T, pre, post)], room
    for p in range(P):
        if marking[p] == 65535 or marking[p] > caps[p]:
            return [130, 3, p], room
    if loose(P, T, pre, post):
        return [130, *loose(P, T, pre, post)], room
    if ill(s) is not None:
        return [130, 6, ill(s)], room
    for p in range(P):
        need, climb, _ = s.slots[p]
        if marking[p] < need or (caps[p] != NONE and marking[p] + climb > caps[p]):
            return [129, 1], room
    return [129, 0], [marking[p] + s.slots[p][2] for p in range(P)]


def lists(s, which=""):
    """The three lists of a summary by name."""
    need, climb, change = zip(*s.slots)
    return {which + "need": need, which + "climb": climb, which + "change": change}


def whole(s, which):
    """A summary as it is lent."""
    return {which + "places": s.places, which + "letters": s.letters, **lists(s, which)}


ROOMS = lists(Summary(64, 0, [(7, 7, 7)] * 64))


def made(case, question, lent, result, rooms=ROOMS):
    """The line of a question that makes a summary; answers the summary."""
    refused, s = result
    if refused is None:
        call(case, question, {**lent, **rooms}, [129, 0, 0, s.places, s.letters], lists(s))
    else:
        call(case, question, {**lent, **rooms}, [130, *refused], rooms)  # "A refusal leaves lent memory as found."
    return s


def made_empty(case, P):
    return made(case, "empty_summary", {"places": P}, empty(P))


def made_word(case, P, T, pre, post, caps, word, marks=None):
    lent = {**net(P, T, pre, post, caps, marks), "word": word}
    return made(case, "summary_word", lent, summarise(P, T, pre, post, caps, word, None, marks))


def made_stretch(case, P, T, pre, post, caps, word, start, end, marks=None):
    lent = {**net(P, T, pre, post, caps, marks), "word": word, "start": start, "end": end}
    return made(case, "summary_stretch", lent, summarise(P, T, pre, post, caps, word, (start, end), marks))


SAMPLE = 3, 3, [1, 0, 0, 0, 1, 0, 0, 0, 3], [0, 1, 0, 1, 0, 2, 0, 0, 0], [NONE, NONE, 5]


def sample(case, word):
    return made_word(case, *SAMPLE, word)


def sample_stretch(case, word, start, end):
    return made_stretch(case, *SAMPLE, word, start, end)


def joined(case, a, b):
    return made(case, "join_summaries", {**whole(a, "first_"), **whole(b, "second_")}, join(a, b))


def asked(case, s, P, T, pre, post, caps, marking, space, marks=None):
    room = [7] * space
    answer, left = ask(P, T, pre, post, caps, all_plain(P) if marks is None else marks, marking, s, room)
    lent = {**net(P, T, pre, post, caps, marks), "marking": marking, "summary_places": s.places, "summary_letters": s.letters}
    lent = {**lent, **lists(s), "room": room}
    call(case, "ask_summary", lent, answer, {"room": left})


def odd(places, letters, p, need, climb, change):
    """A summary that perhaps no word has: all zero but for one slot."""
    slots = [(0, 0, 0)] * 64
    slots[p] = (need, climb, change)
    return Summary(places, letters, slots)


def samples():
    group("the net of 01's case: samples 5, 6 and 7, the empty word, the words of samples 6 and 7 not cut")
    sample(1, [0, 1])
    joined(2, sample("2.1", [0, 1]), sample("2.2", [2]))
    joined(3, sample("3.1", [2]), sample("3.2", [0, 1]))
    sample(4, [])
    made_empty(5, 3)
    sample(6, [0, 1, 2])
    sample(7, [2, 0, 1])


def empties():
    group("the empty summary by place count")
    for case, P in (11, 0), (12, 1), (13, 64), (14, 65), (15, HUGE):
        made_empty(case, P)


def weights():
    group("one place and one transition")
    for case, edge, takes, puts, word in [
        (21, "a loop needs a token though nothing changes", 1, 1, [0]),
        (22, "the loop three times", 1, 1, [0] * 3),
        (23, "the largest weight, taken", 4095, 0, [0] * 2),
        (24, "the largest weight, put", 0, 4095, [0] * 2),
        (25, "more put than taken", 2, 5, [0] * 2),
        (26, "more taken than put", 5, 2, [0] * 2),
        (27, "a letter that names no transition", 0, 1, [0, 0, 1, 1]),
        (131, "the most that a word needs", 4095, 0, [0] * 65535),
        (132, "the most that a word climbs", 0, 4095, [0] * 65535),
    ]:
        heading(edge)
        made_word(case, 1, 1, [takes], [puts], [4], word)


def refusals():
    group("what is refused of a net, a word or a stretch")
    heading("no place")
    made_word(31, 0, 1, [0], [0], [4], [0])
    heading("65 transitions")
    made_word(32, 1, 65, [0], [0], [4], [0])
    heading("2 before 5")
    made_word(33, 1, 1, [0], [0, 0], [4], [9])
    for case, edge, start, end in [
        (34, "faults outside the stretch are none", 1, 4),
        (35, "a wrong letter, the stretch's first", 0, 4),
        (36, "a wrong letter, the stretch's last", 1, 5),
        (37, "empty at the word's end", 5, 5),
        (38, "past the end", 5, 6),
        (39, "reversed", 2, 1),
    ]:
        heading(edge)
        sample_stretch(case, [3, 0, 1, 2, 3], start, end)


def forms():
    group("a summary that may not be well formed, joined behind the empty one of two places")
    none = made_empty(40, 2)
    for case, edge, *form in [
        (41, "need of place 0 at 4,095n", 2, 2, 0, 8190, 0, -8190),
        (42, "need of place 0 above 4,095n", 2, 2, 0, 8191, 0, 0),
        (43, "climb of place 0 at 4,095n", 2, 2, 0, 0, 8190, 8190),
        (44, "climb of place 0 above 4,095n", 2, 2, 0, 0, 8191, 0),
        (58, "need and climb at 255n, as stored before", 2, 2, 0, 510, 510, 510),
        (59, "and above it", 2, 2, 0, 511, 511, -511),
        (45, "change of the last place at -need", 2, 9, 1, 5, 6, -5),
        (46, "one below", 2, 9, 1, 5, 6, -6),
        (47, "change of the last place at climb", 2, 9, 1, 5, 6, 6),
        (48, "one above", 2, 9, 1, 5, 6, 7),
        (49, "a slot past the count", 2, 9, 2, 1, 0, 0),
        (50, "the last slot", 2, 9, 63, 0, 1, 0),
        (51, "all zero, with letters", 2, 9, 63, 0, 0, 0),
        (52, "no letters, yet a need", 2, 0, 1, 1, 0, 0),
        (53, "the most letters", 2, 65535, 0, 268365825, 0, -268365825),
        (60, "the most letters, climb one above 4,095n", 2, 65535, 0, 0, 268365826, 0),
        (54, "one letter more, which is looked at first", 2, 65536, 1, 4000000000, 0, 0),
        (55, "climb and change at the upper end of their width", 2, 9, 1, 0, 4294967295, 2147483647),
        (56, "need and change at the ends of their width", 2, 9, 1, 4294967295, 0, -2147483648),
        (57, "letters at the end of their width", 2, 4294967295, 0, 0, 0, 0),
    ]:
        heading(edge)
        joined(case, none, odd(*form))


def orders():
    group("joins: which refusal comes first, and lengths that just fit")
    for case, edge, a, b in [
        (61, "1 of the first before 2 and 6", (0, 65536, 0, 9, 0, 0), (2, 0, 0, 0, 0, 0)),
        (62, "1 of the second before 2 and 6", (2, 65536, 0, 9, 0, 0), (65, 0, 0, 0, 0, 0)),
        (63, "2 before 6", (2, 65536, 0, 9, 0, 0), (3, 0, 0, 0, 0, 0)),
        (64, "6 of the first before 6 of the second", (2, 1, 1, 4999, 0, 0), (2, 1, 0, 4999, 0, 0)),
        (65, "6 of the second", (2, 1, 1, 9, 0, 0), (2, 1, 0, 4999, 0, 0)),
        (66, "6 before 7", (2, 65535, 1, 0, 0, 0), (2, 65535, 5, 1, 0, 0)),
        (67, "7", (2, 65535, 0, 0, 0, 0), (2, 1, 0, 0, 0, 0)),
        (68, "lengths that just fit", (2, 65534, 0, 7, 3, -2), (2, 1, 0, 4, 9, 8)),
        (69, "the second's need after the first's loss", (2, 5, 1, 4, 0, -4), (2, 5, 1, 3, 2, 1)),
        (70, "the second's climb after the first's gain", (2, 5, 1, 0, 4, 4), (2, 5, 1, 3, 2, 1)),
    ]:
        heading(edge)
        joined(case, odd(*a), odd(*b))


def asks():
    group("a word's summary asked on 01's net")
    for case, edge, word, marking in [
        (81, "yes", [0, 1, 0, 1], [1, 0, 0]),
        (82, "no by climb", [0, 1, 0, 1, 0, 1], [1, 0, 0]),
        (83, "no by need", [2], [1, 0, 0]),
        (84, "need just there", [2], [1, 0, 3]),
        (85, "the empty word at a full place", [], [1, 0, 5]),
        (86, "tokens plus climb exactly at capacity", [0, 1, 2], [1, 0, 3]),
        (87, "one above", [0, 1, 2], [1, 0, 4]),
        (88, "65,535 in the marking", [2], [65535, 0, 0]),
        (89, "the marking above capacity", [2], [0, 0, 6]),
    ]:
        heading(edge)
        asked(case, sample(f"{case}.1", word), *SAMPLE, marking, 3)
    group("a summary that no word produced, asked on 01's net")
    for case, edge, form, marking in [
        (90, "2 before 3: another place count", (2, 0, 0, 0, 0, 0), [0, 0, 6]),
        (91, "1 before 3: no place", (0, 0, 0, 0, 0, 0), [0, 0, 6]),
        (92, "1 before 3: 65 places", (65, 0, 0, 0, 0, 0), [0, 0, 6]),
        (93, "3 before 6", (3, 1, 2, 4096, 0, 0), [0, 0, 6]),
        (94, "6 at a place", (3, 1, 2, 4096, 0, 0), [0, 0, 5]),
        (95, "6 at a slot past the places", (3, 1, 3, 0, 1, 0), [0, 0, 5]),
        (96, "6, too long", (3, 65536, 2, 0, 0, 0), [0, 0, 5]),
        (97, "only the arithmetic holds: need just there", (3, 9, 0, 2, 1, -1), [2, 0, 0]),
        (98, "one short", (3, 9, 0, 2, 1, -1), [1, 0, 0]),
        (99, "climb exactly at capacity", (3, 9, 2, 0, 2, 2), [0, 0, 3]),
        (100, "one above", (3, 9, 2, 0, 2, 2), [0, 0, 4]),
    ]:
        heading(edge)
        asked(case, odd(*form), *SAMPLE, marking, 3)


def rooms():
    group("a summary of one place asked: the net's counts and the room's length")
    for case, edge, P, T, tokens, space in [
        (111, "yes", 1, 1, 2, 1),
        (112, "no", 1, 1, 3, 1),
        (113, "a room too long", 1, 1, 2, 2),
        (114, "no room", 1, 1, 2, 0),
        (115, "no transition", 1, 0, 2, 1),
        (116, "65 places", 65, 1, 2, 1),
        (117, "Pre and Post too short", 1, 2, 2, 1),
    ]:
        heading(edge)
        asked(case, odd(1, 1, 0, 1, 2, 2), P, T, [1], [3], [4], [tokens], space)


def pockets():
    group("pockets: of each case .1 is plain, the others are pockets, all alike; then asked where it just fires, and where it jams")
    for k, (edge, takes, puts, cap, word) in enumerate([
        ("a loop climbs by its Post, and by nothing as a plain place", 1, 1, 4, [0]),
        ("three loops climb no further", 2, 2, 4, [0] * 3),
        ("more put than taken", 2, 5, 99, [0] * 3),
        ("more taken than put", 5, 2, 99, [0] * 3),
        ("only taken from", 5, 0, 99, [0] * 3),
        ("no letter", 1, 1, 4, []),
        ("the most that a word climbs", 4095, 4095, 65534, [0] * 65535),
        ("capacity 0", 1, 1, 0, [0]),
        ("no capacity: as a plain place", 2, 5, NONE, [0] * 3),
        ("no capacity, a loop: no climb", 1, 1, NONE, [0]),
    ]):
        heading(edge)
        for n, mark in enumerate([0, 1, 2, 255], 1):
            s = made_word(f"{301 + k}.{n}", 1, 1, [takes], [puts], [cap], word, [mark])
            need, climb, _ = s.slots[0]
            for more in range(2):
                if cap != NONE and 0 <= cap - climb + more <= cap:
                    asked(f"{301 + k}.{10 * n + more}", s, 1, 1, [takes], [puts], [cap], [cap - climb + more], 1, [mark])
    group("pockets beside plain places, with and without a capacity")
    mixed = 4, 2, [1, 1, 1, 1, 2, 2, 0, 0], [1, 1, 1, 1, 0, 0, 3, 3], [9, 9, 9, NONE]
    for k, marks in enumerate([[0, 0, 0, 0], [1, 0, 1, 1], [0, 1, 0, 255], [2, 2, 2, 2]]):
        heading(f"marks {marks}")
        first = made_word(f"{321 + k}.1", *mixed, [0, 1], marks)
        second = made_stretch(f"{321 + k}.2", *mixed, [1, 1, 0, 0, 1], 1, 4, marks)
        joined(f"{321 + k}.3", first, second)
        whole_word = made_word(f"{321 + k}.4", *mixed, [0, 1, 1, 0, 0], marks)
        assert whole_word.slots == join(first, second)[1].slots, "a word's summary is that of its parts joined"
        for n, marking in enumerate([[5, 5, 3, 7], [8, 5, 3, 7], [9, 5, 3, 7], [5, 9, 3, 7], [5, 5, 2, 7], [5, 5, 3, 65534]]):
            asked(f"{321 + k}.{n + 5}", whole_word, *mixed, marking, 4, marks)
    group("marks of another length: 2, after 1, before 17 and 3")
    for k, marks in enumerate([[], [0], [0] * 3]):
        heading(f"{len(marks)} marks of two places")
        two = 2, 1, [1, 1], [1, 1], [9, 9]
        made_word(f"{331 + k}.1", *two, [0], marks)
        made_stretch(f"{331 + k}.2", *two, [0], 0, 1, marks)
        asked(f"{331 + k}.3", odd(2, 1, 0, 1, 0, 0), *two, [1, 1], 2, marks)
        asked(f"{331 + k}.4", odd(2, 1, 0, 1, 0, 0), *two, [10, 1], 2, marks)
        made_word(f"{331 + k}.5", 2, 1, [1, 0], [1, 0], [9, 9], [0], marks)
        made_word(f"{331 + k}.6", 2, 65, [1] * 130, [1] * 130, [9, 9], [0], marks)


def loose_nodes():
    group("nodes without an arc: refusal 17; then nets that hang together by one arc")
    for k, (edge, P, T, pre, post) in enumerate(LOOSE + WIRED):
        heading(edge)
        lent, caps = {**net(P, T, pre, post, [9] * P), "word": [0]}, [9] * P
        made_word(f"{201 + k}.1", P, T, pre, post, caps, [0])
        made(f"{201 + k}.2", "summary_stretch", {**lent, "start": 0, "end": 1}, summarise(P, T, pre, post, caps, [0], (0, 1)))
        asked(f"{201 + k}.3", odd(P, 1, 0, 1, 0, 0), P, T, pre, post, caps, [1] * P, P)
    group("17 and another refusal")
    for case, edge, T, arcs, word in [
        (221, "1 and 17", 65, 65, [0]),
        (222, "2 and 17", 1, 2, [0]),
        (223, "17 and 4", 1, 1, [0] * 65536),
        (224, "17 and 5", 1, 1, [1]),
        (225, "17, 4 and 5", 1, 1, [0] * 65535 + [1]),
    ]:
        heading(edge)
        bare = 1, T, [0] * arcs, [0] * arcs, [4]
        made_word(f"{case}.1", *bare, word)
        lent = {**net(*bare), "word": word, "start": 0, "end": len(word)}
        made(f"{case}.2", "summary_stretch", lent, summarise(*bare, word, (0, len(word))))
    for case, edge, form, tokens in [
        (231, "2, a summary of two places, and 17", (2, 1, 0, 1, 2, 2), 2),
        (232, "3 and 17", (1, 1, 0, 1, 2, 2), 5),
        (233, "17 and 6", (1, 1, 0, 4096, 0, 0), 2),
        (234, "17, where the answer would be no", (1, 1, 0, 3, 0, 0), 2),
    ]:
        heading(edge)
        asked(case, odd(*form), 1, 1, [0], [0], [4], [tokens], 1)


def heavy_weights():
    group("weights over 4,095: refusal 18; then weights at the limit")
    for k, (edge, P, T, pre, post) in enumerate(HEAVY + LIGHT):
        heading(edge)
        caps = [9000] * P
        s = made_word(f"{601 + k}.1", P, T, pre, post, caps, [0])
        made_stretch(f"{601 + k}.2", P, T, pre, post, caps, [9, 0], 1, 2)
        asked(f"{601 + k}.3", odd(P, 1, 0, 1, 0, 0), P, T, pre, post, caps, [1] * P, P)
        if s.letters:
            asked(f"{601 + k}.4", s, P, T, pre, post, caps, [4095] * P, P)
            asked(f"{601 + k}.5", s, P, T, pre, post, caps, [4094] * P, P)
            joined(f"{601 + k}.6", s, s)
    group("18 and another refusal")
    for k, (edge, T, arcs, word) in enumerate([
        ("1 and 18", 65, 65, [0]),
        ("2 and 18", 1, 2, [0]),
        ("18 and 4", 1, 1, [0] * 65536),
        ("18 and 5", 1, 1, [1]),
    ]):
        heading(edge)
        too_much = 1, T, [4096] * arcs, [0] * arcs, [4]
        made_word(f"{641 + k}.1", *too_much, word)
        made_stretch(f"{641 + k}.2", *too_much, word, 0, len(word))
    heading("18 and 17")
    made_word(651, 2, 1, [0, 4096], [0, 0], [4, 4], [0])
    for k, (edge, form, tokens) in enumerate([
        ("2, a summary of two places, and 18", (2, 1, 0, 1, 2, 2), 2),
        ("1, a summary of no place, and 18", (0, 1, 0, 1, 2, 2), 2),
        ("18 and 3", (1, 1, 0, 1, 2, 2), 5),
        ("18 and 6", (1, 1, 0, 4096, 0, 0), 2),
        ("18, where the answer would be no", (1, 1, 0, 3, 0, 0), 2),
    ]):
        heading(edge)
        asked(661 + k, odd(*form), 1, 1, [4096], [0], [4], [tokens], 1)


def list_lengths():
    group("for C a summary's lists have exactly 64 entries: each of another length in turn is refusal 2")
    cases = [(name, length) for name in ("need", "climb", "change") for length in (63, 65, 0)]
    for k, (name, length) in enumerate(cases):
        heading(f"{name} of {length} entries")
        rooms = {**ROOMS, name: [7] * length}
        made(f"141.{k + 1}", "empty_summary", {"places": 3}, ((2, 0), NOTHING), rooms)
        lent = {**net(*SAMPLE), "word": [0, 1]}
        made(f"142.{k + 1}", "summary_word", lent, ((2, 0), NOTHING), rooms)
        made(f"143.{k + 1}", "summary_stretch", {**lent, "start": 0, "end": 2}, ((2, 0), NOTHING), rooms)
        two = {**whole(odd(3, 0, 0, 0, 0, 0), "first_"), **whole(odd(3, 0, 0, 0, 0, 0), "second_")}
        made(f"144.{k + 1}", "join_summaries", two, ((2, 0), NOTHING), rooms)
        for number, which in (145, "first_"), (146, "second_"):
            made(f"{number}.{k + 1}", "join_summaries", {**two, which + name: [0] * length}, ((2, 0), NOTHING))
        lent = {**net(*SAMPLE), "marking": [1, 0, 0], "summary_places": 3, "summary_letters": 0}
        lent.update({**dict.fromkeys(ROOMS, [0] * 64), name: [0] * length, "room": [7] * 3})
        call(f"147.{k + 1}", "ask_summary", lent, [130, 2, 0], {"room": [7] * 3})


def cut(case, word, at):
    """A word cut in two, and joined again."""
    first = sample_stretch(f"{case}.1", word, 0, at)
    joined(case, first, sample_stretch(f"{case}.2", word, at, len(word)))


def long_words():
    word = ([0, 1, 0, 1, 2] * 13108)[:65536]
    most = word[:65535]
    group("65,535 letters, whole, and cut in two and joined")
    sample(121, most)
    for case, at in (122, 0), (123, 1), (124, 32768), (125, 65533), (126, 65535):
        cut(case, most, at)
    group("65,536 letters, whole, cut in two and joined, and a stretch of 65,535 of them")
    sample(127, word)
    cut(128, word, 1)
    cut(129, word, 40000)
    sample_stretch(130, word, 1, 65536)


samples()
empties()
weights()
refusals()
forms()
orders()
asks()
rooms()
list_lengths()
long_words()
loose_nodes()
pockets()
heavy_weights()
