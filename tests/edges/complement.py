#!/usr/bin/env python3
"""The edges of the complement net: the table complement.calls is this script's output.

    python3 tests/edges/complement.py > tests/edges/complement.calls

Written from document 01 and 02's E4, E5 and E6 alone, without the library's code: nets are dictionaries from (place, transition) to a weight,
the numbers are unbounded, and each rule is spelled out as they word it. Answers: 129 0 0 and the places; 129 0 for a net that
was written; 130 refusal position. The rooms of a net hold 7s at entry, those of a replay 0s. Where a case asks for the places
and for the net, they are .1 and .2 of its number.
It also checks, word by word up to three letters, that each net that is written fires the very same words.
"""

from itertools import product

from shared.calls import HEAVY, HUGE, LIGHT, LOOSE, NONE, WIRED, all_plain, call, group, heading, heavy, loose, net as lent_net


def weights(P, T, flat):
    return {(p, t): flat[t * P + p] for t in range(T) for p in range(P)}


def capped(P, T, pre, post, caps, marks):
    """The places that get a new one, in order of number: "only for a capped place that some transition changes" (02, E4), and that
    of "a capped pocket .. is always made" (E5)."""
    changed = {p for t in range(T) for p in range(P) if pre[t * P + p] != post[t * P + p]}
    return [p for p, c in enumerate(caps) if c != NONE and (marks[p] or p in changed)]


def net_refusal(P, T, pre, post, caps, marks):
    if P not in range(1, 65) or T not in range(1, 65):
        return 1, 0
    if len(pre) != P * T or len(post) != P * T or len(caps) != P or len(marks) != P:
        return 2, 0
    return None


def places_answer(P, T, pre, post, caps, marks):
    refused = net_refusal(P, T, pre, post, caps, marks)
    refused = refused or heavy(P, T, pre, post) or loose(P, T, pre, post)
    if refused is None and P + len(capped(P, T, pre, post, caps, marks)) > 64:
        refused = 10, 0  # "old plus complement places over 64", which "counts only those made"
    return [130, *refused] if refused else [129, 0, 0, P + len(capped(P, T, pre, post, caps, marks))]


def net_answer(P, T, pre, post, caps, marks, initial, lengths):
    """The answer, and the five rooms afterwards."""
    rooms = [[7] * n for n in lengths]
    refused = net_refusal(P, T, pre, post, caps, marks)
    if refused is None:
        new = P + len(capped(P, T, pre, post, caps, marks))
        if len(initial) != P or list(lengths) != [T * new, T * new, new, new, new]:
            refused = 2, 0
        else:
            bad = [p for p in range(P) if initial[p] == 65535 or (caps[p] != NONE and initial[p] > caps[p])]
            if heavy(P, T, pre, post):
                refused = heavy(P, T, pre, post)
            elif bad:
                refused = 3, min(bad)
            elif loose(P, T, pre, post):
                refused = loose(P, T, pre, post)
            elif new > 64:
                refused = 10, 0
    if refused:
        return [130, *refused], rooms  # "A refusal leaves lent memory as found."
    Pre, Post = weights(P, T, pre), weights(P, T, post)
    start = dict(enumerate(initial))
    for k, p in enumerate(capped(P, T, pre, post, caps, marks)):  # "gets a new place after the old ones"
        start[P + k] = caps[p] - initial[p]  # "starting with capacity minus tokens"
        for t in range(T):
            change = Post[p, t] - Pre[p, t]
            if marks[p]:  # "arcs of weight Post from it and of weight Pre to it"
                Pre[P + k, t], Post[P + k, t] = Post[p, t], Pre[p, t]
                continue
            Pre[P + k, t] = change if change > 0 else 0  # "Change > 0 becomes an arc from it"
            Post[P + k, t] = -change if change < 0 else 0  # "change < 0 an arc to it"
    flat = lambda arcs: [arcs[p, t] for t in range(T) for p in range(new)]
    made = [flat(Pre), flat(Post), [NONE] * new, [0] * new, [start[p] for p in range(new)]]  # "places are all plain"
    same_words(P, T, pre, post, caps, marks, initial, new, *made)
    assert loose(new, T, *made[:2]) is None, "the complement of an accepted net is accepted"
    return [129, 0], made


def replay(P, T, pre, post, caps, marks, initial, word):
    """The answer and the marking after the last letter fired."""
    for position, t in enumerate(word):
        if t >= T:
            return [130, 5, position], [0] * P
    Pre, Post = weights(P, T, pre), weights(P, T, post)
    m = list(initial)
    for position, t in enumerate(word):
        after = [m[p] + Post[p, t] - Pre[p, t] for p in range(P)]
        short = [p for p in range(P) if Pre[p, t] > m[p]]
        level = [m[p] + Post[p, t] if marks[p] else after[p] for p in range(P)]
        over = [p for p in range(P) if caps[p] != NONE and level[p] > caps[p]]
        if short:
            return [129, 1, position, min(short)], m
        if over:
            return [129, 2, position, min(over)], m
        m = after
    return [129, 0, len(word)], m


def same_words(P, T, pre, post, caps, marks, initial, new, pre2, post2, caps2, marks2, initial2):
    for n in range(4):
        for word in product(range(T), repeat=n):
            one, m = replay(P, T, pre, post, caps, marks, initial, word)
            two, m2 = replay(new, T, pre2, post2, caps2, marks2, initial2, word)
            assert (one[1] == 0) == (two[1] == 0) and (one[1] == 0 or one[2] == two[2]), word
            assert m2[:P] == m, "old places agree"
            new_places = capped(P, T, pre, post, caps, marks)
            assert m2[P:] == [caps[p] - m[p] for p in new_places], "each new place holds capacity minus tokens"


ROOMS = "pre2", "post2", "caps2", "marks2", "initial2"


def marked(net):
    """A net with its marks: all plain where it tells none."""
    return net if len(net) > 5 else (*net, all_plain(net[0]))


def ask_places(case, *net):
    net = marked(net)
    call(case, "complement_places", lent_net(*net), places_answer(*net))


def ask_net(case, net, initial, lengths):
    """The line of a complement net; answers its rooms. The room for marks is as long as that for capacities where four are told."""
    net, lengths = marked(net), [*lengths[:3], lengths[2], lengths[3]] if len(lengths) == 4 else lengths
    answer, left = net_answer(*net, initial, lengths)
    found = [[7] * n for n in lengths]
    lent = {**lent_net(*net), "initial": initial, **dict(zip(ROOMS, found))}
    call(case, "complement_net", lent, answer, dict(zip(ROOMS, left)))
    return left


def ask_replay(case, net, initial, word):
    net = marked(net)
    answer, left = replay(*net, initial, word)
    lent = {**lent_net(*net), "initial": initial, "word": word, "room": [0] * net[0]}
    call(case, "replay_word", lent, answer, {"room": left})


# the net of 01's case
SAMPLE = 3, 3, [1, 0, 0, 0, 1, 0, 0, 0, 3], [0, 1, 0, 1, 0, 2, 0, 0, 0], [NONE, NONE, 5]


def samples():
    group("the net of 01's case, and the samples' words on it and on its complement net")
    ask_places(1, *SAMPLE)
    made = ask_net(2, SAMPLE, [1, 0, 0], [12, 12, 4, 4])
    for case, edge, word in [
        (11, "sample 1", [0, 1, 0, 1]),
        (13, "sample 2: over becomes short at the new place", [0, 1, 0, 1, 0, 1]),
        (15, "sample 3", [2]),
        (17, "sample 4", []),
        (19, "the word of the case file", [0, 1, 0, 1, 2]),
        (21, "a letter that names no transition", [0, 1, 0, 1, 3]),
    ]:
        heading(edge)
        ask_replay(case, SAMPLE, [1, 0, 0], word)
        ask_replay(case + 1, (4, 3, *made[:4]), made[4], word)


def one_place():
    group("one place and two transitions, with rooms for a capped place")
    for case, edge, pre, post, cap, tokens in [
        (31, "capacity 0, a loop, one token put", [1, 0], [1, 1], 0, 0),
        (32, "capacity 0, a loop, two tokens taken", [1, 2], [1, 0], 0, 0),
        (33, "the largest weights, full", [0, 4095], [4095, 0], 65534, 65534),
        (34, "the largest capacity, empty", [5, 4], [4, 5], 65534, 0),
        (35, "a loop has no arc at the new place", [7, 7], [7, 8], 9, 4),
        (36, "tokens above capacity 0", [0, 1], [1, 0], 0, 1),
        (37, "65,535 tokens", [0, 1], [1, 0], 65534, 65535),
        (38, "no capacity: the rooms are too long", [0, 1], [1, 0], NONE, 0),
        (39, "only loops: no new place, and the rooms are too long", [7, 7], [7, 7], 9, 4),
    ]:
        heading(edge)
        ask_net(case, (1, 2, pre, post, [cap]), [tokens], [4, 4, 2, 2])


def three_places():
    group("three places and two transitions")
    for case, edge, caps, initial, cells, wide in [
        (41, "none capped", [NONE, NONE, NONE], [4, 65534, 0], 6, 3),
        (42, "one capped", [NONE, 6, NONE], [4, 5, 0], 8, 4),
        (43, "two capped", [8, NONE, 300], [4, 9, 299], 10, 5),
        (44, "all capped", [8, 0, 300], [8, 0, 1], 12, 6),
        (45, "rooms for none capped", [8, NONE, 300], [4, 9, 299], 6, 3),
        (46, "rooms for all capped", [8, NONE, 300], [4, 9, 299], 12, 6),
        (47, "tokens above capacity", [8, NONE, 300], [9, 9, 299], 10, 5),
        (48, "65,535 tokens, and above capacity: the lowest place", [8, NONE, 300], [8, 65535, 301], 10, 5),
        (49, "2 before 3", [8, NONE, 300], [9, 9, 301], 8, 4),
    ]:
        heading(edge)
        ask_net(case, (3, 2, [3, 0, 4095, 1, 2, 4], [1, 5, 0, 1, 9, 6], caps), initial, [cells, cells, wide, wide])


def many_places():
    group("around 64 places, all alike, and two transitions")
    for case, edge, P, takes, puts, cap, arcs, cells, wide in [
        (51, "64 places in all, more put than taken", 32, 3, 5, 9, 64, 128, 64),
        (52, "66 in all", 33, 3, 5, 9, 66, 132, 66),
        (53, "64 in all, more taken than put", 32, 5, 3, 5, 64, 128, 64),
        (54, "64, none capped", 64, 3, 5, NONE, 128, 128, 64),
        (55, "66 in all: 3 before 10", 33, 3, 5, 4, 66, 132, 66),
        (56, "66 in all, with rooms for 64: 2 before 10", 33, 3, 5, 9, 66, 128, 64),
        (57, "65, none capped", 65, 3, 5, NONE, 130, 130, 65),
    ]:
        heading(edge)
        net = P, 2, [takes] * arcs, [puts] * arcs, [cap] * P
        ask_places(f"{case}.1", *net)
        ask_net(f"{case}.2", net, [5] * P, [cells, cells, wide, wide])


def lengths():
    group("two places, the first capped, and two transitions: other lengths of what is lent, then of the rooms")
    for case, edge, pre, post, caps, initial in [
        (61, "all as they should be", 4, 4, 2, 2),
        (62, "Pre too long", 5, 4, 2, 2),
        (63, "Post too short", 4, 3, 2, 2),
        (64, "capacities too long", 4, 4, 3, 2),
        (65, "capacities too short", 4, 4, 1, 2),
        (66, "initial marking too long", 4, 4, 2, 3),
        (67, "initial marking too short", 4, 4, 2, 1),
    ]:
        heading(edge)
        net = 2, 2, [1] * pre, [2] * post, [9, NONE, NONE][:caps]
        ask_places(f"{case}.1", *net)
        ask_net(f"{case}.2", net, [4] * initial, [6, 6, 3, 3])
    for case, edge, marks in [
        (81, "marks too long", [0, 0, 0]),
        (82, "marks too short", [0]),
        (83, "no marks", []),
    ]:
        heading(edge)
        net = 2, 2, [1] * 4, [2] * 4, [9, NONE], marks
        ask_places(f"{case}.1", *net)
        ask_net(f"{case}.2", net, [4, 4], [6, 6, 3, 3])
    for case, edge, *rooms in [
        (68, "all as they should be", 6, 6, 3, 3, 3),
        (69, "Pre's room too long", 7, 6, 3, 3, 3),
        (70, "Post's room too short", 6, 5, 3, 3, 3),
        (71, "the capacities' room too long", 6, 6, 4, 3, 3),
        (72, "the capacities' room too short", 6, 6, 2, 3, 3),
        (84, "the marks' room too long", 6, 6, 3, 4, 3),
        (85, "the marks' room too short", 6, 6, 3, 2, 3),
        (86, "no room for marks", 6, 6, 3, 0, 3),
        (73, "the tokens' room too long", 6, 6, 3, 3, 4),
        (74, "the tokens' room too short", 6, 6, 3, 3, 2),
    ]:
        heading(edge)
        ask_net(case, (2, 2, [1] * 4, [2] * 4, [9, NONE]), [4, 4], rooms)


def counts():
    group("only the counts are told: 0, as many as can be said, a product that 64 bits would cut to 0, and 1")
    for case, P, T in [(75, 0, 1), (76, 1, 0), (77, HUGE, 1), (78, 1, HUGE), (79, 2**32, 2**32), (80, 1, 1)]:
        ask_places(f"{case}.1", P, T, [], [], [])
        ask_net(f"{case}.2", (P, T, [], [], []), [], [0, 0, 0, 0])


def ask_both(case, net, initial):
    """How many places there are, and the net, with rooms as long as they must be."""
    P, T = net[:2]
    new = P + len(capped(*marked(net)))
    ask_places(f"{case}.1", *net)
    return ask_net(f"{case}.2", net, initial, [T * new, T * new, new, new])


def ask_words(case, net, initial, made, words):
    """Words on the net and on its complement, from .3 on."""
    for k, word in enumerate(words):
        ask_replay(f"{case}.{3 + 2 * k}", net, initial, word)
        ask_replay(f"{case}.{4 + 2 * k}", (len(made[2]), net[1], *made[:4]), made[4], word)


def loops():
    group("capped places that no transition changes have no new place")
    for case, edge, pre, post, caps, initial in [
        (101, "one place, only loops", [7, 7], [7, 7], [9], [4]),
        (102, "one place, only loops, full", [1, 2], [1, 2], [9], [9]),
        (103, "one place, only loops, capacity 0", [1, 2], [1, 2], [0], [0]),
        (104, "the first of two", [1, 1, 1, 0], [1, 0, 1, 1], [9, 9], [1, 2]),
        (105, "the second of two", [1, 1, 0, 1], [0, 1, 1, 1], [9, 9], [1, 2]),
        (106, "the middle one of three", [1, 2, 0, 0, 3, 1], [0, 2, 1, 1, 3, 0], [4, 5, 6], [1, 5, 3]),
        (107, "the middle one is changed, the others are not", [1, 2, 3, 1, 0, 3], [1, 0, 3, 1, 2, 3], [4, 5, 6], [1, 5, 3]),
        (108, "a place that is only taken from has one", [1, 1], [0, 0], [9], [4]),
        (109, "a place that is only put into has one", [0, 0], [1, 1], [9], [4]),
        (110, "one that the last transition alone changes", [1, 1], [1, 2], [9], [4]),
    ]:
        heading(edge)
        net = len(caps), 2, pre, post, caps
        made = ask_both(case, net, initial)
        ask_words(case, net, initial, made, [[0], [1], [0, 1], [1, 0, 1]])
    group("refusal 10 counts only the places made: capped places, of which the last ones have only loops")
    for case, edge, P, still in [(121, "64 places in all", 64, 64), (122, "65 in all", 64, 63), (123, "64 in all", 40, 16), (124, "65 in all", 40, 15)]:
        heading(edge)
        ask_both(case, (P, 1, [1] * P, [2] * (P - still) + [1] * still, [9] * P), [5] * P)
    heading("66 places if those with loops counted, 64 without: rooms for 66 are too long")
    net = 33, 1, [1] * 33, [2] * 31 + [1] * 2, [9] * 33
    ask_both(125, net, [5] * 33)
    ask_net("125.3", net, [5] * 33, [66, 66, 66, 66])


def pockets():
    group("the complement of a pocket: Post from it and Pre to it, always made; all places of the complement net are plain")
    for case, edge, pre, post, caps, marks, initial in [
        (301, "one pocket, only loops", [7, 7], [7, 7], [9], [1], [4]),
        (302, "full", [1, 2], [1, 2], [9], [255], [9]),
        (303, "capacity 0", [1, 2], [1, 2], [0], [2], [0]),
        (304, "put and taken", [1, 0], [0, 1], [3], [1], [1]),
        (305, "both at once", [2, 3], [3, 2], [6], [1], [3]),
        (306, "without a capacity: no new place", [2, 3], [3, 2], [NONE], [1], [3]),
        (307, "the first of two, the other plain and only loops", [1, 1, 1, 1], [1, 1, 1, 1], [4, 4], [1, 0], [3, 4]),
        (308, "the second of two", [1, 1, 1, 1], [1, 1, 1, 1], [4, 4], [0, 128], [4, 3]),
        (309, "a pocket, a plain place and a pocket without capacity", [1, 2, 3, 0, 1, 1], [2, 1, 3, 1, 1, 4], [9, 9, NONE], [1, 0, 1], [5, 5, 5]),
        (310, "two pockets and a plain place", [1, 2, 3, 0, 1, 1], [2, 1, 3, 1, 1, 4], [9, 9, 20], [1, 0, 1], [5, 5, 5]),
        (311, "the largest weights", [4095, 0], [4095, 4095], [65534], [1], [61439]),
    ]:
        heading(edge)
        net = len(caps), 2, pre, post, caps, marks
        made = ask_both(case, net, initial)
        ask_words(case, net, initial, made, [[0], [1], [0, 1], [1, 0, 1]])
    group("refusal 10 counts the pockets: capped places with only loops, of which so many are pockets")
    for case, edge, P, number in [(321, "64 places in all", 40, 24), (322, "65 in all", 40, 25), (323, "64 pockets", 64, 64), (324, "one pocket of 64", 64, 1)]:
        heading(edge)
        ask_both(case, (P, 1, [1] * P, [1] * P, [9] * P, [0] * (P - number) + [1] * number), [5] * P)
    heading("rooms as long as if a pocket with only loops had no new place: 2")
    ask_net(325, (1, 1, [1], [1], [9], [1]), [5], [1, 1, 1, 1])
    heading("and for a plain one as if it had: 2")
    ask_net(326, (1, 1, [1], [1], [9], [0]), [5], [2, 2, 2, 2])


def heavy_weights():
    group("weights over 4,095: refusal 18; then weights at the limit, of a plain place and of a pocket")
    for k, (edge, P, T, pre, post) in enumerate(HEAVY):
        heading(edge)
        ask_both(601 + k, (P, T, pre, post, [9] * P if P < 64 else [NONE] * P), [1] * P)
    for k, (edge, P, T, pre, post) in enumerate(LIGHT):
        for n, mark in enumerate([0, 1]):
            heading(edge + (", a pocket" if mark else ""))
            net = P, T, pre, post, [9000] * P, [mark] * P
            made = ask_both(621 + 2 * k + n, net, [4500] * P)
            ask_words(621 + 2 * k + n, net, [4500] * P, made, [[0], [0, 0]])
    heading("a bin in kilograms, plain and as a pocket")
    for n, mark in enumerate([0, 1]):
        net = 1, 3, [0, 4095, 1000], [1500, 0, 1000], [6000], [mark]
        made = ask_both(641 + n, net, [2600])
        ask_words(641 + n, net, [2600], made, [[0, 0, 1, 0], [0, 0, 2], [0, 0, 0], [1]])
    group("18 and another refusal")
    too_much = 1, 1, [4096], [0], [9]
    heading("1 and 18; 2 and 18: Post; a room; the marks")
    ask_places(651, 1, 65, [4096] * 65, [0] * 65, [9])
    ask_places(652, 1, 1, [4096], [0, 0], [9])
    ask_net(653, too_much, [1], [1, 2, 2, 2])
    ask_places(654, *too_much, [0, 0])
    ask_places(655, *too_much, [])
    heading("18 and 3; 18 and 17; 18 and 10; all of them")
    ask_net(656, too_much, [10], [2, 2, 2, 2])
    ask_both(657, (2, 1, [0, 4096], [0, 0], [9, NONE]), [1, 1])
    ask_both(658, (64, 1, [1] * 63 + [4096], [2] * 64, [9] * 64), [5] * 64)
    ask_both(659, (64, 1, [0] + [1] * 62 + [4096], [0] + [2] * 63, [4] * 64), [5] * 64)


def loose_nodes():
    group("nodes without an arc: refusal 17; then nets that hang together by one arc")
    for k, (edge, P, T, pre, post) in enumerate(LOOSE + WIRED):
        heading(edge)
        ask_both(201 + k, (P, T, pre, post, [9] * P if P < 64 else [NONE] * P), [1] * P)
    group("17 and another refusal")
    bare = 2, 1, [0, 1], [0, 0], [9, NONE]
    heading("1 and 17")
    ask_places("221.1", 1, 65, [0] * 65, [0] * 65, [9])
    heading("2 and 17: Post; a room for a place that is loose and so not changed")
    ask_places("222.1", 1, 1, [0], [0, 0], [9])
    ask_net("222.2", bare, [1, 1], [3, 3, 3, 3])
    heading("3 and 17")
    ask_net("223", bare, [10, 1], [2, 2, 2, 2])
    heading("17 and 10")
    ask_both(224, (64, 1, [0] + [1] * 63, [0] + [2] * 63, [9] * 64), [5] * 64)
    heading("3, 17 and 10")
    ask_both(225, (64, 1, [0] + [1] * 63, [0] + [2] * 63, [4] * 64), [5] * 64)


samples()
one_place()
three_places()
many_places()
lengths()
counts()
loops()
loose_nodes()
pockets()
heavy_weights()
