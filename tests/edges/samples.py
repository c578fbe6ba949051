#!/usr/bin/env python3
"""Document 01's twelve samples: the table samples.calls is this script's output.

    python3 tests/edges/samples.py > tests/edges/samples.calls

Worked out from 01's words alone: the net is read off the frames of 01's case, numbers are unbounded, and each answer is also
held against the one that 01's sentence gives. A case is a sample; where it is several calls, they are .1, .2 and so on of its
number. Answers: 129 0 (fired letters, made, invariant, bound, yes, accepted, never covered); 129 1 (short position place, not
invariant transition, no transition); 129 2 (over position place, proper). Rooms hold 7s at entry.
"""

from shared.calls import call, heading, net

CASE = """010303
02FFFFFFFF0005
03000100000000
0400010000000100
0401000100010002
0402000003000000
050001000102"""

frames = [bytes.fromhex(line) for line in CASE.split()]
P, T = frames[0][1:]
PLACES, TRANSITIONS = range(P), range(T)
pairs = lambda frame: [frame[1 + 2 * p] * 256 + frame[2 + 2 * p] for p in PLACES]
CAPACITY = [None if c == 65535 else c for c in pairs(frames[1])]  # "65,535 means none"
INITIAL = pairs(frames[2])
PRE = [list(frames[3 + t][2 : 2 + P]) for t in TRANSITIONS]  # PRE[t][p]
POST = [list(frames[3 + t][2 + P : 2 + 2 * P]) for t in TRANSITIONS]
CHANGE = [[POST[t][p] - PRE[t][p] for p in PLACES] for t in TRANSITIONS]
ANY = None  # "65,535 for any number", in a cover list


def replay(word):
    """The answer's numbers, and the marking after the last letter fired."""
    m = list(INITIAL)
    for position, t in enumerate(word):
        short = [p for p in PLACES if PRE[t][p] > m[p]]
        over = [p for p in PLACES if CAPACITY[p] is not None and m[p] + CHANGE[t][p] > CAPACITY[p]]
        if short or over:
            return [129, 1, position, short[0]] if short else [129, 2, position, over[0]], m
        m = [m[p] + CHANGE[t][p] for p in PLACES]
    return [129, 0, len(word)], m


def summary(word):
    """(need, climb, change) of each place."""
    change = lambda u, p: sum(CHANGE[t][p] for t in u)
    need = lambda p: max([0] + [PRE[t][p] - change(word[:i], p) for i, t in enumerate(word)])
    climb = lambda p: max(change(word[:i], p) for i in range(len(word) + 1))
    return [(need(p), climb(p), change(word, p)) for p in PLACES]


def join(a, b):
    return [(max(na, nb - ca), max(ka, ca + kb), ca + cb) for (na, ka, ca), (nb, kb, cb) in zip(a, b)]


def place_weighting(y):
    failing = [t for t in TRANSITIONS if sum(y[p] * CHANGE[t][p] for p in PLACES) != 0]
    return [129, 1, failing[0]] if failing else [129, 0]


def bound(y, p):
    assert place_weighting(y) == [129, 0] and min(y) >= 0 and y[p] > 0
    return [129, 0, 0, sum(y[q] * INITIAL[q] for q in PLACES) // y[p]]


def transition_weighting(x):
    failing = [p for p in PLACES if sum(CHANGE[t][p] * x[t] for t in TRANSITIONS) != 0]
    return [129, 1, failing[0]] if failing else [129, 2] if min(x) >= 0 else [129, 0]


def siphon(places, does=POST, also=PRE):
    """Every transition that puts into it also takes from it; a trap with the two exchanged."""
    failing = [t for t in TRANSITIONS if any(does[t][p] for p in places) and not any(also[t][p] for p in places)]
    return [129, 1, failing[0]] if failing else [129, 0]


def trap(places):
    return siphon(places, PRE, POST)


def covers(c, m):
    return all(a is ANY or (b is not ANY and b <= a) for a, b in zip(c, m))


def cover_list(markings):
    """Capacities are ignored there."""
    if not any(covers(c, INITIAL) for c in markings):
        return [129, 1]
    for k, m in enumerate(markings):
        for t in TRANSITIONS:
            if all(m[p] is ANY or PRE[t][p] <= m[p] for p in PLACES):
                after = [ANY if m[p] is ANY else m[p] + CHANGE[t][p] for p in PLACES]
                if not any(covers(c, after) for c in markings):
                    return [129, 2, k, t]
    return [129, 0]


def cover_target(markings, target):
    listed = cover_list(markings)
    return listed if listed != [129, 0] else [129, 3] if any(covers(c, target) for c in markings) else [129, 0]


NET = net(P, T, sum(PRE, []), sum(POST, []), [65535 if c is None else c for c in CAPACITY])
SLOTS = "need", "climb", "change"
SEVENS = dict.fromkeys(SLOTS, [7] * 64)


def said(number, answer, holds):
    """`holds` is whether the answer is what 01's sentence says."""
    assert holds, f"sample {number} is not what document 01 says: {answer}"


def word(number, letters, holds):
    """A sample of a replay."""
    answer, left = replay(letters)
    said(number, answer, holds(answer, left))
    lent = {**NET, "initial": INITIAL, "word": letters, "room": [7] * P}
    call(number, "replay_word", lent, answer, {"room": left})


def lists(slots, which=""):
    """The three lists of a summary by name, zeros past the places."""
    return {which + name: list(column) + [0] * (64 - P) for name, column in zip(SLOTS, zip(*slots))}


def summed(number, letters):
    """The summary of a word."""
    slots = summary(letters)
    call(number, "summary_word", {**NET, "word": letters, **SEVENS}, [129, 0, 0, P, len(letters)], lists(slots))
    return slots


def joined(number, first, second, holds):
    """A sample of two words' summaries, joined."""
    a, b = summed(f"{number}.1", first), summed(f"{number}.2", second)
    both = join(a, b)
    said(number, both, holds(both))
    lent = {"first_places": P, "first_letters": len(first), **lists(a, "first_")}
    lent = {**lent, "second_places": P, "second_letters": len(second), **lists(b, "second_"), **SEVENS}
    call(number, "join_summaries", lent, [129, 0, 0, P, len(first) + len(second)], lists(both))


def plain(number, question, lent, answer, says):
    """A sample without a room; `says` are the numbers that 01's sentence gives."""
    said(number, answer, answer[: len(says)] == says)
    call(number, question, {**NET, **lent}, answer)


def within(places):
    """A set as it is lent."""
    return {"set": [1 if p in places else 0 for p in PLACES]}


heading('"word 0 1 0 1 ends at (1,0,4)"')
word(1, [0, 1, 0, 1], lambda answer, left: answer == [129, 0, 4] and left == [1, 0, 4])
heading('"word 0 1 0 1 0 1: blocked at position 5, over at place 2"')
word(2, [0, 1, 0, 1, 0, 1], lambda answer, left: answer == [129, 2, 5, 2])
heading('"word 2: blocked at 0, short at 2"')
word(3, [2], lambda answer, left: answer == [129, 1, 0, 2])
heading('"empty word: (1,0,0)"')
word(4, [], lambda answer, left: answer == [129, 0, 0] and left == [1, 0, 0])
heading('"summary of 0 1, as need, climb, change: (1,0,0), (0,1,0), (0,2,2)"')
slots = summed(5, [0, 1])
said(5, slots, slots == [(1, 0, 0), (0, 1, 0), (0, 2, 2)])
heading('"0 1 joined with 2: place 2 has (1,2,-1)"')
joined(6, [0, 1], [2], lambda s: s[2] == (1, 2, -1))
heading('"2 joined with 0 1: place 2 has (3,0,-1)"')
joined(7, [2], [0, 1], lambda s: s[2] == (3, 0, -1))
heading('"weighting (1,1,0) invariant, bound of place 0 is 1"')
plain("8.1", "place_weighting", {"y": [1, 1, 0]}, place_weighting([1, 1, 0]), [129, 0])
plain("8.2", "place_bound", {"initial": INITIAL, "y": [1, 1, 0], "place": 0}, bound([1, 1, 0], 0), [129, 0, 0, 1])
heading('"(0,0,1) fails at transition 1"')
plain(9, "place_weighting", {"y": [0, 0, 1]}, place_weighting([0, 0, 1]), [129, 1, 1])
heading('"transition weighting (3,3,2) proper"')
plain(10, "transition_weighting", {"x": [3, 3, 2]}, transition_weighting([3, 3, 2]), [129, 2])
heading('"{0,1} is siphon and trap, {2} neither"; which transition fails is not said there')
plain("11.1", "siphon_set", within([0, 1]), siphon([0, 1]), [129, 0])
plain("11.2", "trap_set", within([0, 1]), trap([0, 1]), [129, 0])
plain("11.3", "siphon_set", within([2]), siphon([2]), [129, 1])
plain("11.4", "trap_set", within([2]), trap([2]), [129, 1])
heading('"cover list (1,0,any), (0,1,any) accepted, (1,1,0) never covered"')
COVER = [(1, 0, ANY), (0, 1, ANY)]
LIST = {"initial": INITIAL, "list": [65535 if n is ANY else n for m in COVER for n in m]}
plain("12.1", "cover_list", LIST, cover_list(COVER), [129, 0])
plain("12.2", "cover_target", {**LIST, "target": [1, 1, 0]}, cover_target(COVER, [1, 1, 0]), [129, 0])
