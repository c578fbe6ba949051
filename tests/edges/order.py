#!/usr/bin/env python3
"""The edges of two logs and their order, from requests E3 to E6 of document 02: the table order.calls is this script's output.

    python3 tests/edges/order.py > tests/edges/order.calls

The order is found step by step: for each number of letters read of the first log and of the second the least list of 0s and 1s
that leads there, since of two lists as long the one with 0 at the first difference is to be given. The room holds 7s at entry
and the work space 9s where nothing else is said. Answers: order_logs 129 0 (found), 129 1 (none), 130 refusal position;
rest_fault 129 0, 130 refusal 0; unread_rest 129 0 0 log start length, 130 refusal 0. Of a rest .1 is rest_fault, .2 unread_rest.
"""

from functools import cache
from itertools import product

from shared.calls import HEAVY, HUGE, LIGHT, LOOSE, NONE, WIRED, all_plain, call, group, heading, heavy, loose, net as lent_net

WORK = 65536


def fired(P, pre, post, caps, marks, m, t):
    """The marking after t, or None where it is not enabled."""
    takes, puts = pre[t * P : (t + 1) * P], post[t * P : (t + 1) * P]
    after = tuple(m[p] + puts[p] - takes[p] for p in range(P))
    level = [m[p] + puts[p] if marks[p] else after[p] for p in range(P)]  # of a pocket "tokens plus Post" (E5)
    over = any(caps[p] != NONE and level[p] > caps[p] for p in range(P))
    return None if over or any(takes[p] > m[p] for p in range(P)) else after


def order_of(P, T, pre, post, caps, initial, marks, first, second):
    """The order to be given, or None."""
    fire = cache(lambda m, t: fired(P, pre, post, caps, marks, m, t))
    led = {(0, 0): (b"", tuple(initial))}
    for _ in range(len(first) + len(second)):
        further = {}
        for (n, k), (order, m) in led.items():
            for step, log, at, pair in [(b"\0", first, n, (n + 1, k)), (b"\1", second, k, (n, k + 1))]:
                after = fire(m, log[at]) if at < len(log) else None
                if after is not None and (pair not in further or order + step < further[pair][0]):
                    further[pair] = order + step, after
        led = further
    return list(led[len(first), len(second)][0]) if led else None


def long_refusal(first, second):
    longest = max(len(first), len(second))
    return (4, 0) if longest > 65535 else (15, 0) if longest > 255 else None


def refusal(P, T, pre, post, caps, initial, marks, first, second, room, work):
    if P not in range(1, 65) or T not in range(1, 65):
        return 1, 0
    if [len(pre), len(post), len(caps), len(marks), len(initial)] != [P * T, P * T, P, P, P]:
        return 2, 0
    if len(room) != len(first) + len(second) or len(work) != WORK:
        return 2, 0
    if heavy(P, T, pre, post):
        return heavy(P, T, pre, post)
    bad = [p for p in range(P) if initial[p] == 65535 or (caps[p] != NONE and initial[p] > caps[p])]
    if bad:
        return 3, bad[0]
    if loose(P, T, pre, post):
        return loose(P, T, pre, post)
    wrong = [k for log in (first, second) for k, letter in enumerate(log) if letter >= T]  # the first log's come first
    return long_refusal(first, second) or ((5, wrong[0]) if wrong else None)


def ask(case, edge, net, first, second, room=None, work=None, marks=None):
    """The order of two logs, with a room of this length, a work space that holds this, and these marks."""
    if edge:
        heading(edge)
    room = [7] * (len(first) + len(second) if room is None else room)
    work = [9] * WORK if work is None else work
    marks = all_plain(net[0]) if marks is None else marks
    lent = {**lent_net(*net[:5], marks), "initial": net[5], "first": first, "second": second, "room": room, "work": work}
    refused = refusal(*net, marks, first, second, room, work)
    order = None if refused else order_of(*net, marks, first, second)
    answer = [130, *refused] if refused else [129, 1 if order is None else 0]
    left = {"room": room if order is None else order, "work": work if refused else [0] * WORK}
    call(case, "order_logs", lent, answer, left)
    return refused or order


def refuse(case, edge, number, *asked, **lent):
    assert ask(case, edge, *asked, **lent)[0] == number, edge


def found(case, edge, order, *asked, **lent):
    assert ask(case, edge, *asked, **lent) == order, edge


def none(case, edge, *asked, **lent):
    assert ask(case, edge, *asked, **lent) is None, edge


# A baton is handed from place to place, by transition t from t to t + 1: one word fires, 0 1 2 3 4 5.
BATON = 7, 6, [int(p == t) for t in range(6) for p in range(7)], [int(p == t + 1) for t in range(6) for p in range(7)], [NONE] * 7, [1] + [0] * 6
# One token: 0 takes it, 1 looks at it, 3 puts it back; 4 takes two, which are never there; 2 is free, it only puts onto a heap.
TAKE, LOOK, FREE, BACK, NEVER = range(5)
TOKEN = 2, 5, [1, 0, 1, 0, 0, 0, 0, 0, 2, 0], [0, 0, 1, 0, 0, 1, 1, 0, 0, 0], [1, NONE], [1, 0]
# A buffer of one: 0 puts, 1 takes.
BUFFER = 1, 2, [0, 1], [1, 0], [1], [0]
PUTS, TAKES = [0], [1]


def which_order():
    group("which order is given; room and work space at exit")
    found(1, "two empty logs: the empty order", [], TOKEN, [], [])
    found(2, "an empty first log", [1, 1], TOKEN, [], [LOOK, TAKE])
    found(3, "an empty second log", [0, 0], TOKEN, [LOOK, TAKE], [])
    none(4, "an empty first log, and the second does not fire", TOKEN, [], [TAKE, LOOK])
    none(5, "an empty second log, and the first does not fire", TOKEN, [TAKE, LOOK], [])
    found(6, "both orders fire: the first log is preferred", [0, 1], TOKEN, [FREE], [FREE])
    found(7, "all orders fire", [0, 0, 0, 1, 1, 1], TOKEN, [FREE, LOOK, FREE], [LOOK, FREE, LOOK])
    found(8, "the one letter of the second log has to come first", [1, 0], TOKEN, [TAKE], [LOOK])
    found(9, "the one letter of the first log has to come first", [0, 1], TOKEN, [LOOK], [TAKE])
    for k, order in enumerate([[1, 0, 0, 0, 0, 0], [0, 0, 1, 0, 0, 0], [0, 0, 0, 1, 0, 0], [0, 0, 0, 0, 0, 1],
                               [0, 1, 1, 1, 1, 1], [1, 1, 1, 0, 1, 1], [1, 1, 1, 1, 1, 0], [0, 1, 0, 1, 0, 1], [1, 0, 0, 1, 1, 0]]):
        log = lambda which: [t for t in range(6) if order[t] == which]
        found(10 + k, "one order alone fires" if k == 0 else "", order, BATON, log(0), log(1))
    found(20, "a letter of the first log could fire and has to wait: at the first step", [1, 0, 0, 0], TOKEN, [TAKE, FREE, FREE], [LOOK])
    found(21, "in the middle", [0, 1, 0, 0], TOKEN, [FREE, TAKE, FREE], [LOOK])
    found(22, "at the last step", [0, 0, 1, 0], TOKEN, [FREE, FREE, TAKE], [LOOK])
    found(23, "until all of the second log is read", [1, 1, 1, 1, 0], TOKEN, [TAKE], [FREE, FREE, FREE, LOOK])
    found(24, "twice", [1, 0, 0, 1, 1, 0], TOKEN, [TAKE, FREE, TAKE], [LOOK, BACK, LOOK])
    found(25, "of several orders that begin alike, the one that goes on with the first log", [0, 1, 0, 0, 1, 1], TOKEN,
          [TAKE, TAKE, BACK], [BACK, LOOK, TAKE])


def none_fires():
    group("none: the room as found, the work space zero")
    none(31, "at the last letter of the second log", TOKEN, [FREE, FREE], [FREE, NEVER])
    none(32, "at the last letter of the first log", TOKEN, [FREE, NEVER], [FREE, FREE])
    none(33, "at the first letters of both", TOKEN, [NEVER], [NEVER])
    none(34, "each log fires alone, and no order of both", TOKEN, [TAKE], [TAKE])
    none(35, "an order fires if the logs' own order is not kept", TOKEN, [TAKE, LOOK], [FREE])
    none(36, "the baton, with two letters of a log exchanged", BATON, [0, 3, 2, 5], [1, 4])


def capacities():
    group("capacities and tokens")
    found(41, "the buffer is full after each letter of the first log", [0, 1, 0, 1], BUFFER, PUTS * 2, TAKES * 2)
    found(42, "and empty at the start: the second log has to begin", [1, 0, 1, 0], BUFFER, TAKES * 2, PUTS * 2)
    none(43, "one letter more than the buffer holds", BUFFER, PUTS * 3, TAKES)
    found(44, "exactly what the buffer holds at the end", [0, 1, 0], BUFFER, PUTS * 2, TAKES)
    wide = 1, 2, [0, 4095], [4095, 0], [NONE], [65534]
    found(45, "over 65,535 tokens on the way", [0, 1], wide, [0], [1])
    found(46, "most tokens: 65,534 + 510 x 4,095", [0] * 255 + [1] * 255, wide, [0] * 255, [0] * 255)
    capped = 1, 2, [0, 4095], [4095, 0], [65534], [65534]
    found(47, "no room for more at a capacity of 65,534", [1, 0], capped, [0], [1])
    loop = 1, 2, [1, 0], [1, 1], [1], [1]
    found(48, "a loop fires at a full place", [0], loop, [0], [])
    none(49, "and another token has no room there", loop, [0], [1])


def many_letters():
    group("255 letters each")
    found(51, "all orders fire", [0] * 255 + [1] * 255, TOKEN, [FREE] * 255, [FREE] * 255)
    found(52, "by turns, the first log begins", [0, 1] * 255, BUFFER, PUTS * 255, TAKES * 255)
    found(53, "by turns, the second log begins", [1, 0] * 255, BUFFER, TAKES * 255, PUTS * 255)
    found(54, "the first letter of the first log has to wait for the last of the second", [1] * 255 + [0] * 255, TOKEN,
          [TAKE] + [FREE] * 254, [FREE] * 254 + [LOOK])
    none(55, "none, at the last letter of the second log", TOKEN, [FREE] * 255, [FREE] * 254 + [NEVER])
    none(56, "none, at the last letter of the first log", TOKEN, [FREE] * 254 + [NEVER], [FREE] * 255)
    found(57, "the first log alone", [0] * 255, TOKEN, [FREE] * 255, [])
    found(58, "the second log alone", [1] * 255, TOKEN, [], [FREE] * 255)
    rows = range(64 * 64)
    ring = 64, 64, [int(k % 64 == k // 64) for k in rows], [int(k % 64 == (k // 64 + 1) % 64) for k in rows], [1] * 64, [1] + [0] * 63
    found(59, "64 places, 64 transitions: a ring with one token", [0, 1] * 100, ring, [t % 64 for t in range(0, 200, 2)], [t % 64 for t in range(1, 200, 2)])


def all_short():
    group("every pair of logs that together have up to three letters")
    net = 2, 3, [1, 0, 0, 1, 0, 0], [0, 1, 1, 0, 0, 1], [1, 1], [1, 0]
    case = 100
    for letters in range(4):
        for first in range(letters + 1):
            for word in product(range(3), repeat=letters):
                case += 1
                ask(case, "", net, list(word[:first]), list(word[first:]))


def work_space():
    group("the work space, whatever it held")
    for k, (edge, held) in enumerate([("zeros", [0] * WORK), ("ones", [1] * WORK), ("255s", [255] * WORK),
                                      ("a one at its front", [1] + [0] * (WORK - 1)), ("a one at its end", [0] * (WORK - 1) + [1])]):
        found(61 + 3 * k, edge, [1, 0], TOKEN, [TAKE], [LOOK], work=held)
        none(62 + 3 * k, "", TOKEN, [TAKE], [TAKE], work=held)
        refuse(63 + 3 * k, "", 5, TOKEN, [TAKE], [5], work=held)


def one_refusal():
    group("each refusal alone")
    lists = TOKEN[2:]
    for k, (edge, P, T) in enumerate([("no place", 0, 5), ("65 places", 65, 5), ("as many places as can be told", HUGE, 5),
                                      ("no transition", 1, 0), ("65 transitions", 1, 65), ("as many transitions", 1, HUGE)]):
        refuse(301 + k, f"1: {edge}", 1, (P, T, *lists), [FREE], [FREE])
    for k, name in enumerate(["Pre", "Post", "capacities", "initial marking"]):
        for longer in range(2):
            other = lists[k] + [0] if longer else lists[k][:-1]
            refuse(311 + 2 * k + longer, f"2: {name} one too {'long' if longer else 'short'}", 2,
                   (*TOKEN[: 2 + k], other, *TOKEN[3 + k :]), [FREE], [FREE])
    for k, (edge, room) in enumerate([("one longer", 6), ("one short", 4), ("for the first log alone", 3), ("for the second log alone", 2),
                                      ("empty", 0), ("for two of the longest logs", 510)]):
        refuse(321 + k, f"2: a room {edge}", 2, TOKEN, [FREE] * 3, [FREE] * 2, room=room)
    refuse(327, "2: a room of one byte for two empty logs", 2, TOKEN, [], [], room=1)
    for k, bytes_ in enumerate([65535, 65537, 0, 1, 131072]):
        refuse(331 + k, f"2: a work space of {bytes_:,} bytes", 2, TOKEN, [FREE], [FREE], work=[9] * bytes_)
    for k, (edge, initial) in enumerate([("65,535 tokens", [65535, 0, 0]), ("above capacity", [1, 0, 6]), ("both, the lower place", [1, 65535, 6])]):
        refuse(341 + k, f"3: {edge}", 3, (3, 1, [1] * 3, [0] * 3, [NONE, NONE, 5], initial), [0], [0])
    refuse(351, "4: 65,536 letters in the first log", 4, TOKEN, [FREE] * 65536, [])
    refuse(352, "4: 65,536 letters in the second log", 4, TOKEN, [], [FREE] * 65536)
    refuse(353, "4: in both", 4, TOKEN, [FREE] * 65536, [FREE] * 65536)
    refuse(354, "15: 256 letters in the first log, with the right room", 15, TOKEN, [FREE] * 256, [FREE] * 254)
    refuse(355, "15: 256 letters in the second log, with the right room", 15, TOKEN, [FREE] * 254, [FREE] * 256)
    refuse(356, "15: 256 letters and none", 15, TOKEN, [FREE] * 256, [])
    refuse(357, "15: none and 256 letters", 15, TOKEN, [], [FREE] * 256)
    refuse(358, "15: 65,535 letters each", 15, TOKEN, [FREE] * 65535, [FREE] * 65535)
    refuse(361, "5: the first letter of the first log", 5, TOKEN, [5, FREE], [FREE])
    refuse(362, "5: the last letter of the first log", 5, TOKEN, [FREE, FREE, 255], [FREE])
    refuse(363, "5: the first letter of the second log", 5, TOKEN, [FREE, FREE], [5])
    refuse(364, "5: the last letter of the second log, counted in its own", 5, TOKEN, [FREE, FREE], [FREE, FREE, FREE, 6])
    refuse(365, "5: in both logs, the first one's letter, though it has the higher number", 5, TOKEN, [FREE, FREE, 5], [5])
    refuse(366, "5: letter 254 of the second log", 5, TOKEN, [FREE] * 255, [FREE] * 254 + [5])
    refuse(367, "5: though no order would come as far", 5, TOKEN, [NEVER, 5], [NEVER])


def two_refusals():
    group("several refusals at once: 1 2 18 3 17 4 15 5, in this order")
    refuse(371, "1 and 2", 1, (0, *TOKEN[1:]), [FREE], [FREE], room=3)
    refuse(372, "1 and 4, 15, 5", 1, (1, 0, *TOKEN[2:]), [255] * 65536, [255])
    refuse(373, "2 and 3: the room", 2, (*TOKEN[:5], [2, 0]), [FREE], [FREE], room=1)
    refuse(374, "2 and 3: the work space", 2, (*TOKEN[:5], [2, 0]), [FREE], [FREE], work=[9] * 65535)
    refuse(375, "2, 4 and 15: a room one longer than over-long logs", 2, TOKEN, [FREE] * 65536, [FREE] * 256, room=65793)
    refuse(376, "2, 4 and 15: a room for the longest that may be", 2, TOKEN, [FREE] * 65536, [FREE] * 256, room=510)
    refuse(377, "2 and 15", 2, TOKEN, [FREE] * 256, [], room=255)
    refuse(378, "2 and 5", 2, TOKEN, [5], [5], work=[9] * 65537)
    refuse(379, "3 and 4", 3, (*TOKEN[:5], [2, 0]), [FREE] * 65536, [])
    refuse(380, "3 and 15", 3, (*TOKEN[:5], [2, 0]), [FREE] * 256, [])
    refuse(381, "3 and 5", 3, (*TOKEN[:5], [2, 0]), [5], [])
    refuse(382, "4 and 15: the first log over 65,535, the second over 255", 4, TOKEN, [FREE] * 65536, [FREE] * 256)
    refuse(383, "4 and 15: the first log over 255, the second over 65,535", 4, TOKEN, [FREE] * 256, [FREE] * 65536)
    refuse(384, "4 and 5", 4, TOKEN, [5] * 65536, [5])
    refuse(385, "15 and 5: the letter in the log that is too long", 15, TOKEN, [5] * 256, [FREE])
    refuse(386, "15 and 5: the letter in the other log", 15, TOKEN, [5], [FREE] * 256)
    refuse(387, "15 and 5: letter 255 of the second log", 15, TOKEN, [FREE], [FREE] * 255 + [5])


def pockets():
    group("pockets: of each case .1 is plain, the others are pockets, all alike")
    belt = 1, 2, [1, 1], [1, 0], [1], [1]  # 0: a board comes while one leaves; 1: a board leaves
    room = 1, 3, [1, 1, 0], [1, 0, 1], [2], [2]  # and 2: a board comes
    for n, mark in enumerate([0, 1, 2, 255], 1):
        passes = mark == 0
        ask(f"551.{n}", "a loop at a full place: none at a pocket" if n == 1 else "", belt, [0], [], marks=[mark])
        ask(f"552.{n}", "a board has to leave first" if n == 1 else "", room, [0, 0], [1], marks=[mark])
        ask(f"553.{n}", "and comes back: the order that is given has to wait" if n == 1 else "", room, [0, 2], [1], marks=[mark])
        ask(f"554.{n}", "without a capacity a pocket is plain" if n == 1 else "", (*belt[:4], [NONE], [1]), [0], [1], marks=[mark])
        ask(f"555.{n}", "every order jams" if n == 1 else "", (*belt[:5], [1]), [0], [0, 1], marks=[mark])
        assert (ask(f"556.{n}", "255 letters each" if n == 1 else "", room, [0] * 255, [0] * 255, marks=[mark]) is not None) == passes
    group("a pocket beside a plain place")
    for k, marks in enumerate([[0, 0], [1, 0], [0, 1], [1, 1]]):
        pair = 2, 3, [1, 1, 1, 0, 0, 1], [1, 1, 0, 0, 0, 0], [1, 1], [1, 1]
        ask(f"{561 + k}", f"marks {marks}", pair, [0, 1], [2], marks=marks)
        ask(f"{561 + k}.1", "", (*pair[:4], [2, 2], [2, 2]), [0, 1], [2, 0], marks=marks)
    group("marks of another length: 2, after 1, before 3, 17 and 4")
    for k, marks in enumerate([[], [0], [0] * 3]):
        refuse(571 + k, f"{len(marks)} marks of two places", 2, TOKEN, [FREE], [FREE], marks=marks)
    refuse(574, "2 and 3", 2, (*TOKEN[:5], [2, 0]), [FREE], [FREE], marks=[0])
    refuse(575, "2 and 17", 2, (1, 1, [0], [0], [4], [0]), [0], [0], marks=[])
    refuse(576, "2 and 4", 2, TOKEN, [FREE] * 65536, [], marks=[0] * 3)
    refuse(577, "1 and 2", 1, (0, *TOKEN[1:]), [FREE], [FREE], marks=[0])


def loose_nodes():
    group("nodes without an arc: refusal 17; then nets that hang together by one arc")
    for k, (edge, P, T, pre, post) in enumerate(LOOSE):
        refuse(501 + k, edge, 17, (P, T, pre, post, [9] * P, [1] * P), [0], [0])
    for k, (edge, P, T, pre, post) in enumerate(WIRED):
        found(521 + k, edge, [0, 1], (P, T, pre, post, [9], [2]), [0], [0])
    group("17 and another refusal")
    bare = 1, 1, [0], [0], [4], [0]
    refuse(531, "1 and 17", 1, (1, 65, [0] * 65, [0] * 65, [4], [0]), [0], [0])
    refuse(532, "2 and 17: the work space", 2, bare, [0], [0], work=[9] * 65535)
    refuse(533, "3 and 17", 3, (*bare[:5], [5]), [0], [0])
    refuse(534, "17 and 4", 17, bare, [0] * 65536, [0])
    refuse(535, "17 and 15", 17, bare, [0], [0] * 256)
    refuse(536, "17 and 5", 17, bare, [0], [1])
    refuse(537, "17, 4, 15 and 5", 17, bare, [0] * 65535 + [1], [0] * 256)
    refuse(538, "17 and two empty logs", 17, bare, [], [])


def heavy_weights():
    group("weights over 4,095: refusal 18; then weights at the limit")
    for k, (edge, P, T, pre, post) in enumerate(HEAVY):
        refuse(601 + k, edge, 18, (P, T, pre, post, [9] * P, [1] * P), [0], [0])
    for k, (edge, P, T, pre, post) in enumerate(LIGHT):
        ask(621 + k, edge, (P, T, pre, post, [9000] * P, [4500] * P), [0], [0])
    group("a bin in kilograms: 0 brings 1,500, 1 takes 4,095, of at most 6,000")
    chips = 1, 2, [0, 4095], [1500, 0], [6000], [2600]
    found(631, "two loads have to come before the truck", [0, 0, 1], chips, [0, 0], [1])
    found(632, "the truck between the second and the third", [0, 0, 1, 0], chips, [0, 0, 0], [1])
    none(633, "two trucks are too many", chips, [0, 0], [1, 1])
    found(634, "with 200 more at the start one load is enough", [1, 0], (*chips[:5], [5900]), [0], [1])
    found(635, "two loads of half a bin and a truck, three times", [0, 0, 1] * 3, (1, 2, [0, 3000], [1500, 0], [3000], [0]), [0] * 6, [1] * 3)
    group("18 and another refusal")
    too_much = 1, 1, [4096], [0], [4], [0]
    refuse(641, "1 and 18", 1, (1, 65, [4096] * 65, [0] * 65, [4], [0]), [0], [0])
    refuse(642, "2 and 18: the work space", 2, too_much, [0], [0], work=[9] * 65535)
    refuse(643, "2 and 18: the room", 2, too_much, [0], [0], room=1)
    refuse(644, "2 and 18: the marks", 2, too_much, [0], [0], marks=[])
    refuse(645, "18 and 3", 18, (*too_much[:5], [5]), [0], [0])
    refuse(646, "18 and 17", 18, (2, 1, [0, 4096], [0, 0], [4, 4], [0, 0]), [0], [0])
    refuse(647, "18 and 4", 18, too_much, [0] * 65536, [0])
    refuse(648, "18 and 15", 18, too_much, [0], [0] * 256)
    refuse(649, "18 and 5", 18, too_much, [0], [1])
    refuse(650, "18, 3, 4, 15 and 5", 18, (*too_much[:5], [65535]), [0] * 65535 + [1], [0] * 256)
    refuse(651, "18 and two empty logs", 18, too_much, [], [])


def rest(case, edge, first, second, order, step):
    """What is refused of the question for the rest, and the rest."""
    if edge:
        heading(edge)
    is_order = sorted(order) == [0] * len(first) + [1] * len(second)
    refused = long_refusal(first, second) or (None if is_order and step < len(order) else (16, 0))
    lent = {"first": first, "second": second, "order": order, "step": step}
    call(f"{case}.1", "rest_fault", lent, [130, *refused] if refused else [129, 0])
    if refused:
        call(f"{case}.2", "unread_rest", lent, [130, *refused])
        return refused[0]
    taken, log = order[:step].count(order[step]), (first, second)[order[step]]
    call(f"{case}.2", "unread_rest", lent, [129, 0, 0, order[step], taken, len(log[taken:])])
    return log[taken:]


def rests():
    group("the unread rest: every step of an order")
    first, second, order = [10, 11, 12], [20, 21], [1, 0, 0, 1, 0]
    parts = [second, first, first[1:], second[1:], first[2:]]
    for step, part in enumerate(parts):
        assert rest(401 + step, f"step {step}", first, second, order, step) == part
    for step in range(2):
        assert rest(411 + step, "logs of one letter" if step == 0 else "", [0], [255], [0, 1], step) == [step * 255]
    assert rest(413, "the second log is empty", [5, 6], [], [0, 0], 1) == [6]
    assert rest(414, "the first log is empty", [], [5, 6], [1, 1], 0) == [5, 6]
    full = [9] * 255
    for k, (step, length) in enumerate([(0, 255), (254, 1), (255, 255), (509, 1)]):
        assert len(rest(421 + k, "255 letters each, one log after the other" if k == 0 else "", full, full, [0] * 255 + [1] * 255, step)) == length
    for k, step in enumerate([0, 1, 253, 254, 508, 509]):
        assert len(rest(431 + k, "by turns" if k == 0 else "", full, full, [1, 0] * 255, step)) == 255 - step // 2


def rest_refusals():
    group("the unread rest refused")
    first, second = [3, 4, 5], [6, 7]
    wrong = {
        "a 2 for a 1": [0, 0, 2, 1, 0], "a 255 for a 0": [255, 0, 1, 1, 0], "a 2 beside all 0s and 1s, at the front": [2, 0, 0, 0, 1, 1],
        "a 2 beside all 0s and 1s, at the end": [0, 0, 0, 1, 1, 2], "a 0 for a 1": [0, 0, 0, 0, 1], "a 1 for a 0": [0, 0, 1, 1, 1],
        "0s and 1s exchanged": [1, 1, 1, 0, 0], "one 0 more": [0, 0, 0, 0, 1, 1], "one 1 more": [0, 0, 0, 1, 1, 1], "one 0 fewer": [0, 0, 1, 1],
        "one 1 fewer": [0, 0, 0, 1], "twice as long": [0, 0, 0, 1, 1] * 2, "no step at all": [], "other bytes only": [2] * 5,
    }
    for k, (edge, order) in enumerate(wrong.items()):
        assert rest(441 + k, f"16: {edge}", first, second, order, 0) == 16
    for k, (edge, step) in enumerate([("at the length", 5), ("one past it", 6), ("256", 256), ("2 to the 32", 2**32), ("the largest there is", HUGE)]):
        assert rest(461 + k, f"16: the step {edge}", first, second, [0, 0, 0, 1, 1], step) == 16
    assert rest(471, "16: two empty logs have no step", [], [], [], 0) == 16
    assert rest(472, "16: the same, with an order", [], [], [0], 0) == 16
    assert rest(473, "16: an empty first log, and a 0", [], [1], [0], 0) == 16
    for k, (edge, n, m) in enumerate([("256 letters in the first log", 256, 0), ("256 letters in the second log", 0, 256), ("65,535 letters", 65535, 1)]):
        assert rest(481 + k, f"15: {edge}, and an order of both", [8] * n, [8] * m, [0] * n + [1] * m, 0) == 15
    assert rest(484, "4: 65,536 letters in the first log, and an order of both", [8] * 65536, [8], [0] * 65536 + [1], 0) == 4
    assert rest(485, "4: 65,536 letters in the second log, and an order of both", [8], [8] * 65536, [0] + [1] * 65536, 0) == 4
    assert rest(491, "15 and 16: the order", [8] * 256, [8], [0], 0) == 15
    assert rest(492, "15 and 16: the step", [8], [8] * 256, [0] + [1] * 256, 257) == 15
    assert rest(493, "4 and 16", [8] * 65536, [8], [2], 9) == 4
    assert rest(494, "4, 15 and 16", [8] * 256, [8] * 65536, [], 0) == 4


which_order()
none_fires()
capacities()
many_letters()
work_space()
all_short()
one_refusal()
two_refusals()
rests()
rest_refusals()
loose_nodes()
pockets()
heavy_weights()
