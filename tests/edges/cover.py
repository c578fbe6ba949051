#!/usr/bin/env python3
"""The edges of cover lists: the table cover.calls is this script's output.

    python3 tests/edges/cover.py > tests/edges/cover.calls

Written from document 01 and 02's E4 to E6 alone, without the library's code: markings are tuples of unbounded numbers, any number is a thing of
its own, and every rule is spelled out as 01 words it (refusals and the search in shared/lists.py). Answers: 129 0 (accepted, or
never covered), 129 1 (initial missing), 129 2 marking transition, 129 3 (not shown), or 130 refusal position.
"""

from shared.calls import HEAVY, LIGHT, LOOSE, NONE, WIRED, group, heading
from shared.lists import SAMPLE, START, Net, counted_net, failure, markings_of, one_place, refusal, tell

ANY = None  # "65,535 for any number", in a list only


def fired(net, m, t):
    """The result of t at the listed marking m, capacities ignored, or None where t is not enabled."""
    takes, puts = net.arcs(t)
    if any(m[p] is not ANY and takes[p] > m[p] for p in range(net.P)):
        return None
    return tuple(ANY if m[p] is ANY else m[p] + puts[p] - takes[p] for p in range(net.P))


def covers(c, m):
    """c covers m: any number covers everything, and a number only a number that is not larger."""
    return all(a is ANY or (b is not ANY and b <= a) for a, b in zip(c, m))


def line(case, net, initial, flat, target=None):
    listed = markings_of(net, [ANY if x == 65535 else x for x in flat]) if net.P else []

    def held(m):
        return any(covers(c, m) for c in listed)

    lent = {"initial": initial, "list": flat, **({} if target is None else {"target": target})}
    tell(
        case,
        "cover_list" if target is None else "cover_target",
        net,
        lent,
        refusal(net, initial, flat, target, (initial,)),
        lambda: failure(net, initial, listed, fired, held),
        lambda: target is None or not held(target),
    )


COVER = [1, 0, 65535, 0, 1, 65535]


def one(case, takes, puts, cap, tokens, flat):
    line(case, one_place(takes, puts, cap), [tokens], flat)


def counted(case, P, T, arcs, flat):
    line(case, counted_net(P, T, arcs), [0], flat)


def whole_lists():
    group("the net of 01's case, and what makes a list fail")
    heading("sample 12: (1,0,any), (0,1,any) accepted, (1,1,0) never covered")
    line(1, SAMPLE, START, COVER)
    line(2, SAMPLE, START, COVER, [1, 1, 0])
    heading("what a listed marking covers is not shown")
    line(3, SAMPLE, START, COVER, [0, 1, 9])
    heading("a number where any number is wanted: capacities are ignored, so place 2 grows")
    line(4, SAMPLE, START, [1, 0, 5, 0, 1, 5])
    heading("the initial marking is not covered; the result of transition 0 is not")
    line(5, SAMPLE, START, [0, 1, 65535])
    line(6, SAMPLE, START, [1, 0, 65535])
    heading("repeats are harmless; any number everywhere")
    line(7, SAMPLE, START, [0, 1, 65535, 1, 0, 65535, 0, 1, 65535])
    line(8, SAMPLE, START, [65535, 65535, 65535])
    heading("the list's failures, asked a target")
    line(9, SAMPLE, START, [1, 0, 65535], [1, 1, 0])
    line(10, SAMPLE, START, [0, 1, 65535], [1, 1, 0])


def refusals():
    group("refusals")
    heading("no marking, and no multiple of P")
    line(11, SAMPLE, START, [])
    line(12, SAMPLE, START, [1, 0])
    heading("a list's tokens above capacity are no fault; the initial marking's are, 65,535, another length")
    line(13, SAMPLE, START, [1, 0, 6, 0, 1, 6])
    line(14, SAMPLE, [1, 0, 6], COVER)
    line(15, SAMPLE, [65535, 0, 0], COVER)
    line(16, SAMPLE, [1, 0], [1, 0, 65535])
    heading("65,535 in a target, another length, and above capacity")
    line(17, SAMPLE, START, COVER, [0, 0, 65535])
    line(18, SAMPLE, START, COVER, [0, 0])
    line(19, SAMPLE, START, COVER, [0, 0, 6])
    heading("3 in a target comes before 9")
    line(20, SAMPLE, START, [], [0, 65535, 0])
    line(21, SAMPLE, START, [], [0, 0, 0])
    heading("counts outside 1 to 64; 64 transitions; Pre and Post have another length")
    counted(22, 0, 1, 0, [0])
    counted(23, 65, 1, 65, [0])
    counted(24, 1, 65, 65, [0])
    counted(25, 1, 64, 64, [0])
    counted(26, 1, 2, 1, [0])


def results():
    group("one place and one transition: results, capacities and any number")
    heading("capacities are ignored: the result is not covered; any number covers it, and stays so")
    one(31, 0, 1, 2, 0, [2])
    one(32, 0, 1, 2, 0, [65535])
    heading("any number minus one is any number")
    one(33, 1, 0, NONE, 0, [0, 65535])
    one(34, 1, 0, NONE, 3, [65535])
    heading("a finite result of 65,535 is covered by any number only")
    one(35, 0, 1, NONE, 65534, [65534])
    one(36, 0, 1, NONE, 65534, [65534, 65535])
    heading("2 covers 1, and not the other way")
    one(37, 1, 0, NONE, 1, [2])
    one(38, 1, 0, NONE, 2, [1])
    heading("a transition that is short at the listed marking has no result; at a fuller one it has")
    one(39, 3, 9, NONE, 2, [2])
    one(40, 3, 9, NONE, 2, [3])
    heading("65,536 is not 0")
    one(41, 10, 12, NONE, 65534, [65534, 0])


def long_lists():
    group("the longest lists")
    heading("4,096 markings; 4,097; the first of them fails; 3 of the initial marking comes before 9")
    one(51, 1, 0, NONE, 9, [9] * 4096)
    one(52, 1, 0, NONE, 9, [9] * 4097)
    one(53, 0, 1, NONE, 9, [9] * 4096)
    one(54, 1, 0, 5, 9, [9] * 4097)


def pockets():
    group("pockets change nothing: of each case .1 is plain, .2 and .3 are pockets")
    for n, mark in enumerate([0, 1, 255], 1):
        line(f"301.{n}", one_place(1, 2, 2, mark), [1], [1])
        line(f"302.{n}", one_place(1, 2, 2, mark), [1], [65535])
        line(f"303.{n}", one_place(1, 1, 2, mark), [2], [2])
        line(f"304.{n}", one_place(1, 1, 2, mark), [2], [2], [3])
        line(f"305.{n}", Net(3, 3, SAMPLE.pre, SAMPLE.post, SAMPLE.caps, [mark] * 3), START, COVER, [1, 1, 0])
    group("marks of another length: 2, before 3")
    for k, marks in enumerate([[], [0, 0], [0] * 4]):
        net = Net(3, 3, SAMPLE.pre, SAMPLE.post, SAMPLE.caps, marks)
        line(f"{331 + k}.1", net, START, COVER)
        line(f"{331 + k}.2", net, START, COVER, [1, 1, 0])
        line(f"{331 + k}.3", net, [1, 0, 6], COVER)


def heavy_weights():
    group("weights over 4,095: refusal 18; then weights at the limit")
    for k, (edge, P, T, pre, post) in enumerate(HEAVY + LIGHT):
        heading(edge)
        net, start = Net(P, T, pre, post, [9000] * P), [4500] * P
        line(f"{601 + k}.1", net, start, start)
        line(f"{601 + k}.2", net, start, start, [0] * P)
        line(f"{601 + k}.3", net, start, [65535] * P, [0] * P)
    heading("results of weights over a byte, and past 16 bits")
    one(641, 0, 4095, NONE, 1, [1, 4096])
    one(642, 0, 4095, NONE, 1, [1, 4096, 8191, 12286, 65535])
    one(643, 0, 4095, NONE, 65534, [65534])
    one(644, 4095, 1, NONE, 4094, [4094])
    one(645, 4095, 1, NONE, 4095, [4095])
    group("18 and another refusal")
    too_much, many = Net(1, 1, [4096], [0], [9]), [1] * 4097
    heading("1 and 18; 2 and 18: Pre; the list; the target; the marks")
    line(651, Net(1, 65, [4096] * 65, [0] * 65, [9]), [1], [1])
    line(652, Net(1, 1, [4096, 0], [0], [9]), [1], [1])
    line(653, Net(2, 1, [4096, 1], [0, 0], [9, 9]), [1, 1], [1, 1, 1])
    line(654, too_much, [1], [1], [1, 1])
    line(655, Net(1, 1, [4096], [0], [9], []), [1], [1])
    heading("18 and 3: the initial marking, the target; 18 and 17; 18 and 9")
    line(656, too_much, [10], [1])
    line(658, too_much, [1], [1], [65535])
    line(659, Net(2, 1, [0, 4096], [0, 0], [9, 9]), [1, 1], [1, 1])
    line("660.1", too_much, [1], [])
    line("660.2", too_much, [1], [], [0])
    line(661, too_much, [1], many)
    line(662, too_much, [10], many, [65535])


def loose_nodes():
    group("nodes without an arc: refusal 17; then nets that hang together by one arc")
    for k, (edge, P, T, pre, post) in enumerate(LOOSE + WIRED):
        heading(edge)
        net, start = Net(P, T, pre, post, [9] * P), [1] * P
        line(f"{201 + k}.1", net, start, start)
        line(f"{201 + k}.2", net, start, start, [0] * P)
    group("17 and another refusal")
    bare, many = Net(1, 1, [0], [0], [9]), [1] * 4097
    heading("1 and 17; 2 and 17: Pre; the list; the target")
    line(221, Net(1, 65, [0] * 65, [0] * 65, [9]), [1], [1])
    line(222, Net(1, 1, [0, 0], [0], [9]), [1], [1])
    line(223, Net(2, 1, [0, 0], [0, 0], [9, 9]), [1, 1], [1, 1, 1])
    line(224, bare, [1], [1], [1, 1])
    heading("3 and 17: the initial marking, the target")
    line(225, bare, [10], [1])
    line(227, bare, [1], [1], [65535])
    heading("17 and 9: no marking, 4,097 markings")
    line("228.1", bare, [1], [])
    line("228.2", bare, [1], [], [0])
    line("229.1", bare, [1], many)
    line("229.2", bare, [1], many, [0])
    heading("3, 17 and 9; 17, where the initial marking is missing")
    line(230, bare, [10], many)
    line(231, bare, [1], [2])


whole_lists()
refusals()
results()
long_lists()
loose_nodes()
pockets()
heavy_weights()
