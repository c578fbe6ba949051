#!/usr/bin/env python3
"""The edges of closed lists: the table closed.calls is this script's output.

    python3 tests/edges/closed.py > tests/edges/closed.calls

Written from document 01 and 02's E4, E5 and E6 alone, without the library's code: markings are tuples of unbounded numbers, a list is a set of them
with its order beside it, and every rule is spelled out as 01 words it (refusals and the search in shared/lists.py). Answers:
129 0 (accepted, never reached, never stalls), 129 1 (initial missing), 129 2 marking transition, 129 3 (not shown), or 130
refusal position.
"""

from shared.calls import HEAVY, LIGHT, LOOSE, NONE, WIRED, group, heading
from shared.lists import SAMPLE, START, Net, counted_net, failure, markings_of, one_place, refusal, tell


def fired(net, m, t):
    """The marking after t at m, or None where t is not enabled."""
    takes, puts = net.arcs(t)
    after = tuple(m[p] + puts[p] - takes[p] for p in range(net.P))
    for p in range(net.P):
        level = m[p] + puts[p] if net.marks[p] else after[p]  # of a pocket "tokens plus Post must keep to the capacity"
        if takes[p] > m[p] or (net.caps[p] != NONE and level > net.caps[p]):
            return None
    return after


def line(case, net, initial, flat, target=None, stall=False):
    def failed():
        held = set(markings_of(net, flat))
        return failure(net, initial, markings_of(net, flat), fired, lambda m: m in held)

    def shown():
        markings = markings_of(net, flat)
        if stall:
            return all(any(fired(net, m, t) is not None for t in range(net.T)) for m in markings)
        return target is None or tuple(target) not in markings

    lent = {"initial": initial, "list": flat, **({} if target is None else {"target": target})}
    question = "closed_stall" if stall else "closed_list" if target is None else "closed_target"
    tell(case, question, net, lent, refusal(net, initial, flat, target, (initial, flat)), failed, shown)


ALL = [x for a, b in ((1, 0), (0, 1)) for c in range(6) for x in (a, b, c)]


def one(case, takes, puts, cap, tokens, flat, stall=False, mark=0):
    line(case, one_place(takes, puts, cap, mark), [tokens], flat, stall=stall)


def counted(case, P, T, arcs, flat):
    line(case, counted_net(P, T, arcs), [0], flat)


def whole_lists():
    group("whole lists")
    heading("all 12 markings: one of places 0 and 1 marked, place 2 from 0 to 5")
    line(1, SAMPLE, START, ALL)
    heading("(0,1,5) is struck out")
    line(2, SAMPLE, START, ALL[:33])
    heading("(1,0,0), the initial marking, is struck out")
    line(3, SAMPLE, START, ALL[3:])
    heading("repeats are harmless")
    one(4, 1, 0, NONE, 1, [1, 0, 0, 1, 1])
    heading("repeats do not hide a failure: the first of two is named")
    one(5, 1, 0, NONE, 2, [2, 2, 1, 1])
    heading("more than the reachable markings")
    one(6, 1, 0, NONE, 1, [0, 1, 2, 3])
    heading("a result may be missing from a marking that is not reachable")
    one(7, 2, 0, NONE, 2, [2, 0, 4, 7])


def refusals():
    group("refusals")
    heading("no marking; no multiple of P")
    line(11, SAMPLE, START, [])
    line(12, SAMPLE, START, ALL[:35])
    line(13, SAMPLE, START, ALL[:1])
    heading("65,535 in a list")
    line(14, SAMPLE, START, [1, 0, 0, 1, 65535, 0])
    heading("a token above capacity at the last place of the last marking; exactly at capacity is no fault")
    line(15, SAMPLE, START, [1, 0, 0, 0, 1, 0, 1, 0, 6])
    line(16, SAMPLE, START, [1, 0, 0, 0, 1, 0, 1, 0, 5])
    heading("the initial marking: 65,535, above capacity, before the list, another length")
    line(17, SAMPLE, [65535, 0, 0], ALL)
    line(18, SAMPLE, [1, 0, 6], ALL)
    line(19, SAMPLE, [1, 0, 6], [65535, 0, 0])
    line(20, SAMPLE, [1, 0], ALL)
    heading("counts outside 1 to 64, before everything else")
    counted(21, 0, 1, 0, [0])
    counted(22, 65, 1, 65, [0])
    counted(23, 1, 65, 65, [0])
    counted(24, 1, 0, 0, [0])
    heading("Pre and Post have another length, and the list is empty; the list alone is empty; 64 transitions")
    counted(25, 1, 2, 1, [])
    counted(26, 1, 2, 2, [])
    counted(27, 1, 64, 64, [0])


def targets():
    group("targets")
    heading("listed: not shown; not listed: never reached; above capacity: allowed, and never reached")
    line(31, SAMPLE, START, ALL, [0, 1, 5])
    line(32, SAMPLE, START, ALL, [1, 1, 0])
    line(33, SAMPLE, START, ALL, [1, 0, 6])
    heading("65,535 in a target; another length")
    line(34, SAMPLE, START, ALL, [1, 65535, 0])
    line(35, SAMPLE, START, ALL, [1, 0])
    line(36, SAMPLE, START, ALL, [1, 0, 0, 0])
    heading("the list's failures")
    line(37, SAMPLE, START, ALL[:33], [1, 1, 0])
    line(38, SAMPLE, START, ALL[3:], [1, 1, 0])
    heading("3: initial, then list, then target; then 9")
    line(39, SAMPLE, [1, 0, 6], [65535, 0, 0], [0, 65535, 0])
    line(40, SAMPLE, START, [0, 65535, 0], [65535, 0, 0])
    line(41, SAMPLE, START, [], [0, 0, 65535])
    line(42, SAMPLE, START, [], [0, 0, 0])


def stalls():
    group("stalls")
    heading("every listed marking enables something")
    line(51, SAMPLE, START, ALL, stall=True)
    heading("the list's failures, and no marking")
    line(52, SAMPLE, START, ALL[:33], stall=True)
    line(53, SAMPLE, START, ALL[3:], stall=True)
    line(54, SAMPLE, START, [], stall=True)
    heading("a listed marking enables nothing, and is reached; and is never reached: not shown all the same")
    one(55, 1, 0, NONE, 1, [1, 0], stall=True)
    one(56, 1, 1, NONE, 1, [1, 0], stall=True)
    heading("a capacity disables the last transition; a loop at a full place is enabled")
    one(57, 0, 1, 2, 0, [0, 1, 2], stall=True)
    one(58, 1, 1, 2, 2, [2], stall=True)


def results():
    group("results that a list of 16 bits cannot hold, and capacities")
    heading("65,535 is absent; 65,536 is not 0")
    one(61, 0, 1, NONE, 65534, [65534])
    one(62, 10, 12, NONE, 65534, [65534, 0])
    heading("a capacity disables; without one the result is missing")
    one(63, 0, 1, 2, 0, [0, 1, 2])
    one(64, 0, 1, NONE, 0, [0, 1, 2])
    heading("the rule adds Change: with Post the loop would be disabled")
    one(65, 2, 3, 3, 2, [2, 3])


def long_lists():
    counting = list(range(4098))
    group("the longest lists")
    heading("4,096 markings, closed; the result of the last is missing; the last enables nothing")
    one(71, 0, 1, 4095, 0, counting[:4096])
    one(72, 0, 1, 4096, 0, counting[:4096])
    one(73, 0, 1, 4095, 0, counting[:4096], stall=True)
    heading("4,097 markings")
    one(74, 0, 1, 4096, 0, counting[:4097])
    heading("3 comes before 9: above capacity in an over-long list")
    one(75, 0, 1, 4096, 0, counting)
    one(76, 0, 1, 4095, 0, counting[:4097])


def pockets():
    group("pockets: of each case .1 is plain, the others are pockets, all alike")
    for k, (edge, takes, puts, cap, tokens, flat, stall) in enumerate([
        ("a result that a pocket keeps out need not be listed", 1, 2, 2, 1, [1], False),
        ("tokens plus Post exactly at capacity: it must be", 1, 2, 3, 1, [1], False),
        ("and its own result need not", 1, 2, 3, 1, [1, 2], False),
        ("without a capacity it must", 1, 2, NONE, 1, [1], False),
        ("a loop at a full pocket is not enabled: not shown", 1, 1, 2, 2, [2], True),
        ("with room for one more it is", 1, 1, 3, 2, [2], True),
        ("with no capacity it is", 1, 1, NONE, 2, [2], True),
    ]):
        heading(edge)
        for n, mark in enumerate([0, 1, 2, 255], 1):
            one(f"{301 + k}.{n}", takes, puts, cap, tokens, flat, stall, mark)
    group("01's case with a transition that looks at place 2: lists of all twelve markings, with (1,0,5) and (0,1,5) struck out")
    looks = lambda marks: Net(3, 4, SAMPLE.pre + [0, 0, 4], SAMPLE.post + [0, 0, 4], SAMPLE.caps, marks)
    for k, marks in enumerate([[0, 0, 0], [0, 0, 1], [1, 1, 0], [255, 2, 1]]):
        heading(f"marks {marks}")
        line(f"{321 + k}.1", looks(marks), START, ALL)
        line(f"{321 + k}.2", looks(marks), START, ALL, [0, 1, 5])
        line(f"{321 + k}.3", looks(marks), START, ALL, stall=True)
        line(f"{321 + k}.4", looks(marks), START, ALL[:33])
    group("marks of another length: 2, after 1 and before 3")
    for k, marks in enumerate([[], [0, 0], [0] * 4]):
        net = Net(3, 3, SAMPLE.pre, SAMPLE.post, SAMPLE.caps, marks)
        line(f"{331 + k}.1", net, START, ALL)
        line(f"{331 + k}.2", net, START, ALL, [0, 1, 5])
        line(f"{331 + k}.3", net, START, ALL, stall=True)
        line(f"{331 + k}.4", net, [1, 0, 6], ALL)
        line(f"{331 + k}.5", Net(3, 65, [1] * 195, [1] * 195, SAMPLE.caps, marks), START, ALL)


def heavy_weights():
    group("weights over 4,095: refusal 18; then weights at the limit")
    for k, (edge, P, T, pre, post) in enumerate(HEAVY + LIGHT):
        heading(edge)
        net, start = Net(P, T, pre, post, [9000] * P), [4500] * P
        line(f"{601 + k}.1", net, start, start)
        line(f"{601 + k}.2", net, start, start, [0] * P)
        line(f"{601 + k}.3", net, start, start, stall=True)
    group("a bin in kilograms: 0 brings 1,500, 1 takes 4,095, of at most 6,000")
    chips, held, reached = Net(1, 2, [0, 4095], [1500, 0], [6000]), [2600], [2600]
    for tokens in reached:  # it grows on the way
        results = [fired(chips, (tokens,), t) for t in range(2)]
        reached += [after[0] for after in results if after is not None and after[0] not in reached]
    line(641, chips, held, reached)
    line(642, chips, held, reached[:-1])
    line(643, chips, held, reached, [2601])
    line(644, chips, held, reached, stall=True)
    heading("4,096 in place of 4,095")
    line(645, chips, held, [2600, 4100, 5600, 4])
    heading("a result past 16 bits is not the listed one that its last bits say")
    one(647, 0, 4095, NONE, 65534, [65534, 65534 + 4095 - 65536])
    one(648, 0, 4095, NONE, 0, [0, 4095, 8190])
    group("18 and another refusal")
    too_much, many = Net(1, 1, [4096], [0], [9]), [1] * 4097
    heading("1 and 18; 2 and 18: Pre; the list; the target; the marks")
    line(651, Net(1, 65, [4096] * 65, [0] * 65, [9]), [1], [1])
    line(652, Net(1, 1, [4096, 0], [0], [9]), [1], [1])
    line(653, Net(2, 1, [4096, 1], [0, 0], [9, 9]), [1, 1], [1, 1, 1])
    line(654, too_much, [1], [1], [1, 1])
    line(655, Net(1, 1, [4096], [0], [9], []), [1], [1])
    heading("18 and 3: the initial marking, the list, the target; 18 and 17; 18 and 9")
    line(656, too_much, [10], [1])
    line(657, too_much, [1], [1, 10])
    line(658, too_much, [1], [1], [65535])
    line(659, Net(2, 1, [0, 4096], [0, 0], [9, 9]), [1, 1], [1, 1])
    line("660.1", too_much, [1], [])
    line("660.2", too_much, [1], [], [0])
    line("660.3", too_much, [1], [], stall=True)
    line(661, too_much, [1], many)
    line(662, too_much, [10], many, [65535])


def loose_nodes():
    group("nodes without an arc: refusal 17; then nets that hang together by one arc")
    for k, (edge, P, T, pre, post) in enumerate(LOOSE + WIRED):
        heading(edge)
        net, start = Net(P, T, pre, post, [9] * P), [1] * P
        line(f"{201 + k}.1", net, start, start)
        line(f"{201 + k}.2", net, start, start, [0] * P)
        line(f"{201 + k}.3", net, start, start, stall=True)
    group("17 and another refusal")
    bare, many = Net(1, 1, [0], [0], [9]), [1] * 4097
    heading("1 and 17; 2 and 17: Pre; the list; the target")
    line(221, Net(1, 65, [0] * 65, [0] * 65, [9]), [1], [1])
    line(222, Net(1, 1, [0, 0], [0], [9]), [1], [1])
    line(223, Net(2, 1, [0, 0], [0, 0], [9, 9]), [1, 1], [1, 1, 1])
    line(224, bare, [1], [1], [1, 1])
    heading("3 and 17: the initial marking, the list, the target")
    line(225, bare, [10], [1])
    line("226.1", bare, [1], [1, 10])
    line("226.2", bare, [1], [1, 10], stall=True)
    line(227, bare, [1], [1], [65535])
    heading("17 and 9: no marking, 4,097 markings")
    line("228.1", bare, [1], [])
    line("228.2", bare, [1], [], [0])
    line("228.3", bare, [1], [], stall=True)
    line("229.1", bare, [1], many)
    line("229.2", bare, [1], many, [0])
    line("229.3", bare, [1], many, stall=True)
    heading("3, 17 and 9; 17, where the initial marking is missing")
    line(230, bare, [10], many)
    line(231, bare, [1], [2])


whole_lists()
refusals()
targets()
stalls()
results()
long_lists()
loose_nodes()
pockets()
heavy_weights()
