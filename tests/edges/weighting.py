#!/usr/bin/env python3
"""The edges of weightings, bounds and sets: the table weighting.calls is this script's output.

    python3 tests/edges/weighting.py > tests/edges/weighting.calls

Written from document 01 and 02's E4 to E6 alone, without the library's code: numbers are unbounded and signed, sums are taken as 01 words
them, sets are sets, and arcs are read from dictionaries. Answers: 129 0 (invariant, yes) or 129 0 0 bound; 129 1 with the
lowest failing transition or place, or with the number of the cause for which there is no bound (1 not invariant, 2 a negative
entry, 3 y(p) not positive); 129 2 (proper); 130 refusal position.
"""

from shared.calls import HEAVY, HUGE, LIGHT, LOOSE, NONE, WIRED, call, group, heading, heavy, loose, net


class Refused(Exception):
    pass


def check_net(P, T, pre, post, caps, *lengths):
    """Refusals 1, 2 but for marks, and 18; `lengths` pairs each further list with the length it should have."""
    if not (1 <= P <= 64 and 1 <= T <= 64):
        raise Refused(1, 0)
    for lent, n in [(pre, P * T), (post, P * T), (caps, P), *lengths]:
        if len(lent) != n:
            raise Refused(2, 0)
    if heavy(P, T, pre, post):
        raise Refused(*heavy(P, T, pre, post))


def check_arcs(P, T, pre, post):
    """Refusal 17."""
    if loose(P, T, pre, post):
        raise Refused(*loose(P, T, pre, post))


def changes(P, T, pre, post):
    """Change(p,t) = Post - Pre."""
    return {(p, t): post[t * P + p] - pre[t * P + p] for p in range(P) for t in range(T)}


def failing_transitions(P, T, pre, post, y):
    change = changes(P, T, pre, post)
    return [t for t in range(T) if sum(y[p] * change[p, t] for p in range(P)) != 0]


def place_weighting(P, T, pre, post, caps, y):
    check_net(P, T, pre, post, caps, (y, P))
    check_arcs(P, T, pre, post)
    if not any(y):
        raise Refused(8, 0)
    failing = failing_transitions(P, T, pre, post, y)
    return [129, 1, min(failing)] if failing else [129, 0]


def transition_weighting(P, T, pre, post, caps, x):
    check_net(P, T, pre, post, caps, (x, T))
    check_arcs(P, T, pre, post)
    if not any(x):
        raise Refused(8, 0)
    change = changes(P, T, pre, post)
    failing = [p for p in range(P) if sum(change[p, t] * x[t] for t in range(T)) != 0]
    if failing:
        return [129, 1, min(failing)]
    return [129, 2] if min(x) >= 0 else [129, 0]


def place_bound(P, T, pre, post, caps, initial, y, place):
    check_net(P, T, pre, post, caps, (initial, P), (y, P))
    for p in range(P):
        if initial[p] == 65535 or (caps[p] != NONE and initial[p] > caps[p]):
            raise Refused(3, p)
    check_arcs(P, T, pre, post)
    if not any(y):
        raise Refused(8, 0)
    if place >= P:
        raise Refused(13, 0)
    if failing_transitions(P, T, pre, post, y):
        return [129, 1, 1]
    if min(y) < 0:
        return [129, 1, 2]
    if y[place] <= 0:
        return [129, 1, 3]
    bound, weighed = 0, sum(y[p] * initial[p] for p in range(P))
    # the whole part, without a division: the largest number whose product with y(p) is not above the sum
    step = 1 << weighed.bit_length()
    while step:
        if (bound + step) * y[place] <= weighed:
            bound += step
        step >>= 1
    return [129, 0, 0, bound]


def arcs_of(P, T, table, members):
    """The transitions with an arc in the table at some member."""
    return {t for t in range(T) for p in members if table[t * P + p] > 0}


def checked_set(P, T, pre, post, caps, lent):
    check_net(P, T, pre, post, caps, (lent, P))
    check_arcs(P, T, pre, post)
    members = {p for p in range(P) if lent[p] != 0}
    if not members:
        raise Refused(8, 0)
    return arcs_of(P, T, post, members), arcs_of(P, T, pre, members)


def siphon_set(P, T, pre, post, caps, lent):
    putting, taking = checked_set(P, T, pre, post, caps, lent)
    return [129, 1, min(putting - taking)] if putting - taking else [129, 0]


def trap_set(P, T, pre, post, caps, lent):
    putting, taking = checked_set(P, T, pre, post, caps, lent)
    return [129, 1, min(taking - putting)] if taking - putting else [129, 0]


# What each question is lent beside its net.
LENT = {
    place_weighting: ["y"],
    transition_weighting: ["x"],
    place_bound: ["initial", "y", "place"],
    siphon_set: ["set"],
    trap_set: ["set"],
}


def case(number, ask, P, T, pre, post, caps, *lent, marks=None):
    try:
        answer = ask(P, T, pre, post, caps, *lent)
    except Refused as refused:
        answer = [130, *refused.args]
    if marks is not None and len(marks) != P and answer[:2] != [130, 1]:
        answer = [130, 2]  # marks are looked at for their length alone
    call(number, ask.__name__, {**net(P, T, pre, post, caps, marks), **dict(zip(LENT[ask], lent))}, answer)


# the net of 01's case
SAMPLE = (3, 3, [1, 0, 0, 0, 1, 0, 0, 0, 3], [0, 1, 0, 1, 0, 2, 0, 0, 0], [NONE, NONE, 5])


def both_sets(number, net, lent):
    case(number, siphon_set, *net, lent)
    case(number + 1, trap_set, *net, lent)


def both_weightings(number, net, y):
    case(number, place_weighting, *net, y)
    case(number + 1, transition_weighting, *net, y)


def samples():
    group("the net of 01's case")
    heading("sample 8")
    case(1, place_weighting, *SAMPLE, [1, 1, 0])
    case(2, place_bound, *SAMPLE, [1, 0, 0], [1, 1, 0], 0)
    heading("sample 9")
    case(3, place_weighting, *SAMPLE, [0, 0, 1])
    heading("sample 10")
    case(4, transition_weighting, *SAMPLE, [3, 3, 2])
    heading("sample 11")
    both_sets(5, SAMPLE, [1, 1, 0])
    both_sets(7, SAMPLE, [0, 0, 1])
    heading("negative entries: invariant and not proper")
    case(9, place_weighting, *SAMPLE, [-1, -1, 0])
    case(10, transition_weighting, *SAMPLE, [-3, -3, -2])
    heading("fails at the first transition, and at the second")
    case(11, place_weighting, *SAMPLE, [1, 0, 0])
    case(12, place_weighting, *SAMPLE, [2, 2, 1])
    heading("fails at place 0, and at the last place only")
    case(13, transition_weighting, *SAMPLE, [3, 2, 2])
    case(14, transition_weighting, *SAMPLE, [3, 3, 1])
    case(15, transition_weighting, *SAMPLE, [-3, -3, 2])
    heading("all zero, and no place")
    case(16, place_weighting, *SAMPLE, [0, 0, 0])
    case(17, transition_weighting, *SAMPLE, [0, 0, 0])
    both_sets(18, SAMPLE, [0, 0, 0])
    heading("all places, any byte but 0 for in; one place")
    both_sets(20, SAMPLE, [255, 1, 128])
    both_sets(22, SAMPLE, [1, 0, 0])
    heading("another length")
    case(24, place_weighting, *SAMPLE, [1, 1])
    case(25, transition_weighting, *SAMPLE, [3, 3, 2, 1])
    both_sets(26, SAMPLE, [1, 1, 0, 0])


def bounds():
    def sample(number, first, last, y, place):
        case(number, place_bound, *SAMPLE, [first, 0, last], y, place)

    def two_places(number, takes, puts, initial, y, place):
        case(number, place_bound, 2, 1, [takes, 0], [0, puts], [NONE, NONE], initial, y, place)

    def largest(number, own, others, place):
        arcs = [4095] * 4096
        case(number, place_bound, 64, 64, arcs, arcs, [NONE] * 64, [65534] * 64, [own] + [others] * 63, place)

    group("bounds")
    heading("the causes in their order: not invariant and negative; negative; negative and not positive; not positive")
    sample(31, 1, 0, [0, 0, -1], 2)
    sample(32, 1, 0, [-1, -1, 0], 0)
    sample(33, 1, 0, [-1, -1, 0], 2)
    sample(34, 1, 0, [1, 1, 0], 2)
    sample(35, 1, 0, [0, 0, 1], 0)
    heading("place numbers up to P and above")
    sample(36, 1, 0, [1, 1, 0], 1)
    sample(37, 1, 0, [1, 1, 0], 3)
    sample(38, 1, 0, [1, 1, 0], HUGE)
    heading("8 before 13, 3 before 8, 2 before 3; 3 at the lowest place")
    sample(39, 1, 0, [0, 0, 0], 3)
    sample(40, 1, 6, [0, 0, 0], 3)
    sample(41, 1, 6, [0, 0], 3)
    sample(42, 65535, 6, [1, 1, 0], 0)
    heading("y(p) = 1; what is left over by the division")
    two_places(43, 1, 1, [65534, 65534], [1, 1], 0)
    two_places(44, 3, 2, [4, 1], [2, 3], 0)
    two_places(45, 3, 2, [4, 1], [2, 3], 1)
    two_places(46, 3, 2, [4, 0], [2, 3], 0)
    two_places(47, 255, 1, [65534, 65534], [128, 32640], 1)
    heading("no tokens")
    two_places(48, 1, 1, [0, 0], [7, 7], 0)
    heading("64 places and 64 transitions: the largest sums")
    largest(49, 32767, 32767, 63)
    largest(50, 1, 32767, 0)
    largest(51, 1, 32767, 1)
    largest(52, -32768, 32767, 1)
    largest(53, 0, 32767, 0)


def extremes():
    def one(takes, puts):
        return 1, 1, [takes], [puts], [NONE]

    def one_set(number, takes, puts):
        case(number, siphon_set, *one(takes, puts), [1])
        case(number + 1, trap_set, *one(takes, puts), [255])

    def sixty_four(number, others, end, last):
        net = 64, 64, [4095] * 4096, [4095] * 4095 + [last], [NONE] * 64
        both_weightings(number, net, [others] * 63 + [end])

    def largest_set(number, place, last):
        net = 64, 64, [4095] * 4095 + [last], [4095] * 4096, [NONE] * 64
        both_sets(number, net, [1 if p == place else 0 for p in range(64)])

    group("one place and one transition: the largest entries and weights")
    both_weightings(61, one(4095, 4095), [-32768])
    both_weightings(63, one(4095, 0), [-32768])
    both_weightings(65, one(0, 4095), [32767])
    both_weightings(67, one(1, 1), [1])
    both_weightings(69, one(1, 2), [0])
    heading("its place as a siphon and as a trap")
    one_set(71, 4095, 4095)
    one_set(73, 4095, 0)
    one_set(75, 0, 4095)
    heading("a transition that does not touch it, and a loop")
    beside = 2, 2, [0, 0, 1, 0], [0, 1, 1, 0], [NONE, NONE]
    case(77, siphon_set, *beside, [1, 0])
    case(78, trap_set, *beside, [255, 0])
    group("64 places and 64 transitions")
    heading("every sum is 0")
    sixty_four(81, -32768, -32768, 4095)
    sixty_four(83, 32767, 32767, 4095)
    sixty_four(85, 32767, -32768, 4095)
    heading("only the last transition and the last place fail")
    sixty_four(87, -32768, -32768, 4094)
    sixty_four(89, 32767, -32768, 0)
    sixty_four(91, 0, 1, 4094)
    heading("they are weighed by 0; all zero")
    sixty_four(93, 1, 0, 4094)
    sixty_four(95, 0, 0, 4094)
    heading("sets: only the last transition fails; none does")
    largest_set(97, 63, 0)
    largest_set(99, 62, 0)
    largest_set(101, 63, 4095)


def refusals():
    def faulty(number, P, T, pre, post, y):
        both_weightings(number, (P, T, pre, post, [9]), y)

    def faulty_bound(number, P, T, pre, post, y):
        case(number, place_bound, P, T, pre, post, [9], [9], y, 0)

    def faulty_set(number, P, T, pre, post, lent):
        both_sets(number, (P, T, pre, post, [9]), lent)

    group("refusals 1 and 2, one capacity lent")
    heading("nothing wrong")
    faulty(111, 1, 1, [1], [1], [1])
    heading("counts of 0 and of 65, and as many as can be said")
    faulty(113, 0, 1, [], [], [1])
    faulty(115, 1, 0, [], [], [1])
    faulty(117, 65, 1, [1], [1], [1])
    faulty(119, 1, HUGE, [1], [1], [0])
    heading("lengths: the weighting's, Pre's, Post's, the capacities'")
    faulty(121, 1, 2, [1, 1], [1, 1], [1])
    faulty(123, 1, 2, [1, 1], [1, 1], [1, 1])
    faulty(125, 1, 1, [1, 1], [1], [1])
    faulty(127, 1, 1, [1], [], [0])
    faulty(129, 2, 1, [1, 1], [1, 1], [1, 1])
    heading("a bound: nothing wrong, counts, lengths")
    faulty_bound(131, 1, 1, [1], [1], [1])
    faulty_bound(132, 0, 1, [], [], [1])
    faulty_bound(133, 1, 65, [1], [1], [1])
    faulty_bound(134, 1, 1, [1], [1, 1], [1])
    faulty_bound(135, 2, 1, [1, 1], [1, 1], [1, 1])
    heading("sets: nothing wrong, counts, lengths, and a transition that puts and does not take")
    faulty_set(136, 1, 1, [1], [1], [7])
    faulty_set(138, 65, 65, [1], [1], [7])
    faulty_set(140, 1, 2, [1, 1], [1], [7])
    faulty_set(142, 1, 1, [1], [1], [])
    faulty_set(144, 2, 1, [1, 1], [1, 1], [1, 1])
    faulty_set(146, 1, 2, [1, 0], [1, 1], [7])


def all_questions(number, P, T, pre, post, caps, initial, y, x, lent, place, marks=None):
    case(f"{number}.1", place_weighting, P, T, pre, post, caps, y, marks=marks)
    case(f"{number}.2", transition_weighting, P, T, pre, post, caps, x, marks=marks)
    case(f"{number}.3", place_bound, P, T, pre, post, caps, initial, y, place, marks=marks)
    case(f"{number}.4", siphon_set, P, T, pre, post, caps, lent, marks=marks)
    case(f"{number}.5", trap_set, P, T, pre, post, caps, lent, marks=marks)


def pockets():
    group("pockets change nothing")
    loop = 2, 2, [1, 1, 1, 0], [1, 1, 0, 1], [3, 3], [3, 3], [1, 1], [1, 0], [1, 0], 0
    for k, marks in enumerate([[0, 0], [1, 0], [0, 255], [2, 2]]):
        heading(f"marks {marks}")
        all_questions(301 + k, *loop, marks=marks)
    group("marks of another length: 2, after 1, before 3, 17 and 8")
    for k, marks in enumerate([[], [0], [0] * 3]):
        heading(f"{len(marks)} marks of two places")
        all_questions(311 + k, *loop, marks=marks)
        all_questions(321 + k, *loop[:5], [4, 4], [0, 0], [0, 0], [0, 0], 2, marks=marks)
        all_questions(331 + k, 2, 2, [0] * 4, [0] * 4, *loop[4:], marks=marks)
        all_questions(341 + k, 2, 65, *loop[2:], marks=marks)


def heavy_weights():
    group("weights over 4,095: refusal 18; then weights at the limit")
    for k, (edge, P, T, pre, post) in enumerate(HEAVY + LIGHT):
        heading(edge)
        all_questions(601 + k, P, T, pre, post, [9] * P, [1] * P, [1] * P, [1] * T, [1] * P, 0)
    group("the largest sums, and such as go up and down again as far as they can")
    half = lambda one, other: [one] * 32 + [other] * 32
    for k, (edge, pre, post, y) in enumerate([
        ("all taken", [4095] * 4096, [0] * 4096, [-32768] * 64),
        ("all put", [0] * 4096, [4095] * 4096, [-32768] * 64),
        ("up and down: invariant", [4095] * 4096, [0] * 4096, half(32767, -32767)),
        ("and one short of it", [4095] * 4095 + [4094], [0] * 4096, half(-32767, 32767)),
        ("half taken, half put", half(4095, 0) * 64, half(0, 4095) * 64, [32767] * 64),
        ("half taken, half put, a transition more than the other", half(4095, 0) * 63 + half(0, 4095), half(0, 4095) * 63 + half(4095, 0), [32767] * 64),
    ]):
        heading(edge)
        all_questions(631 + k, 64, 64, pre, post, [NONE] * 64, [65534] * 64, y, y, [1] * 64, 0)
    heading("arcs of 256, of which a byte keeps nothing: siphon and trap by them alone")
    both_sets(641, (2, 2, [256, 0, 0, 256], [0, 256, 256, 0], [NONE, NONE]), [1, 1])
    both_sets(643, (2, 2, [256, 0, 0, 1], [0, 1, 0, 0], [NONE, NONE]), [1, 0])
    group("18 and another refusal")
    heading("1 and 18; 2 and 18: Pre, Post; the weighting, the set")
    too_much = 1, 1, [4096], [0], [9]
    all_questions(651, 1, 65, [4096] * 65, [0] * 65, [9], [1], [1], [1] * 65, [1], 0)
    all_questions(652, 1, 1, [4096, 0], [0, 0], [9], [1], [1], [1], [1], 0)
    all_questions(653, *too_much, [1], [1, 1], [1, 1], [1, 1], 0)
    heading("2 for the marks, and 18")
    all_questions(654, *too_much, [1], [1], [1], [1], 0, marks=[])
    heading("18 and 17; 18 and 8")
    all_questions(655, 2, 1, [0, 4096], [0, 0], [9, 9], [1, 1], [1, 1], [1], [1, 1], 0)
    all_questions(656, *too_much, [1], [0], [0], [0], 0)
    heading("18 and 3; 18 and 13; 18, 3, 8 and 13")
    case(657, place_bound, *too_much, [10], [1], 0)
    case(658, place_bound, *too_much, [1], [1], 1)
    case(659, place_bound, *too_much, [10], [0], 1)


def loose_nodes():
    group("nodes without an arc: refusal 17; then nets that hang together by one arc")
    for k, (edge, P, T, pre, post) in enumerate(LOOSE + WIRED):
        heading(edge)
        all_questions(201 + k, P, T, pre, post, [9] * P, [1] * P, [1] * P, [1] * T, [1] * P, 0)
    group("17 and another refusal")
    bare = 1, 1, [0], [0], [9]
    heading("1 and 17")
    all_questions(221, 1, 65, [0] * 65, [0] * 65, [9], [1], [1], [1] * 65, [1], 0)
    heading("2 and 17: Pre, Post; the weighting, the set")
    all_questions(222, 1, 1, [0, 0], [0, 0], [9], [1], [1], [1], [1], 0)
    all_questions(223, *bare, [1], [1, 1], [1, 1], [1, 1], 0)
    heading("17 and 8")
    all_questions(224, *bare, [1], [0], [0], [0], 0)
    heading("3 and 17; 17 and 13; 17, 8 and 13; 3, 17 and 8")
    case(225, place_bound, *bare, [10], [1], 0)
    case(226, place_bound, *bare, [1], [1], 1)
    case(227, place_bound, *bare, [1], [0], 1)
    case(228, place_bound, *bare, [10], [0], 0)


samples()
bounds()
extremes()
refusals()
loose_nodes()
pockets()
heavy_weights()
