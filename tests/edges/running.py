#!/usr/bin/env python3
"""The edges of running replay: the table running.calls is this script's output.

    python3 tests/edges/running.py > tests/edges/running.calls

Written from document 02's E7, with 01 and E4 to E6, alone, without the library's code. A state is lent and left as five names: marking
(64 numbers), fired, position, place and blocked. Answers: 129 0 letters fired since the first part; 129 1 or 2 position place, blocked,
short or over; 129 and another number where a state that holds it is lent; 130 refusal position.
"""

from dataclasses import asdict, dataclass, replace

from shared.calls import HEAVIEST, HEAVY, HUGE, LIGHT, LOOSE, NONE, WIRED, all_plain, call, group, heading, heavy, loose, net


@dataclass(frozen=True)
class State:
    marking: tuple
    fired: int = 0
    position: int = 0
    place: int = 0
    blocked: int = 0

    def with_tokens(self, tokens):
        """Tokens at the front; what stands past them stays."""
        return replace(self, marking=tuple(tokens) + self.marking[len(tokens) :])


def state(tokens, *numbers, rest=9):
    """A state with these tokens, and past them 9s or another number."""
    return State(tuple(tokens) + (rest,) * (64 - len(tokens)), *numbers)


ODD = State(tuple(range(900, 964)), 5, 6, 7, 8)  # whatever a caller's memory holds


class Net:
    def __init__(self, P, T, pre, post, caps, marks=None):
        self.P, self.T, self.pre, self.post, self.caps = P, T, pre, post, caps
        self.marks = all_plain(P) if marks is None else marks

    def lent(self):
        return net(self.P, self.T, self.pre, self.post, self.caps, self.marks)

    def faults(self, more, initial, tokens_bad):
        """1, 2, 18, 3 and 17 in this order, as (number, position), or None; `more` says whether what is lent besides fits."""
        P, T = self.P, self.T
        if not (1 <= P <= 64 and 1 <= T <= 64):
            return 1, 0
        if [len(self.pre), len(self.post), len(self.caps), len(self.marks)] != [P * T, P * T, P, P] or not more:
            return 2, 0
        if heavy(P, T, self.pre, self.post):
            return heavy(P, T, self.pre, self.post)
        for p in range(P):
            if tokens_bad(initial[p]) or (self.caps[p] != NONE and initial[p] > self.caps[p]):
                return 3, p
        return loose(P, T, self.pre, self.post)


def started(n, initial, found):
    """The answer's numbers, and the state: "the state before the first part (or 1 2 18 3 17)"."""
    refused = n.faults(len(initial) == n.P, initial, lambda tokens: tokens == 65535)
    if refused:
        return [130, *refused], found
    return [129, 0, 0], state(initial, rest=0)


def refusal(n, s, part):
    """The first refusal of a part in order, as (number, position), or None."""
    # 3: "more tokens at a place than 65,534 plus 4,095 for each letter fired, or above capacity"
    first = n.faults(True, s.marking, lambda tokens: tokens > 65534 + HEAVIEST * s.fired)
    if first:
        return first
    # 4: "where letters fired plus the part would pass 65,535", blocked or not; 5: a wrong letter, blocked or not
    if s.fired + len(part) > 65535:
        return 4, 0
    for position, letter in enumerate(part):
        if letter not in range(n.T):
            return 5, position
    # 13: "a held block whose place isn't below P"
    return (13, 0) if s.blocked and not s.place < n.P else None


def played(n, s, part):
    """The answer's numbers, and the state after the part."""
    refused = refusal(n, s, part)
    if refused:
        return [130, *refused], s
    if s.blocked:  # "After a block each later part gets the same block and changes nothing."
        return [129, s.blocked, s.position, s.place], s
    m = list(s.marking[: n.P])  # "slots past P aren't read and stay"
    for k, t in enumerate(part):
        takes, puts = n.pre[t * n.P : (t + 1) * n.P], n.post[t * n.P : (t + 1) * n.P]
        level = [m[p] + puts[p] - (0 if n.marks[p] else takes[p]) for p in range(n.P)]
        short = [p for p in range(n.P) if takes[p] > m[p]]
        over = [p for p in range(n.P) if n.caps[p] != NONE and level[p] > n.caps[p]]
        if short or over:
            cause, place, at = (1, short[0], s.fired + k) if short else (2, over[0], s.fired + k)
            return [129, cause, at, place], State(s.with_tokens(m).marking, at, at, place, cause)
        m = [m[p] + puts[p] - takes[p] for p in range(n.P)]
    fired = s.fired + len(part)
    return [129, 0, fired], replace(s.with_tokens(m), fired=fired)


def tell(case, edge, question, n, lent, before, numbers, after):
    if edge:
        heading(edge)
    fields = lambda s: {name: list(held) if name == "marking" else held for name, held in asdict(s).items()}
    call(case, question, {**n.lent(), **lent, **fields(before)}, numbers, fields(after))
    return after


def start(case, edge, n, initial, found=ODD):
    return tell(case, edge, "start_replay", n, {"initial": initial}, found, *started(n, initial, found))


def part(case, edge, n, s, letters):
    return tell(case, edge, "replay_part", n, {"part": letters}, s, *played(n, s, letters))


SAMPLE = Net(3, 3, [1, 0, 0, 0, 1, 0, 0, 0, 3], [0, 1, 0, 1, 0, 2, 0, 0, 0], [NONE, NONE, 5])
START = [1, 0, 0]


def one(takes, puts, cap, mark=0):
    return Net(1, 1, [takes], [puts], [cap], [mark])


def cuttings():
    group("the net of 01's case: words cut into parts, each begun on a state that holds anything")
    for k, (edge, parts) in enumerate([
        ("sample 1, whole", [[0, 1, 0, 1]]),
        ("sample 1, a letter a part", [[0], [1], [0], [1]]),
        ("sample 1, with empty parts", [[], [0, 1], [], [], [0, 1], []]),
        ("sample 2: over at letter 5, the last part's first", [[0, 1, 0], [1, 0], [1]]),
        ("sample 2: over at letter 5, a part's last, and parts after it", [[0, 1], [0, 1, 0, 1], [], [0], [2, 2, 2]]),
        ("sample 3: short at letter 0, and an empty part", [[2], []]),
        ("sample 4: no letter, in three parts", [[], [], []]),
        ("sample 4: no part at all", []),
        ("a wrong letter in a part is refused, and the next one goes on", [[0, 1], [0, 3], [0, 1, 2]]),
        ("a wrong letter after a block is refused, and the block stays", [[2], [3], [0], [0, 1, 255]]),
    ]):
        s = start(f"{1 + k}.0", edge, SAMPLE, START)
        for number, letters in enumerate(parts, 1):
            s = part(f"{1 + k}.{number}", "", SAMPLE, s, letters)


def held_blocks():
    group("a block that a state holds: handed back as it stands, judged by its place alone")
    for k, (edge, cause, position, place, letters) in enumerate([
        ("short", 1, 0, 0, [0]), ("over", 2, 0, 0, [0]), ("an empty part", 1, 4, 2, []), ("another cause", 3, 4, 2, [0]),
        ("the largest cause", 255, 4, 2, [0]), ("an empty part and the largest cause", 255, 4, 2, []),
        ("the largest position", 2, 2**32 - 1, 1, [0]), ("a position before the letters fired", 2, 0, 1, [0]),
        ("the last place", 1, 4, 2, [0]), ("the place count", 1, 4, 3, [0]), ("one more", 1, 4, 4, [0]), ("place 63", 1, 4, 63, [0]),
        ("the largest place", 1, 4, 2**32 - 1, [0]), ("the place count, another cause", 255, 4, 3, []),
        ("no block, and the place count", 0, 4, 3, [0]), ("no block, and the largest numbers", 0, 2**32 - 1, 2**32 - 1, []),
        ("a wrong letter", 1, 4, 2, [0, 3]), ("a wrong letter, the first", 255, 4, 2, [255]),
        ("a wrong letter and the place count: 5", 1, 4, 3, [1, 3]),
    ]):
        part(51 + k, edge, SAMPLE, state([1, 0, 2], 4, position, place, cause), letters)
    group("64 places: the last one, and the place count")
    wide = Net(64, 1, [1] * 64, [1] * 64, [NONE] * 64)
    part(81, "place 63", wide, State((7,) * 64, 2, 1, 63, 2), [0])
    part(82, "place 64", wide, State((7,) * 64, 2, 1, 64, 2), [0])
    part(83, "one place, place 0", one(1, 1, NONE), state([7], 2, 1, 0, 2), [0])
    part(84, "one place, place 1", one(1, 1, NONE), state([7], 2, 1, 1, 2), [0])


def tokens():
    group("tokens of a state: 65,534 and 4,095 for each letter fired, and the capacity")
    for k, (edge, cap, fired, held) in enumerate([
        ("no letter fired, 65,534", NONE, 0, 65534), ("one more", NONE, 0, 65535),
        ("one letter fired, as many as can be", NONE, 1, 65534 + 4095), ("one more", NONE, 1, 65534 + 4096),
        ("17 letters, as many as can be", NONE, 17, 65534 + 17 * 4095), ("one more", NONE, 17, 65535 + 17 * 4095),
        ("65,534 letters, as many as can be", NONE, 65534, 65534 + 65534 * 4095), ("one more", NONE, 65534, 65535 + 65534 * 4095),
        ("65,534 letters, as many as 32 bits hold", NONE, 65534, 2**32 - 1),
        ("a capacity, exactly", 7, 3, 7), ("one more", 7, 3, 8), ("far more", 7, 3, 65534 + 3 * 4095), ("both", 7, 3, 2**32 - 1),
        ("capacity 0, one token", 0, 3, 1), ("capacity 0, none", 0, 3, 0),
        ("the largest capacity, exactly", 65534, 3, 65534), ("one more", 65534, 3, 65535),
        ("no capacity: 65,535 tokens after a letter", NONE, 1, 65535), ("65,536", NONE, 1, 65536),
        ("letters that 32 bits would cut to a small number: all is allowed, and 4", NONE, 1048817, 2**32 - 1),
        ("the most letters: all is allowed, and 4", NONE, 2**32 - 1, 2**32 - 1),
    ]):
        part(101 + 2 * k, edge, one(1, 1, cap), state([held], fired), [])
        part(102 + 2 * k, "the same, a block held", one(1, 1, cap), state([held], fired, 0, 0, 1), [])
    group("which place is named, and which is not looked at")
    three = Net(3, 1, [1, 1, 1], [1, 1, 1], [NONE, 9, 9])
    for k, (edge, held, rest) in enumerate([
        ("the first", [65535, 0, 0], 9), ("the last", [0, 0, 10], 9), ("the lower of two", [0, 10, 10], 9),
        ("more than letters can bring before above capacity", [65535, 10, 0], 9), ("past the places, as many as can be", [5, 5, 5], 2**32 - 1),
    ]):
        part(151 + k, edge, three, state(held, rest=rest), [0])


def letters():
    group("letters fired and the part: 65,535 and one more, blocked or not")
    loop = one(1, 1, NONE)
    for k, (edge, fired, count) in enumerate([
        ("65,535 fired, no letter", 65535, 0), ("65,535 fired, one letter", 65535, 1), ("65,534 fired, one letter", 65534, 1),
        ("none fired, 65,535 letters", 0, 65535), ("none fired, 65,536 letters", 0, 65536), ("one fired, 65,535 letters", 1, 65535),
        ("32,768 fired, 32,767 letters", 32768, 32767), ("32,768 fired, 32,768 letters", 32768, 32768),
        ("65,536 fired, no letter", 65536, 0), ("a sum that 16 bits would cut to 0", 65536 * 7, 0),
        ("the most letters fired, none in the part", 2**32 - 1, 0), ("one in it: a sum that 32 bits would cut to 0", 2**32 - 1, 1),
    ]):
        part(201 + 3 * k, edge, loop, state([3], fired), [0] * count)
        part(202 + 3 * k, "the same, a block held", loop, state([3], fired, 1, 0, 1), [0] * count)
        part(203 + 3 * k, "the same, a block held past the places", loop, state([3], fired, 1, 1, 1), [0] * count)
    group("blocks far from the first part: positions count from there")
    part(251, "short at the last letter there can be", one(1, 0, NONE), state([0], 65534), [0])
    part(252, "over at the last letter there can be", one(0, 1, 9), state([9], 65534), [0])
    part(253, "the second letter of a part, over", one(0, 1, 9), state([8], 70), [0, 0, 0])
    part(254, "the most tokens that a replay reaches", one(0, 4095, NONE), state([65534 + 65534 * 4095], 65534), [0])
    part(255, "a pocket jams", one(1, 1, 5, 1), state([5], 70), [0])
    part(256, "the same without capacity does not", one(1, 1, NONE, 1), state([5], 70), [0])
    part(257, "short at 2, though 0 is over", Net(3, 1, [0, 0, 1], [1, 1, 0], [4, 9, 9]), state([4, 0, 0], 70, 1, 2), [0])
    group("a wrong letter: its position counts from the part")
    for k, (edge, wrong) in enumerate([("the first", [3]), ("the last", [0, 1, 3]), ("the first of two", [0, 255, 3]), ("after one that is blocked", [2, 3])]):
        part(261 + k, edge, SAMPLE, state([1, 0, 0], 70), wrong)


def two_at_once():
    group("two refusals at once")
    bad, far = state([65535], 0, 0, 1, 1), state([0], 65535, 0, 1, 1)
    for k, (edge, n, s, part_) in enumerate([
        ("1 and 3", Net(1, 65, [1] * 65, [1] * 65, [NONE]), bad, [0]), ("2 and 3", Net(1, 1, [1, 1], [1], [NONE]), bad, [0]),
        ("2 for the marks and 18", Net(1, 1, [4096], [1], [NONE], []), bad, [0]), ("18 and 3", Net(1, 1, [4096], [1], [NONE]), bad, [0]),
        ("3 and 17", Net(1, 1, [0], [0], [NONE]), bad, [0]), ("17 and 4", Net(1, 1, [0], [0], [NONE]), far, [0]),
        ("17 and 5", Net(1, 1, [0], [0], [NONE]), state([0]), [1]), ("17 and 13", Net(1, 1, [0], [0], [NONE]), state([0], 0, 0, 1, 1), []),
        ("3 and 4", one(1, 1, 4), state([5], 65535), [0]), ("3 and 5", one(1, 1, 4), state([5]), [1]),
        ("3 and 13", one(1, 1, 4), state([5], 0, 0, 1, 1), [0]), ("4 and 5", one(1, 1, 4), state([0], 65535), [1]),
        ("4 and 13", one(1, 1, 4), far, [0]), ("5 and 13", one(1, 1, 4), state([0], 0, 0, 1, 1), [0, 1]),
        ("4, 5 and 13", one(1, 1, 4), far, [1]), ("3, and a block held", one(1, 1, 4), state([5], 0, 0, 0, 1), []),
        ("17, and a block held", Net(1, 1, [0], [0], [NONE]), state([0], 0, 0, 0, 1), []),
    ]):
        part(301 + k, edge, n, s, part_)


def nets():
    group("nets that are refused, asked for a start and for a part; then such as are not")
    for k, (edge, P, T, pre, post) in enumerate(LOOSE + WIRED + HEAVY + LIGHT):
        n = Net(P, T, pre, post, [9000] * P)
        start(401 + 2 * k, edge, n, [4500] * P)
        part(402 + 2 * k, "the same, asked for a part", n, state([4500] * P, 3, 1, 0, 0), [0])
    group("counts and lengths")
    good = dict(P=2, T=2, pre=[1] * 4, post=[2] * 4, caps=[9] * 2, marks=[0] * 2)
    for k, (edge, other) in enumerate([
        ("all as they should be", {}), ("no place", {"P": 0}), ("65 places", {"P": 65}), ("no transition", {"T": 0}), ("65 transitions", {"T": 65}),
        ("as many places as can be said", {"P": HUGE}), ("a product that 64 bits would cut to 0", {"P": 2**32, "T": 2**32}),
        ("Pre too short", {"pre": [1] * 3}), ("Pre too long", {"pre": [1] * 5}), ("Post too short", {"post": [2] * 3}), ("Post too long", {"post": [2] * 5}),
        ("capacities too short", {"caps": [9]}), ("capacities too long", {"caps": [9] * 3}), ("marks too short", {"marks": [0]}), ("marks too long", {"marks": [0] * 3}),
    ]):
        n = Net(**{**good, **other})
        start(501 + 2 * k, edge, n, [4] * 2)
        part(502 + 2 * k, "the same, asked for a part", n, state([4, 4], 3), [0, 1])
    n = Net(**good)
    for k, (edge, initial) in enumerate([
        ("an initial marking too short", [4]), ("too long", [4] * 3), ("none", []), ("above capacity", [4, 10]), ("65,535 tokens", [65535, 4]),
        ("at capacity", [9, 9]),
    ]):
        start(541 + k, edge, n, initial)
    start(551, "65,535 tokens without capacity", one(1, 1, NONE), [65535])
    start(552, "65,534", one(1, 1, NONE), [65534])
    start(553, "64 places, all slots written", Net(64, 1, [1] * 64, [1] * 64, [NONE] * 64), list(range(64)))


if __name__ == "__main__":
    cuttings()
    held_blocks()
    tokens()
    letters()
    two_at_once()
    nets()
