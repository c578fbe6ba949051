"""What the scripts of tests/edges share: how a call and what must come of it stand in a table. call.c has the form."""

import sys
from itertools import groupby
from pathlib import Path

NONE = 65535  # "65,535 means none"
HUGE = 2**64 - 1  # the largest count, position or place number that can be lent
HEAVIEST = 4095  # "Raise the weight limit to 4,095" (02, E6)

# How many fields the answer of each question has in include/kaunorpi.h.
FIELDS = {
    **dict.fromkeys(["ask_summary", "complement_net", "order_logs", "rest_fault"], 3),
    **dict.fromkeys(["place_weighting", "transition_weighting", "siphon_set", "trap_set"], 3),
    **dict.fromkeys(["start_replay", "replay_part"], 4),
    **dict.fromkeys(["replay_word", "replay_stretch", "place_bound", "complement_places", "case_length", "write_case"], 4),
    **dict.fromkeys(["closed_list", "closed_target", "closed_stall", "cover_list", "cover_target"], 4),
    **dict.fromkeys(["empty_summary", "summary_word", "summary_stretch", "join_summaries"], 5),
    **dict.fromkeys(["read_case", "unread_rest"], 6),
}

told = set()  # the cases so far


def group(words):
    """A comment of the table above several cases."""
    print("# ----", words)


def heading(words):
    """A comment of the table above a case: which edge it is."""
    print("#", words)


def repeats(entries, k, period):
    """How often the entries from k on repeat their first `period`."""
    first, times = entries[k : k + period], (len(entries) - k) // period
    if entries[k : k + times * period] == first * times:  # up to the end: most lists, and the longest
        return max(times, 1)
    times = 1
    while entries[k + times * period : k + (times + 1) * period] == first:
        times += 1
    return times


def shortened(entries, k):
    """The forms in which the entries from k on could stand, each with how many of them it stands for."""
    up = 1
    while k + up < len(entries) and entries[k + up] == entries[k] + up:
        up += 1
    yield f"{entries[k]}..{entries[k] + up - 1}", up
    times = repeats(entries, k, 1)
    yield f"{entries[k]}*{times}", times
    for period in range(2, 8) if times == 1 else ():
        times = repeats(entries, k, period)
        if times > 3:
            yield f"({plain(entries[k:k + period])})*{times}", times * period


def plain(entries):
    return ",".join(map(str, entries))


def written(entries):
    """A list as a table has it: 0..9, 7*64 and (0,1)*9 where that saves four characters or more, else entry by entry."""
    parts, k = [], 0
    while k < len(entries):
        worth = [(n, form) for form, n in shortened(entries, k) if len(form) + 4 <= len(plain(entries[k : k + min(n, 99)]))]
        n, form = max(worth, default=(1, str(entries[k])))
        parts.append(form)
        k += n
    return ",".join(parts)


def quoted(data):
    """The bytes of a file as a table has them: in quotes, and lines that repeat once, with their number."""
    runs = [(line, len(list(same))) for line, same in groupby(data.decode("ascii").splitlines(keepends=True))]
    parts = []
    for once, some in groupby(runs, key=lambda run: run[1] == 1):
        parts += [("".join(line for line, _ in some), 1)] if once else list(some)
    assert not set(b' "\\\r') & set(data), "a table's text has no such byte"
    form = lambda part: '"' + part.replace("\n", "\\n") + '"'
    return ",".join(form(part) + (f"*{times}" if times > 1 else "") for part, times in parts)


def value(lent):
    """A number, a list, or a text that was already written as a table has it."""
    return written(list(lent)) if isinstance(lent, (list, tuple, range)) else str(lent)


def loose(P, T, pre, post):
    """Refusal 17 of a net, as (17, position), or None: "a net in which some place or transition has no arc is refused", "position
    the lowest loose place, else 64 plus the lowest loose transition" (02, E4)."""
    arcs = {(k % P, k // P) for k in range(P * T) if pre[k] or post[k]}
    places, transitions = {p for p, t in arcs}, {t for p, t in arcs}
    hanging = [p for p in range(P) if p not in places] + [64 + t for t in range(T) if t not in transitions]
    return (17, hanging[0]) if hanging else None


def heavy(P, T, pre, post):
    """Refusal 18 of a net, as (18, position), or None: "a lent weight over 4,095, position its transition" (02, E6); of several
    the lowest, over Pre and Post together."""
    over = {k // P for weights in (pre, post) for k, weight in enumerate(weights) if weight > HEAVIEST}
    return (18, min(over)) if over else None


# Nets with a loose node: what is loose, P, T, Pre and Post. Those of three places are the net of 01's case without some of its
# arcs, the others as large as can be; the first transition of these takes from all places, the others from place 0.
EMPTY, FIRST = [0] * 64, [1] + [0] * 63
LOOSE = [
    ("the first place", 3, 3, [0, 0, 0, 0, 1, 0, 0, 0, 3], [0, 1, 0, 0, 0, 2, 0, 0, 0]),
    ("place 1", 3, 3, [1, 0, 0, 0, 0, 0, 0, 0, 3], [0, 0, 0, 1, 0, 2, 0, 0, 0]),
    ("the last place", 3, 3, [1, 0, 0, 0, 1, 0, 1, 0, 0], [0, 1, 0, 1, 0, 0, 0, 0, 0]),
    ("the first transition", 3, 3, [0, 0, 0, 0, 1, 0, 0, 0, 3], [0, 0, 0, 1, 0, 2, 0, 0, 0]),
    ("transition 1", 3, 3, [1, 0, 0, 0, 0, 0, 0, 0, 3], [0, 1, 0, 0, 0, 0, 0, 0, 0]),
    ("the last transition", 3, 3, [1, 0, 0, 0, 1, 0, 0, 0, 0], [0, 1, 0, 1, 0, 2, 0, 0, 0]),
    ("the last place and the first transition: the place", 3, 3, [0, 0, 0, 0, 1, 0, 1, 0, 0], [0, 0, 0, 1, 0, 0, 0, 0, 0]),
    ("places 1 and 2: the lower", 3, 3, [1, 0, 0] * 3, [0] * 9),
    ("transitions 1 and 2: the lower", 3, 3, [1] + [0] * 8, [0, 1, 2] + [0] * 6),
    ("all", 3, 3, [0] * 9, [0] * 9),
    ("place 63", 64, 64, [1] * 63 + [0] + FIRST * 63, EMPTY * 64),
    ("transition 63", 64, 64, [1] * 64 + FIRST * 62 + EMPTY, EMPTY * 64),
]
# Nets of one place and one transition that hang together by one arc, or by a loop.
WIRED = [("only taken from", 1, 1, [1], [0]), ("only put into", 1, 1, [0], [1]), ("a loop", 1, 1, [1], [1])]


# Nets with a weight over 4,095: where it is, P, T, Pre and Post. Those of three places are the net of 01's case with such weights in
# place of some of its own, the others as large as can be.
TAKES, PUTS = [1, 0, 0, 0, 1, 0, 0, 0, 3], [0, 1, 0, 1, 0, 2, 0, 0, 0]


def with_weight(weights, *cells, weight=HEAVIEST + 1):
    return [weight if k in cells else w for k, w in enumerate(weights)]


HEAVY = [
    ("4,096 in Pre", 1, 1, [4096], [0]),
    ("4,096 in Post", 1, 1, [0], [4096]),
    ("65,535 in Pre", 1, 1, [65535], [1]),
    ("65,535 in Post", 1, 1, [1], [65535]),
    ("the first place of the first transition, in Pre", 3, 3, with_weight(TAKES, 0), PUTS),
    ("its last place, in Post", 3, 3, TAKES, with_weight(PUTS, 2)),
    ("transition 1, in Pre", 3, 3, with_weight(TAKES, 4), PUTS),
    ("the first place of the last transition, in Post", 3, 3, TAKES, with_weight(PUTS, 6)),
    ("its last place, in Pre", 3, 3, with_weight(TAKES, 8), PUTS),
    ("Post of the first transition and Pre of the last: the first", 3, 3, with_weight(TAKES, 6, 8), with_weight(PUTS, 0)),
    ("Pre of transition 1 and Post of the last: transition 1", 3, 3, with_weight(TAKES, 5), with_weight(PUTS, 8)),
    ("Pre of the last transition and Post of transition 1: transition 1", 3, 3, with_weight(TAKES, 6), with_weight(PUTS, 5)),
    ("all of them", 3, 3, [65535] * 9, [4096] * 9),
    ("the last weight of 64 places and 64 transitions, in Pre", 64, 64, [1] * 4095 + [4096], [1] * 4096),
    ("the same in Post", 64, 64, [1] * 4096, [1] * 4095 + [4096]),
]
# Nets with weights as large as may be, and such as a byte cannot hold, or just can.
LIGHT = [
    ("4,095 taken", 1, 1, [4095], [0]), ("4,095 put", 1, 1, [0], [4095]), ("4,095 taken and put", 1, 1, [4095], [4095]), ("255 taken, 256 put", 1, 1, [255], [256]),
    ("256 taken, 255 put", 1, 1, [256], [255]), ("4,095 everywhere", 3, 3, [4095] * 9, [4095] * 9),
]


def all_plain(P):
    """Marks of P places that are all plain; a net of very many places is refused before its lists are looked at."""
    return [0] * P if P <= 80 else []


def net(P, T, pre, post, caps, marks=None):
    """A net as it is lent; all places are plain where no marks are told."""
    return {"places": P, "transitions": T, "pre": pre, "post": post, "caps": caps, "marks": all_plain(P) if marks is None else marks}


def call(case, question, lent, answer, rooms=None):
    """A line: what is lent by name, rooms with what they hold at entry; then the answer, where a field that is not named
    is 0, and the rooms at exit."""
    assert str(case) not in told, f"case {case} stands there twice"
    told.add(str(case))
    assert len(answer) <= FIELDS[question]
    fields = list(answer) + [0] * (FIELDS[question] - len(answer))
    names = lambda of: [f"{name}={value(held)}" for name, held in of.items()]
    print(case, question, *names(lent), "->", *fields, *names(rooms or {}))


print(f"# What tests/edges/{Path(sys.argv[0]).name} prints. The form of a line is in tests/edges/call.c.")
