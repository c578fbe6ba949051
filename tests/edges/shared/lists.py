"""What closed.py and cover.py share, from document 01's "Marking lists" and its refusal table, with 17, 18 and marks of document 02."""

from shared.calls import NONE, all_plain, call, heavy, loose, net as lent_net


class Net:
    def __init__(self, P, T, pre, post, caps, marks=None):
        self.P, self.T, self.pre, self.post, self.caps = P, T, pre, post, caps
        self.marks = all_plain(P) if marks is None else marks

    def arcs(self, t):
        """What t takes from each place, and what it puts there."""
        row = slice(t * self.P, (t + 1) * self.P)
        return self.pre[row], self.post[row]


def markings_of(net, flat):
    return [tuple(flat[k : k + net.P]) for k in range(0, len(flat), net.P)]


def refusal(net, initial, flat, target, given):
    """The first refusal in number order as (number, position), or None. `given` are the lists whose entries must be tokens within
    capacity, the initial marking first; a target's must be tokens."""
    P, T = net.P, net.T
    if not (1 <= P <= 64 and 1 <= T <= 64):
        return 1, 0
    if [len(net.pre), len(net.post), len(net.caps), len(net.marks), len(initial)] != [P * T, P * T, P, P, P] or len(flat) % P:
        return 2, 0
    if target is not None and len(target) != P:
        return 2, 0
    if heavy(P, T, net.pre, net.post):
        return heavy(P, T, net.pre, net.post)
    for entries in given:
        for at, tokens in enumerate(entries):  # in a list, "marking number x P + place"
            cap = net.caps[at % P]
            if tokens == 65535 or (cap != NONE and tokens > cap):
                return 3, at
    for p, tokens in enumerate(target or ()):
        if tokens == 65535:
            return 3, p
    if loose(P, T, net.pre, net.post):
        return loose(P, T, net.pre, net.post)
    if not 1 <= len(flat) // P <= 4096:
        return 9, 0
    return None


def failure(net, initial, markings, fired, held):
    """A failure's numbers, or None for an accepted list: initial missing; else the first listed marking, and in it the lowest
    transition, whose result is not held. `fired` gives the result of t at m, or None where t is not enabled."""
    if not held(tuple(initial)):
        return [1]
    for k, m in enumerate(markings):
        for t in range(net.T):
            after = fired(net, m, t)
            if after is not None and not held(after):
                return [2, k, t]
    return None


def tell(case, question, net, lent, refused, failed, shown):
    """A case's line; `failed` and `shown` are asked only where nothing before them answers."""
    if refused is not None:
        answer = [130, *refused]
    else:
        numbers = failed()
        answer = [129, *(numbers if numbers is not None else [0 if shown() else 3])]
    call(case, question, {**lent_net(net.P, net.T, net.pre, net.post, net.caps, net.marks), **lent}, answer)


SAMPLE = Net(3, 3, [1, 0, 0, 0, 1, 0, 0, 0, 3], [0, 1, 0, 1, 0, 2, 0, 0, 0], [NONE, NONE, 5])
START = [1, 0, 0]


def one_place(takes, puts, cap, mark=0):
    return Net(1, 1, [takes], [puts], [cap], [mark])


def counted_net(P, T, arcs):
    return Net(P, T, [1] * arcs, [1] * arcs, [9])
