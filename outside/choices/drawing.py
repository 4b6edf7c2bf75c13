"""Random entries, sound ones and flawed ones: the same from the same seed."""

import random

from rules import D, DONE, GROUND, INPUT, INPUTS, N, NORMAL, OSCILLATES, P, POWER, PULLUP, START, UNKNOWN
from rules import Lent, Net, call, cells, stands, steps

# the definitions try every choice too: these bounds keep them quick
MOST_UNKNOWN = 3
MOST_CHOICES = 24

# sound calls in turn, with the answers that they are to get
SOUND = (
    ("ternary", DONE),
    ("unit", DONE),
    ("step", DONE),
    ("ternary", DONE),
    ("unit", OSCILLATES),
    ("check", DONE),
    ("ternary", DONE),
    ("unit", DONE),
    ("step", DONE),
    ("ternary", START),
    ("unit", DONE),
    ("ternary", DONE),
    ("reset", DONE),
)


class Draw:
    def __init__(self, seed):
        # of all of `random`, this alone is promised to draw the same from a seed under every Python 3
        self.fraction = random.Random(seed).random

    def below(self, n):
        return int(self.fraction() * n)

    def one_of(self, things):
        return things[self.below(len(things))]

    def states(self, n):
        return [self.below(3) for _ in range(n)]


# as often as they stand here
KINDS = NORMAL, NORMAL, NORMAL, NORMAL, PULLUP, PULLUP, INPUT, INPUT, GROUND, POWER


def network(draw):
    nodes, wires = 1 + draw.below(6), draw.below(7)
    return Net(
        [draw.one_of(KINDS) for _ in range(nodes)],
        [draw.one_of((N, N, P, D)) for _ in range(wires)],
        *([draw.below(nodes) for _ in range(wires)] for _ in range(3)),
    )


# what an entry is lent besides the kinds
LENT_TO = {
    "check": ("types",),
    "reset": ("states",),
    "step": ("types", "states", "work"),
    "unit": ("types", "states", "work", "changes", "limit"),
    "ternary": ("types", "states", "work", "changes"),
}


def lent_to(entry, net, states, places, values, limit, work):
    """To each entry what it is lent, and no more."""

    def given(name, thing):
        return thing if name in LENT_TO[entry] else None

    return Lent(
        entry,
        Net(net.kinds, *(given("types", table) for table in net[1:])),
        given("states", states),
        given("changes", places),
        given("changes", values),
        given("limit", limit),
        given("work", work),
    )


def sound(draw, entry, settled):
    """What is not refused with 1 to 6. The work area is exact or a little larger, and none of its cells is 0."""
    net = network(draw)
    states = draw.states(len(net.kinds))
    if settled:
        states = steps(net, states, 10)[0][-1]
    places = [node for node, kind in enumerate(net.kinds) if kind in INPUTS and draw.below(3)]
    if draw.below(2):
        places.reverse()
    lowest = 1 + draw.below(9)
    work = list(range(lowest, lowest + cells(net) + draw.below(3)))
    return lent_to(entry, net, states, places, draw.states(len(places)), draw.one_of((0, 0, 1, 2, 3, 10000)), work)


def unknown(lent, left):
    """How many transistors are unknown, at most; and how many choices there are in all its steps."""
    each = [stands(lent.net, states).count(UNKNOWN) for states in left.passed]
    return max(each, default=0), sum(2**u for u in each)


def quick(lent, left):
    most, choices = unknown(lent, left)
    return most <= MOST_UNKNOWN and choices <= MOST_CHOICES


def busy(lent, left):
    """How much happens: its counts, unknown transistors, states that differ."""
    counts = sum(min(count, 3) for count in left.answer[2:])
    return 3 * counts + unknown(lent, left)[0] + len(set(left.states or []))


def telling(draw, entry, answer):
    """Of thirty calls that get this answer, the busiest."""
    drawn = []
    while len(drawn) < 30:
        lent = sound(draw, entry, settled=entry == "ternary" and answer == DONE)
        left = call(lent)
        if left.answer[0] == answer and quick(lent, left):
            drawn.append((lent, left))
    return max(drawn, key=lambda pair: busy(*pair))[0]


# ---- Flaws: each gives back what was lent with the flaw in it, or None where it has no place ----


def spoilt(draw, table, bad):
    """One or two places of the table, each with one of the bad numbers."""
    if not table:
        return None
    table = list(table)
    for _ in range(1 + draw.below(2)):
        table[draw.below(len(table))] = draw.one_of(bad)
    return table


def resized(draw, table):
    """One place more or less."""
    return draw.one_of((table + [0], table[:-1])) if table else None


def put(lent, name, table):
    """The table in place of the one of that name, of the network's or of the others."""
    if table is None:
        return None
    if name in Net._fields:
        return lent._replace(net=lent.net._replace(**{name: table}))
    return lent._replace(**{name: table})


def table_of(lent, name):
    return getattr(lent.net if name in Net._fields else lent, name)


def bad_length(draw, lent):
    names = [name for name in Net._fields + ("states", "places", "values") if table_of(lent, name) is not None]
    name = draw.one_of(names)
    return put(lent, name, resized(draw, table_of(lent, name)))


def no_nodes(draw, lent):
    return lent._replace(net=lent.net._replace(kinds=[]), states=lent.states and [])


def bad_work(draw, lent):
    return lent.work and put(lent, "work", draw.one_of((lent.work[: cells(lent.net) - 1], [])))


def bad_limit(draw, lent):
    return None if lent.limit is None else put(lent, "limit", draw.one_of((10001, 65535)))


def bad_kind(draw, lent):
    return put(lent, "kinds", spoilt(draw, lent.net.kinds, (5, 255)))


def bad_type(draw, lent):
    return put(lent, "types", spoilt(draw, lent.net.types, (3, 255)))


def bad_end(draw, lent):
    nodes = len(lent.net.kinds)
    name = draw.one_of(("gates", "sources", "drains"))
    return put(lent, name, spoilt(draw, table_of(lent, name), (nodes, nodes + 1, 65535)))


def bad_state(draw, lent):
    return put(lent, "states", spoilt(draw, lent.states, (3, 255)))


def bad_place(draw, lent):
    others = [node for node, kind in enumerate(lent.net.kinds) if kind not in INPUTS]
    return put(lent, "places", spoilt(draw, lent.places, [len(lent.net.kinds), 65535] + others))


def bad_value(draw, lent):
    return put(lent, "values", spoilt(draw, lent.values, (3, 255)))


def named_twice(draw, lent):
    if not lent.places:
        return None
    places, values = lent.places + [draw.one_of(lent.places)], lent.values + draw.states(1)
    return lent._replace(places=places, values=values)


# each flaw, and what must be lent to have it
FLAWS = (
    (bad_length, "kinds"),
    (no_nodes, "kinds"),
    (bad_work, "work"),
    (bad_limit, "limit"),
    (bad_kind, "kinds"),
    (bad_type, "types"),
    (bad_end, "types"),
    (bad_state, "states"),
    (bad_place, "changes"),
    (bad_value, "changes"),
    (named_twice, "changes"),
)

# each flaw with each entry that can have it
FLAWED = [(flaw, entry) for flaw, part in FLAWS for entry in LENT_TO if part in ("kinds", *LENT_TO[entry])]


def flawed(draw, flaw, entry):
    """A call with the flaw, and now and then with some other besides: then the lowest number must win."""
    while True:
        lent = flaw(draw, sound(draw, entry, settled=False))
        if lent and draw.below(3) == 0:
            lent = draw.one_of(FLAWS)[0](draw, lent)
        if lent and quick(lent, call(lent)):
            return lent


def entries(seed, count):
    """Sound and flawed calls by turns."""
    draw = Draw(seed)
    drawn = []
    for i in range(count):
        if i % 2 == 0:
            drawn.append(telling(draw, *SOUND[i // 2 % len(SOUND)]))
        else:
            drawn.append(flawed(draw, *FLAWED[i // 2 % len(FLAWED)]))
    return drawn
