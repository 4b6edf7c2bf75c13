"""The rules, by trying every choice: how a transistor stands, one unit step, the five entries and what they refuse."""

import itertools
from collections import namedtuple

NORMAL, PULLUP, INPUT, GROUND, POWER = KINDS = 0, 1, 2, 3, 4
INPUTS = INPUT, GROUND, POWER
LOW, HIGH, X = STATES = 0, 1, 2
N, P, D = TYPES = 0, 1, 2
DONE, SIZE, LIMIT, KIND, WIRE, STATE, CHANGE, START, OSCILLATES = range(9)
DEFAULT_LIMIT = 1000

# what reset gives; X to all other kinds
RESET = {GROUND: LOW, POWER: HIGH}

# ---- How a transistor stands, and one unit step ----

# what may be chosen for it: False is open, True is closed
OPEN, CLOSED, UNKNOWN = (False,), (True,), (False, True)

# by type, then by the gate's state
STANDS = {
    N: (OPEN, CLOSED, UNKNOWN),
    P: (CLOSED, OPEN, UNKNOWN),
    D: (CLOSED, CLOSED, CLOSED),
}

STRONGEST_FIRST = (INPUTS, (PULLUP,), (NORMAL,))

Net = namedtuple("Net", "kinds types gates sources drains")


def transistors(net):
    return list(zip(net.types, net.gates, net.sources, net.drains))


def stands(net, states):
    return [STANDS[kind][states[gate]] for kind, gate, _, _ in transistors(net)]


def may_join(net, node):
    """An input touches sets of joined nodes, it never joins them."""
    return net.kinds[node] not in INPUTS


def joined_set(net, links, node):
    """The nodes that a chain of closed transistors links to the node, itself included: a flood fill."""
    joined, fresh = {node}, [node]
    while fresh:
        here = fresh.pop()
        for near, far in links:
            if near == here and far not in joined and may_join(net, far):
                joined.add(far)
                fresh.append(far)
    return joined


def agreed(states):
    """0 if all are 0, 1 if all are 1, otherwise X."""
    return LOW if set(states) == {LOW} else HIGH if set(states) == {HIGH} else X


def set_state(net, states, links, node):
    """The state that one choice gives to the node's joined set: only the strongest kinds present count."""
    joined = joined_set(net, links, node)
    touching = {near for near, far in links if net.kinds[near] in INPUTS and far in joined}
    for kinds in STRONGEST_FIRST:
        counted = [HIGH if net.kinds[v] == PULLUP else states[v] for v in joined | touching if net.kinds[v] in kinds]
        if counted:
            return agreed(counted)


def step(net, states):
    """All new states from the same old ones. Inputs are not altered."""
    given = [set() for _ in states]
    others = [node for node, kind in enumerate(net.kinds) if kind not in INPUTS]
    for choice in itertools.product(*stands(net, states)):
        closed = [(source, drain) for (_, _, source, drain), shut in zip(transistors(net), choice) if shut]
        links = closed + [(drain, source) for source, drain in closed]
        for node in others:
            given[node].add(set_state(net, states, links, node))
    return [old if kind in INPUTS else agreed(new) for kind, old, new in zip(net.kinds, states, given)]


def steps(net, states, most):
    """The states before the first step, after one, and so on until they are settled or `most` steps are taken; and whether they are settled."""
    passed = [states]
    while True:
        after = step(net, passed[-1])
        if after == passed[-1]:
            return passed, True
        if len(passed) > most:
            return passed, False
        passed.append(after)


# ---- The five entries ----

# what an entry is lent: None for what it is not
Lent = namedtuple("Lent", "entry net states places values limit work")

# number, place and two counts; the states and the work area that are left; all states from which steps were taken
Outcome = namedtuple("Outcome", "answer states work passed")


def cells(net):
    return 4 * len(net.kinds) + 2 * len(net.types)


def refusals(lent):
    """All numbers from 1 to 6 that apply, each with each place that it applies to."""
    net, states = lent.net, lent.states
    nodes = len(net.kinds)

    if not 1 <= nodes <= 4096:
        yield SIZE, 0
    if states is not None and len(states) != nodes:
        yield SIZE, 0
    if net.types is not None:
        if len(net.types) > 8192 or any(len(table) != len(net.types) for table in (net.gates, net.sources, net.drains)):
            yield SIZE, 0
        for t, (kind, *ends) in enumerate(transistors(net)):
            if kind not in TYPES or any(node >= nodes for node in ends):
                yield WIRE, t
    if lent.work is not None and len(lent.work) < cells(net):
        yield SIZE, 0

    for node, kind in enumerate(net.kinds):
        if kind not in KINDS:
            yield KIND, node
    # reset is lent the states only to overwrite them
    if states is not None and lent.entry != "reset":
        for node, state in enumerate(states):
            if state not in STATES:
                yield STATE, node

    if lent.places is not None:
        if len(lent.places) != len(lent.values) or len(lent.places) > 4096:
            yield SIZE, 0
        for e, (node, state) in enumerate(zip(lent.places, lent.values)):
            if node >= nodes or net.kinds[node] not in INPUTS or state not in STATES or node in lent.places[:e]:
                yield CHANGE, e
    if lent.limit is not None and lent.limit > 10000:
        yield LIMIT, 0


def call(lent):
    """What an entry answers and leaves."""
    # the lowest number that applies, and of its places the first
    refused = min(refusals(lent), default=None)
    if refused:
        return Outcome((*refused, 0, 0), lent.states, lent.work, [])
    return {"check": check, "reset": reset, "step": one_step, "unit": unit_run, "ternary": ternary_run}[lent.entry](lent)


def check(lent):
    return Outcome((DONE, 0, 0, 0), None, None, [])


def reset(lent):
    return Outcome((DONE, 0, 0, 0), [RESET.get(kind, X) for kind in lent.net.kinds], None, [])


def cleared(lent):
    used = cells(lent.net)
    return [0] * used + lent.work[used:]


def first_changed(before, after):
    """The lowest node whose state differs, or the number of nodes."""
    return min([node for node in range(len(before)) if before[node] != after[node]], default=len(before))


def one_step(lent):
    after = step(lent.net, lent.states)
    altered = sum(old != new for old, new in zip(lent.states, after))
    return Outcome((DONE, first_changed(lent.states, after), altered, 0), after, cleared(lent), [lent.states])


def entered(lent):
    states = list(lent.states)
    for node, state in zip(lent.places, lent.values):
        states[node] = state
    return states


def unit_run(lent):
    limit = lent.limit or DEFAULT_LIMIT
    passed, settled = steps(lent.net, entered(lent), limit)
    answer = (DONE, 0, len(passed) - 1, 0)
    if not settled:
        # the next step, which is not stored
        answer = (OSCILLATES, first_changed(passed[-1], step(lent.net, passed[-1])), limit, 0)
    return Outcome(answer, passed[-1], cleared(lent), passed)


class NotSettled(Exception):
    """A half of a ternary run took more steps than there are non-input nodes."""


def half(lent, states):
    passed, settled = steps(lent.net, states, sum(kind not in INPUTS for kind in lent.net.kinds))
    if not settled:
        raise NotSettled(lent)
    return passed


def ternary_run(lent):
    if step(lent.net, lent.states) != lent.states:
        return Outcome((START, 0, 0, 0), lent.states, cleared(lent), [lent.states])
    new = entered(lent)
    changed = [v for v in range(len(new)) if new[v] != lent.states[v]]
    first = half(lent, [X if v in changed else old for v, old in enumerate(lent.states)])
    second = half(lent, [new[v] if v in changed else old for v, old in enumerate(first[-1])])
    return Outcome((DONE, 0, len(first) - 1, len(second) - 1), second[-1], cleared(lent), [lent.states] + first + second)
