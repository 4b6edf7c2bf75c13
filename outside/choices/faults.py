#!/usr/bin/env python3
"""Shows that the comparisons can fail: plants a fault in the rules, and counts the lines of the bench set and the samples that then differ.

    faults.py FILE    FILE is the kept claim; status 1 if a fault makes no difference to the samples
"""

import contextlib
import io
import pathlib
import sys
import tempfile

import bench
import choices
import claim
import drawing
import rules


@contextlib.contextmanager
def pullup_weaker_than_charge():
    kept, rules.STRONGEST_FIRST = rules.STRONGEST_FIRST, (rules.INPUTS, (rules.NORMAL,), (rules.PULLUP,))
    yield
    rules.STRONGEST_FIRST = kept


@contextlib.contextmanager
def joined_through_an_input():
    kept, rules.may_join = rules.may_join, lambda net, node: True
    yield
    rules.may_join = kept


@contextlib.contextmanager
def p_at_gate_x_open():
    kept, rules.STANDS[rules.P] = rules.STANDS[rules.P], (rules.CLOSED, rules.OPEN, rules.OPEN)
    yield
    rules.STANDS[rules.P] = kept


@contextlib.contextmanager
def rails_exchanged_by_reset():
    kept, rules.RESET = rules.RESET, {rules.GROUND: rules.HIGH, rules.POWER: rules.LOW}
    yield
    rules.RESET = kept


@contextlib.contextmanager
def rails_no_inputs():
    kept, rules.INPUTS = rules.INPUTS, (rules.INPUT,)
    first, rules.STRONGEST_FIRST = rules.STRONGEST_FIRST, ((rules.INPUT,), (rules.PULLUP,), (rules.NORMAL, rules.GROUND, rules.POWER))
    yield
    rules.INPUTS, rules.STRONGEST_FIRST = kept, first


@contextlib.contextmanager
def last_changed_node_named():
    kept, rules.first_changed = rules.first_changed, lambda before, after: max(
        [node for node in range(len(before)) if before[node] != after[node]], default=len(before)
    )
    yield
    rules.first_changed = kept


def answers(drawn):
    """What each entry leaves, a line each; a run that does not settle as it must leaves its own line."""
    lines = []
    for lent in drawn:
        try:
            lines.append(claim.found(lent))
        except rules.NotSettled:
            lines.append("not settled")
    return lines


def differing(one, other):
    return sum(a != b for a, b in zip(one, other))


def notices(kept, altered):
    """Whether the altered claim is told from what the program makes."""
    with contextlib.redirect_stdout(io.StringIO()), tempfile.NamedTemporaryFile("w", encoding="utf-8") as file:
        file.write(altered)
        file.flush()
        return altered != kept and choices.main(["check", file.name]) == 1


def main(file):
    kept = pathlib.Path(file).read_text(encoding="utf-8")
    drawn = drawing.entries(*choices.made_by(kept))
    right = answers(drawn)
    missed = 0

    if not notices(kept, kept.replace("left (0 ∷ 0 ∷ 1", "left (0 ∷ 0 ∷ 2", 1)):
        print("a count altered in the kept samples: NOT NOTICED")
        missed += 1
    for fault in (pullup_weaker_than_charge, joined_through_an_input, p_at_gate_x_open, rails_exchanged_by_reset, rails_no_inputs, last_changed_node_named):
        with fault():
            lines = differing(bench.lines().splitlines(), choices.BENCH.read_text().splitlines())
            samples = differing(answers(drawn), right)
        print(f"{fault.__name__.replace('_', ' ')}: {lines} of 14 bench lines and {samples} of {len(drawn)} samples differ")
        missed += samples == 0
    return int(missed > 0)


if __name__ == "__main__":
    sys.exit(main(*sys.argv[1:]))
