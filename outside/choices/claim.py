"""Random entries, and what the outside program finds of them, as one claim about the project's definitions (in the layout of `rt fmt`)."""

import drawing
from rules import call

TITLES = {
    "check": "check",
    "reset": "reset",
    "step": "one step",
    "unit": "unit runs",
    "ternary": "ternary runs",
}

HEAD = """\
-- Entries on random networks, sound and flawed, against an outside program that tries every choice: by `outside/choices/choices.py sample {seed} {count}`,
-- which writes this file and never reads the definitions. Assumes nothing.
use Rattle.std.specs.Prelude.{{ℕ, zero, suc, ◌≡◌, refl, List, [], ◌∷◌, ◌++◌}}
use Rattle.model.specs.Net.{{Net, stands, linked, spread, joined, strength, set_state, new, step}}
use Rattle.model.specs.Run.{{Changes, raised, lowered, unit_steps, first_half, second_half}}
use Rattle.model.specs.Answer.{{row}}
use Rattle.model.specs.Rules.{{wire_tests, change_tests, check_sizes, check_rules, reset_sizes, reset_rules, step_sizes, step_rules, run_sizes, run_rules, unit_rules, ternary_rules}}
use Rattle.model.specs.Entries.{{Outcome, altered, first_changed, reset_states, cleared, check_answer, reset_outcome, step_outcome, unit_outcome, ternary_outcome}}

-- n cells of 0; n cells of which each is one more than the last
abbrev zeros : ℕ → List ℕ
zeros zero = []
zeros (suc n) = 0 ∷ zeros n

abbrev from : ℕ → ℕ → List ℕ
from a zero = []
from a (suc n) = a ∷ from (suc a) n

-- kinds; types, gates, sources, drains
abbrev net : List ℕ → List ℕ → List ℕ → List ℕ → List ℕ → Net
net k y g a b = record {{ kinds = k; types = y; gates = g; sources = a; drains = b }}

abbrev changes : List ℕ → List ℕ → Changes
changes ps vs = record {{ places = ps; values = vs }}

-- number, place and counts; states; work area
abbrev left : List ℕ → List ℕ → List ℕ → List (List ℕ)
left answer states work = answer ∷ states ∷ work ∷ []

abbrev told : Outcome → List (List ℕ)
told o = left (row o.answer) o.states o.work

abbrev check : Net → List (List ℕ)
check m = left (row (check_answer m)) [] []

abbrev reset : List ℕ → List ℕ → List (List ℕ)
reset kinds s = told (reset_outcome kinds s)

abbrev once : Net → List ℕ → List ℕ → List (List ℕ)
once m s w = told (step_outcome m s w)

abbrev unit : Net → List ℕ → Changes → ℕ → List ℕ → List (List ℕ)
unit m s ch limit w = told (unit_outcome m s ch limit w)

abbrev ternary : Net → List ℕ → Changes → List ℕ → List (List ℕ)
ternary m s ch w = told (ternary_outcome m s ch w)

abbrev ran : List (List (List ℕ))
ran =
"""

MIDDLE = """
abbrev found : List (List (List ℕ))
found =
"""

FOOT = """
pub samples : ran ≡ found
unfolding stands linked spread joined strength set_state new step raised lowered unit_steps first_half second_half wire_tests change_tests check_sizes check_rules reset_sizes reset_rules step_sizes step_rules run_sizes run_rules unit_rules ternary_rules altered first_changed reset_states cleared check_answer reset_outcome step_outcome unit_outcome ternary_outcome
samples = refl
"""


def listed(numbers):
    return "(" + " ∷ ".join([*map(str, numbers), "[]"]) + ")" if numbers else "[]"


def area(work):
    """A work area is long, and always some cells of 0 before cells that count up."""
    if not work:
        return "[]"
    zeros = work.count(0)
    rest = work[zeros:]
    parts = [f"zeros {zeros}"] * (zeros > 0) + [f"from {rest[0]} {len(rest)}" for _ in rest[:1]]
    assert work == [0] * zeros + [rest[0] + i for i in range(len(rest))], work
    return "(" + " ++ ".join(parts) + ")"


def asked(lent):
    kinds, net = listed(lent.net.kinds), "(net " + " ".join(map(listed, lent.net)) + ")"
    states, work = listed(lent.states), area(lent.work)
    changes = f"(changes {listed(lent.places)} {listed(lent.values)})"
    return {
        "check": f"check {net}",
        "reset": f"reset {kinds} {states}",
        "step": f"once {net} {states} {work}",
        "unit": f"unit {net} {states} {changes} {lent.limit} {work}",
        "ternary": f"ternary {net} {states} {changes} {work}",
    }[lent.entry]


def found(lent):
    left = call(lent)
    return f"left {listed(left.answer)} {listed(left.states)} {area(left.work)}"


def column(drawn, write):
    """A list, each entry on its line, with a comment before the first of each kind."""
    lines, started = [], False
    for entry, title in TITLES.items():
        some = [lent for lent in drawn if lent.entry == entry]
        if some:
            lines.append(f"    -- {title}")
        for lent in some:
            lines.append(("    ∷ " if started else "    ") + write(lent))
            started = True
    return "\n".join([*lines, "    ∷ []"]) + "\n"


def text(seed, count):
    drawn = drawing.entries(seed, count)
    return HEAD.format(seed=seed, count=count) + column(drawn, asked) + MIDDLE + column(drawn, found) + FOOT
