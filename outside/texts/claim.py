"""The texts of texts.txt as one claim about the definitions of the crate text: what each of the three calls leaves, by the outside program."""

import reader

# tables lent by the claim: what they come filled with, so that entries left as they came are seen
KINDS, TYPES, GATES, SOURCES, DRAINS, STARTS, SIZES = range(7, 14)

# a claim computes every cell, and looks at every byte before it reaches the next: larger rooms and longer texts are tried over C
MOST_ROOM = 9
MOST_BYTES = 60

HEAD = """-- Texts worked out by hand, and what the three entries of a text leave on each: written by `outside/texts/texts.py antt`, which reads texts.txt beside it and
-- never these definitions. Assumes nothing.
use Rattle.std.specs.Prelude.{ℕ, ◌≡◌, refl, List, [], ◌∷◌, ◌++◌, length, replicate, drop}
use Rattle.model.specs.Answer.{row}
use Rattle.model.specs.Net.{Net, net_of}
use Rattle.model.specs.Rules.{check_sizes}
use Rattle.text.specs.Bytes.{bytes, part, next}
use Rattle.text.specs.Lines.{starts_from, line_starts, field, opening, names_from, line_by, line_of}
use Rattle.text.specs.Netlist.{number_of, kind_of, named, pulls, joined, device, added, offends, read_on, reading}
use Rattle.text.specs.Reading.{Read, over, read_into, read_sizes, read_outcome, full_reading, name_part, Listed, list_into, names_outcome}
use Rattle.text.specs.declared.Span.{Span}

-- what is lent: a table for each, filled with a number of its own
abbrev room : ℕ → ℕ → Net
room n t = net_of (replicate n 7) (replicate t 8) (replicate t 9) (replicate t 10) (replicate t 11)

abbrev whole : Read → Listed → Span → Span → List (List ℕ)
whole r l first past =
    row r.answer
    ∷ r.tables.kinds
    ∷ r.tables.types
    ∷ r.tables.gates
    ∷ r.tables.sources
    ∷ r.tables.drains
    ∷ row l.answer
    ∷ l.starts
    ∷ l.sizes
    ∷ (first.start ∷ first.size ∷ past.start ∷ past.size ∷ [])
    ∷ []

-- what the entries leave: reading with room for n nodes and t transistors, the names with room for m, the name of node 0, and that of node k
abbrev tried : List ℕ → ℕ → ℕ → ℕ → ℕ → List (List ℕ)
tried text n t m k = whole (read_outcome text (room n t)) (names_outcome text (replicate m 12) (replicate m 13)) (name_part text 0) (name_part text k)

-- what has to be left: the fronts of the tables, and the rest as it came
abbrev rest : List ℕ → ℕ → ℕ → List ℕ
rest front n with = front ++ drop (length front) (replicate n with)

abbrev left : ℕ → ℕ → ℕ → List ℕ → List ℕ → List ℕ → List ℕ → List ℕ → List ℕ → List ℕ → List ℕ → List ℕ → List ℕ → List (List ℕ)
left n t m answer kinds types gates sources drains names starts sizes parts =
    answer ∷ rest kinds n 7 ∷ rest types t 8 ∷ rest gates t 9 ∷ rest sources t 10 ∷ rest drains t 11 ∷ names ∷ rest starts m 12 ∷ rest sizes m 13 ∷ parts ∷ []
"""

TAIL = """
pub excerpts : found ≡ wanted
unfolding part next starts_from line_starts field opening names_from line_by line_of number_of kind_of named pulls joined device added offends read_on reading over read_into check_sizes read_sizes read_outcome full_reading name_part list_into names_outcome
excerpts = refl
"""


def numbers(some):
    return "(" + " ∷ ".join([*map(str, some), "[]"]) + ")" if some else "[]"


def quoted(text):
    """Bytes that a quoted text can have, quoted; others by number."""
    if all(byte in (9, 10) or 32 <= byte < 127 for byte in text):
        return '(bytes "%s")' % text.decode().replace("\\", "\\\\").replace('"', '\\"').replace("\n", "\\n").replace("\t", "\\t")
    return numbers(text)


def found(text, n, t, m, k):
    return f"tried {quoted(text)} {n} {t} {m} {k}"


def wanted(text, n, t, m, k):
    answer, read = reader.read_sim(text, n, *[t] * 4)
    told, listed = reader.node_names(text, m, m)
    tables = [read.kinds, *([wire[i] for wire in read.transistors] for i in range(4))] if read else [[]] * 5
    names = [[name[i] for name in listed.names] for i in (0, 1)] if listed else [[], []]
    parts = [*reader.node_name(text, 0), *reader.node_name(text, k)]
    return " ".join([f"left {n} {t} {m}", *map(numbers, [answer, *tables, told, *names, parts])])


def cases(written):
    """Each text with its room, tables for its names that are just long enough or, at every third text, one short, and a number that is just not used."""
    for index, (what, n, t, text, _) in enumerate(written):
        if max(n, t) <= MOST_ROOM and len(text) <= MOST_BYTES:
            _, read = reader.read_at_large(text)
            k = len(read.names) if read else 1
            yield what.decode(), (text, n, t, max(0, k - (index % 3 == 2)), k)


def table(name, lines):
    body = "\n    ∷ ".join(lines)
    return f"\nabbrev {name} : List (List (List ℕ))\n{name} =\n    {body}\n    ∷ []\n"


def claim(written):
    some = list(cases(written))
    return HEAD + table("found", [found(*case) for _, case in some]) + table("wanted", [wanted(*case) for _, case in some]) + TAIL
