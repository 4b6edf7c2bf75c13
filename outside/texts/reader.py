"""The rules in words: a text's lines and fields, its devices, its nodes and their names; the three calls about it and what they refuse."""

import functools
import re
from collections import namedtuple

DONE, SIZE, TEXT = 0, 1, 9
NORMAL, PULLUP, GROUND, POWER = 0, 1, 3, 4
N, P, D = 0, 1, 2

LONGEST_TEXT, LONGEST_NAME = 65535, 63
MOST_NODES, MOST_TRANSISTORS = 4096, 8192

# first fields
TYPES = {b"e": N, b"n": N, b"p": P, b"d": D}
SKIPPED = {b"N", b"C", b"R", b"A"}
COMMENT = b"|"

# between blanks, which are spaces and tabs
FIELD = re.compile(rb"[^ \t]+")
RAILS = {b"Vdd": POWER, b"Gnd": GROUND}

Field = namedtuple("Field", "start name")
Device = namedtuple("Device", "type gate source drain")

# what a text says: each node's first appearance and kind, by number; transistors by node numbers
Reading = namedtuple("Reading", "names kinds transistors")


class Offends(Exception):
    """The text is refused for the line of this number."""


# ---- One line ----


def lines(text):
    """Each line and where it begins. What follows a last line feed is a line without fields, which is skipped: it shows nowhere."""
    start = 0
    for line in text.split(b"\n"):
        yield start, line
        start += len(line) + 1


def fields(start, line):
    return [Field(start + found.start(), found.group()) for found in FIELD.finditer(line)]


def is_skipped(some):
    return not some or some[0].name.startswith(COMMENT) or some[0].name in SKIPPED


def device(some):
    """The type and the three names of a line that is not skipped, or None if it offends."""
    if some[0].name not in TYPES or len(some) < 4:
        return None
    names = some[1:4]
    if any(len(field.name) > LONGEST_NAME for field in names):
        return None
    return Device(TYPES[some[0].name], *names)


# ---- The whole text ----


def loaded_end(found):
    """The end that a depletion device makes a pullup, or None if it is a transistor."""
    if found.type != D:
        return None
    for end, other in ((found.source.name, found.drain.name), (found.drain.name, found.source.name)):
        if RAILS.get(other) == POWER and found.gate.name == end and end not in RAILS:
            return end
    return None


def read(text, nodes, transistors):
    """What the text says, with room for so many."""
    first, kinds, wires = {}, {}, []
    for number, (start, line) in enumerate(lines(text)):
        some = fields(start, line)
        if is_skipped(some):
            continue
        found = device(some)
        if found is None:
            raise Offends(number)
        for field in found[1:]:
            first.setdefault(field.name, field)
            kinds.setdefault(field.name, RAILS.get(field.name, NORMAL))
        end = loaded_end(found)
        if end is None:
            wires.append(found)
        else:
            kinds[end] = PULLUP
        if len(first) > nodes or len(wires) > transistors:
            raise Offends(number)
    numbers = {name: number for number, name in enumerate(first)}
    return Reading(
        [(field.start, len(field.name)) for field in first.values()],
        [kinds[name] for name in first],
        [(wire.type, *(numbers[field.name] for field in wire[1:])) for wire in wires],
    )


# ---- The three calls: the numbers that they answer, and what was read where that is DONE ----


def counted(reading):
    return DONE, 0, len(reading.names), len(reading.transistors)


def read_sim(text, kinds, types, gates, sources, drains):
    """By the lengths of the five tables."""
    if len(text) > LONGEST_TEXT or not 1 <= kinds <= MOST_NODES:
        return (SIZE, 0, 0, 0), None
    if types > MOST_TRANSISTORS or not types == gates == sources == drains:
        return (SIZE, 0, 0, 0), None
    try:
        reading = read(text, kinds, types)
    except Offends as offence:
        return (TEXT, offence.args[0], 0, 0), None
    return counted(reading), reading


@functools.lru_cache(maxsize=1)
def read_at_large(text):
    """As the largest tables would: the numbers answered, and what was read."""
    return read_sim(text, MOST_NODES, *[MOST_TRANSISTORS] * 4)


def node_name(text, number):
    """Where the name begins, and its length."""
    _, reading = read_at_large(text)
    return reading.names[number] if reading and number < len(reading.names) else (0, 0)


def node_names(text, starts, sizes):
    """By the lengths of the two tables."""
    answer, reading = read_at_large(text)
    if reading and len(reading.names) > min(starts, sizes):
        return (SIZE, 0, 0, 0), None
    return answer, reading
