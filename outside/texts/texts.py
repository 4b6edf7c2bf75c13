#!/usr/bin/env python3
"""An outside program that reads texts.

It knows nothing of the project's definitions. It follows the rules in words (reader.py), and what it finds is compared with texts.txt, whose lines were worked out
by hand, and over the C door with the library (outside/check_claims.c), on those texts and on random ones (drawing.py).

    texts.py check               read the texts of texts.txt and compare
    texts.py antt                print those texts and what must be left as a claim about the definitions: crates/excerpts/specs/Excerpts.antt
    texts.py same FILE           whether FILE is that claim
    texts.py claim SEED COUNT    print those texts and COUNT random ones, with calls and what each must answer and leave
"""

import ast
import pathlib
import re
import sys

import claim as antt
import drawing
import reader

TEXTS = pathlib.Path(__file__).with_name("texts.txt")


def written():
    """The cases of texts.txt: what it shows, room for nodes and for transistors, the text, the line."""
    kept = TEXTS.read_text(encoding="ascii")
    cases = re.findall(r"^CASE\((.*?)\)$", kept, re.M | re.S)
    assert len(cases) == kept.count("\nCASE("), "a case that is not laid out as the others"
    return [ast.literal_eval("(" + re.sub(r'"(?:[^"\\]|\\.)*"', r"b\g<0>", case) + ")") for case in cases]


def line(text, nodes, transistors):
    """A reading in the notation of texts.txt."""
    answer, reading = reader.read_sim(text, nodes, *[transistors] * 4)
    told = [" ".join(map(str, answer))]
    if reading and reading.names:
        told.append("".join("NPIGV"[kind] for kind in reading.kinds))
        told += ["%s(%d;%d,%d)" % ("npd"[wire[0]], *wire[1:]) for wire in reading.transistors]
        told += ["%d:%d" % name for name in reading.names]
    return " ".join(told)


def check():
    """Status 0 if every line is as written; else those that are not, and 1."""
    cases = written()
    differing = 0
    for what, nodes, transistors, text, wanted in cases:
        found = line(text, nodes, transistors)
        if found != wanted.decode():
            print(f"{what.decode()}: wanted {wanted.decode()}, found {found}")
            differing += 1
    print(f"outside: {len(cases)} texts written out, {differing} differ")
    return int(differing > 0 or not cases)


# ---- Claims: calls and what they must answer, as words and numbers for a C program to read ----


def say(word, *numbers):
    print(word, *numbers)


def claim_read(text, *lengths):
    answer, reading = reader.read_sim(text, *lengths)
    tables = [*reading.kinds, *(wire[k] for k in range(4) for wire in reading.transistors)] if reading else []
    say("read", *lengths, *answer, *tables)


def claim_name(text, number):
    say("name", number, *reader.node_name(text, number))


def claim_names(text, starts, sizes):
    answer, reading = reader.node_names(text, starts, sizes)
    tables = [name[k] for k in (0, 1) for name in reading.names] if reading else []
    say("names", starts, sizes, *answer, *tables)


def claim_once(text, nodes, transistors):
    """Each call once."""
    say("text", len(text), text.hex() or "-")
    claim_read(text, nodes, *[transistors] * 4)
    claim_name(text, 0)
    claim_names(text, nodes, nodes)


def claim_text(draw, text, room):
    """Calls on one text: with this room, with room just enough, one short and drawn; names in use and not."""
    (answer, _, nodes, wires), _ = reader.read_at_large(text)
    if answer != reader.DONE:
        nodes, wires = draw.below(9), draw.below(9)
    claim_once(text, *room)
    least = max(nodes, 1)
    claim_read(text, least, *[wires] * 4)
    claim_read(text, least + draw.below(9), *[wires + draw.below(9)] * 4)
    claim_read(text, least - 1, *[wires] * 4)
    if wires:
        claim_read(text, least, *[wires - 1] * 4)
        claim_read(text, least, *(wires + draw.one_of((0, 0, 1, -1)) for _ in range(4)))
    for number in (draw.below(nodes + 1), nodes, 65536 + draw.below(nodes + 1)):
        claim_name(text, number)
    claim_names(text, nodes + draw.below(4), nodes + draw.below(4))
    short = draw.below(2) if nodes else 0
    claim_names(text, nodes - short, nodes)
    claim_names(text, nodes, nodes - short)


# the longest texts and some that are too long; one whose front is a sound one
LONG = b"|" * 65535, b"|" * 65527 + b"\ne a b c", b"\n" * 65534 + b"x", b"|" * 65536, b"e a b c\n" + b"\n" * 65536


def claim(seed, count):
    draw = drawing.Draw(seed + 1)
    cases = written()
    for _, nodes, transistors, text, _ in cases:
        claim_text(draw, text, (nodes, transistors))
    for text in LONG:
        claim_once(text, 9, 9)
    for text in drawing.texts(seed, count):
        claim_text(draw, text, (1 + draw.below(9), draw.below(9)))
    say("end", len(cases) + len(LONG) + count)
    return 0


def main(arguments):
    if arguments == ["check"]:
        return check()
    if arguments == ["antt"]:
        print(antt.claim(written()), end="")
        return 0
    if len(arguments) == 2 and arguments[0] == "same":
        return int(pathlib.Path(arguments[1]).read_text(encoding="utf-8") != antt.claim(written()))
    if len(arguments) == 3 and arguments[0] == "claim":
        return claim(*map(int, arguments[1:]))
    print(__doc__, end="")
    return 2


if __name__ == "__main__":
    sys.exit(main(sys.argv[1:]))
