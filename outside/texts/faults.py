#!/usr/bin/env python3
"""Shows that the comparison with texts.txt can fail: plants a fault in the reader, and counts the texts whose line then differs. Status 1 if one makes no difference."""

import re
import sys

import reader
import texts

sound_device, sound_lines, sound_loaded_end, sound_read = reader.device, reader.lines, reader.loaded_end, reader.read


def one_order_of_ends(found):
    end = sound_loaded_end(found)
    return end if end == found.source.name else None


def any_gate(found):
    return sound_loaded_end(found._replace(gate=found.source)) or sound_loaded_end(found._replace(gate=found.drain))


def any_type(found):
    return sound_loaded_end(found._replace(type=reader.D))


def rails_too(found):
    power = found.gate.name == found.source.name and found.drain.name == b"Vdd"
    return found.source.name if found.type == reader.D and power else sound_loaded_end(found)


def ends_exchanged(some):
    return sound_device(some[:2] + some[3:1:-1] + some[4:])


def one_line_late(text, nodes, transistors):
    try:
        return sound_read(text, nodes, transistors)
    except reader.Offends as offence:
        raise reader.Offends(offence.args[0] + 1) from None


def skipped_not_counted(text):
    return (line for line in sound_lines(text) if not reader.is_skipped(reader.fields(*line)))


def only_ended(text):
    return list(sound_lines(text))[:-1]


FAULTS = {
    "a name of 64 bytes is taken": {"LONGEST_NAME": 64},
    "a name of 63 bytes is refused": {"LONGEST_NAME": 62},
    "a tab is no blank": {"FIELD": re.compile(rb"[^ ]+")},
    "a carriage return is a blank": {"FIELD": re.compile(rb"[^ \t\r]+")},
    "every byte up to the space is a blank": {"FIELD": re.compile(rb"[^\x00-\x20]+")},
    "N is no line to skip": {"SKIPPED": {b"C", b"R", b"A"}},
    "the comment's sign is a whole field": {"COMMENT": b"\n", "SKIPPED": reader.SKIPPED | {b"|"}},
    "small letters are lines to skip": {"SKIPPED": reader.SKIPPED | {b"c", b"r", b"a"}},
    "capitals are devices": {"TYPES": {**reader.TYPES, b"E": reader.N, b"P": reader.P, b"D": reader.D}},
    "n is no device": {"TYPES": {b"e": reader.N, b"p": reader.P, b"d": reader.D}},
    "vdd is power": {"RAILS": {**reader.RAILS, b"vdd": reader.POWER}},
    "the rails are exchanged": {"RAILS": {b"Vdd": reader.GROUND, b"Gnd": reader.POWER}},
    "a pullup in one order of its ends": {"loaded_end": one_order_of_ends},
    "a pullup whatever its gate": {"loaded_end": any_gate},
    "a pullup of any type": {"loaded_end": any_type},
    "a rail made a pullup": {"loaded_end": rails_too},
    "no pullups": {"loaded_end": lambda found: None},
    "source and drain are exchanged": {"device": ends_exchanged},
    "the place is one line late": {"read": one_line_late},
    "skipped lines are not counted": {"lines": skipped_not_counted},
    "a last line without a line feed is lost": {"lines": only_ended},
}


def main():
    cases = texts.written()
    missed = 0
    for name, altered in FAULTS.items():
        kept = {part: getattr(reader, part) for part in altered}
        for part, thing in altered.items():
            setattr(reader, part, thing)
        differing = sum(texts.line(text, *room) != line.decode() for _, *room, text, line in cases)
        for part, thing in kept.items():
            setattr(reader, part, thing)
        print(f"{name}: {differing} of {len(cases)} texts differ")
        missed += differing == 0
    return int(missed > 0)


if __name__ == "__main__":
    sys.exit(main())
