"""Random texts, the same from the same seed: sound ones of the shapes that extractors write, damaged ones, and ones of few words."""

import random


class Draw:
    def __init__(self, seed):
        # of all of `random`, this alone is promised to draw the same from a seed under every Python 3
        self.fraction = random.Random(seed).random

    def below(self, n):
        return int(self.fraction() * n)

    def one_of(self, things):
        return things[self.below(len(things))]

    def one_in(self, n):
        return self.below(n) == 0


# ---- Sound texts ----


class Style:
    """How one text is written: its names, its blanks, what follows the names."""

    def __init__(self, draw):
        self.draw = draw
        self.name = draw.one_of((short_name, numbered_name, placed_name, deep_name, long_name))
        self.blanks = draw.one_of(((b" ",), (b" ",), (b"\t",), (b" ", b"\t", b"  ", b" \t ")))
        self.later = draw.one_of((b"", b" 2 4", b" 2.0 4.5 120 -36", b" 4 2 7 8 g=S_Gate s=A_4,P_6 d=A_4,P_6"))
        self.end = draw.one_of((b"", b"", b" ", b" \r"))

    def device(self, letter, gate, source, drain):
        if self.draw.one_in(2):
            source, drain = drain, source
        written = letter
        for net in (gate, source, drain):
            written += self.draw.one_of(self.blanks) + (net if isinstance(net, bytes) else self.name(net))
        return written + self.later + self.end


def short_name(net):
    return b"%c%c" % (97 + net % 26, 48 + net // 26 % 10)


def numbered_name(net):
    return b"%d" % net


def placed_name(net):
    return b"a_%d_%d#" % (17 * net % 1000 - 300, 31 * net % 700)


def deep_name(net):
    return b"cpu/alu[%d]/bit_%d.out" % (net % 8, net)


def long_name(net):
    """Up to 63 bytes: alike for the most part, by the head or by the tail."""
    return (b"%d" % net).rjust(63 - net % 3, b"x") if net % 2 else (b"%dx" % net).ljust(63, b"y")


def inverter(style, a, b, out):
    load = style.draw.one_of(((b"d", out, out), (b"p", a, out)))
    return [style.device(*load, b"Vdd"), style.device(b"e", a, b"Gnd", out)]


def nand(style, a, b, out):
    return [style.device(b"d", out, b"Vdd", out), style.device(b"n", a, out, 1000 + out), style.device(b"n", b, 1000 + out, b"Gnd")]


def chain(style, a, b, out):
    return [style.device(b"e", a, b if k == 0 else 2000 + 8 * out + k, 2001 + 8 * out + k) for k in range(1 + style.draw.below(5))]


def odd_depletion(style, a, b, out):
    ends = ((b"Vdd", b"Vdd", a), (a, b, b"Vdd"), (a, a, b), (b"Gnd", b"Gnd", b"Vdd"), (a, b"Vdd", b"Vdd"), (a, b"Gnd", a))
    return [style.device(b"d", *style.draw.one_of(ends))]


def skipped(style, a, b, out):
    name = style.name(a)
    return [style.draw.one_of((b"| " + name, b"|", b"", b" \t", b"N " + name + b" 3 4", b"C " + name + b" Gnd 5.5", b"R " + name + b" 12", b"A x " + name))]


CELLS = inverter, inverter, nand, chain, odd_depletion, skipped


# room enough for one more cell and some damage
ALMOST_FULL = 60000


def sound(draw, cells):
    style = Style(draw)
    written = b"| units: 100 tech: nmos format: MIT\n" if draw.one_in(2) else b""
    for out in range(2, 2 + cells):
        if len(written) < ALMOST_FULL:
            written += b"".join(line + b"\n" for line in draw.one_of(CELLS)(style, draw.below(out), draw.below(out), out))
    return written[:-1] if draw.one_in(2) else written


# ---- Damaged ones ----

TELLING = b" \t\n\r\0|endpNCRAVG\x0b\x0c\x7f\x80\xff"


def damaged(draw, cells):
    text = sound(draw, cells)
    for _ in range(1 + draw.below(2)):
        at, byte = draw.below(len(text) + 1), bytes([draw.one_of(TELLING)])
        head, tail = text[:at], text[at:]
        ways = (
            head + byte + tail,
            head + byte + tail[1:],
            head + tail[1:],
            head,
            head + b"z" * (50 + draw.below(20) + 256 * draw.below(2)) + tail,
            text + b"\n" + draw.one_of(text.split(b"\n")),
            b"\n".join(text.split(b"\n")[1:]),
        )
        text = draw.one_of(ways)
    return text


# ---- Few words ----

FIRST = b"d", b"d", b"d", b"e", b"n", b"p", b"N", b"|", b"C", b"dd", b"D", b"|d", b"", b"x", b"\r"
NAMES = b"Vdd", b"a", b"Gnd", b"b", b"vdd", b"a\r", b"|", b"d"


def few_words(draw):
    names = NAMES[: 2 + draw.below(7)]
    first = FIRST[: draw.one_of((4, 8, 8, 15))]
    blanks = draw.one_of(((b" ",), (b" ", b"\t", b"  ")))
    written = b""
    for _ in range(1 + draw.below(6)):
        written += draw.one_of((b"", b"", b"", draw.one_of(blanks))) + draw.one_of(first)
        for _ in range(3 if draw.below(12) else draw.below(6)):
            written += draw.one_of(blanks) + draw.one_of(names)
        written += draw.one_of((b"\n", b"\n", b"\n", b"\n\n", b" \n"))
    return written if draw.one_in(2) else written[:-1]


def texts(seed, count):
    """The three sorts by turns; one in 400 is large."""
    draw = Draw(seed)
    for k in range(count):
        cells = draw.below(900) if k % 400 == 0 else draw.below(7)
        yield few_words(draw) if k % 3 == 2 else damaged(draw, cells) if k % 3 == 1 else sound(draw, cells)
