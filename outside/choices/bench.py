"""The bench set K1 to K14, as they were asked for."""

import re

from rules import Lent, Net, call, cells

NETWORKS = """
INV: 0 I, 1 I, 2 P; n(1; 0, 2).
PASS: 0 I, 1 N, 2 N; n(0; 1, 2).
RING: 0 I, 1 P; n(1; 0, 1).
FENCE: 0 I, 1 N, 2 P, 3 N; n(0; 1, 2), n(0; 2, 3).
SHORT: 0 I, 1 I, 2 N; d(0; 0, 2), d(0; 1, 2).
SPLIT: 0 I, 1 I, 2 N, 3 N; d(0; 0, 2), d(0; 0, 3), d(0; 1, 3).
LATCH: 0 I, 1 I, 2 N; n(0; 1, 2).
"""

RUNS = """
| K1 | INV unit | 0XX | 1 to 1 |
| K2 | INV unit | 010 | 1 to X |
| K3 | INV ternary | 010 | 1 to 0 |
| K4 | PASS unit | 010 | 0 to 1 |
| K5 | PASS unit | 011 | 0 to X |
| K6 | RING unit, limit 4 | 00 | none |
| K7 | RING ternary | 00 | none |
| K8 | INV unit | 0XX | 1 to 1, 1 to 1 |
| K9 | FENCE unit | X011 | none |
| K10 | SHORT unit | 010 | none |
| K11 | SPLIT unit | 1000 | none |
| K12 | LATCH unit | 100 | 0 to 0, 1 to 1 |
| K13 | LATCH ternary | 100 | 0 to 0, 1 to 1 |
| K14 | RING unit, limit 4 | 0X | none |
"""


def read_network(line):
    name, kinds, wires = re.fullmatch(r"(\w+): ([^;]*); (.*)\.", line).groups()
    wires = re.findall(r"([npd])\((\d+); (\d+), (\d+)\)", wires)
    return name, Net(
        ["NPI".index(kind) for kind in re.findall(r"[NPI]", kinds)],
        ["npd".index(wire[0]) for wire in wires],
        *([int(wire[i]) for wire in wires] for i in (1, 2, 3)),
    )


def lines():
    networks = dict(read_network(line) for line in NETWORKS.split("\n") if line)
    told = []
    for run in RUNS.strip().split("\n"):
        mark, run, start, changes = run.strip("| ").split(" | ")
        name, entry, limit = re.fullmatch(r"(\w+) (\w+)(?:, limit (\d+))?", run).groups()
        changes = re.findall(r"(\d+) to ([01X])", changes)
        net = networks[name]
        lent = Lent(
            entry,
            net,
            ["01X".index(state) for state in start],
            [int(node) for node, _ in changes],
            ["01X".index(state) for _, state in changes],
            int(limit or 0) if entry == "unit" else None,
            [7] * cells(net),
        )
        outcome = call(lent)
        told.append(" ".join([mark, *map(str, outcome.answer), "".join("01X"[state] for state in outcome.states)]))
    return "".join(line + "\n" for line in told)
