#!/usr/bin/env python3
"""Respells the repository's own definitions and lemmas, once, after the older Rattle's spelling was turned (docs/PORT.md).

usage: python3 tools/respell.py        at the top of the repository

- Names of tools/respelled.tsv, in definitions, proofs, clauses, must-fail edits and the pages of docs/: words in snake case; a dash joins two
  names, a plain word is joined by an underscore.
- What a contract says of a lent table: `lent t` and `left t` become today's `t.now`, `t.old` and `t.new`, and the network and the changes
  that are lent become `net_of` and `changes_of` of those. The file of definitions that named them goes.
"""

import glob
import os
import re

TOKEN = re.compile(r"[^\s(){}\[\];,.:@`⟨⟩«»\"|]+")
HERE = os.path.dirname(os.path.realpath(__file__))

# names that would fall together with another in their file
FIRST = {
    "crates/reader/proofs/Parts.antt": {"name_in": "name_in-past"},
    "crates/textlaws/proofs/Promises.antt": {"starts_from": "starts_from-within"},
}


def table():
    with open(os.path.join(HERE, "respelled.tsv"), encoding="utf-8") as f:
        return dict(line.rstrip("\n").split("\t") for line in f)


def respell(line, names):
    """The line with each token of `names` respelled, but not in a string, nor behind `tie.`, which the prover makes."""
    out, last = [], 0
    inside = [m.span() for m in re.finditer(r'"(?:[^"\\]|\\.)*"', line)]
    for m in TOKEN.finditer(line):
        to = names.get(m[0])
        if to is None or any(a <= m.start() < b for a, b in inside):
            continue
        if line[: m.start()].endswith("tie."):
            continue
        out.append(line[last : m.start()] + to)
        last = m.end()
    return "".join(out) + line[last:]


def rewrite(path, turn):
    with open(path, encoding="utf-8") as f:
        old = f.read()
    new = turn(old)
    if new != old:
        with open(path, "w", encoding="utf-8") as f:
            f.write(new)


def by_tokens(names):
    return lambda text: "".join(respell(line, names) for line in text.splitlines(keepends=True))


VIEWS = {"lent": "old", "left": "new"}
NETS = {"lent_net": ("net_of", "old", 5), "net_now": ("net_of", "old", 5), "left_net": ("net_of", "new", 5), "lent_changes": ("changes_of", "old", 2), "changes_now": ("changes_of", "old", 2)}
FN = re.compile(r"^\s*(?:pub(?:\([a-z]+\))? )?(?:unsafe )?(?:extern \"C\" )?fn (\w+)", re.M)


def kinds_of(signature):
    """Which parameters are lent for writing and which for reading."""
    kinds = {}
    for m in re.finditer(r"(\w+): &(?:'\w+ )?(mut )?", signature):
        kinds[m[1]] = "mut" if m[2] else "shared"
    return kinds


def view(kinds, name, when):
    kind = kinds.get(name)
    if kind is None:
        raise SystemExit(f"respell: {name} is no lent parameter")
    return f"{name}.now" if kind == "shared" else f"{name}.{when}"


def clauses(text):
    """Today's words for lent tables, in the clauses of each function of a source."""
    starts = [m.start() for m in FN.finditer(text)] + [len(text)]
    out = [text[: starts[0]]]
    for a, b in zip(starts, starts[1:]):
        piece = text[a:b]
        body = piece.find("\n{")
        head = piece if body < 0 else piece[:body]
        kinds = kinds_of(head)

        def net(m):
            word, when, count = NETS[m[2]]
            params = m[3].split()
            call = " ".join([word] + [view(kinds, p, when) for p in params[:count]])
            bare = m[1] or text_before(head, m).rstrip().endswith(("=", "≡"))
            return (m[1] or "") + (call if bare else f"({call})")

        def text_before(whole, m):
            return whole[: m.start()]

        for word, (_, _, count) in NETS.items():
            head = re.sub(r"(\()?\b(" + word + r")((?: \w+){" + str(count) + r"})", net, head)
        head = re.sub(r"\((lent|left) (\w+)\)", lambda m: view(kinds, m[2], VIEWS[m[1]]), head)
        head = re.sub(r"\b(lent|left) (\w+)", lambda m: view(kinds, m[2], VIEWS[m[1]]), head)
        out.append(head + ("" if body < 0 else piece[body:]))
    return "".join(out)


def imports(text):
    """The imports of a source without the definitions that named what is lent, and with those that stand for them."""
    m = re.search(r"ghost use Rattle\.model\.specs\.Lent\.\{([^}]*)\};\n", text)
    if not m:
        return text
    words = {w.strip() for w in m[1].split(",")}
    start = m.start()
    text = text.replace(m[0], "")
    more = []
    if words & {"lent_net", "net_now", "left_net"}:
        more.append(("Rattle.model.specs.Net", "net_of"))
    if words & {"lent_changes", "changes_now"}:
        more.append(("Rattle.model.specs.Run", "changes_of"))
    for module, word in reversed(more):
        line = re.search(r"ghost use " + re.escape(module) + r"\.\{([^}]*)\};", text)
        if line and word not in [w.strip() for w in line[1].split(",")]:
            text = text.replace(line[0], line[0].replace("{", "{" + word + ", ", 1))
        elif not line:
            text = text[:start] + f"ghost use {module}.{{{word}}};\n" + text[start:]
    return text


def main():
    names = table()
    for path, more in FIRST.items():
        if os.path.exists(path):
            rewrite(path, by_tokens(more))
    proofs = [p for p in glob.glob("crates/*/proofs/**/*.antt", recursive=True) + glob.glob("crates/*/specs/**/*.antt", recursive=True)]
    sources = glob.glob("crates/*/src/**/*.rt", recursive=True)
    for path in proofs + sources + glob.glob("crates/*/must-fail/*.edit") + glob.glob("docs/*.md") + glob.glob("outside/*/*.py"):
        rewrite(path, by_tokens(names))
    for path in sources:
        rewrite(path, lambda text: imports(clauses(text) if "specs.Lent" in text else text))
    lent = "crates/model/specs/Lent.antt"
    if os.path.exists(lent):
        os.remove(lent)
        rewrite("crates/model/specs/Lib.antt", lambda text: text.replace("pub mod Lent\n", ""))


if __name__ == "__main__":
    main()
