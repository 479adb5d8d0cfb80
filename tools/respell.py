#!/usr/bin/env python3
"""Spells the definitions and lemmas of this repository anew, by spelling.tsv beside this file: a row is an old name, a tab, the new one.

usage: python3 tools/respell.py [TOP]      once, at the top of a checkout whose files have the old names

Whole names turn, in specs/ and proofs/ and, where a name has no dash, in the contracts and comments of src/ (Rust spells no name so)
and in must-fail/*.edit. The labels of generated goals stay: in a function's Answers.antt and Invariants.antt a name that stands behind a
dot, or that names a goal there, is not turned if it has a dash. A file that has a new name already, under another meaning, is told.
"""

import os
import re
import sys

HERE = os.path.dirname(os.path.realpath(__file__))
NAME = re.compile(r'[^\s(){}.;,@"«»]+')
WORD = re.compile(r"(?<![\w'-])[a-z][\w₀-₉']*(?![\w'-])")
STRING = re.compile(r'"(?:[^"\\\n]|\\.)*"')
GOAL = re.compile(r"\b(?:goal|given)\.(%s)" % NAME.pattern)
PLACES = re.compile(r"^use Rattle\.\w+\.proofs\.\S*(?:Goals|Given)\.\{(.*)\}", re.M)


def rows(path):
    with open(path, encoding="utf-8") as f:
        return dict(line.rstrip("\n").split("\t") for line in f if line.strip())


def turned_antt(text, table, is_answers):
    labels = set(GOAL.findall(text))
    for names in PLACES.findall(text):
        labels.update(it.strip() for it in names.split(","))

    def turn(m):
        name = m[0]
        new = table.get(name)
        if new is None:
            return name
        if is_answers and "-" in name:
            behind_dot = m.start() and text[m.start() - 1] == "."
            if behind_dot or name in labels:
                return name
        return new

    return NAME.sub(turn, text)


def turned_rt(text, table):
    """Strings stay."""
    out, at = [], 0
    for m in STRING.finditer(text):
        out.append(WORD.sub(lambda w: table.get(w[0], w[0]), text[at : m.start()]))
        out.append(m[0])
        at = m.end()
    out.append(WORD.sub(lambda w: table.get(w[0], w[0]), text[at:]))
    return "".join(out)


def main(top):
    table = rows(os.path.join(HERE, "spelling.tsv"))
    plain = {a: b for a, b in table.items() if "-" not in a}
    turned = 0
    for folder, dirs, files in os.walk(os.path.join(top, "crates")):
        dirs[:] = sorted(d for d in dirs if d not in ("out", "target"))
        for name in sorted(files):
            path = os.path.join(folder, name)
            if not name.endswith((".antt", ".rt", ".edit")):
                continue
            with open(path, encoding="utf-8") as f:
                old = f.read()
            if name.endswith(".antt"):
                new = turned_antt(old, table, name in ("Answers.antt", "Invariants.antt"))
                had = set(NAME.findall(old))
            else:
                new = turned_rt(old, plain)
                had = set(WORD.findall(old))
            for a in sorted(had & set(table)):
                if table[a] in had:
                    print(f"meets: {path}: {a} is now {table[a]}, which stands there too")
            if new != old:
                turned += 1
                with open(path, "w", encoding="utf-8") as f:
                    f.write(new)
    print(f"{turned} files turned")


main(os.path.abspath(sys.argv[1] if len(sys.argv) > 1 else "."))
