#!/usr/bin/env python3
"""Brings the repository's own definitions and lemmas to today's spelling, once, right after the kit's port.py.

usage: python3 tools/port_names.py        at the top of the repository

A name with dashes that an .antt file of crates/ declares becomes snake case, a type becomes camel case. The names of
generated goals (files Proof.antt) stay. Texts of edits are turned as the files that they fit were turned.
"""

import os
import re

OWN = re.compile(r"Rattle\.\w+\.(?:specs|proofs)")
TOKEN = re.compile(r"[A-Za-z_][A-Za-z0-9_'≡≢≤ℕℤ?-]*")
DECLARES = re.compile(r"^\s*(?:abbrev\s+)?(?:unfoldable\s+)?(?:pub\s+)?(?:abbrev\s+)?(?:record\s+|data\s+|ruleset\s+)?(?:pub\s+)?([A-Za-z_][^\s:(){}=]*)\s*(?:[({].*)?[:=]")
# Names of variables, which no line declares as a signature does.
VARIABLES = "ltZ-true slot-fn e-again e-dead e-marks e-onward e-passes e-settle in-none in-series low-source new-words no-y yes-y same-k same-key? same-l same-u to-c n-1 n-2 n-3".split()
# A list of rules is no type.
RULES = {"List-cases": "list_cases"}
# Facts that were spelled as words: the file, the word, the type.
FACTS = [
    ("row/specs/Rows/Row.antt", "by", "By"),
    ("row/proofs/Assemble.antt", "by", "By"),
    ("row/proofs/Events/Happen.antt", "by", "By"),
    ("promises/proofs/Rows/Row.antt", "by", "By"),
    ("promises/proofs/Bounds/Others.antt", "after_call", "AfterCall"),
    ("promises/proofs/Bounds/Others.antt", "left", "LeftSweep"),
    ("promises/proofs/Bounds/Far.antt", "entered", "EnteredSpot"),
    ("promises/proofs/Bounds/Rising.antt", "entered", "EnteredSpot"),
    ("row/specs/Lists/Edges.antt", "mine_of", "MineOf"),
]

# Words that had a capital in them, as the kit's `ltZ` is `lt_z` and its `getD` is `get_or` today.
WORDS = {"Goes_on": "GoesOn", "eqZ": "eq_z", "get_d_of": "get_or_of", "get_d_set": "get_or_set", "get_d_front": "get_or_front"}
CAPITALS = [("eqZ_", "eq_z_"), ("ltZ_", "lt_z_"), ("getD_", "get_or_"), ("addE_", "add_e_"), ("addV_", "add_v_"), ("remE_", "rem_e_"), ("remV_", "rem_v_"), ("conE_", "con_e_"), ("conV_", "con_v_")]


def files(*ends):
    for folder, dirs, names in os.walk("crates"):
        dirs[:] = sorted(d for d in dirs if d != "out")
        for name in sorted(names):
            if name.endswith(ends):
                yield os.path.join(folder, name)


def read(path):
    with open(path, encoding="utf-8") as f:
        return f.read()


def write(path, text):
    with open(path, "w", encoding="utf-8") as f:
        f.write(text)


def spelled(name):
    if name in RULES:
        return RULES[name]
    if name[0].isupper():
        return "".join(part[:1].upper() + part[1:] for part in name.split("-"))
    return name.replace("-", "_")


def declared():
    names = set(VARIABLES)
    for path in files(".antt"):
        if path.endswith("Proof.antt"):
            continue
        for line in read(path).splitlines():
            found = DECLARES.match(line)
            if found and not line.startswith("use ") and "-" in found[1]:
                names.add(found[1])
    return names


def brought_in(text):
    """The names that a file takes from elsewhere than this repository."""
    names = set()
    for module, items in re.findall(r"use\s+([^\s;{]+)\.\{([^}]*)\}", text):
        if not OWN.match(module):
            names.update(TOKEN.findall(items))
    return names


def turn(text, names, comment):
    """Renames outside comments and strings; in a comment, what stands between backquotes."""
    out = []
    pieces = re.split(r'("(?:[^"\\\n]|\\.)*"|' + comment + r"[^\n]*)", text)
    for i, piece in enumerate(pieces):
        if i % 2 == 0:
            piece = TOKEN.sub(lambda m: spelled(m[0]) if m[0] in names else m[0], piece)
        elif not piece.startswith('"'):
            piece = re.sub(r"`[^`\n]*`", lambda m: TOKEN.sub(lambda n: spelled(n[0]) if n[0] in names else n[0], m[0]), piece)
        out.append(piece)
    return "".join(out)


def turn_edit(line, names):
    """The text of an edit: names, and a projection written tight."""
    line = TOKEN.sub(lambda m: spelled(m[0]) if m[0] in names else m[0], line)
    before = None
    while before != line:
        before = line
        line = re.sub(r"\(([\w']+(?:\.[\w']+)*)((?: \.\w+)+)\)", lambda m: m[1] + m[2].replace(" ", ""), line)
    return re.sub(r"(?<=[\w')]) (\.\w+)(?=[\s)×]|$)", r"\1", line)


def small(match):
    word = match[0]
    if word in WORDS:
        return WORDS[word]
    for begin, now in CAPITALS:
        if word.startswith(begin):
            return now + word[len(begin):]
    return word


def turn_words(paths):
    for path in paths:
        write(path, TOKEN.sub(small, read(path)))


def main():
    names = declared()
    for path in files(".antt", ".rt"):
        text = read(path)
        write(path, turn(text, names - brought_in(text), "--" if path.endswith(".antt") else "//"))
    for path, word, fact in FACTS:
        path = os.path.join("crates", path)
        write(path, re.sub(rf"(?<![\w'.-]){word}(?![\w'-])", fact, read(path)))
    # the kit's script has turned some names too, which the edits still have in the older spelling
    now = set()
    for path in files(".antt", ".rt"):
        now.update(TOKEN.findall(read(path)))
    edits = [p for p in files(".edit")] + [os.path.join("wrong-definitions", n) for n in sorted(os.listdir("wrong-definitions")) if n.endswith(".edit")]
    for path in edits:
        lines = read(path).split("\n")
        for i, line in enumerate(lines):
            if line.startswith(("old: ", "new: ")):
                old = {t for t in TOKEN.findall(line[5:]) if "-" in t and spelled(t) in now}
                lines[i] = line[:5] + turn_edit(line[5:], old)
        write(path, "\n".join(lines))
    turn_words([*files(".antt", ".rt"), *edits])


if __name__ == "__main__":
    main()
