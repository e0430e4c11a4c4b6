#!/usr/bin/env python3
"""Respells the definitions and lemmas of this repository: words in snake case, facts and types in camel case.

usage: tools/respell.py [FOLDER]     FOLDER is a checkout that port.py has just turned; none: this one

A name that specs/ or proofs/ define with a dash, as cell-count or Rows-part, becomes cell_count or RowsPart, wherever it
stands: in specs/, proofs/, the ghost text of src/, and between backticks in comments and pages. Names that the checker makes
(goals, steps) and the functions of src/ keep theirs. It stops where two names would fall together.
"""
import os
import re
import sys

WORD = r"[^\W\d][\w'-]*"
HEAD = re.compile(r"\s*(?:(?:pub|abbrev|unfoldable|record|data|ruleset)\s+)*(" + WORD + r")\s*(?:\(.*\)\s*)?:(?!=)\s*(.*)")
# steps of generated proofs that are spelled as a definition is
STEPS = {"raised-job"}
# FieldsAgree is taken, by the relation that this theorem speaks of
OTHERS = {"Fields-agree": "FinishedFieldsAgree"}


def files(root):
    for top, folders, names in os.walk(os.path.join(root, "crates")):
        folders[:] = sorted(f for f in folders if f != "out")
        yield from (os.path.join(top, n) for n in sorted(names) if n.endswith((".rt", ".antt")))


def pages(root):
    docs = os.path.join(root, "docs")
    yield from (os.path.join(docs, n) for n in sorted(os.listdir(docs)) if n.endswith(".md") and not n.startswith("PORT"))
    yield os.path.join(root, "README.md")


def read(path):
    with open(path, encoding="utf-8") as f:
        return f.read()


def defined(root):
    """Each name with a dash that a file of specs/ or proofs/ defines; the goals that it answers are not among them."""
    names = set()
    for path in files(root):
        if path.endswith(".antt"):
            for line in read(path).split("\n"):
                m = HEAD.match(line)
                if m and "-" in m[1] and not m[2].startswith("goal."):
                    names.add(m[1])
    return names


def respelled(name):
    if name in OTHERS:
        return OTHERS[name]
    if name[0].isupper():
        return "".join(part[0].upper() + part[1:] for part in name.split("-"))
    return name.replace("-", "_")


def fall_together(root, new):
    """The new names that two old ones share, or that some file defines already."""
    shared = [n for n in new.values() if list(new.values()).count(n) > 1]
    taken = set(new.values())
    for path in files(root):
        if path.endswith(".antt"):
            shared += [m[1] for m in map(HEAD.match, read(path).split("\n")) if m and m[1] in taken and not m[2].startswith("goal.")]
    return sorted(set(shared))


def turn(text, new):
    def one(m):
        if m[0] in STEPS and text[: m.start()].endswith("c."):
            return m[0]
        return new.get(m[0], m[0])

    return re.sub(WORD, one, text)


def in_backticks(text, new):
    return re.sub(r"`[^`\n]*`", lambda m: turn(m[0], new), text)


def turned(path, text, new):
    if path.endswith(".md"):
        return in_backticks(text, new)
    mark = "//" if path.endswith(".rt") else "--"
    lines = []
    for line in text.split("\n"):
        code, found, comment = line.partition(mark)
        if path.endswith(".rt") and '"' in code:
            lines.append(line)
        else:
            lines.append(turn(code, new) + found + in_backticks(comment, new))
    return "\n".join(lines)


def main(root):
    new = {n: respelled(n) for n in sorted(defined(root))}
    bad = fall_together(root, new)
    if bad:
        raise SystemExit("fall together: " + ", ".join(bad))
    changed = 0
    for path in [*files(root), *pages(root)]:
        old = read(path)
        text = turned(path, old, new)
        if text != old:
            changed += 1
            with open(path, "w", encoding="utf-8") as f:
                f.write(text)
    print(f"{len(new)} names, {changed} files")


if __name__ == "__main__":
    main(sys.argv[1] if len(sys.argv) > 1 else os.path.join(os.path.dirname(os.path.abspath(__file__)), ".."))
