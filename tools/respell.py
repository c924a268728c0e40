#!/usr/bin/env python3
"""Spells this repository's own definitions and lemmas as the library spells its own: words in snake case, types in camel case.

usage: tools/respell.py    at the top of the repository, once, right after /opt/rattle/port/port.py

respell.tsv beside it has a line for each name: old, new and, where only one crate is meant, that crate.
Labels that the check makes (behind `c.` and `goal.`, and the names of goals) stay; so do names of Rust code, which are in snake case already.
"""

import os
import re
import sys

HERE = os.path.dirname(os.path.realpath(__file__))
NAME = re.compile(r"[^\s(){}.;,@\"«»:=]+")
MADE = re.compile(r"/proofs/.*/(Answers|Invariants|Choices|Proof)\.antt$")


def table():
    everywhere, within = {}, {}
    with open(os.path.join(HERE, "respell.tsv"), encoding="utf-8") as f:
        for line in f:
            old, new, *crate = line.rstrip("\n").split("\t")
            if crate:
                within.setdefault(crate[0], {})[old] = new
            else:
                everywhere[old] = new
    return everywhere, within


def respelled(line, names, path):
    """The line with each name of `names` spelled anew, but for labels that the check makes."""
    made = MADE.search(path)
    if made and re.match(r"use \S+\.(Goals|Given|Lts)\b", line):
        return line
    goal = re.match(r"\s*(?:abbrev )?(?:pub )?(\S+) : goal\.\1\s*$", line)
    if goal:
        return line

    def turn(m):
        word = m[0]
        if word not in names:
            return word
        before = line[: m.start()]
        if made and re.search(r"(?<![^\s(\[,])(c|goal)\.$", before):
            return word
        return names[word]

    return NAME.sub(turn, line)


def turned(text, names, path):
    lines, labels = [], set()
    if MADE.search(path):
        labels = set(re.findall(r"(?m)^(?:abbrev )?(?:pub )?(\S+) : goal\.", text))
    of_comments = {a: b for a, b in names.items() if re.search(r"[a-z0-9][A-Z]|^[A-Z]\w*-\w", a)}
    mark = "--" if path.endswith(".antt") else "//"
    for line in text.split("\n"):
        head = re.match(r"(\S+)\s", line)
        if head and head[1] in labels:
            lines.append(line[: head.end(1)] + respelled(line[head.end(1) :], names, path))
            continue
        code, comment = line, ""
        if path.endswith(".edit"):
            if not line.startswith(("old:", "new:")):
                lines.append(line)
                continue
        else:
            at = re.search(r"(?:^|\s)" + mark + r"(?=\s|$)", line)
            if at:
                code, comment = line[: at.start()], line[at.start() :]
        lines.append(respelled(code, names, path) + re.sub(r"[\w'?-]+", lambda m: of_comments.get(m[0], m[0]), comment))
    return "\n".join(lines)


def main():
    if not os.path.isdir("crates"):
        raise SystemExit("run it at the top of the repository")
    everywhere, within = table()
    count = 0
    for folder, dirs, files in os.walk("crates"):
        dirs[:] = sorted(d for d in dirs if d != "out")
        for name in sorted(files):
            if not name.endswith((".rt", ".antt", ".edit")):
                continue
            path = os.path.join(folder, name)
            names = dict(everywhere)
            names.update(within.get(path.split(os.sep)[1], {}))
            if name.endswith(".rt"):
                # a name in snake case is a function's there
                names = {a: b for a, b in names.items() if re.search(r"[A-Z-]", a)}
            with open(path, encoding="utf-8") as f:
                old = f.read()
            new = turned(old, names, path)
            if new != old:
                with open(path, "w", encoding="utf-8") as f:
                    f.write(new)
                count += 1
    print(f"respell: {count} files")


if __name__ == "__main__":
    sys.exit(main())
