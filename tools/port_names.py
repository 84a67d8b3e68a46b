#!/usr/bin/env python3
"""Brings the repository's own definitions and lemmas to today's spelling, once, right after the kit's port.py.

usage: tools/port_names.py [ROOT]

The rows of port_names.tsv are what it writes. 'new': a definition in camel case, or a dashed name of specs/, in snake case. 'back': a lemma that port.py spelled in
snake case, and whose new spelling a definition takes, goes back to its dashes, so that no two names fall together. Functions of src/, exported names, strings,
comments' dashed words and the folders of proofs/ keep theirs.
"""

import os
import re
import sys

WORD = re.compile(r"[^\s(){}.;,@\"«»\[\]⌜⌝`]+")
HERE = os.path.dirname(os.path.abspath(__file__))


def table():
    rows = {"back": {}, "new": {}}
    with open(os.path.join(HERE, "port_names.tsv"), encoding="utf-8") as f:
        for line in f:
            kind, old, new = line.rstrip("\n").split("\t")
            rows[kind][old] = new
    return rows["back"], rows["new"]


def split(line, mark):
    """The code of a line, and its comment."""
    at = re.search(r"(^|(?<=\s))" + re.escape(mark), line)
    return (line, "") if at is None else (line[: at.start()], line[at.start() :])


def turned(line, path, back, new):
    antt = path.endswith(".antt")
    code, comment = split(line, "--" if antt else "//")
    proof = os.path.basename(path) == "Proof.antt"

    def one(m):
        word, behind = m.group(), code[m.start() - 1 : m.start()] == "."
        if antt and word in back and not (behind and proof):
            path_of_use = re.match(r"\s*(pub )?use ", code) and behind
            return word if path_of_use else back[word]
        return new.get(word, word)

    # In a comment only words in camel case are names for certain.
    camel = {a: b for a, b in new.items() if a != a.lower()}
    return WORD.sub(one, code) + WORD.sub(lambda m: camel.get(m.group(), m.group()), comment)


def main(root):
    back, new = table()
    count = 0
    for folder, dirs, files in os.walk(os.path.join(root, "crates")):
        dirs[:] = sorted(d for d in dirs if d not in ("out", "must-fail"))
        for name in sorted(files):
            if not name.endswith((".antt", ".rt")):
                continue
            path = os.path.join(folder, name)
            with open(path, encoding="utf-8") as f:
                old = f.read()
            text = "\n".join(turned(line, path, back, new) for line in old.split("\n"))
            if text != old:
                count += 1
                with open(path, "w", encoding="utf-8") as f:
                    f.write(text)
    print(f"{count} files")


if __name__ == "__main__":
    main(sys.argv[1] if len(sys.argv) > 1 else os.path.dirname(HERE))
