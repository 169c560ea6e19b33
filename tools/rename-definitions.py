#!/usr/bin/env python3
"""Gives this repository's definitions and lemmas the spelling of today's Rattle: each name of the first column of
definition-names.tsv becomes that of the second, in every .rt and .antt file of crates/. Comments keep their prose: there, only
a name between backticks is turned. Functions of the code, strings, inputs and outputs keep theirs. Run it once, at the top."""

import os
import re
import subprocess
import sys

HERE = os.path.dirname(os.path.realpath(__file__))
NAME = re.compile(r"(?<![\w'\-])[A-Za-z_][\w']*(?:-[\w'≡≢ℕ]+)+(?![\w'\-])")
QUOTED = re.compile(r"`[^`\n]*`")


def table():
    with open(os.path.join(HERE, "definition-names.tsv"), encoding="utf-8") as f:
        return dict(line.rstrip("\n").split("\t") for line in f)


def turned(names, text):
    return NAME.sub(lambda m: names.get(m.group(0), m.group(0)), text)


def line_turned(names, line, source):
    """A line: its code, and what stands between backticks in its comment."""
    at = re.search(r"//" if source else r"(?:^|\s)--(?:\s|$)", line)
    code, comment = (line[: at.start()], line[at.start() :]) if at else (line, "")
    return turned(names, code) + QUOTED.sub(lambda m: turned(names, m.group(0)), comment)


def main():
    names = table()
    top = sys.argv[1] if len(sys.argv) > 1 else "."
    for folder, folders, files in os.walk(os.path.join(top, "crates")):
        folders[:] = sorted(x for x in folders if x != "out")
        for file in sorted(files):
            if file.endswith((".rt", ".antt")):
                path = os.path.join(folder, file)
                with open(path, encoding="utf-8") as f:
                    text = f.read()
                new = "\n".join(line_turned(names, line, file.endswith(".rt")) for line in text.split("\n"))
                if new != text:
                    with open(path, "w", encoding="utf-8") as f:
                        f.write(new)
    # The layout depends on how long names are.
    for crate in sorted(os.listdir(os.path.join(top, "crates"))):
        if os.path.isdir(os.path.join(top, "crates", crate, "src")):
            subprocess.run(["rt", "fmt"], cwd=os.path.join(top, "crates", crate), stdout=subprocess.DEVNULL)


main()
