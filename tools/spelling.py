#!/usr/bin/env python3
"""Respells the repository's own definitions and lemmas, once, after the kit's own script: the pairs stand in tools/spelling.txt.

In .antt and .rt files every whole name is turned, in comments only where it stands between backquotes; in must-fail edits every whole name;
in the pages only between backquotes. It names each file that had the new name already: look there whether two names fall together."""

import os
import re

ROOT = os.path.realpath(os.path.join(os.path.dirname(__file__), ".."))
NAME = re.compile(r"[^\s(){}\[\].,;\"`|:«»/]+")
QUOTED = re.compile(r"`[^`\n]*`")


def pairs(path):
    with open(path, encoding="utf-8") as f:
        lines = [line.split() for line in f if line.strip() and not line.startswith("#")]
    return {old: new for old, new in lines}


def turned(text, table):
    return NAME.sub(lambda m: table.get(m[0], m[0]), text)


def turned_quotes(text, table):
    return QUOTED.sub(lambda m: turned(m[0], table), text)


def turned_code(text, table, mark):
    out = []
    for line in text.split("\n"):
        at = line.find(mark)
        if at < 0 or line[:at].count('"') % 2:
            out.append(turned(line, table))
        else:
            out.append(turned(line[:at], table) + turned_quotes(line[at:], table))
    return "\n".join(out)


def files():
    for folder, dirs, names in os.walk(ROOT):
        dirs[:] = sorted(d for d in dirs if d not in (".git", "out", "target", "tools"))
        for name in sorted(names):
            yield os.path.join(folder, name)


def main():
    here = pairs(os.path.join(ROOT, "tools", "spelling.txt"))
    pages = pairs(os.path.join(ROOT, "tools", "spelling_of_pages.txt"))
    together = []
    for path in files():
        if not path.endswith((".antt", ".rt", ".edit", ".md")):
            continue
        with open(path, encoding="utf-8") as f:
            text = f.read()
        if path.endswith(".antt"):
            new = turned_code(text, here, "--")
        elif path.endswith(".rt"):
            new = turned_code(text, here, "//")
        elif path.endswith(".edit"):
            new = turned(text, {**pages, **here})
        else:
            new = turned_quotes(text, {**pages, **here})
        had = set(NAME.findall(text))
        if path.endswith((".antt", ".rt")):
            together += [f"{os.path.relpath(path, ROOT)}: {old} -> {here[old]}" for old in sorted(had) if here.get(old) in had]
        if new != text:
            with open(path, "w", encoding="utf-8") as f:
                f.write(new)
    for line in together:
        print("look: " + line)


if __name__ == "__main__":
    main()
