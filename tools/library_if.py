#!/usr/bin/env python3
"""Takes `if then else` from the library in place of the one of `clocks`, which was the same.

usage: tools/library_if.py [FOLDER]     at the top of a repository (or of FOLDER), once, after tools/respell.py

The library's groups to no side, so what follows an `else` and begins with `if` gets parentheses. The definition of `clocks` goes.
"""

import os
import re
import sys

ROOT = sys.argv[1] if len(sys.argv) > 1 else "."
WORD = "if◌then◌else◌"
OWN = re.compile(r"^((?:ghost )?use Rattle\.clocks\.specs\.Clocks\.\{)([^}]*)(\};?)$", re.M)
PRELUDE = re.compile(r"^((?:ghost )?use Rattle\.std\.(?:specs\.Prelude|proofs\.Common)\.\{)([^}]*)(\};?)$", re.M)
DEFINITION = re.compile(r"-- the first value where the test holds, else the second\ninfixr 5 if◌then◌else◌\n[^\n]*\n[^\n]*\n\n")


def imports(text, ghost):
    """The text with the word from the library."""
    found = OWN.search(text)
    if found is None or WORD not in re.split(r",\s*", found.group(2)):
        return text
    rest = [word for word in re.split(r",\s*", found.group(2)) if word != WORD]
    line = found.group(1) + ", ".join(rest) + found.group(3) + "\n" if rest else ""
    text = text[: found.start()] + line + text[found.end() + 1 :]
    known = PRELUDE.search(text)
    if known:
        return text[: known.end(2)] + ", " + WORD + text[known.end(2) :]
    new = f"{'ghost ' if ghost else ''}use Rattle.std.specs.Prelude.{{{WORD}}}{';' if ghost else ''}\n"
    first = re.search(r"^(?:ghost )?use ", text, re.M)
    return text[: first.start()] + new + text[first.start() :]


def end_of(text, start):
    """Where the expression ends that begins at a place: at a bracket that was open before, a comma, a semicolon, or the declaration's end."""
    depth, at = 0, start
    begin = text.rfind("\n", 0, start) + 1
    while at < len(text):
        c = text[at]
        if c in "([{":
            depth += 1
        elif c in ")]}":
            if depth == 0:
                return at
            depth -= 1
        elif depth == 0:
            if c in ",;":
                return at
            if re.match(r"\n(?=\n|[^\s]|\s*--)", text[at:]) or at == len(text) - 1:
                return at
            stop = re.match(r"\s(?:≡|in|→|×|∙|↦)\s", text[at:])
            if stop:
                return at
        at += 1
    return at


def grouped(text):
    at = 0
    while True:
        found = re.compile(r"\belse(\s+)(?=if\b)").search(text, at)
        if found is None:
            return text
        end = end_of(text, found.end())
        while text[end - 1].isspace():
            end -= 1
        text = text[: found.end()] + "(" + text[found.end() : end] + ")" + text[end:]
        at = found.end()


def main():
    changed = 0
    for folder, dirs, names in os.walk(os.path.join(ROOT, "crates")):
        dirs[:] = sorted(d for d in dirs if d != "out")
        for name in sorted(names):
            if not name.endswith((".antt", ".rt")):
                continue
            path = os.path.join(folder, name)
            with open(path, encoding="utf-8") as file:
                text = file.read()
            ghost = name.endswith(".rt")
            new = DEFINITION.sub("", imports(text, ghost))
            if not ghost:
                new = grouped(new)
            if new != text:
                changed += 1
                with open(path, "w", encoding="utf-8") as file:
                    file.write(new)
    print(f"{changed} files changed")


if __name__ == "__main__":
    main()
