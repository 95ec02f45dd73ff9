#!/usr/bin/env python3
"""Respells the names of definitions, fields, constructors and lemmas: words in snake case, types in camel case.

usage: tools/respell.py [FOLDER]     at the top of a repository (or of FOLDER), once, right after the kit's port.py

A name that begins with a small letter loses its dashes and capitals for underscores: `soonerOf` is `sooner_of`, `by-less` is
`by_less`. One that begins with a capital is a type and loses its dashes: `Cut-lines` is `CutLines`. Names of functions of src/ are
in snake case already, and stay; so do names that the prover makes. A lemma whose name would fall together with another gets `_lem`
behind it; it says where a name is there already, as a function's may be.
"""

import os
import re
import sys

ROOT = next((word for word in sys.argv[1:] if not word.startswith("-")), ".")
# constructors that begin with the name of a timer
CONSTRUCTORS = {
    "T1-flags-at": "t1_flags_at",
    "T1-reloads": "t1_reloads",
    "T1-reloads◌forecast◌": "t1_reloads◌forecast◌",
    "T2-wraps-unflagged-at": "t2_wraps_unflagged_at",
}
DECLARED = re.compile(r"^\s*(?:(?:abbrev|unfoldable)\s+)?(?:pub\s+)?(?:(?:record|data|ruleset|module)\s+)?([^\s(){}:;.,=]+)(?:\s[^=]*)?\s:(?:\s|$)")
RULESET = re.compile(r"^\s*(?:pub\s+)?ruleset\s+([^\s(){}:;.,=]+)")
COMMENT = re.compile(r"(?:^|\s)(?:--|//)(?:\s|$)")
TOKEN = re.compile(r"[\w'◌-]+")


def files(kinds):
    for folder, dirs, names in os.walk(os.path.join(ROOT, "crates")):
        dirs[:] = sorted(d for d in dirs if d != "out")
        for name in sorted(names):
            if name.endswith(kinds):
                yield os.path.join(folder, name)


def read(path):
    with open(path, encoding="utf-8") as file:
        return file.read()


def respelled(name):
    if name in CONSTRUCTORS:
        return CONSTRUCTORS[name]
    if name[0].isupper():
        return "".join(part[0].upper() + part[1:] for part in name.split("-") if part)
    name = re.sub(r"(?<=[a-z0-9])(?=[A-Z])", "_", name)
    return name.replace("-", "_").lower()


def declared():
    """The names that files of specs/ and lemma files declare, with whether one is a lemma's alone."""
    found = dict.fromkeys(CONSTRUCTORS, False)
    for path in files(".antt"):
        own = os.path.basename(os.path.dirname(path)) in ("specs", "proofs")
        for line in read(path).split("\n"):
            if line.lstrip().startswith(("--", "use ", "let ", "infix")) or "tie.Need-" in line or "goal." in line:
                continue
            match = DECLARED.match(line) or RULESET.match(line)
            if match is None:
                continue
            name = match.group(1)
            if not own and re.search(r"[-_]spec$", name):
                continue
            if re.search(r"[a-z0-9][A-Z]|-", name) and re.match(r"[A-Za-z]", name):
                lemma = os.path.basename(os.path.dirname(path)) != "specs"
                found[name] = found.get(name, True) and lemma
    return found


def turned_line(line, names):
    """A line with the new names; of a comment, only what stands between backticks."""
    def turn(text):
        return TOKEN.sub(lambda m: names.get(m.group(0), m.group(0)), text)

    start = COMMENT.search(line)
    cut = start.start() if start else len(line)
    return turn(line[:cut]) + re.sub(r"`[^`]*`", lambda m: turn(m.group(0)), line[cut:])


def main():
    kinds = declared()
    names = {name: respelled(name) for name in kinds}
    names = {old: new for old, new in names.items() if old != new}
    texts = {path: read(path) for path in files((".antt", ".rt", ".edit"))}
    used = {}
    for path, text in texts.items():
        for token in TOKEN.findall(text):
            used.setdefault(token, set()).add(path)
    taken = set(used) | {new for old, new in names.items() if not kinds[old]}
    names = {old: new + "_lem" if kinds[old] and new in taken else new for old, new in names.items()}
    together = {}
    for old, new in names.items():
        together.setdefault(new, set()).add(old)
    bad = [(new, olds) for new, olds in sorted(together.items()) if len(olds) > 1]
    taken = [(new, sorted(olds), sorted(used[new])[:3]) for new, olds in sorted(together.items()) if new in used]
    for new, olds in bad:
        print(f"fall together: {', '.join(sorted(olds))} -> {new}")
    for new, olds, where in taken:
        print(f"there already: {', '.join(olds)} -> {new}, in {', '.join(os.path.relpath(p, ROOT) for p in where)}")
    if "--dry" in sys.argv:
        return
    for path, text in texts.items():
        turned = "\n".join(turned_line(line, names) for line in text.split("\n"))
        if turned != text:
            with open(path, "w", encoding="utf-8") as file:
                file.write(turned)
    print(f"{len(names)} names respelled")


if __name__ == "__main__":
    main()
