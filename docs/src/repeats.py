#!/usr/bin/env python3
"""Plain reference for the program `repeats`: writes a session out in full.

    repeats.py < FILE

Gives the lines that the bench would have to be given instead, each with an LF,
and ends with 0. Of a refused file it gives the number alone and ends with 1.
"""

import sys

LONGEST_FILE, DEEPEST, MOST_LINES = 32_768, 4, 1_000_000
TOO_LONG, TOO_DEEP, UNMATCHED, TOO_MANY = 26, 27, 28, 29


def lines_of(file):
    """A file's lines without their LFs. If nothing follows the last LF, no line does."""
    lines = file.split(b"\n")
    return lines if lines[-1] else lines[:-1]


def opens(line):
    return len(line) == 6 and line[:2] == b"F0" and all(digit in b"0123456789ABCDEF" for digit in line[2:])


def refusal(file):
    """The first number that applies to a file, or 0."""
    depth = deepest = strays = 0
    for line in lines_of(file):
        if opens(line):
            depth += 1
            deepest = max(deepest, depth)
        elif line == b"F1" and depth > 0:
            depth -= 1
        elif line == b"F1":
            strays += 1
    if len(file) > LONGEST_FILE:
        return TOO_LONG
    if deepest > DEEPEST:
        return TOO_DEEP
    if strays > 0 or depth > 0:
        return UNMATCHED
    return TOO_MANY if length(block_of(file)) > MOST_LINES else 0


def block_of(file):
    """A file, all of it matched, as a block: a list of ordinary lines and of repeats, which are pairs (count, block)."""
    under_way = [(1, [])]
    for line in lines_of(file):
        if opens(line):
            under_way.append((int(line[2:], 16), []))
        else:
            item = under_way.pop() if line == b"F1" else line
            under_way[-1][1].append(item)
    return under_way[0][1]


def length(block):
    """How many lines a block comes to. They are counted and not made, for there may be more than any memory holds."""
    return sum(1 if isinstance(item, bytes) else item[0] * length(item[1]) for item in block)


def written_out(block):
    """The lines that a block comes to. A block that runs no time is left alone: it too may be more than can be made."""
    lines = []
    for item in block:
        if isinstance(item, bytes):
            lines.append(item)
        elif item[0] > 0:
            lines += item[0] * written_out(item[1])
    return lines


if __name__ == "__main__":
    given = sys.stdin.buffer.read()
    number = refusal(given)
    answer = [b"%02X" % number] if number else written_out(block_of(given))
    sys.stdout.buffer.writelines(line + b"\n" for line in answer)
    sys.exit(1 if number else 0)
