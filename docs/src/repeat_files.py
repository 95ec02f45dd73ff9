#!/usr/bin/env python3
"""Seeded files with repeats, for the program `repeats`.

    repeat_files.py SEED NUMBER

Writes file NUMBER, from 0 on, of a seed to standard output. The same arguments
always give the same bytes. What kind of file it is goes by its number, and a
round of kinds has some of all: files that run, near each bound on both sides,
and such as are refused for one reason or for several. Ordinary lines are those
of sessions.py, so that the chips are led somewhere by each turn of a block.

Most files come to a few thousand lines. One kind comes to a million or nearly,
by counts that differ each time.
"""

import random
import sys

sys.dont_write_bytecode = True
import sessions  # noqa: E402 (no cache of it is to be left in docs/src)
from repeats import DEEPEST, LONGEST_FILE, MOST_LINES, length, opens  # noqa: E402

FEW = 3_000  # lines that most files come to at most
NO_BOUND = 1 << 80
MOST = 0xFFFF
CLOSING = b"F1"
DIGITS = b"0123456789ABCDEF"
# Next to the digits in ASCII, lower-case ones, and bytes that no line should have.
NO_DIGITS = b"/:@G`afg \t\r\0\x7f\xb0\xff"
NEARLY = (b"F0", b"F00", b"F0000", b"F0 0001", b"F00G00", b"F0000a", b"F0ffff", b"F10", b"F1 ", b" F1", b"F1\r", b"F1\0",
          b"F00002\r", b"F10000", b"F20001", b"E00001", b"F2", b"E1", b"1F", b"F1F1", b"F00002F1", b"F\xb1", b"F00:00", b"F0/000")
# What sets a chip up, and lines that then answer otherwise each time, for what they did before is still there.
CARRIED = (
    # Both timers of the 6522, with PB7; then a byte that goes round.
    ("22020BC0 22020EE0 22020407 22020500 22020830 22020900", "220500000003 220300 22030D 220304 2206 220308 220305"),
    ("22020B18 22020E84 22020AA5", "220500000003 22030D 2206 22020D04 22030A"),
    ("22020B0C 22020E84", "2204FFFF03 2204FFFF0F 2204FFFF0B 22030D 2206"),
    # The 6532's timer and a byte of its RAM.
    ("32029D34 32020511", "320500000011 320385 3206 32038C 320305 32020522 320307 32020733"),
    # The 6525: inputs that fall and rise, one in the service of another.
    ("2502051F 25020603", "2504FFFFFD 250307 2504FFFFFC 25020700 2504FFFFFF 250302 2504FFFFF7"),
    # A screen of 20 clocks a frame, and the pen.
    ("45020000 45020103 45020001 45020102 45020004 45020101 45020005 45020101 45020009 45020101 45020006 45020102 4501",
     "450500000007 450300 45070000000B 450400 450401 45020011 450301"),
)


def flat(block):
    """A block's lines as they are in a file."""
    for item in block:
        if isinstance(item, bytes):
            yield item
        else:
            yield opening(item[0])
            yield from flat(item[1])
            yield CLOSING


def opening(count):
    return b"F0%04X" % count


def depth(block):
    return max((1 + depth(item[1]) for item in block if not isinstance(item, bytes)), default=0)


def bytes_of(lines):
    """How many bytes these lines take, each with an LF."""
    return sum(len(line) + 1 for line in lines)


class Maker:
    """Makes one file. A block is what it is in repeats.py: a list of lines and of pairs of a count and a block."""

    def __init__(self, rng):
        self.rng = rng
        every = sessions.EVERY_CHIP
        self.story = sessions.session(
            rng.randrange(1 << 32), NO_BOUND, rng.choice((3, 300, 70_000, sessions.HIGHEST_COUNT)),
            rng.choice((every, every, every, *((chip,) for chip in every))), rng.choice((0, 4, 20)))

    def chance(self, percent):
        return self.rng.random() * 100 < percent

    # Lines.

    def line(self, longest=400):
        pick = self.rng.random()
        if pick < 0.05:
            return self.near_miss()
        if pick < 0.09:
            return b""
        return next(line for line in self.story if len(line) <= longest)

    def lines(self, *counts):
        """As many lines as one of these numbers says."""
        return [self.line() for _ in range(self.rng.choice(counts))]

    def frame(self):
        return next(line for line in self.story if len(line) <= 12)

    def near_miss(self):
        """A line that is no more than nearly one that opens or closes."""
        rng = self.rng
        good = rng.choice((CLOSING, opening(2), opening(rng.randrange(1 << 16))))
        at = rng.randrange(len(good))
        odd, digit, high = (bytes((one,)) for one in (rng.choice(NO_DIGITS), rng.choice(DIGITS), good[at] + 128))
        return rng.choice((*NEARLY, good.lower(), good + odd, odd + good, good + digit, good[:at] + good[at + 1:],
                           *(good[:at] + one + good[at + 1:] for one in (high, odd, odd, odd))))

    def text(self, lines):
        return b"\n".join(lines) + (b"" if self.chance(30) else b"\n")

    # Blocks, with a bound for the lines that they come to.

    def block(self, levels, most, sizes=(0, 1, 1, 2, 3, 4)):
        block = []
        for _ in range(self.rng.choice(sizes)):
            left = most - length(block)
            if levels > 0 and self.chance(55):
                block.append(self.repeat(self.block(levels - 1, left), left))
            elif levels > 0 and self.chance(12):
                block.append((0, self.block(levels - 1, NO_BOUND)))
            else:
                block += self.lines(1, 1, 2, 3, 8, 20)[:left]
        return block

    def repeat(self, block, most):
        rng, size = self.rng, length(block)
        fits = min(most // size, MOST) if size else MOST
        return min(fits, rng.choice((0, 1, 1, 2, 2, 3, rng.randrange(4, 20), rng.randrange(1 << 16), MOST))), block

    def hollow(self, levels):
        """Repeats that write nothing, whatever their counts."""
        if levels == 0:
            return []
        return [(self.rng.choice((0, 1, 2, MOST, MOST)), self.hollow(self.rng.randrange(levels)))
                for _ in range(self.rng.choice((1, 1, 2, 3)))]

    def exact(self, total, levels):
        """A block that comes to just so many lines."""
        rng = self.rng
        if total <= 12 or levels == 0:
            return [self.frame() for _ in range(total)]
        # In the innermost block there is room for some dozen lines only.
        least = -(-total // (24 * MOST ** (levels - 1)))
        count = min(MOST, total, max(least, rng.choice((1, 2, 3, 7, 10, 37, 100, 1_000, 0x1000, MOST, rng.randrange(1, 1 << 16)))))
        rest = total - count * (total // count)
        before = rng.choice((0, rest, rng.randrange(rest + 1)))
        return self.exact(before, levels) + [(count, self.exact(total // count, levels - 1))] + self.exact(rest - before, levels)

    # What makes a file be refused, put to its lines somewhere.

    def put(self, lines, more):
        at = self.rng.choice((0, len(lines), self.rng.randrange(len(lines) + 1)))
        return lines[:at] + more + lines[at:]

    def too_long(self, lines):
        return self.put(lines, self.filling(LONGEST_FILE + self.rng.choice((2, 2, 9_000)) - bytes_of(lines)))

    def too_deep(self, lines):
        levels = DEEPEST + self.rng.choice((1, 1, 2))
        counts = self.rng.choice(((0,), (1,), (2, MOST), (0, 1, MOST)))
        return self.put(lines, [opening(self.rng.choice(counts)) for _ in range(levels)] + self.lines(0, 1) + levels * [CLOSING])

    def unmatched(self, lines):
        rng, left_open = self.rng, [opening(self.rng.choice((0, 1, 2, MOST)))]
        if self.chance(15):
            return [CLOSING] + lines + left_open  # as many of one as of the other
        ends = [at for at, line in enumerate(lines) if line == CLOSING or opens(line)]
        if ends and self.chance(30):
            del lines[rng.choice(ends)]
            return lines
        return self.put(lines, rng.choice(([CLOSING], 3 * [CLOSING], left_open)))

    def too_many(self, lines):
        # Two of these are 2^32 and 2^64 lines.
        counts, inner = self.rng.choice((((1_001, 1_000), 1), ((MOST,), 16), ((MOST, 2), 8), ((MOST,) * 4, 1),
                                         ((0x8000, 0x8000, 4), 1), ((0x8000,) * 4, 16)))
        block = [self.frame() for _ in range(inner)]
        for count in counts:
            block = [(count, block)]
        return self.put(lines, list(flat(block)))

    def filling(self, size):
        """Ordinary lines that take so many bytes with their LFs, of which there have to be some."""
        lines = []
        while size > 80:
            lines.append(self.line(longest=40))
            size -= len(lines[-1]) + 1
        return lines + [b"0" * (size - 1)]

    # The kinds of files.

    def nested(self):
        return self.text(flat(self.block(DEEPEST, FEW, (1, 2, 3, 5))))

    def straight(self):
        """One repeat in another, with lines before and behind each, or none."""
        block = self.lines(0, 1, 2, 5)
        for _ in range(self.rng.choice((1, 2, 3, 4, 4, 4))):
            block = self.lines(0, 1, 3) + [self.repeat(block, FEW)] + self.lines(0, 1, 3)
        return self.text(flat(block))

    def without(self):
        """No line that opens or closes."""
        lines = self.lines(0, 1, 3, 200, 2_500)
        while bytes_of(lines) > LONGEST_FILE:
            lines.pop()
        return self.text(lines)

    def carried(self):
        block = []
        for setting, showing in self.rng.sample(CARRIED, self.rng.choice((1, 2, 3))):
            block += setting.encode().split()
            inner = showing.encode().split() + self.lines(0, 0, 1)
            self.rng.shuffle(inner)
            for _ in range(self.rng.choice((1, 1, 2, 4))):
                inner = [(self.rng.choice((2, 3, 5, 60)) if length(inner) < 200 else 2, inner)] + inner[:1]
            block += inner
        return self.text(flat(block))

    def writing_nothing(self):
        """Nothing to write at all, or only beside what writes nothing."""
        block = [(self.rng.choice((1, 2, MOST)), self.hollow(3)) for _ in range(self.rng.choice((1, 2, 20)))]
        if self.chance(60):
            block = [(self.rng.choice((1, 2, 40)), self.lines(1, 2) + block[0][1])] + self.lines(0, 1) + block
        return self.text(flat(block))

    def no_times(self):
        """A count of 0 around what would be refused if it ran, at any level."""
        inner = [(MOST, self.lines(1, 30))]
        for _ in range(self.rng.randrange(3)):
            inner = self.lines(0, 1) + [(self.rng.choice((0, 1, 2, MOST)), inner)] + self.lines(0, 1)
        block = [(0, inner)]
        while depth(block) < DEEPEST and self.chance(60):
            block = self.lines(0, 1) + [(self.rng.choice((1, 2, 3)), block)] + self.lines(0, 1)
        return self.text(flat(self.lines(0, 1) + block + self.block(2, 200)))

    def small(self):
        """A dozen lines at most, of a few that matter."""
        rng, lines, under_way = self.rng, [], 0
        for _ in range(rng.randrange(13)):
            line = rng.choice((opening(0), opening(1), opening(2), opening(3), CLOSING, CLOSING, CLOSING, CLOSING, b"", b"2206",
                               b"220500000001", b"22020500", rng.choice(NEARLY), b"F0FFFF" if self.chance(20) else b"F1F1"))
            if line == CLOSING and under_way == 0 and self.chance(80):
                continue
            under_way = max(0, under_way + opens(line) - (line == CLOSING))
            lines.append(line)
        return self.text(lines + (under_way * [CLOSING] if self.chance(70) else []))

    def refused(self):
        """For one reason or for several, each somewhere in the file."""
        lines = list(flat(self.block(self.rng.choice((0, 1, 2, 3)), FEW)))
        for reason in self.rng.sample((self.too_many, self.too_deep, self.unmatched), self.rng.choice((1, 1, 1, 2, 2, 3))):
            lines = reason(lines)
        return self.text(self.too_long(lines) if self.chance(20) else lines)

    def sized(self):
        """A file as long as may be, or longer, with its last LF and without."""
        over = self.rng.choice((0, 0, 0, 1, 1, 1, self.rng.choice((-1, 2, LONGEST_FILE, LONGEST_FILE + 1, 70_000))))
        size = LONGEST_FILE + over
        kind = self.rng.randrange(16)
        if kind < 4:
            one = (b"\n", b"0", b"F00002\nF1\n", b"F1\n")[kind]
            return (one * size)[:size]
        ended = self.rng.choice((0, 1))
        block = self.block(DEEPEST, FEW)
        filling = self.filling(size - bytes_of(flat(block)) + 1 - ended)
        at = self.rng.randrange(len(block) + 1)
        return b"\n".join(flat(block[:at] + filling + block[at:])) + ended * b"\n"

    def last(self):
        """What stands last, and mostly without an LF."""
        block = self.block(2, FEW)
        end = self.rng.choice(([CLOSING], [self.line()], [self.near_miss()], [b""], [opening(2)], [opening(0), CLOSING],
                               [opening(2), self.line(), CLOSING], [opening(3), b"", CLOSING],
                               [opening(2), opening(2), b"2206", CLOSING, CLOSING]))
        return b"\n".join([*flat(block), *end]) + (b"\n" if self.chance(25) else b"")

    def million(self):
        total = MOST_LINES + self.rng.choice((-1, 0, 1))
        return self.text(flat(self.exact(total, self.rng.choice((1, 2, 2, 3, 4, 4)))))

    def far_beyond(self):
        return self.text(self.too_many(self.lines(0, 1, 30)))


KINDS = ("nested", "refused", "carried", "sized", "small", "refused", "straight", "last", "refused", "no_times", "carried",
         "refused", "small", "nested", "writing_nothing", "refused", "sized", "straight", "refused", "million", "last",
         "far_beyond", "carried", "without", "small")


def made(seed, number):
    """The kind of a file, and the file."""
    kind = KINDS[number % len(KINDS)]
    return kind, getattr(Maker(random.Random(f"{seed} {number}")), kind)()


def main():
    given = sys.argv[1:]
    if len(given) != 2 or not all(text.isascii() and text.isdigit() for text in given):
        sys.exit(__doc__)
    sys.stdout.buffer.write(made(*(int(text) for text in given))[1])


if __name__ == "__main__":
    main()
