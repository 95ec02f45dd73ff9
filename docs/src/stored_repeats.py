#!/usr/bin/env python3
"""Writes the stored file with repeats, crates/repeats/stdin, to standard output.

    stored_repeats.py > ../../crates/repeats/stdin

tests/stored --make does that, and has the answers written. The same bytes come
out each time. A refused file would show one rule only, so this one runs, and
keeps to every bound as closely as it can: it is as long as a file may be, goes
four levels down, and ends with a closing line that has no LF. Its sections are
about counts, levels, blocks that run no time, blocks with nothing in them, what
only looks like a repeat, and what each chip keeps from one turn of a block to
the next. Lines of sessions.py fill it up. The answers are mostly short, and
many enough to leave the program's buffers several times.
"""

import sys

sys.dont_write_bytecode = True
import sessions  # noqa: E402 (no cache of it is to be left in docs/src)
from repeats import LONGEST_FILE  # noqa: E402
from stored import (AIR, CRTC, FLAGS, IFR, OUT_CLOCK, PORT_B, PRC, RIOT, SR, T1_HIGH, T1_LOW, T2_HIGH, T2_LOW,  # noqa: E402
                    TIMER, TIMER_ON, TPI, VIA, clean_shift, clean_tpi, clean_via, ended, falls, forecast, load_t1, load_t2,
                    load_timer, pen_address, pins, port_c, read, reads, reset, run, screen, told, worked_session, write)

NOTHING = ()
MANY = 0xFFFF


def repeat(count, *block):
    return [f"F0{count:04X}", *block, "F1"]


def nest(counts, *block):
    """One repeat in another, the first count outermost."""
    for count in reversed(counts):
        block = repeat(count, *block)
    return block


def counts():
    """Every digit, in counts of one place up to four. The timer tells the short ones, the number of answers the long ones."""
    yield load_timer(3, 255, True)
    for count in (1, 2, 3, 4, 0x0A, 0x10, 0x1B, 0xC0, 0xFF, 0x100, 0x102, 0x20D):
        yield from (*repeat(count, run(RIOT, 1)), forecast(RIOT))
    for count in (0x0345, 0x0678, 0x019E, 0x1E2F, MANY):
        yield from (*repeat(count, ""), forecast(RIOT))


def levels():
    """Four levels with lines before, between and behind; T1 and T2 tell how many clocks have come so far."""
    for first, second, third, fourth in ((2, 3, 4, 5), (5, 1, 3, 2), (1, 1, 1, 1), (3, 2, 1, 7)):
        yield from (*clean_via(acr=0xC0, enables=0x60), *load_t1(9), *load_t2(700))
        inner = repeat(fourth, run(VIA, 1), read(VIA, T2_LOW))
        inner = repeat(third, run(VIA, 2), *inner, read(VIA, PORT_B), *inner)
        inner = repeat(second, read(VIA, T1_HIGH), *inner, run(VIA, 5), read(VIA, T1_LOW))
        yield from (*repeat(first, *inner, run(VIA, 11), *repeat(2, run(VIA, 3)), forecast(VIA)), *reads(VIA, T1_LOW, T2_HIGH))
    # One behind the other, and one alone on each level.
    yield from (*repeat(2, run(VIA, 1)), *repeat(3, run(VIA, 2)), *repeat(4, run(VIA, 3)), read(VIA, T1_LOW))
    for depth in (1, 2, 3, 4):
        yield from (*nest((2,) * depth, run(VIA, 1)), *nest((1,) * depth, run(VIA, 1)), read(VIA, T2_LOW))


def no_times():
    """A count of 0 on each level, around what would show or be too much if it ran."""
    harm = (reset(VIA), load_timer(0, 0, True), reset(TPI), reset(CRTC))
    yield from (*clean_via(acr=0x40, enables=0x40), *load_t1(40), load_timer(2, 99, True))
    for counts_ in ((0,), (0, 0), (0, 2), (2, 0), (0, MANY, MANY, MANY), (3, 0, MANY, MANY), (3, 2, 0, MANY), (2, 1, 3, 0),
                    (MANY, MANY, MANY, 0), (0, 0, 0, 0)):
        yield from (*nest(counts_, *harm), run(VIA, 1), run(RIOT, 1))
    # Beside lines that do run.
    yield from repeat(3, run(VIA, 1), *repeat(0, *harm, *nest((MANY, MANY), *harm)), run(RIOT, 1), *repeat(2, run(VIA, 2)))
    yield from (*reads(VIA, T1_LOW, T1_HIGH, IFR), read(RIOT, TIMER), forecast(VIA), forecast(RIOT))


def with_nothing():
    """Blocks that write no line, whatever their counts are."""
    yield from (forecast(RIOT), *nest((MANY,) * 4, *NOTHING), forecast(RIOT))
    for count in (0, 1, 2, MANY):
        yield from (*repeat(count), *nest((count, MANY), *NOTHING), run(RIOT, 1))
    for counts_ in ((MANY, MANY, MANY), (0, MANY, 1)):
        inner = repeat(MANY, *NOTHING) + repeat(0, run(RIOT, 1))
        yield from (*nest(counts_, *inner), run(RIOT, 1), *repeat(5, *inner, run(RIOT, 1), *inner), forecast(RIOT))


def no_repeats():
    """Lines that neither open nor close, alone and in a block: too long or short, in lower case, with a CR, and so on."""
    near = [b"F0", b"F00", b"F000", b"F0000", b"F000000", b"F00000000", b"F0 0001", b"F0 001", b"F0001 ", b" F00001",
            b"F00001 ", b"F00001\r", b"F00G00", b"F0000a", b"F0ffff", b"f00001", b"fF0001", b"F0-001", b"F0+001", b"F00x01",
            b"F00_01", b"E00001", b"F20001", b"0F0001", b"F1 ", b" F1", b"F1\r", b"\rF1", b"F1\t", b"F10", b"F100", b"F10001",
            b"f1", b"F", b"1", b"1F", b"E1", b"F2", b"F1F1", b"F00002F1", b"F1\0", b"\0F1", b"F0\0\0\0\x02",
            b"F0\xb0\xb0\xb0\xb2", b"\xc6\xb1", b"F\xb1"]
    # Next to the digits in ASCII, at each place of a count.
    near += [b"F0" + b"1111"[:at] + bytes((odd,)) + b"1111"[at + 1:] for at in range(4) for odd in b"/:@G`g"]
    yield from (*near, forecast(RIOT), *repeat(2, run(RIOT, 1), *near), forecast(RIOT))


def kept_by_timers():
    """Of the 6522: both timers, PB7, and a byte that goes round; of the 6532 the timer at each divider, and the RAM."""
    yield from (*clean_via(acr=0xC0, enables=0x60), *load_t1(17), *load_t2(300))
    yield from repeat(60, run(VIA, 7), read(VIA, IFR), *repeat(3, run(VIA, 2)), read(VIA, PORT_B), read(VIA, T1_LOW))
    yield from (read(VIA, T2_LOW), *clean_shift(OUT_CLOCK), write(VIA, SR, 0xA6))
    yield from (*repeat(40, run(VIA, 3), forecast(VIA), *repeat(2, run(VIA, 1)), read(VIA, IFR)), read(VIA, SR))
    for divider in range(4):
        yield from (load_timer(divider, 9, True), *repeat(30, run(RIOT, 1 << 2 * divider), read(RIOT, FLAGS)), read(RIOT, TIMER_ON))
    yield from repeat(3, *(line for cell in (0, 64, 127) for line in (read(RIOT, cell), write(RIOT, cell, cell + 1))), reset(RIOT))


def kept_by_others():
    """Of the 6525 what is latched and in service, also when no turn ends its service; of the 6545 the place on the screen."""
    yield from (*clean_tpi(), *repeat(4, *falls(2), read(TPI, AIR), *falls(9), *ended()), *repeat(6, read(TPI, AIR), *ended()))
    yield from (*clean_tpi(), *repeat(2, port_c(0xFD)), *repeat(3, read(TPI, AIR), *falls(4), read(TPI, PRC)), *repeat(4, *ended()))
    yield from screen(r0=9, r1=7, r2=8, r3=0x23, r4=5, r5=2, r6=4, r7=5, r9=1, r10=0x60, r11=1, r12=0x01, r13=0xF0, r14=0x01)
    yield from (*repeat(25, run(CRTC, 7), *repeat(3, run(CRTC, 1)), told(13)), *pen_address())
    yield from repeat(5, run(CRTC, 31), *pen_address(), *repeat(2, pins(CRTC, 0), pins(CRTC, 1)))


def filled(room):
    """Lines of sessions.py in repeats of all depths, until there is no room for another repeat. Runs are short, for the
    reference also goes clock by clock."""
    story = (line for line in sessions.session(11, 10_000, 300, sessions.EVERY_CHIP, 3) if len(line) <= 33)

    def some(number):
        return [next(story) for _ in range(number)]

    for turn in range(1_000):
        depth = turn % 5
        block = some(6 + turn % 7)
        for level in range(depth):
            block = [*some(level + turn % 3), *repeat((2, 3, 7, 4, 1, 5)[(turn + level) % 6], *block), *some(turn % 2)]
        room -= size_of(block)
        if room < 0:
            return
        yield from block


SECTIONS = (worked_session, counts, levels, no_times, with_nothing, no_repeats, kept_by_timers, kept_by_others)
LAST = [*repeat(2, run(VIA, 1), forecast(VIA), *repeat(3, run(RIOT, 1), forecast(RIOT)))]


def size_of(lines):
    """In bytes, with an LF behind each."""
    return sum(len(line) + 1 for line in lines)


def main():
    if len(sys.argv) > 1:
        sys.exit(__doc__)
    lines = [line for section in SECTIONS for line in section()]
    lines += filled(LONGEST_FILE - size_of(lines + LAST) - 40)
    # A long line makes up for the bytes that are missing; the file's last line does without its LF.
    lines.append("0" * (LONGEST_FILE - size_of(lines + LAST)))
    sys.stdout.buffer.write(b"\n".join(line if isinstance(line, bytes) else line.encode() for line in lines + LAST))


if __name__ == "__main__":
    main()
