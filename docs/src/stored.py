#!/usr/bin/env python3
"""Writes the stored session, crates/bench/stdin, to standard output.

    stored.py > ../../crates/bench/stdin

tests/stored --make does that, and has the reference write the answers. The
same bytes come out each time. The session begins with document 01's worked
one and goes on rule by rule: every kind of frame, every refusal with each of
its causes, what is easy to get wrong, the twelve marked cases, lines that are
no frame, each register of each chip, serial shifting, what each read cleared,
the 6525's inputs, latch and services, a screen's turns and long runs, forecasts
across runs, the longest runs. After a call that changes something come calls
that show it, for a bench that gets the rule wrong has to answer one of them
differently. The last 30,000 lines are made by sessions.py; they reach other
states, and make the session ten times as long as the program's buffer, so that
a program that stops reading is found.

The longest runs are few: the reference also answers this session one clock at
a time, and each such run of the 6522 or the 6545 takes it some ten seconds.
"""

import sys

sys.dont_write_bytecode = True
import sessions  # noqa: E402 (no cache of it is to be left in docs/src)

VIA, TPI, RIOT, CRTC = 0x22, 0x25, 0x32, 0x45
LONGEST = 0xFFFFFFFF
# The longest run of the 6545 that tells its turns.
LONGEST_TOLD = 4_294_967_290


# ------------------------------------------------------------------- frames

def frame(*data):
    return bytes(data).hex().upper()


def reset(chip):
    return frame(chip, 1)


def write(chip, address, value):
    return frame(chip, 2, address, value)


def read(chip, address):
    return frame(chip, 3, address)


def pins(chip, *levels):
    return frame(chip, 4, *levels)


def run(chip, clocks):
    return frame(chip, 5, *clocks.to_bytes(4, "big"))


def forecast(chip):
    return frame(chip, 6)


def told(clocks):
    """A run of the 6545 that tells its turns."""
    return frame(CRTC, 7, *clocks.to_bytes(4, "big"))


def reads(chip, *addresses):
    return [read(chip, address) for address in addresses]


# The 6522's registers by document 01's names.
PORT_B, PORT_A, DDRB, DDRA, T1_LOW, T1_HIGH, LATCH_LOW, LATCH_HIGH = range(8)
T2_LOW, T2_HIGH, SR, ACR, PCR, IFR, IER, PORT_A_QUIET = range(8, 16)


def load_t1(value):
    return [write(VIA, T1_LOW, value & 255), write(VIA, T1_HIGH, value >> 8)]


def load_t2(value):
    return [write(VIA, T2_LOW, value & 255), write(VIA, T2_HIGH, value >> 8)]


def look_via():
    """Everything that can be seen of the 6522 without touching a flag or a byte on its way; then SR, whose read does."""
    yield from reads(VIA, DDRB, DDRA, T1_HIGH, LATCH_LOW, LATCH_HIGH, T2_HIGH, ACR, PCR, IFR, IER, PORT_A_QUIET)
    yield from (forecast(VIA), read(VIA, SR))


def clean_via(acr=0, pcr=0, enables=0x7F):
    """The 6522 after a reset with all outside levels high, no flag set, and these modes."""
    yield reset(VIA)
    yield pins(VIA, 0xFF, 0xFF, 0x0F)
    yield write(VIA, ACR, acr)
    yield write(VIA, PCR, pcr)
    yield write(VIA, IFR, 0x7F)
    yield write(VIA, IER, 0x80 | enables)


# The shift modes that ACR's bits 4..2 may name: a byte goes in or out, by the clock or by pulses on CB1.
OFF, IN_CLOCK, IN_PULSE, OUT_CLOCK, OUT_PULSE = 0, 2, 3, 6, 7
BY_CLOCK, BY_PULSE = (IN_CLOCK, OUT_CLOCK), (IN_PULSE, OUT_PULSE)


def shifting(mode, others=0):
    """ACR written with this shift mode, and its other bits beside it."""
    return write(VIA, ACR, others | mode << 2)


def clean_shift(mode, others=0, pcr=0, enables=0x04):
    """A clean 6522 in this shift mode, with SR's flag alone enabled unless said otherwise."""
    return clean_via(others | mode << 2, pcr, enables)


def serial(cb1, cb2):
    """Pins with CB1 and CB2 at these levels, and everything else high."""
    return pins(VIA, 0xFF, 0xFF, 0x03 | cb1 << 2 | cb2 << 3)


def pulses(*levels):
    """CB1 down and up for each level. CB2 has the level only from the call in which CB1 rises."""
    for level in levels:
        yield from (serial(0, 1 - level), serial(1, level))


# The 6525's registers, and bits of its CR: interrupt mode, priority, rising edges of I3 and of I4. All five inputs.
PRA, PRB, PRC, DIR_A, DIR_B, MASK, CR, AIR = range(8)
MODE, PRIORITY, RISING_3, RISING_4 = 0x01, 0x02, 0x04, 0x08
INPUTS = 0x1F


def clean_tpi(cr=MODE | PRIORITY, mask=INPUTS):
    """The 6525 after a reset with all outside levels high, nothing latched or in service, and these modes."""
    yield from (reset(TPI), pins(TPI, 0xFF, 0xFF, 0xFF), write(TPI, MASK, mask), write(TPI, CR, cr))


def port_c(levels):
    """Pins with port C at these levels, and everything else high."""
    return pins(TPI, 0xFF, 0xFF, levels)


def falls(*inputs):
    """One input after the other down and up again, several together where they are given as a sum."""
    for each in inputs:
        yield from (port_c(0xFF & ~each), port_c(0xFF))


def ended():
    """AIR written, which ends a service, and the interrupt pin after it."""
    return [write(TPI, AIR, 0), read(TPI, PRC)]


def look_tpi():
    """Everything that can be seen of the 6525 without touching an input."""
    return reads(TPI, PRA, PRB, PRC, DIR_A, DIR_B, MASK, CR)


# The 6532's I/O addresses.
TIMER, TIMER_ON, FLAGS = 0x84, 0x8C, 0x85


def load_timer(divider, value, enabled):
    """Divider by its number: 0 for 1, 1 for 8, 2 for 64, 3 for 1,024."""
    return write(RIOT, 0x94 | divider | (8 if enabled else 0), value)


def set_crtc(register, value):
    return [write(CRTC, 0, register), write(CRTC, 1, value)]


def read_crtc(*registers):
    for register in registers:
        yield write(CRTC, 0, register)
        yield read(CRTC, 1)


def screen(**settings):
    """All of the 6545's timing registers, 0 where nothing is said, then a reset."""
    for register in range(16):
        yield from set_crtc(register, settings.get(f"r{register}", 0))
    yield reset(CRTC)


def pen_address():
    """Raises the pen and reads where the next clock found MA."""
    yield pins(CRTC, 0)
    yield pins(CRTC, 1)
    yield run(CRTC, 1)
    yield read(CRTC, 0)
    yield from read_crtc(16, 17)
    yield read(CRTC, 0)


def clocks(chip, count, *shown):
    """Single clocks, each with what is shown after it."""
    for _ in range(count):
        yield run(chip, 1)
        yield from shown


# ----------------------------------------------------------- the first lines

def worked_session():
    yield from ("22020EC0 22020403 22020500 2206 220500000003 220500000001 220304 2206 220310").split()


def as_they_come():
    """What power-up left of each chip."""
    yield from look_via()
    yield from reads(VIA, T1_LOW, T2_LOW, PORT_B, PORT_A)
    # T2's low latch, and the 6545's address register, to which nothing has been written yet.
    yield from (write(VIA, T2_HIGH, 0), *reads(VIA, T2_LOW, T2_HIGH))
    yield from (write(CRTC, 1, 3), *clocks(CRTC, 6), write(CRTC, 1, 0), reset(CRTC))
    yield from reads(RIOT, 0x80, 0x81, 0x82, 0x83, FLAGS, 0, 64, 127)
    yield forecast(RIOT)
    yield from (read(RIOT, TIMER_ON), forecast(RIOT), run(RIOT, 1), read(RIOT, TIMER_ON), forecast(RIOT))
    yield from (read(CRTC, 0), read(CRTC, 1))
    yield from read_crtc(*range(32))
    yield from clocks(CRTC, 3, read(CRTC, 0))
    # Of the 6525 also the output bytes, and that nothing is latched or in service: the lowest input interrupts.
    yield from reads(TPI, *range(8))
    yield from (*(write(TPI, direction, 0xFF) for direction in (DIR_A, DIR_B, MASK)), *reads(TPI, PRA, PRB, PRC))
    yield from (write(TPI, CR, MODE | PRIORITY), *reads(TPI, PRC, AIR), port_c(0xFE), *reads(TPI, PRC, AIR, PRC))


def every_frame():
    for chip, levels in ((VIA, (0x5A, 0xC3, 0x0A)), (TPI, (0x3C, 0xA5, 0x99)), (RIOT, (0x3C, 0xA5)), (CRTC, (1,))):
        yield from (write(chip, 1, 0x0F), read(chip, 1), pins(chip, *levels), read(chip, 0), run(chip, 0),
                    run(chip, 1), run(chip, 200), forecast(chip), reset(chip), read(chip, 1), read(chip, 0))
    yield from (told(0), told(1), told(200))


def resets():
    """What a reset takes away and what it leaves, with as much as possible set before it: SR is in the middle of a byte."""
    yield from clean_via(acr=0xC3 | OUT_CLOCK << 2, pcr=0xFF)
    yield from (write(VIA, SR, 0x5A), *load_t1(5), *load_t2(9), run(VIA, 6), pins(VIA, 0x3C, 0xC3, 0))
    for port, direction in ((PORT_A, DDRA), (PORT_B, DDRB)):
        yield from (write(VIA, port, 0xFF), write(VIA, direction, 0xFF))
    yield from (reset(VIA), *look_via(), *reads(VIA, PORT_B, PORT_A))
    yield from (write(VIA, DDRA, 0xFF), write(VIA, DDRB, 0xFF), *reads(VIA, PORT_B, PORT_A), write(VIA, ACR, 0x80),
                read(VIA, PORT_B), write(VIA, IER, 0xFF), forecast(VIA), pins(VIA, 0x3C, 0xC3, 0), read(VIA, IFR),
                run(VIA, 0x20000), *reads(VIA, IFR, PORT_B))
    yield from (pins(RIOT, 0x7F, 0x55), write(RIOT, 0x87, 0), pins(RIOT, 0xFF, 0xAA), load_timer(1, 0, True), run(RIOT, 2))
    yield from (write(RIOT, 0x80 | register, 0xFF) for register in range(4))
    yield from (reset(RIOT), forecast(RIOT), *reads(RIOT, 0x80, 0x81, 0x82, 0x83, FLAGS))
    yield from (write(RIOT, 0x81, 0xFF), write(RIOT, 0x83, 0xFF), *reads(RIOT, 0x80, 0x82), pins(RIOT, 0x7F, 0xAA),
                forecast(RIOT), read(RIOT, FLAGS), pins(RIOT, 0xFF, 0xAA), read(RIOT, FLAGS), read(RIOT, TIMER_ON))
    # The 6525 with I3 in service and all inputs latched, some of them low: its levels stay, and make no edge.
    yield from (*clean_tpi(cr=0), *(write(TPI, register, 0xFF) for register in (PRA, PRB, PRC, DIR_A, DIR_B, MASK)),
                write(TPI, CR, 0xF3), *falls(8), read(TPI, AIR), port_c(0xE0), pins(TPI, 0x12, 0x34, 0x55), read(TPI, PRC))
    yield from (reset(TPI), *look_tpi(), write(TPI, MASK, INPUTS), write(TPI, CR, MODE | PRIORITY), *reads(TPI, PRC, AIR),
                pins(TPI, 0x12, 0x34, 0x55), read(TPI, AIR), pins(TPI, 0x12, 0x34, 0x54), *reads(TPI, AIR, PRC), reset(TPI),
                *(write(TPI, direction, 0xFF) for direction in (DIR_A, DIR_B, MASK)), *reads(TPI, PRA, PRB, PRC))
    # With the mode off as well.
    yield from (*clean_tpi(), *falls(5), read(TPI, AIR), write(TPI, CR, 0), reset(TPI), write(TPI, MASK, INPUTS),
                write(TPI, CR, MODE), read(TPI, AIR), *falls(1))
    yield from screen(r0=3, r1=4, r2=1, r3=0x2F, r4=1, r5=2, r6=2, r7=0, r8=0x30, r9=1, r11=31, r12=0x12, r13=0x34)
    yield from (run(CRTC, 18), *pen_address(), pins(CRTC, 0), pins(CRTC, 1), run(CRTC, 1), pins(CRTC, 0), pins(CRTC, 1),
                *set_crtc(13, 0x40), reset(CRTC), read(CRTC, 0), run(CRTC, 1), read(CRTC, 0), *read_crtc(16, 17),
                run(CRTC, 1), *pen_address())


# ----------------------------------------------------------------- refusals

def no_frames():
    """Refusal 2: every chip and call with every number of operands (the right one too)."""
    for chip in (VIA, TPI, RIOT, CRTC):
        for call in (0, 1, 2, 3, 4, 5, 6, 7, 8, 0x10, 0x81, 0xFF):
            for operands in range(8):
                yield frame(chip, call, *(0, 0, 0, 1, 1, 1, 1)[:operands])
        yield frame(chip)
    yield from (frame(TPI, 0x0F, *(0, 0, 0, 1)[:operands]) for operands in range(5))
    for chip in (0x00, 0x02, 0x20, 0x21, 0x23, 0x24, 0x26, 0x30, 0x31, 0x33, 0x35, 0x44, 0x46, 0x54, 0xA2, 0xFF):
        yield from (frame(chip, 1), frame(chip, 3, 1), frame(chip, 6), run(chip, 1), frame(chip, 7, 0, 0, 0, 1))


def no_such_register():
    """Refusal 3, which comes before 4; nothing is changed by it."""
    yield from clean_via()
    for register in (16, 17, 27, 28, 31, 32, 64, 128, 240, 255):
        yield from (write(VIA, register, 0xFF), read(VIA, register))
    yield from look_via()
    # I1 is in service, and I3 and I0 are latched.
    yield from (*clean_tpi(), *falls(2), read(TPI, AIR), *falls(9))
    for register in (8, 9, 15, 16, 32, 128, 255):
        yield from (write(TPI, register, 0xFF), read(TPI, register))
    yield from (*look_tpi(), *reads(TPI, AIR, AIR))
    for register in (8, 255):
        yield from (write(TPI, register, 0), *reads(TPI, register, PRC))
    yield from (*ended(), *ended(), *ended())
    yield write(CRTC, 0, 8)
    for address in (2, 3, 4, 8, 31, 32, 128, 255):
        yield from (write(CRTC, address, 0xFF), read(CRTC, address))
    yield from (read(CRTC, 1), read(CRTC, 0))


def forms_left_out():
    """Refusal 4: ACR's shift modes 1, 4 and 5, PCR's codes 4 and 5, R8's other bits; the old value stays."""
    yield from clean_via()
    for shift in range(8):
        for others in (0x00, 0xE3):
            yield from (write(VIA, ACR, others | shift << 2), read(VIA, ACR))
    for cb2 in range(8):
        for ca2 in range(8):
            yield from (write(VIA, PCR, cb2 << 5 | (ca2 & 1) << 4 | ca2 << 1 | cb2 & 1), read(VIA, PCR))
    # One column, shown, with the delay of DE on: the line byte tells which R8 stands.
    yield from screen(r0=3, r1=2, r4=1, r6=1, r8=0x10, r10=0x20)
    for value in (0x01, 0x02, 0x08, 0x40, 0x80, 0xCB, 0xFF, 0x35, 0x11, 0x31, 0x04, 0x00, 0x20, 0x34, 0x30, 0x14):
        yield from (*set_crtc(8, value), run(CRTC, 1), run(CRTC, 1))


def levels_too_high():
    """Refusal 5: the levels stay as they were, so the edge is still to come."""
    yield from clean_via(acr=0x23)
    yield from load_t2(1)
    for control in (16, 17, 30, 31, 32, 128, 255):
        yield from (pins(VIA, 0x12, 0x34, control), *reads(VIA, PORT_B, PORT_A, IFR, T2_LOW))
    yield from (pins(VIA, 0x12, 0x34, 0), *reads(VIA, IFR, T2_LOW, PORT_A_QUIET, PORT_B, PORT_A))
    yield pins(CRTC, 0)
    for level in (2, 3, 16, 128, 254, 255):
        yield from (pins(CRTC, level), run(CRTC, 1), read(CRTC, 0))
    yield from (pins(CRTC, 1), run(CRTC, 1), read(CRTC, 0), *read_crtc(16, 17), read(CRTC, 0))
    for level in (2, 255):
        yield pins(CRTC, level)
    yield from (pins(CRTC, 1), run(CRTC, 1), read(CRTC, 0))


def runs_too_long():
    """Refusal 6, of a run that tells its turns; all is left as it was, and the pen's strobe still waits."""
    yield from screen(r0=99, r1=80, r2=84, r3=0x2A, r4=30, r5=6, r6=25, r7=28, r9=7, r10=0x20)
    yield from (run(CRTC, 2_345), pins(CRTC, 0), pins(CRTC, 1))
    for count in range(LONGEST_TOLD + 1, LONGEST + 1):
        yield from (told(count), run(CRTC, 0), told(0), read(CRTC, 0))
    yield from (told(1), read(CRTC, 0), *read_crtc(16, 17))
    # None of these is too long. At R0 = 0 the longest has more turns than any other run.
    for count in (0xFFFF, 0x10000, 0x10001, 0x1FFFF, 0x20000, 0x100000, 0x1000000):
        yield from (run(CRTC, count), read(CRTC, 0), told(count), *pen_address())
    yield from screen(r0=0, r1=3, r2=255, r4=127, r5=31, r7=5, r9=31)
    yield from (run(CRTC, 500), told(LONGEST_TOLD), told(0), read(CRTC, 0), *pen_address())
    yield from (told(LONGEST_TOLD + 1), told(1), told(200), told(0x20000))


# -------------------------------------------------------- easy to get wrong

def easy_to_get_wrong():
    # T1's period is the latch and two more clocks, in free-run and in one-shot.
    for acr in (0xC0, 0x80):
        for latch in (0, 1, 2, 7):
            yield from clean_via(acr=acr)
            yield from load_t1(latch)
            for _ in range(4):
                yield from (forecast(VIA), run(VIA, latch), run(VIA, 1), read(VIA, PORT_B), run(VIA, 1),
                            read(VIA, PORT_B), read(VIA, T1_LOW))
    # A read of register 5 leaves the flag; only one of register 4 clears it.
    yield from clean_via()
    yield from (*load_t1(2), run(VIA, 3), *reads(VIA, T1_HIGH, IFR, LATCH_LOW, LATCH_HIGH, IFR, T1_LOW, IFR))
    # T2 sets its flag at the first passing after a load, and at no later one.
    yield from clean_via()
    yield from load_t2(2)
    for _ in range(3):
        yield from (forecast(VIA), run(VIA, 2), read(VIA, IFR), run(VIA, 1), read(VIA, IFR), read(VIA, T2_LOW),
                    run(VIA, 0xFFFD))
    # The 6532's first flag comes at N x D + 1.
    for divider, size in enumerate((1, 8, 64, 1024)):
        for value in (1, 3):
            yield from (load_timer(divider, value, True), forecast(RIOT), run(RIOT, value * size),
                        read(RIOT, FLAGS), run(RIOT, 1), read(RIOT, FLAGS), read(RIOT, TIMER))
    # Bit 7 of IFR is no flag: it goes and comes with the enables, and writing it does nothing.
    yield from clean_via(enables=0)
    yield from (*load_t1(0), run(VIA, 1), read(VIA, IFR))
    for value in (0xC0, 0x40, 0xA0, 0xC0):
        yield from (write(VIA, IER, value), read(VIA, IFR), read(VIA, IER))
    yield from (write(VIA, IFR, 0x80), read(VIA, IFR), write(VIA, IFR, 0xC0), read(VIA, IFR))
    # A port access leaves the flag of an independent CA2 or CB2.
    for code in (0, 1, 2, 3):
        yield from clean_via(pcr=code << 5 | code << 1)
        yield from (pins(VIA, 0xFF, 0xFF, 0x05), pins(VIA, 0xFF, 0xFF, 0x0F), read(VIA, IFR))
        yield from (read(VIA, PORT_A), read(VIA, IFR), read(VIA, PORT_B), read(VIA, IFR))
    # A column above a lowered R0 goes on to 255 and ends no line there.
    yield from screen(r0=9, r1=255, r2=250, r3=0x13, r4=9, r6=2, r7=1, r10=0x20)
    yield from (run(CRTC, 5), *set_crtc(0, 1), run(CRTC, 250), run(CRTC, 1), read(CRTC, 0), run(CRTC, 1),
                read(CRTC, 0), run(CRTC, 1), read(CRTC, 0), run(CRTC, 1), read(CRTC, 0), *pen_address())


# -------------------------------------------------------- the twelve marked

def marked_cases():
    for value in (0, 65535):
        yield from clean_via(enables=0x40)
        yield from (*load_t1(value), forecast(VIA), run(VIA, value), forecast(VIA), run(VIA, 1), read(VIA, IFR))
    yield from clean_via(acr=0x40, enables=0x40)
    yield from load_t1(3)
    for quiet in (3, 4, 4):
        yield from (forecast(VIA), run(VIA, quiet), read(VIA, IFR), run(VIA, 1), read(VIA, IFR), read(VIA, T1_LOW))
    yield from clean_via(acr=0x40, enables=0x40)
    yield from (*load_t1(0), run(VIA, 1), write(VIA, LATCH_LOW, 0xFF), write(VIA, LATCH_HIGH, 0xFF), forecast(VIA),
                run(VIA, 65536), forecast(VIA), run(VIA, 1), read(VIA, IFR))
    yield from clean_via(enables=0x20)
    yield from (*load_t2(0), run(VIA, 1), read(VIA, T2_LOW), forecast(VIA), run(VIA, 65536), read(VIA, IFR),
                *reads(VIA, T2_LOW, T2_HIGH))
    for divider, value, due in ((1, 52, 417), (3, 0, 1), (3, 255, 261121)):
        yield from (load_timer(divider, value, True), forecast(RIOT), run(RIOT, due - 1), read(RIOT, FLAGS),
                    forecast(RIOT), run(RIOT, 1), read(RIOT, FLAGS), read(RIOT, TIMER))
    for adjust, length in ((1, 20), (0, 16)):
        # VSYNC of one line at row 0 begins with each frame.
        yield from screen(r0=3, r2=255, r3=0x10, r4=1, r5=adjust, r9=1)
        for _ in range(2):
            yield from (run(CRTC, length - 1), run(CRTC, 1))
        yield from clocks(CRTC, 2 * length)
    yield from screen(r0=3, r1=2, r2=255, r4=3, r6=4, r7=127, r10=0x20)
    yield from (run(CRTC, 5), *pen_address())
    yield from screen(r0=79, r1=80, r2=255, r4=24, r6=25, r7=127, r10=0x20)
    yield from (run(CRTC, 23 * 80 + 79), *pen_address())


# ------------------------------------------------------------------ no frame

def hostile_lines():
    good = ("2201", "22020EC0", "22030D", "2204FFFF0F", "22050000000A", "2206", "25020603", "250307", "2504FFFFFE",
            "25050000000A", "32029C0A", "320384", "45020A0B", "450500000007", "45070000000C")
    for line in good:
        text = line.encode()
        yield from (text.lower(), text + b"\r", b"\r" + text, b" " + text, text + b" ", text + b"\t", b"\t" + text,
                    text + b"\0", text[:-1], text + b"0", text + b"00", text[:2] + b" " + text[2:],
                    text[:3] + b"\0" + text[4:], text[:-1] + b"\xff", b"0x" + text, text + text)
    # Every character that stands in for a digit, next to the digits most of all.
    for character in range(256):
        if character != 10:
            yield b"22030" + bytes((character,))
    yield from (b"", b"", b" ", b"\t", b"\r", b"\0", b"\0" * 4, b"2", b"22", b"220", b"\xef\xbb\xbf2206", b"\xff" * 12)
    yield from (b"2206\r", b"2206\r\r", b"22\r06", b"2206 2206", b"2206;", b"#", b"-2206", b"+2206", b"22 06")
    for length in (11, 12, 13, 14, 30, 31, 32, 33, 34, 63, 64, 65, 127, 128, 255, 256, 257, 1000, 4095, 4096, 4097,
                   8191, 8192, 8193):
        yield from (b"220500000001".ljust(length, b"0")[:length], b"2206", b"2206".rjust(length, b"0"), b"3206")
    yield from (b"2206" * 17500, b"2206")
    yield from (b"2" * 2999, b"\r" * 3000, b"\0" * 3001, b"\xfe" * 3002, b"ab" * 1600, b"2206")


# --------------------------------------------------------------------- 6522

def via_registers():
    """All sixteen written and read, under both directions of the ports."""
    for number, value in enumerate((0x00, 0xFF, 0x55, 0xAA, 0x01, 0x80)):
        yield from clean_via(enables=0)
        yield pins(VIA, 0x3C, 0xC3, 0x0F)
        for register in range(16):
            # ACR's shift mode 5, and PCR's codes 4 and 5, would be refused.
            kept = value & (0xE3 if register == ACR and value == 0x55 else 0x33 if register == PCR else 0xFF)
            yield from (write(VIA, register, kept), read(VIA, register))
        yield from look_via()
        if number % 2:
            yield from (reset(VIA), *look_via())


def via_lines():
    """Ports by direction, PB7 by the timer, and lines kept at an edge."""
    for acr in (0x00, 0x01, 0x02, 0x03, 0x80, 0x82, 0xC3):
        for ddr in (0x00, 0xF0):
            yield from clean_via(acr=acr, enables=0x12)
            yield from (write(VIA, DDRA, ddr), write(VIA, DDRB, ddr), write(VIA, PORT_A, 0x96), write(VIA, PORT_B, 0x69))
            yield from (pins(VIA, 0x5A, 0x3C, 0x0F), *reads(VIA, PORT_A, PORT_B))
            yield from (pins(VIA, 0x21, 0x43, 0x0A), pins(VIA, 0xDE, 0xBC, 0x0F), pins(VIA, 0x77, 0x88, 0x0A))
            yield from (write(VIA, DDRB, ddr ^ 0x81), write(VIA, PORT_A_QUIET, 0x0F), *load_t1(1))
            yield from reads(VIA, PORT_A_QUIET, IFR, PORT_B, PORT_A, IFR, PORT_B, PORT_A)
            yield from (run(VIA, 2), read(VIA, PORT_B), run(VIA, 3), read(VIA, PORT_B))


def via_edges():
    """Every code of the control lines, and each line down and up."""
    for code in (0, 1, 2, 3, 6, 7):
        for first in (0x00, 0x11):
            yield from clean_via(pcr=code << 5 | code << 1 | first, enables=0x1B)
            for control in (0x0E, 0x0F, 0x0D, 0x0F, 0x0B, 0x0F, 0x07, 0x0F, 0x00, 0x0F, 0x0F):
                yield from (pins(VIA, 0xFF, 0xFF, control), read(VIA, IFR), write(VIA, IFR, 0x7F))


def via_port_flags():
    """Which flags an access to a port clears, for every code; PCR moves no level and makes no edge."""
    for code in (0, 1, 2, 3, 6, 7):
        for access in (read(VIA, PORT_A), write(VIA, PORT_A, 0), read(VIA, PORT_A_QUIET), write(VIA, PORT_A_QUIET, 0),
                       read(VIA, PORT_B), write(VIA, PORT_B, 0)):
            yield from (write(VIA, PCR, 0), pins(VIA, 0xFF, 0xFF, 0x0F), pins(VIA, 0xFF, 0xFF, 0x00))
            yield from (write(VIA, PCR, code << 5 | code << 1), read(VIA, IFR), access, read(VIA, IFR))


def via_timers():
    # T1, clock by clock through three passings, each with its reload, in one-shot and free-run: PB7, counter, flag. The
    # read of its low byte clears the flag, which a one-shot doesn't set again.
    for acr in (0x80, 0xC0):
        for value in (0, 1, 3):
            yield from clean_via(acr=acr)
            yield from load_t1(value)
            yield from clocks(VIA, 3 * value + 7, *reads(VIA, PORT_B, T1_HIGH, IFR, T1_LOW))
            yield from (forecast(VIA), run(VIA, 65535), *reads(VIA, T1_HIGH, IFR), run(VIA, 2),
                        *reads(VIA, PORT_B, IFR, T1_LOW))
    # A latch written while the counter is on its way, and while the mark waits for the reload.
    for acr in (0xC0, 0x80):
        yield from clean_via(acr=acr)
        yield from (*load_t1(4), run(VIA, 2), write(VIA, LATCH_LOW, 9), write(VIA, LATCH_HIGH, 1), forecast(VIA),
                    run(VIA, 3), write(VIA, T1_LOW, 2), write(VIA, LATCH_HIGH, 0), forecast(VIA), run(VIA, 1),
                    *reads(VIA, T1_HIGH, T1_LOW), forecast(VIA), run(VIA, 3), read(VIA, IFR), run(VIA, 1),
                    *reads(VIA, T1_HIGH, T1_LOW))
    # While the mark is set: the other mode leaves it, a load or a reset takes it away.
    for acr in (0xC0, 0x80):
        for change in ([write(VIA, ACR, acr ^ 0x40)], load_t1(7), [reset(VIA)]):
            yield from clean_via(acr=acr)
            yield from (*load_t1(5), run(VIA, 6), read(VIA, IFR), *change, forecast(VIA), run(VIA, 1),
                        *reads(VIA, T1_LOW, T1_HIGH))
            for _ in range(3):
                yield from (run(VIA, 7), *reads(VIA, IFR, PORT_B, T1_HIGH, T1_LOW))
            yield from look_via()
    # Every other call leaves it too, so the next clock takes the latch.
    yield from clean_via(acr=0x80)
    for call in (*(read(VIA, register) for register in range(16)),
                 *(write(VIA, register, 3) for register in range(16) if register != T1_HIGH),
                 write(VIA, ACR, 0x44), write(VIA, ACR, 0x98), pins(VIA, 0, 0, 0), run(VIA, 0), forecast(VIA)):
        yield from (*load_t1(0x102), run(VIA, 0x103), call, *reads(VIA, T1_HIGH, T1_LOW), run(VIA, 1),
                    *reads(VIA, T1_HIGH, T1_LOW))
    # One-shot: disarmed after its passing, armed by a load alone; free-run needs no arming.
    yield from clean_via()
    yield from (*load_t1(1), run(VIA, 2), write(VIA, IFR, 0x7F), forecast(VIA), write(VIA, LATCH_HIGH, 0), forecast(VIA),
                run(VIA, 65536), read(VIA, IFR), write(VIA, ACR, 0x40), forecast(VIA), run(VIA, 65536), read(VIA, IFR))
    # Disarmed, with PB7 high, and low from a free-run passing: no run, short or long, sets the flag or moves PB7.
    for low in (False, True):
        yield from clean_via(acr=0x80)
        yield from (*load_t1(2), run(VIA, 3))
        if low:
            yield from (write(VIA, ACR, 0xC0), run(VIA, 4), write(VIA, ACR, 0x80))
        yield from (write(VIA, IFR, 0x7F), forecast(VIA))
        for count in (1, 2, 3, 4, 4_000, 65_536, 1_000_003):
            yield from (run(VIA, count), forecast(VIA), *reads(VIA, PORT_B, IFR, T1_HIGH, T1_LOW))
    # T2 by clocks: its low latch, a load, its flag; by pulses: PB6 alone, whatever its direction.
    yield from clean_via()
    yield from (write(VIA, T2_LOW, 3), read(VIA, T2_LOW), write(VIA, T2_HIGH, 1), *reads(VIA, T2_HIGH, T2_LOW),
                run(VIA, 259), forecast(VIA), run(VIA, 1), *reads(VIA, IFR, T2_HIGH, IFR, T2_LOW, IFR))
    for ddrb in (0x00, 0xFF):
        yield from clean_via(acr=0x20)
        yield from (write(VIA, DDRB, ddrb), *load_t2(2), forecast(VIA), run(VIA, 1000))
        for level in (0xBF, 0xBF, 0xFF, 0x3F, 0x7F, 0x00, 0x40, 0xBF):
            yield from (pins(VIA, 0xFF, level, 0x0F), *reads(VIA, T2_HIGH, IFR), forecast(VIA))
        yield from (read(VIA, T2_LOW), write(VIA, ACR, 0), forecast(VIA), run(VIA, 2), read(VIA, T2_LOW))
        yield from (pins(VIA, 0xFF, 0xFF, 0x0F), pins(VIA, 0xFF, 0xBF, 0x0F), read(VIA, T2_LOW))
    # Both timers: the forecast is the sooner of those that are enabled.
    for enables in (0x20, 0x40, 0x60):
        for first, second in ((9, 5), (5, 9), (6, 6)):
            yield from clean_via(enables=enables)
            yield from (*load_t1(first), *load_t2(second), forecast(VIA), run(VIA, 4), forecast(VIA), run(VIA, 3),
                        forecast(VIA), run(VIA, 5), forecast(VIA), *reads(VIA, IFR, T1_LOW, T2_LOW))
    for register in (IFR, IER):
        yield from clean_shift(IN_CLOCK, enables=0)
        yield from (*load_t1(0), *load_t2(0), pins(VIA, 0, 0, 0), write(VIA, SR, 0), run(VIA, 16), read(VIA, IFR))
        for bit in (7, *range(7)):
            yield from (write(VIA, register, 1 << bit | (0x80 if register == IER else 0)), *reads(VIA, IFR, IER))
        for bit in range(7):
            yield from (write(VIA, IER, 1 << bit), *reads(VIA, IFR, IER))


# -------------------------------------------------- the 6522's shift register

def via_shift_modes():
    """Every value of ACR's bits 4..2, with the others clear and set: what shifts a byte, and which way it goes."""
    for others in (0x00, 0xE3):
        for mode in range(8):
            yield from (*clean_via(acr=others, enables=0x04), shifting(mode, others), read(VIA, ACR), write(VIA, SR, 0x4C),
                        forecast(VIA), run(VIA, 3), forecast(VIA), *pulses(0, 0, 1), read(VIA, IFR), forecast(VIA),
                        *reads(VIA, SR, SR), forecast(VIA))


def via_shift_clocks():
    """Modes 2 and 6: of two clocks the second shifts, and the sixteenth after an access sets the flag."""
    for mode in BY_CLOCK:
        # After each clock the line, the flag and the forecast; nothing goes on after the last shift.
        yield from (*clean_shift(mode), write(VIA, SR, 0xB4), forecast(VIA))
        yield from clocks(VIA, 19, read(VIA, IFR), forecast(VIA))
        yield from reads(VIA, SR, IFR)
        # SR after some single clocks, and after a run of any length up to 40, with CB2 at one level and the other.
        for count in (1, 2, 3, 4, 5, 14, 15, 16, 17):
            yield from (serial(1, count % 2), write(VIA, SR, 0x72), *clocks(VIA, count), read(VIA, SR))
        for count in range(41):
            yield from (serial(1, count // 2 % 2), write(VIA, SR, 0xC5), run(VIA, count), forecast(VIA), *reads(VIA, IFR, SR))
        # Runs in two parts: the second begins at any clock of a byte.
        for first in range(17):
            yield from (write(VIA, SR, 0x35), run(VIA, first), serial(1, first % 2), run(VIA, 15 - first % 8), forecast(VIA),
                        read(VIA, SR))
        # Bit by bit: CB2 has its level only for the clock that shifts. On the way out its level makes no difference.
        for byte in (0xB2, 0x4D):
            yield write(VIA, SR, 0xA3)
            for place in reversed(range(8)):
                level = byte >> place & 1
                yield from (serial(1, 1 - level), run(VIA, 1), serial(1, level), run(VIA, 1))
            yield from reads(VIA, IFR, SR)
        # Long runs, from an even clock and from an odd one.
        for count, before in ((254, 0), (255, 3), (256, 0), (257, 5), (65_535, 0), (65_536, 0), (65_536, 3), (65_537, 1),
                              (0x20001, 0), (1 << 24, 0), (1 << 24, 3)):
            yield from (write(VIA, SR, 0x8E), run(VIA, before), run(VIA, count), forecast(VIA), *reads(VIA, IFR, SR))


# Every move of CB1 and CB2 from two levels to two others, or the same: CB1 in bit 0, CB2 in bit 1.
SERIAL_MOVES = (0, 0, 1, 0, 2, 0, 3, 1, 1, 2, 1, 3, 2, 2, 3, 3, 0)


def via_shift_pulses():
    """Modes 3 and 7: SR shifts when CB1 rises and at no clock; the eighth rise sets the flag."""
    # In every mode each move of the two lines, with what it flags and what it does to SR.
    for mode, pcr in ((IN_PULSE, 0x00), (IN_PULSE, 0x50), (OUT_PULSE, 0x10), (OUT_PULSE, 0x40), (OFF, 0x10),
                      (IN_CLOCK, 0x50), (OUT_CLOCK, 0x10)):
        yield from (*clean_shift(mode, pcr=pcr), serial(0, 0), write(VIA, IFR, 0x7F), write(VIA, SR, 0xB1))
        for levels in SERIAL_MOVES:
            yield from (serial(levels & 1, levels >> 1), *reads(VIA, IFR, SR), write(VIA, IFR, 0x7F))
    for mode in BY_PULSE:
        # SR after some pulses.
        yield from clean_shift(mode)
        for count in (1, 2, 3, 5, 8, 9):
            yield from (write(VIA, SR, 0x72), *pulses(*(1, 0, 1, 1, 0, 0, 1, 0, 1)[:count]), *reads(VIA, IFR, SR))
        # No access before the first pulse, nor after a byte: with none to come the next pulse is the first of eight. The
        # flag comes again once it was cleared, and the read at the end shows how often SR shifted.
        yield from (write(VIA, SR, 0x2D), *clean_shift(mode))
        for count in range(1, 26):
            yield from (*pulses(count % 3 % 2), read(VIA, IFR))
            if count == 10:
                yield write(VIA, IFR, 0x04)
        yield from reads(VIA, SR, IFR)
        # Clocks do nothing, between two pulses either, and nothing is forecast.
        yield from (*clean_shift(mode), write(VIA, SR, 0x59), forecast(VIA), run(VIA, 16), *pulses(1, 0, 0))
        for count in (0, 1, 2, 10, 17, 70_000):
            yield from (run(VIA, count), forecast(VIA), read(VIA, IFR))
        yield from (*pulses(0, 1, 1, 0), read(VIA, IFR), *pulses(1), forecast(VIA), *reads(VIA, IFR, SR))
        # A refused pins call is no pulse, and the rise is still to come.
        yield from (*clean_shift(mode), serial(0, 1), write(VIA, SR, 0x4B))
        for control in (0x14, 0x1F, 0x84, 0xFF):
            yield from (pins(VIA, 0xFF, 0xFF, control), read(VIA, SR))
        yield from (serial(1, 0), read(VIA, SR))
        # What rises is judged by the pins call before, in whichever mode that came. A reset, or a mode, makes no pulse.
        yield from (shifting(OFF), serial(0, 0), shifting(mode), read(VIA, SR), serial(1, 1), read(VIA, SR))
        yield from (serial(0, 0), shifting(OFF), serial(1, 1), shifting(mode), serial(1, 0), read(VIA, SR))
        yield from (serial(0, 1), reset(VIA), shifting(mode), read(VIA, SR), serial(1, 1), read(VIA, SR))
        # PB6 falls, for T2, in the call in which CB1 rises. The eighth such call sets both flags.
        yield from (*clean_shift(mode, others=0x20, enables=0x24), *load_t2(7), write(VIA, SR, 0x1A))
        for _ in range(8):
            yield from (pins(VIA, 0xFF, 0xFF, 0x03), pins(VIA, 0xFF, 0xBF, 0x0F), read(VIA, IFR))
        yield from reads(VIA, T2_LOW, SR, IFR)
    # Port B's lines are kept at CB1's edge in these modes too, at one that shifts and at one that doesn't.
    for mode in (*BY_CLOCK, *BY_PULSE):
        for pcr in (0x00, 0x10):
            yield from (*clean_shift(mode, others=0x02, pcr=pcr), pins(VIA, 0xFF, 0x5A, 0x0B), pins(VIA, 0xFF, 0xC3, 0x0F),
                        pins(VIA, 0xFF, 0x96, 0x0F), *reads(VIA, IFR, PORT_B, IFR, PORT_B))


def via_shift_inputs():
    """Input takes CB2's outside level, whatever PCR makes of CB2 and of CB1's edges."""
    for code, edge in ((0, 1), (1, 0), (2, 0), (3, 1), (6, 0), (7, 1)):
        yield from clean_shift(IN_CLOCK, pcr=code << 5 | edge << 4)
        for level, value in ((1, 0x00), (0, 0xFF)):
            yield from (serial(1, level), write(VIA, SR, value), run(VIA, 6), *reads(VIA, SR, IFR))
        yield from (shifting(IN_PULSE), write(VIA, SR, 0x4A), *pulses(1, 0, 0, 1), *reads(VIA, SR, IFR))
    # A refused pins call stores no level.
    yield from (*clean_shift(IN_CLOCK), write(VIA, SR, 0), run(VIA, 2), pins(VIA, 0xFF, 0xFF, 0x17), run(VIA, 2), read(VIA, SR))


def via_shift_accesses():
    """In the four modes a read or a write of SR begins the byte anew, wherever it stands, and clears the flag."""
    for access, counts in ((read(VIA, SR), (3, 9)), (write(VIA, SR, 0x3A), (9, 3))):
        for mode in BY_CLOCK:
            yield from (*clean_shift(mode), write(VIA, SR, 0x5B), access)
            for count in (1, 2, 7, 8, 15, 16, 17):
                yield from (serial(1, count % 2), run(VIA, count), access, forecast(VIA), read(VIA, IFR), run(VIA, 15),
                            forecast(VIA), run(VIA, 1), *reads(VIA, IFR, SR))
            # With one clock before each access nothing is ever shifted.
            yield write(VIA, SR, 0x6B)
            for _ in range(4):
                yield from (run(VIA, 1), read(VIA, SR), forecast(VIA))
        for mode, count in zip(BY_PULSE, counts):
            yield from (*clean_shift(mode), access, *pulses(*[0] * count), access, read(VIA, IFR), *pulses(*[1] * 7),
                        read(VIA, IFR), *pulses(0), *reads(VIA, IFR, SR, SR))
        # With no mode on it clears the flag and does nothing else: clocks and pulses leave SR as it is.
        yield from (*clean_shift(OUT_CLOCK), write(VIA, SR, 0x1D), run(VIA, 16), shifting(OFF), read(VIA, IFR), access,
                    read(VIA, IFR), forecast(VIA), run(VIA, 40), *pulses(*[1] * 9), *reads(VIA, IFR, SR))
    # No other call touches the byte. Three clocks of it are over, so the forecast is 13, and it ends then.
    yield from clean_shift(OUT_CLOCK)
    others = [*(read(VIA, register) for register in range(16) if register != SR),
              *(write(VIA, register, 3) for register in range(16) if register not in (SR, ACR)),
              *(write(VIA, ACR, mode << 2) for mode in (1, 4, 5)), write(VIA, IFR, 0x7F), write(VIA, IER, 0xFB),
              write(VIA, IER, 0x7B), run(VIA, 0), forecast(VIA), read(VIA, 16), write(VIA, 0x1A, 0)]
    levels = [pins(VIA, 0, 0, 0), pins(VIA, 0, 0, 0x10), pins(VIA, 0xFF, 0xFF, 0x0F)]
    for call in (*others, *levels):
        yield from (write(VIA, SR, 0x97), run(VIA, 3), call, write(VIA, IFR, 0x7B), forecast(VIA), run(VIA, 13), read(VIA, SR))
    # The same for a byte by pulses: all these calls after the sixth pulse. The last of the levels is the seventh.
    for mode in BY_PULSE:
        yield from (*clean_shift(mode), write(VIA, SR, 0x97), *pulses(1, 0, 1, 1, 0, 1), *others, *levels, read(VIA, IFR),
                    *pulses(0), *reads(VIA, IFR, SR))


def all_but_two(mode):
    """Six shifts of a byte, and one clock of the seventh where it goes by the clock."""
    return [run(VIA, 13)] if mode in BY_CLOCK else [*pulses(0, 1, 1, 0, 0, 1)]


def via_shift_switched():
    """ACR written in the middle of a byte: every accepted write drops what was to come, a refused one leaves it."""
    for old in (*BY_CLOCK, *BY_PULSE):
        # Where it was dropped, neither four clocks nor two pulses end the byte.
        yield from clean_shift(old)
        for new, others in (*((mode, 0) for mode in range(8)), (old, 0x40), (old, 0x23)):
            yield from (shifting(old), write(VIA, SR, 0x96), *all_but_two(old), shifting(new, others), forecast(VIA),
                        run(VIA, 4), read(VIA, IFR), *pulses(1, 0), *reads(VIA, IFR, ACR, SR))
        # The flag stays, and SR does.
        yield from (shifting(old), write(VIA, SR, 0xD2), *all_but_two(old), run(VIA, 3), *pulses(1, 0))
        for new in (0, 1, 2, 3, 4, 5, 6, 7, 7, 0):
            yield from (shifting(new), read(VIA, IFR))
        yield from reads(VIA, SR, IFR)
    # A mode in which nothing was accessed yet, and one left in the middle of a byte and taken up again: no clock shifts.
    for mode in BY_CLOCK:
        yield from (*clean_shift(mode), run(VIA, 40), write(VIA, SR, 0x1F), run(VIA, 5), shifting(OFF), forecast(VIA),
                    run(VIA, 11), read(VIA, IFR), shifting(mode), forecast(VIA), run(VIA, 40), *reads(VIA, IFR, SR),
                    forecast(VIA))
    # A reset takes the mode, the flag and its enable, and leaves SR; nothing of the byte is left for the next mode.
    for mode, rest in zip((IN_CLOCK, IN_PULSE, OUT_PULSE, OUT_CLOCK), ([], [], [*pulses(1, 1)], [run(VIA, 3)])):
        yield from (*clean_shift(mode), write(VIA, SR, 0x6E), *all_but_two(mode), *rest, read(VIA, IFR), reset(VIA),
                    *reads(VIA, ACR, IFR, IER), run(VIA, 4), *pulses(0, 0), shifting(mode), write(VIA, IER, 0x84),
                    forecast(VIA), run(VIA, 4), *pulses(0, 1), *reads(VIA, IFR, SR, SR))


def via_shift_forecasts():
    """The forecast counts SR's flag in modes 2 and 6, while it is enabled and shifts are to come: the soonest of three."""
    for enables in (0x04, 0x44, 0x24, 0x64, 0x60):
        for mode, first, second in ((IN_CLOCK, 8, 20), (OUT_CLOCK, 20, 8), (IN_CLOCK, 20, 20), (OUT_CLOCK, 10, 10),
                                    (IN_CLOCK, 12, 9)):
            yield from (*clean_shift(mode, enables=enables), write(VIA, SR, 0), run(VIA, 5), *load_t1(first), *load_t2(second),
                        forecast(VIA), run(VIA, 7), forecast(VIA), run(VIA, 4), forecast(VIA), *reads(VIA, IFR, SR),
                        forecast(VIA))
    # Beside T1 in free-run and a T2 that waits for pulses; turned off, and on again when the flag is set.
    yield from (*clean_shift(OUT_CLOCK, others=0x60, enables=0x64), *load_t1(30), *load_t2(1), write(VIA, SR, 0x5C),
                forecast(VIA), run(VIA, 9), forecast(VIA), write(VIA, IER, 0x04), forecast(VIA), run(VIA, 7), forecast(VIA),
                read(VIA, IFR), write(VIA, IER, 0x84), forecast(VIA), write(VIA, IFR, 0x04), forecast(VIA), run(VIA, 20),
                *reads(VIA, IFR, SR))


def flags_of(mask):
    """Every set of a mask's bits."""
    return [flags for flags in range(mask + 1) if flags & ~mask == 0]


def control_falls():
    """All four control lines down, from high."""
    return [pins(VIA, 0xFF, 0xFF, 0x0F), pins(VIA, 0xFF, 0xFF, 0x00)]


def all_flags():
    """All seven flags set, in shift mode 6."""
    return [*control_falls(), *load_t1(0), *load_t2(0), write(VIA, SR, 0x69), run(VIA, 16)]


def via_cleared():
    """What a read cleared, for each set of the seven flags."""
    yield from clean_shift(OUT_CLOCK, enables=0x5A)
    for flags in flags_of(0x7F):
        yield from (*all_flags(), write(VIA, IFR, 0x7F ^ flags))
        yield from reads(VIA, T2_LOW, PORT_A, SR, IFR, T1_LOW, PORT_B, IFR)
    # CA2 alone independent, then CB2 alone. The second read of a port finds nothing more.
    for pcr in (0x02, 0x60):
        for flags in flags_of(0x1B):
            yield from (write(VIA, PCR, 0), *control_falls(), write(VIA, IFR, 0x7F ^ flags), write(VIA, PCR, pcr))
            yield from reads(VIA, PORT_A, PORT_A, PORT_B, PORT_B, IFR)
    # Reads that clear nothing, refused ones among them, with all flags set, none of them enabled or all. Then SR's read,
    # which clears its flag once, in a shift mode or in none.
    for enables, mode in ((0x00, OUT_CLOCK), (0x7F, OFF)):
        yield from (*clean_shift(OUT_CLOCK, enables=enables), *all_flags(), shifting(mode))
        for register in (DDRB, DDRA, T1_HIGH, LATCH_LOW, LATCH_HIGH, T2_HIGH, ACR, PCR, IER, PORT_A_QUIET, 16, 255, SR, SR):
            yield from reads(VIA, register, IFR)


# --------------------------------------------------------------------- 6525

def tpi_registers():
    """Each register written and read, in both modes; and CR with each of its bits."""
    for cr in (0x00, MODE):
        for value in (0x5A, 0xA5):
            yield from (*clean_tpi(cr=cr, mask=0), pins(TPI, 0x3C, 0xC3, 0x96))
            for register in (PRA, PRB, PRC, DIR_A, DIR_B, MASK):
                yield from (write(TPI, register, value), read(TPI, register))
            yield from (write(TPI, AIR, value ^ 0xFF), *reads(TPI, AIR, PRA, PRB, PRC))
    yield from clean_tpi(cr=0)
    for value in (*(1 << bit for bit in range(8)), 0xF0, 0x0F, 0xFF, 0x00):
        yield from (write(TPI, CR, value), *reads(TPI, CR, PRC))


def tpi_lines():
    """Lines by direction: of ports A and B in both modes, of port C where it is a port."""
    for cr in (0xFE, 0xFF):
        # Output bytes are written in the one mode, and shown in both.
        yield from (*clean_tpi(cr=0), write(TPI, PRC, 0x0F), write(TPI, CR, cr), write(TPI, PRA, 0x96), write(TPI, PRB, 0x69),
                    write(TPI, PRC, 0x3C), write(TPI, DIR_A, 0xF0), write(TPI, DIR_B, 0x3C), write(TPI, MASK, 0x99))
        for levels in ((0x5A, 0x3C, 0xC3), (0xA5, 0xC3, 0x3C)):
            yield from (pins(TPI, *levels), *reads(TPI, PRA, PRB, PRC), write(TPI, CR, cr ^ MODE), *reads(TPI, PRA, PRB, PRC),
                        write(TPI, CR, cr))
    # In interrupt mode bit 5 is the interrupt pin, whatever stands outside, in the output byte or in the direction. The
    # other lines show what is outside: without CA and CB no access and no edge drives PC6 or PC7.
    for bits, output, direction in ((0, 0x00, 0x1F), (1, 0xFF, 0xFF), (2, 0xFF, 0x1F), (3, 0x00, 0xFF)):
        yield from (*clean_tpi(cr=0, mask=direction), write(TPI, PRC, output), write(TPI, CR, bits * 0x50 | MODE))
        for upper in (0x00, 0xE0):
            yield from (pins(TPI, 0, 0, upper | INPUTS), *reads(TPI, PRA, PRC), write(TPI, PRB, output), read(TPI, PRC),
                        pins(TPI, 0, 0, upper), *reads(TPI, PRC, AIR, PRC), write(TPI, AIR, 0))


def tpi_edges():
    """Which moves of the inputs are latched: for each choice of edges, one by one, together, and none."""
    singles = [levels for bit in range(5) for levels in (0xFF ^ 1 << bit, 0xFF)]
    for rising, moves in ((0, singles), (RISING_3, singles[6:]), (RISING_4, singles[6:]), (RISING_3 | RISING_4, singles)):
        yield from clean_tpi(cr=MODE | rising)
        for levels in (*moves, 0x1F, 0xFF, 0xFF, 0x00, 0x00, 0x55, 0xAA, 0xFF):
            yield from (port_c(levels), read(TPI, AIR))
    # The direction makes no difference, nor does the output byte: as a port's lines these would not move.
    yield from (*clean_tpi(cr=0, mask=0xFF), write(TPI, PRC, 0), write(TPI, CR, MODE), *falls(0x0A), read(TPI, AIR))
    # An input that comes twice is latched once.
    yield from (*clean_tpi(), *falls(4, 4), *reads(TPI, AIR, AIR))
    # With the mode off nothing is latched, but the levels count for the next edge.
    for rising, levels in ((0, 0xFF), (0, 0xE0), (RISING_3 | RISING_4, 0xE0)):
        yield from (*clean_tpi(cr=rising), *falls(INPUTS), port_c(levels), write(TPI, CR, MODE | rising), read(TPI, AIR),
                    port_c(levels), read(TPI, AIR), port_c(levels ^ INPUTS), *reads(TPI, AIR, PRC))
    # Neither CR nor the mask makes an edge, whatever the levels are.
    yield from (*clean_tpi(), port_c(0xF5), write(TPI, PRC, 0))
    for cr in (0x0F, 0x03, 0x07, 0x0B, 0x02, 0x0F, 0x03):
        yield from (write(TPI, CR, cr), read(TPI, AIR))
    for mask in (0x00, 0xFF, 0x15, 0x1F):
        yield from (write(TPI, MASK, mask), read(TPI, AIR))


def tpi_shown():
    """What AIR shows: with priority the highest that is latched and not masked, without it all of these."""
    yield from clean_tpi()
    for inputs in (0x01, 0x02, 0x03, 0x04, 0x05, 0x07, 0x08, 0x09, 0x0F, 0x10, 0x11, 0x17, 0x18, 0x1F):
        yield from (port_c(0xFF & ~inputs), read(TPI, AIR), write(TPI, PRC, 0), port_c(0xFF))
    # Latched behind a mask, and before it: the read takes what it shows, and leaves the rest. DDRC's upper bits mask none.
    for priority in (0, PRIORITY):
        for before, inputs, mask in ((0xE0, 0x1F, 0xE0), (0x0F, 0x1E, 0x0F), (0x1F, 0x1B, 0x15), (0x15, 0x0D, 0xEA),
                                     (0x00, 0x15, 0xFE)):
            yield from (*clean_tpi(cr=MODE | priority, mask=before), *falls(inputs), write(TPI, MASK, mask),
                        *reads(TPI, PRC, AIR, PRC, AIR), write(TPI, MASK, INPUTS), *reads(TPI, AIR, AIR))


def tpi_cases():
    """The catalogue's three cases, an interrupt alone, a higher and a lower one during its service; and deeper ones."""
    pin = read(TPI, PRC)
    yield from (*clean_tpi(), pin, port_c(0xFD), pin, read(TPI, AIR), pin, port_c(0xFF), *ended())
    yield from (*clean_tpi(), *falls(2), pin, read(TPI, AIR), pin, *falls(4), pin, read(TPI, AIR), pin)
    # I2 is over and I1 goes on: I0 waits, I1 does too, and I2 does not.
    yield from (*ended(), *falls(1), pin, *falls(2), pin, *falls(4), pin, read(TPI, AIR), *ended(), *ended(), read(TPI, AIR),
                *ended(), read(TPI, AIR), *ended())
    yield from (*clean_tpi(), *falls(2), pin, read(TPI, AIR), *falls(1), pin, *ended(), read(TPI, AIR), pin, *ended())
    # All five, one in the other, each with the lower ones latched again. Then their ends, one by one: until its own end
    # each holds back the same input.
    yield from clean_tpi()
    for place in range(5):
        yield from (*falls((2 << place) - 1), read(TPI, AIR), pin)
    for place in reversed(range(5)):
        yield from (write(TPI, PRC, 0), *falls(1 << place), *ended())
    # Three deep with gaps: I3 comes before I2 goes on, I1 when that is over, and I0 again after its own end.
    yield from (*clean_tpi(), *falls(1), read(TPI, AIR), *falls(4), read(TPI, AIR), *falls(16), read(TPI, AIR), *falls(2, 8))
    yield from (*ended(), read(TPI, AIR), *falls(1), *ended(), *ended(), read(TPI, AIR), *ended(), *ended(), read(TPI, AIR),
                *ended())
    # Without a write of AIR nothing at this place or below it interrupts again.
    yield from (*clean_tpi(), *falls(8), read(TPI, AIR), *falls(8, 4, 2, 1), pin, *falls(16), pin)


def tpi_services():
    """With priority each input during the service of each, ended by any byte; without it all of them wait."""
    yield from clean_tpi()
    for first in range(5):
        for second in range(5):
            yield from (*falls(1 << first), read(TPI, AIR), *falls(1 << second), write(TPI, AIR, 1 << second), read(TPI, AIR),
                        write(TPI, AIR, 0xE0))
    yield from clean_tpi(cr=MODE)
    for first, second, byte in ((1, 2, 0x01), (16, 8, 0x00), (4, 4, 0xFF), (0x12, 0x0D, 0x80)):
        yield from (*falls(first), *reads(TPI, AIR, PRC), *falls(second), read(TPI, PRC), write(TPI, AIR, byte),
                    *reads(TPI, PRC, AIR, PRC), *falls(first), *ended(), read(TPI, AIR), *ended())


def tpi_extras():
    """AIR read unasked, and written unasked: what is in service is a set."""
    # A lower input is taken in the service of a higher one. The write ends the higher, and the lower is still in service.
    yield from (*clean_tpi(), *falls(8), read(TPI, AIR), *falls(2), *reads(TPI, AIR, PRC), *falls(1), *ended(), *falls(2),
                *falls(4), *reads(TPI, PRC, AIR), *ended(), *ended(), *reads(TPI, AIR, PRC), *ended(), read(TPI, AIR), *ended(),
                *falls(1))
    # The same input twice: one write ends it.
    yield from (*clean_tpi(), *falls(4), read(TPI, AIR), *falls(4), *reads(TPI, AIR, AIR, PRC), *falls(2), *ended())
    # Reads of AIR that give 0 and do nothing: with nothing latched, with all of it masked, and with the mode off.
    yield from (*clean_tpi(), read(TPI, AIR), *falls(2), *reads(TPI, AIR, AIR), *falls(0x11), write(TPI, MASK, 0x0E),
                *reads(TPI, AIR, AIR), write(TPI, CR, PRIORITY), *reads(TPI, AIR, PRC), write(TPI, CR, MODE | PRIORITY), *falls(2),
                write(TPI, MASK, 0x0F), *ended(), *reads(TPI, AIR, AIR, AIR), *ended(), *ended(), write(TPI, MASK, INPUTS),
                *reads(TPI, PRC, AIR))
    # Writes with nothing in service: none is saved up, and none takes an input away.
    for cr in (MODE, MODE | PRIORITY):
        yield from (*clean_tpi(cr=cr), *ended(), *ended(), *falls(3), *ended(), *reads(TPI, AIR, PRC), *falls(1), *ended())


def tpi_masks():
    """The mask in the midst of things: what is latched stays so, and what is in service holds others back, masked or not."""
    for cr in (MODE, MODE | PRIORITY):
        yield from (*clean_tpi(cr=cr, mask=0xE0), *falls(0x16))
        for mask in (0x08, 0x02, 0x06, 0x00, 0x10, 0x00, 0xFF):
            yield write(TPI, MASK, mask)
        yield from (read(TPI, AIR), write(TPI, MASK, 0x0B), *falls(9), read(TPI, PRC), *ended(), *reads(TPI, AIR, PRC),
                    write(TPI, MASK, 0x01), *ended(), write(TPI, MASK, 0x00), *ended(), write(TPI, MASK, INPUTS),
                    *reads(TPI, PRC, AIR, AIR))


def tpi_switched():
    """CR written with inputs latched and in service: they stay, and each mode goes on with what it finds."""
    # I4, I2 and I0 in service and I1 latched, with priority and without it. From each, to another CR and back, or with the
    # mode off for a while, in which AIR and PRC are read and written. Then the services are ended one by one.
    nested = (*falls(1), read(TPI, AIR), *falls(4), read(TPI, AIR), *falls(16), read(TPI, AIR), *falls(2))
    together = (*falls(0x15), read(TPI, AIR), *falls(2))
    for cr, inputs in ((MODE | PRIORITY, nested), (MODE, together)):
        for between in ([], [write(TPI, CR, cr ^ PRIORITY)], [write(TPI, CR, 0xFC | cr)],
                        [write(TPI, CR, cr ^ MODE), *reads(TPI, AIR, PRC), write(TPI, AIR, 0), write(TPI, PRC, 0xE0)]):
            yield from (*clean_tpi(cr=cr), *inputs, *between, write(TPI, CR, MODE | PRIORITY), read(TPI, PRC), *ended(), *ended(),
                        *ended(), write(TPI, CR, MODE), *reads(TPI, AIR, AIR))
    # What came while the mode was off is lost, what came before is not.
    yield from (*clean_tpi(), *falls(4), write(TPI, CR, PRIORITY), *falls(0x1B), write(TPI, CR, MODE), *reads(TPI, PRC, AIR, AIR))
    # With priority off in the midst of three services one write ends them all.
    yield from (*clean_tpi(), *nested, write(TPI, CR, MODE), *ended(), *reads(TPI, AIR, PRC), *ended())


def tpi_cleared():
    """PRC written in interrupt mode: a 0 takes an input out of the latch, a 1 sets none, and the output byte stays."""
    yield from (*clean_tpi(cr=0, mask=0xFF), write(TPI, PRC, 0x5A), write(TPI, CR, MODE))
    for inputs, byte in ((0x1F, 0x00), (0x1F, 0xFF), (0x1F, 0x15), (0x1F, 0xEA), (0x0A, 0x1F), (0x0A, 0xF7), (0x15, 0x0E),
                         (0x10, 0xEF), (0x00, 0xFF)):
        yield from (*falls(inputs), write(TPI, PRC, byte), *reads(TPI, PRC, AIR), write(TPI, AIR, 0))
    yield from (write(TPI, CR, 0), *reads(TPI, PRC, MASK))
    # Masked ones too; and what is in service stays there.
    yield from (*clean_tpi(), *falls(8), read(TPI, AIR), write(TPI, MASK, 0x06), *falls(INPUTS), write(TPI, PRC, 0x04),
                write(TPI, MASK, INPUTS), read(TPI, PRC), *ended(), *reads(TPI, AIR, AIR))
    # Where the mode is off the byte is an output byte, and the latch stays.
    yield from (*clean_tpi(mask=0xFF), *falls(0x0B), write(TPI, CR, 0), write(TPI, PRC, 0x00), read(TPI, PRC),
                write(TPI, PRC, 0xF4), read(TPI, PRC), write(TPI, CR, MODE), *reads(TPI, PRC, AIR))


# --------------------------------------------------------------------- 6532

def riot_memory():
    for address in range(128):
        yield write(RIOT, address, (address * 73 + 5) & 255)
    for address in (0x80, 0x94, 0xFF):
        yield write(RIOT, address, 0)
    yield reset(RIOT)
    for address in reversed(range(128)):
        yield read(RIOT, address)


def riot_addresses():
    """Every form of an I/O address, read and written with both flags set."""
    for form in range(32):
        address = 0x80 | form | 0x20 * (form * 5 % 4)
        for access in (read(RIOT, address), write(RIOT, address ^ 0x40, 0x69)):
            yield from (write(RIOT, 0x86, 0), load_timer(0, 0, True), run(RIOT, 1), pins(RIOT, 0xF0, 0x0F),
                        pins(RIOT, 0x70, 0x0F), access, forecast(RIOT), read(RIOT, FLAGS), read(RIOT, FLAGS))
        yield from (pins(RIOT, 0xF0, 0x3C), *reads(RIOT, 0x80, 0x81, 0x82, 0x83), read(RIOT, TIMER_ON))
    yield from (reset(RIOT), *reads(RIOT, 0x80, 0x81, 0x82, 0x83))


def riot_timer():
    for divider, size in enumerate((1, 8, 64, 1024)):
        for value in (0, 1, 52, 255):
            due = 1 + value * size
            for enabled in (True, False):
                yield from (load_timer(divider, value, enabled), forecast(RIOT), run(RIOT, due - 1), run(RIOT, 1),
                            forecast(RIOT), run(RIOT, 1), read(RIOT, FLAGS), read(RIOT, TIMER_ON), read(RIOT, FLAGS),
                            forecast(RIOT), run(RIOT, 254), read(RIOT, TIMER), run(RIOT, 1), read(RIOT, FLAGS),
                            read(RIOT, TIMER_ON))
        # The prescaler on its way, through a reset and through reads.
        yield from (load_timer(divider, 3, False), run(RIOT, size), read(RIOT, TIMER_ON), forecast(RIOT),
                    run(RIOT, size // 2 + 1), reset(RIOT), forecast(RIOT), read(RIOT, TIMER_ON), forecast(RIOT))
        yield from clocks(RIOT, 4, read(RIOT, TIMER_ON), forecast(RIOT))


def riot_pa7():
    for control in range(4):
        for ddra in (0x00, 0xFF):
            yield from (reset(RIOT), pins(RIOT, 0xFF, 0xFF), write(RIOT, 0x81, ddra), write(RIOT, 0x84 | control, 0x55))
            for level in (0xFF, 0x7F, 0x00, 0x80, 0xFF, 0x7F):
                yield from (pins(RIOT, level, 0xFF), forecast(RIOT), read(RIOT, FLAGS), read(RIOT, 0x80))
            yield from (pins(RIOT, 0xFF, 0xFF), pins(RIOT, 0x7F, 0xFF), write(RIOT, 0x84 | control ^ 3, 0), run(RIOT, 0),
                        read(RIOT, TIMER), read(RIOT, FLAGS), write(RIOT, 0x80, 0x7F), read(RIOT, FLAGS))


def riot_cleared():
    """What a read cleared: reads of RAM, ports, timer and flags, with either flag set or not, both enabled or neither."""
    yield reset(RIOT)
    for enabled in (False, True):
        yield write(RIOT, 0x86 if enabled else 0x84, 0)
        for timer, pa7 in ((0, 0), (0, 1), (1, 0), (1, 1)):
            for address in (5, 0x80, 0x81, 0x82, 0x83, TIMER, TIMER_ON, FLAGS):
                yield from (pins(RIOT, 0xFF, 0xFF), load_timer(0, 0, enabled), run(RIOT, timer),
                            pins(RIOT, 0xFF ^ 0x80 * pa7, 0xFF), *reads(RIOT, address, FLAGS, TIMER))
    # Of the timer reads at each clock the ninth, at the passing of zero, clears the flag, and no other.
    yield from (load_timer(1, 1, True), *clocks(RIOT, 12, read(RIOT, TIMER_ON)), forecast(RIOT))


# --------------------------------------------------------------------- 6545

def crtc_registers():
    """All 32 written and read; the address register has five bits."""
    for value in (0xFF, 0x00, 0xA5):
        for register in range(32):
            yield from (write(CRTC, 0, register | 0x20 * (register % 8)), write(CRTC, 1, value & (0x34 if register == 8 else 0xFF)),
                        read(CRTC, 1))
        yield from (reset(CRTC), read(CRTC, 1), *read_crtc(14, 15, 16, 17, 31), read(CRTC, 0))
    # Bits beyond a width have dropped: counters that end there do end.
    yield from screen(r0=0, r1=1, r4=0x81, r5=0xE1, r6=0x81, r7=0x81, r9=0xE1, r10=0xA0, r11=0xFF)
    yield from clocks(CRTC, 12, read(CRTC, 0))
    yield from screen(r0=1, r1=2, r2=255, r4=1, r6=2, r7=127, r9=3, r10=0x80, r11=0xE1, r12=0xD2, r13=0x34, r14=0xD2, r15=0x34)
    yield from clocks(CRTC, 10)
    yield from pen_address()


def crtc_screens():
    """Small frames, clock by clock, with every signal and MA now and then."""
    for settings in (
        {"r0": 3, "r1": 2, "r2": 2, "r3": 0x11, "r4": 1, "r5": 1, "r6": 1, "r7": 1, "r9": 1},
        {"r0": 4, "r1": 5, "r2": 4, "r3": 0x23, "r4": 2, "r5": 2, "r6": 2, "r7": 0, "r9": 0, "r8": 0x30},
        {"r0": 2, "r1": 2, "r2": 0, "r3": 0x00, "r4": 0, "r5": 3, "r6": 127, "r7": 0, "r9": 2, "r8": 0x10},
        {"r0": 5, "r1": 4, "r2": 3, "r3": 0x0F, "r4": 1, "r6": 2, "r7": 1, "r9": 1, "r8": 0x24, "r12": 0x3F, "r13": 0xFE},
        {"r0": 1, "r1": 255, "r2": 1, "r3": 0xF1, "r4": 3, "r5": 1, "r6": 4, "r7": 2, "r12": 0x3F, "r13": 0xFF},
    ):
        start = settings.get("r12", 0) << 8 | settings.get("r13", 0)
        yield from screen(r11=31, r14=start >> 8, r15=start & 255, **settings)
        yield from clocks(CRTC, 44)
        yield read(CRTC, 0)
        for _ in range(3):
            yield from pen_address()
        yield from (reset(CRTC), run(CRTC, 1), read(CRTC, 0))
    # VSYNC's 16 lines for 0, HSYNC cut short by its next beginning, none for 0.
    yield from screen(r0=0, r4=31, r3=0x00, r7=0)
    yield from clocks(CRTC, 50)
    for width in (0x1F, 0x13, 0x10):
        yield from screen(r0=7, r2=2, r3=width, r4=3, r7=127)
        yield from (run(CRTC, 2), run(CRTC, 1), *set_crtc(2, 4), *clocks(CRTC, 3), *set_crtc(3, 0x10), *clocks(CRTC, 9))


def crtc_cursor():
    """The cursor's place, its lines of a row, and its blinking over 33 fields."""
    for shape, end in ((0x00, 31), (0x01, 2), (0x02, 1), (0x20, 31), (0x03, 3)):
        yield from screen(r0=2, r1=3, r2=255, r4=1, r6=2, r7=127, r9=3, r10=shape, r11=end, r15=4)
        yield from clocks(CRTC, 26)
    for shape in (0x40, 0x60):
        yield from screen(r0=1, r1=2, r2=255, r4=0, r6=1, r7=127, r10=shape, r11=31)
        for _ in range(34):
            yield run(CRTC, 2)
    # The place moves at once, the delayed signal a clock later.
    for r8 in (0x00, 0x20, 0x30):
        yield from screen(r0=3, r1=4, r2=255, r4=1, r6=2, r7=127, r8=r8, r11=31)
        yield from (*set_crtc(15, 1), run(CRTC, 0), run(CRTC, 1), *set_crtc(15, 2), run(CRTC, 1), run(CRTC, 1),
                    *set_crtc(1, 0), run(CRTC, 0), run(CRTC, 1), run(CRTC, 1))


def crtc_lowered():
    """R0, R4, R5 and R9 put below the counters that they end, which then go all the way round."""
    for register, high, low, before, rounds in ((0, 9, 2, 5, (253, 1, 3)), (9, 9, 1, 10, (48, 2, 4)),
                                                (4, 9, 1, 10, (246, 2, 4)), (5, 9, 2, 12, (50, 2, 2))):
        settings = {"r0": 1, "r1": 2, "r2": 255, "r4": 0, "r6": 2, "r7": 0, "r3": 0x10, "r10": 0x20}
        settings[f"r{register}"] = high
        yield from screen(**settings)
        yield from (run(CRTC, before), read(CRTC, 0), *set_crtc(register, low))
        for count in rounds:
            yield from (run(CRTC, count), read(CRTC, 0))
        yield from clocks(CRTC, 10)
        yield from pen_address()


def crtc_pen():
    yield from screen(r0=9, r1=10, r2=255, r4=3, r6=4, r7=127, r10=0x20)
    yield from (pins(CRTC, 0), run(CRTC, 3), pins(CRTC, 1), read(CRTC, 0), pins(CRTC, 0), read(CRTC, 0), run(CRTC, 1),
                read(CRTC, 0), *read_crtc(14), read(CRTC, 0), *read_crtc(17), read(CRTC, 0), *read_crtc(16))
    # While it is full a strobe still stores; while one waits another is the same one; a reset drops it.
    yield from (pins(CRTC, 1), run(CRTC, 2), pins(CRTC, 0), pins(CRTC, 1), pins(CRTC, 0), pins(CRTC, 1), run(CRTC, 7),
                *read_crtc(17), run(CRTC, 5), *read_crtc(17), pins(CRTC, 1), run(CRTC, 1), *read_crtc(17))
    yield from (pins(CRTC, 0), pins(CRTC, 1), reset(CRTC), run(CRTC, 4), read(CRTC, 0), *read_crtc(17))
    yield from (pins(CRTC, 0), pins(CRTC, 1), run(CRTC, 1), reset(CRTC), read(CRTC, 0), *set_crtc(17, 0x55),
                read(CRTC, 0), *read_crtc(17), read(CRTC, 0), pins(CRTC, 1), run(CRTC, 1), read(CRTC, 0))


# ------------------------------------------------------ long runs of the 6545

def where():
    """What tells where the 6545 stands: its lines over some clocks, its status, MA, and its next line ends."""
    yield from (*clocks(CRTC, 3), read(CRTC, 0), *pen_address(), told(1), told(7), told(300))


def crtc_turns():
    """A run's turns: its line ends and one more, none for no clocks."""
    # From every column, with lines of one clock and more: up to two line ends.
    for r0 in (0, 1, 3):
        yield from screen(r0=r0, r1=2, r2=1, r3=0x11, r4=1, r5=1, r6=1, r7=1, r9=1)
        for count in range(2 * r0 + 4):
            for _ in range(r0 + 1):
                yield from (told(count), told(0), run(CRTC, (1 - count) % (r0 + 1)))
    # Lines, rows and frames from a line's first column, its second, its last.
    yield from screen(r0=9, r1=8, r2=8, r3=0x23, r4=3, r5=2, r6=3, r7=3, r9=2)
    for count in (9, 10, 11, 20, 30, 90, 139, 140, 141, 1_399, 1_400, 1_401, 65_535, 65_536, 1_000_000, 1_000_009):
        for before in (0, 1, 9):
            yield from (reset(CRTC), run(CRTC, before), told(count), told(1), told(1))
    # The turns of two parts come to one more than those of the whole, unless one of them has no clocks.
    for first, second in ((0, 77), (77, 0), (7, 70), (40, 37), (76, 1), (123_450, 1), (1, 123_450), (60_000, 63_451)):
        yield from (reset(CRTC), run(CRTC, 5), told(first), told(second), reset(CRTC), run(CRTC, 5), told(first + second))
    # A column above R0 ends no line where it wraps, only when it comes to R0; with R0 = 255 that is the same clock.
    for low in (0, 1, 4, 255):
        for parts in ((250, 1, 1, 1, 1, 1, 1), (251, 3), (252, 2), (253, 4), (254, 1), (255, 1), (256, 1), (257,), (65_600, 1)):
            yield from (*set_crtc(0, 9), reset(CRTC), run(CRTC, 5), *set_crtc(0, low), *(told(count) for count in parts))
    # R0 at the column as it stands, one below it, and one above.
    for near in (5, 4, 6):
        yield from (*set_crtc(0, 9), reset(CRTC), run(CRTC, 5), *set_crtc(0, near), told(1), told(1), told(20))
    # In adjust lines: up to R5, or all the way round where it was passed or is 0.
    yield from screen(r0=4, r1=2, r2=255, r4=1, r5=5, r6=1, r7=127, r9=1)
    for low in (5, 2, 0):
        yield from (*set_crtc(5, 5), reset(CRTC), run(CRTC, 33), *set_crtc(5, low), told(10), told(160), told(4_000))


# Small screens: one with every part, one with skewed signals and an HSYNC longer than a line, one addressed by row and
# column, one with a VSYNC longer than a frame, and two whose frame is a line or a clock.
SMALL_SCREENS = (
    ({"r0": 3, "r1": 2, "r2": 2, "r3": 0x21, "r4": 1, "r5": 1, "r6": 1, "r7": 1, "r9": 1}, 20),
    ({"r0": 4, "r1": 5, "r2": 3, "r3": 0x17, "r4": 1, "r5": 2, "r6": 2, "r7": 0, "r8": 0x30, "r9": 0}, 20),
    ({"r0": 2, "r1": 2, "r2": 0, "r3": 0x32, "r4": 3, "r6": 3, "r7": 2, "r8": 0x04, "r9": 1, "r12": 0x3F, "r13": 0xFE}, 24),
    ({"r0": 2, "r1": 3, "r2": 255, "r3": 0x00, "r4": 1, "r5": 1, "r6": 2, "r7": 1, "r8": 0x20, "r9": 1}, 15),
    ({"r0": 3, "r1": 3, "r2": 3, "r3": 0x1F, "r6": 1, "r8": 0x10}, 4),
    ({"r1": 1, "r3": 0x53, "r6": 1, "r8": 0x30}, 1),
)


def crtc_long_runs():
    """Long runs, and single clocks, status and MA right after them."""
    # Every clock of a frame after many frames, and the clock that follows.
    for settings, length in SMALL_SCREENS:
        start = settings.get("r12", 0) << 8 | settings.get("r13", 0)
        yield from screen(r11=31, r14=start >> 8, r15=start & 255, **settings)
        for offset in range(length + 1):
            count = (32, 3_001, 70_000)[offset % 3] * length + offset
            yield from (reset(CRTC), told(count) if offset % 2 else run(CRTC, count), run(CRTC, 1))
            yield from (reset(CRTC), run(CRTC, offset), told(100_003), *clocks(CRTC, 2))
        yield from where()
    # About as many line ends as a bench may count one by one, from a line's second clock on.
    yield from screen(r0=2, r1=2, r2=1, r3=0x82, r4=2, r5=1, r6=2, r7=2, r9=1, r11=31, r15=2)
    for ends in (15, 16, 17, 31, 32, 33, 47, 48, 49, 63, 64, 65, 127, 128, 129):
        for offset in (0, 1, 2):
            yield from (reset(CRTC), run(CRTC, 1), told(3 * ends + offset), *clocks(CRTC, 3))
    # One long run after another, with nothing between them.
    for count in (65_536, 65_537, 1 << 20, 1_000_003):
        yield from (told(count), run(CRTC, count), told(count), *where())


def crtc_long_syncs():
    """Pulses that a long run begins or ends, and such as go on over several lines or frames."""
    # VSYNC's 16 lines in frames of 40 lines, each of one clock, from the line before it to the one after it.
    yield from screen(r0=0, r3=0x00, r4=19, r7=3, r9=1)
    for line in range(5, 24):
        yield from (reset(CRTC), told(1_000 * 40 + line), *clocks(CRTC, 2))
    # With nothing to begin them again, they end in time, however short the frames are on the way.
    yield from screen(r0=1, r2=255, r3=0x00)
    for lines in (1, 2, 14, 15, 16, 17, 33, 40_000):
        yield from (*set_crtc(7, 0), reset(CRTC), run(CRTC, 2), *set_crtc(7, 127), told(2 * lines), *clocks(CRTC, 2))
    yield from screen(r0=0, r3=0x1F, r7=127)
    for count in (1, 2, 13, 14, 15, 16, 33, 70_000):
        yield from (*set_crtc(2, 0), reset(CRTC), run(CRTC, 1), *set_crtc(2, 255), told(count), *clocks(CRTC, 2))
    # A column above R0 begins HSYNC on its way to 255, or after it.
    for r2, counts in ((200, (190, 192, 193, 200, 201)), (3, (251, 252, 253, 254, 255, 256, 257, 258))):
        yield from screen(r0=9, r2=r2, r3=0x27, r4=9, r7=2)
        for count in counts:
            yield from (*set_crtc(0, 9), reset(CRTC), run(CRTC, 7), *set_crtc(0, 4), told(count), *clocks(CRTC, 2))


def crtc_long_fields():
    """The fields, of which there are 32, over long runs: the cursor blinks at a frame's first column."""
    # Skewed, it shows a clock later; in frames of one clock it then shows what the field before let it.
    for settings, length, late in (({"r0": 4, "r1": 5, "r4": 1, "r5": 1}, 15, 0),
                                   ({"r0": 4, "r1": 5, "r4": 1, "r5": 1, "r8": 0x20}, 15, 1), ({"r1": 1, "r8": 0x20}, 1, 0)):
        for shape in (0x40, 0x60):
            yield from screen(r2=255, r6=2, r7=127, r10=shape, r11=31, **settings)
            for fields in (7, 8, 15, 16, 17, 23, 24, 31, 32, 33, 48, 1_023, 1_024, 4_111, 65_560, 99_999):
                yield from (reset(CRTC), run(CRTC, late), run(CRTC, length * fields), told(length), run(CRTC, 8 * length),
                            told(16 * length))


def crtc_long_odd():
    """Long runs from counters above their registers, from adjust lines that R5 has left, and over a start rewritten."""
    settings = {"r0": 9, "r1": 10, "r2": 8, "r3": 0x34, "r4": 5, "r5": 6, "r6": 4, "r7": 2, "r9": 3, "r10": 0x20}
    yield from screen(**settings)
    # The frame has 30 lines of 10 clocks, the last 6 of them adjust lines. A row above R4 passes 127 before 4,990 clocks.
    for before, lowered in ((7, {0: 2}), (38, {9: 1}), (173, {4: 1}), (177, {0: 3, 4: 2, 9: 0}), (275, {5: 2}), (275, {5: 0}),
                            (246, {5: 1}), (278, {0: 1, 5: 0}), (263, {4: 9, 9: 7})):
        for count in (333, 4_990, 20_000, 1 << 20):
            for register in lowered:
                yield from set_crtc(register, settings[f"r{register}"])
            yield from (reset(CRTC), run(CRTC, before))
            for register, value in lowered.items():
                yield from set_crtc(register, value)
            yield from (told(count), *where())
        for register in lowered:
            yield from set_crtc(register, settings[f"r{register}"])
    # The frame that is on goes by its own start, the later ones by the new one; rows grow by the new R1 at once.
    for r8 in (0x00, 0x04):
        for count in (160, 205, 123_456):
            yield from (*set_crtc(8, r8), *set_crtc(12, 0), *set_crtc(13, 0), *set_crtc(1, 10), reset(CRTC), run(CRTC, 95),
                        *set_crtc(12, 0x3F), *set_crtc(13, 0xF5), *set_crtc(1, 7), told(count), *where())


def crtc_long_pen():
    """A strobe is of a long run's first clock, whatever else the run does."""
    for r8 in (0x00, 0x04):
        yield from screen(r0=9, r1=10, r2=255, r4=3, r6=4, r7=127, r8=r8, r9=1, r10=0x20, r12=0x12, r13=0xFA)
        for before, call in ((0, told(65_536)), (13, run(CRTC, 65_537)), (47, told(1_000_003)), (79, run(CRTC, 1 << 20)),
                             (33, told(170)), (9, told(321))):
            yield from (reset(CRTC), run(CRTC, before), pins(CRTC, 0), pins(CRTC, 1), run(CRTC, 0), told(0), read(CRTC, 0),
                        call, read(CRTC, 0), *read_crtc(16, 17), read(CRTC, 0), *pen_address())
        # While full a strobe still stores, and a run without one leaves what is stored.
        yield from (pins(CRTC, 0), pins(CRTC, 1), told(70_000), pins(CRTC, 0), pins(CRTC, 1), told(70_003), read(CRTC, 0),
                    told(70_001), read(CRTC, 0), *read_crtc(17, 16))


# ---------------------------------------------------------- runs and the rest

def forecasts_kept():
    """Forecasts across runs: the largest of each chip in parts and then past it, the sooner of two, and never."""
    def parts(chip, *runs):
        yield forecast(chip)
        for count in runs:
            yield from (run(chip, count), forecast(chip))

    for first in (0, 1, 2, 65_535, 65_536, 65_537, 65_538):
        yield from clean_via(acr=0x40, enables=0x40)
        yield from (*load_t1(0), run(VIA, 1), write(VIA, LATCH_LOW, 0xFF), write(VIA, LATCH_HIGH, 0xFF))
        yield from parts(VIA, first, 1, 30_000, 35_535, 1, 70_000)
    # A disarmed one-shot, flags that are not enabled, and a T2 that waits for pulses.
    for acr, enables in ((0, 0x40), (0x40, 0x20), (0x20, 0x20)):
        yield from clean_via(acr=acr, enables=enables)
        yield from (*load_t1(2), *load_t2(2), run(VIA, 3), write(VIA, IFR, 0x7F), *parts(VIA, 0, 1, 4, 65_537, 1_000_003))
    yield from clean_via(enables=0x60)
    yield from (*load_t1(900), *load_t2(300), *parts(VIA, 100, 200, 1), read(VIA, T2_LOW), *parts(VIA, 598, 1, 1, 1))
    # A byte by the clock, then nothing to come, and a byte that waits for CB1.
    for number, first in enumerate((0, 1, 2, 7, 15, 16, 17)):
        yield from (*clean_shift(BY_CLOCK[number % 2]), write(VIA, SR, 0x35), *parts(VIA, first, 1, 4, 9, 1, 70_000),
                    write(VIA, IFR, 0x04), *parts(VIA, 1, 16, 65_537))
    for mode in BY_PULSE:
        yield from (*clean_shift(mode), write(VIA, SR, 0x35), *pulses(1, 0), *parts(VIA, 0, 1, 12, 65_537))
    for divider, size in enumerate((1, 8, 64, 1024)):
        due = 1 + 255 * size
        for enabled in (True, False):
            for first in (0, 1, size, due - 1, due, due + 1):
                yield from (load_timer(divider, 255, enabled), *parts(RIOT, first, 1, 100, 255, 1_000_003))
    # Once expired, and read, it is never asserted again.
    yield from (load_timer(0, 3, True), run(RIOT, 4), read(RIOT, TIMER_ON), *parts(RIOT, 0, 1, 256, 300_000))


def longest_runs():
    """T1 in both modes, T2, a byte in and one out, a 6532 timer, a screen and a 6525, each over 4,294,967,295 clocks."""
    # The byte that goes out has its mark set, so that the run and the clock before it come to more than 32 bits hold.
    for acr, mode, before in ((0x80, IN_CLOCK, 0), (0xC0, OUT_CLOCK, 3)):
        yield from (*clean_shift(mode, others=acr, enables=0x7F), serial(1, 0), write(VIA, IFR, 0x7F), write(VIA, SR, 0xE4),
                    run(VIA, before), *load_t1(0x5BA7), *load_t2(0x2211), run(VIA, LONGEST),
                    *reads(VIA, PORT_B, T1_HIGH, T2_HIGH, IFR, T1_LOW, T2_LOW), *look_via())
    yield from (load_timer(3, 200, True), run(RIOT, LONGEST), forecast(RIOT), read(RIOT, FLAGS), read(RIOT, TIMER))
    # Column, scan line and row are above their registers when the run begins, so that the next frame begins after 18,746
    # clocks, and then one every 4,224. At its first column the cursor tells the field.
    yield from screen(r0=79, r1=64, r2=58, r3=0x8A, r4=38, r5=6, r6=25, r7=28, r9=7, r10=0x60, r11=7, r12=0x10, r14=0x10)
    yield from (run(CRTC, 20_070), *set_crtc(0, 63), *set_crtc(4, 29), *set_crtc(9, 1), run(CRTC, LONGEST), read(CRTC, 0),
                run(CRTC, 4_224 - (LONGEST - 18_746) % 4_224), *clocks(CRTC, 2), told(16 * 4_224 - 2), *where())
    # A clock changes nothing in the 6525: I2 in service, I1 waiting, and then interrupting.
    yield from (*clean_tpi(), *falls(4), read(TPI, AIR), *falls(2), run(TPI, LONGEST), read(TPI, PRC), *ended(), run(TPI, LONGEST),
                run(TPI, LONGEST - 1), run(TPI, 1 << 31), run(TPI, 0), *look_tpi(), read(TPI, AIR), run(TPI, LONGEST),
                *falls(1), *ended(), read(TPI, AIR))
    for chip in (VIA, RIOT, CRTC):
        for power in range(21):
            yield from (run(chip, (1 << power) - 1), run(chip, 1 << power))
        yield from reads(chip, *((T1_HIGH, T1_LOW, T2_HIGH, T2_LOW, IFR) if chip == VIA else (0x84, 0x85) if chip == RIOT else (0,)))


def generated():
    """sessions.py's stories of each chip alone and of all four, more or less hostile. Runs are kept short, for the
    reference also goes clock by clock."""
    every = sessions.EVERY_CHIP
    for seed, count, longest, chips, hostile in (
        (1, 4_000, 70_000, ("22",), 2), (2, 3_000, 70_000, ("32",), 2), (3, 4_000, 70_000, ("45",), 2),
        (9, 3_000, 70_000, ("25",), 2), (4, 9_000, 70_000, every, 4), (5, 3_000, 300, every, 12), (6, 2_000, 3, every, 0),
        (7, 1_000, 3_000_000, every, 4), (8, 1_000, 70_000, every, 40),
    ):
        yield from sessions.session(seed, count, longest, chips, hostile)


SECTIONS = (
    worked_session, as_they_come, every_frame, resets, no_frames, no_such_register, forms_left_out, levels_too_high,
    runs_too_long, easy_to_get_wrong, marked_cases, hostile_lines, via_registers, via_lines, via_edges,
    via_port_flags, via_timers, via_shift_modes, via_shift_clocks, via_shift_pulses, via_shift_inputs,
    via_shift_accesses, via_shift_switched, via_shift_forecasts, via_cleared, tpi_registers, tpi_lines, tpi_edges,
    tpi_shown, tpi_cases, tpi_services, tpi_extras, tpi_masks, tpi_switched, tpi_cleared, riot_memory, riot_addresses,
    riot_timer, riot_pa7, riot_cleared, crtc_registers, crtc_screens, crtc_cursor, crtc_lowered, crtc_pen, crtc_turns,
    crtc_long_runs, crtc_long_syncs, crtc_long_fields, crtc_long_odd, crtc_long_pen, forecasts_kept, longest_runs, generated,
)


def main():
    if len(sys.argv) > 1:
        sys.exit(__doc__)
    out = sys.stdout.buffer
    for section in SECTIONS:
        for line in section():
            out.write((line if isinstance(line, bytes) else line.encode()) + b"\n")
    # The last line has no LF, and is answered all the same.
    out.write(forecast(VIA).encode())


if __name__ == "__main__":
    main()
