#!/usr/bin/env python3
"""Seeded session generator for the Snowferrule bench.

    sessions.py SEED LINES [--max-run N] [--chip 22|25|32|45] [--hostile PERCENT]

Writes a session of LINES lines to standard output. The same arguments always
give the same bytes. --max-run bounds the counts of all runs that are accepted,
so that a bench that goes one clock at a time stays quick; without it counts go
up to 4,294,967,295.

Each chip is a story told in phases: set the chip up for something, then poke
around the clocks and levels where that something happens. To aim at them a
story keeps a rough idea of when a timer or a shifted byte is due, of what is
latched and in service, and of where the screen stands. It's only an aim: were
it wrong, the sessions would be duller, never invalid. The stories are
interleaved in bursts, with hostile lines thrown in.
"""

import argparse
import random
import sys

HIGHEST_COUNT = 0xFFFFFFFF
EVERY_CHIP = ("22", "25", "32", "45")


class Story:
    """What the chips' stories have in common."""

    chip = 0

    def __init__(self, rng, max_run):
        self.rng = rng
        self.max_run = max_run

    def frame(self, *data):
        return bytes((self.chip, *data)).hex().upper().encode()

    def reset(self):
        return self.frame(1)

    def write(self, address, value):
        return self.frame(2, address & 255, value & 255)

    def read(self, address):
        return self.frame(3, address & 255)

    def forecast(self):
        return self.frame(6)

    def run_line(self, clocks):
        return self.frame(5, *clocks.to_bytes(4, "big"))

    def chance(self, percent):
        return self.rng.random() * 100 < percent

    def byte(self):
        """A byte with a liking for the ends and for single bits."""
        pick = self.rng.random()
        if pick < 0.15:
            return 0
        if pick < 0.30:
            return 255
        if pick < 0.45:
            return 1 << self.rng.randrange(8)
        if pick < 0.55:
            return 255 ^ (1 << self.rng.randrange(8))
        return self.rng.randrange(256)

    def bounded(self, clocks):
        clocks = max(0, min(clocks, HIGHEST_COUNT))
        if clocks > self.max_run:
            clocks %= self.max_run + 1
        return clocks

    def huge(self):
        return self.rng.choice((
            HIGHEST_COUNT, HIGHEST_COUNT - 1, 0x80000000, 0x7FFFFFFF,
            self.rng.randrange(1 << 32), self.rng.randrange(1 << 32),
            self.rng.randrange(1 << 24), self.rng.randrange(1 << 20),
            65536 * self.rng.randrange(1, 65536) + self.rng.choice((-2, -1, 0, 1)),
        ))

    def kept(self, due):
        """A forecast, a run or two, and a forecast of what is left of the first."""
        rng = self.rng
        yield self.forecast()
        for _ in range(rng.choice((1, 1, 1, 2))):
            yield self.run(draw(rng, (
                (24, rng.randrange(due + 1)), (16, due - 1), (16, due), (8, due + 1), (14, 1), (6, 0),
                (8, rng.randrange(300)), (8, self.huge()),
            )))
            if self.chance(15):
                yield self.forecast()
        yield self.forecast()

    def lines(self):
        """The whole story: phases, drawn by weight, without an end."""
        phases = self.phases()
        names = [phase for phase, _ in phases]
        weights = [weight for _, weight in phases]
        yield from self.power_up_phase()
        while True:
            phase = self.rng.choices(names, weights)[0]
            yield from phase()


def draw(rng, table):
    """One of a table's entries (weight, value)."""
    total = sum(weight for weight, _ in table)
    at = rng.random() * total
    for weight, value in table:
        at -= weight
        if at < 0:
            return value
    return table[-1][1]


class Story22(Story):
    chip = 0x22
    ALLOWED_CODES = (0, 1, 2, 3, 6, 7)
    # ACR's shift modes: in and out by the clock, in and out by pulses on CB1, and those that are refused.
    BY_CLOCK = (2, 6)
    BY_PULSE = (3, 7)
    REFUSED_MODES = (1, 4, 5)

    def __init__(self, rng, max_run):
        super().__init__(rng, max_run)
        self.acr = 0
        self.shifts = self.half = 0
        self.latch = 0xFFFF
        self.t1_due = 65536
        self.t2_low = 0xFF
        self.t2_due = 65536
        self.pa = self.pb = 255
        self.control = 15
        self.cb1 = 4

    def phases(self):
        return ((self.t1_phase, 34), (self.t2_phase, 18), (self.pulse_phase, 12), (self.edge_phase, 30),
                (self.flags_phase, 13), (self.shift_phase, 18), (self.noise_phase, 6))

    # Calls that keep the aim up to date.

    def set_acr(self, value):
        if value >> 2 & 7 not in self.REFUSED_MODES:
            self.acr = value
            self.shifts = self.half = 0
        return self.write(11, value)

    def shift_mode(self):
        return self.acr >> 2 & 7

    def by_clock(self):
        return self.shift_mode() in self.BY_CLOCK

    def by_pulse(self):
        return self.shift_mode() in self.BY_PULSE

    def shift_due(self):
        """Clocks until the last shift of a byte, if the clock shifts it and any are to come, else 0."""
        return 2 * self.shifts - self.half if self.by_clock() else 0

    def read(self, address):
        self.reach(address)
        return super().read(address)

    def write(self, address, value):
        self.reach(address)
        return super().write(address, value)

    def reach(self, register):
        """In a shift mode an access to SR begins a byte."""
        if register == 10 and self.shift_mode():
            self.shifts, self.half = 8, 0

    def t1_period(self):
        """One clock for the reload, the latch, one for the passing; in one-shot too."""
        return self.latch + 2

    def set_latch(self, value):
        # A whole period to go: the mark is set, and the reload takes the new latch. (Seldom it is a counter that is one
        # above the latch, and the aim is off.)
        marked = self.t1_due == self.t1_period()
        self.latch = value
        if marked:
            self.t1_due = self.t1_period()

    def reset(self):
        # T1 goes on from where it stands, which is 65,535 if it had a mark to lose.
        if self.t1_due == self.t1_period():
            self.t1_due = 65536
        self.acr = self.shifts = self.half = 0
        return super().reset()

    def load_t1(self, value):
        self.latch = value
        self.t1_due = value + 1
        return [self.write(self.rng.choice((4, 6)), value), self.write(5, value >> 8)]

    def load_t2(self, value):
        self.t2_low = value & 255
        self.t2_due = value + 1
        return [self.write(8, value), self.write(9, value >> 8)]

    def run(self, clocks):
        clocks = self.bounded(clocks)
        if clocks < self.t1_due:
            self.t1_due -= clocks
        else:
            self.t1_due = self.t1_period() - (clocks - self.t1_due) % self.t1_period()
        if not self.acr & 0x20:
            self.t2_due = (self.t2_due - 1 - clocks) % 65536 + 1
        if self.by_clock():
            gone = min(clocks + self.half, 2 * self.shifts)
            self.shifts -= gone // 2
            self.half = gone % 2
        return self.run_line(clocks)

    def aimed_run(self, due):
        rng = self.rng
        kind = rng.random()
        if kind < 0.34:
            return self.run(due + rng.choice((-2, -1, -1, 0, 0, 0, 1, 1, 2)))
        if kind < 0.58:
            return self.run(rng.choice((0, 1, 1, 1, 1, 2, 3)))
        if kind < 0.76:
            times = rng.choice((1, 1, 2, 2, 3, 4, 5, rng.randrange(1, 60)))
            return self.run(times * self.t1_period() + rng.choice((-1, 0, 0, 1, due, due - 1)))
        if kind < 0.84:
            return self.run(65536 * rng.randrange(1, 4) + rng.choice((-1, 0, 1, due, due - 1)))
        if kind < 0.92:
            return self.run(rng.randrange(200))
        if kind < 0.96:
            return self.run(rng.randrange(70000))
        return self.run(self.huge())

    def count(self):
        """A timer's value: small, at a byte's or word's end, or anything."""
        rng = self.rng
        return draw(rng, (
            (40, rng.randrange(9)), (12, rng.randrange(256)),
            (12, 256 * rng.randrange(1, 256) + rng.choice((-1, 0, 1))),
            (12, rng.choice((0xFFFF, 0xFFFE, 0x8000, 0x7FFF, 0x00FF, 0x0100))),
            (24, rng.randrange(65536)),
        ))

    def pins(self):
        cb1 = self.control & 4
        if cb1 > self.cb1 and self.by_pulse():
            self.shifts = (self.shifts or 8) - 1
        self.cb1 = cb1
        return self.frame(4, self.pa, self.pb, self.control)

    def any_acr(self, bits=0xE3):
        """Any of these bits of ACR, and a shift mode in every other one or so."""
        return self.rng.randrange(256) & bits | self.rng.choice((0, 0, 0, *self.BY_CLOCK, *self.BY_PULSE)) << 2

    def refused(self):
        rng = self.rng
        kind = rng.randrange(5)
        if kind == 0:
            return self.write(11, rng.randrange(256) & 0xE3 | rng.choice(self.REFUSED_MODES) << 2)
        if kind == 1:
            bad, good = rng.choice((4, 5)), rng.randrange(8)
            low = rng.randrange(2) | rng.randrange(2) << 4
            first, second = rng.choice(((bad, good), (good, bad), (bad, bad)))
            return self.write(12, low | first << 1 | second << 5)
        if kind == 2:
            return self.write(rng.choice((16, 17, 31, 32, 128, 255, rng.randrange(16, 256))), self.byte())
        if kind == 3:
            return self.read(rng.choice((16, 17, 27, 28, 128, 255, rng.randrange(16, 256))))
        return self.frame(4, self.byte(), self.byte(),
                          rng.choice((16, 17, 31, 240, 255, rng.randrange(16, 256))))

    def pcr_value(self, codes=ALLOWED_CODES):
        rng = self.rng
        return rng.randrange(2) | rng.choice(codes) << 1 | rng.randrange(2) << 4 | rng.choice(codes) << 5

    def look(self):
        """A read that shows much and changes nothing but for one of SR, or a forecast."""
        return self.shown(draw(self.rng, (
            (30, None), (25, 13), (8, 5), (4, 6), (4, 7), (8, 9), (6, 15), (2, 11), (2, 12), (3, 14), (2, 10), (2, 2),
            (2, 3),
        )))

    def shown(self, register):
        """A read of a register, or a forecast for None. (Only the read that is drawn may move the aim.)"""
        return self.forecast() if register is None else self.read(register)

    def enables(self):
        rng = self.rng
        yield self.write(14, 0x7F)
        if self.chance(90):
            yield self.write(14, 0x80 | rng.choice((0x40, 0x40, 0x20, 0x20, 0x60, 0x60, 0x7F,
                                                    0x04, 0x12, rng.randrange(128))))

    def clear_some(self):
        return self.write(13, self.rng.choice((0x40, 0x20, 0x60, 0x7F, 0xFF, 0x80, self.byte())))

    # Phases.

    def power_up_phase(self):
        """Look at everything before anything is written."""
        rng = self.rng
        registers = list(range(16))
        rng.shuffle(registers)
        for register in registers[:rng.choice((4, 16, 16))]:
            yield self.read(register)
        yield self.forecast()
        kind = rng.randrange(5)
        if kind == 0:
            # What T1 and T2 do when they pass zero without having been loaded.
            yield self.write(14, 0xE0)
            yield self.set_acr(rng.choice((0, 0x40, 0x80, 0xC0)))
            yield self.forecast()
            yield self.run(65535)
            yield self.run(1)
            yield self.run(1)
            yield from (self.read(register) for register in (13, 0, 4, 5, 8, 9))
        elif kind == 1:
            # Levels that were high from the start: these are edges, or none.
            self.pa, self.pb, self.control = self.byte(), self.byte(), rng.randrange(16)
            yield self.write(12, rng.choice((0, 0, self.pcr_value())))
            yield self.pins()
            yield self.read(13)
        elif kind == 2:
            # The T2 low latch, and half a T1 latch, as they came.
            yield self.write(9, rng.randrange(3))
            yield self.write(5, rng.randrange(3))
            yield from (self.read(register) for register in (4, 5, 6, 7, 8, 9))
        elif kind == 3:
            # A shift mode before any access to SR: clocks shift nothing, and a pulse is the first of eight.
            yield self.set_acr(self.shifting_acr())
            yield self.write(14, 0x84)
            yield self.run(16)
            yield from self.pulses(8)
            yield from (self.read(register) for register in (13, 10, 13))

    def t1_phase(self):
        rng = self.rng
        if self.chance(10):
            yield self.reset()
        if self.chance(90):
            yield self.set_acr(rng.choice((0x40, 0xC0, 0xC0, 0x00, 0x80, 0x80, self.any_acr())))
        yield from self.enables()
        if self.chance(30):
            yield self.write(2, self.byte())
        yield from self.load_t1(self.count())
        for _ in range(rng.randrange(6, 50)):
            yield from draw(rng, (
                (46, self.t1_run), (14, self.t1_look), (9, self.t1_read_4), (6, self.t1_pb7),
                (7, self.t1_latch), (4, self.t1_switch), (3, self.t1_again), (4, self.t1_clear),
                (2, self.t1_enables), (1, self.t1_reset), (2, self.t1_refused), (2, self.t1_store),
                (4, self.t1_watch), (9, self.t1_kept),
            ))()

    def t1_run(self):
        yield self.aimed_run(self.t1_due)

    def t1_look(self):
        yield self.look()

    def t1_read_4(self):
        yield self.read(4)
        if self.chance(40):
            yield self.forecast()

    def t1_pb7(self):
        if not self.acr & 0x80 and self.chance(30):
            yield self.set_acr(self.acr | 0x80)
        yield self.read(0)

    def t1_latch(self):
        rng = self.rng
        value = self.count()
        # Write 6 or 4 gives the low half, 7 the high one; a change at the
        # passing itself shows which latch the reload takes.
        if self.chance(50):
            yield self.run(self.t1_due)
        if self.chance(75):
            self.set_latch(self.latch & 0xFF00 | value & 255)
            yield self.write(rng.choice((4, 6)), value)
        if self.chance(60):
            self.set_latch(self.latch & 255 | value & 0xFF00)
            yield self.write(7, value >> 8)
        if self.chance(50):
            yield self.forecast()
        yield self.run(rng.choice((1, 1, 2, self.t1_due)))
        if self.chance(50):
            yield self.read(rng.choice((4, 5)))

    def t1_switch(self):
        if self.chance(50):
            yield self.run(self.t1_due)
        yield self.set_acr(self.acr ^ self.rng.choice((0x40, 0x40, 0x40, 0x80, 0xC0, 0x20)))
        if self.chance(50):
            yield self.forecast()

    def t1_again(self):
        if self.chance(60):
            yield from self.load_t1(self.count())
        else:
            high = self.rng.choice((0, 0, self.latch >> 8, self.byte()))
            self.latch = self.latch & 255 | high << 8
            self.t1_due = self.latch + 1
            yield self.write(5, high)

    def t1_clear(self):
        yield self.clear_some()

    def t1_enables(self):
        yield self.write(14, self.byte())

    def t1_reset(self):
        if self.chance(60):
            yield self.run(self.t1_due)
        yield self.reset()
        yield self.write(14, 0xE0)
        if self.chance(70):
            yield self.set_acr(self.rng.choice((0x40, 0x80, 0xC0)))

    def t1_refused(self):
        yield self.refused()

    def t1_store(self):
        yield self.write(self.rng.choice((0, 1, 2, 3, 10, 15)), self.byte())

    def t1_watch(self):
        """A few passings on end, most of them in one-shot, and calls between passing and reload."""
        rng = self.rng
        if self.chance(60):
            yield self.set_acr(self.acr & 0x3F | rng.choice((0x00, 0x80, 0x80, 0xC0, 0xC0)))
        if self.chance(50):
            yield from self.load_t1(draw(rng, ((70, rng.randrange(5)), (30, self.count()))))
        elif self.chance(40):
            yield from self.t1_low()
        for _ in range(rng.randrange(2, 6)):
            if self.chance(30):
                yield self.run(self.t1_due - 1)
                yield self.t1_show()
            yield self.run(self.t1_due)
            if self.chance(60):
                yield self.t1_show()
            # The mark is set now: what is done here comes before the reload.
            if self.chance(60):
                yield from draw(rng, (
                    (26, self.t1_latch), (26, self.t1_switch), (14, self.t1_again), (9, self.t1_reset),
                    (9, self.t1_clear), (8, self.t1_enables), (8, self.t1_look),
                ))()
            if self.chance(50):
                yield self.run(1)
                yield self.t1_show()

    def t1_kept(self):
        """Forecasts across runs, mostly in free-run with T1's flag clear and alone enabled; a reload to come or not."""
        if self.chance(70):
            yield self.set_acr(self.acr | 0x40)
        if self.chance(60):
            yield self.write(14, 0x3F)
            yield self.write(14, 0xC0)
        if self.chance(40):
            yield self.run(self.t1_due)
        if self.chance(15):
            self.set_latch(0xFFFF)
            yield self.write(6, 255)
            yield self.write(7, 255)
        if self.chance(75):
            yield self.rng.choice((self.read(4), self.clear_some()))
        yield from self.kept(self.t1_due)

    def t1_low(self):
        """Disarmed in one-shot, then PB7 inverted in free-run: further one-shot passings leave it low."""
        yield from self.load_t1(self.rng.randrange(5))
        for mode in (0x80, 0xC0):
            yield self.set_acr(mode)
            yield self.run(self.t1_due)
        yield self.set_acr(0x80)

    def t1_show(self):
        """What of T1 can be seen: its counter, its flag, PB7, and when the line is due."""
        return draw(self.rng, ((25, self.read(0)), (25, self.read(4)), (20, self.read(5)), (15, self.read(13)),
                               (15, self.forecast())))

    def t2_phase(self):
        rng = self.rng
        if self.chance(85):
            yield self.set_acr(rng.choice((0, 0x40, 0x80, self.any_acr(0xC3))))
        yield from self.enables()
        yield from self.load_t2(self.count())
        for _ in range(rng.randrange(5, 30)):
            kind = rng.random()
            if kind < 0.40:
                yield self.aimed_run(self.t2_due)
            elif kind < 0.45:
                if self.chance(60):
                    yield self.write(14, 0x5F)
                    yield self.write(14, 0xA0)
                    yield from self.load_t2(self.count())
                yield from self.kept(self.t2_due)
            elif kind < 0.62:
                yield self.look()
            elif kind < 0.72:
                yield self.read(8)
            elif kind < 0.77:
                value = self.byte()
                yield self.write(8, value)
                self.t2_low = value
            elif kind < 0.81:
                high = rng.choice((0, 0, self.byte()))
                self.t2_due = high * 256 + self.t2_low + 1
                yield self.write(9, high)
            elif kind < 0.86:
                yield self.clear_some()
            elif kind < 0.90:
                yield self.set_acr(self.acr ^ 0x20)
                yield self.run(rng.choice((1, 5, self.t2_due)))
            elif kind < 0.93:
                yield from self.load_t1(self.count())
            elif kind < 0.96:
                yield self.write(14, self.byte())
            elif kind < 0.97:
                yield self.reset()
                yield self.write(14, 0xA0)
            else:
                yield self.refused()

    def pulse_phase(self):
        rng = self.rng
        yield self.set_acr(0x20 | rng.choice((0, 0x40, 0xC3, self.any_acr())))
        yield from self.enables()
        yield from self.load_t2(draw(rng, ((70, rng.randrange(6)), (15, 256), (15, self.count()))))
        if self.chance(40):
            yield self.write(2, self.byte())
        for _ in range(rng.randrange(8, 40)):
            kind = rng.random()
            if kind < 0.58:
                self.pb ^= 0x40
                if self.chance(20):
                    self.pb = rng.randrange(256)
                yield self.pins()
            elif kind < 0.68:
                yield self.look()
            elif kind < 0.74:
                yield self.read(rng.choice((8, 9, 13)))
            elif kind < 0.80:
                yield self.run(rng.choice((0, 1, 3, 300, 70000)))
            elif kind < 0.85:
                yield self.set_acr(self.acr ^ 0x20)
            elif kind < 0.90:
                yield from self.load_t2(rng.randrange(4))
            elif kind < 0.93:
                yield self.clear_some()
            elif kind < 0.95:
                yield self.write(2, self.byte())
            elif kind < 0.97:
                yield self.write(0, self.byte())
            else:
                yield self.refused()

    def edge_phase(self):
        rng = self.rng
        yield self.set_acr(rng.choice((0, 1, 2, 3, 3, 3, 0x83, 0xC3, self.any_acr(), self.any_acr(), self.any_acr(3))))
        yield self.write(12, self.pcr_value())
        yield from self.some_enables() if self.chance(60) else self.enables()
        yield self.write(2, self.byte())
        yield self.write(3, self.byte())
        for _ in range(rng.randrange(10, 60)):
            yield from draw(rng, (
                (34, self.edge_pins), (9, self.edge_read_a), (9, self.edge_read_b),
                (6, self.edge_read_15), (8, self.edge_ifr), (5, self.edge_port_write),
                (4, self.edge_ddr), (4, self.edge_pcr), (3, self.edge_acr), (4, self.edge_clear),
                (3, self.edge_enables), (3, self.t1_look), (3, self.edge_timer), (2, self.t1_refused),
                (1, self.edge_reset), (2, self.edge_sr),
            ))()

    def edge_pins(self):
        rng = self.rng
        if self.chance(60):
            self.pa = rng.randrange(256)
        if self.chance(60):
            self.pb = rng.randrange(256)
        for _ in range(rng.choice((1, 1, 1, 2, 3))):
            self.control ^= 1 << rng.randrange(4)
        if self.chance(10):
            self.control = rng.randrange(16)
        yield self.pins()
        if self.chance(25):
            yield self.read(13)

    def edge_read_a(self):
        yield self.read(1)

    def edge_read_b(self):
        yield self.read(0)

    def edge_read_15(self):
        yield self.read(15)

    def edge_ifr(self):
        yield self.read(13)

    def edge_port_write(self):
        yield self.write(self.rng.choice((0, 1, 15)), self.byte())

    def edge_ddr(self):
        yield self.write(self.rng.choice((2, 3)), self.byte())

    def edge_pcr(self):
        yield self.write(12, self.pcr_value())
        if self.chance(30):
            yield self.read(12)

    def edge_acr(self):
        yield self.set_acr(self.acr ^ self.rng.choice((1, 2, 3, 0x80)))

    def edge_clear(self):
        yield self.write(13, self.rng.choice((1, 2, 8, 0x10, 0x1B, 0x80, 0x7F, self.byte())))

    def edge_enables(self):
        yield self.write(14, self.rng.choice((0x80, 0)) | 1 << self.rng.randrange(7))
        if self.chance(30):
            yield self.read(14)

    def edge_timer(self):
        if self.chance(50):
            yield from self.load_t1(self.rng.randrange(6))
        yield self.run(self.rng.randrange(8))

    def edge_reset(self):
        yield self.reset()
        yield self.set_acr(3)

    def edge_sr(self):
        yield self.write(10, self.byte())
        yield self.read(10)

    def flags_phase(self):
        """Some flags set, some of them enabled, and reads that clear a part of them."""
        rng = self.rng
        yield self.set_acr(rng.choice((0, 0x40, 0x03, 0xC3, *(self.any_acr(0xC3) for _ in range(4)))))
        for _ in range(rng.randrange(4, 14)):
            if self.chance(40):
                yield self.write(12, self.pcr_value((0, 0, 1, 2, 2, 3, 6)))
            if self.chance(40):
                yield from self.some_enables()
            if self.chance(40):
                yield self.write(13, rng.choice((0x7F, 0x7F, rng.randrange(128))))
            yield from self.set_flags()
            for _ in range(rng.randrange(1, 6)):
                yield self.clearing_read()
            if self.chance(30):
                yield self.forecast()

    def some_enables(self):
        """All, none, or about half of the seven."""
        yield self.write(14, 0x7F)
        yield self.write(14, 0x80 | self.rng.choice((0x7F, 0, self.rng.randrange(128), self.rng.randrange(128))))

    def set_flags(self):
        """Control lines moved there and back, which every code with edges sees; a byte shifted; timers past zero."""
        rng = self.rng
        moved = rng.choice((0, 1, 2, 2, 4, 8, 8, 3, 12, 15, rng.randrange(16)))
        for _ in range(2 if moved else 0):
            self.control ^= moved
            yield self.pins()
        if self.by_clock() and self.chance(60):
            yield self.sr_access()
            yield self.run(16)
        elif self.by_pulse() and self.chance(30):
            yield from self.pulses(self.shifts or 8)
        timers = rng.choice((0, 0, 1, 2, 2, 3))
        if timers & 1:
            yield from self.load_t1(rng.randrange(3))
        if timers & 2:
            yield from self.load_t2(rng.randrange(3))
        if timers:
            yield self.run(3)

    def clearing_read(self):
        """A read of a register that clears flags, for the most part, or of one that is easily taken for such."""
        return self.read(draw(self.rng, (
            (26, 0), (26, 1), (11, 4), (15, 8), (9, 10), (5, 13), (6, 15), (3, 5), (3, 9), (2, self.rng.randrange(16)),
        )))

    def shift_phase(self):
        """Bytes that go in or out, by the clock or by CB1, and what may come in the middle of one."""
        rng = self.rng
        if self.chance(8):
            yield self.reset()
        yield self.set_acr(self.shifting_acr())
        if self.chance(60):
            yield self.write(12, self.pcr_value())
        yield from self.shift_enables()
        if self.chance(85):
            yield self.sr_access()
        for _ in range(rng.randrange(8, 40)):
            yield from draw(rng, (
                (36, self.shift_on), (7, self.shift_byte), (8, self.shift_access), (6, self.shift_level),
                (9, self.shift_switch), (4, self.shift_clear), (9, self.shift_kept), (10, self.shift_look),
                (5, self.shift_beside), (2, self.shift_reset), (2, self.shift_enables), (2, self.t1_refused),
                (2, self.edge_pcr),
            ))()

    def shifting_acr(self, modes=BY_CLOCK + BY_PULSE):
        rng = self.rng
        return rng.choice(modes) << 2 | rng.choice((0, 0, 0, 0x03, 0x40, 0xC0, 0x20, rng.randrange(256) & 0xE3))

    def shift_enables(self):
        """SR's flag alone, more often than not; or with a timer's, or CB1's."""
        yield self.write(14, 0x7F)
        if self.chance(95):
            yield self.write(14, 0x80 | self.rng.choice((0x04, 0x04, 0x04, 0x04, 0x44, 0x24, 0x64, 0x14, 0x7F,
                                                         self.rng.randrange(128))))

    def sr_access(self):
        rng = self.rng
        if self.chance(45):
            return self.read(10)
        return self.write(10, rng.choice((rng.randrange(256), rng.randrange(256), self.byte())))

    def pulses(self, count):
        """CB1 up so often, and down before it; CB2 moves in the same call, in one of its own, or not."""
        rng = self.rng
        for _ in range(count):
            for level in (0, 4) if self.control & 4 else (4,):
                if self.chance(8):
                    self.control ^= rng.choice((8, 8, 1, 2, 0))
                    yield self.pins()
                if self.chance(3):
                    # Refused, so it moves nothing.
                    yield self.frame(4, self.pa, self.pb, rng.choice((16, 32, 128, 240)) | rng.randrange(16))
                self.control = self.control & 11 | level
                if self.chance(50):
                    self.control ^= 8
                if self.chance(10):
                    self.pa, self.pb = rng.randrange(256), rng.randrange(256)
                if self.acr & 0x20:
                    # T2 counts pulses too, in the same calls.
                    self.pb ^= 0x40
                yield self.pins()
        if self.acr & 0x20 and self.chance(50):
            yield self.read(8)

    def shift_show(self):
        """What of a byte can be seen: when the line is due, its flag, and SR, whose read begins the byte anew."""
        return self.shown(draw(self.rng, ((42, None), (34, 13), (24, 10))))

    def shift_run(self):
        """A few clocks, odd or even, or about as many as the byte still takes."""
        rng = self.rng
        return self.run(draw(rng, (
            (30, 1), (10, 2), (9, 3), (17, rng.randrange(17)), (4, 0), (5, rng.randrange(300)),
            (14, self.shift_due() + rng.choice((-1, -1, 0, 0, 0, 1, 2))), (4, self.t1_due), (3, self.t2_due),
            (4, self.huge()),
        )))

    def shift_on(self):
        """A little of what the mode shifts by; now and then of what it doesn't."""
        if self.shift_mode() == 0 and self.chance(25):
            yield self.set_acr(self.shifting_acr())
        if self.by_clock() and not self.shifts and self.chance(50):
            yield self.sr_access()
        if self.by_pulse() != self.chance(15):
            yield from self.pulses(self.rng.choice((1, 1, 1, 2, 3)))
        else:
            yield self.shift_run()
        if self.chance(30):
            yield self.shift_show()

    def shift_middle(self):
        """Some shifts of a byte done and some to come, unless it is so already; for the most part."""
        if self.shifts % 8 or self.chance(25):
            return
        if self.by_clock():
            yield self.sr_access()
            yield self.run(self.rng.randrange(1, 16))
        elif self.by_pulse():
            yield from self.pulses(self.rng.choice((1, 1, 2, 3, 7)))

    def shift_byte(self):
        """A byte to its end, one shift short of it, or beyond it, with CB2 at one level and another."""
        rng = self.rng
        if self.chance(50):
            yield self.sr_access()
        if self.by_pulse():
            yield from self.pulses((self.shifts or 8) + rng.choice((-1, 0, 0, 0, 1, 8, 9)))
        else:
            for _ in range(rng.randrange(2, 9)):
                if self.chance(60):
                    yield from self.shift_level()
                yield self.run(rng.choice((1, 1, 2, 2, 2, 3, 4)))
            yield self.run(self.shift_due() + rng.choice((-1, 0, 0, 1)))
        if self.chance(60):
            yield self.read(13)
        if self.chance(12):
            # The flag outlives its mode.
            yield self.set_acr(self.acr & 0xE3)
            yield self.sr_access()
        yield self.shift_show()

    def shift_access(self):
        yield from self.shift_middle()
        yield self.sr_access()
        if self.chance(40):
            yield self.shift_show()

    def shift_level(self):
        self.control ^= 8
        yield self.pins()

    def shift_look(self):
        yield self.shift_show() if self.chance(75) else self.look()

    def shift_switch(self):
        """ACR written in the middle of a byte: the same again, another mode, none, or one that is refused."""
        rng = self.rng
        yield from self.shift_middle()
        mode = draw(rng, (
            (22, self.shift_mode()), (44, rng.choice(self.BY_CLOCK + self.BY_PULSE)), (10, 0),
            (24, rng.choice(self.REFUSED_MODES)),
        ))
        yield self.set_acr(self.acr & 0xE3 ^ rng.choice((0, 0, 0, 0x03, 0x20, 0x40, 0x80)) | mode << 2)
        if self.chance(60):
            yield self.shift_show()
        # No access since then, so the clocks of a new mode shift nothing, and its pulses are the first of eight.
        if self.by_pulse() and self.chance(40):
            yield from self.pulses(8)
        elif self.chance(40):
            yield from self.shift_on()
        if self.chance(40):
            yield self.sr_access()

    def shift_clear(self):
        if self.chance(40):
            yield from self.shift_middle()
        yield self.write(13, self.rng.choice((4, 4, 0x84, 0x7F, 0x7B, 0x80, self.byte())))
        if self.chance(50):
            yield self.shift_show()

    def shift_kept(self):
        """Forecasts across runs, mostly with SR's flag alone enabled, from any clock of a byte, odd or even."""
        if not self.by_clock() and self.chance(50):
            yield self.set_acr(self.shifting_acr(self.BY_CLOCK))
        if self.chance(65):
            yield self.write(14, 0x7B)
            yield self.write(14, 0x84)
        if self.chance(75):
            yield self.sr_access()
        if self.chance(60):
            yield self.run(self.rng.randrange(16))
        yield from self.kept(self.shift_due())

    def shift_beside(self):
        """A byte and a timer or two, due at the same clock or nearly, all of them enabled."""
        rng = self.rng
        if not self.by_clock() and self.chance(80):
            yield self.set_acr(self.shifting_acr(self.BY_CLOCK))
        if self.chance(80):
            yield self.write(14, 0x7F)
            yield self.write(14, rng.choice((0xC4, 0xA4, 0xE4, 0xE4)))
        if self.chance(75):
            yield self.sr_access()
        if self.chance(30):
            yield self.run(rng.randrange(9))
        near = self.shift_due() - 1
        timers = rng.choice((1, 2, 3, 3))
        if timers & 1:
            yield from self.load_t1(max(0, near + rng.choice((-5, -1, 0, 1, 4))))
        if timers & 2:
            yield from self.load_t2(max(0, near + rng.choice((-5, -1, 0, 1, 4))))
        yield from self.kept(self.shift_due())
        if self.chance(50):
            yield self.read(13)

    def shift_reset(self):
        """A byte broken off by a reset: nothing of it may be left for the next mode."""
        yield from self.shift_middle()
        yield self.reset()
        if self.chance(50):
            yield self.shift_run()
        yield self.set_acr(self.shifting_acr())
        yield self.write(14, 0x84)
        yield self.shift_show()
        if self.chance(50):
            yield from self.shift_on()
        if self.chance(50):
            yield self.sr_access()

    def noise_phase(self):
        rng = self.rng
        for _ in range(rng.randrange(5, 40)):
            kind = rng.random()
            if kind < 0.35:
                register, value = rng.randrange(16), rng.randrange(256)
                if register == 11:
                    yield self.set_acr(rng.choice((value & 0xE3, self.any_acr(), value)))
                elif register == 5:
                    self.latch = self.latch & 255 | value << 8
                    self.t1_due = self.latch + 1
                    yield self.write(5, value)
                else:
                    yield self.write(register, value)
            elif kind < 0.65:
                yield self.read(rng.randrange(16))
            elif kind < 0.80:
                self.pa, self.pb = rng.randrange(256), rng.randrange(256)
                self.control = rng.randrange(16)
                yield self.pins()
            elif kind < 0.93:
                yield self.aimed_run(rng.choice((self.t1_due, self.t2_due)))
            elif kind < 0.97:
                yield self.forecast()
            elif kind < 0.98:
                yield self.reset()
            else:
                yield self.refused()


class Story25(Story):
    chip = 0x25
    # Bits of CR: the interrupt mode, priority, and rising edges of I3 and I4.
    MODE, PRIORITY, RISING = 0x01, 0x02, 0x0C
    INPUTS = 0x1F

    def __init__(self, rng, max_run):
        super().__init__(rng, max_run)
        self.pa = self.pb = self.pc = 255
        self.cr = self.mask = self.latch = self.served = 0

    def phases(self):
        return ((self.priority_phase, 30), (self.together_phase, 17), (self.mask_phase, 13), (self.switch_phase, 14),
                (self.edge_phase, 16), (self.port_phase, 18), (self.noise_phase, 9))

    # Calls that keep the aim up to date.

    def reset(self):
        self.cr = self.mask = self.latch = self.served = 0
        return super().reset()

    def write(self, address, value):
        if address == 5:
            self.mask = value & self.INPUTS
        elif address == 6:
            self.cr = value
        elif address == 2 and self.interrupting():
            self.latch &= value
        elif address == 7 and self.interrupting():
            self.served &= ~self.highest(self.served) if self.cr & self.PRIORITY else 0
        return super().write(address, value)

    def read(self, address):
        if address == 7:
            shown = self.active()
            self.latch &= ~shown
            self.served |= shown
        return super().read(address)

    def pins(self, levels):
        """Port C moved to these levels, and what that latches."""
        if self.interrupting():
            self.latch |= (self.pc ^ levels) & ~(levels ^ self.rising()) & self.INPUTS
        self.pc = levels
        return self.frame(4, self.pa, self.pb, levels)

    def run(self):
        """A clock changes nothing in this chip."""
        return self.run_line(self.bounded(draw(self.rng, (
            (20, 0), (30, 1), (25, self.rng.randrange(20)), (10, self.rng.randrange(70_000)), (15, self.huge()),
        ))))

    def interrupting(self):
        return bool(self.cr & self.MODE)

    def rising(self):
        """The inputs whose rising edges are looked for."""
        return (self.cr & self.RISING) << 1

    def highest(self, inputs):
        return 1 << inputs.bit_length() - 1 if inputs else 0

    def active(self):
        """What AIR shows."""
        inputs = self.latch & self.mask if self.interrupting() else 0
        return self.highest(inputs) if self.cr & self.PRIORITY else inputs

    def asserted(self):
        if self.cr & self.PRIORITY:
            return self.active() > self.served
        return self.active() != 0 and self.served == 0

    # What the phases are made of.

    def look(self):
        """Something that changes nothing: PRC for the most part, for it shows the interrupt pin."""
        register = draw(self.rng, ((46, 2), (9, 6), (9, 5), (7, 0), (7, 1), (4, 3), (4, 4), (14, None)))
        return self.run() if register is None else self.read(register)

    def looks(self, percent=70):
        while self.chance(percent):
            yield self.look()
            percent //= 3

    def any_cr(self, bits=0x0F, fixed=0):
        """Any of these bits of CR beside the fixed ones, and CA's and CB's as they come."""
        return self.rng.randrange(256) & (0xF0 | bits) | fixed

    def set_cr(self, value):
        """CR with other bits for CA and CB now and then, which do nothing."""
        return self.write(6, value ^ (self.rng.randrange(16) << 4 if self.chance(40) else 0))

    def set_mask(self, inputs):
        """The mask, below any three bits of DDRC."""
        return self.write(5, inputs | self.rng.randrange(8) << 5)

    def any_mask(self):
        rng = self.rng
        one = 1 << rng.randrange(5)
        return draw(rng, ((40, 31), (8, 0), (16, 31 ^ one), (8, one), (28, rng.randrange(32))))

    def one_of(self, inputs):
        """One of these inputs, seldom more of them; any where there are none."""
        rng = self.rng
        some = [1 << place for place in range(5) if inputs >> place & 1]
        if not some:
            return 1 << rng.randrange(5)
        return rng.choice(some) | (rng.randrange(32) & inputs if self.chance(12) else 0)

    def above(self):
        """The inputs that nothing in service holds back with priority on."""
        return self.INPUTS >> self.served.bit_length() << self.served.bit_length()

    def strike(self, inputs):
        """The edges of these inputs that are looked for, after the other ones where they have to come first."""
        rng = self.rng
        back = inputs & ~(self.pc ^ self.rising())
        if back:
            yield self.pins(self.pc ^ back)
        if self.chance(20):
            self.pa, self.pb = self.byte(), self.byte()
        levels = self.pc & ~inputs | self.rising() & inputs
        if self.chance(20):
            levels ^= rng.randrange(8) << 5
        yield self.pins(levels)

    def set_up(self, cr, mask):
        """CR and the mask, in either order, sometimes from a reset or with nothing latched or in service."""
        rng = self.rng
        if self.chance(12):
            yield self.reset()
        settings = [(self.set_cr, cr), (self.set_mask, mask)]
        rng.shuffle(settings)
        for setting, value in settings:
            yield setting(value)
        if self.chance(50):
            yield from self.settle()

    def settle(self):
        """Latch and service emptied as firmware would."""
        if self.latch or self.chance(20):
            yield self.write(2, self.rng.choice((0, 0, 0xE0, 0x20)))
        while self.served and self.interrupting():
            yield self.write(7, self.byte())

    def answer(self, percent=85):
        """AIR read where the interrupt asks for it, for the most part."""
        if self.asserted() and self.chance(percent):
            yield self.read(7)
            yield from self.looks(40)

    def higher(self):
        yield from self.strike(self.one_of(self.above()))
        yield from self.looks(30)
        yield from self.answer()

    def same(self):
        """An input that is in service comes again."""
        yield from self.strike(self.one_of(self.served))
        yield from self.looks(50)
        yield from self.answer()

    def lower(self):
        """An input that is held back, most often one that is not in service itself."""
        yield from self.strike(self.one_of(self.INPUTS & ~self.above() & ~self.served or self.INPUTS & ~self.above()))
        yield from self.looks(50)
        yield from self.answer()

    def several(self):
        yield from self.strike(self.rng.randrange(1, 32))
        yield from self.looks(40)
        yield from self.answer()

    def end(self):
        """AIR written, and what waited for that."""
        yield self.write(7, self.byte())
        yield from self.looks(60)
        yield from self.answer(70)

    def end_all(self):
        """AIR written again and again, once too often now and then."""
        for _ in range(bin(self.served).count("1") + self.rng.choice((0, 0, 0, 1, 2))):
            yield from self.end()

    def nest(self):
        """Services one in another, two to five deep, with lower inputs that wait, and then their ends."""
        rng = self.rng
        if self.chance(80):
            yield from self.settle()
        for place in sorted(rng.sample(range(5), rng.choice((2, 2, 2, 3, 3, 4, 5)))):
            yield from self.strike(1 << place)
            yield from self.looks(20)
            if self.asserted() or self.chance(10):
                yield self.read(7)
                yield from self.looks(20)
            if self.chance(25):
                yield from self.lower()
            elif self.chance(15):
                yield from self.same()
        if self.chance(85):
            yield from self.end_all()

    def extra_read(self):
        """AIR read without being asked, twice or thrice at times."""
        for _ in range(self.rng.choice((1, 1, 2, 3))):
            yield self.read(7)
        yield from self.looks(40)

    def extra_write(self):
        yield self.write(7, self.byte())
        yield from self.looks(40)

    def show_latch(self):
        """Everything unmasked, and AIR read until it shows no more."""
        yield self.set_mask(31)
        for _ in range(6):
            yield self.read(7)
            if not self.active() and self.chance(60):
                break

    def show_served(self):
        """Inputs from the lowest up, until one interrupts: that is the first above those in service."""
        for place in range(5):
            yield from self.strike(1 << place)
            if self.asserted():
                break
        yield from self.answer()

    def unwind(self):
        """Services ended from the highest down, with an input of them that comes alone and waits for its own end."""
        while self.served and self.interrupting():
            if self.latch and self.chance(75):
                yield self.write(2, 0)
            yield from self.strike(self.rng.choice((self.highest(self.served), self.served & -self.served)))
            yield self.write(7, self.byte())
            yield from self.looks(30)

    def remask(self):
        yield self.set_mask(self.any_mask())
        yield from self.looks(60)
        yield from self.answer(50)

    def mask_served(self):
        """What is in service masked, and an input beside it."""
        yield self.set_mask(self.INPUTS & ~(self.served or self.one_of(self.INPUTS)))
        yield from self.strike(self.one_of(self.mask))
        yield from self.looks(50)
        yield from self.answer(60)

    def hide(self):
        """Masked inputs that come, and are unmasked later."""
        hidden = self.rng.randrange(1, 32)
        yield self.set_mask(self.any_mask() & ~hidden)
        yield from self.strike(hidden)
        yield from self.looks(30)
        if self.chance(30):
            yield self.read(7)
        if self.chance(30):
            yield from self.end()
        yield self.set_mask(self.mask | self.rng.choice((hidden, hidden, self.one_of(hidden), 31)))
        yield from self.looks(50)
        yield from self.answer()

    def clear_some(self):
        """PRC written: zeros take latched inputs away, ones over others set none."""
        rng = self.rng
        if self.chance(60):
            yield from self.strike(rng.randrange(1, 32))
        kept = draw(rng, ((40, rng.randrange(32)), (15, ~self.latch & 31), (15, ~self.highest(self.latch) & 31),
                          (10, self.one_of(self.latch)), (10, 31), (10, 0)))
        yield self.write(2, kept | rng.randrange(8) << 5)
        yield from self.looks(50)
        if self.chance(35):
            yield from self.show_latch()
        else:
            yield from self.answer(60)

    def switch_priority(self):
        yield self.set_cr(self.cr ^ self.PRIORITY)
        yield from self.looks(60)
        yield from self.unwind() if self.chance(30) else self.answer(50)

    def switch_edges(self):
        """Other edges of I4 and I3 from now on; the levels make none."""
        yield self.set_cr(self.cr ^ self.rng.choice((0x04, 0x08, 0x0C)))
        yield from self.looks(50)
        if self.chance(50):
            yield self.pins(self.pc ^ self.rng.choice((0x08, 0x10, 0x18)))

    def switch_mode(self):
        """Port C is a port for a while, and latch and service stay as they are."""
        rng = self.rng
        yield self.set_cr(self.cr & ~self.MODE)
        for _ in range(rng.randrange(6)):
            yield from draw(rng, (
                (18, self.extra_read), (18, self.extra_write), (18, self.move), (12, self.write_c), (8, self.remask),
                (5, self.switch_priority), (5, self.switch_edges), (16, self.looks),
            ))()
        yield self.set_cr(self.cr | self.MODE)
        yield from self.looks(70)
        yield from draw(rng, (
            (26, self.answer), (20, self.show_latch), (16, self.show_served), (16, self.end_all), (16, self.unwind),
            (6, self.looks),
        ))()

    def write_c(self):
        yield self.write(2, self.byte())
        yield from self.looks(60)

    def move(self):
        """Levels moved either way, one or several of them, or none."""
        rng = self.rng
        if self.chance(30):
            self.pa, self.pb = self.byte(), self.byte()
        yield self.pins(self.pc ^ draw(rng, (
            (40, 1 << rng.randrange(5)), (12, 0), (20, rng.randrange(32)), (20, rng.randrange(256)), (8, 31),
        )))
        yield from self.looks(40)

    def break_off(self):
        """A reset in the midst of it, and nothing may be left when the mode is on again."""
        rng = self.rng
        cr, mask = self.cr, self.mask
        yield self.reset()
        yield from self.looks(50)
        if self.chance(85):
            yield self.set_cr(cr | self.MODE)
            yield self.set_mask(rng.choice((mask, 31)))
            yield from self.looks(40)
            yield from draw(rng, ((40, self.show_served), (30, self.extra_read), (15, self.end), (15, self.nest)))()

    def touch_port(self):
        """An output byte or a direction of port A or B."""
        rng = self.rng
        register = rng.choice((0, 0, 1, 1, 3, 4))
        yield self.write(register, self.byte())
        yield self.read(rng.choice((register, 0, 1)))
        if self.chance(50):
            # Neither drives PC7 or PC6, whatever CR says of CB and CA.
            yield self.read(2)

    def refused(self):
        rng = self.rng
        high = rng.choice((8, 8, 8, 9, 15, 16, 128, 255, 255, rng.randrange(8, 256)))
        if self.chance(40):
            yield from self.strike(self.one_of(self.above() & self.mask))
        yield draw(rng, (
            (28, self.frame(3, high)), (28, self.frame(2, high, self.byte())), (12, self.forecast()),
            (12, self.frame(7, *rng.randrange(300).to_bytes(4, "big"))), (10, self.frame(4, self.byte(), self.byte())),
            (10, self.frame(4, *(self.byte() for _ in range(4)))),
        ))
        yield from self.looks(30)

    # Phases.

    def power_up_phase(self):
        """Look at everything before anything is written."""
        rng = self.rng
        registers = list(range(8))
        rng.shuffle(registers)
        for register in registers:
            yield self.read(register)
        if self.chance(85):
            # Output bytes that nobody has written.
            for register in (3, 4, 5):
                yield self.write(register, 255)
            yield from (self.read(register) for register in (0, 1, 2))
        # All inputs fall, from levels that were high from the start; sometimes once before the mode is on.
        if self.chance(40):
            yield self.pins(self.byte() & 0xE0)
        yield self.write(6, self.any_cr(0x02, self.MODE))
        yield self.set_mask(31)
        yield from self.strike(31)
        yield from self.show_latch()

    def priority_phase(self):
        """Priority on: what is higher interrupts a service, what is not waits for its end."""
        rng = self.rng
        yield from self.set_up(self.any_cr(0x0C, self.MODE | self.PRIORITY), rng.choice((31, 31, 31, self.any_mask())))
        for _ in range(rng.randrange(5, 25)):
            yield from draw(rng, (
                (22, self.nest), (16, self.higher), (12, self.lower), (7, self.same), (10, self.several),
                (12, self.end), (5, self.end_all), (4, self.extra_read), (4, self.extra_write), (3, self.remask),
                (3, self.mask_served), (6, self.clear_some), (3, self.switch_priority), (2, self.switch_mode),
                (2, self.show_served), (3, self.unwind), (2, self.move), (1, self.break_off), (4, self.touch_port),
                (2, self.refused), (2, self.looks),
            ))()

    def together_phase(self):
        """Priority off: all that is latched shows at once, and nothing interrupts while anything is in service."""
        rng = self.rng
        yield from self.set_up(self.any_cr(0x0C, self.MODE), rng.choice((31, 31, self.any_mask())))
        for _ in range(rng.randrange(5, 25)):
            yield from draw(rng, (
                (30, self.several), (14, self.higher), (12, self.lower), (8, self.same), (20, self.end),
                (5, self.extra_read), (5, self.extra_write), (6, self.remask), (4, self.mask_served),
                (8, self.clear_some), (6, self.switch_priority), (3, self.switch_mode), (2, self.move),
                (1, self.break_off), (4, self.touch_port), (2, self.refused),
            ))()

    def mask_phase(self):
        """Masked inputs are latched all the same, and show once they are unmasked."""
        rng = self.rng
        yield from self.set_up(self.any_cr(0x0E, self.MODE), self.any_mask())
        for _ in range(rng.randrange(4, 16)):
            yield from draw(rng, (
                (30, self.hide), (20, self.remask), (16, self.mask_served), (12, self.several), (10, self.clear_some),
                (6, self.end), (6, self.show_latch), (4, self.higher), (3, self.extra_read), (2, self.switch_mode),
                (1, self.break_off), (2, self.refused),
            ))()

    def switch_phase(self):
        """CR written with inputs latched and in service: they stay, whatever it says."""
        rng = self.rng
        yield from self.set_up(self.any_cr(0x0E, self.MODE), rng.choice((31, self.any_mask())))
        for _ in range(rng.randrange(4, 16)):
            if self.chance(60):
                yield from rng.choice((self.several, self.nest, self.higher, self.lower))()
            yield from draw(rng, (
                (30, self.switch_priority), (30, self.switch_mode), (12, self.switch_edges), (8, self.break_off),
                (8, self.end_all), (6, self.show_served), (6, self.show_latch), (6, self.unwind),
            ))()

    def edge_phase(self):
        """Levels up and down, one by one and many at once, and what is latched of them."""
        rng = self.rng
        yield from self.set_up(self.any_cr(0x0E, self.MODE), rng.choice((31, 31, self.any_mask())))
        for _ in range(rng.randrange(8, 40)):
            yield from draw(rng, (
                (50, self.move), (10, self.answer), (8, self.end), (10, self.show_latch), (7, self.switch_edges),
                (6, self.clear_some), (3, self.switch_mode), (3, self.extra_read), (2, self.remask),
                (1, self.break_off), (2, self.touch_port), (2, self.refused),
            ))()

    def port_phase(self):
        """Three ports, or two and the lines of port C in interrupt mode."""
        rng = self.rng
        yield self.set_cr(self.any_cr(0x0E, rng.choice((0, 0, self.MODE))))
        for _ in range(rng.randrange(8, 40)):
            kind = rng.random()
            if kind < 0.34:
                yield self.write(rng.choice((0, 1, 2, 2, 3, 4, 5, 5)), self.byte())
            elif kind < 0.70:
                yield self.read(rng.choice((0, 1, 2, 2, 2, 3, 4, 5)))
            elif kind < 0.88:
                self.pa, self.pb = rng.randrange(256), rng.randrange(256)
                yield self.pins(rng.randrange(256))
            elif kind < 0.94:
                yield self.write(6, self.any_cr())
                yield self.read(6)
            elif kind < 0.96:
                yield self.run()
            elif kind < 0.98:
                yield self.reset()
            else:
                yield from self.refused()

    def noise_phase(self):
        rng = self.rng
        for _ in range(rng.randrange(8, 50)):
            kind = rng.random()
            if kind < 0.36:
                yield self.write(rng.randrange(8), rng.randrange(256))
            elif kind < 0.68:
                yield self.read(rng.randrange(8))
            elif kind < 0.90:
                self.pa, self.pb = rng.randrange(256), rng.randrange(256)
                yield self.pins(rng.randrange(256))
            elif kind < 0.95:
                yield self.run()
            elif kind < 0.97:
                yield self.reset()
            else:
                yield from self.refused()


class Story32(Story):
    chip = 0x32

    def __init__(self, rng, max_run):
        super().__init__(rng, max_run)
        self.pa = self.pb = 255
        self.divider = 1024
        self.due = 255 * 1024 + 1

    def phases(self):
        return ((self.timer_phase, 45), (self.pa7_phase, 22), (self.port_phase, 12),
                (self.ram_phase, 9), (self.noise_phase, 12))

    def io(self, wanted, ignored):
        """An I/O address with the wanted bits and any of the ignored ones."""
        return 0x80 | wanted | self.rng.randrange(256) & (ignored | 0x60)

    def load(self, divider, value, enable):
        self.divider = (1, 8, 64, 1024)[divider]
        self.due = 1 + value * self.divider
        return self.write(self.io(0x14 | divider | (8 if enable else 0), 0), value)

    def read_timer(self):
        return self.read(self.io(0x04 | self.rng.choice((0, 8)), 0x12))

    def read_flags(self):
        return self.read(self.io(0x05, 0x1A))

    def pa7_control(self):
        return self.write(self.io(0x04 | self.rng.randrange(4), 0x08), self.rng.randrange(256))

    def pins(self):
        return self.frame(4, self.pa, self.pb)

    def run(self, clocks):
        clocks = self.bounded(clocks)
        if clocks < self.due:
            self.due -= clocks
        else:
            # Expired: the next thing to see is the value's wrap.
            self.due = 256 - (clocks - self.due) % 256
        return self.run_line(clocks)

    def aimed_run(self):
        rng = self.rng
        kind = rng.random()
        if kind < 0.38:
            return self.run(self.due + rng.choice((-2, -1, -1, 0, 0, 0, 1, 1, 2)))
        if kind < 0.58:
            return self.run(rng.choice((0, 1, 1, 1, 2, 3)))
        if kind < 0.76:
            return self.run(self.divider * rng.randrange(1, 20) + rng.choice((-1, 0, 0, 1)))
        if kind < 0.84:
            return self.run(rng.randrange(300))
        if kind < 0.90:
            return self.run(256 * rng.randrange(1, 300) + rng.choice((-1, 0, 1)))
        if kind < 0.96:
            return self.run(rng.randrange(270000))
        return self.run(self.huge())

    def power_up_phase(self):
        """Look at everything before anything is written."""
        rng = self.rng
        looks = [self.read(self.io(port, 0x18)) for port in range(4)]
        looks += [self.read_flags(), self.forecast(), self.read(rng.randrange(128))]
        rng.shuffle(looks)
        yield from looks
        if self.chance(60):
            # The timer as it came; this read also turns its enable on.
            yield self.read(self.io(0x0C, 0x12))
            yield self.forecast()
            yield self.aimed_run()
            yield self.read(self.io(0x0C, 0x12))
            yield self.run(self.due - 1)
            yield self.run(1)
        else:
            yield self.write(self.io(0x06 | rng.randrange(2), 0x08), self.byte())
            self.pa, self.pb = self.byte() & 0x7F, self.byte()
            yield self.pins()
            yield self.read_flags()

    def timer_phase(self):
        rng = self.rng
        if self.chance(8):
            yield self.reset()
        value = draw(rng, ((40, rng.randrange(5)), (12, 52), (12, 255), (36, rng.randrange(256))))
        if self.chance(95):
            yield self.load(rng.randrange(4), value, self.chance(75))
        for _ in range(rng.randrange(5, 35)):
            kind = rng.random()
            if kind < 0.41:
                yield self.aimed_run()
            elif kind < 0.47:
                if self.chance(60):
                    yield self.load(rng.randrange(4), rng.choice((1, 3, 255, 255, rng.randrange(256))), True)
                    yield self.read_flags()
                yield from self.kept(self.due)
            elif kind < 0.61:
                yield self.read_timer()
            elif kind < 0.71:
                yield self.read_flags()
            elif kind < 0.83:
                yield self.forecast()
            elif kind < 0.87:
                yield self.load(rng.randrange(4), rng.choice((0, 1, 2, 255, rng.randrange(256))),
                                self.chance(75))
            elif kind < 0.91:
                yield self.pa7_control()
            elif kind < 0.95:
                self.pa ^= 0x80
                yield self.pins()
            elif kind < 0.965:
                yield self.reset()
                if self.chance(70):
                    yield self.read(self.io(0x0C, 0x12))
            else:
                yield self.write(self.io(rng.randrange(4), 0x18), self.byte())

    def pa7_phase(self):
        rng = self.rng
        yield self.pa7_control()
        for _ in range(rng.randrange(6, 40)):
            kind = rng.random()
            if kind < 0.45:
                self.pa = rng.choice((self.pa ^ 0x80, self.pa ^ 0x80, rng.randrange(256)))
                yield self.pins()
            elif kind < 0.62:
                yield self.read_flags()
            elif kind < 0.75:
                yield self.pa7_control()
            elif kind < 0.80:
                yield self.forecast()
            elif kind < 0.85:
                yield self.write(self.io(rng.choice((0, 1, 1)), 0x18), self.byte())
            elif kind < 0.90:
                yield self.run(rng.choice((0, 1, 7, self.due)))
            elif kind < 0.94:
                yield self.read_timer()
            elif kind < 0.97:
                yield self.load(rng.randrange(2), rng.randrange(3), self.chance(60))
            else:
                yield self.reset()

    def port_phase(self):
        rng = self.rng
        for _ in range(rng.randrange(6, 30)):
            kind = rng.random()
            if kind < 0.35:
                yield self.write(self.io(rng.randrange(4), 0x18), self.byte())
            elif kind < 0.70:
                yield self.read(self.io(rng.randrange(4), 0x18))
            elif kind < 0.95:
                self.pa, self.pb = rng.randrange(256), rng.randrange(256)
                yield self.pins()
            elif kind < 0.98:
                yield self.read_flags()
            else:
                yield self.reset()

    def ram_phase(self):
        rng = self.rng
        places = [0, 127, *(rng.randrange(128) for _ in range(4))]
        for _ in range(rng.randrange(6, 30)):
            place = rng.choice(places) if self.chance(70) else rng.randrange(128)
            kind = rng.random()
            if kind < 0.45:
                yield self.write(place, self.byte())
            elif kind < 0.98:
                yield self.read(place)
            else:
                yield self.reset()

    def noise_phase(self):
        rng = self.rng
        for _ in range(rng.randrange(8, 50)):
            kind = rng.random()
            if kind < 0.40:
                address, value = rng.randrange(256), rng.randrange(256)
                if address & 0x94 == 0x94:
                    self.divider = (1, 8, 64, 1024)[address & 3]
                    self.due = 1 + value * self.divider
                yield self.write(address, value)
            elif kind < 0.75:
                yield self.read(rng.randrange(256))
            elif kind < 0.83:
                self.pa, self.pb = rng.randrange(256), rng.randrange(256)
                yield self.pins()
            elif kind < 0.95:
                yield self.aimed_run()
            elif kind < 0.99:
                yield self.forecast()
            else:
                yield self.reset()


class Story45(Story):
    chip = 0x45
    WIDTHS = {4: 127, 6: 127, 7: 127, 10: 127, 12: 63, 14: 63, 18: 63, 5: 31, 9: 31, 11: 31}
    # The most clocks of a run that tells its turns; a run that doesn't may have any number.
    MOST_TOLD = 4_294_967_290

    def __init__(self, rng, max_run):
        super().__init__(rng, max_run)
        self.r = [0] * 32
        self.pen = 0
        self.column = 0
        self.begin_frame()

    def phases(self):
        return ((self.tiny_phase, 44), (self.blink_phase, 11), (self.plain_phase, 9),
                (self.lowered_phase, 12), (self.far_phase, 26), (self.noise_phase, 11))

    def select(self, register):
        # The upper three bits of the address register aren't there.
        high = self.rng.randrange(8) << 5 if self.chance(15) else 0
        return self.write(0, register | high)

    def set(self, register, value):
        width = self.WIDTHS.get(register, 255)
        self.r[register] = value & 255 & width
        if self.chance(15):
            # Bits beyond the width, which must drop.
            value |= self.rng.randrange(256) & ~width
        return [self.select(register), self.write(1, value)]

    # Where the screen stands, and how far it is from there to the end of a line or of a frame.

    def begin_frame(self):
        self.row = self.scan = self.adjust = 0
        self.adjusting = False

    def reset(self):
        self.column = 0
        self.begin_frame()
        return super().reset()

    def frame_lines(self):
        return (self.r[4] + 1) * (self.r[9] + 1) + self.r[5]

    def frame_clocks(self):
        return (self.r[0] + 1) * self.frame_lines()

    def to_line_end(self):
        """Clocks up to the next line end; a column above R0 goes round before it."""
        return (self.r[0] - self.column) % 256 + 1

    def lines_left(self):
        """Line ends up to the next frame, from any row, scan line or adjust line."""
        r = self.r
        if self.adjusting:
            return (r[5] - self.adjust - 1) % 32 + 1
        return (r[9] - self.scan) % 32 + 1 + (r[4] - self.row) % 128 * (r[9] + 1) + r[5]

    def to_lines(self, ends):
        """Clocks up to the last of so many line ends."""
        return self.to_line_end() + (ends - 1) * (self.r[0] + 1)

    def move(self, clocks):
        """What these clocks do to the column and, at line ends, to row, scan line and adjust line."""
        if clocks < self.to_line_end():
            self.column = (self.column + clocks) % 256
            return
        past = clocks - self.to_line_end()
        ends, self.column = 1 + past // (self.r[0] + 1), past % (self.r[0] + 1)
        if ends >= self.lines_left():
            ends = (ends - self.lines_left()) % self.frame_lines()
            self.begin_frame()
        self.move_lines(ends)

    def move_lines(self, ends):
        """Fewer line ends than the frame has left."""
        of_row = (self.r[9] - self.scan) % 32 + 1
        if self.adjusting:
            self.adjust = (self.adjust + ends) % 32
        elif ends < of_row:
            self.scan = (self.scan + ends) % 32
        else:
            rows, self.scan = divmod(ends - of_row, self.r[9] + 1)
            last = (self.r[4] - self.row) % 128
            if rows < last:
                self.row = (self.row + 1 + rows) % 128
            else:
                self.adjusting, self.row, self.scan = True, self.r[4], 0
                self.adjust = ends - of_row - last * (self.r[9] + 1)

    def run(self, clocks, told=20):
        """A run. So many of a hundred ask for its turns, and get a refusal where it is too long for that."""
        clocks = self.bounded(clocks)
        if not self.chance(told):
            self.move(clocks)
            return self.run_line(clocks)
        if clocks <= self.MOST_TOLD:
            self.move(clocks)
        return self.told_line(clocks)

    def told_line(self, clocks):
        return self.frame(7, *clocks.to_bytes(4, "big"))

    def reads(self, *registers):
        for register in registers:
            yield self.select(register)
            yield self.read(1)

    def strobe(self, clocks):
        """Pen up, some clocks, and what it stored."""
        if self.pen:
            self.pen = 0
            yield self.frame(4, 0)
        self.pen = 1
        yield self.frame(4, 1)
        if self.chance(15):
            self.pen = 0
            yield self.frame(4, 0)
        yield self.run(clocks)
        if self.chance(40):
            yield self.read(0)
        yield from self.reads(*self.rng.choice(((16, 17), (16, 17), (17, 16), (17,))))
        if self.chance(15):
            yield self.read(0)

    def refused(self):
        rng = self.rng
        kind = rng.randrange(5)
        if kind == 0:
            yield self.select(8)
            spare = rng.choice((0, rng.randrange(256))) & rng.choice((0x34, 0xFF))
            yield self.write(1, spare | rng.choice((1, 2, 8, 0x40, 0x80)))
        elif kind == 1:
            yield self.write(rng.choice((2, 3, 128, 255, rng.randrange(2, 256))), self.byte())
        elif kind == 2:
            yield self.read(rng.choice((2, 3, 128, 255, rng.randrange(2, 256))))
        elif kind == 3:
            yield self.frame(4, rng.choice((2, 3, 128, 255, rng.randrange(2, 256))))
        else:
            yield self.told_line(rng.randrange(self.MOST_TOLD + 1, HIGHEST_COUNT + 1))

    def sync_widths(self):
        rng = self.rng
        return rng.choice((0, 1, 2, 3, rng.randrange(16))) | rng.choice((0, 1, 2, 3, rng.randrange(16))) << 4

    def start(self):
        rng = self.rng
        return rng.choice((0, 0, 0x3FFF, 0x3FF0 + rng.randrange(16), 0x00F8 + rng.randrange(16),
                           rng.randrange(16384)))

    def cursor_near_start(self):
        rng = self.rng
        first = self.r[12] << 8 | self.r[13]
        reach = max(1, self.r[1]) * (self.r[4] + 1)
        if self.r[8] & 4 and self.chance(80):
            place = ((self.r[12] + rng.randrange(self.r[4] + 2)) % 64) << 8
            place |= (self.r[13] + rng.randrange(max(1, self.r[1]))) % 256
        elif self.chance(15):
            place = rng.randrange(16384)
        else:
            place = (first + rng.randrange(min(reach + 2, 16384))) % 16384
        yield from self.set(14, place >> 8)
        yield from self.set(15, place)

    def cursor_shape(self):
        rng = self.rng
        top = rng.choice((0, 0, 0, 1, 2, rng.randrange(32)))
        mode = rng.choice((0, 0, 0, 1, 2, 3))
        yield from self.set(10, top | mode << 5)
        yield from self.set(11, rng.choice((0, 1, 2, 31, 31, 31, rng.randrange(256))))

    def set_up(self, *settings):
        """Timing registers in any order, where the frame starts, and a cursor; then a reset, or none."""
        begin = self.start()
        settings = [*settings, (12, begin >> 8), (13, begin)]
        self.rng.shuffle(settings)
        for register, value in settings:
            yield from self.set(register, value)
        yield from self.cursor_shape()
        yield from self.cursor_near_start()
        if self.chance(70):
            yield self.reset()

    def tiny_frame(self):
        rng = self.rng
        r0 = rng.choice((0, 1, 2, 3, 3, 4, 5, 7))
        return self.set_up(
            (0, r0), (1, rng.choice((0, 1, r0, r0, r0 + 1, r0 + 1, r0 + 1, 255))),
            (2, rng.randrange(r0 + 2)), (3, self.sync_widths()),
            (4, rng.choice((0, 1, 1, 2, 3))), (5, rng.choice((0, 0, 1, 1, 2, 3))),
            (6, rng.choice((0, 1, 2, 2, 3, 4, 127))), (7, rng.choice((0, 0, 1, 1, 2, 3))),
            (8, self.any_r8()), (9, rng.choice((0, 0, 1, 1, 2, 3))),
        )

    def least_frame(self):
        """A frame of one clock, or of one for each adjust line as well."""
        rng = self.rng
        return self.set_up(
            (0, 0), (1, rng.choice((0, 1, 1, 255))), (2, rng.choice((0, 0, 1))), (3, self.sync_widths()), (4, 0),
            (5, rng.choice((0, 0, 0, 1, 31))), (6, rng.choice((0, 1, 1, 127))), (7, rng.choice((0, 0, 1))),
            (8, self.any_r8()), (9, 0),
        )

    def plain_frame(self):
        """A frame of a plain size: 80 columns or so."""
        rng = self.rng
        r0, r4, r9 = draw(rng, (
            (20, (63, 38, 7)), (10, (99, 30, 7)), (10, (127, 38, 7)),
            (60, (rng.choice((39, 79, 99, 127, 255)), rng.choice((24, 31, 127)), rng.choice((0, 7, 8, 31)))),
        ))
        return self.set_up(
            (0, r0), (1, rng.choice((40, 80, 255))), (2, rng.randrange(130)), (3, self.sync_widths()), (4, r4),
            (5, rng.randrange(32)), (6, rng.choice((24, 25, 127))), (7, rng.randrange(r4 + 2)),
            (8, self.any_r8()), (9, r9),
        )

    def large_frame(self):
        """The largest frame there is, or nearly that."""
        rng = self.rng
        r0, r4, r9, r5 = rng.choice(((255, 127, 31, 31), (255, 127, 31, 31), (254, 127, 31, 0), (255, 126, 30, 30)))
        return self.set_up(
            (0, r0), (1, rng.choice((0, 80, 255))), (2, rng.randrange(256)), (3, self.sync_widths()), (4, r4), (5, r5),
            (6, rng.choice((24, 127, 127))), (7, rng.randrange(128)), (8, self.any_r8()), (9, r9),
        )

    def any_r8(self):
        return self.rng.choice((0, 0, 0x04, 0x10, 0x20, 0x30, 0x34, 0x14, 0x24))

    def set_r8(self):
        yield from self.set(8, self.any_r8())

    def set_start(self):
        begin = self.start()
        yield from self.set(12, begin >> 8)
        yield from self.set(13, begin)

    def set_syncs(self):
        """Pulses anywhere, none, or longer than a tiny line or frame."""
        rng = self.rng
        yield from self.set(2, rng.choice((0, self.r[0], rng.randrange(self.r[0] + 2), rng.randrange(256))))
        yield from self.set(3, rng.choice((0x0F, 0xFF, self.sync_widths(), self.sync_widths())))
        yield from self.set(7, rng.choice((0, self.r[4], rng.randrange(self.r[4] + 2), rng.randrange(128))))

    def poke(self):
        rng = self.rng
        frame = self.frame_clocks()
        line = self.r[0] + 1
        kind = rng.random()
        if kind < 0.50:
            yield self.run(1)
        elif kind < 0.60:
            yield self.run(rng.choice((0, 2, 3, line - 1, line, line, line + 1, line * (self.r[9] + 1))))
        elif kind < 0.66:
            yield self.run(frame * rng.choice((1, 1, 2, 8, 16, 32)) + rng.choice((-1, 0, 0, 1)))
        elif kind < 0.68:
            yield self.far_run()
        elif kind < 0.75:
            yield from self.strobe(rng.choice((1, 1, 1, 2, 0, rng.randrange(frame + 1))))
        elif kind < 0.79:
            yield self.read(0)
        elif kind < 0.83:
            yield from self.cursor_near_start()
        elif kind < 0.85:
            yield from self.cursor_shape()
        elif kind < 0.87:
            yield from self.set_r8()
        elif kind < 0.89:
            yield from self.set_start()
        elif kind < 0.93:
            register = rng.choice((0, 1, 2, 3, 4, 5, 6, 7, 9))
            value = self.sync_widths() if register == 3 else rng.randrange(5)
            yield from self.set(register, value)
        elif kind < 0.95:
            yield from self.reads(rng.choice((14, 15, 16, 17, 31, 31, rng.randrange(32))))
        elif kind < 0.96:
            yield from self.set(rng.choice((16, 17, 18, 19, rng.randrange(20, 32))), self.byte())
        elif kind < 0.97:
            yield self.reset()
        elif kind < 0.985:
            self.pen = rng.randrange(2)
            yield self.frame(4, self.pen)
        else:
            yield from self.refused()

    def power_up_phase(self):
        """All registers 0, so a frame is one clock: look before writing."""
        yield self.read(0)
        yield self.read(1)
        if self.chance(50):
            # Nothing is selected yet, so this must go to R0.
            self.r[0] = self.rng.randrange(1, 6)
            yield self.write(1, self.r[0])
        for _ in range(self.rng.randrange(20)):
            yield self.run(1)
        if self.chance(50):
            yield self.far_run()
        yield from self.reads(*self.rng.sample(range(32), 6), 16, 17)
        yield self.read(0)

    def tiny_phase(self):
        yield from self.tiny_frame()
        for _ in range(self.rng.randrange(30, 160)):
            yield from self.poke()

    def blinking(self):
        """A cursor that shows at the first column of each frame, as long as its field lets it."""
        rng = self.rng
        yield from self.set(1, min(255, self.r[0] + 1))
        yield from self.set(6, min(127, self.r[4] + 1))
        yield from self.set(10, rng.choice((0x40, 0x60, 0x40, 0x60, 0x00, 0x20)))
        yield from self.set(11, 31)
        yield from self.set(14, self.r[12])
        yield from self.set(15, self.r[13])
        yield from self.set(8, rng.choice((0, 0, 0x20, 0x04)))

    def blink_phase(self):
        """Many fields, with the cursor where it shows in each."""
        rng = self.rng
        yield from self.tiny_frame()
        yield from self.blinking()
        yield self.reset()
        if self.r[8] & 0x20:
            yield self.run(1)
        for _ in range(rng.randrange(20, 70)):
            if self.chance(82):
                yield self.run(self.frame_clocks())
            elif self.chance(45):
                yield self.run(self.frame_clocks() * rng.randrange(1, 33))
            elif self.chance(60):
                yield self.run(self.frame_clocks() * self.some_frames(self.within() // self.frame_clocks()), 50)
            else:
                yield from self.set(10, rng.choice((0x40, 0x60)))

    def plain_phase(self):
        """Runs of many lines, and the pen, on a screen of a plain size."""
        rng = self.rng
        yield from self.plain_frame()
        for _ in range(rng.randrange(10, 40)):
            line = self.r[0] + 1
            kind = rng.random()
            if kind < 0.35:
                yield self.run(rng.choice((1, 2, line - 1, line, line + 1, line * (self.r[9] + 1))))
            elif kind < 0.45:
                yield self.run(self.frame_clocks() + rng.choice((-1, 0, 1)))
            elif kind < 0.52:
                yield self.run(rng.choice((65535, 65536, rng.randrange(65536), self.far())))
            elif kind < 0.75:
                yield from self.strobe(rng.randrange(1, 2 * line))
            elif kind < 0.85:
                yield self.run(rng.randrange(line * 12))
            else:
                yield from self.poke()

    def lowered_phase(self):
        """Registers put below the counters that run up to them."""
        rng = self.rng
        yield from self.tiny_frame()
        register = rng.choice((0, 4, 5, 9, 9, 5))
        high = {0: rng.randrange(8, 40), 4: rng.randrange(3, 12),
                5: rng.randrange(4, 30), 9: rng.randrange(4, 30)}[register]
        yield from self.set(register, high)
        yield self.run(rng.randrange(self.frame_clocks() + 1))
        if register == 5 and self.chance(60):
            # Into the adjust lines, to lower R5 there.
            yield self.reset()
            inside = (self.r[0] + 1) * (self.r[4] + 1) * (self.r[9] + 1)
            yield self.run(inside + rng.randrange((self.r[0] + 1) * high))
        yield from self.set(register, rng.randrange(3))
        for _ in range(rng.randrange(8, 30)):
            line = self.r[0] + 1
            kind = rng.random()
            if kind < 0.46:
                yield self.run(rng.choice((1, line, line, 31 * line, 32 * line, 256, 255, 127 * line,
                                           128 * line * (self.r[9] + 1), rng.randrange(300))))
            elif kind < 0.5:
                yield self.far_run()
            elif kind < 0.8:
                yield from self.strobe(1)
            else:
                yield from self.poke()

    def noise_phase(self):
        rng = self.rng
        for _ in range(rng.randrange(8, 50)):
            kind = rng.random()
            if kind < 0.30:
                register = rng.randrange(32)
                value = rng.randrange(256)
                if register == 8:
                    value &= rng.choice((0x34, 0x34, 0xFF))
                    if value & 0xCB:
                        yield self.select(8)
                        yield self.write(1, value)
                        continue
                yield from self.set(register, value)
            elif kind < 0.45:
                yield from self.reads(rng.randrange(32))
            elif kind < 0.55:
                self.pen = rng.randrange(2)
                yield self.frame(4, self.pen)
            elif kind < 0.60:
                yield self.read(0)
            elif kind < 0.93:
                yield self.run(rng.choice((1, 1, 1, rng.randrange(20), rng.randrange(600),
                                           rng.randrange(3000))))
            elif kind < 0.95:
                yield self.run(rng.choice((rng.randrange(65536), self.far())))
            elif kind < 0.97:
                yield self.reset()
            else:
                yield from self.refused()

    # Long runs: what a bench can't go through clock by clock.

    def within(self):
        return min(self.max_run, HIGHEST_COUNT)

    def near(self):
        """So many clocks off a line's first column: its edges, HSYNC's, a line before, or anywhere in the line."""
        rng = self.rng
        line = self.r[0] + 1
        return rng.choice((-1, 0, 0, 1, -line, self.r[2] + rng.randrange(-1, 16), rng.randrange(line)))

    def some_lines(self):
        """A number of lines; a bench may have a faster way from one of these on."""
        rng = self.rng
        return rng.choice((16, 17, 32, 33, 48, 64, 65, rng.randrange(15, 67), rng.randrange(16, 41), rng.randrange(41)))

    def some_frames(self, most):
        """A number of frames up to the most. After 32 the fields begin again."""
        rng = self.rng
        return min(most, draw(rng, (
            (14, 0), (10, 1), (8, 2), (8, rng.randrange(3, 16)), (8, rng.choice((15, 16, 17))),
            (12, rng.choice((31, 32, 33))), (8, 32 * rng.randrange(1, 300) + rng.choice((-1, 0, 1))),
            (8, rng.randrange(1_000, 10_000)), (16, rng.randrange(most + 1)), (8, most),
        )))

    def far(self):
        """A count of clocks: about so many lines, about so many frames, or whatever else is a long run."""
        rng = self.rng
        line, frame = self.r[0] + 1, self.frame_clocks()
        first = self.to_lines(self.lines_left())
        frames = self.some_frames(max(0, self.within() - first) // frame)
        # A frame's first line, one of those of VSYNC, or any.
        vsync = self.r[7] * (self.r[9] + 1) + rng.randrange(18)
        inside = rng.choice((0, 0, 0, vsync, rng.randrange(self.frame_lines())))
        return draw(rng, (
            (22, self.to_lines(self.some_lines()) + self.near()),
            (6, line * self.some_lines() + rng.choice((-1, 0, 1))),
            (10, self.to_lines(rng.randrange(self.lines_left()) + 1) + self.near()),
            (32, first + frame * frames + line * inside + self.near()),
            (6, frame * frames + rng.choice((-1, 0, 1))),
            (6, rng.choice((65_535, 65_536, 65_537))),
            (8, rng.choice((0x7FFFFFFF, 0x80000000, 0x80000001, self.huge()))),
            (6, rng.randrange(1_000_000, 100_000_000)),
            (6, rng.choice((self.MOST_TOLD, self.MOST_TOLD + 1))),
            (4, rng.choice((HIGHEST_COUNT, HIGHEST_COUNT - rng.randrange(20)))),
        ))

    def far_run(self):
        return self.run(self.far(), 50)

    def lower(self):
        """In the middle of a frame, which may be made larger first, some registers put below their counters."""
        rng = self.rng
        for register, most in ((0, 255), (4, 127), (9, 31)):
            if self.chance(25):
                yield from self.set(register, rng.randrange(rng.choice((4, 12, most)) + 1))
        yield self.run(rng.randrange(self.frame_clocks()))
        for register, counter in ((0, self.column), (4, self.row), (9, self.scan)):
            if counter and self.chance(60):
                yield from self.set(register, rng.randrange(counter))
        if self.chance(20):
            yield self.run(self.to_line_end() + self.near())

    def cut_adjust(self):
        """In the adjust lines, R5 put to 0, to a line of them that is over, or anywhere."""
        rng = self.rng
        if not self.adjusting:
            if self.r[5] == 0 or self.chance(50):
                yield from self.set(5, rng.randrange(1, 32))
            ends = self.lines_left() - rng.randrange(self.r[5])
            yield self.run(self.to_lines(ends) - 1 - rng.randrange(self.r[0] + 1))
        yield from self.set(5, rng.choice((0, 0, 0, self.adjust, rng.randrange(self.adjust + 1), rng.randrange(32))))

    def show(self):
        """What tells where a run has ended: the next clocks, line ends or frames, MA, the status."""
        rng = self.rng
        line, frame = self.r[0] + 1, self.frame_clocks()
        kind = rng.random()
        if kind < 0.34:
            for _ in range(rng.choice((1, 1, 2, 3, 4, 17))):
                yield self.run(1)
        elif kind < 0.58:
            yield from self.strobe(1)
        elif kind < 0.72:
            yield self.run(self.to_line_end() - 1)
            for clocks in (1, *(line,) * rng.choice((0, 1, 2, 3, 17))):
                yield self.run(clocks)
        elif kind < 0.84:
            yield self.run(self.to_lines(self.lines_left()) - 1)
            for clocks in (1, *(frame * rng.choice((1, 1, 7, 8)),) * rng.choice((0, 1, 2, 3, 9))):
                yield self.run(clocks)
        elif kind < 0.94:
            yield self.run(rng.randrange(1, rng.choice((4, line + 2, 300))))
            yield self.read(0)
        else:
            yield self.read(0)
            yield from self.reads(16, 17)

    def far_phase(self):
        """Long runs from screens of all sizes and from any state, and what shows right after them."""
        rng = self.rng
        yield from draw(rng, (
            (48, self.tiny_frame), (10, self.least_frame), (28, self.plain_frame), (14, self.large_frame),
        ))()
        if self.chance(50):
            yield from self.blinking()
        for _ in range(rng.randrange(6, 24)):
            if self.chance(50):
                yield from draw(rng, (
                    (36, self.lower), (20, self.cut_adjust), (10, self.set_syncs), (10, self.set_start),
                    (8, self.set_r8), (6, self.blinking), (10, self.poke),
                ))()
            for _ in range(rng.choice((1, 1, 1, 2, 2, 3))):
                if self.chance(14):
                    yield from self.strobe(self.far())
                else:
                    yield self.far_run()
            if self.chance(85):
                yield from self.show()


class Hostile:
    """Lines that are no frame, or nearly none.

    Those of the 6525 come only where its story is told, so sessions of another chip alone are as they were before it.
    """

    def __init__(self, rng, chips):
        self.rng = rng
        self.frames = (
            b"2201", b"2202040A", b"220305", b"22045A3C07", b"220500000010", b"2206",
            b"3201", b"32029C02", b"320384", b"3204FF00", b"32050000000A", b"3206",
            b"4501", b"4502010F", b"450301", b"450401", b"450500000007", b"45070000000C",
        )
        self.near_frames = (
            b"4506", b"4507", b"2207", b"3200", b"2200", b"22", b"32", b"45", b"2",
            b"22060", b"220600", b"450600000000", b"220100", b"3201FF", b"450100",
            b"45040100", b"3204FFFF0F", b"2204FFFF", b"220500000001FF",
            b"22050001", b"32050000000", b"+22206", b"0x2206", b"-2206", b"\xc3\xa42206",
        )
        self.chips = (b"00", b"25", b"21", b"23", b"31", b"33", b"44", b"46", b"FF")
        self.other = {b"22": b"32", b"32": b"45", b"45": b"22"}
        if "25" in chips:
            self.frames += (b"2501", b"25020603", b"2502051F", b"250307", b"2504FFFFE0", b"25050000000D")
            self.near_frames += (b"2506", b"250700000001", b"2500", b"25", b"250100", b"2504FFFF", b"2504FFFFE00F",
                                 b"25030207", b"250206", b"25050001", b"250F", b"25020A0B0C")
            self.chips += (b"24", b"26", b"52", b"A5")
            self.other = {b"22": b"25", b"25": b"32", b"32": b"45", b"45": b"22"}

    def good(self):
        """A frame that would be accepted, to be spoilt."""
        return self.rng.choice(self.frames)

    def digits(self, count):
        return bytes(self.rng.choice(b"0123456789ABCDEF") for _ in range(count))

    def line(self):
        rng = self.rng
        good = self.good()
        at = rng.randrange(len(good))
        kind = rng.randrange(19)
        if kind == 0:
            return good.lower() if good.lower() != good else b"22020e7f"
        if kind == 1:
            return good + b"\r"
        if kind == 2:
            return good[:at] + bytes((rng.choice((0, 9, 13, 32, 47, 58, 64, 71, 96, 97, 103)),)) + good[at + 1:]
        if kind == 3:
            return good[:at] + bytes((rng.randrange(128, 256),)) + good[at + 1:]
        if kind == 4:
            return good[:at] + good[at + 1:]
        if kind == 5:
            return good + self.digits(1)
        if kind == 6:
            return good + self.digits(2)
        if kind == 7:
            return good[:-2]
        if kind == 8:
            return good + self.digits(max(0, rng.choice((30, 31, 32, 33, 34)) - len(good)))
        if kind == 9:
            return b""
        if kind == 10:
            if rng.random() < 0.9:
                return good + b"0" * rng.randrange(40, 400)
            return good + self.digits(rng.randrange(1000, 9000))
        if kind == 11:
            return rng.choice((b" ", b"")) + good + rng.choice((b" ", b"\t", b"\x00"))
        if kind == 12:
            return rng.choice((*self.chips, self.digits(2))) + good[2:]
        if kind == 13:
            call = rng.choice((b"00", b"07", b"08", b"10", b"11", b"81", b"FF"))
            return good[:2] + call + good[4:]
        if kind == 14:
            return rng.choice(self.near_frames)
        if kind == 15:
            return self.other[good[:2]] + good[2:]
        if kind == 16:
            return bytes(rng.choice([byte for byte in range(256) if byte != 10])
                         for _ in range(rng.randrange(1, 40)))
        if kind == 17:
            return good[:at] + b"\r" + good[at:]
        return good + good


def session(seed, count, max_run, chips, hostile):
    rng = random.Random(seed)
    makers = {"22": Story22, "25": Story25, "32": Story32, "45": Story45}
    weights = {"22": 40, "25": 25, "32": 25, "45": 35}
    stories = [makers[chip](random.Random(f"{seed} {chip}"), max_run) for chip in chips]
    tellings = [story.lines() for story in stories]
    shares = [weights[chip] for chip in chips]
    spoiler = Hostile(random.Random(f"{seed} hostile"), chips)
    left = 0
    telling = None
    for _ in range(count):
        if rng.random() * 100 < hostile:
            yield spoiler.line()
            continue
        if left == 0:
            telling = rng.choices(tellings, shares)[0]
            left = rng.choice((1, 2, 5, 20, 60))
        left -= 1
        yield next(telling)


def main():
    parser = argparse.ArgumentParser(description="Seeded sessions for the Snowferrule bench.")
    parser.add_argument("seed", type=int)
    parser.add_argument("lines", type=int)
    parser.add_argument("--max-run", type=int, default=HIGHEST_COUNT, metavar="N",
                        help="bound for the counts of runs (default 4294967295)")
    parser.add_argument("--chip", choices=EVERY_CHIP, help="tell this chip's story alone")
    parser.add_argument("--hostile", type=float, default=4, metavar="PERCENT",
                        help="share of hostile lines (default 4)")
    given = parser.parse_args()
    chips = (given.chip,) if given.chip else EVERY_CHIP
    write = sys.stdout.buffer.write
    line = None
    for following in session(given.seed, given.lines, given.max_run, chips, given.hostile):
        if line is not None:
            write(line + b"\n")
        line = following
    if line is not None:
        # Every fourth seed leaves out the last LF, for such a line counts too.
        # An empty last line needs its LF to be a line at all.
        write(line if line and given.seed % 4 == 3 else line + b"\n")


if __name__ == "__main__":
    main()
