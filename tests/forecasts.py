"""Forecasts and runs, held against a session and the answers that a bench gave to it.

With the pins still and no access a forecast keeps its word (request 14), and the
parts of a run leave what the whole of it leaves; their turns (request 08) add up
as well. All this can be seen in what a bench writes, with no second bench beside
it.
"""

import re

NEVER = 0xFFFFFFFF
# The largest forecast of each chip that has one.
LARGEST = {b"22": 65_537, b"32": 261_121}
RUN = re.compile(rb"(22|32)05([0-9A-F]{8})")
RUN_ANSWER = re.compile(rb"000([01])")
FORECAST_ANSWER = re.compile(rb"000([01])([0-9A-F]{8})")
# A run of any chip, what one that tells its turns begins with and is answered, and the longest of these.
ANY_RUN = re.compile(rb"(2205|2505|3205|4505|4507)([0-9A-F]{8})")
TOLD = b"4507"
TOLD_ANSWER = re.compile(rb"(000[0-9A-F])([0-9A-F]{8})")
LONGEST_TOLD = 4_294_967_290


class Word:
    """What a chip has said last of its line, and how many clocks it has run since."""

    def __init__(self):
        self.said = None
        self.ran = 0

    def say(self, forecast):
        self.said, self.ran = forecast, 0

    def left(self):
        """What a forecast has to be now."""
        return NEVER if self.said == NEVER else max(0, self.said - self.ran)

    def told(self):
        return f"after {self.ran} clocks of {self.said}"


class Kept:
    """Forecasts and runs that had a forecast before them with nothing but runs between, and what was wrong with them."""

    def __init__(self):
        self.forecasts = self.runs = 0
        self.broken = []

    def hold(self, session, answers):
        """Goes through a session and its answers, line by line."""
        words = {chip: Word() for chip in LARGEST}
        for number, (line, answer) in enumerate(zip(session.split(b"\n"), answers.split(b"\n")), 1):
            word = words.get(line[:2])
            # A refused line changes nothing.
            if word is None or answer[:2] != b"00":
                continue
            fault = self.hold_line(word, line, answer)
            if fault:
                self.broken.append(f"  line {number}: {line!r}: {answer!r}, {fault}")

    def hold_line(self, word, line, answer):
        """One accepted line of a chip; gives what is wrong with its answer."""
        if line[2:4] == b"06":
            return self.hold_forecast(word, LARGEST[line[:2]], FORECAST_ANSWER.fullmatch(answer))
        if line[2:4] == b"05":
            return self.hold_run(word, RUN.fullmatch(line), RUN_ANSWER.fullmatch(answer))
        word.say(None)
        return None

    def hold_forecast(self, word, largest, answer):
        if answer is None:
            return "no answer to a forecast"
        forecast = int(answer[2], 16)
        fault = None
        if (answer[1] == b"1") != (forecast == 0):
            fault = "but it is 0 exactly where the line is asserted"
        elif largest < forecast != NEVER:
            fault = f"above {largest}"
        elif word.said is not None:
            self.forecasts += 1
            fault = None if forecast == word.left() else word.told()
        word.say(forecast)
        return fault

    def hold_run(self, word, run, answer):
        if run is None or answer is None:
            return "no answer to a run"
        if word.said is None:
            return None
        self.runs += 1
        word.ran += int(run[2], 16)
        return None if (answer[1] == b"1") == (word.left() == 0) else word.told()


def in_parts(session, rng):
    """A session with each run in two parts, and the places of the first parts.

    With a place comes how many turns both parts count, or None for a run that tells none. A run that is refused for its
    length stays whole: its parts would not be refused.
    """
    lines, firsts = [], {}
    for line in session.split(b"\n"):
        run = ANY_RUN.fullmatch(line)
        if run and (run[1] != TOLD or int(run[2], 16) <= LONGEST_TOLD):
            clocks = int(run[2], 16)
            part = min(clocks, rng.choice((0, 1, max(1, clocks) - 1, rng.randrange(clocks + 1), rng.randrange(clocks + 1))))
            # The turn in which the parts meet is one of each, if each has clocks.
            firsts[len(lines)] = int(0 < part < clocks) if run[1] == TOLD else None
            lines.append(b"%s%08X" % (run[1], part))
            line = b"%s%08X" % (run[1], clocks - part)
        lines.append(line)
    return b"\n".join(lines), firsts


def joined(answers, firsts):
    """What the answers to parts say of the whole runs: those to the second parts, with the turns of both."""
    answers = answers.split(b"\n")
    for place, twice in firsts.items():
        parts = [TOLD_ANSWER.fullmatch(answer) for answer in answers[place:place + 2]]
        if twice is not None and len(parts) == 2 and all(parts):
            turns = sum(int(part[2], 16) for part in parts) - twice
            answers[place + 1] = b"%s%08X" % (parts[1][1], turns)
    return b"\n".join(answer for place, answer in enumerate(answers) if place not in firsts)
