"""The answer of a comparison: that two bundles are the same, or a shortest schedule to a step that differs."""
import re

LINE = re.compile(r" *([0-9]+) ([A-Z]+) *(.*)")
TURN = re.compile(r"([0-9]+) ([0-9]+)")


def parsed(line):
    """Returns the process, the word and the text of a line in the form of a trace."""
    found = LINE.fullmatch(line)
    return int(found[1]), found[2], found[3]


def schedule_of(text):
    """Returns the turns of a schedule in one word."""
    return [[int(it) for it in turn] for turn in TURN.findall(text)]


class Step:
    """The lines of one step in one of the bundles."""

    def __init__(self, lines):
        self.lines = lines
        self.parts = [parsed(it)[1:] for it in lines]

    def text(self, word):
        """Returns the text of the first line with a word, or None."""
        return next((text for name, text in self.parts if name == word), None)

    def fate(self):
        """Returns what becomes of the call."""
        if self.text("PSIG"):
            return "is killed"
        if self.text("WAIT"):
            return "blocks"
        result = self.text("RET")
        found = result and re.fullmatch(r"\w+ -1 errno [0-9]+ (\w+)", result)
        if found:
            return f"fails with {found[1]}"
        return f"returns {result.split(' ', 1)[1]}" if result else "ends the process"


class Witness:
    """The answer of a comparison. If `status` is that of a difference, `schedule` leads to the step that differs, of `process`, whose lines are in `first` and
    `second`."""

    def __init__(self, status, out):
        self.status, self.lines = status, out.decode("latin-1").split("\n")[:-1]
        self.done = parsed(self.lines[-1])[2]
        self.schedule = self.process = self.first = self.second = None
        if len(self.lines) > 1:
            self.process, _, self.schedule = parsed(self.lines[0])
            middle = next(at for at, line in enumerate(self.lines) if parsed(line)[1:] == ("SIDE", "second"))
            self.first, self.second = Step(self.lines[2:middle]), Step(self.lines[middle + 1 : -1])

    def is_same(self):
        return self.status == 0

    def is_different(self):
        return self.status == 6

    def call(self):
        """Returns the call that differs, as the first bundle makes it; None if it makes none."""
        return self.first.text("CALL")

    def what(self):
        """Returns what differs in the second bundle, in words."""
        one, other = self.call(), self.second.text("CALL")
        if self.second.text("GONE"):
            return f"{one or 'a step'} is not made: process {self.process} has ended"
        if self.first.text("GONE"):
            return f"{other or 'a step'} is made, before which process {self.process} ended"
        if one != other:
            return f"{other or 'a step on registers'} is made in place of {one or 'a step on registers'}"
        if self.first.fate() != self.second.fate():
            return f"{one} {self.second.fate()}"
        pair = next(((a, b) for a, b in zip(self.first.parts, self.second.parts) if a != b), None)
        return f"{one} has {' '.join(pair[1])} in place of {' '.join(pair[0])}" if pair else f"{one} differs"

    def text(self):
        """Returns the witness in one line."""
        return f"after {self.schedule} {self.what()}"

    def fields(self):
        """Returns the fields of the witness in a report of JSON lines."""
        return {"schedule": schedule_of(self.schedule), "process": self.process, "what": self.what(), "first": self.first.lines, "second": self.second.lines}
