"""Reads the traces that pvsim writes (pvsim(5)), which show each call of the machine completely."""
import re
from dataclasses import dataclass, field
from typing import Optional

from .calls import split_arguments
from .logs import LogError
from .manifests import unescape

LINE = re.compile(r" *(\d+) (CALL|NAMI|PLDG|UNVL|GIO|RET|PSIG|WAIT|GONE) {1,3}(.*)")
CALL = re.compile(r"(\w+)\((.*)\)")


@dataclass
class Step:
    """A step of a process that writes lines: its call with the arguments, the value in r0 and the error number in r1, the bytes that it copies to the buffer,
    those that it takes from there, the words of its lines PLDG and UNVL, and the number of its walks.

    `outcome` is `answer`, `ended`, `killed`, `blocked`, or `gone` for a step of a process that is not live."""

    pid: int
    outcome: str
    name: str = ""
    args: tuple = ()
    value: int = 0
    error: int = 0
    read: bytes = b""
    wrote: Optional[bytes] = None
    judged: list = field(default_factory=list)
    walks: int = 0

    def instruction(self):
        return " ".join([self.name, *self.args])

    def has_succeeded(self):
        return self.outcome == "answer" and not self.error

    def text(self, at):
        """Returns the bytes of an argument that is a text, and None for null."""
        return None if self.args[at] == "null" else unescape(self.args[at].encode())

    def number(self, at):
        return int(self.args[at])


def is_trace(lines):
    """Returns whether the first line is one of pvsim, which has no name of a command."""
    return bool(LINE.fullmatch(lines[0]))


def begin(pid, word, text):
    """Returns the step that a line begins."""
    if word == "GONE":
        return Step(pid, "gone")
    found = CALL.fullmatch(text)
    return Step(pid, "ended" if found[1] == "exit" else "answer", found[1], tuple(split_arguments(found[2])))


def add(step, word, text):
    """Adds a line of a step after the first."""
    if word == "GIO":
        direction, _, data = text.partition(" ")
        data = bytes.fromhex(data.partition(" ")[2])
        step.read, step.wrote = (data, step.wrote) if direction == "read" else (step.read, data)
    elif word == "RET":
        found = re.fullmatch(r"\w+ (-?\d+)(?: errno (\d+) \w+)?", text)
        step.value, step.error = int(found[1]), int(found[2] or 0)
    elif word in ("PLDG", "UNVL"):
        step.judged.append(word)
    elif word == "NAMI":
        step.walks += 1
    elif word in ("PSIG", "WAIT"):
        step.outcome = "killed" if word == "PSIG" else "blocked"


def read(lines):
    """Returns the steps of a trace."""
    steps = []
    for at, line in enumerate(lines, 1):
        found = LINE.fullmatch(line)
        if not found:
            raise LogError(f"line {at} is not one of a trace")
        pid, word, text = int(found[1]), found[2], found[3]
        if word in ("CALL", "GONE"):
            steps.append(begin(pid, word, text))
        elif not steps or steps[-1].pid != pid:
            raise LogError(f"line {at} is before the line of its call")
        else:
            add(steps[-1], word, text)
    return steps
