"""Reads what `pvsim explain` writes of a run: its steps, each with the program and the line that it executes."""
import re

from .texts import split_instruction, unescape
from .witness import Step, parsed

STEP = re.compile(r"[0-9]+(?:, line ([0-9]+))?")
EXECVE = re.compile(r'execve\("((?:[^"\\]|\\x[0-9a-f]{2})*)"\)')


class RunStep(Step):
    """A step of a run: the process, the number of the line or None, the program or None, and the lines of the trace."""

    def __init__(self, process, line):
        super().__init__([])
        self.process, self.line, self.program = process, line, None

    def add(self, line):
        self.lines.append(line)
        self.parts.append(parsed(line)[1:])

    def has_succeeded(self):
        result = self.text("RET")
        return result is not None and " -1 errno " not in result

    def name(self):
        """Returns the name of the call, or None for an instruction on registers."""
        call = self.text("CALL")
        return call.partition("(")[0] if call else None


def steps_of(lines):
    """Returns the steps of an explained run, without their programs."""
    steps = []
    for line in lines:
        process, word, text = parsed(line)
        if word == "STEP":
            steps.append(RunStep(process, STEP.fullmatch(text)[1] and int(STEP.fullmatch(text)[1])))
        elif steps:
            steps[-1].add(line)
    return steps


def fits(program, steps):
    """Returns whether the steps of one program image may be those of a program."""
    for step in steps:
        if step.line is None or step.line > len(program.lines) + 1:
            return False
        words = split_instruction(program.lines[step.line - 1]) if step.line <= len(program.lines) else ["exit"]
        if step.name() not in (None, *words[:1]):
            return False
    return True


def note_programs(steps, programs, first=b"/init"):
    """Notes the program of each step, where `programs` has them by path. If an execve does not name a program by its path, the first that fits is taken."""
    images, current = [], {1: (first, [])}
    for step in steps:
        if step.line is None:
            continue
        path, mine = current.setdefault(step.process, (None, []))
        mine.append(step)
        if step.name() == "fork" and step.has_succeeded():
            current[int(step.text("RET").split()[1])] = (path, mine)
        elif step.name() == "execve" and step.has_succeeded():
            images.append((path, mine))
            found = EXECVE.fullmatch(step.text("CALL"))
            current[step.process] = (unescape(found[1].encode("latin-1")), [])
    images += current.values()
    for path, mine in images:
        program = programs.get(path)
        if program is None or not fits(program, mine):
            program = next((it for it in programs.values() if fits(it, mine)), None)
        for step in mine:
            step.program = program


def replay(ask, bundle, schedule=None):
    """Returns the steps of the run of a bundle under a schedule in one word, or under its own, each with its program."""
    steps = steps_of(ask.question("explain", bundle.text(), "--brief", *(["--by", schedule] if schedule else []))[1])
    note_programs(steps, bundle.by_path())
    return [it for it in steps if it.line is not None or it.text("GONE")]


def schedule_without(steps, is_left_out):
    """Returns the schedule of these steps in one word, without those for which `is_left_out` is true."""
    turns = []
    for step in steps:
        if not is_left_out(step):
            if turns and turns[-1][0] == step.process:
                turns[-1][1] += 1
            else:
                turns.append([step.process, 1])
    return ", ".join(f"{process} {count}" for process, count in turns)
