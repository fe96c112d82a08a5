"""Fits the schedule of a source to the calls that were added to its programs."""
import re

from .replay import replay
from .texts import unescape

TURN = re.compile(rb"([ \t]*[0-9]+)(?:([ \t]+)([0-9]+))?([ \t\r]*(?:#.*)?\n?)")


class Path:
    """Where a process is in the original: its program and the place of the line that it executed last, or None."""

    def __init__(self, program=None, last=None):
        self.program, self.last = program, last


def added_steps(steps, aligned):
    """Yields, for each step of a run of the original, the number of added lines that the process executes before it."""
    paths = {1: Path()}
    pairs = {id(pair.sides[0]): pair for pair in aligned.pairs.values()}
    own = aligned.sources[0].bundle.by_path()
    for step in steps:
        if step.line is None or step.program is None:
            yield 0
            continue
        mine = paths.setdefault(step.process, Path())
        pair, at = pairs[id(own[unescape(step.program.path[1:-1])])], step.line - 1
        yield pair.added_between(mine.last, at)
        paths[step.process] = mine = Path(step.program, at if at < len(step.program.lines) else None)
        if step.name() == "fork" and step.has_succeeded():
            paths[int(step.text("RET").split()[1])] = Path(mine.program, mine.last)
        elif step.name() == "execve" and step.has_succeeded():
            paths[step.process] = Path()


def fitted(ask, aligned):
    """Returns the text of the second source, whose schedule is that of the first, with more steps in each turn that executes added lines."""
    first, second = aligned.sources
    if not first.bundle.has_schedule:
        return second.text
    added = added_steps(replay(ask, first.bundle), aligned)
    lines = list(second.lines)
    for at in range(second.schedule_line, len(lines)):
        found = TURN.fullmatch(lines[at])
        if found:
            count = int(found[3] or 1)
            more = sum(next(added, 0) for _ in range(count))
            if more:
                lines[at] = found[1] + (found[2] or b" ") + b"%d" % (count + more) + found[4]
    return b"".join(lines)
