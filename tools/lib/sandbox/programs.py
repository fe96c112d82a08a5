"""A source, the bundle that pvsim makes of it, and the programs of both."""
import re

from .texts import shown, unescape

EXEC = re.compile(rb'exec ("(?:[^"\\]|\\x[0-9a-f]{2})*") ([0-9]{1,4})')
ROW = re.compile(rb'([0-9]+) ("(?:[^"\\]|\\x[0-9a-f]{2})*"):([0-9]+) (.*)', re.S)


LONGEST = 1100  # bytes of a text


class BadInput(Exception):
    """An error of the input."""

    def report(self, name):
        """Returns the lines to print: those of pvsim, or one of the tool of this name."""
        text = str(self)
        return text if text.startswith("pvsim: ") else f"{name}: {text}\n"


class Program:
    """A program of a bundle: the text of its path, the place of its first line among the lines of the bundle, its instructions, and the line of each in the
    source. `is_marked` says whether the lines of the source up to an end mark are the program: these pvsim has checked."""

    def __init__(self, path, first, lines):
        self.path, self.first, self.lines = path, first, lines
        self.at_lines, self.is_marked = [0] * len(lines), False

    def name(self):
        return shown(self.path)


class Bundle:
    """The lines of a bundle or manifest and its programs, in their order."""

    def __init__(self, text):
        self.lines = text.split(b"\n")[:-1]
        self.programs, at = [], 0
        while at < len(self.lines) and self.lines[at] != b"schedule":
            found = EXEC.fullmatch(self.lines[at])
            at += 1
            if found:
                self.programs.append(Program(found[1], at, self.lines[at : at + int(found[2])]))
                at += int(found[2])
        self.has_schedule = at < len(self.lines)

    def text(self, changes=()):
        """Returns the text of the bundle with other lines at some places."""
        lines = list(self.lines)
        for at, line in dict(changes).items():
            lines[at] = line
        return b"".join(line + b"\n" for line in lines)

    def by_path(self):
        """Returns the programs by their paths as bytes."""
        return {unescape(it.path[1:-1]): it for it in self.programs}


def fillers(sizes):
    """Returns the lines to add to two programs of these lengths, as many to each, so that their lengths are equal: an exit, as after every program, and texts."""
    missing, lines = [max(sizes) - it for it in sizes], ([], [])
    while max(missing):
        for side in (0, 1):
            count = min(LONGEST, missing[side])
            lines[side].append(b'put "%s"' % (b"." * count))
            missing[side] -= count
    return [[b"exit 0", *it] if it else [] for it in lines]


def equal_lengths(first, second):
    """Returns two bundles whose programs have equal numbers of lines, with programs of equal lengths: a call that reports the length of a program does not show
    what was added to it. No process executes the texts at the end of a program."""
    bundles = Bundle(first), Bundle(second)
    texts, ends = ([], []), [0, 0]
    for pair in zip(*(it.programs for it in bundles)):
        added = fillers([sum(len(line) + 1 for line in it.lines) for it in pair])
        for side, program in enumerate(pair):
            texts[side].extend(bundles[side].lines[ends[side] : program.first - 1])
            texts[side].extend([b"exec %s %d" % (program.path, len(program.lines) + len(added[side])), *program.lines, *added[side]])
            ends[side] = program.first + len(program.lines)
    return [b"".join(line + b"\n" for line in [*text, *bundle.lines[end:]]) for text, bundle, end in zip(texts, bundles, ends)]


class Source:
    """A source: its text and name, its lines with their ends, the number of the line `schedule` or None, and its bundle, whose programs know the lines of their
    instructions."""

    def __init__(self, ask, text, name):
        self.text, self.name = text, name
        self.lines, self.schedule_line = re.findall(rb"[^\n]*\n|[^\n]+", text), None
        self.bundle = Bundle(ask.source(text, name))
        rows = [ROW.fullmatch(it) for it in ask.source(text, name, "--lines").split(b"\n")[:-1]]
        programs = iter(rows)
        for program in self.bundle.programs:
            program.at_lines = [int(next(programs)[1]) for _ in program.lines]
        self.mark_programs()

    def mark_programs(self):
        """Notes which programs end with a mark, and the line `schedule`."""
        headers, skipped, end = [], 0, None
        for number, line in enumerate(self.lines, 1):
            words = line.split()
            if end or skipped:
                skipped = max(0, skipped - 1) if not end else 0
                end = None if end and words[:1] == [end] else end
            elif words[:1] == [b"schedule"]:
                self.schedule_line = number
                break
            elif words[:1] == [b"exec"]:
                last = re.sub(rb'^[ \t]*exec[ \t]+"[^"]*"[ \t]*', b"", line).split()[0]
                end = last[2:] if last.startswith(b"<<") else None
                skipped = 0 if end else int(last)
                headers.append(bool(end))
        for program, is_marked in zip(self.bundle.programs, headers):
            program.is_marked = is_marked

    def changed(self, changes):
        """Returns the text with other lines at some numbers of lines, from 1; a line may be several or none."""
        lines = list(self.lines)
        for number, line in changes.items():
            lines[number - 1] = line
        return b"".join(lines)
