"""Finds the schedule of a trace, if the manifest is known: register instructions write no line, and their number follows from the programs."""
import re

from .logs import LogError
from .manifests import unescape
from .replay import Replay
from .replayed_tree import Tree
from .texts import COUNT, text_of

REGISTERS = ("set", "add", "put", "peek", "jmp", "jz", "jnz", "jneg")
LEAST, GREATEST, LONGEST = -(2**31), 2**31 - 1, 2_000_000


class Processor:
    """The registers, the buffer and the place of a process in its program."""

    def __init__(self, lines):
        self.lines, self.line, self.registers, self.buffer = lines, 0, [0] * 8, bytearray(COUNT)

    def copy(self):
        other = Processor(self.lines)
        other.line, other.registers, other.buffer = self.line, list(self.registers), bytearray(self.buffer)
        return other

    def run(self):
        """Executes register instructions up to the next call; returns how many."""
        steps = 0
        while self.line < len(self.lines) and self.lines[self.line].split(" ", 1)[0] in REGISTERS:
            self.execute(*self.lines[self.line].split(" ", 1))
            steps += 1
            if steps > LONGEST:
                raise LogError("a program has no next call, but the trace has one")
        return steps

    def execute(self, name, rest):
        """Executes a register instruction."""
        self.line += 1
        if name == "put":
            text = unescape(rest.encode())
            self.buffer[: len(text)] = text
            return
        words = rest.split(" ")
        register = int(words[0][1]) if name != "jmp" else None
        value = self.registers[register] if register is not None else 0
        if name == "set":
            self.registers[register] = int(words[1])
        elif name == "add":
            self.registers[register] = min(max(value + int(words[1]), LEAST), GREATEST)
        elif name == "peek":
            self.registers[register] = self.buffer[int(words[1])]
        elif {"jmp": True, "jz": value == 0, "jnz": value != 0, "jneg": value < 0}[name]:
            self.line = int(words[-1]) - 1

    def call(self):
        """Returns the next call as a trace has it, without brackets."""
        text = self.lines[self.line] if self.line < len(self.lines) else "exit 0"
        parts = re.findall(r'"[^"]*"|[^ ]+', text)
        return " ".join(self.shown(it, is_flags(parts, at)) for at, it in enumerate(parts))

    def shown(self, word, is_word_of_flags):
        """Returns a word of a call as a trace has it: a register by its value, a text in its shortest form."""
        if word.startswith('"'):
            return text_of(unescape(word.encode()))
        is_register = re.fullmatch("r[0-7]", word) and not is_word_of_flags
        return str(self.registers[int(word[1])]) if is_register else word

    def answer(self, step):
        """Takes the answer of a call."""
        self.line += 1
        self.registers[:2] = [step.value, step.error]
        self.buffer[: len(step.read)] = step.read


def is_flags(parts, at):
    """Returns whether a word is the flags of an open, which can look like a register."""
    return parts[0] in ("open", "openat") and at == len(parts) - 1


def lines_of(node):
    """Returns the lines of a program."""
    return node.content().decode("latin-1").split("\n")[:-1] if node and node.kind == "exec" else []


class Scheduler:
    """Follows a trace through the programs of a manifest."""

    def __init__(self, entries, rooms=None):
        """Begins with the tree of these entries of a manifest."""
        tree = Tree()
        tree.build(entries)
        self.replay = Replay(tree)
        self.processors = {1: Processor(lines_of(self.replay.processes[1].program))}
        self.turns, self.rooms = [], rooms
        self.measure()

    def measure(self):
        if self.rooms:
            self.rooms.measure(self.replay)

    def turn(self, pid, steps):
        if self.turns and self.turns[-1][0] == pid and self.turns[-1][1] + steps < 100_000:
            self.turns[-1][1] += steps
        elif steps:
            self.turns.append([pid, steps])

    def follow(self, step):
        """Adds the steps up to the next line of the trace."""
        processor = self.processors.get(step.pid)
        if step.outcome == "gone":
            self.turn(step.pid, 1)
            return
        if not processor:
            raise LogError(f"the trace is not of this manifest: process {step.pid} does not exist")
        self.turn(step.pid, processor.run() + 1)
        if processor.call() != step.instruction():
            raise LogError(f"the trace is not of this manifest: the program of process {step.pid} calls {processor.call()}, and the trace {step.instruction()}")
        self.replay.apply(step)
        if step.has_succeeded():
            self.measure()
        self.move(processor, step)

    def move(self, processor, step):
        """Moves the process past its call."""
        if step.outcome in ("ended", "killed"):
            del self.processors[step.pid]
        elif step.outcome == "answer":
            processor.answer(step)
            if step.name == "fork" and not step.error:
                child = self.processors[step.value] = processor.copy()
                child.registers[:2] = [0, 0]
            elif step.name == "execve" and not step.error:
                self.processors[step.pid] = Processor(lines_of(self.replay.processes[step.pid].program))


def schedule_of(steps, entries, rooms=None):
    """Returns the lines of the schedule of a trace; `rooms` measures the tree after each step."""
    scheduler = Scheduler(entries, rooms)
    for step in steps:
        scheduler.follow(step)
    return [f"{pid} {count}" for pid, count in scheduler.turns]
