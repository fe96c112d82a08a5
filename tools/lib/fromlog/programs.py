"""Programs of a source, made of the actions of processes."""
from .texts import LINES


class Action:
    """What a call becomes: comments, and instructions that belong together. Actions with an equal `alike` can replace each other. In a loop, an action after
    the first round has no lines of its own: `is_repeated`. `before` and `after` are the lines of a loop around the action, and `steps_of_loop` their steps. `read` is the number of bytes that
    reads of the log read, and `is_whole` says whether the log has all of them."""

    def __init__(self, process, instructions, comments=(), alike=None, call=None):
        self.process, self.instructions, self.comments, self.alike, self.call = process, list(instructions), list(comments), alike, call
        self.is_included, self.is_in_loop, self.is_repeated = True, False, False
        self.before, self.after, self.steps_of_loop = [], [], 0
        self.read, self.is_whole = 0, False

    def size(self):
        """Returns the number of instructions in the program; a label is none."""
        loop = sum(not it.endswith(":") for it in [*self.before, *self.after])
        return 0 if self.is_repeated or not self.is_included else len(self.instructions) + loop

    def lines(self):
        """Returns the lines in the program."""
        comments = [f"# {it}" for it in self.comments]
        return comments if self.is_repeated else [*self.before, *comments, *self.instructions, *self.after]


def shown_times(text, times):
    return f"left out: {text}" + (f" ({times} times)" if times > 1 else "")


class Program:
    """A program: its path, the actions of its processes in the order of the log, and the label of each child that begins in it."""

    def __init__(self, path):
        self.path, self.actions, self.labels, self.not_modelled, self.noted = path, [], {}, {}, set()
        self.remarked = {}

    def is_empty(self):
        return not any(it.instructions for it in self.actions)

    def lack(self, words):
        """Notes words for the next comment `not modelled`; each is in one comment of the program only."""
        if words not in self.noted:
            self.not_modelled[words] = True

    def flush(self, process):
        """Adds the comment `not modelled`."""
        if self.not_modelled:
            self.actions.append(Action(process, [], ["not modelled: " + ", ".join(self.not_modelled)]))
        self.noted.update(self.not_modelled)
        self.not_modelled = {}

    def last_of(self, process):
        """Returns the last action of a process that has instructions."""
        return next(it for it in reversed(self.actions) if it.process is process and it.instructions)

    def remark(self, process, text):
        """Adds a comment of its own; equal ones of a process in sequence are one, with their number."""
        last, times = self.remarked.get(process, (None, 0))
        own = [it for it in self.actions if it.process is process]
        if last is None or own[-1] is not last or last.comments != [shown_times(text, times)]:
            last, times = Action(process, [], []), 0
            self.actions.append(last)
        last.comments = [shown_times(text, times + 1)]
        self.remarked[process] = last, times + 1

    def size(self):
        """Returns the number of instructions, with an exit for each process that does not end by one."""
        return sum(it.size() for it in self.actions) + 1 + len(self.labels)

    def shorten(self):
        """Leaves out actions that are like several before them until the program is no longer than a program may be; returns how many it leaves out."""
        for most in (8, 4, 2, 1, 0):
            if self.size() <= LINES:
                break
            seen = {}
            for action in self.actions:
                if action.alike and action.is_included and not action.is_in_loop:
                    seen[action.alike] = seen.get(action.alike, 0) + 1
                    action.is_included = seen[action.alike] <= most
        return sum(not it.is_included for it in self.actions)

    def body(self):
        """Returns the lines: those of the process that began the program, and those of each child after its label."""
        owners = dict.fromkeys([*(it.process for it in self.actions), *self.labels])
        lines = []
        for owner in sorted(owners, key=lambda it: it in self.labels):
            own = [it for it in self.actions if it.process is owner and it.is_included]
            lines += [f"{self.labels[owner]}:"] if owner in self.labels else []
            for action in own:
                lines += action.lines()
            last = [text for action in own for text in action.instructions][-1:]
            if not last or not last[0].startswith(("exit ", "execve ")):
                lines.append("exit 0")
        return lines
