"""The source of a log while it is made, and its text."""
import collections
import re

from . import loops
from .processes import Process
from .programs import Action, Program
from .texts import COUNT, LINES, PATH, collapsed, joined, parent_of, text_of, unquote
from .tree import Tree

# Where the loader and the C library look before main, and what they ask.
LOADER = re.compile(rb"(/ld[.-]|\.so(\.|$)|/ld\.so|/locale|/gconv|/etc/(malloc\.conf|ld\.so)|/usr/lib/locale|/proc/self|/sys/kernel)")
REPEATED = ("stat", "lstat", "readlink")
# Errors that show that something is at the path.
PRESENT = ("EACCES", "EPERM", "EISDIR", "EEXIST", "ENOTEMPTY", "ELOOP", "EINVAL")


class Source:
    """The tree, the programs and the steps of a log. `dropped` counts the calls on files that are not in the source, by name, and
    `is_too_long` says whether a program has more lines than it may have."""

    def __init__(self, keep_loader=False, directory=None):
        self.tree, self.processes, self.programs, self.steps = Tree(), {}, [], []
        self.keep_loader, self.directory, self.last_number = keep_loader, directory, 0
        self.dropped, self.notes, self.is_too_long = collections.Counter(), [], False
        self.call, self.is_loader, self.is_modelled = None, False, False
        self.modelled, self.left_out = collections.Counter(), collections.Counter()

    # ---- the calls of the log

    def begin(self, process, call):
        """Begins the translation of a call."""
        self.call, self.is_loader, self.is_modelled = call, call.descriptor(0)[0] in process.loaded, False

    def count(self, call, is_quiet):
        """Counts a call that is translated: `modelled` has those in the source, and `left_out` the others, without those of memory, clocks and the loader."""
        if self.is_modelled:
            self.modelled[call.name] += 1
        elif not (is_quiet or self.is_loader):
            self.left_out[call.name] += 1

    # ---- processes and actions

    def process_of(self, pid):
        """Returns the process of a number of the log. If the log does not have its fork, the first process forks it."""
        if pid not in self.processes and not self.processes:
            self.programs.append(Program(b"/init"))
            self.processes[pid] = self.new_process(self.programs[-1])
        elif pid not in self.processes:
            self.note(f"the log does not have the fork of process {pid}: the first process forks it")
            child = self.fork(next(iter(self.processes.values())), pid, [f"process {pid} begins, whose fork is not in the log"])
            child.descriptors = {-1 - it: descriptor for it, descriptor in child.descriptors.items()}
        return self.processes[pid]

    def fork(self, process, pid, comments=()):
        """Adds a fork, and returns the child, which the log numbers `pid`."""
        label = f"child{self.last_number + 1}"
        self.add(process, "fork", f"jz r0 {label}", comments=comments)
        self.last_number += 1
        child = self.processes[pid] = process.child(self.last_number)
        process.program.labels[child] = label
        self.step(child, process.program.actions[-1], 1)
        return child

    def new_process(self, program):
        self.last_number += 1
        return Process(self.last_number, program, self.directory)

    def add(self, process, *instructions, comments=(), alike=None, repeats=None):
        """Adds an action, unless it repeats the one before it; returns whether it is added."""
        self.is_modelled = True
        if repeats and process.last == repeats:
            return False
        process.last = repeats
        process.program.flush(process)
        action = Action(process, instructions, comments, alike, self.call)
        process.program.actions.append(action)
        self.step(process, action, len(instructions))
        return True

    def step(self, process, action, count):
        """Adds steps to the schedule."""
        if count:
            self.steps.append((process.number, action, count))

    def comment(self, process, text):
        process.program.flush(process)
        process.program.actions.append(Action(process, [], [text]))

    def remark(self, process, text):
        """Comments on a call that is left out and that matters; equal comments in sequence are one."""
        process.program.flush(process)
        process.program.remark(process, text)

    def drop(self, process, call, words=None, note=None):
        """Leaves out a call on files, with a comment."""
        self.dropped[call.name] += 1
        if note:
            self.remark(process, note)
        else:
            process.program.lack(words or call.name)

    # ---- paths

    def located(self, process, call, at, start=None):
        """Returns the path of an argument as the machine walks it, and as an absolute path; None if the log does not show where it starts. `start` is the place
        of the argument with the descriptor that a relative path starts at."""
        path = call.text(at)
        if not path or len(path) > PATH or b"\0" in path:
            return None
        if path.startswith(b"/"):
            return path, collapsed(joined(b"/", path))
        number, shown = call.descriptor(start) if start is not None else ("cwd", None)
        if number == "cwd":
            return self.from_directory(process, path, shown)
        held = process.descriptors.get(number)
        base = shown or (held and held.path)
        whole = base and joined(base, path)
        return (whole, collapsed(whole)) if whole and len(whole) <= PATH else None

    def from_directory(self, process, path, shown):
        """Returns a relative path as the machine walks it, and as an absolute path."""
        if shown:
            process.directory, process.is_directory_known = shown, True
        elif not process.is_directory_known:
            self.note("the log does not show the first working directory: relative paths start at /")
        whole = joined(process.directory, path)
        given = path if process.directory == process.machine_directory else whole
        return (given, collapsed(whole)) if len(given) <= PATH else None

    def note(self, text):
        """Notes a line for standard error, once."""
        if text not in self.notes:
            self.notes.append(text)

    def is_of_loader(self, path):
        return not self.keep_loader and bool(LOADER.search(path))

    def walk(self, process, call, verb, place, kind=None, is_new=False, words="", instruction=None):
        """Adds a call along a path, and notes the node that it finds; returns whether the call is in the source. `words` follow the path in the instruction."""
        if place is None:
            self.drop(process, call)
            return False
        path, whole = place
        if self.is_of_loader(path):
            self.is_loader = True
            process.loaded.add(call.value)
            process.program.lack("the loader")
            return False
        if (call.has_succeeded() and not is_new) or call.error in PRESENT:
            self.tree.note(whole, "dir" if call.error in ("EISDIR", "ENOTEMPTY") else kind)
        alike = (verb, parent_of(whole)) if verb in REPEATED else None
        self.add(process, instruction or f"{verb} {text_of(path)}{words}", alike=alike)
        if verb in REPEATED and call.has_succeeded():
            process.touch(call.value if verb == "readlink" else 8)
        return True

    # ---- the text

    def turns(self):
        """Returns the lines of the schedule, with consecutive steps of a process in one line."""
        turns = []
        for number, action, count in self.steps:
            if action.is_included and turns and turns[-1][0] == number:
                turns[-1][1] += count + action.steps_of_loop
            elif action.is_included:
                turns.append([number, count + action.steps_of_loop])
        return [f"{number} {count}" for number, count in turns]

    def text(self):
        """Returns the lines of the source."""
        bodies = {program.path: self.body(program) for program in self.programs}
        lines = self.tree.entries(bodies)
        for path, body in bodies.items():
            lines += [f"exec {text_of(path)} <<END", *body, "END"]
        inodes = min(COUNT, len(self.tree.nodes) + len(bodies) + 64)
        blocks = min(8192, sum(map(len, lines)) // 512 + 2 * len(lines) + inodes // 16 + 64)
        return [f"image {blocks} {inodes}", *lines, "schedule", *self.turns()]

    def body(self, program):
        """Returns the lines of a program, and reports those that it cannot have."""
        for process in dict.fromkeys([it.process for it in program.actions][-1:]):
            program.flush(process)
        if program.size() > LINES:
            loops.roll(program)
        left_out = program.shorten()
        name = program.path.decode("latin-1")
        if left_out:
            self.note(f"{name}: {left_out} calls are left out, each like several before it")
        if program.size() > LINES:
            self.is_too_long = True
            self.note(f"{name}: {program.size()} instructions, and a program has at most {LINES}: shorten it by hand")
        return [f"# left out: {left_out} calls, each like several before it"] * bool(left_out) + program.body()


def first_directory(calls):
    """Returns the working directory in which the first process begins, or None if the log does not show it."""
    first = calls[0].pid
    for call in calls:
        if call.name in ("chdir", "fchdir") and call.has_succeeded():
            return None
        shown = [call.descriptor(at) for at in range(len(call.args)) if call.argument(at).startswith("AT_FDCWD<")]
        if shown and call.pid == first:
            return shown[0][1]
        if call.name == "getcwd" and call.has_succeeded() and call.text(0):
            return call.text(0)
        if call.name == "__getcwd" and call.paths:
            return unquote(call.paths[-1])[0]
    return None
