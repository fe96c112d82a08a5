"""Finds the tree in which a trace begins, from the answers and errors of its calls."""
from .assumed_tree import AssumedTree
from .logs import LogError
from .numbers import Numbers
from .replay import Replay
from .shown_by_answers import Answers, Present
from .shown_by_errors import Errors

MOST_PASSES = 5


class Assumptions(Answers, Errors, Replay):
    """Replays a trace, and assumes what its calls need. `present` has the steps whose opens with +create found their file; `made_by` the step that made a
    node."""

    def __init__(self, tree, present):
        super().__init__(tree)
        self.present, self.made_by, self.step, self.numbers = present, {}, None, Numbers(tree)

    def apply(self, step):
        """Notes what a step shows, and applies it."""
        self.step = step
        process = self.processes.get(step.pid)
        if step.outcome == "answer" and process:
            handler = getattr(self, f"see_{step.name}", None)
            if step.error:
                self.see_error(process, step)
            elif handler:
                handler(process, step)
        super().apply(step)
        self.numbers.release(self.processes.values())

    def make(self, place, kind):
        node = super().make(place, kind)
        self.made_by[node] = self.step
        self.numbers.make(node)
        return node

    def do_unlink(self, process, step):
        place = self.tree.walk(process.directory, step.text(0), False)
        super().do_unlink(process, step)
        self.numbers.remove(place.node)

    do_rmdir = do_unlink

    def do_rename(self, process, step):
        replaced = self.tree.walk(process.directory, step.text(1), False).node
        super().do_rename(process, step)
        self.numbers.remove(replaced)


def replayed(steps, tree, present):
    """Returns the replay of a trace on a tree, and the node that the process executes after each step."""
    found, programs = Assumptions(tree, present), []
    for step in steps:
        found.apply(step)
        process = found.processes.get(step.pid)
        programs.append(process.program if process else None)
    return found, programs


def assume(steps):
    """Returns the replay of a trace with its assumptions, and the node that the process executes after each step. A call can show something that an earlier one
    found, so the replay is repeated with the entries that are known."""
    tree, present, passes = AssumedTree(), set(), 0
    tree.assume(tree.root, b"init", "exec")
    while True:
        try:
            found, programs = replayed(steps, tree.again(), present)
        except Present as other:
            if id(other.step) in present:
                raise LogError("the trace does not show the tree in which it begins") from None
            present.add(id(other.step))
            continue
        passes += 1
        if passes == MOST_PASSES or passes > 1 and len(found.tree.before) == len(tree.before):
            return found, programs
        tree = found.tree
