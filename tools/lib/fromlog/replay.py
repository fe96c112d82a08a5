"""Replays the successful calls of a trace on a tree."""
from .logs import LogError
from .replayed_tree import Node


class OpenFile:
    """An open file, which descriptors share."""

    def __init__(self, node, is_append=False):
        self.node, self.offset, self.is_append = node, 0, is_append


class Process:
    """A process: its descriptors with their marks for execve, its working directory, and the directories of its unveil table. `program` is the node that it
    executes."""

    def __init__(self, files, directory, program, unveiled=()):
        self.files, self.directory, self.program, self.unveiled = files, directory, program, list(unveiled)

    def child(self):
        return Process(dict(self.files), self.directory, self.program, self.unveiled)

    def nodes(self):
        """Returns the nodes that the process refers to."""
        return [*(held.node for held, _ in self.files.values()), self.directory, *self.unveiled]


class Replay:
    """The tree and the live processes of a trace up to a step."""

    def __init__(self, tree):
        self.tree = tree
        self.processes = {1: Process({}, tree.root, tree.walk(tree.root, b"/init").node)}

    def apply(self, step):
        """Applies a step."""
        process = self.processes.get(step.pid)
        if step.outcome in ("ended", "killed"):
            del self.processes[step.pid]
        elif step.has_succeeded():
            handler = getattr(self, f"do_{step.name}", None)
            if handler:
                handler(process, step)

    def node_of(self, process, path, follows=True):
        node = self.tree.walk(process.directory, path, follows).node
        if node is None:
            raise LogError(f"the trace is not of this manifest: it has no {path!r}")
        return node

    # ---- processes

    def do_fork(self, process, step):
        self.processes[step.value] = process.child()

    def do_execve(self, process, step):
        process.program = self.node_of(process, step.text(0))
        process.files = {number: held for number, held in process.files.items() if not held[1]}

    def do_chdir(self, process, step):
        process.directory = self.node_of(process, step.text(0))

    def do_fchdir(self, process, step):
        process.directory = process.files[step.number(0)][0].node

    def do_unveil(self, process, step):
        if step.text(0) is not None:
            place = self.tree.walk(process.directory, step.text(0))
            process.unveiled.append(place.node if place.node and place.node.kind == "dir" else place.directory)

    # ---- descriptors

    def do_open(self, process, step):
        self.open(process, process.directory, step.text(0), step.args[1], step.value)

    def do_openat(self, process, step):
        is_absolute = step.text(1).startswith(b"/")
        start = process.directory if step.args[0] == "cwd" or is_absolute else process.files[step.number(0)][0].node
        self.open(process, start, step.text(1), step.args[2], step.value)

    def open(self, process, start, path, flags, number):
        """Opens a node under a descriptor, and creates the file if it is absent."""
        words = flags.split("+")
        place = self.tree.walk(start, path, "nofollow" not in words and not {"create", "excl"} <= set(words))
        node = place.node or self.make(place, "file")
        if "trunc" in words:
            node.resize(0)
        process.files[number] = (OpenFile(node, "append" in words), "cloexec" in words)

    def do_close(self, process, step):
        del process.files[step.number(0)]

    def do_dup(self, process, step):
        process.files[step.value] = (process.files[step.number(0)][0], False)

    def do_dup2(self, process, step):
        if step.args[0] != step.args[1]:
            process.files[step.value] = (process.files[step.number(0)][0], False)

    def do_read(self, process, step):
        process.files[step.number(0)][0].offset += step.value

    def do_write(self, process, step):
        held = process.files[step.number(0)][0]
        if step.wrote:
            held.offset = held.node.size if held.is_append and held.node.size is not None else held.offset
            held.node.write(held.offset, step.wrote)
            held.offset += len(step.wrote)

    def do_lseek(self, process, step):
        process.files[step.number(0)][0].offset = step.value

    def do_ftruncate(self, process, step):
        process.files[step.number(0)][0].node.resize(step.number(1))

    # ---- names

    def make(self, place, kind):
        """Makes a node at a place."""
        node = place.directory.put(place.name, Node(kind, place.directory))
        if kind in ("file", "exec"):
            node.set_bytes(b"")
        return node

    def do_mkdir(self, process, step):
        self.make(self.tree.walk(process.directory, step.text(0).rstrip(b"/"), False), "dir")

    def do_symlink(self, process, step):
        self.make(self.tree.walk(process.directory, step.text(1), False), "link").text = step.text(0)

    def do_link(self, process, step):
        node, place = self.node_of(process, step.text(0)), self.tree.walk(process.directory, step.text(1), False)
        place.directory.put(place.name, node)

    def do_unlink(self, process, step):
        place = self.tree.walk(process.directory, step.text(0), False)
        place.directory.entries.pop(place.name, None)

    do_rmdir = do_unlink

    def do_rename(self, process, step):
        """Moves a node, unless both paths are names of it."""
        old, new = [self.tree.walk(process.directory, step.text(at), False) for at in (0, 1)]
        if old.node is not new.node:
            del old.directory.entries[old.name]
            new.directory.put(new.name, old.node)
            if old.node.kind == "dir":
                old.node.parent = new.directory
