"""What the answers of calls show of the tree in which a trace begins."""
from .logs import LogError

KINDS = {1: "dir", 2: "file", 3: "exec", 4: "link"}


class Present(Exception):
    """A file that an open was assumed to create was there before."""

    def __init__(self, step):
        super().__init__()
        self.step = step


class Answers:
    """The part of Assumptions for calls that succeed; `see_NAME` is for the call NAME."""

    def see_path(self, process, step, follows=True, kind="any"):
        """Returns the node that the first path of a call leads to."""
        node = self.tree.want(process.directory, step.text(0), follows, kind).node
        if node is None:
            raise LogError(f"no node is at {step.args[0]}, but {step.name} finds one")
        return node

    def see_chdir(self, process, step):
        self.see_path(process, step, kind="dir")

    def see_execve(self, process, step):
        self.see_path(process, step, kind="exec").kind = "exec"

    def see_stat(self, process, step):
        self.see_bytes(self.see_path(process, step, follows=step.name == "stat"), step.read)

    see_lstat = see_stat

    def see_fstat(self, process, step):
        self.see_bytes(process.files[step.number(0)][0].node, step.read)

    def see_readlink(self, process, step):
        node = self.see_path(process, step, follows=False, kind="link")
        node.kind, node.text = "link", step.read

    def see_unlink(self, process, step):
        self.see_path(process, step, follows=False)

    def see_rmdir(self, process, step):
        self.see_path(process, step, follows=False, kind="dir")

    def see_link(self, process, step):
        self.see_path(process, step)

    def see_rename(self, process, step):
        self.see_path(process, step, follows=False)

    def see_open(self, process, step):
        self.see_flags(process.directory, step.text(0), step.args[1])

    def see_openat(self, process, step):
        is_from_cwd = step.args[0] == "cwd" or step.text(1).startswith(b"/")
        start = process.directory if is_from_cwd else process.files[step.number(0)][0].node
        start.kind = start.kind or "dir"
        self.see_flags(start, step.text(1), step.args[2])

    def see_flags(self, start, path, flags):
        """Notes the node that an open finds."""
        words = flags.split("+")
        if "create" not in words or id(self.step) in self.present:
            kind = "dir" if "dir" in words else "file" if "w" in words[0] else "any"
            self.tree.want(start, path, "nofollow" not in words, kind)

    # ---- bytes

    def see_bytes(self, node, read):
        """Notes the kind, the number and the size that a stat shows."""
        kind, number, size = KINDS[read[0]], int.from_bytes(read[2:4], "little"), int.from_bytes(read[4:8], "little")
        if node.is_before:
            node.kind, node.number = kind, number
            self.unify(node)
        else:
            self.numbers.show(node, number)
        if kind == "dir" and node.is_before:
            self.tree.show_size(node, size)
        elif kind in ("file", "exec"):
            self.see_size(node, size)
        else:
            node.initial_size = size

    def unify(self, node):
        """Replaces the earlier node of the same number: both are names of one file."""
        other = next((it for _, _, it in self.tree.before if it.number == node.number and it is not node and it.kind == node.kind), None)
        if not other or other.kind == "dir":
            return
        node.initial, node.written = {**other.initial, **node.initial}, {**other.written, **node.written}
        node.initial_size, node.size, node.limit = other.initial_size, other.size, other.limit
        self.tree.before = [(above, name, node if it is other else it) for above, name, it in self.tree.before]
        for above in {id(it): it for it, _, _ in self.tree.before}.values():
            above.entries.update((name, node) for name, it in above.entries.items() if it is other)
        for held in (held for process in self.processes.values() for held, _ in process.files.values()):
            held.node = node if held.node is other else held.node

    def see_size(self, node, size):
        """Notes the size of a file now."""
        end_of_written = max(node.written, default=-1) + 1
        if node.is_before and node.initial_size is None and node.limit is None and (size > end_of_written or not node.written):
            node.initial_size = size
        node.size = size if node.is_before and node.size is None else node.size
        if not node.is_before and node.size != size and node in self.made_by:
            raise Present(self.made_by[node])

    def see_read(self, process, step):
        """Notes the bytes of a file."""
        held = process.files[step.number(0)][0]
        node = held.node
        node.kind = node.kind or "file"
        for at, byte in enumerate(step.read, held.offset):
            is_before = node.limit is None or at < node.limit
            if node.is_before and is_before and at not in node.written:
                node.initial[at] = byte
            elif not node.is_before and node in self.made_by and at >= (node.size or 0):
                raise Present(self.made_by[node])
        if len(step.read) < step.number(1) and step.read:
            self.see_size(node, held.offset + len(step.read))

    def see_getdents(self, process, step):
        """Notes a name of a directory, or that there are no more."""
        node = process.files[step.number(0)][0].node
        node.kind = "dir"
        if step.read and step.read not in node.known and node.is_before:
            self.tree.assume(node, step.read, "any")
        elif not step.read and node.is_before:
            self.tree.show_size(node, len(node.entries))

    def see_fchdir(self, process, step):
        process.files[step.number(0)][0].node.kind = "dir"

    def see_lseek(self, process, step):
        held = process.files[step.number(0)][0]
        held.node.kind = held.node.kind or "file"
        if step.args[2] == "end":
            self.see_size(held.node, step.value - step.number(1))
