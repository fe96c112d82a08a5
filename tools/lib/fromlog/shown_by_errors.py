"""What the errors of calls show of the tree in which a trace begins."""
from .logs import LogError
from .replayed_tree import Node
from .texts import NAME

EPERM, ENOEXEC, EACCES, EBUSY, EEXIST, ENOTDIR, EISDIR, EINVAL, EFBIG, ENOSPC, ELOOP, ENAMETOOLONG, ENOTEMPTY = 1, 8, 13, 16, 17, 20, 21, 22, 27, 28, 62, 63, 66
# Errors that a call along two paths can have after both walks.
AFTER_WALKS = (EPERM, EBUSY, EEXIST, ENOTDIR, EISDIR, EINVAL, EFBIG, ENOSPC, ENOTEMPTY)
SLOTS = 8
WALKS = ("chdir", "execve", "stat", "lstat", "readlink", "mkdir", "rmdir", "unlink", "symlink", "link", "rename", "unveil")


class Errors:
    """The part of Assumptions for calls that fail."""

    def see_error(self, process, step):
        """Notes the nodes that an error shows."""
        kind = {"open": "open", "openat": "open", "read": "descriptor", "getdents": "descriptor", "lseek": "descriptor"}.get(step.name, "path")
        if "PLDG" in step.judged or step.name not in WALKS and kind == "path":
            return
        try:
            getattr(self, f"error_of_{kind}")(process, step)
        except LogError:
            return

    def error_of_descriptor(self, process, step):
        held = process.files.get(step.number(0))
        if held and step.error in (EISDIR, EINVAL) and held[0].node.kind is None:
            held[0].node.kind = "file" if step.name == "getdents" else "dir"

    def error_of_open(self, process, step):
        """Notes what an open finds."""
        at = 1 if step.name == "openat" else 0
        start, path, words = process.directory, step.text(at), step.args[at + 1].split("+")
        if at and step.args[0] != "cwd" and not path.startswith(b"/"):
            held = process.files.get(step.number(0))
            start = held[0].node if held else Node("file")
            start.kind = start.kind or ("file" if step.error == ENOTDIR else "dir")
        if start.kind != "dir":
            return
        if step.error in (ENOSPC, EFBIG):
            self.tree.walk(start, path)
        kind = {EEXIST: "any", EISDIR: "dir", ELOOP: "link", ENOTDIR: "file"}.get(step.error)
        self.error_of(start, path, "nofollow" not in words and not {"create", "excl"} <= set(words), kind, step)

    def error_of_path(self, process, step):
        """Notes what a call along a path, or along two, finds."""
        start, paths = process.directory, [step.text(at) for at in range(len(step.args)) if not (step.name == "symlink" and at == 0)]
        follows = step.name in ("execve", "chdir", "stat", "link", "unveil")
        if step.walks == 2 or step.error in (ENOSPC, EFBIG, EBUSY):
            self.tree.walk(start, paths[0], follows)
        if len(paths) == 2 and step.error in AFTER_WALKS:
            self.two_paths(start, paths, step, follows)
        elif len(paths) == 2 and step.walks == 2:
            self.error_of(start, paths[1], False, None, step)
        elif step.name != "unveil" or step.error != EPERM:
            kinds = {EEXIST: "any", EACCES: "file", ENOEXEC: "exec", EPERM: "dir", ENOTEMPTY: "dir", ELOOP: "link", EINVAL: "file", ENOTDIR: "file"}
            kind = kinds.get(step.error) if step.walks else None
            self.error_of(start, paths[0], follows, kind, step)

    def two_paths(self, start, paths, step, follows):
        """Notes what link and rename find, if their walks have no error."""
        kind = "dir" if step.error in (EINVAL, ENOTDIR, ENOTEMPTY) or (step.name, step.error) == ("link", EPERM) else "any"
        if step.walks < 2 or "UNVL" in step.judged:
            return
        old, new = self.tree.want(start, paths[0], follows, kind).directory, self.tree.walk(start, paths[1], False).directory
        if step.error == ENOSPC:
            self.fill_blocks(old if step.name == "rename" else None, new)
        second = {EEXIST: "any", EISDIR: "dir", ENOTDIR: "file", ENOTEMPTY: "dir"}.get(step.error)
        if second:
            self.error_of(start, paths[1], False, second, step)

    def fill_blocks(self, old, new):
        """Assumes that a new entry takes a block of a directory, and that the removal of an old one frees none."""
        sizes = [(new, -(-len(new.entries) // SLOTS) * SLOTS)] if new else []
        sizes += [(old, len(old.entries) + 1)] if old and old is not new and len(old.entries) % SLOTS == 1 else []
        for directory, size in sizes:
            if directory.is_before and directory not in self.tree.totals:
                self.tree.show_size(directory, size)

    def error_of(self, start, path, follows, kind, step):
        """Notes what a walk that ends in an error finds; `kind` is that of the node that must be there."""
        is_judged = "UNVL" in step.judged
        if step.error == ENAMETOOLONG and any(len(it) > NAME for it in path.split(b"/")):
            path, is_judged = before_longest(path), True
        if is_judged:
            self.tree.walk(start, path, follows)
        elif kind is None or (step.error == ENOTDIR and self.end_at_a_file(start, path)):
            return
        elif step.error == ELOOP and follows:
            self.end_in_a_loop(start, path)
        else:
            node = self.tree.want(start, path, follows and step.error != ELOOP, kind).node
            if step.error == ENOTEMPTY and node and not node.entries and node.is_before:
                self.tree.assume(node, b"other1", "file")

    def end_at_a_file(self, start, path):
        """Assumes a file at the first name of the middle of a path that nothing shows; returns whether a file is in the middle."""
        directory = self.tree.root if path.startswith(b"/") else start
        names = [it for it in path.split(b"/") if it not in (b"", b".")]
        for at, name in enumerate(names):
            node = directory.entries.get(name)
            if node is None and directory.is_before and name not in directory.known and (at + 1 < len(names) or path.endswith(b"/")):
                self.tree.assume(directory, name, "file")
                return True
            if not isinstance(node, Node) or node.kind != "dir":
                return at + 1 < len(names) or node is not None and node.kind == "file"
            directory = node
        return False

    def end_in_a_loop(self, start, path):
        """Assumes a link to itself at the end of a path."""
        place = self.tree.want(start, path, False, "link")
        if place.node and place.node.is_before and not place.node.text and place.name:
            place.node.text = place.name


def before_longest(path):
    """Returns a path up to its first name that is too long."""
    names = path.split(b"/")
    at = next((at for at, name in enumerate(names) if len(name) > NAME), len(names))
    return b"/".join([*names[:at], b"?"])
