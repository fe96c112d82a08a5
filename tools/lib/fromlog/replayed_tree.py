"""A tree of files that follows the successful calls of a trace."""
import collections

from .logs import LogError

MOST_LINKS = 32


class Node:
    """A directory, file, executable file or link. `kind` is None while nothing shows it.

    The bytes of a file are those before the run, `initial` by offset, as far as the run has not cut them off, and those that the run wrote. A size is None if
    nothing shows it."""

    def __init__(self, kind, parent=None):
        self.kind, self.parent, self.entries, self.text, self.number = kind, parent, {}, b"", None
        self.initial, self.initial_size, self.written, self.limit, self.size = {}, None, {}, None, None
        self.is_before, self.known, self.before_in = False, set(), None

    def put(self, name, node):
        """Adds an entry to a directory; `known` has all names that it ever had."""
        self.entries[name] = node
        self.known.add(name)
        return node

    def set_bytes(self, data):
        self.initial, self.initial_size, self.size = dict(enumerate(data)), len(data), len(data)

    def content(self):
        """Returns the bytes, if the size is known."""
        kept = {at: byte for at, byte in self.initial.items() if self.limit is None or at < self.limit}
        return bytes({**kept, **self.written}.get(at, 0) for at in range(self.size or 0))

    def write(self, offset, data):
        self.written.update(zip(range(offset, offset + len(data)), data))
        self.size = None if self.size is None else max(self.size, offset + len(data))

    def resize(self, size):
        self.limit = size if self.limit is None else min(self.limit, size)
        self.written = {at: byte for at, byte in self.written.items() if at < size}
        self.size = size


Place = collections.namedtuple("Place", "directory name node")


class Tree:
    """The tree. A name that is not there is an error of the trace or of the manifest; `missing` can add it instead."""

    def __init__(self):
        self.root = Node("dir")
        self.root.parent = self.root

    def build(self, entries):
        """Adds the entries of a manifest."""
        for kind, path, data in entries:
            place = self.walk(self.root, path, False)
            if place.directory is None:
                raise LogError(f"an entry cannot have the path {path!r}")
            if kind == "name":
                place.directory.put(place.name, self.walk(self.root, data, False).node)
                continue
            node = place.directory.put(place.name, Node({"bytes": "file"}.get(kind, kind), place.directory))
            if kind == "link":
                node.text = data
            elif kind != "dir":
                node.set_bytes(data)

    def missing(self, directory, name, is_last):
        """Returns the node of a name that is not in the directory, or None."""
        if not is_last:
            raise LogError(f"the trace is not of this manifest: it has no {name!r}")

    def pass_through(self, node):
        """Notes that a walk passes through a node."""

    def walk(self, start, path, follows=True):
        """Returns where a path leads. A place without a name has only a node."""
        follows, directory = follows or path.endswith(b"/"), self.root if path.startswith(b"/") else start
        pending, links = [it for it in path.split(b"/") if it not in (b"", b".")], 0
        while pending:
            name = pending.pop(0)
            if name == b"..":
                directory = directory.parent
                continue
            node = directory.entries.get(name) or self.missing(directory, name, not pending)
            if node and node.kind == "link" and (pending or follows):
                links += 1
                if links > MOST_LINKS:
                    raise LogError(f"{path!r} leads through more than {MOST_LINKS} links")
                pending = [it for it in node.text.split(b"/") if it not in (b"", b".")] + pending
                directory = self.root if node.text.startswith(b"/") else directory
            elif not pending:
                return Place(directory, name, node)
            else:
                self.pass_through(node)
                directory = node
        return Place(None, None, directory)
