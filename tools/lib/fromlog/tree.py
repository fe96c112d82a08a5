"""The files of a log as they were before its programs ran."""
from .texts import TEXT, is_path_of_manifest, parent_of, text_of


class Node:
    """What the log shows at a path: the kind, and the first bytes of a file or the text of a link. `is_complete` says that no more bytes can be added."""

    def __init__(self, kind):
        self.kind, self.text, self.is_complete = kind, b"", False


class Tree:
    """The nodes by path; `made` has the paths that the programs made themselves."""

    def __init__(self):
        self.nodes, self.made = {}, set()

    def note(self, path, kind=None):
        """Notes that something was at a path before, unless the programs made it: of this kind, or a file if the log never shows its kind."""
        if path in self.made or path == b"/" or not is_path_of_manifest(path):
            return
        self.note_above(path)
        node = self.nodes.setdefault(path, Node(kind or "file"))
        if kind and node.kind != "dir":
            node.kind = kind

    def note_above(self, path):
        """Notes the directories above a path."""
        above = parent_of(path)
        while above and is_path_of_manifest(above) and above not in self.made:
            self.nodes.setdefault(above, Node("dir")).kind = "dir"
            above = parent_of(above)

    def note_made(self, path):
        """Notes that the programs made something at a path."""
        if path not in self.nodes:
            self.made.add(path)
        self.note_above(path)

    def note_text(self, path, kind, text):
        """Notes the bytes of a file or the text of a link, unless they are known."""
        node = self.nodes.get(path)
        if node and node.kind == kind and not node.text:
            node.text = text

    def note_bytes(self, path, at, data):
        """Notes bytes of a file that a read at an offset shows, if they follow those that are known, up to a NUL byte."""
        node = self.nodes.get(path)
        if node and node.kind == "file" and not node.is_complete and len(node.text) == at:
            node.text = (node.text + data.split(b"\0")[0])[:TEXT]
            node.is_complete = len(node.text) != at + len(data)

    def note_written(self, path):
        """Notes that a program changes a file, so that later reads do not show the bytes that it had before."""
        if path in self.nodes:
            self.nodes[path].is_complete = True

    def entries(self, programs):
        """Returns the lines of a manifest, except those of the programs' paths."""
        paths = sorted(self.nodes, key=lambda it: (it.count(b"/"), it))
        return [self.entry(path) for path in paths if path not in programs]

    def entry(self, path):
        """Returns the line of a path; a link whose text the log does not show is a file."""
        node = self.nodes[path]
        if node.kind == "dir":
            return f"dir {text_of(path)}"
        if node.kind == "link" and node.text:
            return f"link {text_of(path)} {text_of(node.text)}"
        return f"bytes {text_of(path)} {text_of(node.text)}"
