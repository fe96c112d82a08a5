"""The tree in which a trace begins, as far as the trace shows it: a name that a call needs is assumed to have been there before."""
from .replayed_tree import Node, Tree
from .texts import text_of

# The content of an executable file that is no program, and the text of a link that leads nowhere.
NO_PROGRAM, NOWHERE = "?", b"nowhere"


class AssumedTree(Tree):
    """A tree that grows by assumptions. `before` has the entries that were there before, in the order of the assumptions."""

    def __init__(self):
        super().__init__()
        self.root.is_before, self.root.number = True, 1
        self.before, self.wanted, self.totals = [], None, {}

    def missing(self, directory, name, is_last):
        """Assumes a directory in the middle of a path, and the wanted node at its end."""
        if name in directory.known or not directory.is_before or (is_last and self.wanted is None):
            return None if is_last else super().missing(directory, name, is_last)
        return self.assume(directory, name, self.wanted if is_last else "dir")

    def assume(self, directory, name, kind):
        """Adds an entry that was there before; the kind `any` is not known yet."""
        node = directory.put(name, Node(None if kind == "any" else kind, directory))
        node.is_before, node.before_in = True, directory
        self.before.append((directory, name, node))
        return node

    def pass_through(self, node):
        node.kind = node.kind or "dir"

    def want(self, start, path, follows=True, kind="any"):
        """Returns the place of a path whose node must be there, of this kind if it is not `any`."""
        self.wanted = kind
        try:
            place = self.walk(start, path, follows)
        finally:
            self.wanted = None
        if place.node and kind != "any":
            place.node.kind = place.node.kind or kind
        return place

    def again(self):
        """Returns a tree that begins with the entries that this one assumes, without bytes and numbers."""
        tree = AssumedTree()
        nodes = {id(self.root): tree.root}
        for directory, name, node in self.before:
            above = nodes.get(id(directory))
            if not above or above.kind == "link" or name in above.known:
                continue
            tree.before.append((above, name, above.put(name, nodes.get(id(node)) or Node(node.kind, above))))
            copy = nodes[id(node)] = tree.before[-1][2]
            copy.is_before, copy.before_in, copy.text = True, above, node.text
        return tree

    def show_size(self, directory, size):
        """Notes the number of entries of a directory, from which that before the run follows."""
        own = sum(1 for above, _, _ in self.before if above is directory)
        self.totals[directory] = size - len(directory.entries) + own

    # ---- the manifest

    def fill(self, count_before):
        """Adds entries that the sizes of directories and the numbers of nodes show, but no call names."""
        for directory, total in list(self.totals.items()):
            while sum(1 for above, _, _ in self.before if above is directory) < total:
                self.assume(directory, self.new_name(directory), "file")
        free = [it for it in [self.root, *(node for _, _, node in self.before if node.kind == "dir")] if it not in self.totals]
        while free and len({id(node) for _, _, node in self.before}) < count_before:
            self.assume(free[0], self.new_name(free[0]), "file")

    def new_name(self, directory):
        return next(name for name in (b"other%d" % at for at in range(1, 5000)) if name not in directory.known)

    def ordered(self):
        """Returns the entries in an order that gives each node its number, with directories before their entries."""
        paths, numbered = {id(self.root): b""}, {}
        for entry in self.before:
            if entry[2].number:
                numbered.setdefault(entry[2].number, entry)
        waiting, order = list(self.before), []
        while waiting:
            number = len({id(entry[2]) for entry in order}) + 2
            entry = self.next_entry(waiting, paths, numbered, number)
            waiting.remove(entry)
            paths.setdefault(id(entry[2]), paths[id(entry[0])] + b"/" + entry[1])
            order.append(entry)
        return order, paths

    def next_entry(self, waiting, paths, numbered, number):
        """Returns the entry to write next: one of this number, a directory above the entry of the next number, one without a number, or any."""
        ready = [it for it in waiting if id(it[0]) in paths]
        again = [it for it in ready if id(it[2]) in paths]
        exact = [it for it in ready if numbered.get(number) and it[2] is numbered[number][2]]
        plain = [it for it in ready if not it[2].number]
        above = [self.above(numbered[it], paths) for it in sorted(numbered) if it > number]
        needed = [it for node in above for it in plain if it[2] is node]
        return (again or exact or needed or sorted(plain, key=lambda it: it[2].kind != "dir") or ready)[0]

    def above(self, entry, paths):
        """Returns the highest node that is not written above an entry, or that of the entry."""
        node, directory = entry[2], entry[0]
        while id(directory) not in paths:
            node, directory = directory, directory.before_in
        return node

    def manifest(self, programs):
        """Returns the lines of the entries; `programs` has the lines of each executable node."""
        order, paths = self.ordered()
        lines, named = [], set()
        for directory, name, node in order:
            path = paths[id(directory)] + b"/" + name
            if id(node) in named:
                lines.append(f"name {text_of(path)} {text_of(paths[id(node)])}")
                continue
            named.add(id(node))
            lines += self.entry(node, path, programs)
        return lines

    def entry(self, node, path, programs):
        """Returns the lines of one entry."""
        if node.kind == "dir":
            return [f"dir {text_of(path)}"]
        if node.kind == "link":
            return [f"link {text_of(path)} {text_of(node.text or nowhere(node.initial_size))}"]
        if node.kind == "exec" or node in programs:
            body = programs[node] if node in programs else lines_of(node) or [NO_PROGRAM]
            return [f"exec {text_of(path)} {len(body)}", *body]
        return [f"bytes {text_of(path)} {text_of(bytes_of(node))}"]


def nowhere(size):
    """Returns the text of a link that leads nowhere, of this size if it is not None."""
    return NOWHERE[:size].ljust(size or 0, b".")


def bytes_of(node, other=ord(".")):
    """Returns the bytes of a file before the run, with another byte for each that the trace does not show."""
    size = max([node.initial_size or 0, *(at + 1 for at in node.initial)])
    return bytes(node.initial.get(at, other) for at in range(size))


def lines_of(node):
    """Returns the lines of an executable file, as far as the trace shows them."""
    data = bytes_of(node)
    if node.initial_size and node.initial.get(node.initial_size - 1) is None:
        data = data[:-1] + b"\n"
    return data.decode("latin-1").split("\n")[:-1]
