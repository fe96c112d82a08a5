"""The numbers of nodes: a new node has the least number that is free."""


class Numbers:
    """Follows which nodes are free. `first` is the number of the first node that a run makes with no number freed before, if a stat shows it."""

    def __init__(self, tree):
        self.tree, self.first, self.made = tree, None, 0
        self.unnamed, self.free, self.source = [], [], {}

    def make(self, node):
        """Gives a new node the number of a node that is free, or the next number."""
        if self.free:
            least = min(self.free, key=lambda it: (it.number or 0, self.free.index(it)))
            self.free.remove(least)
            self.source[node] = least
        else:
            self.source[node] = self.made
            self.made += 1

    def remove(self, node):
        """Notes that a node has lost a name."""
        if node and not any(it is node for it in self.named()):
            self.unnamed.append(node)

    def named(self):
        """Yields each node that has a name."""
        pending = [self.tree.root]
        while pending:
            directory = pending.pop()
            yield from directory.entries.values()
            pending += [it for it in directory.entries.values() if it.kind == "dir"]

    def release(self, processes):
        """Frees the nodes without a name that no process refers to."""
        if not self.unnamed:
            return
        used = {id(node) for process in processes for node in process.nodes()}
        self.free += [it for it in self.unnamed if id(it) not in used]
        self.unnamed = [it for it in self.unnamed if id(it) in used]

    def show(self, node, number):
        """Notes the number of a node that the run made."""
        while node in self.source:
            node = self.source[node]
        if isinstance(node, int):
            self.first = self.first or number - node
        elif node.is_before and not node.number:
            node.number = number
