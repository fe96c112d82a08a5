"""The room that a tree takes in an image."""

BLOCK, SLOT, DIRECT = 512, 64, 10


def blocks_of(node):
    """Returns the number of data blocks of a node, with the indirect one."""
    size = SLOT * len(node.entries) if node.kind == "dir" else len(node.text) if node.kind == "link" else node.size or 0
    blocks = -(-size // BLOCK)
    return blocks + (blocks > DIRECT)


class Rooms:
    """The most data blocks and inodes that a run has used: with no more room, each growth fails that can fail."""

    def __init__(self):
        self.blocks = self.inodes = 1

    def measure(self, replay):
        """Counts the nodes that have a name or that a process refers to."""
        nodes, pending = {}, [replay.tree.root, *(node for process in replay.processes.values() for node in process.nodes())]
        while pending:
            node = pending.pop()
            if id(node) not in nodes:
                nodes[id(node)] = node
                pending += node.entries.values()
        self.blocks = max(self.blocks, sum(map(blocks_of, nodes.values())))
        self.inodes = max(self.inodes, len(nodes))

    def sizes(self):
        """Returns the sizes of the image: blocks, and inodes."""
        return 1 + -(-self.inodes // 16) + self.blocks, self.inodes
