"""A node buffer that is too long to be held: what was never written is zeros."""
from rules.log import NODE


class Wide:
    """A buffer of so many bytes, of which only nodes that were written are held. A part begins with a node."""

    def __init__(self, length, nodes=()):
        self.length, self.nodes = length, dict(nodes)

    def __len__(self):
        return self.length

    def __eq__(self, other):
        return (self.length, self.nodes) == (other.length, other.nodes)

    def copy(self):
        return Wide(self.length, self.nodes)

    def __getitem__(self, part):
        first, end = part.start // NODE, -(-part.stop // NODE)
        return b"".join(self.nodes.get(position, bytes(NODE)) for position in range(first, end))[:part.stop - part.start]

    def __setitem__(self, part, data):
        if isinstance(data, Wide):
            self.nodes = dict(data.nodes)
        else:
            self.nodes.update((part.start // NODE + at, bytes(data[NODE * at:NODE * (at + 1)])) for at in range(-(-len(data) // NODE)))
