"""The choices that random cases are made of: sizes, records, nodes and lengths, true or changed."""
import random
from collections import namedtuple

from calls import flipped
from inputs.world import EDGES, LEAVES, LENGTHS
from rules.log import LONGEST_RECORD, NODE
from rules.shape import MOST_LEAVES, nodes_of


class Chance(random.Random):
    """The random choices of one case, from the seed and the case's number alone."""

    def often(self, true, *others):
        """The true one in two of three cases, else one of the others."""
        return true if self.random() < 2 / 3 else self.choice(others)

    def number(self):
        """A number of up to 64 bits, small ones as often as large ones."""
        return self.getrandbits(self.randrange(1, 65))

    def size(self, leaves):
        """The size of so many leaves, or another number."""
        near = nodes_of(leaves)
        full = nodes_of(MOST_LEAVES)
        return self.often(near, near + 1, max(near - 1, 0), nodes_of(leaves + 1), nodes_of(self.getrandbits(32)), full, 0, self.choice(EDGES),
                          self.number())

    def room(self, wanted):
        """A length: as wanted, or one less, more, or another."""
        return self.often(wanted, max(wanted - 1, 0), wanted + 1, 0, self.randrange(wanted + 1), wanted + self.randrange(200))

    def out(self, wanted):
        """An output buffer of such a length, with any bytes."""
        return self.randbytes(self.room(wanted))

    def damage(self, data):
        """The bytes with one changed, some cut off or added, or others of their number."""
        place = self.randrange(len(data)) if data else 0
        other = flipped(data, place, self.randrange(1, 256)) if data else b"\0"
        return self.choice((other, other, other, data[:place], data + self.randbytes(self.randrange(1, 40)), self.randbytes(len(data))))

    def bytes_like(self, data):
        """The bytes, or damaged ones."""
        return self.often(data, self.damage(data))

    def variable(self):
        """A result variable of 64 bits that holds anything."""
        return self.randbytes(8)


def any_record(chance, world, index):
    """A log's record, or another."""
    length = chance.choice((chance.randrange(100), chance.randrange(3000), chance.randrange(LONGEST_RECORD + 2), chance.choice(LENGTHS)))
    others = (chance.choice(world.records), chance.damage(world.records[index]), chance.randbytes(length), world.longer)
    return chance.often(world.records[index], *others)


def any_nodes(chance, world, leaves, wanted):
    """A node buffer for so many leaves and a wanted length: true nodes, sometimes damaged, and anything behind them."""
    nodes = world.nodes(leaves) + chance.randbytes(max(wanted - NODE * nodes_of(leaves), 0))
    if nodes and chance.random() < 0.3:
        nodes = flipped(nodes, chance.randrange(len(nodes)), chance.randrange(1, 256))
    length = chance.room(wanted)
    return nodes[:length] + chance.randbytes(max(length - len(nodes), 0))


# What a random case begins with: a log of so many leaves, an index in it, and a size and a record that are often theirs.
Given = namedtuple("Given", "leaves index size record")


def any_given(chance, world):
    """Any of them."""
    leaves = chance.randrange(1, LEAVES)
    index = chance.randrange(leaves)
    return Given(leaves, index, chance.size(leaves), any_record(chance, world, index))


def any_lengths(chance, lengths):
    """A list of lengths with one of them changed, left out or added, two changed about, or a sum that is right modulo 2^32 only."""
    place, others = chance.randrange(len(lengths) + 1), list(lengths)
    how = chance.randrange(5)
    if how == 0:
        others.insert(place, chance.choice((0, 1, LONGEST_RECORD + 1, 2**32 - 1, chance.getrandbits(32))))
    elif how == 1:
        others[place:place + 1] = []
    elif how == 2:
        others[place:place + 1] = [min(max(length + chance.choice((-1, 1)), 0), 2**32 - 1) for length in others[place:place + 1]]
    elif how == 3:
        chance.shuffle(others)
    else:
        others[place:place] = [2**32 - 1, 1]
    return others
