"""A log in a mode, to take true inputs from."""
import functools
import random
import struct

from calls import PLAIN, mode_bytes, state_bytes
from expected.given import KEYS
from grown import grown
from rules import blake3, letters, log, parts
from rules.log import LONGEST_RECORD, NODE
from rules.shape import nodes_of

# The lengths of some records, and how many records there are; numbers at the edges.
LENGTHS = (0, 1, 31, 32, 33, 63, 64, 65, 200, 1023, 1024, 1025, 2048, 2049, 4096, 5000)
LEAVES = 150
EDGES = (2**31, 2**32 - 2, 2**32 - 1, 2**32, 2**32 + 1, 2**33 - 33, 2**33 - 2, 2**33 - 1, 2**33, 2**63, 2**64 - 1)
# The modes of two leagues, as C has them.
LEAGUES = tuple(mode_bytes(1, key) for key in KEYS)
worked_out = {}


def mode_in(mode):
    """A mode, which is given as C has it."""
    return blake3.Mode(*struct.unpack("<I32s", mode))


def packed(state):
    """A state as C has it."""
    return state_bytes(*state[:4], *map(blake3.bytes_of, state[4:7]), state.block)


def unpacked(data):
    """A state, which is given as C has it."""
    *numbers, key, chain, stack, block = struct.unpack("<QQII32s32s960s64s", data)
    return parts.State(*numbers, *map(blake3.words_of, (key, chain, stack)), block)


@functools.lru_cache(maxsize=None)
def digest_in(mode):
    """The digest in a mode, which is given as C has it. Each is worked out once, for all modes that begin alike."""
    by_rules = mode_in(mode)
    return worked_out.setdefault((by_rules.starting, by_rules.flag), functools.lru_cache(maxsize=None)(by_rules))


class World:
    """A log and its records. The nodes of a shorter log are the first of a longer one."""

    def __init__(self, mode=PLAIN):
        chance = random.Random("world")
        self.mode, self.digest = mode, digest_in(mode)
        self.records = [chance.randbytes(LENGTHS[i % len(LENGTHS)] if i % 5 == 0 else chance.randrange(70)) for i in range(LEAVES)]
        self.records[77] = chance.randbytes(LONGEST_RECORD)
        self.longer = chance.randbytes(LONGEST_RECORD + 1)
        *_, (_, self.all_nodes) = grown(self.records, self.digest)

    @functools.lru_cache(maxsize=None)
    def state(self, length):
        """The state that has taken the first so many bytes of the longer record, in parts of at most a thousand."""
        before = max(length - 1, 0) // 1000 * 1000
        return parts.add(self.state(before) if before else parts.begin(mode_in(self.mode)), self.longer[before:length]).state

    def nodes(self, leaves):
        """The nodes of the log of the first so many records."""
        return bytes(self.all_nodes[:NODE * nodes_of(leaves)])

    def root(self, leaves):
        """Its root; zeros for no record."""
        return log.root(nodes_of(leaves), self.nodes(leaves), self.digest).root

    @functools.lru_cache(maxsize=None)
    def letter(self, leaves, index):
        """A letter of it."""
        return letters.letter_of(nodes_of(leaves), index, self.records[index], self.nodes(leaves), self.digest)
