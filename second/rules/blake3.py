"""BLAKE3 (RULES 5): the compression, chunks, parents, the tree; the modes, plain and keyed."""
import struct
from collections import namedtuple

from rules.plain import largest_power

STARTING_WORDS = (
    0x6A09E667, 0xBB67AE85, 0x3C6EF372, 0xA54FF53A,
    0x510E527F, 0x9B05688C, 0x1F83D9AB, 0x5BE0CD19,
)
PERMUTATION = (2, 6, 3, 10, 7, 0, 4, 13, 1, 11, 12, 5, 9, 14, 15, 8)
COLUMNS = ((0, 4, 8, 12), (1, 5, 9, 13), (2, 6, 10, 14), (3, 7, 11, 15))
DIAGONALS = ((0, 5, 10, 15), (1, 6, 11, 12), (2, 7, 8, 13), (3, 4, 9, 14))
CHUNK_START, CHUNK_END, PARENT, ROOT, KEYED = 1, 2, 4, 8, 16
CHUNK, BLOCK, KEY = 1024, 64, 32
LOW_WORD = 0xFFFFFFFF


def words_of(data):
    """Bytes as words of 32 bits, little-endian."""
    return struct.unpack(f"<{len(data) // 4}I", data)


def bytes_of(words):
    """Words of 32 bits as bytes, little-endian."""
    return struct.pack(f"<{len(words)}I", *words)


def mix(state, places, x, y):
    """Mix the four words of the state at the places a, b, c, d with the message words x and y. w >> n | w << 32 - n is w turned right by n."""
    at_a, at_b, at_c, at_d = places
    a, b, c, d = state[at_a], state[at_b], state[at_c], state[at_d]
    a = (a + b + x) & LOW_WORD
    d ^= a
    d = (d >> 16 | d << 16) & LOW_WORD
    c = (c + d) & LOW_WORD
    b ^= c
    b = (b >> 12 | b << 20) & LOW_WORD
    a = (a + b + y) & LOW_WORD
    d ^= a
    d = (d >> 8 | d << 24) & LOW_WORD
    c = (c + d) & LOW_WORD
    b ^= c
    b = (b >> 7 | b << 25) & LOW_WORD
    state[at_a], state[at_b], state[at_c], state[at_d] = a, b, c, d


def one_round(state, message):
    """Mix the columns, then the diagonals, taking the message words in pairs in order."""
    for i, places in enumerate(COLUMNS + DIAGONALS):
        mix(state, places, message[2 * i], message[2 * i + 1])


def permuted(message):
    """New word i is old word PERMUTATION[i]."""
    return [message[i] for i in PERMUTATION]


def compress(chaining, block, counter, length, flags):
    """One compression of a block of 64 bytes: the eight words of its result."""
    state = [*chaining, *STARTING_WORDS[:4], counter & LOW_WORD, counter >> 32, length, flags]
    message = words_of(block)
    for number in range(7):
        one_round(state, message)
        if number < 6:
            message = permuted(message)
    return [state[i] ^ state[i + 8] for i in range(8)]


class Mode(namedtuple("Mode", "keyed key")):
    """A mode (RULES 5.5): plain where keyed is 0, and the key then means nothing; else keyed. Called with bytes it gives their digest."""

    @property
    def starting(self):
        """The words that chaining begins with."""
        return STARTING_WORDS if self.keyed == 0 else words_of(self.key)

    @property
    def flag(self):
        """A flag that every compression has."""
        return 0 if self.keyed == 0 else KEYED

    def __call__(self, data):
        """The 32 bytes of the hash in this mode."""
        return bytes_of(tree_words(self, 0, data, ROOT))


PLAIN = Mode(0, bytes(KEY))
Keyed = namedtuple("Keyed", "number mode")


def keyed(key):
    """The number and the keyed mode of a key: 24 where it is not 32 bytes, and then there is no mode."""
    return Keyed(24, None) if len(key) != KEY else Keyed(0, Mode(1, bytes(key)))


def blocks_of(chunk):
    """A chunk in blocks of 64 bytes, the last of which may be short; an empty chunk is one empty block."""
    return [chunk[at:at + BLOCK] for at in range(0, max(len(chunk), 1), BLOCK)]


def chunk_words(mode, number, chunk, root):
    """The chaining words of a chunk. root is ROOT where it is the whole tree, else 0."""
    chaining = mode.starting
    blocks = blocks_of(chunk)
    for i, block in enumerate(blocks):
        flags = mode.flag
        if i == 0:
            flags |= CHUNK_START
        if i == len(blocks) - 1:
            flags |= CHUNK_END | root
        chaining = compress(chaining, block.ljust(BLOCK, b"\0"), number, len(block), flags)
    return chaining


def parent_words(mode, left, right, root):
    """The chaining words of a parent, from those of its left and right sides."""
    return compress(mode.starting, bytes_of(left + right), 0, BLOCK, mode.flag | PARENT | root)


def tree_words(mode, first, data, root):
    """The chaining words of the tree over the data, whose first chunk has the number first."""
    count = -(-len(data) // CHUNK)
    if count <= 1:
        return chunk_words(mode, first, data, root)
    chunks = largest_power(count)
    left = tree_words(mode, first, data[:chunks * CHUNK], 0)
    right = tree_words(mode, first + chunks, data[chunks * CHUNK:], 0)
    return parent_words(mode, left, right, root)


def digest(data, mode=PLAIN):
    """The 32 bytes of the hash: plain, or in another mode."""
    return mode(data)


def digest_of_pair(left, right, mode=PLAIN):
    """The digest of two digests, left then right."""
    return mode(left + right)
