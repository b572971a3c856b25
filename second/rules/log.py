"""Append and root (RULES 7). The digest is that of a mode, or any other function, so that the rules can be tried with one that has collisions."""
from collections import namedtuple

from rules.blake3 import PLAIN
from rules.shape import MOST_LEAVES, leaf_count, nodes_of, peaks_of

LONGEST_RECORD = 16384
NODE = 32
Appended = namedtuple("Appended", "number size hashes")
Rooted = namedtuple("Rooted", "number root")


def node(buffer, position):
    """The digest at a position."""
    return bytes(buffer[NODE * position:NODE * (position + 1)])


def folded(digests, digest=PLAIN):
    """Digests folded: the rightmost, then leftward the digest of the left one and what is folded so far."""
    so_far = digests[-1]
    for left in reversed(digests[:-1]):
        so_far = digest(left + so_far)
    return so_far


def append(size, record, buffer, digest=PLAIN):
    """One more record: a new peak of height 0, and while the last two peaks are of one height, their parent in their place."""
    number, leaves = leaf_count(size)
    if number == 0:
        room = NODE * nodes_of(leaves + 1)
        tests = ((2, leaves == MOST_LEAVES), (3, len(record) > LONGEST_RECORD), (4, len(buffer) < room))
        number = next((refusal for refusal, applies in tests if applies), 0)
    if number != 0:
        return Appended(number, size, 0)
    peaks = [(peak.height, node(buffer, peak.position)) for peak in peaks_of(leaves)] + [(0, digest(record))]
    new = [peaks[-1][1]]
    while len(peaks) > 1 and peaks[-2][0] == peaks[-1][0]:
        (height, left), (_, right) = peaks[-2:]
        peaks[-2:] = [(height + 1, digest(left + right))]
        new.append(peaks[-1][1])
    buffer[NODE * size:NODE * (size + len(new))] = b"".join(new)
    return Appended(0, size + len(new), len(new))


def root(size, buffer, digest=PLAIN):
    """The root: the peaks, folded."""
    number, leaves = leaf_count(size)
    if number == 0:
        tests = ((10, leaves == 0), (4, len(buffer) < NODE * size))
        number = next((refusal for refusal, applies in tests if applies), 0)
    if number != 0:
        return Rooted(number, bytes(NODE))
    return Rooted(0, folded([node(buffer, peak.position) for peak in peaks_of(leaves)], digest))
