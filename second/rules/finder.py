"""The finder (RULES 10): an accepted letter beside the log."""
from collections import namedtuple

from rules.blake3 import PLAIN
from rules.letters import checking_from_7, first_of, index_in, letter_inputs, record_in
from rules.log import LONGEST_RECORD, NODE, folded, node, root
from rules.shape import leaf_count, nodes_of, path_of, peaks_around

# What the finder returns: the number, and "same", "records" or "pair" where it is done.
Found = namedtuple("Found", "number outcome")
PAIR = 2 * NODE


def log_inputs(leaves, index, buffer, digest):
    """What the log and its root hash on the way to a leaf, 64 bytes each, from the root down; within the peak the children as they stand."""
    left, own, right = peaks_around(leaves, index)
    peaks = [node(buffer, peak.position) for peak in [*left, own, *right]]
    folds = len(left) + (1 if right else 0)
    inputs = [peaks[k] + folded(peaks[k + 1:], digest) for k in range(folds)]
    return inputs + [node(buffer, step.left) + node(buffer, step.right) for step in path_of(own, index)]


def finding(size, record, buffer, letter, ours, theirs, digest):
    """The refusals of the finder: 1, 10, 4; checking from 7 with the root of its own nodes; 3 and 13 for the log's own record; 14, 6."""
    number, top = root(size, buffer, digest)
    if number != 0:
        yield number
    leaves = leaf_count(size)[1]
    yield from checking_from_7(size, leaves, top, letter, digest)
    if len(record) > LONGEST_RECORD:
        yield 3
    if node(buffer, nodes_of(index_in(letter))) != digest(record):
        yield 13
    for step in path_of(peaks_around(leaves, index_in(letter))[1], index_in(letter)):
        if node(buffer, step.right + 1) != digest(node(buffer, step.left) + node(buffer, step.right)):
            yield 14
    if len(ours) < PAIR or len(theirs) < PAIR:
        yield 6


def compared(of_log, of_letter, record, other, ours, theirs):
    """Two lists of inputs, from the root down: the first two that differ go into the two buffers. With none the two records are compared."""
    for one, two in zip(of_log, of_letter):
        if one != two:
            ours[:PAIR], theirs[:PAIR] = one, two
            return "pair"
    return "same" if record == other else "records"


def find(size, record, buffer, letter, ours, theirs, digest=PLAIN):
    """An accepted letter beside the log."""
    number = first_of(finding(size, record, buffer, letter, ours, theirs, digest))
    if number != 0:
        return Found(number, None)
    leaves = leaf_count(size)[1]
    of_log = log_inputs(leaves, index_in(letter), buffer, digest)
    return Found(0, compared(of_log, letter_inputs(leaves, letter, digest), record, record_in(letter), ours, theirs))
