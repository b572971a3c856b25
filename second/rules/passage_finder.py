"""The finder of passages (RULES 12.9): an accepted passage letter beside the log."""
from collections import namedtuple

from rules.batch import cut
from rules.blake3 import PLAIN
from rules.finder import PAIR
from rules.letters import first_of
from rules.log import LONGEST_RECORD, node, root
from rules.passages import by_letter, digest_at, indexes_in, looked_into, passage_from_7, positions_of, records_in, sides, walk_of
from rules.shape import leaf_count, nodes_of

# What it returns: the number, "same", "records" or "pair" where it is done, and with "records" the index.
FoundIn = namedtuple("FoundIn", "number outcome index")


def input_at(place, buffer, digest):
    """What the log and its root hash at a place: the digests of its two sides, 64 bytes. Within a peak these are two nodes as they stand."""
    left, right = sides(place)
    return digest_at(left, buffer, digest) + digest_at(right, buffer, digest)


def opened(leaves, indexes):
    """The places that are looked into, in the walk's order."""
    return [place for place in walk_of(leaves, indexes) if looked_into(place)]


def within_peak(place):
    """Whether a place is a node of the log: above the peaks a place has no node."""
    return len(positions_of(place)) == 1


def each_found(indexes, records, buffer, digest):
    """The refusals of the log's own records, each in turn: 3, 13."""
    for index, record in zip(indexes, records):
        if len(record) > LONGEST_RECORD:
            yield 3
        if node(buffer, nodes_of(index)) != digest(record):
            yield 13


def finding_passage(size, joined, lengths, buffer, letter, ours, theirs, digest):
    """The refusals: 1, 10, 4; checking from 7 with the root of its own nodes; 16; 3 and 13 of each record in turn; 14, 6."""
    number, top = root(size, buffer, digest)
    if number != 0:
        yield number
    leaves = leaf_count(size)[1]
    yield from passage_from_7(size, leaves, top, letter, digest)
    indexes = indexes_in(letter)
    if len(lengths) != len(indexes) or sum(lengths) != len(joined):
        yield 16
    yield from each_found(indexes, cut(joined, lengths), buffer, digest)
    for place in filter(within_peak, opened(leaves, indexes)):
        if digest_at(place, buffer, digest) != digest(input_at(place, buffer, digest)):
            yield 14
    if len(ours) < PAIR or len(theirs) < PAIR:
        yield 6


def compared_passage(of_log, of_letter, records, others, indexes, ours, theirs):
    """Two lists of inputs in the walk's order: the first two that differ go into the two buffers. With none the records, by rising index."""
    for one, two in zip(of_log, of_letter):
        if one != two:
            ours[:PAIR], theirs[:PAIR] = one, two
            return FoundIn(0, "pair", 0)
    for index, record, other in zip(indexes, records, others):
        if record != other:
            return FoundIn(0, "records", index)
    return FoundIn(0, "same", 0)


def find_passage(size, joined, lengths, buffer, letter, ours, theirs, digest=PLAIN):
    """An accepted passage letter beside the log."""
    number = first_of(finding_passage(size, joined, lengths, buffer, letter, ours, theirs, digest))
    if number != 0:
        return FoundIn(number, None, 0)
    leaves, indexes = leaf_count(size)[1], indexes_in(letter)
    of_log = [input_at(place, buffer, digest) for place in opened(leaves, indexes)]
    return compared_passage(of_log, by_letter(leaves, letter, digest)[1], cut(joined, lengths), records_in(letter), indexes, ours, theirs)
