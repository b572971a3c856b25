"""Passage letters: several records of a log in one letter, written and checked (RULES 12)."""
from bisect import bisect_left
from collections import namedtuple

from rules.batch import cut
from rules.blake3 import PLAIN
from rules.letters import Written, first_of, size_in
from rules.log import LONGEST_RECORD, NODE, folded, node
from rules.plain import largest_power
from rules.shape import leaf_count, nodes_of, peaks_of

PASSAGE_HEAD, ENTRY_HEAD = 10, 12
MOST_RECORDS = 256
# What the checker returns: the number, and how many records the letter has. So does the call that hands out all of them.
Counted = namedtuple("Counted", "number count")
# A record of a letter: the number, its index, and where its bytes lie in the letter.
Entry = namedtuple("Entry", "number index start length")
# A place of the folded tree: its first leaf, how many leaves it has, and which of them are asked for.
Place = namedtuple("Place", "first count asked")


# ---- the folded tree, walked


def looked_into(place):
    """Whether the walk goes on below a place: it holds an asked record, and is no leaf."""
    return bool(place.asked) and place.count > 1


def sides(place):
    """The two sides of a place, split after the largest power of two below its leaves; each has those that are asked for among its own."""
    left = largest_power(place.count)
    middle = bisect_left(place.asked, place.first + left)
    return Place(place.first, left, place.asked[:middle]), Place(place.first + left, place.count - left, place.asked[middle:])


def walk(place):
    """A place and what is looked into below it, from the top, left before right."""
    yield place
    if looked_into(place):
        for side in sides(place):
            yield from walk(side)


def walk_of(leaves, indexes):
    """The walk from the root."""
    return walk(Place(0, leaves, tuple(indexes)))


def closed(leaves, indexes):
    """The largest subtrees without an asked record, in the walk's order."""
    return [place for place in walk_of(leaves, indexes) if not place.asked]


def positions_of(place):
    """The positions that are folded into the digest of a place: one where it is a perfect tree, else those of the peaks in it."""
    return tuple(nodes_of(place.first) + peak.position for peak in peaks_of(place.count))


def digest_at(place, buffer, digest):
    """The digest of a place by the log's nodes: the node as it stands, or the peaks in it folded."""
    return folded([node(buffer, position) for position in positions_of(place)], digest)


# ---- the letter


def as_many(count):
    """Whether a letter can have so many records: 1 to 256."""
    return 1 <= count <= MOST_RECORDS


def rising(indexes):
    """Whether a list of indexes is a request: as many as a letter can have, each above the one before."""
    return as_many(len(indexes)) and all(one < other for one, other in zip(indexes, indexes[1:]))


def entry_bytes(index, record):
    """A record in a letter: index (8), length (4), both big-endian, and its bytes."""
    return index.to_bytes(8, "big") + len(record).to_bytes(4, "big") + record


def passage_bytes(size, indexes, records, digests):
    """Size (8), number of records (2), big-endian; the records; digests, no count."""
    head = size.to_bytes(8, "big") + len(indexes).to_bytes(2, "big")
    return head + b"".join(map(entry_bytes, indexes, records)) + b"".join(digests)


def passage_length(leaves, indexes, lengths):
    """The exact length of a letter."""
    return PASSAGE_HEAD + sum(ENTRY_HEAD + length for length in lengths) + NODE * len(closed(leaves, indexes))


def count_in(letter):
    """The number of records that a letter names."""
    return int.from_bytes(letter[8:PASSAGE_HEAD], "big")


def entries_in(letter):
    """The records of a letter one behind the other, up to where it ends. What is cut off is taken as zeros."""
    at = PASSAGE_HEAD
    for _ in range(count_in(letter)):
        head = letter[at:at + ENTRY_HEAD].ljust(ENTRY_HEAD, b"\0")
        entry = Entry(0, int.from_bytes(head[:8], "big"), at + ENTRY_HEAD, int.from_bytes(head[8:], "big"))
        yield entry
        at = entry.start + entry.length


def indexes_in(letter):
    """The indexes that it names."""
    return [entry.index for entry in entries_in(letter)]


def records_in(letter):
    """Its records."""
    return [letter[entry.start:entry.start + entry.length] for entry in entries_in(letter)]


def digests_in(letter):
    """Its digests, behind the last record."""
    *_, last = entries_in(letter)
    return [letter[at:at + NODE] for at in range(last.start + last.length, len(letter), NODE)]


# ---- writing


def writing(size, indexes, joined, lengths, buffer, out, digest):
    """The refusals of writing: 1, 19, 16; 5 and 3 of each record in turn; 4; 13 of each; 6."""
    number, leaves = leaf_count(size)
    if number != 0:
        yield number
    if not rising(indexes):
        yield 19
    if len(lengths) != len(indexes) or sum(lengths) != len(joined):
        yield 16
    for index, length in zip(indexes, lengths):
        if index >= leaves:
            yield 5
        if length > LONGEST_RECORD:
            yield 3
    if len(buffer) < NODE * size:
        yield 4
    for index, record in zip(indexes, cut(joined, lengths)):
        if node(buffer, nodes_of(index)) != digest(record):
            yield 13
    if len(out) < passage_length(leaves, indexes, lengths):
        yield 6


def write_passage(size, indexes, joined, lengths, buffer, out, digest=PLAIN):
    """The letter of a request, into the first bytes of out: the number and the length."""
    number = first_of(writing(size, indexes, joined, lengths, buffer, out, digest))
    if number != 0:
        return Written(number, 0)
    digests = [digest_at(place, buffer, digest) for place in closed(leaf_count(size)[1], indexes)]
    letter = passage_bytes(size, indexes, cut(joined, lengths), digests)
    out[:len(letter)] = letter
    return Written(0, len(letter))


def passage_of(size, indexes, records, buffer, digest=PLAIN):
    """The letter of a request; no bytes where it is refused."""
    lengths = [len(record) for record in records]
    out = bytearray(passage_length(leaf_count(size)[1], indexes, lengths))
    return bytes(out[:write_passage(size, indexes, b"".join(records), lengths, buffer, out, digest).length])


# ---- checking


def rebuilt(place, records, digests, digest):
    """The digest of a place by a letter, and the inputs that lead to it, 64 bytes each, in the walk's order. Each record and each digest is taken
    when the walk comes to it."""
    if not place.asked:
        return next(digests), []
    if place.count == 1:
        return digest(next(records)), []
    (left, before), (right, behind) = [rebuilt(side, records, digests, digest) for side in sides(place)]
    return digest(left + right), [left + right, *before, *behind]


def by_letter(leaves, letter, digest):
    """The root worked out from a letter, and what working it out hashes beside its records."""
    return rebuilt(Place(0, leaves, tuple(indexes_in(letter))), iter(records_in(letter)), iter(digests_in(letter)), digest)


def each_checked(leaves, letter):
    """The refusals of a letter's records, each in turn: 7 (its 12 bytes cut off), 19 (not above the last), 5, 3, 7 (cut off)."""
    last = -1
    for entry in entries_in(letter):
        if len(letter) < entry.start:
            yield 7
        if entry.index <= last:
            yield 19
        if entry.index >= leaves:
            yield 5
        if entry.length > LONGEST_RECORD:
            yield 3
        if len(letter) < entry.start + entry.length:
            yield 7
        last = entry.index


def passage_from_7(size, leaves, top, letter, digest):
    """The refusals of checking, from 7: 7 (short), 8, 19 (the number), those of each record, 7 (exact), 9."""
    if len(letter) < PASSAGE_HEAD:
        yield 7
    if size_in(letter) != size:
        yield 8
    if not as_many(count_in(letter)):
        yield 19
    yield from each_checked(leaves, letter)
    if len(letter) != passage_length(leaves, indexes_in(letter), [entry.length for entry in entries_in(letter)]):
        yield 7
    if by_letter(leaves, letter, digest)[0] != top:
        yield 9


def passage_checking(size, top, letter, digest):
    """All of them: 1, 12, then from 7."""
    number, leaves = leaf_count(size)
    if number != 0:
        yield number
    if len(top) != NODE:
        yield 12
    yield from passage_from_7(size, leaves, top, letter, digest)


def check_passage(size, top, letter, digest=PLAIN):
    """A letter checked against a trusted size and root."""
    number = first_of(passage_checking(size, top, letter, digest))
    return Counted(number, 0) if number != 0 else Counted(0, count_in(letter))


def passage_entry(size, top, letter, place, digest=PLAIN):
    """The record at a place of the letter, which is checked; past the last one 0 and the empty part at the start."""
    number, count = check_passage(size, top, letter, digest)
    return list(entries_in(letter))[place] if place < count else Entry(number, 0, 0, 0)


def passage_entries(size, top, letter, indexes, starts, lengths, digest=PLAIN):
    """Every record of the letter, which is checked, into the first places of three lists: the checker's numbers, then 6 for a list that is too
    short."""
    number, count = check_passage(size, top, letter, digest)
    if number == 0 and any(len(places) < count for places in (indexes, starts, lengths)):
        number = 6
    if number != 0:
        return Counted(number, 0)
    for place, entry in enumerate(entries_in(letter)):
        indexes[place], starts[place], lengths[place] = entry[1:]
    return Counted(0, count)
