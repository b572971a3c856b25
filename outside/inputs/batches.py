"""The fixed cases of batches: a log grown by them, lists of every length, each refusal at each record and every two at once, lengths that are off."""
import itertools

from calls import many_case
from grown import batched
from inputs.world import LEAVES
from rules.log import LONGEST_RECORD, NODE
from rules.shape import MOST_LEAVES, nodes_of

FULL, MOST = nodes_of(MOST_LEAVES), 2**32 - 1
# A log of so many leaves, and a batch of so many records, which is refused in every way.
BEFORE, COUNT = 2, 5
# Many lengths, in 128,000 bytes; and a log of leaves that are all the same, whose nodes are as long.
LENGTHS, SAME = 32000, 2000


def room_of(world, leaves, length):
    """A buffer of that length that begins with the nodes of a log, as many as it holds."""
    return world.nodes(leaves).ljust(length, b"\x3c")[:length]


def case_of(world, leaves, records, room, size=None, lengths=None):
    """Records in one append to a log, with so many bytes of buffer; the size and the lengths are theirs, or others."""
    own = [len(record) for record in records]
    return many_case(nodes_of(leaves) if size is None else size, b"".join(records), own if lengths is None else lengths,
                     room_of(world, leaves, room), world.mode)


def fixed_grown(world):
    """The world's log in batches of 0, 1, 2 and more records, over one buffer. The second program makes it too, and its root is held to the rule."""
    ends = [0, *itertools.takewhile(lambda end: end < LEAVES, itertools.accumulate(range(LEAVES))), LEAVES]
    batches = [world.records[start:end] for start, end in itertools.pairwise(ends)]
    buffer = bytearray(b"\x3c" * NODE * nodes_of(LEAVES))
    before, leaves = bytes(buffer), 0
    for records, (_, after) in zip(batches, batched(batches, world.digest, buffer)):
        yield many_case(nodes_of(leaves), b"".join(records), [len(record) for record in records], before, world.mode)
        before, leaves = bytes(after), leaves + len(records)
    if before != world.nodes(LEAVES):
        raise ValueError("a log grown by batches is not the one that is grown one by one")


def fixed_lists(world):
    """Lists of 0 to 40 lengths, with the room that they want, less and more; short of each record of the longest; records of no bytes alone."""
    for count, leaves in itertools.product(range(41), (0, 3, 8)):
        records, wanted = world.records[leaves:leaves + count], NODE * nodes_of(leaves + count)
        for room in (wanted, wanted + 40, max(wanted - 1, 0)):
            yield case_of(world, leaves, records, room)
        yield case_of(world, leaves, [b""] * count, wanted)
    for taken, short in itertools.product(range(1, 41), (1, NODE)):
        yield case_of(world, 3, world.records[3:43], NODE * nodes_of(3 + taken) - short)
    for room in (0, 1, NODE - 1, NODE * 4 - 1, NODE * 9):
        for size in (nodes_of(3), FULL, FULL - 1, 2):
            yield case_of(world, 3, [], room, size)


def fixed_refusals(world):
    """A record too long at each place and at every two, and room up to each record and one byte less, at a size that is the log's, full, or none."""
    places = [(), *((place,) for place in range(COUNT)), *itertools.combinations(range(COUNT), 2)]
    rooms = [NODE * nodes_of(BEFORE + taken) - short for taken in range(COUNT + 1) for short in (0, 1)]
    for long, room, size in itertools.product(places, rooms, (nodes_of(BEFORE), FULL, FULL - 1)):
        records = [world.longer if place in long else world.records[BEFORE + place] for place in range(COUNT)]
        if room in rooms[-2:] or size == nodes_of(BEFORE):
            yield case_of(world, BEFORE, records, room, size)


def sums_off(lengths):
    """Lists of lengths that do not add up, and some that do in another order."""
    for place, length in enumerate(lengths):
        yield from ([*lengths[:place], other, *lengths[place + 1:]] for other in (length + 1, max(length - 1, 0), MOST, (length - 1) % 2**32, 2**31))
        yield [*lengths[:place], *lengths[place + 1:]]
        yield from ([*lengths[:place], more, *lengths[place:]] for more in (0, 1, LONGEST_RECORD + 1, MOST))
        yield from ([*lengths[:place], *two, *lengths[place:]] for two in ((MOST, 1), (1, MOST), (2**31, 2**31)))
    yield from ([], lengths[1:] + lengths[:1], lengths[::-1], [MOST], [MOST] * 40, [MOST, sum(lengths) + 1], [sum(lengths)], [*lengths, 2**31, 2**31])


def fixed_sums(world):
    """Lengths that are off, alone and beside each other refusal."""
    records = world.records[BEFORE:BEFORE + COUNT]
    wanted = NODE * nodes_of(BEFORE + COUNT)
    for lengths in sums_off([len(record) for record in records]):
        for size, room in ((nodes_of(BEFORE), wanted), (nodes_of(BEFORE), NODE), (FULL, wanted), (FULL - 1, wanted)):
            yield case_of(world, BEFORE, records, room, size, lengths)
        yield case_of(world, BEFORE, [*records[1:], world.longer], wanted, None, lengths)


def fixed_many(world):
    """More lengths than there is room for nodes, with no byte and with one; a batch of many nodes."""
    for joined, room in itertools.product((b"", b"\5"), (0, NODE * 100, NODE * 100 - 1)):
        yield many_case(0, joined, [0] * LENGTHS, b"\x3c" * room, world.mode)
    for short in (0, 1):
        yield many_case(0, b"", [0] * SAME, b"\x3c" * (NODE * nodes_of(SAME) - short), world.mode)


def fixed_batches(world):
    """All of them."""
    return itertools.chain(fixed_grown(world), fixed_lists(world), fixed_refusals(world), fixed_sums(world), fixed_many(world))
