"""What batch_run must write."""
import functools
import itertools

from expected.given import LEAGUES, run_record
from grown import batched
from rules.batch import append_many, cut
from rules.blake3 import PLAIN, digest
from rules.log import LONGEST_RECORD, NODE
from rules.shape import MOST_LEAVES, nodes_of

JOINED, LONGER = run_record(0, LONGEST_RECORD + 1), LONGEST_RECORD + 1
BUFFER = b"\x3c" * NODE * nodes_of(47)
# The lengths of forty records: 33 each, but for some.
LENGTHS = [{0: 0, 3: 64, 7: 65, 12: 200, 13: 0, 30: 1024, 31: 1, 39: 0}.get(number, 33) for number in range(40)]
# The records of the log that the rows are tried on.
OWN = (4, 0, 8)
FIVE, MIDDLE = (5, 0, 33, 64, 7), (0, 0, LONGER, 0, 0)
FULL, MODULO = nodes_of(MOST_LEAVES), (2**32 - 1, 0, 33, 64, 13)
# A row: the size, how many joined bytes, the lengths, the room.
ROWS = (
    (4, 109, FIVE, 480), *((4, 109, FIVE, room) for room in (223, 255, 319, 351, 479)),
    (4, LONGER, (LONGER, 0, 0, 0, 0), 480), (4, LONGER, MIDDLE, 480), (4, LONGER, (0, 0, 0, 0, LONGER), 480),
    (4, LONGER, (1, 0, 0, 0, LONGEST_RECORD), 480), *((4, LONGER, MIDDLE, room) for room in (256, 351, 255)),
    (4, 108, FIVE, 480), (4, 110, FIVE, 480), (4, 109, FIVE[:4], 480), (4, 109, (5, 0, 33, 64, 2**32 - 1), 480), (4, 109, MODULO, 480),
    (4, 102, (5, 0, 33, 64, LONGER), 0), (FULL, 109, MODULO, 0), (FULL - 1, 109, MODULO, 0),
    (4, 0, (), 480), (4, 0, (), 0), (4, 1, (), 480), (FULL, 0, (), 0), (FULL, 109, FIVE, 480), (FULL, LONGER, (LONGER, 0, 0, 0, 0), 0),
    (FULL - 1, 0, (), 480), (FULL - 1, 109, FIVE, 480), (2, 108, FIVE, 480),
)
shown = functools.lru_cache(maxsize=None)(digest)


def line_of(size, count, lengths, buffer, room, mode):
    """The line of a batch that is lent so many joined bytes and the front of the buffer; and the size that is answered."""
    lent = buffer[:room]
    answer = append_many(size, JOINED[:count], lengths, lent, mode)
    buffer[:room] = lent
    return "  {} {} {} {}: {} {} {} {}".format(size, count, len(lengths), room, *answer, shown(bytes(lent)).hex()), answer.size


def list_lines(count, mode):
    """The first records to an empty log, seven behind them, and forty with one byte of room too few for the last of the first."""
    buffer, first, seven = bytearray(BUFFER), LENGTHS[:count], LENGTHS[:7]
    line, size = line_of(0, sum(first), first, buffer, len(buffer), mode)
    yield line
    yield line_of(size, sum(seven), seven, buffer, len(buffer), mode)[0]
    held = [cut(JOINED, lengths) for lengths in (first, seven)]
    if bytes(list(batched(held, mode, bytearray(BUFFER)))[-1][1]) != buffer:
        raise ValueError("a log of two batches is not the one whose root is held to the rule")
    yield line_of(0, sum(LENGTHS), LENGTHS, bytearray(BUFFER), max(NODE * size - 1, 0), mode)[0]


def row_lines(mode):
    """Each row over a buffer that holds the log of three records."""
    *_, (_, buffer) = batched([cut(JOINED, OWN)], mode, bytearray(BUFFER))
    for size, count, lengths, room in ROWS:
        yield line_of(size, count, lengths, bytearray(buffer), room, mode)[0]


def expect_batch_run():
    """Lists of 0 to 40 lengths, then the rows, plain and keyed."""
    lines = []
    for name, mode in (("plain", PLAIN), ("keyed", LEAGUES[0])):
        mode = functools.lru_cache(maxsize=None)(mode)
        lines += [name, *itertools.chain(*(list_lines(count, mode) for count in range(41))), *row_lines(mode)]
    return "".join(line + "\n" for line in lines)
