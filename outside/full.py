"""Batches at the end of a log of 2^32 leaves: 2 at a later record, and the last record of all. Of the buffer, 2^38 bytes, only the end is sent."""
import itertools
import struct

from bridge import Answer, differences, lines_of, refused
from calls import PLAIN, u64, wide_case
from inputs.world import LEAGUES, digest_in
from rules.batch import append_many
from rules.log import LONGEST_RECORD, NODE
from rules.shape import MOST_LEAVES, nodes_of
from wide import Wide

FULL = NODE * nodes_of(MOST_LEAVES)
# The end that is sent: more nodes than any of these batches writes.
END = NODE * 64
# What the bridge answers where it cannot have the memory.
NO_MEMORY = 2**32 - 1
RECORDS = (b"", b"goal", b"no goal")


def full_cases():
    """One to three records where none to three more have room, one too long at each place or none, a byte of buffer too few or none."""
    for mode, left, count, longer, short in itertools.product((PLAIN, LEAGUES[0]), range(4), (1, 2, 3), (None, 0, 1, 2), (0, 1)):
        records = [bytes(LONGEST_RECORD + 1) if place == longer else record for place, record in enumerate(RECORDS[:count])]
        if longer is None or longer < count:
            yield wide_case(nodes_of(MOST_LEAVES - left), FULL - short, records, b"\x3c" * (END - short), mode)


def said(case):
    """The answer of the second program."""
    (size, length), (mode, joined, lengths, end, _, _) = case.numbers, case.parts
    buffer = Wide(length)
    buffer[length - len(end):length] = end
    answer = append_many(size, joined, struct.unpack(f"<{len(lengths) // 4}I", lengths), buffer, digest_in(mode))
    if answer.number != 0:
        return refused(answer.number, case)
    return Answer(0, [mode, joined, lengths, buffer[length - len(end):length], u64(answer.size), u64(answer.hashes)], False)


def full_agrees(bridge):
    """Whether the library answers all of them as the second program does. Where no memory is that long none is tried, and that is said."""
    met = set()
    for at, case in enumerate(full_cases()):
        ours, theirs = bridge.ask(at, case), said(case)
        if ours and ours.number == NO_MEMORY:
            print("outside: no batch is tried at the end of a log of 2^32 leaves: this machine maps no 2^38 bytes")
            return True
        lines = differences(case, ours, theirs)
        if lines:
            print("\n  ".join(["outside: at the end of a log of 2^32 leaves the answers differ", *lines, *lines_of(case, False)]))
            return False
        met.add(theirs.number)
    print(f"outside: {at + 1} batches at the end of a log of 2^32 leaves have the same answers, {', '.join(map(str, sorted(met)))}")
    return met == {0, 2, 3, 4}
