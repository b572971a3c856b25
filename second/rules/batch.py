"""Many records in one append (RULES 7.7): what appending them one by one does, or nothing."""
from rules.blake3 import PLAIN
from rules.log import Appended, append
from rules.shape import leaf_count


def cut(joined, lengths):
    """The records of these lengths, one behind the other."""
    records, at = [], 0
    for length in lengths:
        records.append(joined[at:at + length])
        at += length
    return records


def append_many(size, joined, lengths, buffer, digest=PLAIN):
    """One by one over a copy, which takes the buffer's place where no record is refused. The size and the sum of the lengths are tried before."""
    if leaf_count(size)[0] != 0:
        return Appended(1, size, 0)
    if sum(lengths) != len(joined):
        return Appended(16, size, 0)
    answer, hashes, after = Appended(0, size, 0), 0, buffer.copy()
    for record in cut(joined, lengths):
        answer = append(answer.size, record, after, digest)
        if answer.number != 0:
            return Appended(answer.number, size, 0)
        hashes += answer.hashes
    buffer[:] = after
    return Appended(0, answer.size, hashes)
