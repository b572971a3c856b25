"""Logs that appends make. The logs of the tests are made here, and the root of each is held to the plain rule."""
import functools

from rules.batch import append_many
from rules.blake3 import PLAIN
from rules.log import NODE, append, root
from rules.plain import plain_root
from rules.shape import nodes_of


def hold(size, records, buffer, digest):
    """The root of a log is the one that the plain rule gives of its records; of none it is refused with 10."""
    by_rule = (0, plain_root(records, digest)) if records else (10, bytes(NODE))
    if root(size, buffer, digest) != by_rule:
        raise ValueError(f"the root of a log of {len(records)} records is not the plain rule's")


def appends(records, digest, buffer):
    """Appends to an empty log, refused ones among them: after each the answer, and the records that were taken."""
    size, taken = 0, []
    for record in records:
        answer = append(size, record, buffer, digest)
        size = answer.size
        taken += [record] * (answer.number == 0)
        yield answer, taken


def grown(records, digest=PLAIN, buffer=None):
    """Records appended one by one, over a buffer or with just enough room: after each the answer and the buffer, whose root is held to the rule."""
    once = functools.lru_cache(maxsize=None)(digest)
    buffer = bytearray(NODE * nodes_of(len(records))) if buffer is None else buffer
    for answer, taken in appends(records, once, buffer):
        hold(answer.size, taken, buffer, once)
        yield answer, buffer


def batched(batches, digest=PLAIN, buffer=None):
    """Lists of records, each appended in one call, refused ones among them: after each the answer and the buffer, whose root is held to the rule."""
    once = functools.lru_cache(maxsize=None)(digest)
    buffer = bytearray(NODE * nodes_of(sum(map(len, batches)))) if buffer is None else buffer
    size, taken = 0, []
    for records in batches:
        answer = append_many(size, b"".join(records), [len(record) for record in records], buffer, once)
        size, taken = answer.size, taken + list(records) * (answer.number == 0)
        hold(size, taken, buffer, once)
        yield answer, buffer


def log_of(records, digest=PLAIN):
    """The log of these records, its root held to the rule: its size and nodes."""
    once = functools.lru_cache(maxsize=None)(digest)
    buffer, size = bytearray(NODE * nodes_of(len(records))), 0
    for answer, _ in appends(records, once, buffer):
        size = answer.size
    hold(size, records, buffer, once)
    return size, bytes(buffer)
