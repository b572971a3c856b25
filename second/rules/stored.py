"""Stored nodes, written and read (RULES 8)."""
from collections import namedtuple

from rules.blake3 import PLAIN
from rules.log import LONGEST_RECORD

# What a reader returns: the number, the kind, the digest, the record.
StoredRead = namedtuple("StoredRead", "number kind digest record")


def stored_inner(given):
    """An inner node: byte 00, digest."""
    return b"\x00" + given


def stored_leaf(record, digest=PLAIN):
    """A leaf: byte 01, digest, record length (4 bytes, big-endian), record."""
    return b"\x01" + digest(record) + len(record).to_bytes(4, "big") + record


def write_stored(node, buffer):
    """Fill the first bytes of the buffer with a node: the number and the length."""
    if len(buffer) < len(node):
        return 6, 0
    buffer[:len(node)] = node
    return 0, len(node)


def write_stored_leaf(record, buffer, digest=PLAIN):
    """Write the leaf of a record: 3, 6."""
    return (3, 0) if len(record) > LONGEST_RECORD else write_stored(stored_leaf(record, digest), buffer)


def write_stored_inner(given, buffer):
    """Write an inner node: 6."""
    return write_stored(stored_inner(given), buffer)


def stored_refusal(number):
    """A refusal: no kind, digest all zero, an empty record."""
    return StoredRead(number, "none", bytes(32), b"")


def read_stored(data, digest=PLAIN):
    """Read a node: 11 for its form, then for a leaf 3, 11 for the exact length, 18 where the digest in it is not its record's."""
    inner, leaf = data[:1] == b"\x00", data[:1] == b"\x01"
    if len(data) < 33 or not (inner or leaf) or (inner and len(data) != 33) or (leaf and len(data) < 37):
        return stored_refusal(11)
    if inner:
        return StoredRead(0, "inner", data[1:33], b"")
    stated, record = int.from_bytes(data[33:37], "big"), data[37:]
    if stated > LONGEST_RECORD:
        return stored_refusal(3)
    if len(record) != stated:
        return stored_refusal(11)
    if digest(record) != data[1:33]:
        return stored_refusal(18)
    return StoredRead(0, "leaf", data[1:33], record)
