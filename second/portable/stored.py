"""The vectors of stored nodes, written and read, true, edited and damaged."""
from portable.form import case, counted
from portable.letters import flipped, restated
from rules.blake3 import PLAIN, digest
from rules.log import LONGEST_RECORD
from rules.stored import read_stored, stored_inner, stored_leaf, write_stored_inner, write_stored_leaf

RECORD = b"44:58 no goal"
# The lengths of records whose leaves are edited: none, a byte, a chunk, the longest.
LENGTHS = (0, 1, 1024, LONGEST_RECORD)


def leaf_case(name, record, spare=0, mode=PLAIN):
    """A leaf written into so many bytes more than it wants."""
    out = bytearray(37 + len(record) + spare)
    number, length = write_stored_leaf(record, out, mode)
    return case("store_leaf", name, {"record": record, "room": len(out)}, number, mode, node=out[:length])


def inner_case(name, given, room):
    """An inner node written into so many bytes."""
    out = bytearray(room)
    number, length = write_stored_inner(given, out)
    return case("store_inner", name, {"digest": given, "room": room}, number, node=out[:length])


def read_case(name, node, mode=PLAIN):
    """A node read."""
    read = read_stored(node, mode)
    at = 37 if read.kind == "leaf" else 0
    return case("read_node", name, {"node": node}, read.number, mode, kind=read.kind, digest=read.digest, record_at=at, record=read.record)


def with_digest(leaf, other):
    """A leaf with other 32 bytes in place of its digest."""
    return leaf[:1] + other + leaf[33:]


def write_cases():
    """Leaves of records at the edges, and inner nodes: with the room that they want, more, and one byte less."""
    for length in (0, 1, 64, LONGEST_RECORD, LONGEST_RECORD + 1):
        yield leaf_case(f"leaf of {length} bytes", counted(3, length))
        yield leaf_case(f"leaf of {length} bytes, one byte of room too few", counted(3, length), -1)
        yield leaf_case(f"leaf of {length} bytes, forty bytes of room too many", counted(3, length), 40)
    for room in (0, 32, 33, 34):
        yield inner_case(f"inner node, room for {room} bytes", digest(RECORD), room)


def edits(record, mode=PLAIN):
    """Ways to edit a leaf that leave it its form: a name, and the leaf. Where there is a record, the last one fits again; all others lie."""
    leaf = stored_leaf(record, mode)
    for name, place, mask in (("first bit", 1, 128), ("last bit", 32, 1), ("first byte", 1, 255), ("last byte", 32, 255)):
        yield f"the {name} of its digest changed", flipped(leaf, place, mask)
    if record:
        for name, place, mask in (("first bit", 37, 128), ("last bit", len(leaf) - 1, 1)):
            yield f"the {name} of its record changed", flipped(leaf, place, mask)
        yield "a bit of its digest and a bit of its record changed", flipped(flipped(leaf, 1), 37)
        other = flipped(record, len(record) - 1, 255)
        yield "another record, and the digest before it was edited", leaf[:37] + other
        yield "another record, and that record's digest", stored_leaf(other, mode)


def other_digests(record):
    """What is no digest of a record, though it is near: a name, and the 32 bytes."""
    own = digest(record)
    yield "zeros", bytes(len(own))
    yield "its own, backwards", own[::-1]
    yield "that of its digest", digest(own)
    yield "that of its length and record", digest(len(record).to_bytes(4, "big") + record)
    yield "that of its record without the last byte", digest(record[:-1])
    yield "that of its record and a zero", digest(record + b"\0")


def edited_cases():
    """Leaves of some lengths, edited: 18, but where record and digest fit again; an inner node, which is taken as it stands."""
    for length in LENGTHS:
        record = counted(3, length)
        for name, node in edits(record):
            yield read_case(f"a leaf of {length} bytes, {name}", node)
    for length in LENGTHS[1:-1]:
        yield read_case(f"a leaf of {length} bytes", stored_leaf(counted(3, length)))
    for name, other in other_digests(RECORD):
        yield read_case(f"a leaf whose digest is {name}", with_digest(stored_leaf(RECORD), other))
    for place in (1, 32):
        yield read_case(f"an inner node, a bit of byte {place} changed", flipped(stored_inner(digest(RECORD)), place))
    yield read_case("an inner node of zeros", bytes(33))


def edited_too_cases():
    """An edited leaf that has another fault as well, which comes first."""
    leaf = flipped(stored_leaf(RECORD), 1)
    for length in (32, 33, 36, 37, len(leaf) - 1):
        yield read_case(f"an edited leaf, the first {length} bytes", leaf[:length])
    yield read_case("an edited leaf, one byte more", leaf + b"\0")
    for flag in (0, 2, 255):
        yield read_case(f"an edited leaf, its first byte {flag}", bytes([flag]) + leaf[1:])
    for stated in (0, len(RECORD) - 1, len(RECORD) + 1, 16384, 16385, 2**32 - 1):
        yield read_case(f"an edited leaf that states {stated} bytes", restated(leaf, 33, 37, stated))
    yield read_case("an edited leaf that states 16385 bytes and ends behind that", restated(leaf, 33, 37, 16385)[:37])


def read_cases():
    """True nodes; a leaf with the digest of another; then every other way in which a node is refused."""
    leaf, inner = stored_leaf(RECORD), stored_inner(digest(RECORD))
    yield read_case("a leaf", leaf)
    yield read_case("a leaf of no bytes", stored_leaf(b""))
    yield read_case("an inner node", inner)
    yield read_case("a leaf whose digest is another's", with_digest(leaf, digest(b"")))
    yield read_case("no bytes", b"")
    for name, node, lengths, flags in (("a leaf", leaf, (1, 32, 33, 36, 37, len(leaf) - 1), (0, 2, 255)),
                                       ("an inner node", inner, (1, 32), (2, 255))):
        for length in lengths:
            yield read_case(f"{name}, the first {length} bytes", node[:length])
        yield read_case(f"{name}, one byte more", node + b"\0")
        for flag in flags:
            yield read_case(f"{name}, its first byte {flag}", bytes([flag]) + node[1:])
    yield read_case("no leaf: its first byte is 2, and it states 16385", b"\2" + leaf[1:33] + (16385).to_bytes(4, "big") + leaf[37:])
    for stated in (0, len(RECORD) - 1, len(RECORD) + 1, 16384, 16385, 2**32 - 1):
        yield read_case(f"a leaf that states {stated} bytes", leaf[:33] + stated.to_bytes(4, "big") + leaf[37:])
    longest = stored_leaf(counted(3, LONGEST_RECORD))
    for name, node in (("", longest), (", one byte short", longest[:-1]), (", one byte more", longest + b"\0")):
        yield read_case(f"a leaf of 16384 bytes{name}", node)
    longer = longest[:33] + (16385).to_bytes(4, "big") + longest[37:] + b"\0"
    yield read_case("a leaf of 16385 bytes", longer)
    yield read_case("a leaf that states 16385 bytes and ends behind that", longer[:37])


def stored_cases():
    """Written; edited and read, alone and beside another fault; then read, true and damaged."""
    return [*write_cases(), *edited_cases(), *edited_too_cases(), *read_cases()]
