"""What stored_run must write."""
from expected.given import LEAGUES, counting_bytes, numbers_line
from rules.blake3 import PLAIN, digest
from rules.log import LONGEST_RECORD
from rules.stored import read_stored, stored_leaf, write_stored_inner, write_stored_leaf

ROOM = 37 + LONGEST_RECORD + 1
LEAVES = (
    (0, ROOM), (1, ROOM), (31, ROOM), (200, ROOM),
    (16384, ROOM), (16385, ROOM),
    (200, 237), (200, 236), (16384, 16420), (16385, 16421),
)
INNERS = (ROOM, 33, 32)
NODES = (
    (0, 0, 33), (1, 1, 38), (1, 16384, 16421), (0, 0, 32), (2, 0, 33), (0, 0, 34), (1, 0, 36), (1, 16385, 16422), (1, 1, 37),
)
# Edits of leaves in one mode: the record's length, how many bytes are read, and two places with the bits that are changed there. First each region of
# leaves of these lengths, then two faults at once.
LENGTHS = (0, 1, 1024, 16384)
ORDERS = (
    (1, 32, 1, 128, 0, 0), (1, 38, 1, 128, 0, 2), (1, 38, 1, 128, 0, 1), (1, 36, 1, 128, 0, 0), (1, 38, 1, 128, 33, 128), (1, 38, 1, 128, 36, 1),
    (1, 37, 1, 128, 0, 0), (1, 39, 1, 128, 0, 0),
)


def regions(count):
    """A leaf of so many bytes: true, then edited in each region, the last byte being the record's where it has any."""
    length, last = 37 + count, 36 + count
    places = ((0, 0), (0, 1), (0, 2), (1, 128), (32, 1), (33, 128), (36, 1), (37, 128), (last, 1))
    return (*((count, length, at, bits, 0, 0) for at, bits in places), (count, length, 32, 1, last, 1))


def line_of_read(data, mode=PLAIN):
    """The line of one reading."""
    read = read_stored(data, mode)
    return (f"  read {len(data)} {read.number} {read.kind} {read.digest.hex()} "
            f"{len(read.record)} {digest(read.record).hex()}")


def lines_of_write(label, write, what, buffer, room):
    """The lines of one writing into the first bytes of a buffer: what came of it, and what is read back."""
    part = buffer[:room]
    before = digest(part)
    number, length = write(what, part)
    buffer[:room] = part
    yield f"{label} {room} {before.hex()} {number} {length} {digest(part[:length]).hex()} {digest(part).hex()}"
    if number == 0:
        yield line_of_read(bytes(part[:length]))


def node_of(flag, stated, length):
    """The first bytes of a node with this flag and stated record length; each other byte is a counting one."""
    node = bytearray(counting_bytes(ROOM))
    node[0] = flag
    node[33:37] = stated.to_bytes(4, "big")
    return bytes(node[:length])


def buffer_of(count, mode):
    """The leaf of so many counting bytes, in the first bytes of a buffer of counting ones."""
    leaf = stored_leaf(counting_bytes(count), mode)
    return bytearray(leaf + counting_bytes(ROOM)[len(leaf):])


def lines_of_edits(edits, mode):
    """The lines of leaves edited, and read in their own mode."""
    for count, length, at, bits, other, more in edits:
        node = buffer_of(count, mode)
        node[at] ^= bits
        node[other] ^= more
        yield f"edit{numbers_line(count, at, bits, other, more)}"
        yield line_of_read(bytes(node[:length]), mode)


def lines_of_modes(count):
    """The lines of a leaf of each mode, and of an inner node, read in each mode."""
    for of in (PLAIN, LEAGUES[0]):
        for mode in (PLAIN, LEAGUES[0]):
            yield f"mode {count}"
            yield line_of_read(bytes(buffer_of(count, of)[:37 + count]), mode)
            yield line_of_read(counting_bytes(33), mode)


def expect_stored_run():
    """Leaves and inner nodes written into one buffer and read back, then nodes read, and refused by each number; then leaves edited, plain and keyed,
    and read in their own mode and in another."""
    data = counting_bytes(ROOM)
    buffer = bytearray(data)
    lines = []
    for count, room in LEAVES:
        lines += lines_of_write(f"leaf {count}", write_stored_leaf, data[:count], buffer, room)
    for room in INNERS:
        lines += lines_of_write("inner", write_stored_inner, data[100:132], buffer, room)
    for flag, stated, length in NODES:
        lines += [f"node {flag} {stated}", line_of_read(node_of(flag, stated, length))]
    for count in LENGTHS:
        lines += lines_of_edits(regions(count), PLAIN)
    lines += [*lines_of_edits(ORDERS, PLAIN), *lines_of_edits(regions(1024), LEAGUES[0]), *lines_of_modes(200)]
    return "".join(line + "\n" for line in lines)
