"""The fixed cases: numbers beside the edges, every byte of some letters and every bit of some nodes damaged, logs of every length, stored nodes of
every form."""
import itertools

from calls import PLAIN, append_case, check_case, digest_case, find_case, flipped, inner_case, number_case, read_case, root_case, write_case
from inputs.world import LEAGUES, digest_in
from rules import stored
from rules.letters import LETTER_HEAD
from rules.log import LONGEST_RECORD, NODE
from rules.shape import nodes_of


def damaged(data):
    """Every byte changed in turn; cut at every length; one to three bytes more."""
    for place in range(len(data)):
        yield flipped(data, place, 1 << place % 8)
        yield data[:place]
    for more in (1, 2, 3):
        yield data + bytes(more)


def fixed_numbers():
    """Sizes, positions and counts, behind those that vectors/ has and beside its edges."""
    for number in (*range(65, 130), 2**31 + 1, 2**32 - 3, 2**32 + 2, 2**33 - 34, 2**33 + 1, 2**63 + 1, 2**64 - 2):
        for call in ("size", "leaf_position", "leaf_count"):
            yield number_case(call, number)


def fixed_digests(world):
    """An output that is not of 32 bytes, whatever is hashed."""
    for record, room in itertools.product((b"", world.records[5], world.records[77]), (0, NODE - 1, NODE + 1)):
        yield digest_case(record, room, world.mode)


def fixed_letters(world):
    """Letters with every byte damaged, and what the checker, the finder and the writer are given beside them damaged."""
    for leaves, index in ((1, 0), (2, 1), (7, 2), (7, 6), (11, 9), (80, 77)):
        size, nodes, top, record = nodes_of(leaves), world.nodes(leaves), world.root(leaves), world.records[index]
        letter = world.letter(leaves, index)
        shown = damaged(letter) if len(record) < LONGEST_RECORD else (letter[:-1], letter + b"\0", flipped(letter, 16), flipped(letter, 5000))
        for other in (letter, *shown):
            yield check_case(size, top, other, world.mode)
            yield find_case(size, nodes, record, other, mode=world.mode)
        for place in range(NODE):
            yield check_case(size, flipped(top, place), letter, world.mode)
        for place in range(0, min(len(nodes), 800), 7):
            yield find_case(size, flipped(nodes, place), record, letter, mode=world.mode)
            yield write_case(size, index, record, flipped(nodes, place), len(letter), world.mode)
        for room in range(LETTER_HEAD, len(letter), max(NODE, len(letter) // 8)):
            yield write_case(size, index, record, nodes, room, world.mode)


def fixed_logs(world):
    """Appends and roots of every log up to forty records, with the room that they want, one byte less and some more."""
    for leaves in range(41):
        size, record = nodes_of(leaves), world.records[leaves]
        room = NODE * nodes_of(leaves + 1)
        for spare in (-1, 0, 1, 40):
            yield append_case(size, record, world.nodes(leaves).ljust(room + spare, b"\x3c")[:room + spare], world.mode)
            if leaves > 0:
                yield root_case(size, world.nodes(leaves).ljust(NODE * size + spare, b"\x3c")[:NODE * size + spare], NODE, world.mode)


def fixed_roots(world):
    """The root into an output that is not of 32 bytes, which only C has (RULES 4.4): alone, and beside each other refusal."""
    size, nodes = nodes_of(7), world.nodes(7)
    for (named, lent), room in itertools.product(((size, nodes), (2, nodes), (0, nodes), (size, nodes[:-1])), (0, NODE - 1, NODE + 1)):
        yield root_case(named, lent, room, world.mode)


def fixed_nodes(world):
    """Stored nodes with every byte damaged, and the digest into 32 bytes, one less and one more."""
    leaf, inner = stored.stored_leaf(world.records[1], world.digest), stored.stored_inner(world.root(1))
    for data in (leaf, inner, *damaged(leaf), *damaged(inner)):
        for room in (NODE - 1, NODE, NODE + 1):
            yield read_case(data, room, world.mode)


def bits(data, places):
    """Every bit of the bytes at these places changed in turn."""
    return (flipped(data, place, 1 << bit) for place in places for bit in range(8))


def fixed_bits(world):
    """Every bit of an inner node changed; of leaves with a record of no byte, one, some, a chunk and the most, every bit of what stands before the
    record, and of the record every bit where it is short and else one in every so many bytes."""
    for data in bits(stored.stored_inner(world.root(7)), range(33)):
        yield read_case(data, NODE, world.mode)
    for length, step in ((0, 0), (1, 0), (40, 0), (1024, 3), (LONGEST_RECORD, 401)):
        leaf = stored.stored_leaf(world.longer[:length], world.digest)
        some = (flipped(leaf, place, 1 << place % 8) for place in (*range(37, len(leaf), step), len(leaf) - 1)) if step else ()
        for data in (leaf, *bits(leaf, range(37 if step else len(leaf))), *some, leaf[:-1], leaf + b"\0"):
            yield read_case(data, NODE, world.mode)


def fixed_edits(world):
    """Leaves with each two of some records, and the digest of each of them, plain and of both leagues; into 32 bytes, one less and one more."""
    records = [b"", b"\0", world.records[5], flipped(world.records[5], 0), world.longer[:1024], world.longer[1:1025], world.longer[:LONGEST_RECORD]]
    for shown, hashed, mode, room in itertools.product(records, records, (PLAIN, *LEAGUES), (NODE - 1, NODE, NODE + 1)):
        yield read_case(stored.stored_leaf(shown, lambda _: digest_in(mode)(hashed)), room, world.mode)


def fixed_forms(world):
    """Inner nodes written from digests of another length; nodes read with every first byte, length and stated length that decides, and the digest of
    the record or another."""
    leaf = stored.stored_leaf(world.records[5], world.digest)
    for length, room in itertools.product((0, 31, 33), (0, 32, 33, 34)):
        yield inner_case(bytes(range(length)), room)
    for flag, digest, length, stated, room in itertools.product((0, 1, 2, 3, 128, 255), (leaf[1:33], flipped(leaf[1:33], 9)),
                                                                (0, 1, 32, 33, 34, 36, 37, 38, len(leaf), len(leaf) + 1),
                                                                (0, 1, len(leaf) - 37, LONGEST_RECORD + 1, 2**32 - 1), (0, NODE - 1, NODE)):
        data = bytes([flag]) + digest + stated.to_bytes(4, "big") + leaf[37:] + b"\0"
        yield read_case(data[:length], room, world.mode)
