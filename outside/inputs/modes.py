"""The fixed cases of modes: keys of many lengths, every bit of a mode's number and every byte of its key, any 36 bytes; the orders under a key."""
import itertools
import random

from calls import (BEFORE, append_case, check_case, cut_case, digest_case, find_case, flipped, leaf_case, many_case, mode_bytes, mode_keyed_case,
                   mode_plain_case, passage_check_case, passage_entries_case, passage_entry_case, passage_find_case, passage_write_case, read_case,
                   root_case, write_case)
from expected.given import KEYS, LEAGUES
from once import Once
from portable.orders import order_cases
from rules.blake3 import PLAIN
from rules.log import NODE
from rules.passages import passage_of
from rules.shape import nodes_of
from rules.stored import stored_inner, stored_leaf
from vector_cases import cases_of, read_vector

MODE = len(BEFORE)
NUMBERS = (1, 2, 2**8, 2**24, 2**31, 2**32 - 1)
# A log and one of its records, for calls in any mode.
LEAVES, INDEX = 7, 2
# The records of a passage of that log.
INDEXES = (1, 2, 5)


def fixed_keys():
    """The plain mode, and keys of every length up to 70 and of some longer, over modes of other bytes."""
    for before in (bytes(MODE), b"\xff" * MODE, BEFORE[::-1]):
        yield mode_plain_case(before)
        for length in (*range(71), 256, 1024, 4128):
            yield mode_keyed_case(bytes((5 + i) % 256 for i in range(length)), before)


def fixed_modes(world):
    """A digest with every bit of the number alone, and with every byte of the key changed, keyed and plain."""
    key, record = KEYS[0], world.records[5]
    for bit in range(32):
        yield digest_case(record, NODE, mode_bytes(1 << bit, key))
    for place, number in itertools.product(range(len(key)), (0, 1)):
        yield digest_case(record, NODE, mode_bytes(number, flipped(key, place, 1 << place % 8)))


def true_cases(world, mode):
    """Each call that works out a digest, with the world's own inputs, in a mode that may be another. Stored nodes are a leaf, true and edited, and an
    inner node."""
    size, nodes, record, letter = nodes_of(LEAVES), world.nodes(LEAVES), world.records[INDEX], world.letter(LEAVES, INDEX)
    yield digest_case(record, NODE, mode)
    yield cut_case(world.longer[:1100], [1000, 100], mode)
    yield append_case(size, world.records[LEAVES], nodes.ljust(NODE * nodes_of(LEAVES + 1), b"\x3c"), mode)
    yield many_case(size, world.records[LEAVES] + record, [len(world.records[LEAVES]), len(record)],
                    nodes.ljust(NODE * nodes_of(LEAVES + 2), b"\x3c"), mode)
    yield root_case(size, nodes, NODE, mode)
    yield write_case(size, INDEX, record, nodes, len(letter), mode)
    yield check_case(size, world.root(LEAVES), letter, mode)
    yield find_case(size, nodes, record, letter, mode=mode)
    yield leaf_case(record, 37 + len(record), mode)
    yield from passage_cases(world, mode)
    for data in (stored_leaf(record, world.digest), flipped(stored_leaf(record, world.digest), 32, 128), stored_inner(world.root(LEAVES))):
        yield read_case(data, NODE, mode)


def passage_cases(world, mode):
    """Each call of passages, with the world's own inputs, in a mode that may be another."""
    size, nodes, top, own = nodes_of(LEAVES), world.nodes(LEAVES), world.root(LEAVES), [world.records[index] for index in INDEXES]
    letter, joined, lengths = passage_of(size, INDEXES, own, nodes, world.digest), b"".join(own), list(map(len, own))
    yield passage_write_case(size, INDEXES, joined, lengths, nodes, len(letter), mode)
    yield passage_check_case(size, top, letter, mode)
    yield passage_entry_case(size, top, letter, 1, mode)
    yield passage_entries_case(size, top, letter, (len(own),) * 3, mode)
    yield passage_find_case(size, nodes, joined, lengths, letter, mode=mode)


def fixed_any_modes(world):
    """Those calls in modes of both leagues and of none, with other numbers, and of any 36 bytes."""
    chance = random.Random("modes")
    modes = [mode_bytes(number, key) for number, key in itertools.product((0, *NUMBERS), (*KEYS, bytes(32)))]
    for mode in (*modes, *(chance.randbytes(MODE) for _ in range(6)), *(bytes(4) + chance.randbytes(32) for _ in range(3))):
        yield from true_cases(world, mode)


def fixed_orders():
    """Every two refusals at once under a key. Plain they stand in vectors/, but for some of passages, which are tried too."""
    return cases_of(read_vector("orders", case) for mode in (PLAIN, LEAGUES[0]) for case in order_cases(Once(*mode)))
