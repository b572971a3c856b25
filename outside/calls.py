"""A case of each call for C: its numbers and the parts that it is lent, result variables among them, each with something in it before."""
import struct
from collections import namedtuple

# A case: the call's name, its numbers, and the parts as bytes.
Case = namedtuple("Case", "call numbers parts")
# What the parts of each call are called in a report, in their order.
PARTS = {
    "mode_plain": ("mode",),
    "mode_keyed": ("key", "mode"),
    "digest": ("mode", "data", "out"),
    "parts_begin": ("mode", "state"),
    "parts_add": ("part", "state"),
    "parts_end": ("state", "out"),
    "size": ("size",),
    "leaf_position": ("position",),
    "leaf_count": ("leaves",),
    "append": ("mode", "record", "nodes", "new_size", "hashes"),
    "append_many": ("mode", "joined", "lengths", "nodes", "new_size", "hashes"),
    "root": ("mode", "nodes", "out"),
    "letter_write": ("mode", "record", "nodes", "out", "length"),
    "letter_check": ("mode", "root", "letter", "index", "record_at", "record_len"),
    "find": ("mode", "nodes", "record", "letter", "first", "second", "found"),
    "store_leaf": ("mode", "record", "out", "length"),
    "store_inner": ("digest", "out", "length"),
    "read_node": ("mode", "bytes", "kind", "digest_out", "record_at", "record_len"),
    "passage_write": ("mode", "indexes", "joined", "lengths", "nodes", "out", "length"),
    "passage_check": ("mode", "root", "letter", "count"),
    "passage_entry": ("mode", "root", "letter", "index", "record_at", "record_len"),
    "passage_entries": ("mode", "root", "letter", "indexes", "starts", "lengths", "count"),
    "passage_find": ("mode", "nodes", "joined", "lengths", "letter", "log_input", "letter_input", "found", "index"),
    "append_wide": ("mode", "joined", "lengths", "end", "new_size", "hashes"),
    "write_wide": ("mode", "indexes", "joined", "lengths", "positions", "nodes", "out", "length"),
    "find_wide": ("mode", "joined", "lengths", "positions", "nodes", "letter", "log_input", "letter_input", "found", "index"),
    "check_long": ("mode", "root", "indexes", "record", "digests", "indexes_out", "starts_out", "lengths_out", "count"),
    "parts_cut": ("mode", "input", "lengths", "state", "out"),
    "stray": ("part",),
    "layout": ("of a mode", "of a state"),
}
# Those that are no calls of the library: some that are others once more, several in a row, and two of the bridge alone.
NO_CALLS = ("append_wide", "write_wide", "find_wide", "check_long", "parts_cut", "stray", "layout")
# Those that work out a digest, in the mode that is their first part; the reader of stored nodes does so for a leaf.
MODED = tuple(call for call, parts in PARTS.items() if parts[0] == "mode" and len(parts) > 1 and "state" not in parts)
# Where a case has the number of its mode: the part, and the place in it.
NUMBER_AT = {**dict.fromkeys((*MODED, "parts_begin", "parts_cut"), (0, 0)), "parts_add": (1, 20), "parts_end": (0, 20)}


def is_keyed(case):
    """Whether a case is in a keyed mode."""
    part, place = NUMBER_AT.get(case.call, (0, 0))
    return case.call in NUMBER_AT and any(case.parts[part][place:place + 4])


def u64(number):
    """A variable of 64 bits."""
    return struct.pack("<Q", number)


def u32(number):
    """A variable of 32 bits."""
    return struct.pack("<I", number)


def u64s(numbers):
    """Numbers of 64 bits, one behind the other."""
    return struct.pack(f"<{len(numbers)}Q", *numbers)


def u32s(numbers):
    """Numbers of 32 bits, one behind the other."""
    return struct.pack(f"<{len(numbers)}I", *numbers)


def mode_bytes(keyed, key):
    """A mode as C has it, 36 bytes: its number, and its key."""
    return struct.pack("<I32s", keyed, key)


def state_bytes(total, held, stacked, keyed, key, chain, stack, block):
    """The state of a digest in parts as C has it, 1,112 bytes: its numbers, then its words and its block, as bytes. What is missing is zeros."""
    return struct.pack("<QQII32s32s960s64s", total, held, stacked, keyed, key, chain, stack, block)


PLAIN = mode_bytes(0, bytes(32))
# What the bytes of a mode, and of a state, are before a call that makes one.
BEFORE = bytes(range(100, 136))
BEFORE_STATE = bytes(7 * place % 256 for place in range(1112))


def mode_plain_case(before=BEFORE):
    """The plain mode, over what was there before."""
    return Case("mode_plain", (), [before])


def mode_keyed_case(key, before=BEFORE):
    """The mode of a key, over what was there before."""
    return Case("mode_keyed", (), [key, before])


def layout_case():
    """Where the C compiler has the fields of a mode and of a state, into numbers of 64 bits: a size, and two for each field."""
    return Case("layout", (), [u64(99) * 5, u64(99) * 17])


def digest_case(data, room, mode=PLAIN):
    """A digest, into so many bytes."""
    return Case("digest", (), [mode, data, b"\7" * room])


def begin_case(mode=PLAIN, before=BEFORE_STATE):
    """A digest in parts begun, over what was there before."""
    return Case("parts_begin", (), [mode, before])


def add_case(state, part):
    """A part added to a state."""
    return Case("parts_add", (), [part, state])


def end_case(state, room):
    """A state ended, the digest into so many bytes."""
    return Case("parts_end", (), [state, b"\x4d" * room])


def cut_case(data, lengths, mode=PLAIN):
    """A digest in parts of these lengths, from its begin to its end."""
    return Case("parts_cut", (), [mode, data, u32s(lengths), BEFORE_STATE, b"\x4d" * 32])


def number_case(call, number):
    """A call that makes one number of another."""
    return Case(call, (number,), [u64(0x1111111111111111)])


def check_case(size, top, letter, mode=PLAIN):
    """A letter checked; the variables hold something before."""
    return Case("letter_check", (size,), [mode, top, letter, u64(3 << 40), u64(5 << 40), u64(7 << 40)])


def find_case(size, nodes, record, letter, rooms=(64, 64), mode=PLAIN):
    """The finder, its buffers of these lengths."""
    return Case("find", (size,), [mode, nodes, record, letter, b"\x4b" * rooms[0], b"\x5a" * rooms[1], u32(99)])


def write_case(size, index, record, nodes, room, mode=PLAIN):
    """A letter written into so many bytes."""
    return Case("letter_write", (size, index), [mode, record, nodes, b"\x69" * room, u64(9 << 33)])


def append_case(size, record, nodes, mode=PLAIN):
    """An append."""
    return Case("append", (size,), [mode, record, nodes, u64(11 << 33), u64(13 << 33)])


def many_case(size, joined, lengths, nodes, mode=PLAIN):
    """An append of many records, whose lengths are numbers of 32 bits."""
    return Case("append_many", (size,), [mode, joined, u32s(lengths), nodes, u64(23 << 33), u64(25 << 33)])


def wide_case(size, length, records, end, mode):
    """An append of many to a buffer that is too long to be sent: its length, and its end."""
    lengths = b"".join(u32(len(record)) for record in records)
    return Case("append_wide", (size, length), [mode, b"".join(records), lengths, end, u64(27 << 33), u64(29 << 33)])


def root_case(size, nodes, room, mode=PLAIN):
    """A root, into so many bytes."""
    return Case("root", (size,), [mode, nodes, b"\x78" * room])


def leaf_case(record, room, mode=PLAIN):
    """A stored leaf written into so many bytes."""
    return Case("store_leaf", (), [mode, record, b"\x2d" * room, u64(19 << 33)])


def inner_case(given, room):
    """A stored inner node written into so many bytes."""
    return Case("store_inner", (), [given, b"\x2d" * room, u64(21 << 33)])


def read_case(data, room, mode=PLAIN):
    """A stored node read, the digest into so many bytes."""
    return Case("read_node", (), [mode, data, u32(77), b"\x1e" * room, u64(15 << 33), u64(17 << 33)])


def passage_write_case(size, indexes, joined, lengths, nodes, room, mode=PLAIN):
    """A passage written into so many bytes."""
    return Case("passage_write", (size,), [mode, u64s(indexes), joined, u32s(lengths), nodes, b"\x69" * room, u64(31 << 33)])


def passage_check_case(size, top, letter, mode=PLAIN):
    """A passage checked."""
    return Case("passage_check", (size,), [mode, top, letter, u64(33 << 33)])


def passage_entry_case(size, top, letter, place, mode=PLAIN):
    """A record of a passage."""
    return Case("passage_entry", (size, place), [mode, top, letter, u64(3 << 40), u64(5 << 40), u64(7 << 40)])


def passage_entries_case(size, top, letter, rooms, mode=PLAIN):
    """All records of a passage, into lists of so many places."""
    return Case("passage_entries", (size,), [mode, top, letter, *(b"\x2b" * 8 * room for room in rooms), u64(35 << 33)])


def passage_find_case(size, nodes, joined, lengths, letter, rooms=(64, 64), mode=PLAIN):
    """The finder of passages, its buffers of these lengths."""
    return Case("passage_find", (size,), [mode, nodes, joined, u32s(lengths), letter, b"\x4b" * rooms[0], b"\x5a" * rooms[1], u32(99), u64(37 << 33)])


def write_wide_case(size, length, indexes, records, nodes, room, mode):
    """A passage written over nodes that are too many to be sent: how many bytes they have, and those that are not zeros, by position."""
    return Case("write_wide", (size, length), [mode, u64s(indexes), b"".join(records), u32s([len(record) for record in records]), u64s(list(nodes)),
                                               b"".join(nodes.values()), b"\x69" * room, u64(31 << 33)])


def find_wide_case(size, length, records, nodes, letter, mode):
    """A passage compared with such nodes."""
    return Case("find_wide", (size, length), [mode, b"".join(records), u32s([len(record) for record in records]), u64s(list(nodes)),
                                              b"".join(nodes.values()), letter, b"\x4b" * 64, b"\x5a" * 64, u32(99), u64(37 << 33)])


def check_long_case(size, top, indexes, record, digests, short, mode):
    """A passage that is too long to be sent checked and handed out: its indexes, the bytes that each record has, its digests, and how many bytes of
    its end are cut off."""
    lists = [b"\x2b" * 8 * len(indexes)] * 3
    return Case("check_long", (size, short), [mode, top, u64s(indexes), record, digests, *lists, u64(35 << 33)])


def flipped(data, place, mask=1):
    """The bytes with some bits of one of them flipped."""
    return data[:place] + bytes([data[place] ^ mask]) + data[place + 1:]
