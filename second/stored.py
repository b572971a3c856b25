"""The rule of stored nodes (RULES 8) tried: the reader beside the writer, on leaves and inner nodes edited and damaged in every place, in several
modes; and on wrong rules, which are told from it."""
import functools
import itertools

from expected.given import LEAGUES, flips_of, run_record
from portable.letters import flipped, restated
from rules.blake3 import PLAIN
from rules.log import LONGEST_RECORD
from rules.stored import StoredRead, read_stored, stored_inner, stored_leaf, stored_refusal, write_stored_inner, write_stored_leaf

MODES = (PLAIN, *LEAGUES)
LENGTHS = (0, 1, 31, 32, 33, 64, 1023, 1024, 1025, 5000, LONGEST_RECORD)
# Of these records every bit is changed in turn, in the leaf of each mode. Of longer ones the bytes at these places of the leaf.
SHORT = (0, 1, 5)
PLACES = (0, 1, 17, 32, 33, 34, 35, 36, 37, 38, 100, 1060, -2, -1)
LIMIT = 37 + LONGEST_RECORD


# ---- what is tried: bytes that are read


def written(mode):
    """What the writers write in a mode, into a buffer that has room for it and more."""
    for length in LENGTHS:
        buffer = bytearray(b"\x3c" * (LIMIT + 1))
        yield bytes(buffer[:write_stored_leaf(run_record(7, length), buffer, mode)[1]])
    buffer = bytearray(40)
    yield bytes(buffer[:write_stored_inner(mode(b"left, right"), buffer)[1]])


def short_damaged(mode):
    """Each bit of short leaves and of an inner node changed; every two bytes of the shortest; each length that they can be cut to or made up to."""
    nodes = [*(stored_leaf(run_record(3, length), mode) for length in SHORT), stored_inner(mode(b""))]
    for node in nodes:
        yield from flips_of(node)
        yield from ((node + bytes(4))[:length] for length in range(len(node) + 5))
    yield from (flipped(flipped(nodes[1], one, 2), other, 4) for one, other in itertools.combinations(range(len(nodes[1])), 2))


def long_damaged(mode):
    """Long leaves with a bit changed at some places, one byte short and one byte more."""
    for length in (1024, 1025, LONGEST_RECORD):
        node = stored_leaf(run_record(3, length), mode)
        yield from (flipped(node, place % len(node), 1 << place % 8) for place in PLACES)
        yield from (node[:-1], node + b"\0")


def near_leaves(mode):
    """Leaves with a digest that is near that of the record; and lengths that are stated of parts of it, with the digest of that part."""
    record = run_record(3, 40)
    own, stated = mode(record), len(record).to_bytes(4, "big")
    near = (bytes(32), own[::-1], own[1:] + own[:1], mode(own), mode(stated + record), mode(record[:-1]), mode(record + b"\0"), mode(b""),
            mode(b"\x01" + record), mode(record[::-1]), *(of(record) for of in MODES), *(of(b"") for of in MODES))
    yield from (b"\x01" + digest + stated + record for digest in near)
    for part in (0, 1, 39, 41, LONGEST_RECORD, LONGEST_RECORD + 1):
        yield b"\x01" + mode(record[:part]) + part.to_bytes(4, "big") + record
    longer = run_record(3, LONGEST_RECORD + 1)
    yield b"\x01" + mode(longer) + len(longer).to_bytes(4, "big") + longer


def other_forms(mode):
    """Every first byte of a leaf, true and edited; no bytes; lengths that decide, with bytes that are no node."""
    true = stored_leaf(run_record(3, 5), mode)
    for node in (true, flipped(true, 1), flipped(true, 37)):
        yield from (bytes([flag]) + node[1:] for flag in range(256))
        yield from (restated(node, 33, 37, stated) for stated in (0, 4, 6, LONGEST_RECORD, LONGEST_RECORD + 1, 2**16 + 5, 2**31, 2**32 - 1))
    yield from (bytes([flag]) * length for flag in range(3) for length in (0, 1, 32, 33, 34, 36, 37, 38))


def tried():
    """Bytes, and the mode that they are read in: those of each mode in that mode, and what is written and near in each other one too."""
    for mode in MODES:
        yield from ((data, mode) for made in (written, short_damaged, long_damaged, near_leaves, other_forms) for data in made(mode))
    for of, mode in itertools.permutations(MODES, 2):
        yield from ((data, mode) for made in (written, near_leaves) for data in made(of))


# ---- the answer once more, from the writer


def applying(data, digest):
    """The numbers that apply to bytes, by what they are said to be: 11 for the form, 3, 11 for the length, 18. A later one may be there by itself."""
    flag, stated = data[:1].hex(), int.from_bytes(data[33:37], "big")
    least = {"00": 33, "01": 37}.get(flag, LIMIT)
    form = flag not in ("00", "01") or len(data) < least or (flag == "00" and len(data) > 33)
    leaf = flag != "00"
    return ([11] * form, [3] * (leaf and stated > LONGEST_RECORD), [11] * (leaf and len(data) != 37 + stated),
            [18] * (leaf and data[1:33] != digest(data[37:])))


def foreseen(data, digest):
    """The answer, done where the writer writes these bytes for the record in them, or for the digest."""
    record, given = data[37:], data[1:33]
    if len(record) <= LONGEST_RECORD and data == stored_leaf(record, digest):
        return StoredRead(0, "leaf", given, record)
    if len(given) == 32 and data == stored_inner(given):
        return StoredRead(0, "inner", given, b"")
    return stored_refusal(next(itertools.chain(*applying(data, digest))))


# ---- wrong rules


def by_order(*order):
    """A rule with the numbers that apply in another order: 0 is the form, 1 is 3, 2 is the exact length, 3 is 18."""
    def rule(data, digest):
        groups = applying(data, digest)
        number = next(itertools.chain(*(groups[place] for place in order)), 0)
        return stored_refusal(number) if number else read_stored(data, digest)
    return rule


def by_digest(worked, compared=lambda digest: digest):
    """A rule that works out another digest from a leaf, or compares only some of it."""
    def rule(data, digest):
        read = read_stored(data, lambda record: data[1:33])
        fits = read.kind != "leaf" or compared(worked(data, digest)) == compared(data[1:33])
        return read if fits else stored_refusal(18)
    return rule


def beside_18(**values):
    """A rule that hands something out beside 18."""
    def rule(data, digest):
        read = read_stored(data, digest)
        return read._replace(**{name: value(data) for name, value in values.items()}) if read.number == 18 else read
    return rule


def inner_too(data, digest):
    read = read_stored(data, digest)
    return stored_refusal(18) if read.kind == "inner" and read.digest != digest(read.record) else read


def inner_where_it_lies(data, digest):
    read = read_stored(data, digest)
    return StoredRead(0, "inner", data[1:33], b"") if read.number == 18 else read


def another(number):
    """A rule that has another number for a leaf that lies."""
    def rule(data, digest):
        read = read_stored(data, digest)
        return read._replace(number=number) if read.number == 18 else read
    return rule


def unless(test):
    """A rule that does not look at some leaves."""
    return by_digest(lambda data, digest: data[1:33] if test(data) else digest(data[37:]))


# Each wrong rule by what is wrong with it. The digest of a leaf is in bytes 1 to 32, its record from byte 37 on.
WRONG = {
    "takes the digest as it stands": by_digest(lambda data, digest: data[1:33]),
    "tests 18 before the exact length": by_order(0, 1, 3, 2),
    "tests 18 before 3": by_order(0, 3, 1, 2),
    "tests 18 first of all": by_order(3, 0, 1, 2),
    "tests the exact length before 3": by_order(0, 2, 1, 3),
    "has 18 for an inner node": inner_too,
    "hashes the stored digest": by_digest(lambda data, digest: digest(data[1:33])),
    "hashes the length with the record": by_digest(lambda data, digest: digest(data[33:])),
    "hashes the first byte with the record": by_digest(lambda data, digest: digest(data[:1] + data[37:])),
    "hashes the record without its last byte": by_digest(lambda data, digest: digest(data[37:-1])),
    "hashes no more than a chunk": by_digest(lambda data, digest: digest(data[37:37 + 1024])),
    "works the digest out plain in a keyed mode": by_digest(lambda data, digest: PLAIN(data[37:])),
    "works the digest out under one key": by_digest(lambda data, digest: LEAGUES[0](data[37:])),
    "compares the first 31 bytes": by_digest(lambda data, digest: digest(data[37:]), lambda digest: digest[:31]),
    "compares the last 31 bytes": by_digest(lambda data, digest: digest(data[37:]), lambda digest: digest[1:]),
    "compares the first 8 bytes": by_digest(lambda data, digest: digest(data[37:]), lambda digest: digest[:8]),
    "compares the bytes in any order": by_digest(lambda data, digest: digest(data[37:]), sorted),
    "compares all bits of a byte but the highest": by_digest(lambda data, digest: digest(data[37:]), lambda digest: [one % 128 for one in digest]),
    "does not look at a leaf of no bytes": unless(lambda data: len(data) == 37),
    "does not look at a leaf of the longest record": unless(lambda data: len(data) == LIMIT),
    "does not look at a leaf of more than a chunk": unless(lambda data: len(data) > 37 + 1024),
    "takes a digest of zeros for none": unless(lambda data: data[1:33] == bytes(32)),
    "hands out the record with 18": beside_18(record=lambda data: data[37:]),
    "hands out the digest with 18": beside_18(digest=lambda data: data[1:33]),
    "hands out the kind with 18": beside_18(kind=lambda data: "leaf"),
    "is done, as an inner node, where a leaf lies": inner_where_it_lies,
    "has 11 for a leaf that lies": another(11),
    "has 13 for a leaf that lies": another(13),
}


# ---- the checks


def check_written(digests):
    """How many nodes are read back as they were written, in their own mode; leaves in no other, inner nodes in every one. And of how many."""
    good = total = 0
    for of, mode in itertools.product(MODES, repeat=2):
        for data in written(of):
            read, leaf = read_stored(data, digests[mode]), data[0] == 1
            back = StoredRead(0, "leaf" if leaf else "inner", data[1:33], data[37:])
            good += read == (back if of == mode or not leaf else stored_refusal(18))
            total += 1
    return good, total


def check_stored():
    """What is written is read back; what is read is what the writer writes; then the wrong rules, each of which is told from the right one."""
    digests = {mode: functools.lru_cache(maxsize=None)(mode) for mode in MODES}
    good, total = check_written(digests)
    print(f"stored: {good} of {total} nodes are read back in their own mode, and leaves in no other")
    cases = [(data, digests[mode]) for data, mode in dict.fromkeys(tried())]
    answers = [read_stored(*case) for case in cases]
    right = sum(answer == foreseen(*case) for answer, case in zip(answers, cases))
    lies = sum(answer.number == 18 for answer in answers)
    print(f"stored: {right} of {len(cases)} nodes, true, edited and damaged, are done where the writer writes them, and {lies} get 18")
    told = {name: any(rule(*case) != answer for case, answer in zip(cases, answers)) for name, rule in WRONG.items()}
    for name in (name for name, is_told in told.items() if not is_told):
        print(f"stored: a rule that {name} is not told from the right one")
    print(f"stored: {sum(told.values())} of {len(WRONG)} wrong rules are told from the right one")
    return good == total and right == len(cases) and lies > 0 and all(told.values())
