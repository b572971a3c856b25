"""The vectors of keys and modes: keys taken and refused, modes of every kind, and logs, stored nodes, letters and finds under a key."""
import itertools

from expected.given import KEYS, LEAGUES
from expected.panel import longest_letter
from portable.batches import batch_of, many_case
from portable.digests import digest_case
from portable.finder import find_case
from portable.form import case, counted, logged
from portable.letters import check_case, damages, flipped, write_case
from portable.logs import append_case, root_case, small_log, whole_case
from portable.orders import singles
from portable.passages import INDEXES, damages as passage_damages, entries_case, passage_in, requests
from portable.passages import check_case as check_passage_case, find_case as find_passage_case, write_case as write_passage_case
from portable.stored import LENGTHS, RECORD, edits, leaf_case, read_case
from rules.blake3 import PLAIN, Mode, keyed
from rules.letters import WHOLE_LETTER, letter_of
from rules.log import LONGEST_RECORD, NODE, root
from rules.shape import nodes_of
from rules.stored import stored_inner, stored_leaf

ONE, OTHER = LEAGUES
# Letters under a key: the leaf count of the log, and the index. The letter that is damaged is one of them.
LETTERS = ((1, 0), (2, 1), (7, 0), (7, 2), (7, 6))
LEAVES, INDEX = 7, 2
# The modes of both leagues and of none, by whose they are.
WHOSE = {"one league": ONE, "the other league": OTHER, "no league": PLAIN}


def key_case(name, key):
    """A key, and whether it is taken."""
    return case("mode_keyed", name, {"key": key}, keyed(key).number)


def key_cases():
    """The plain mode; keys of some lengths; a key with a newline behind it, and one in hexadecimal digits, as a file may have them."""
    yield case("mode_plain", "the plain mode", {}, 0)
    for length in (0, 31, 32, 33, 64):
        yield key_case(f"a key of {length} bytes", counted(60, length))
    yield key_case("a key of zeros", bytes(len(KEYS[0])))
    yield key_case("a key and a newline", KEYS[0] + b"\n")
    yield key_case("a key in hexadecimal digits", KEYS[0].hex().encode())


def other_modes():
    """Modes beside those that a key makes, and keys beside the first league's: a name, and the mode."""
    yield "number 0, where the key means nothing", Mode(0, KEYS[0])
    yield "number 0, and another key that means nothing", Mode(0, b"\xff" * len(KEYS[0]))
    for number in (2, 256, 2**16, 2**31, 2**32 - 1):
        yield f"number {number}", Mode(number, KEYS[0])
    yield "a key of zeros", Mode(1, bytes(len(KEYS[0])))
    yield "a bit of the key's first byte flipped", Mode(1, flipped(KEYS[0], 0))
    yield "a bit of the key's last byte flipped", Mode(1, flipped(KEYS[0], len(KEYS[0]) - 1, 128))


def mode_cases():
    """A digest in each of these modes, and a letter and a stored leaf of the first league checked and read in it."""
    size, nodes = small_log(LEAVES, ONE)
    top, letter = root(size, nodes, ONE).root, letter_of(size, INDEX, logged(INDEX), nodes, ONE)
    for name, mode in other_modes():
        yield digest_case(f"1025 bytes, {name}", counted(9, 1025), mode)
        yield check_case(f"record {INDEX} of {LEAVES}, {name}", size, top, letter, mode)
        yield read_case(f"a stored leaf, {name}", stored_leaf(RECORD, ONE), mode)


def log_cases():
    """Logs of both leagues, records at the limit, appends of one and of many with bytes beyond them, roots, stored leaves."""
    yield whole_case("seven records", [logged(number) for number in range(LEAVES)], ONE)
    yield whole_case("three records of the other league", [logged(number) for number in range(3)], OTHER)
    yield whole_case("a record of 16384 bytes, and an empty one", [counted(5, LONGEST_RECORD), b""], ONE)
    for leaves in (0, 3):
        size, nodes = small_log(leaves, ONE)
        wanted = NODE * nodes_of(leaves + 1)
        yield append_case(f"append to {leaves} records, forty bytes of room too many", size, logged(leaves), nodes.ljust(wanted + 40, b"\x3c"), ONE)
    for leaves, count in ((0, 7), (3, 5)):
        yield many_case(f"{count} in one append to {leaves} records", **batch_of(leaves, count, 40, ONE))
    yield many_case("no record in one append to 3 records", nodes_of(3), b"", [], b"", ONE)
    size, nodes = small_log(LEAVES, ONE)
    yield root_case(f"root of {LEAVES} records, bytes beyond the size", size, nodes + b"\x3c" * 33, ONE)
    yield root_case(f"root of {LEAVES} records in the mode of the other league", size, nodes, OTHER)
    for length in (0, LONGEST_RECORD, LONGEST_RECORD + 1):
        yield leaf_case(f"leaf of {length} bytes", counted(3, length), mode=ONE)
    yield leaf_case("leaf of the other league", RECORD, mode=OTHER)
    yield leaf_case("leaf, one byte of room too few", RECORD, -1, ONE)


def node_cases():
    """Stored nodes read under a key: leaves of some lengths, one edited in each way, and inner nodes; a leaf of each mode in each other."""
    for length in LENGTHS:
        yield read_case(f"a stored leaf of {length} bytes", stored_leaf(counted(3, length), ONE), ONE)
    for name, node in edits(RECORD, ONE):
        yield read_case(f"a stored leaf, {name}", node, ONE)
    for (whose, of), (where, mode) in itertools.permutations(WHOSE.items(), 2):
        yield read_case(f"a stored leaf of {whose} in the mode of {where}", stored_leaf(RECORD, of), mode)
    inner = stored_inner(ONE(RECORD))
    for where, mode in WHOSE.items():
        yield read_case(f"an inner node in the mode of {where}", inner, mode)
    yield read_case("an inner node under a key, a bit of its digest changed", flipped(inner, 32), ONE)


def letter_cases():
    """Letters written, checked and compared; one damaged in each way; the shortest and the longest."""
    for leaves, index in LETTERS:
        (size, nodes), record, name = small_log(leaves, ONE), logged(index), f"record {index} of {leaves}"
        letter = letter_of(size, index, record, nodes, ONE)
        yield write_case(f"{name}, written", size, index, record, nodes, len(letter), ONE)
        yield check_case(f"{name}, checked", size, root(size, nodes, ONE).root, letter, ONE)
        yield find_case(f"{name}, compared", size, nodes, record, letter, mode=ONE)
        if (leaves, index) == (LEAVES, INDEX):
            for damage, shown in damages(letter):
                yield check_case(f"{name}, {damage}", size, root(size, nodes, ONE).root, shown, ONE)
    yield check_case("the whole letter of one empty record", 1, ONE(b""), WHOLE_LETTER, ONE)
    yield check_case("the longest letter", *longest_letter(ONE), ONE)


def league_cases():
    """A letter of each league and of none, in each other mode: checked, compared with its log, and written."""
    for (whose, of), (where, mode) in itertools.permutations(WHOSE.items(), 2):
        (size, nodes), record, name = small_log(2, of), logged(0), f"a letter of {whose} in the mode of {where}"
        letter = letter_of(size, 0, record, nodes, of)
        yield check_case(f"{name}, checked", size, root(size, nodes, of).root, letter, mode)
        yield find_case(f"{name}, compared with its own log", size, nodes, record, letter, mode=mode)
        yield write_case(f"{name}, written of its own log", size, 0, record, nodes, len(letter), mode)


def passage_cases():
    """Passages of logs of seven written, checked, handed out and compared; one damaged in each way; and one of each mode in each other."""
    for name, leaves, indexes in requests():
        if leaves == LEAVES:
            size, nodes, top, joined, lengths, letter = passage_in(leaves, indexes, ONE)
            yield write_passage_case(f"passage, {name}, written", size, indexes, joined, lengths, nodes, len(letter), ONE)
            yield check_passage_case(f"passage, {name}, checked", size, top, letter, ONE)
            yield entries_case(f"passage, {name}, handed out", size, top, letter, mode=ONE)
            yield find_passage_case(f"passage, {name}, compared", size, nodes, joined, lengths, letter, mode=ONE)
    size, _, top, _, _, letter = passage_in(LEAVES, INDEXES, ONE)
    for damage, shown in passage_damages(letter):
        yield check_passage_case(f"a passage, {damage}", size, top, shown, ONE)
    for (whose, of), (where, mode) in itertools.permutations(WHOSE.items(), 2):
        size, nodes, top, joined, lengths, letter = passage_in(3, (0, 2), of)
        name = f"a passage of {whose} in the mode of {where}"
        yield check_passage_case(f"{name}, checked", size, top, letter, mode)
        yield find_passage_case(f"{name}, compared with its own log", size, nodes, joined, lengths, letter, mode=mode)
        yield write_passage_case(f"{name}, written of its own log", size, (0, 2), joined, lengths, nodes, len(letter), mode)


def keyed_cases():
    """Keys, modes, logs, stored nodes, letters, leagues, passages; then each refusal alone, under a key."""
    return [*key_cases(), *mode_cases(), *log_cases(), *node_cases(), *letter_cases(), *league_cases(), *passage_cases(),
            *(one for _, one in singles(ONE))]
