"""What passage_run reads and must write: calls of passages, and their answers."""
import functools
from collections import namedtuple

from expected.finder_run import FOUND_NUMBERS
from expected.given import KEYS, LEAGUES, numbers_line, run_record
from grown import log_of as log_of_records
from rules.blake3 import PLAIN
from rules.finder import PAIR
from rules.log import root
from rules.passage_finder import find_passage
from rules.passages import check_passage, passage_entries, passage_entry, passage_of, write_passage

# A row of the program's input: the words that begin its line, the key, indexes, joined records, their lengths, nodes, root and letter; the size; the
# room for a letter; which record is handed out; how many places there are for indexes; how much of the finder's two buffers is lent.
Row = namedtuple("Row", "words key indexes joined lengths nodes top letter size room which places buffers")
# The room for a short letter and for a long one; how many bytes behind it are looked at; how long a buffer and a list are; what stands in them.
SHORT, LONG, BEHIND, BUFFER, PLACES, BYTE, PLACE = 400, 16632, 8, 80, 257, b"\x3c", 9

# The plain digest and the first league's; what was hashed once is not hashed again.
DIGEST, KEYED = (functools.lru_cache(maxsize=None)(mode) for mode in (PLAIN, LEAGUES[0]))

# ---- requests

LOGS, LONG_LOG = (1, 2, 3, 7, 8), 515
# Requests to the long log, by the first index, the step and how many: 40 and 256 neighbours, 40 and 256 apart, the last 256; 257, none, one that is
# no leaf.
LONG_REQUESTS = ((100, 1, 40), (3, 13, 40), (0, 1, 256), (1, 2, 256), (259, 1, 256), (0, 2, 257), (0, 1, 0), (514, 1, 2))


def record_of(number):
    """Record k of every log has k mod 32 bytes."""
    return run_record(number, number % 32)


def log_of(leaves, digest):
    """A log of so many records: size, nodes, root."""
    size, nodes = log_of_records([record_of(number) for number in range(leaves)], digest)
    return size, nodes, root(size, nodes, digest).root


def small_requests(leaves):
    """Each record, each two, and all."""
    for first in range(leaves):
        yield from ((first, step, 2) for step in range(1, leaves - first))
        yield first, 1, 1
    yield 0, 1, leaves


def rows_of_log(leaves, requests, room, digest=DIGEST, key=b""):
    """Requests to a log, and the letters that they get."""
    size, nodes, top = log_of(leaves, digest)
    for first, step, count in requests:
        indexes = [first + step * place for place in range(count)]
        records = [record_of(index) for index in indexes]
        letter = passage_of(size, indexes, records, nodes, digest)
        words = f"{'keyed ' * bool(key)}log {leaves} first {first} step {step} count {count}"
        lengths = [len(record) for record in records]
        yield Row(words, key, indexes, b"".join(records), lengths, nodes, top, letter, size, room, count // 2, PLACES, (PAIR, PAIR))


# ---- changes

# The passage of records 2, 4 and 6 of a log of seven. Its letter has 154 bytes; its records begin at 10, 24 and 40, its digests at 58. The walk looks
# into nodes 6, 5 and 9; the nodes 2, 4 and 8 are beside it, and 0 and 1 below these.
LEAVES, INDEXES = 7, (2, 4, 6)
# What the calls are given, by letters. a: the size; b, c: how much of the nodes, and the byte of them that is flipped; d to g: the indexes, and how
# many; h to k: the lengths, and how many; l, m: how many joined bytes, and the one that is flipped; n: the room for the letter; o: how much of the
# root; p: how much of the letter; q, r: a place of it, and the number of two bytes that is written there, more than once in some; s: how many places
# for indexes; t, u: how much of the finder's buffers; v: which record is handed out. 99999: no byte.
GIVEN = "a11 b352 c99999 d2 e4 f6 g3 h2 i4 j6 k3 l12 m99999 n154 o32 p154 s3 t64 u64 v1"
# Changes that are tried alone and two at a time: 1; the writer's 19, 16, 5, 3, 4, 13, 6; the checker's 12, 7, 8, 19, 3, 5, 19, 9; 14, 6; 6 of lists.
PAIRS = "a2;e2;k2;f7;h16385 l16395;b351;m11;n153;o31;p9;q6 r10;q8 r257;q20 r16385;q46 r7;q30 r2;q152 r0;c64;t63;s2"
# Changes that are tried alone: none; sizes, requests; an index and a length of one record; lengths of the log's own records; their bytes; nodes; room
# and root; letters that are cut; numbers, indexes and lengths that they name; their bytes; places, buffers, records.
ALONE = (
    ";a10;a0;g0;d5;f4;f18446744073709551615;d7 e8 f9;e7 f8;f7 j16385 l16391",
    "k4;l11;l13;h4294967295 j9;i16385 l16393;j16385 l16391;h16384 l16394;i16384 l16392;j16384 l16390;m0;m3",
    "c0;c32;c96;c128;c160;c192;c224;c256;c288;c320;n155;o33;o0",
    "p0;p10;p21;p23;p35;p39;p51;p57;p58;p153;p155;q8 r0;q8 r2;q8 r4;q8 r256",
    "q16 r7;q30 r7;q46 r4;q30 r3;q30 r5;q34 r16385;q50 r16385;q20 r16384;q34 r16384;q50 r16384",
    "q22 r0;q38 r0;q56 r0;q88 r0;q120 r0;s0;s4;u63;t80 u80;v0;v2;v3;v18446744073709551615",
)


def flipped(data, at):
    """The data with the lowest bit of a byte changed, where there is such a byte."""
    return data[:at] + bytes(byte ^ 1 for byte in data[at:at + 1]) + data[at + 1:]


def over(data, at, number):
    """The data with a number of two bytes written over it."""
    return data[:at] + number.to_bytes(2, "big") + data[at + 2:]


def changes():
    """Each of some and each two of them; then others."""
    kinds = PAIRS.split(";")
    for place, one in enumerate(kinds):
        yield from (f"{one} {other}".rstrip() for other in ("", *kinds[place + 1:]))
    yield from (change for group in ALONE for change in group.split(";"))


def row_of_change(change):
    """The passage of three records, changed."""
    words = [(word[0], int(word[1:])) for word in f"{GIVEN} {change}".split()]
    given = dict(words)
    size, nodes, top = log_of(LEAVES, DIGEST)
    records = [record_of(index) for index in INDEXES]
    letter = passage_of(size, INDEXES, records, nodes, DIGEST) + bytes(1)
    for at, two in zip(*([number for name, number in words if name == column] for column in "qr")):
        letter = over(letter, at, two)
    joined = flipped(b"".join(records).ljust(given["l"], b"\0"), given["m"])
    lengths = [*(given[name] for name in "hij"), 0]
    return Row(
        f"change {change}".rstrip(), b"", [given[name] for name in "def"][:given["g"]], joined[:given["l"]], lengths[:given["k"]],
        flipped(nodes, given["c"])[:given["b"]], (top + bytes(1))[:given["o"]], letter[:given["p"]], given["a"], given["n"], given["v"], given["s"],
        (given["t"], given["u"]),
    )


@functools.lru_cache(maxsize=None)
def rows():
    """Requests to small logs, to a long one and to a keyed one; then one passage changed."""
    small = [row for leaves in LOGS for row in rows_of_log(leaves, small_requests(leaves), SHORT)]
    others = [*rows_of_log(LONG_LOG, LONG_REQUESTS, LONG), *rows_of_log(3, small_requests(3), SHORT, KEYED, KEYS[0])]
    return [*small, *others, *map(row_of_change, changes())]


# ---- what the program reads


def parts_of(row):
    """The parts of the input that a row names."""
    indexes = b"".join(index.to_bytes(8, "big") for index in row.indexes)
    lengths = b"".join(length.to_bytes(4, "big") for length in row.lengths)
    return row.words.encode(), row.key, indexes, row.joined, lengths, row.nodes, row.top, row.letter


def passage_run_stdin():
    """Where the rows end (8); the rows, 22 numbers of 8 bytes each; behind them the parts, each once. Numbers are big-endian."""
    end, pool = 8 + 176 * len(rows()), b""
    for part in sorted({part for row in rows() for part in parts_of(row)}, key=lambda part: (-len(part), part)):
        pool += b"" if part in pool else part
    numbers = [end]
    for row in rows():
        places = [(end + pool.index(part), len(part)) for part in parts_of(row)]
        numbers += [*(number for place in places for number in place), row.size, row.room, row.which, row.places, *row.buffers]
    return b"".join(number.to_bytes(8, "big") for number in numbers) + pool


# ---- what it writes


def written(row, digest):
    """The words of the writer: its answer, and the digest of what is lent of the output and of eight bytes behind it."""
    out = bytearray(BYTE * row.room)
    answer = write_passage(row.size, row.indexes, row.joined, row.lengths, row.nodes, out, digest)
    return ": write" + numbers_line(*answer) + " " + DIGEST(bytes(out) + BYTE * BEHIND).hex()


def handed(row, digest):
    """The words of the call for one record: its answer, how long the record is, and its first eight bytes as a number, with zeros behind its end."""
    answer = passage_entry(row.size, row.top, row.letter, row.which, digest)
    record = row.letter[answer.start:answer.start + answer.length]
    return " entry" + numbers_line(*answer, len(record), int.from_bytes(record[:8].ljust(8, b"\0"), "big"))


def listed(row, digest):
    """The words of the call for all: its answer, and of each list the places that are filled and one more."""
    lists = [[PLACE] * count for count in (row.places, PLACES, PLACES)]
    answer = passage_entries(row.size, row.top, row.letter, *lists, digest)
    whole = [(places + [PLACE] * PLACES)[:PLACES] for places in lists]
    return " entries" + numbers_line(*answer) + "".join(" " + numbers_line(*places[:answer.count + 1]) for places in whole)


def found(row, digest):
    """The words of the finder: its answer, and whether the two buffers differ."""
    ours, theirs = (bytearray(BYTE * room) for room in row.buffers)
    number, outcome, index = find_passage(row.size, row.joined, row.lengths, row.nodes, row.letter, ours, theirs, digest)
    return " find" + numbers_line(number, FOUND_NUMBERS[outcome], index, int(ours.ljust(BUFFER, BYTE) != theirs.ljust(BUFFER, BYTE)))


def expect_passage_run():
    """A line for each row."""
    lines = []
    for row in rows():
        digest = KEYED if row.key else DIGEST
        checked = " check" + numbers_line(*check_passage(row.size, row.top, row.letter, digest))
        lines.append(row.words + written(row, digest) + checked + handed(row, digest) + listed(row, digest) + found(row, digest))
    return "".join(line + "\n" for line in lines)
