"""The vectors of batches: many records in one append, done and refused."""
from portable.form import case, counted, logged
from portable.logs import small_log
from rules.batch import append_many, cut
from rules.blake3 import PLAIN
from rules.log import LONGEST_RECORD, NODE
from rules.shape import MOST_LEAVES, nodes_of

FULL, MOST = nodes_of(MOST_LEAVES), 2**32 - 1
# Batches that are done: the leaf count of the log, and how many records are appended.
DONE = ((0, 1), (0, 2), (0, 7), (1, 1), (1, 6), (3, 1), (3, 5), (7, 9), (0, 40))


def many_case(name, size, joined, lengths, nodes, mode=PLAIN):
    """One append of many."""
    after = bytearray(nodes)
    answer = append_many(size, joined, lengths, after, mode)
    return case("append_many", name, {"size": size, "joined": joined, "lengths": list(lengths), "nodes": nodes}, answer.number, mode,
                new_size=answer.size, hashes=answer.hashes, nodes=after)


def batch_of(leaves, count, spare=0, mode=PLAIN):
    """What a batch is given that appends so many records to a log, with so many bytes of room more than it wants."""
    records, (size, nodes) = [logged(leaves + number) for number in range(count)], small_log(leaves, mode)
    room = NODE * nodes_of(leaves + count) + spare
    return {"size": size, "joined": b"".join(records), "lengths": [len(record) for record in records],
            "nodes": nodes.ljust(room, b"\x3c")[:room], "mode": mode}


def done_cases():
    """Batches of some lengths, and the longest once more with bytes beyond it; records of no bytes, one at the limit; no record at all."""
    for leaves, count in DONE:
        yield many_case(f"{count} to {leaves} records", **batch_of(leaves, count))
    yield many_case("40 to 0 records, forty bytes of room too many", **batch_of(0, 40, 40))
    yield many_case("five records of no bytes", 0, b"", [0] * 5, b"\x3c" * NODE * nodes_of(5))
    yield many_case("a record of no bytes before and behind one of 16384", 0, counted(6, LONGEST_RECORD), [0, LONGEST_RECORD, 0], bytes(NODE * 4))
    for leaves, room in ((0, 0), (3, NODE * 4), (3, NODE * 4 - 1), (3, 0)):
        nodes = small_log(leaves)[1][:room]
        yield many_case(f"no record to {leaves}, a buffer of {room} bytes", nodes_of(leaves), b"", [], nodes)
    yield many_case("no record at 2^32 leaves, with no nodes", FULL, b"", [], b"")


def sums_off(lengths, total):
    """Lists that do not add up, by name: one off either way, one too many or too few, and sums that would do modulo 2^32."""
    yield "the first one more", [lengths[0] + 1, *lengths[1:]]
    yield "the last one less", [*lengths[:-1], lengths[-1] - 1]
    yield "the last left out", lengths[:-1]
    yield "none", []
    yield "one more behind them", [*lengths, 1]
    yield "4294967295 alone", [MOST]
    yield "4294967295 before them", [MOST, *lengths]
    yield "4294967295 behind them", [*lengths, MOST]
    yield "right modulo 2^32, two for the whole", [MOST, total + 1]
    yield "right modulo 2^32, two behind them", [*lengths, MOST, 1]
    yield "right modulo 2^32, twice 2147483648 among them", [2**31, *lengths, 2**31]


def refused_cases():
    """Each refusal alone: sizes, sums, a record too long and a buffer one byte short at each record."""
    seven = batch_of(3, 7)
    records, lengths = cut(seven["joined"], seven["lengths"]), seven["lengths"]
    for size in (2, 5, 6, 9, FULL - 1, FULL + 1, 2**64 - 1):
        yield many_case(f"a batch at size {size}", **{**seven, "size": size})
    for name, off in sums_off(lengths, len(seven["joined"])):
        yield many_case(f"lengths off: {name}", **{**seven, "lengths": off})
    yield many_case("lengths off: twice 0 for one byte", 0, b"\5", [0, 0], bytes(NODE * 3))
    yield many_case("lengths off: 1 for no byte", 0, b"", [1], bytes(NODE))
    yield many_case("one record at 2^32 leaves", FULL, b"", [0], b"\x3c" * NODE)
    for place in range(len(records)):
        longer = [*records[:place], counted(6, LONGEST_RECORD + 1), *records[place + 1:]]
        yield many_case(f"record {place} of 7 of 16385 bytes", **{**seven, "joined": b"".join(longer), "lengths": [len(one) for one in longer]})
        room = NODE * nodes_of(4 + place) - 1
        yield many_case(f"record {place} of 7 with one byte of room too few", **{**seven, "nodes": seven["nodes"][:room]})


def batch_cases():
    """Done, then refused."""
    return [*done_cases(), *refused_cases()]
