"""The vectors of logs: whole ones, and appends and roots at the edges of their orders."""
from grown import grown, log_of
from portable.form import case, counted, logged
from rules.blake3 import PLAIN
from rules.log import LONGEST_RECORD, NODE, append, root
from rules.shape import MOST_LEAVES, nodes_of

LEAVES = 16


def small_log(leaves, mode=PLAIN):
    """A log of the first so many records: its size and nodes."""
    return log_of([logged(number) for number in range(leaves)], mode)


def whole_case(name, records, mode=PLAIN):
    """Records appended one by one to an empty log: after each the size, the hash count and the root; at the end the nodes."""
    nodes, sizes, counts, roots = b"", [], [], []
    for answer, nodes in grown(records, mode):
        sizes.append(answer.size)
        counts.append(answer.hashes)
        roots.append(root(answer.size, nodes, mode).root)
    return case("log", name, {"records": list(records)}, 0, mode, sizes=sizes, hashes_each=counts, roots=roots, nodes=nodes)


def append_case(name, size, record, nodes, mode=PLAIN):
    """One append."""
    after = bytearray(nodes)
    answer = append(size, record, after, mode)
    return case("append", name, {"size": size, "record": record, "nodes": nodes}, answer.number, mode,
                new_size=answer.size, hashes=answer.hashes, nodes=after)


def root_case(name, size, nodes, mode=PLAIN):
    """One root."""
    number, top = root(size, nodes, mode)
    return case("root", name, {"size": size, "nodes": nodes}, number, mode, root=top)


def whole_cases():
    """A log of sixteen records, of which each shorter one is a beginning; one empty record; records at the limit; two of the same bytes."""
    yield whole_case("sixteen records", [logged(number) for number in range(LEAVES)])
    yield whole_case("one empty record", [b""])
    yield whole_case("a record of 16384 bytes, and a short one", [counted(5, LONGEST_RECORD), b"\5"])
    yield whole_case("the same record three times", [b"goal"] * 3)


def append_cases():
    """Appends where no, one and three parents are written, with bytes beyond them; then each refusal, and two at once where they meet."""
    full = nodes_of(MOST_LEAVES)
    longest, longer = counted(6, LONGEST_RECORD), counted(6, LONGEST_RECORD + 1)
    for leaves in (0, 4, 5, 7):
        size, nodes = small_log(leaves)
        room = NODE * (nodes_of(leaves + 1) - size)
        yield append_case(f"append to {leaves} records", size, logged(leaves), nodes + b"\x3c" * room)
        yield append_case(f"append to {leaves} records, one byte of room too few", size, logged(leaves), nodes + b"\x3c" * (room - 1))
        yield append_case(f"append to {leaves} records, forty bytes of room too many", size, logged(leaves), nodes + b"\x3c" * (room + 40))
    for size in (2, 5, 6, 9, full + 1, 2**64 - 1):
        yield append_case(f"append at size {size}", size, b"record", b"\x3c" * NODE * 12)
    yield append_case("append at 2^32 leaves", full, b"record", b"\x3c" * NODE)
    yield append_case("append of 16384 bytes", 0, longest, bytes(NODE))
    yield append_case("append of 16385 bytes", 0, longer, bytes(NODE))
    yield append_case("append of 16385 bytes, with no room", 0, longer, b"")
    yield append_case("append of 16385 bytes at 2^32 leaves", full, longer, b"")
    yield append_case("append of 16385 bytes at size 2", 2, longer, b"")


def root_cases():
    """Roots of one peak, of two and of three, with bytes beyond the size; then each refusal, and two at once where they meet."""
    for leaves in (1, 3, 4, 7):
        size, nodes = small_log(leaves)
        yield root_case(f"root of {leaves} records", size, nodes)
        yield root_case(f"root of {leaves} records, bytes beyond the size", size, nodes + b"\x3c" * 33)
        yield root_case(f"root of {leaves} records, one byte too few", size, nodes[:-1])
    yield root_case("root of an empty log", 0, bytes(NODE))
    yield root_case("root of an empty log, with no nodes", 0, b"")
    for size in (2, 5, 6, 9, nodes_of(MOST_LEAVES) + 1):
        yield root_case(f"root at size {size}", size, b"\x3c" * NODE * 9)
    yield root_case("root at 2^32 leaves, with nine nodes", nodes_of(MOST_LEAVES), b"\x3c" * NODE * 9)
    yield root_case("root at size 2, with no nodes", 2, b"")


def log_cases():
    """Whole logs, appends, roots."""
    return [*whole_cases(), *append_cases(), *root_cases()]
