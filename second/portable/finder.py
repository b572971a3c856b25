"""The vectors of the finder: letters of a log beside it, and each refusal."""
from portable.form import case, counted, logged
from portable.letters import flipped, restated
from portable.logs import small_log
from rules.blake3 import PLAIN
from rules.finder import PAIR, find
from rules.letters import letter_of
from rules.log import LONGEST_RECORD, NODE
from rules.shape import MOST_LEAVES, nodes_of

# A log of one peak, one of three, and an index in each.
LOGS = ((1, 0), (4, 1), (7, 0), (7, 3), (7, 5), (7, 6))
LEAVES, INDEX = 7, 3


def find_case(name, size, nodes, record, letter, rooms=(PAIR, PAIR), mode=PLAIN):
    """A letter compared with a log. rooms: the lengths of the two buffers."""
    answer = find(size, record, nodes, letter, bytearray(rooms[0]), bytearray(rooms[1]), mode)
    given = {"size": size, "nodes": nodes, "record": record, "letter": letter, "first_room": rooms[0], "second_room": rooms[1]}
    return case("find", name, given, answer.number, mode, found=answer.outcome)


def finder_changes(nodes, record, letter):
    """What is changed in a call that is done: a name, and the change."""
    yield from ((f"size {size}", {"size": size}) for size in (2, 0, 10, nodes_of(MOST_LEAVES), nodes_of(MOST_LEAVES) + 1))
    yield "one byte of nodes too few", {"nodes": nodes[:-1]}
    yield "bytes beyond the size", {"nodes": nodes + b"\x3c" * 33}
    for position, what in ((6, "its peak"), (9, "another peak"), (3, "its sibling"), (4, "its leaf"), (5, "its parent"), (2, "a sibling on the way")):
        yield f"{what} damaged", {"nodes": flipped(nodes, NODE * position)}
    yield "a node beside the path damaged, which nothing depends on", {"nodes": flipped(nodes, 0)}
    yield "another record", {"record": b"other"}
    yield "the record and a byte more", {"record": record + b"\0"}
    yield "a record of 16385 bytes", {"record": counted(8, LONGEST_RECORD + 1)}
    for name, shown in (("cut to 19 bytes", letter[:19]), ("one byte short", letter[:-1]), ("one byte long", letter + b"\0"),
                        ("naming size 4", restated(letter, 0, 8, 4)), ("naming index 7", restated(letter, 8, 16, 7)),
                        ("naming index 2", restated(letter, 8, 16, 2)), ("stating 16385 bytes", restated(letter, 16, 20, 16385)),
                        ("its last byte changed", flipped(letter, len(letter) - 1)), ("its record changed", flipped(letter, 20))):
        yield f"a letter {name}", {"letter": shown}
    for rooms in ((PAIR - 1, PAIR), (PAIR, PAIR - 1), (0, 0), (PAIR + 1, PAIR + 9)):
        yield f"buffers of {rooms[0]} and {rooms[1]} bytes", {"rooms": rooms}
    yield "another record, its parent damaged, and no buffers", {"record": b"other", "nodes": flipped(nodes, NODE * 5), "rooms": (0, 0)}
    yield "its parent damaged, and no buffers", {"nodes": flipped(nodes, NODE * 5), "rooms": (0, 0)}


def finder_cases():
    """Letters that are the log's own; then one with each change."""
    for leaves, index in LOGS:
        size, nodes = small_log(leaves)
        yield find_case(f"record {index} of {leaves}", size, nodes, logged(index), letter_of(size, index, logged(index), nodes))
    size, nodes = small_log(LEAVES)
    letter = letter_of(size, INDEX, logged(INDEX), nodes)
    true = {"size": size, "nodes": nodes, "record": logged(INDEX), "letter": letter}
    for name, change in finder_changes(nodes, logged(INDEX), letter):
        yield find_case(f"record {INDEX} of {LEAVES}, {name}", **{**true, **change})
