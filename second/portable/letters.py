"""The vectors of letters: written, true and refused; checked, true, damaged and forged."""
from expected.panel import longest_letter
from grown import log_of
from portable.form import case, counted, logged
from portable.logs import small_log
from rules.blake3 import PLAIN, digest
from rules.letters import LETTER_HEAD, WHOLE_LETTER, check_letter, items_in, letter_bytes, letter_of, record_in, worked_root, write_letter
from rules.log import LONGEST_RECORD, NODE, node, root
from rules.shape import MOST_LEAVES, items_of, leaf_count, nodes_of

# Every letter of logs of up to so many records, and some of larger ones: the leaf count, and the index.
MOST = 8
LARGER = ((11, 0), (11, 9), (15, 0), (15, 9), (15, 14), (16, 5))
# The letter that is damaged: its log's leaf count, and its index.
LEAVES, INDEX = 7, 2


def write_case(name, size, index, record, nodes, room, mode=PLAIN):
    """A letter written into so many bytes. With it the positions of its items; more than one position is a fold."""
    out = bytearray(room)
    number, length = write_letter(size, index, record, nodes, out, mode)
    items = [[str(position) for position in item] for item in items_of(leaf_count(size)[1], index)] if number == 0 else []
    given = {"size": size, "index": index, "record": record, "nodes": nodes, "room": room}
    return case("letter_write", name, given, number, mode, letter=out[:length], items=items)


def check_case(name, size, top, letter, mode=PLAIN):
    """A letter checked against a trusted size and root."""
    answer = check_letter(size, top, letter, mode)
    values = {"index": answer.index, "record_at": answer.start, "record": letter[answer.start:answer.start + answer.length]}
    return case("letter_check", name, {"size": size, "root": top, "letter": letter}, answer.number, mode, **values)


def flipped(data, place, mask=1):
    """The bytes with some bits of one of them flipped."""
    return data[:place] + bytes([data[place] ^ mask]) + data[place + 1:]


def restated(letter, start, end, number):
    """The letter with another number in the bytes from start to end."""
    return letter[:start] + number.to_bytes(end - start, "big") + letter[end:]


def true_letters():
    """Letters of small logs: the name, size, index, record, nodes, root and the letter."""
    for leaves, index in (*((leaves, index) for leaves in range(1, MOST + 1) for index in range(leaves)), *LARGER):
        (size, nodes), record = small_log(leaves), logged(index)
        yield f"record {index} of {leaves}", size, index, record, nodes, root(size, nodes).root, letter_of(size, index, record, nodes)


def writing_cases():
    """True letters; then each refusal of the writer, and two at once where they meet."""
    for name, size, index, record, nodes, _, letter in true_letters():
        yield write_case(name, size, index, record, nodes, len(letter))
    size, nodes = small_log(LEAVES)
    record, wanted, longer = logged(INDEX), len(letter_of(size, INDEX, logged(INDEX), nodes)), counted(8, LONGEST_RECORD + 1)
    true = {"size": size, "index": INDEX, "record": record, "nodes": nodes, "room": wanted}
    for name, change in (
        ("nine bytes of room too many", {"room": wanted + 9}), ("one byte of room too few", {"room": wanted - 1}), ("no room", {"room": 0}),
        ("size 2", {"size": 2}), ("size 0", {"size": 0}), ("the size of 2^32 leaves", {"size": nodes_of(MOST_LEAVES)}),
        ("one more than the size of 2^32 leaves", {"size": nodes_of(MOST_LEAVES) + 1}), ("index 7", {"index": 7}),
        ("index 2^64 - 1", {"index": 2**64 - 1}), ("a record of 16385 bytes", {"record": longer}), ("another record", {"record": b"other"}),
        ("one byte of nodes too few", {"nodes": nodes[:-1]}), ("bytes beyond the size", {"nodes": nodes + b"\x3c" * 33}),
        ("a damaged leaf", {"nodes": flipped(nodes, NODE * 3)}),
        ("a damaged sibling, which a writer takes as it stands", {"nodes": flipped(nodes, NODE * 4)}),
        ("another record, and no room", {"record": b"other", "room": 0}), ("too long a record, and index 7", {"record": longer, "index": 7}),
    ):
        yield write_case(f"record {INDEX} of {LEAVES}, {name}", **{**true, **change})
    longest = counted(8, LONGEST_RECORD)
    size, nodes = log_of([b"", longest])
    yield write_case("a record of 16384 bytes", size, 1, longest, nodes, LETTER_HEAD + LONGEST_RECORD + NODE)


def damages(letter):
    """Ways to damage a letter: a name, and the letter."""
    end = LETTER_HEAD + len(record_in(letter))
    yield from ((f"cut to {length} bytes", letter[:length]) for length in (0, 19, 20, end, len(letter) - NODE))
    yield "one byte short", letter[:-1]
    yield "one byte long", letter + b"\0"
    yield "an item more", letter + bytes(NODE)
    for size in (0, 1, 10, 15, 2**64 - 1):
        yield f"naming size {size}", restated(letter, 0, 8, size)
    for index in (0, 3, 6, 7, 2**32, 2**64 - 1):
        yield f"naming index {index}", restated(letter, 8, 16, index)
    for stated in (0, 63, 65, 96, 16384, 16385, 2**32 - 1):
        yield f"stating {stated} bytes", restated(letter, 16, 20, stated)
    for place in (LETTER_HEAD, end - 1, *range(end, len(letter), NODE), len(letter) - 1):
        yield f"a bit of byte {place} flipped", flipped(letter, place)
    items = items_in(letter)
    yield "its first two items changed about", letter[:end] + b"".join([items[1], items[0], *items[2:]])
    yield "its record's last 32 bytes taken for an item, and its last item cut off", restated(letter, 16, 20, end - LETTER_HEAD - NODE)[:-NODE]
    yield "stating 16385 bytes, cut to 20", restated(letter, 16, 20, 16385)[:20]
    yield "naming size 10 and index 7", restated(restated(letter, 0, 8, 10), 8, 16, 7)
    yield "naming index 7, stating 16385 bytes", restated(restated(letter, 8, 16, 7), 16, 20, 16385)


def damaged_cases():
    """One letter with each damage; and true, beside another size or root."""
    size, nodes = small_log(LEAVES)
    top, letter = root(size, nodes).root, letter_of(size, INDEX, logged(INDEX), nodes)
    for name, shown in damages(letter):
        yield check_case(f"record {INDEX} of {LEAVES}, {name}", size, top, shown)
    for trusted in (0, 2, 5, 6, 9, 10, nodes_of(MOST_LEAVES), nodes_of(MOST_LEAVES) + 1):
        yield check_case(f"record {INDEX} of {LEAVES}, trusted size {trusted}", trusted, top, letter)
    for name, other in (("a root of 31 bytes", top[:-1]), ("a root of 33 bytes", top + b"\0"), ("a root of no bytes", b""),
                        ("another root", digest(top))):
        yield check_case(f"record {INDEX} of {LEAVES}, {name}", size, other, letter)
    yield check_case("trusted size 2, and a root of 31 bytes", 2, top[:-1], letter)
    yield check_case("a root of 31 bytes, and no letter", size, top[:-1], b"")


def large_cases():
    """Letters of logs that nobody has built, of up to 2^32 leaves, whose items decide on the root; records at the limit."""
    size, top, letter = longest_letter()
    for name, shown in (("", letter), (", one byte short", letter[:-1]), (", one byte long", letter + b"\0"),
                        (", another byte", flipped(letter, 5000)), (", stating 16385 bytes", restated(letter, 16, 20, 16385)),
                        (", index 2^32", restated(letter, 8, 16, MOST_LEAVES))):
        yield check_case(f"the longest letter{name}", size, top, shown)
    for leaves, index in ((MOST_LEAVES, 0), (MOST_LEAVES, MOST_LEAVES - 1), (MOST_LEAVES - 1, 0), (MOST_LEAVES - 1, MOST_LEAVES - 2),
                          (2**31 + 1, 2**31)):
        items = [digest(bytes([number])) for number in range(len(items_of(leaves, index)))]
        shown = letter_bytes(nodes_of(leaves), index, b"far", items)
        yield check_case(f"record {index} of {leaves}", nodes_of(leaves), worked_root(leaves, shown, digest), shown)
    for length in (LONGEST_RECORD, LONGEST_RECORD + 1):
        record = counted(8, length)
        yield check_case(f"a record of {length} bytes, with its own root", 1, digest(record), letter_bytes(1, 0, record, []))


def forged_cases():
    """Letters that pass only where the size is taken from them: against the true size, with the true size in them, and against their own."""
    for name, leaves, named, index, record, places in (
        ("the last of three as the second of two", 3, 3, 1, logged(2), (2,)),
        ("two leaf digests as the record of one", 2, 1, 0, small_log(2)[1][:2 * NODE], ()),
    ):
        size, nodes = small_log(leaves)
        top, items = root(size, nodes).root, [node(nodes, place) for place in places]
        forged, other = letter_bytes(named, index, record, items), letter_bytes(size, index, record, items)
        yield check_case(f"{name}, against the true size", size, top, forged)
        yield check_case(f"{name}, naming the true size", size, top, other)
        yield check_case(f"{name}, against its own size: what a panel loses that takes the size from the letter", named, top, forged)


def checking_cases():
    """True letters, the whole letter of one empty record, damaged ones, large ones, forgeries."""
    for name, size, _, _, _, top, letter in true_letters():
        yield check_case(name, size, top, letter)
    yield check_case("the whole letter of one empty record", 1, digest(b""), WHOLE_LETTER)
    yield from damaged_cases()
    yield from large_cases()
    yield from forged_cases()
