"""The vectors of passage letters: written; checked and handed out, true, damaged and forged; beside the log that they are of."""
import itertools

from grown import log_of
from once import Once
from portable.form import case, counted, logged
from portable.letters import check_case as check_letter_case
from portable.letters import flipped, restated
from portable.logs import small_log
from rules.blake3 import PLAIN, digest
from rules.finder import PAIR
from rules.letters import letter_of
from rules.log import LONGEST_RECORD, NODE, root
from rules.passage_finder import find_passage
from rules.passages import (ENTRY_HEAD, MOST_RECORDS, PASSAGE_HEAD, by_letter, check_passage, closed, digests_in, entries_in, passage_bytes,
                            passage_entries, passage_entry, passage_length, passage_of, positions_of, write_passage)
from rules.shape import MOST_LEAVES, leaf_count, nodes_of

# Every request to logs of up to so many records, and some to larger ones: the leaf count, and the indexes.
MOST = 4
LARGER = ((7, (0,)), (7, (2,)), (7, (4,)), (7, (6,)), (7, (0, 6)), (7, (2, 3)), (7, (4, 5, 6)), (7, tuple(range(7))), (11, (0, 9)), (11, (8, 9, 10)),
          (15, (0,)), (15, (6, 8)), (16, (5,)), (16, (0, 15)))
# The passage that is damaged: its log's leaf count, and its indexes. And indexes whose walk leaves nodes beside it.
LEAVES, INDEXES = 7, (0, 2, 5)
BESIDE = (2, 3)
FULL, ONCE = nodes_of(MOST_LEAVES), Once(*PLAIN)


# ---- cases


def write_case(name, size, indexes, joined, lengths, nodes, room, mode=PLAIN):
    """A passage written into so many bytes. With it the positions of its digests; more than one position is a fold."""
    out = bytearray(room)
    number, length = write_passage(size, indexes, joined, lengths, nodes, out, mode)
    places = closed(leaf_count(size)[1], indexes) if number == 0 else []
    given = {"size": size, "indexes": list(indexes), "joined": joined, "lengths": list(lengths), "nodes": nodes, "room": room}
    return case("passage_write", name, given, number, mode, letter=out[:length], digests=[list(positions_of(place)) for place in places])


def check_case(name, size, top, letter, mode=PLAIN):
    """A passage checked against a trusted size and root."""
    number, count = check_passage(size, top, letter, mode)
    return case("passage_check", name, {"size": size, "root": top, "letter": letter}, number, mode, count=count)


def entry_case(name, size, top, letter, place, mode=PLAIN):
    """A record of a passage."""
    entry = passage_entry(size, top, letter, place, mode)
    values = {"index": entry.index, "record_at": entry.start, "record": letter[entry.start:entry.start + entry.length]}
    return case("passage_entry", name, {"size": size, "root": top, "letter": letter, "place": place}, entry.number, mode, **values)


def entries_case(name, size, top, letter, rooms=(MOST_RECORDS,) * 3, mode=PLAIN):
    """All records of a passage, into lists of so many places."""
    lists = [[0] * room for room in rooms]
    number, count = passage_entries(size, top, letter, *lists, mode)
    given = dict(zip(("indexes_room", "starts_room", "lengths_room"), rooms))
    values = dict(zip(("indexes", "starts", "lengths"), (places[:count] for places in lists)))
    return case("passage_entries", name, {"size": size, "root": top, "letter": letter, **given}, number, mode, **values)


def find_case(name, size, nodes, joined, lengths, letter, rooms=(PAIR, PAIR), mode=PLAIN):
    """A passage compared with a log. rooms: the lengths of the two buffers."""
    answer = find_passage(size, joined, lengths, nodes, letter, bytearray(rooms[0]), bytearray(rooms[1]), mode)
    given = {"size": size, "nodes": nodes, "joined": joined, "lengths": list(lengths), "letter": letter, "first_room": rooms[0],
             "second_room": rooms[1]}
    return case("passage_find", name, given, answer.number, mode, found=answer.outcome, index=answer.index)


# ---- what they are given


def passage_in(leaves, indexes, mode=PLAIN):
    """A log of the first so many records, and a passage of it: size, nodes, root, joined records, their lengths, the letter."""
    (size, nodes), records = small_log(leaves, mode), [logged(index) for index in indexes]
    letter = passage_of(size, indexes, records, nodes, mode)
    return size, nodes, root(size, nodes, mode).root, b"".join(records), [len(record) for record in records], letter


def requests():
    """The requests whose passages are true: a name, the leaf count, the indexes."""
    small = ((leaves, indexes) for leaves in range(1, MOST + 1) for count in range(1, leaves + 1)
             for indexes in itertools.combinations(range(leaves), count))
    for leaves, indexes in (*small, *LARGER, (LEAVES, INDEXES)):
        yield f"{said(indexes)} of {leaves}", leaves, indexes


def said(indexes):
    """Indexes in words."""
    return f"record{'s' * (len(indexes) > 1)} {', '.join(map(str, indexes))}"


# ---- written


def written_cases():
    """True passages, one of forty records, one of the longest; then each refusal."""
    for name, leaves, indexes in requests():
        size, nodes, _, joined, lengths, letter = passage_in(leaves, indexes)
        yield write_case(name, size, indexes, joined, lengths, nodes, len(letter))
    records = [counted(number, 1) for number in range(64)]
    (size, nodes), forty = log_of(records), range(13, 53)
    wanted = passage_length(64, list(forty), [1] * 40)
    yield write_case("forty neighbours of 64", size, forty, b"".join(records[13:53]), [1] * 40, nodes, wanted)
    longest = counted(8, LONGEST_RECORD)
    size, nodes = log_of([b"", longest, b"\1"])
    yield write_case("a record of 16384 bytes and an empty one", size, (0, 1), longest, (0, LONGEST_RECORD), nodes, 34 + LONGEST_RECORD + NODE)
    size, nodes, _, joined, lengths, letter = passage_in(LEAVES, INDEXES)
    true = {"size": size, "indexes": INDEXES, "joined": joined, "lengths": lengths, "nodes": nodes, "room": len(letter)}
    for name, change in writing_changes(true):
        yield write_case(f"{said(INDEXES)} of {LEAVES}, {name}", **{**true, **change})


def writing_changes(true):
    """What is changed in a call that is done: a name, and the change."""
    nodes, room, joined, lengths = true["nodes"], true["room"], true["joined"], true["lengths"]
    for name, other in (("nine bytes of room too many", room + 9), ("one byte of room too few", room - 1), ("no room", 0)):
        yield name, {"room": other}
    for size in (0, 2, 5, FULL, FULL + 1, 2**64 - 1):
        yield f"size {size}", {"size": size}
    yield from list_changes()
    for name, other in (("one length too few", lengths[:-1]), ("one length too many", [*lengths, 0]), ("no lengths", []),
                        ("the first length one less", [lengths[0] - 1, *lengths[1:]]), ("the last length one more", [*lengths[:-1], lengths[-1] + 1]),
                        ("two lengths changed about", [lengths[1], lengths[0], lengths[2]]),
                        ("lengths that add up modulo 2^32", [2**31, 2**31, len(joined)]), ("4294967295 for the last", [*lengths[:-1], 2**32 - 1])):
        yield name, {"lengths": other}
    yield "a joined byte more", {"joined": joined + b"\0"}
    for place in range(3):
        records = [logged(index) for index in INDEXES]
        for name, other in (("of 16385 bytes", counted(8, LONGEST_RECORD + 1)), ("of 16384", counted(8, LONGEST_RECORD)), ("another", b"other")):
            records[place] = other
            yield f"record {place} of them {name}", {"joined": b"".join(records), "lengths": [len(record) for record in records]}
    yield "one byte of nodes too few", {"nodes": nodes[:-1]}
    yield "bytes beyond the size", {"nodes": nodes + b"\x3c" * 33}
    for position in (0, 3, 8):
        yield f"the leaf at {position} damaged, which is asked for", {"nodes": flipped(nodes, NODE * position)}
    for position in (1, 2, 6, 7):
        yield f"the node at {position} damaged, which a writer takes as it stands", {"nodes": flipped(nodes, NODE * position)}


def list_changes():
    """Lists of indexes that are none, and some that are, with an empty record for each: a name, and the change."""
    several = ((), (1, 1), (2, 1), (1, 2, 2), (1, 2, 1), (0, 0, 0), (5, 2, 1), (2**64 - 1, 0), (7,), (1, 2, 7), (1, 7, 2**32), (2**32,), (2**64 - 1,),
               (2**64 - 2, 2**64 - 1))
    for indexes in several:
        yield f"indexes {', '.join(map(str, indexes)) or 'none'}", {"indexes": indexes, "joined": b"", "lengths": [0] * len(indexes)}
    for count in (MOST_RECORDS, MOST_RECORDS + 1, 300):
        yield f"{count} indexes, from 0 up", {"indexes": range(count), "joined": b"", "lengths": [0] * count}
        yield (f"{count} indexes of 2^32 leaves, and one byte of nodes",
               {"size": FULL, "indexes": range(count), "joined": b"", "lengths": [0] * count, "nodes": b"\0"})


# ---- checked


def heads(letter):
    """For each record of a passage where its 12 bytes begin, where its bytes do, and where they end."""
    return [(entry.start - ENTRY_HEAD, entry.start, entry.start + entry.length) for entry in entries_in(letter)]


def cuts(letter):
    """The passage cut at each edge, and one byte before and behind it; bytes and digests behind it."""
    edges = {0, 8, PASSAGE_HEAD, *itertools.chain(*heads(letter)), *range(heads(letter)[-1][2], len(letter), NODE)}
    for length in sorted({edge + by for edge in edges for by in (-1, 0, 1) if 0 <= edge + by < len(letter)} | {len(letter) - 1}):
        yield f"cut to {length} bytes", letter[:length]
    yield "one byte long", letter + b"\0"
    yield "a digest more", letter + bytes(NODE)


def fields(letter):
    """Each field of the passage with other numbers in it."""
    for size in (0, 1, 10, 15, 2**64 - 1):
        yield f"naming size {size}", restated(letter, 0, 8, size)
    for count in (0, 1, 2, 4, MOST_RECORDS, MOST_RECORDS + 1, 2**15, 2**16 - 1):
        yield f"naming {count} records", restated(letter, 8, PASSAGE_HEAD, count)
    for place, (head, start, _) in enumerate(heads(letter)):
        for index in (0, 1, 2, 3, 4, 5, 6, 7, 2**32, 2**64 - 1):
            if index != INDEXES[place]:
                yield f"naming index {index} for record {place}", restated(letter, head, start - 4, index)
        for stated in (0, 1, 16384, 16385, 2**32 - 1):
            if stated != len(logged(INDEXES[place])):
                yield f"stating {stated} bytes for record {place}", restated(letter, start - 4, start, stated)


def damages(letter):
    """Ways to damage a passage: a name, and the letter."""
    yield from cuts(letter)
    yield from fields(letter)
    digests, (*_, behind) = len(digests_in(letter)), (end for _, _, end in heads(letter))
    places = itertools.chain(*((start, end - 1) for _, start, end in heads(letter)))
    for place in (*places, *range(behind, len(letter), NODE), len(letter) - 1):
        yield f"a bit of byte {place} flipped", flipped(letter, place)
    for one, other in itertools.combinations(range(digests), 2):
        shown = digests_in(letter)
        shown[one], shown[other] = shown[other], shown[one]
        yield f"digests {one} and {other} changed about", letter[:-NODE * digests] + b"".join(shown)
    yield "its digests backwards", letter[:-NODE * digests] + b"".join(digests_in(letter)[::-1])


def checked_cases():
    """True passages with all their records; one damaged in each way; handed out; large ones; forgeries; the other kind of letter."""
    for name, leaves, indexes in requests():
        size, _, top, _, _, letter = passage_in(leaves, indexes)
        yield check_case(f"{name}, checked", size, top, letter)
        yield entries_case(f"{name}, handed out", size, top, letter)
    size, _, top, _, _, letter = passage_in(LEAVES, INDEXES)
    for name, shown in damages(letter):
        yield check_case(f"{said(INDEXES)} of {LEAVES}, {name}", size, top, shown)
    for trusted in (0, 2, 5, 6, 9, 10, FULL, FULL + 1):
        yield check_case(f"{said(INDEXES)} of {LEAVES}, trusted size {trusted}", trusted, top, letter)
    for name, other in (("a root of 31 bytes", top[:-1]), ("a root of 33 bytes", top + b"\0"), ("a root of no bytes", b""),
                        ("another root", digest(top))):
        yield check_case(f"{said(INDEXES)} of {LEAVES}, {name}", size, other, letter)
    yield from handed_cases(size, top, letter)
    yield from large_cases()
    yield from (check_case(*forgery) for forgery in forgeries())
    yield from other_kind_cases()


def handed_cases(size, top, letter):
    """Each record by itself, and past the last; lists that are too short, of no place, and longer; and of a letter that is refused."""
    name = f"{said(INDEXES)} of {LEAVES}"
    for place in (0, 1, 2, 3, 4, 255, 256, 2**16, 2**32, 2**32 + 1, 2**64 - 1):
        yield entry_case(f"{name}, record {place} of them", size, top, letter, place)
    for place in (0, 3):
        yield entry_case(f"{name}, its last byte changed, record {place} of them", size, top, flipped(letter, len(letter) - 1), place)
        yield entry_case(f"{name}, cut to 9 bytes, record {place} of them", size, top, letter[:9], place)
    for rooms in ((3, 3, 3), (2, 3, 3), (3, 2, 3), (3, 3, 2), (0, 0, 0), (0, 3, 3), (4, 300, 3)):
        yield entries_case(f"{name}, into {rooms[0]}, {rooms[1]} and {rooms[2]} places", size, top, letter, rooms)
    yield entries_case(f"{name}, its last byte changed, into no places", size, top, flipped(letter, len(letter) - 1), (0, 0, 0))
    yield entries_case(f"{name}, one byte short, into no places", size, top, letter[:-1], (0, 0, 0))


def far_passage(leaves, indexes, records, mode=PLAIN):
    """A passage of a log that nobody has built: its digests, which count on, decide on its root. Size, root, letter."""
    digests = [counted(7, NODE * len(closed(leaves, indexes)))]
    letter = passage_bytes(nodes_of(leaves), indexes, records, digests)
    return nodes_of(leaves), by_letter(leaves, letter, mode)[0], letter


def far_requests():
    """Requests to logs of up to 2^32 leaves: a name, the leaf count, the indexes."""
    last = MOST_LEAVES - 1
    yield "the first and the last of 2^32", MOST_LEAVES, (0, last)
    yield "the last two of 2^32", MOST_LEAVES, (last - 1, last)
    yield "two beside the middle of 2^32", MOST_LEAVES, (2**31 - 1, 2**31)
    yield "the first and the last of 2^32 - 1", MOST_LEAVES - 1, (0, last - 1)
    yield "three of 2^31 + 1", 2**31 + 1, (0, 2**31 - 1, 2**31)
    yield "256 from 0 up, of 2^20", 2**20, range(256)
    yield "255 from 1 up, of 2^20 + 300", 2**20 + 300, range(1, 256)
    yield "256 at the end of 2^20 + 300", 2**20 + 300, range(2**20 + 44, 2**20 + 300)
    yield "256 as far apart as can be in 2^32, with 6144 digests", MOST_LEAVES, [place << 24 for place in range(256)]


def large_cases():
    """Passages of logs that nobody has built; records at the limit."""
    for name, leaves, indexes in far_requests():
        size, top, letter = far_passage(leaves, indexes, [b""] * len(indexes), ONCE)
        yield check_case(name, size, top, letter, ONCE)
        if len(letter) < 10000:
            yield check_case(f"{name}, one byte short", size, top, letter[:-1])
            yield check_case(f"{name}, one byte long", size, top, letter + b"\0")
            yield entries_case(f"{name}, handed out", size, top, letter)
    for length in (LONGEST_RECORD, LONGEST_RECORD + 1):
        for place in range(3):
            records = [counted(8, length) if place == other else b"" for other in range(3)]
            size, top, letter = far_passage(5, (0, 2, 4), records)
            yield check_case(f"record {place} of three of {length} bytes, with their own root", size, top, letter)


def forgeries():
    """Passages that pass where a test is left out: no record at all, with the root for its one digest; an index twice; a list that falls; the size
    taken from the letter. A name, the trusted size, the root, the letter."""
    (size, nodes), top = small_log(3), root(*small_log(3)).root
    true = passage_of(size, (1,), [logged(1)], nodes)
    yield "no record, and the root", size, top, passage_bytes(size, (), (), [top])
    yield "no record, and no digest", size, top, passage_bytes(size, (), (), ())
    for name, *records in (("", logged(1), logged(1)), (", the second another", logged(1), b"foul"), (", the first another", b"foul", logged(1))):
        yield f"record 1 twice{name}", size, top, passage_bytes(size, (1, 1), records, digests_in(true))
    yield "two records in falling order", size, top, passage_bytes(size, (2, 1), (logged(2), logged(1)), [nodes[:NODE]])
    forged = passage_bytes(3, (1,), [logged(2)], [nodes[2 * NODE:3 * NODE]])
    yield "the last of three as the second of two, against the true size", size, top, forged
    yield "the last of three as the second of two, against its own size", 3, top, forged
    two, alone = root(*small_log(2)).root, passage_bytes(1, (0,), [small_log(2)[1][:2 * NODE]], [])
    yield "two leaf digests as the record of one, against the true size", 3, two, alone
    yield "two leaf digests as the record of one, against its own size", 1, two, alone


def other_kind_cases():
    """Letters of one record by the checker of passages, and passages by that of letters."""
    for leaves, index in ((1, 0), (2, 1), (7, 2), (7, 6)):
        (size, nodes), top = small_log(leaves), root(*small_log(leaves)).root
        letter, passage = letter_of(size, index, logged(index), nodes), passage_of(size, (index,), [logged(index)], nodes)
        yield check_case(f"the letter of record {index} of {leaves}, as a passage", size, top, letter)
        yield check_letter_case(f"the passage of record {index} of {leaves}, as a letter", size, top, passage)
    size, _, top, _, _, letter = passage_in(LEAVES, INDEXES)
    yield check_letter_case(f"the passage of {said(INDEXES)} of {LEAVES}, as a letter", size, top, letter)


# ---- found


def found_cases():
    """Passages that are the log's own; one with each node damaged, some of which stand beside the walk; then one with each change."""
    for name, leaves, indexes in requests():
        if leaves == MOST or leaves == LEAVES:
            size, nodes, _, joined, lengths, letter = passage_in(leaves, indexes)
            yield find_case(name, size, nodes, joined, lengths, letter)
    size, nodes, _, joined, lengths, letter = passage_in(LEAVES, BESIDE)
    for position in range(size):
        yield find_case(f"{said(BESIDE)} of {LEAVES}, the node at {position} damaged", size, flipped(nodes, NODE * position), joined, lengths, letter)
    size, nodes, _, joined, lengths, letter = passage_in(LEAVES, INDEXES)
    true = {"size": size, "nodes": nodes, "joined": joined, "lengths": lengths, "letter": letter}
    for name, change in finding_changes(true):
        yield find_case(f"{said(INDEXES)} of {LEAVES}, {name}", **{**true, **change})


def finding_changes(true):
    """What is changed in a call that is done: a name, and the change."""
    nodes, joined, lengths, letter = (true[name] for name in ("nodes", "joined", "lengths", "letter"))
    for size in (2, 0, 10, FULL, FULL + 1):
        yield f"size {size}", {"size": size}
    yield "one byte of nodes too few", {"nodes": nodes[:-1]}
    yield "bytes beyond the size", {"nodes": nodes + b"\x3c" * 33}
    for position in range(11):
        yield f"the node at {position} damaged", {"nodes": flipped(nodes, NODE * position)}
    for name, other in (("one length too few", lengths[:-1]), ("one length too many", [*lengths, 0]), ("no lengths", []),
                        ("the last length one more", [*lengths[:-1], lengths[-1] + 1]),
                        ("lengths that add up modulo 2^32", [2**31, 2**31, len(joined)])):
        yield name, {"lengths": other}
    yield "a joined byte more", {"joined": joined + b"\0"}
    for place in range(3):
        records = [logged(index) for index in INDEXES]
        for name, other in (("of 16385 bytes", counted(8, LONGEST_RECORD + 1)), ("another", b"other")):
            records[place] = other
            yield f"record {place} of them {name}", {"joined": b"".join(records), "lengths": [len(record) for record in records]}
    for place, (head, start, _) in enumerate(heads(letter)):
        yield f"a letter naming index 7 for record {place}", {"letter": restated(letter, head, start - 4, 7)}
        yield f"a letter stating 16385 bytes for record {place}", {"letter": restated(letter, start - 4, start, 16385)}
    for name, shown in (("cut to 9 bytes", letter[:9]), ("one byte short", letter[:-1]), ("one byte long", letter + b"\0"),
                        ("naming size 10", restated(letter, 0, 8, 10)), ("naming no record", restated(letter, 8, PASSAGE_HEAD, 0)),
                        ("naming 257 records", restated(letter, 8, PASSAGE_HEAD, 257)), ("its last byte changed", flipped(letter, len(letter) - 1))):
        yield f"a letter {name}", {"letter": shown}
    for rooms in ((PAIR - 1, PAIR), (PAIR, PAIR - 1), (0, 0), (PAIR + 1, PAIR + 9)):
        yield f"buffers of {rooms[0]} and {rooms[1]} bytes", {"rooms": rooms}
    yield "the node at 1 damaged, and no buffers", {"nodes": flipped(nodes, NODE), "rooms": (0, 0)}
