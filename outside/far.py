"""Passages of logs of up to 2^32 leaves, of whose nodes only those on the walk are sent, all others being zeros; and the longest passage letter,
4,393,994 bytes, of which only the parts are sent."""
import itertools

from bridge import Answer, differences, lines_of, refused
from calls import PLAIN, check_long_case, find_wide_case, flipped, u32, u64, u64s, write_wide_case
from full import NO_MEMORY
from inputs.world import LEAGUES, digest_in
from rules import passages
from rules.log import LONGEST_RECORD, NODE
from rules.passage_finder import find_passage, within_peak
from rules.passages import Place, by_letter, closed, digest_at, passage_bytes, passage_length, positions_of, sides, write_passage
from rules.shape import MOST_LEAVES, nodes_of
from wide import Wide

LAST = MOST_LEAVES - 1
SPREAD = [place << 24 for place in range(passages.MOST_RECORDS)]
# Requests: the leaf count, and the indexes.
REQUESTS = ((MOST_LEAVES, (LAST,)), (MOST_LEAVES, (0, 2**31 - 1, 2**31, LAST - 1, LAST)), (MOST_LEAVES, range(LAST - 38, LAST + 1)),
            (LAST, (0, 2**31, LAST - 1)), (2**31 + 5, (2**31 - 1, 2**31, 2**31 + 4)))
LONGEST = 10 + 256 * (12 + LONGEST_RECORD) + NODE * 6144


def record_at(index):
    """The record at an index of these logs."""
    return index.to_bytes(8, "big")[8 - index % 9:]


def held_nodes(leaves, indexes, digest):
    """Nodes of a log whose closed places are zeros, by position: the asked leaves, and those that are looked into."""
    zeros, held = Wide(NODE * nodes_of(leaves)), {}

    def made(place):
        if not place.asked:
            return digest_at(place, zeros, digest)
        value = digest(record_at(place.first)) if place.count == 1 else digest(b"".join(made(side) for side in sides(place)))
        if within_peak(place):
            held[positions_of(place)[0]] = value
        return value
    made(Place(0, leaves, tuple(indexes)))
    return held


def damaged_nodes(held):
    """The nodes, and with the first, a middle and the last of them changed; the last stands highest."""
    yield held
    for position in sorted(held)[::max(len(held) // 2, 1)]:
        yield {**held, position: flipped(held[position], 7)}
    yield {**held, max(held): flipped(held[max(held)], 31)}


def wide_cases():
    """Each request written and compared, with all nodes true and with some damaged, and with one byte of nodes too few."""
    spread = (PLAIN, (MOST_LEAVES, SPREAD))
    for mode, (leaves, indexes) in (*itertools.product((PLAIN, LEAGUES[0]), REQUESTS), spread):
        digest, size, records = digest_in(mode), nodes_of(leaves), list(map(record_at, indexes))
        held, out = held_nodes(leaves, indexes, digest), bytearray(passage_length(leaves, indexes, list(map(len, records))))
        write_passage(size, indexes, b"".join(records), list(map(len, records)), Wide(NODE * size, held), out, digest)
        for nodes in damaged_nodes(held) if indexes is not SPREAD else (held,):
            yield write_wide_case(size, NODE * size, indexes, records, nodes, len(out), mode)
            yield find_wide_case(size, NODE * size, records, nodes, bytes(out), mode)
        yield write_wide_case(size, NODE * size - NODE, indexes, records, {}, len(out), mode)


def long_cases():
    """The longest letter: true, one byte short, with another root, and with an index changed."""
    record, size = bytes(place % 251 for place in range(LONGEST_RECORD)), nodes_of(MOST_LEAVES)
    digests = [bytes((3 * place + by) % 256 for by in range(NODE)) for place in range(len(closed(MOST_LEAVES, SPREAD)))]
    top = by_letter(MOST_LEAVES, passage_bytes(size, SPREAD, [record] * len(SPREAD), digests), digest_in(PLAIN))[0]
    for short, root in ((0, top), (1, top), (0, flipped(top, 31))):
        yield check_long_case(size, root, SPREAD, record, b"".join(digests), short, PLAIN)
    yield check_long_case(size, top, [*SPREAD[:-1], SPREAD[-2]], record, b"".join(digests), 0, PLAIN)


def say_write(case):
    (size, length), (mode, indexes, joined, lengths, positions, nodes, out, _) = case.numbers, case.parts
    buffer = bytearray(out)
    answer = write_passage(size, indexes_in(indexes), joined, lengths_in(lengths), wide_of(length, positions, nodes), buffer, digest_in(mode))
    return answer.number, [*case.parts[:6], bytes(buffer), u64(answer.length)]


def say_find(case):
    (size, length), (mode, joined, lengths, positions, nodes, letter, ours, theirs, _, _) = case.numbers, case.parts
    buffers = bytearray(ours), bytearray(theirs)
    answer = find_passage(size, joined, lengths_in(lengths), wide_of(length, positions, nodes), letter, *buffers, digest_in(mode))
    return answer.number, [*case.parts[:6], *map(bytes, buffers), u32({None: 0, "same": 1}[answer.outcome]), u64(answer.index)]


def say_long(case):
    (size, short), (mode, top, indexes, record, digests, *lists, _) = case.numbers, case.parts
    letter = passage_bytes(size, indexes_in(indexes), [record] * (len(indexes) // 8), [digests])
    places = [list(indexes_in(part)) for part in lists]
    answer = passages.passage_entries(size, top, letter[:len(letter) - short], *places, digest_in(mode))
    return answer.number, [*case.parts[:5], *map(u64s, places), u64(answer.count)]


def indexes_in(data):
    """Numbers of 64 bits."""
    return [int.from_bytes(data[at:at + 8], "little") for at in range(0, len(data), 8)]


def lengths_in(data):
    """Numbers of 32 bits."""
    return [int.from_bytes(data[at:at + 4], "little") for at in range(0, len(data), 4)]


def wide_of(length, positions, nodes):
    """The nodes at these positions, in a buffer of that length."""
    return Wide(length, zip(indexes_in(positions), (nodes[at:at + NODE] for at in range(0, len(nodes), NODE))))


SAY = {"write_wide": say_write, "find_wide": say_find, "check_long": say_long}


def said(case):
    """The answer of the second program."""
    number, parts = SAY[case.call](case)
    return Answer(0, parts, False) if number == 0 else refused(number, case)


def far_agrees(bridge):
    """Whether the library answers all of them as the second program does. Where no memory is that long only the longest letter is tried."""
    met, tried = {call: set() for call in SAY}, 0
    for at, case in enumerate(itertools.chain(wide_cases(), long_cases())):
        ours, theirs = bridge.ask(at, case), said(case)
        if ours and ours.number == NO_MEMORY and case.call != "check_long":
            met[case.call] |= {"no memory"}
            continue
        lines = differences(case, ours, theirs)
        if lines:
            print("\n  ".join(["outside: of a passage of 2^32 leaves, or of the longest, the answers differ", *lines, *lines_of(case, False)]))
            return False
        met[case.call].add(theirs.number)
        tried += 1
    if {"no memory"} in met.values():
        print("outside: no passage is written over the nodes of 2^32 leaves: this machine maps no 2^38 bytes")
        return met["check_long"] == {0, 7, 9, 19}
    print(f"outside: {tried} passages of up to 2^32 leaves, one of them of {LONGEST:,} bytes, have the same answers")
    return met == {"write_wide": {0, 4, 13}, "find_wide": {0, 9, 13, 14}, "check_long": {0, 7, 9, 19}}
