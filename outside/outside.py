#!/usr/bin/env python3
"""The calls for C from outside: the library and the second program answer the same thousands of true, random and damaged inputs.

A C program, outside/bridge.c, makes each call on buffers that lie against forbidden pages and hands back the number and every byte that it lent,
result variables too. What the second program says is compared with all of it. Each refusal alone, and every two at once, stand in vectors/, which
outside/vectors.py holds the library to; here is what such files cannot hold, and no case that they have. A finder's "records" and "pair" are two
strings of one digest: nobody has such strings, so of its answers only "same" and the refusals are met here. What works out a digest is tried plain
and keyed, and has a row for each at the end. Before that the layout of what C and the library share is compared, by layout.py, batches at the end
of a log of 2^32 leaves are tried, by full.py, and passages of such logs and the longest one, by far.py.

    outside.py                        build the bridge and compare
    outside.py --seed N --rounds N    other random inputs, or more of them
    outside.py --only CASE            one case of that seed once more, with all its bytes
    outside.py --self-test            only try that a wrong answer is noticed (each run begins with this)
    outside.py --wrong CASE           let the second program answer that case wrongly: the run has to fail there

Exit status: 0 where all agree; 1 at the first difference, which is printed; 2 where nothing could be run.
"""
import argparse
import struct
import sys
from collections import Counter, namedtuple
from pathlib import Path

sys.path.insert(0, str(Path(__file__).resolve().parent.parent / "second"))

from bridge import Answer, Bridge, build, differences, lines_of, made_wrong, refused, wrong_answers  # noqa: E402
from calls import MODED, NO_CALLS, NUMBER_AT, PLAIN, Case, is_keyed, mode_bytes, u32, u64, u64s  # noqa: E402
from far import far_agrees  # noqa: E402
from full import full_agrees  # noqa: E402
from inputs import cases  # noqa: E402
from inputs.world import digest_in, mode_in, packed, unpacked  # noqa: E402
from layout import layout_agrees  # noqa: E402
from rules import batch, blake3, finder, letters, log, parts, passage_finder, passages, shape, stored  # noqa: E402
from rules.log import NODE  # noqa: E402

ROUNDS = 12000
# The words of a finder, as C has them.
WORDS = {None: 0, "same": 1, "records": 2, "pair": 3}


def words_in(data):
    """Numbers of 32 bits."""
    return struct.unpack(f"<{len(data) // 4}I", data)


def numbers_in(data):
    """Numbers of 64 bits."""
    return struct.unpack(f"<{len(data) // 8}Q", data)


# ---- what the second program says of a call: the number, and the parts where it is done; in place of a mode that is only read stands its digest


def say_mode_plain(numbers, mode):
    return 0, [PLAIN]


def say_mode_keyed(numbers, key, mode):
    number, made = blake3.keyed(key)
    return number, [key, mode_bytes(*made)] if made else None


def say_digest(numbers, digest, data, out):
    return (6, None) if len(out) < NODE else (0, [data, digest(data) + out[NODE:]])


def say_parts_begin(numbers, mode, state):
    return 0, [mode, packed(parts.begin(mode_in(mode)))]


def say_parts_add(numbers, part, state):
    number, after = parts.add(unpacked(state), part)
    return number, [part, packed(after)]


def say_parts_end(numbers, state, out):
    number, digest = parts.end(unpacked(state))
    return 6 if number == 0 and len(out) < NODE else number, [state, digest + out[NODE:]]


def say_parts_cut(numbers, mode, data, lengths, state, out):
    after, at = parts.begin(mode_in(mode)), 0
    for length in words_in(lengths):
        after = parts.add(after, data[at:at + length]).state
        at += length
    return 0, [mode, data, lengths, packed(after), parts.end(after).digest + out[NODE:]]


def say_size(numbers, size):
    number, value = shape.size_of(*numbers)
    return number, [u64(value)]


def say_leaf_position(numbers, position):
    number, value = shape.leaf_position(*numbers)
    return number, [u64(value)]


def say_leaf_count(numbers, leaves):
    number, value = shape.leaf_count(*numbers)
    return number, [u64(value)]


def say_append(numbers, digest, record, nodes, new_size, hashes):
    buffer = bytearray(nodes)
    answer = log.append(*numbers, record, buffer, digest)
    return answer.number, [record, bytes(buffer), u64(answer.size), u64(answer.hashes)]


def say_append_many(numbers, digest, joined, lengths, nodes, new_size, hashes):
    buffer = bytearray(nodes)
    answer = batch.append_many(*numbers, joined, words_in(lengths), buffer, digest)
    return answer.number, [joined, lengths, bytes(buffer), u64(answer.size), u64(answer.hashes)]


def say_root(numbers, digest, nodes, out):
    number, top = log.root(*numbers, nodes, digest)
    if number == 0 and len(out) < NODE:
        number = 6
    return number, [nodes, top + out[NODE:]]


def say_letter_write(numbers, digest, record, nodes, out, length):
    buffer = bytearray(out)
    answer = letters.write_letter(*numbers, record, nodes, buffer, digest)
    return answer.number, [record, nodes, bytes(buffer), u64(answer.length)]


def say_letter_check(numbers, digest, top, letter, index, record_at, record_len):
    answer = letters.check_letter(*numbers, top, letter, digest)
    return answer.number, [top, letter, u64(answer.index), u64(answer.start), u64(answer.length)]


def say_find(numbers, digest, nodes, record, letter, first, second, found):
    ours, theirs = bytearray(first), bytearray(second)
    answer = finder.find(*numbers, record, nodes, letter, ours, theirs, digest)
    return answer.number, [nodes, record, letter, bytes(ours), bytes(theirs), u32(WORDS[answer.outcome])]


def say_store_leaf(numbers, digest, record, out, length):
    buffer = bytearray(out)
    number, written = stored.write_stored_leaf(record, buffer, digest)
    return number, [record, bytes(buffer), u64(written)]


def say_store_inner(numbers, given, out, length):
    buffer = bytearray(out)
    number, written = (12, 0) if len(given) != NODE else stored.write_stored_inner(given, buffer)
    return number, [given, bytes(buffer), u64(written)]


def say_read_node(numbers, digest, data, kind, out, record_at, record_len):
    read = stored.read_stored(data, digest)
    number = 6 if read.number == 0 and len(out) < NODE else read.number
    leaf = read.kind == "leaf"
    return number, [data, u32(leaf), read.digest + out[NODE:], u64(37 if leaf else 0), u64(len(read.record))]


def say_passage_write(numbers, digest, indexes, joined, lengths, nodes, out, length):
    buffer = bytearray(out)
    answer = passages.write_passage(*numbers, numbers_in(indexes), joined, words_in(lengths), nodes, buffer, digest)
    return answer.number, [indexes, joined, lengths, nodes, bytes(buffer), u64(answer.length)]


def say_passage_check(numbers, digest, top, letter, count):
    answer = passages.check_passage(*numbers, top, letter, digest)
    return answer.number, [top, letter, u64(answer.count)]


def say_passage_entry(numbers, digest, top, letter, index, record_at, record_len):
    size, place = numbers
    answer = passages.passage_entry(size, top, letter, place, digest)
    return answer.number, [top, letter, *map(u64, answer[1:])]


def say_passage_entries(numbers, digest, top, letter, indexes, starts, lengths, count):
    lists = [list(numbers_in(places)) for places in (indexes, starts, lengths)]
    answer = passages.passage_entries(*numbers, top, letter, *lists, digest)
    return answer.number, [top, letter, *map(u64s, lists), u64(answer.count)]


def say_passage_find(numbers, digest, nodes, joined, lengths, letter, log_input, letter_input, found, index):
    ours, theirs = bytearray(log_input), bytearray(letter_input)
    answer = passage_finder.find_passage(*numbers, joined, words_in(lengths), nodes, letter, ours, theirs, digest)
    return answer.number, [nodes, joined, lengths, letter, bytes(ours), bytes(theirs), u32(WORDS[answer.outcome]), u64(answer.index)]


# A call: what the second program says of it, and the numbers of its order.
Call = namedtuple("Call", "say order")
CALLS = {
    "mode_plain": Call(say_mode_plain, (0,)),
    "mode_keyed": Call(say_mode_keyed, (0, 24)),
    "digest": Call(say_digest, (0, 6)),
    "parts_begin": Call(say_parts_begin, (0,)),
    "parts_add": Call(say_parts_add, (0, 17)),
    "parts_end": Call(say_parts_end, (0, 17, 6)),
    "parts_cut": Call(say_parts_cut, (0,)),
    "size": Call(say_size, (0, 2)),
    "leaf_position": Call(say_leaf_position, (0, 5)),
    "leaf_count": Call(say_leaf_count, (0, 1)),
    "append": Call(say_append, (0, 1, 2, 3, 4)),
    "append_many": Call(say_append_many, (0, 1, 16, 2, 3, 4)),
    "root": Call(say_root, (0, 1, 10, 4, 6)),
    "letter_write": Call(say_letter_write, (0, 1, 5, 3, 4, 13, 6)),
    "letter_check": Call(say_letter_check, (0, 1, 12, 7, 8, 5, 3, 9)),
    "find": Call(say_find, (0, 1, 10, 4, 7, 8, 5, 3, 9, 13, 14, 6)),
    "store_leaf": Call(say_store_leaf, (0, 3, 6)),
    "store_inner": Call(say_store_inner, (0, 12, 6)),
    "read_node": Call(say_read_node, (0, 11, 3, 18, 6)),
    "passage_write": Call(say_passage_write, (0, 1, 19, 16, 5, 3, 4, 13, 6)),
    "passage_check": Call(say_passage_check, (0, 1, 12, 7, 8, 19, 5, 3, 9)),
    "passage_entry": Call(say_passage_entry, (0, 1, 12, 7, 8, 19, 5, 3, 9)),
    "passage_entries": Call(say_passage_entries, (0, 1, 12, 7, 8, 19, 5, 3, 9, 6)),
    "passage_find": Call(say_passage_find, (0, 1, 10, 4, 7, 8, 19, 5, 3, 9, 16, 13, 14, 6)),
}


# The rows of the table: a call, and whether its mode is keyed.
ROWS = [(name, keyed) for name in CALLS for keyed in ((False, True) if name in NUMBER_AT else (False,))]


def said(case):
    """The answer of the second program. A refusal leaves every part as it was, and so does every call the mode that it reads."""
    mode, given = (case.parts[:1], case.parts[1:]) if case.call in MODED else ([], case.parts)
    number, parts = CALLS[case.call].say(case.numbers, *map(digest_in, mode), *given)
    return Answer(number, [*mode, *parts], False) if number == 0 else refused(number, case)


# ---- comparing


def reported(given, at, case, lines):
    """Whether the two answers differ; then the case is printed."""
    if lines:
        print(f"outside: keeper_{case.call}, case {at} of seed {given.seed}: the answers differ")
        print("\n".join([*(f"  {line}" for line in lines), "what was given:", *lines_of(case, given.only is not None)]))
        print(f"once more, with all bytes: outside/outside.py --seed {given.seed} --rounds {given.rounds} --only {at}")
    return bool(lines)


def self_test(bridge, given):
    """For each row one case of each number: every part of the second program's answer made wrong in turn, and each wrong answer noticed."""
    noticed, unseen = [], {row: set(CALLS[row[0]].order) for row in ROWS}
    for at, case in enumerate(cases(given.seed, given.rounds)):
        numbers = unseen[case.call, is_keyed(case)]
        right = said(case) if numbers else None
        if right and right.number in numbers:
            numbers.remove(right.number)
            ours = bridge.ask(at, case)
            if reported(given, at, case, differences(case, ours, right)):
                return False
            noticed += [bool(differences(case, ours, wrong)) for wrong in wrong_answers(right)]
        if not any(unseen.values()):
            break
    for at in range(2):
        case = Case("stray", (), [b"lent"])
        noticed.append(bool(differences(case, bridge.ask(at, case), Answer(0, [b"lent"], False))))
    print(f"outside: {noticed.count(True)} of {len(noticed)} wrong answers are noticed")
    return all(noticed)


def row_name(row):
    """The name of a row. A digest in parts from its begin to its end is three calls."""
    return ("parts, begin to end" if row[0] in NO_CALLS else f"keeper_{row[0]}") + (", keyed" if row[1] else "")


def table(counts):
    """How many answers of each row and number were compared."""
    for row in ROWS:
        each = {number: count for (of, number), count in counts.items() if of == row}
        yield f"{row_name(row):28}{sum(each.values()):6}   " + "  ".join(f"{number}: {each[number]}" for number in sorted(each))


def compare(bridge, given):
    """Every case of the seed, up to the first difference; then the table."""
    counts = Counter()
    for at, case in enumerate(cases(given.seed, given.rounds)):
        if given.only not in (None, at):
            continue
        theirs = said(case)
        if at == given.wrong:
            theirs = made_wrong(theirs, 0)
        if reported(given, at, case, differences(case, bridge.ask(at, case), theirs)):
            return False
        counts[(case.call, is_keyed(case)), theirs.number] += 1
        if given.only is not None:
            print("\n".join([f"keeper_{case.call}, case {at} of seed {given.seed}: both answer {theirs.number}", *lines_of(case, True)]))
    return finish(counts, given)


def finish(counts, given):
    """The table, and whether every number that an input can have was met."""
    if given.only is not None:
        return sum(counts.values()) == 1
    print("\n".join(table(counts)))
    unmet = [f"{row_name(row)} {number}" for row in ROWS for number in CALLS[row[0]].order if not counts[row, number]]
    print(f"outside: {sum(counts.values())} answers of seed {given.seed} are the same" + "".join(f"\n  never met: {line}" for line in unmet))
    return not unmet


def main():
    parser = argparse.ArgumentParser(description=__doc__, formatter_class=argparse.RawDescriptionHelpFormatter)
    parser.add_argument("--seed", type=int, default=1, help="the seed of the random cases")
    parser.add_argument("--rounds", type=int, default=ROUNDS, help="how many random cases")
    parser.add_argument("--only", type=int, help="this case alone, with all its bytes")
    parser.add_argument("--self-test", action="store_true", help="only try that wrong answers are noticed")
    parser.add_argument("--wrong", type=int, help="the second program answers this case wrongly")
    parser.add_argument("--bridge", help="a bridge that is built already")
    given = parser.parse_args()
    bridge = Bridge(given.bridge or build())
    good = given.only is not None or (layout_agrees(bridge) and self_test(bridge, given) and full_agrees(bridge) and far_agrees(bridge))
    if good and not given.self_test:
        good = compare(bridge, given)
    return bridge.close() == 0 and good


if __name__ == "__main__":
    sys.exit(0 if main() else 1)
