"""Wrong rules of passages (RULES 12), each with other functions in place of some: all are told from the right ones by some call."""
import bisect
import contextlib
import functools
import itertools
from unittest import mock

import passages as checks
from passage_tries import tried
from passages import toy_finds
from portable import passages as portable_passages
from rules import passage_finder, passages
from rules.batch import cut
from rules.finder import PAIR
from rules.log import LONGEST_RECORD, NODE, node, root
from rules.passage_finder import FoundIn, within_peak
from rules.passages import MOST_RECORDS, Counted, Entry, Place, count_in, entries_in, indexes_in
from rules.shape import leaf_count, nodes_of, peaks_of

# The right functions by their names, while others stand in their place.
right = {name: value for module in (passage_finder, passages) for name, value in vars(module).items() if callable(value)}


# ---- the walk, and the digests


def right_first(place):
    yield place
    if passages.looked_into(place):
        for side in reversed(passages.sides(place)):
            yield from right_first(side)


def each_leaf(leaves, indexes):
    return [Place(leaf, 1, ()) for leaf in range(leaves) if leaf not in indexes]


def each_peak(leaves, indexes):
    return [Place(place.first + peak.first, 1 << peak.height, ()) for place in right["closed"](leaves, indexes) for peak in peaks_of(place.count)]


def two_closed(leaves, indexes):
    return [place for place in passages.walk_of(leaves, indexes) if not place.asked or place.count == 2]


def two_taken(place, records, digests, digest):
    if not place.asked or place.count != 2:
        return right["rebuilt"](place, records, digests, digest)
    for _ in place.asked:
        next(records)
    return next(digests), []


def sides_by(split=None, parts=lambda left, right: (left, right), off=0):
    """A rule that splits the leaves in another way, or hands on other parts of the slice."""
    def sides(place):
        left = split(place.count) if split else right["sides"](place)[0].count
        middle = bisect.bisect_left(place.asked, place.first + left) + off
        one, other = parts(place.asked[:middle], place.asked[middle:])
        return Place(place.first, left, one), Place(place.first + left, place.count - left, other)
    return sides


def folded_forward(place, buffer, digest):
    nodes = [node(buffer, position) for position in passages.positions_of(place)]
    return functools.reduce(lambda so_far, one: digest(so_far + one), nodes)


# ---- writing


def flat(each):
    """The numbers of all records, one record after the other."""
    return list(itertools.chain(*each))


def sums_off(indexes, joined, lengths):
    """Whether 16 applies."""
    return len(lengths) != len(indexes) or sum(lengths) != len(joined)


def writing_by(order=lambda one, rise, off, each, *rest: (one, rise, off, flat(each), *rest), sums=sums_off, looked=slice(None)):
    """A rule with the writer's numbers in another order, in groups: 1, 19, 16, of each record 5 and 3, 4, 13, 6. Or with another test for 16, or some
    records alone looked at for 13."""
    def writing(size, indexes, joined, lengths, buffer, out, digest):
        number, leaves = leaf_count(size)
        each = [[5] * (index >= leaves) + [3] * (length > LONGEST_RECORD) for index, length in zip(indexes, lengths)]
        others = [13 for index, record in list(zip(indexes, cut(joined, lengths)))[looked] if node(buffer, nodes_of(index)) != digest(record)]
        room = number == 0 and len(out) < passages.passage_length(leaves, indexes, lengths)
        return itertools.chain(*order([1] * number, [19] * (not passages.rising(indexes)), [16] * sums(indexes, joined, lengths), each,
                                      [4] * (len(buffer) < NODE * size), others, [6] * room))
    return writing


def modulo(indexes, joined, lengths):
    return len(lengths) != len(indexes) or sum(lengths) % 2**32 != len(joined)


# ---- checking


def each_by(*order):
    """A rule that tests a letter's records in another order, or leaves tests out."""
    def each_checked(leaves, letter):
        last = -1
        for entry in entries_in(letter):
            tests = {"head": (7, len(letter) < entry.start), "rise": (19, entry.index <= last), "equal": (19, entry.index < last),
                     "leaf": (5, entry.index >= leaves), "long": (3, entry.length > LONGEST_RECORD),
                     "end": (7, len(letter) < entry.start + entry.length)}
            yield from (tests[name][0] for name in order if tests[name][1])
            last = entry.index
    return each_checked


def indexes_first(leaves, letter):
    yield from each_by("head", "rise", "leaf")(leaves, letter)
    yield from each_by("long", "end")(leaves, letter)


def exact(leaves, letter):
    """How long a letter has to be."""
    return passages.passage_length(leaves, indexes_in(letter), [entry.length for entry in entries_in(letter)])


def from_7_by(*order):
    """A rule that checks a letter in another order, or leaves tests out."""
    def from_7(size, leaves, top, letter, digest):
        tests = {
            "short": lambda: [7] * (len(letter) < 10), "size": lambda: [8] * (letter[:8] != size.to_bytes(8, "big")),
            "number": lambda: [19] * (not passages.as_many(count_in(letter))), "each": lambda: passages.each_checked(leaves, letter),
            "exact": lambda: [7] * (len(letter) != exact(leaves, letter)), "least": lambda: [7] * (len(letter) < exact(leaves, letter)),
            "root": lambda: [9] * (passages.by_letter(leaves, letter, digest)[0] != top),
        }
        for name in order:
            yield from tests[name]()
    return from_7


# ---- handing out


def entry_by(change):
    """A rule that hands out something else: of a record, the letter, the place, and how many records it has, none where it is refused."""
    def entry(size, top, letter, place, digest):
        count = right["check_passage"](size, top, letter, digest).count
        return change(right["passage_entry"](size, top, letter, place, digest), letter, place, count)
    return entry


def past(made):
    """A rule that hands out something past the last record."""
    return entry_by(lambda entry, letter, place, count: made(letter) if 0 < count <= place else entry)


def beside_9(entry, letter, place, count):
    return list(entries_in(letter))[place]._replace(number=9) if entry.number == 9 else entry


def entries_by(short=lambda rooms, count: min(rooms) < count, first=False, fill=lambda entry: entry[1:], behind=None):
    """A rule that hands out all records in another way: with another test for 6, before the letter is checked, with other numbers, or with something
    behind the last record."""
    def entries(size, top, letter, *lists_and_mode):
        *lists, digest = lists_and_mode
        number, count = right["check_passage"](size, top, letter, digest)
        if (number == 0 or first) and short(list(map(len, lists)), count_in(letter)):
            number = 6
        if number == 0:
            for places, values in zip(lists, zip(*map(fill, entries_in(letter)))):
                places[:count] = values[:len(places)]
                places[count:] = [one if behind is None else behind for one in places[count:]]
        return Counted(number, 0 if number else count)
    return entries


# ---- comparing


GROUPS = ("root", "from 7", "sums", "each", "nodes", "room")


def finding_by(*order, looked=lambda leaves, indexes: filter(within_peak, right["opened"](leaves, indexes))):
    """A rule with the finder's numbers in another order, in groups: 1, 10 and 4; from 7; 16; of each record 3 and 13; 14; 6. Or with other nodes
    looked at for 14."""
    def finding(size, joined, lengths, buffer, letter, ours, theirs, digest):
        number, top = root(size, buffer, digest)
        leaves = leaf_count(size)[1]

        def each():
            return [[3] * (len(record) > LONGEST_RECORD) + [13] * (node(buffer, nodes_of(index)) != digest(record))
                    for index, record in zip(indexes_in(letter), cut(joined, lengths))]

        def broken(place):
            return passages.digest_at(place, buffer, digest) != digest(passage_finder.input_at(place, buffer, digest))
        tests = {
            "root": lambda: [number] * (number != 0), "from 7": lambda: passages.passage_from_7(size, leaves, top, letter, digest),
            "sums": lambda: [16] * sums_off(indexes_in(letter), joined, lengths), "each": lambda: flat(each()),
            "13 first": lambda: flat(numbers[::-1] for numbers in each()), "all 3 first": lambda: sorted(flat(each())),
            "last first": lambda: flat(each()[::-1]), "nodes": lambda: [14] * any(map(broken, looked(leaves, indexes_in(letter)))),
            "room": lambda: [6] * (len(ours) < PAIR or len(theirs) < PAIR), "first room": lambda: [6] * (len(ours) < PAIR),
        }
        for name in order:
            yield from tests[name]()
    return finding


def every_node(leaves, indexes):
    return [place for place in right["walk_of"](leaves, range(leaves)) if place.count > 1 and within_peak(place)]


def peaks_looked(wanted):
    """Of the nodes that are looked into the peaks alone, or all others."""
    def places(leaves, indexes):
        peaks = {(peak.first, 1 << peak.height) for peak in peaks_of(leaves)}
        return [place for place in filter(within_peak, right["opened"](leaves, indexes)) if ((place.first, place.count) in peaks) == wanted]
    return places


def records_first(of_log, of_letter, records, others, *rest):
    inputs = (of_log, of_letter) if list(records) == list(others) else ([], [])
    return right["compared_passage"](*inputs, records, others, *rest)


def compared_by(change=lambda answer, indexes: answer, inputs=lambda one: one, records=lambda one: one, swapped=False):
    """A rule that compares in another order, has the buffers swapped, or answers something else."""
    def compared(of_log, of_letter, own, others, indexes, ours, theirs):
        both = (theirs, ours) if swapped else (ours, theirs)
        answer = right["compared_passage"](inputs(of_log), inputs(of_letter), *map(records, (own, others, indexes)), *both)
        return change(answer, list(indexes))
    return compared


# Each wrong rule by what is wrong with it: the functions that it has in place of others. First the walk and the digests;
WALKS = {
    "gives the digests from right to left": {"walk": right_first},
    "takes the digests from right to left": {"digests_in": lambda letter: right["digests_in"](letter)[::-1]},
    "gives the digests from the smallest subtree up": {"closed": lambda *given: sorted(right["closed"](*given), key=lambda place: place.count)},
    "has a digest for each leaf that is not asked for": {"closed": each_leaf},
    "has a digest for each peak in place of their fold": {"closed": each_peak},
    "closes a subtree with an asked leaf": {"looked_into": lambda place: bool(place.asked) and place.count > 2, "closed": two_closed},
    "takes a digest for a subtree with an asked leaf": {"rebuilt": two_taken},
    "hands the left part of the slice to the right": {"sides": sides_by(parts=lambda left, right: (right, left))},
    "hands the whole slice to both sides": {"sides": sides_by(parts=lambda left, right: (left + right,) * 2)},
    "splits the slice one place too far": {"sides": sides_by(off=1)},
    "splits the leaves in half": {"sides": sides_by(lambda count: count // 2)},
    "folds the peaks from left to right": {"digest_at": folded_forward},
}
# the request, and writing;
WRITES = {
    "takes an index twice": {"rising": lambda indexes: passages.as_many(len(indexes)) and list(indexes) == sorted(indexes)},
    "takes a list that falls": {"rising": lambda indexes: passages.as_many(len(indexes))},
    "takes a list without indexes": {"as_many": lambda count: count <= MOST_RECORDS},
    "takes 257 indexes": {"as_many": lambda count: 1 <= count <= MOST_RECORDS + 1},
    "takes 255 indexes at most": {"as_many": lambda count: 1 <= count < MOST_RECORDS},
    "tests 19 before 1": {"writing": writing_by(lambda one, rise, off, each, *rest: (rise, one, off, flat(each), *rest))},
    "tests 16 before 19": {"writing": writing_by(lambda one, rise, off, each, *rest: (one, off, rise, flat(each), *rest))},
    "tests 16 behind 5 and 3": {"writing": writing_by(lambda one, rise, off, each, *rest: (one, rise, flat(each), off, *rest))},
    "tests 3 before 5": {"writing": writing_by(lambda one, rise, off, each, *rest: (one, rise, off, flat(two[::-1] for two in each), *rest))},
    "tests 5 of all records before 3 of any": {"writing": writing_by(lambda one, rise, off, each, *rest: (
        one, rise, off, sorted(flat(each), reverse=True), *rest))},
    "tests 3 of all records before 5 of any": {"writing": writing_by(lambda one, rise, off, each, *rest: (
        one, rise, off, sorted(flat(each)), *rest))},
    "tests the last record first": {"writing": writing_by(lambda one, rise, off, each, *rest: (one, rise, off, flat(each[::-1]), *rest))},
    "tests 4 before 5 and 3": {"writing": writing_by(lambda one, rise, off, each, room, *rest: (one, rise, off, room, flat(each), *rest))},
    "tests 13 before 4": {"writing": writing_by(lambda one, rise, off, each, room, other, out: (one, rise, off, flat(each), other, room, out))},
    "tests 6 before 13": {"writing": writing_by(lambda one, rise, off, each, room, other, out: (one, rise, off, flat(each), room, out, other))},
    "does not count the lengths": {"writing": writing_by(sums=lambda indexes, joined, lengths: sum(lengths) != len(joined))},
    "does not add up the lengths": {"writing": writing_by(sums=lambda indexes, joined, lengths: len(lengths) != len(indexes))},
    "adds up modulo 2^32": {"writing": writing_by(sums=modulo)},
    "looks at the first record alone for 13": {"writing": writing_by(looked=slice(1))},
    "looks at the last record alone for 13": {"writing": writing_by(looked=slice(-1, None))},
}
# checking. That 5 comes behind 19 cannot be told: an index that is not above the last one is below the leaf count;
CHECKS = {
    "refuses all": {"check_passage": lambda *given: Counted(9, 0)},
    "accepts all": {"check_passage": lambda size, top, letter, digest: Counted(0, count_in(letter))},
    "accepts all that has the form": {"passage_from_7": from_7_by("short", "size", "number", "each", "exact")},
    "believes the size that the letter names": {"passage_from_7": from_7_by("short", "number", "each", "exact", "root")},
    "does not test the exact length": {"passage_from_7": from_7_by("short", "size", "number", "each", "root")},
    "takes bytes behind the digests": {"passage_from_7": from_7_by("short", "size", "number", "each", "least", "root")},
    "tests the number before the size": {"passage_from_7": from_7_by("short", "number", "size", "each", "exact", "root")},
    "tests the number behind the records": {"passage_from_7": from_7_by("short", "size", "each", "number", "exact", "root")},
    "does not test the number": {"passage_from_7": from_7_by("short", "size", "each", "exact", "root")},
    "lets an index pass that is equal to the last": {"each_checked": each_by("head", "equal", "leaf", "long", "end")},
    "lets indexes pass that fall": {"each_checked": each_by("head", "leaf", "long", "end")},
    "tests a letter's 3 before 5": {"each_checked": each_by("head", "rise", "long", "leaf", "end")},
    "tests a letter's 3 before 19": {"each_checked": each_by("head", "long", "rise", "leaf", "end")},
    "tests the end of a record before 3": {"each_checked": each_by("head", "rise", "leaf", "end", "long")},
    "tests the end of a record first": {"each_checked": each_by("head", "end", "rise", "leaf", "long")},
    "tests a record's 12 bytes behind its index": {"each_checked": each_by("rise", "leaf", "head", "long", "end")},
    "tests all indexes before any length": {"each_checked": indexes_first},
}
# handing out;
HANDS = {
    "counts the records from 1": {"passage_entry": lambda size, top, letter, place, digest: right["passage_entry"](
        size, top, letter, max(place - 1, 0), digest)},
    "hands out the last record past the last": {"passage_entry": past(lambda letter: list(entries_in(letter))[-1])},
    "hands out the end of the letter past the last": {"passage_entry": past(lambda letter: Entry(0, 0, len(letter), 0))},
    "hands out a record beside 9": {"passage_entry": entry_by(beside_9)},
    "hands out a record from its index on": {"passage_entry": entry_by(lambda entry, *rest: entry._replace(start=max(entry.start - 12, 0)))},
    "has 6 before the checker's numbers": {"passage_entries": entries_by(first=True)},
    "has 6 for as many places as records": {"passage_entries": entries_by(lambda rooms, count: min(rooms) <= count)},
    "looks at the places for indexes alone": {"passage_entries": entries_by(lambda rooms, count: rooms[0] < count)},
    "does not look at the places for lengths": {"passage_entries": entries_by(lambda rooms, count: min(rooms[:2]) < count)},
    "fills as many places as there are": {"passage_entries": entries_by(lambda rooms, count: False)},
    "clears the places behind the last": {"passage_entries": entries_by(behind=0)},
    "has ends in place of lengths": {"passage_entries": entries_by(fill=lambda entry: (entry.index, entry.start, entry.start + entry.length))},
}
# and comparing.
FINDS = {
    "compares the records before the inputs": {"compared_passage": records_first},
    "always answers same": {"compared_passage": lambda *given: FoundIn(0, "same", 0)},
    "never names a pair": {"compared_passage": lambda of_log, of_letter, *rest: right["compared_passage"]([], [], *rest)},
    "names the last pair": {"compared_passage": compared_by(inputs=lambda inputs: inputs[::-1])},
    "names the last records": {"compared_passage": compared_by(records=lambda several: list(several)[::-1])},
    "names the place of the records in the letter": {"compared_passage": compared_by(
        lambda answer, indexes: answer._replace(index=indexes.index(answer.index)) if answer.outcome == "records" else answer)},
    "names no index": {"compared_passage": compared_by(lambda answer, indexes: answer._replace(index=0))},
    "names an index beside a pair": {"compared_passage": compared_by(
        lambda answer, indexes: answer._replace(index=indexes[0]) if answer.outcome == "pair" else answer)},
    "has the letter's input first": {"compared_passage": compared_by(swapped=True)},
    "has 14 for nodes beside the walk": {"finding_passage": finding_by(*GROUPS, looked=every_node)},
    "has no 14": {"finding_passage": finding_by(*GROUPS, looked=lambda *given: ())},
    "looks at peaks alone for 14": {"finding_passage": finding_by(*GROUPS, looked=peaks_looked(True))},
    "does not look at peaks for 14": {"finding_passage": finding_by(*GROUPS, looked=peaks_looked(False))},
    "tests the finder's 16 before the letter": {"finding_passage": finding_by("root", "sums", "from 7", "each", "nodes", "room")},
    "tests the finder's 16 behind 3 and 13": {"finding_passage": finding_by("root", "from 7", "each", "sums", "nodes", "room")},
    "has no 16 in the finder": {"finding_passage": finding_by("root", "from 7", "each", "nodes", "room")},
    "tests the finder's 13 before 3": {"finding_passage": finding_by("root", "from 7", "sums", "13 first", "nodes", "room")},
    "tests the finder's 3 of all records before 13 of any": {"finding_passage": finding_by("root", "from 7", "sums", "all 3 first", "nodes", "room")},
    "tests the finder's last record first": {"finding_passage": finding_by("root", "from 7", "sums", "last first", "nodes", "room")},
    "tests 14 before the records": {"finding_passage": finding_by("root", "from 7", "sums", "nodes", "each", "room")},
    "tests the finder's 6 before 14": {"finding_passage": finding_by("root", "from 7", "sums", "each", "room", "nodes")},
    "looks at one buffer for 6": {"finding_passage": finding_by(*GROUPS[:-1], "first room")},
    "does not check the letter": {"finding_passage": finding_by("root", "sums", "each", "nodes", "room")},
}
WRONG = {**WALKS, **WRITES, **CHECKS, **HANDS, **FINDS}
# The call that a function is of, where it is of one alone; the others are of the writer and of the checker.
OF = {**dict.fromkeys(("writing", "rising"), "write_passage"), **dict.fromkeys(("compared_passage", "finding_passage"), "find_passage"),
      **{name: name for name in ("passage_entry", "passage_entries")}}


# ---- told


@contextlib.contextmanager
def by_others(swapped):
    """The rules with other functions in place of some, wherever they are called."""
    with contextlib.ExitStack() as stack:
        for module, name in itertools.product((passages, passage_finder, portable_passages, checks), swapped):
            if hasattr(module, name):
                stack.enter_context(mock.patch.object(module, name, swapped[name]))
        yield


def answered(call):
    """What a call answers. A wrong rule may come to no answer."""
    try:
        return call.make()
    except (RuntimeError, StopIteration, ValueError) as error:
        return type(error)


def told(swapped, answers):
    """Whether a call has another answer by a rule with other functions. Calls that these are not of are not tried."""
    names = {OF.get(name) for name in swapped}
    tried_here = [(call, answer) for call, answer in answers if call.name in ({"write_passage", "check_passage"} if None in names else names)]
    with by_others(swapped):
        return any(answered(call) != answer for call, answer in tried_here)


def check_wrong_passages():
    """Each wrong rule is told from the right one; every right call comes to an answer."""
    answers = [(call, answered(call)) for call in tried(list(toy_finds()))]
    missed = [name for name, swapped in WRONG.items() if not told(swapped, answers)]
    for name in missed:
        print(f"passages: a rule that {name} is not told from the right one")
    print(f"passages: {len(WRONG) - len(missed)} of {len(WRONG)} wrong rules are told from the right one, by {len(answers)} calls")
    return not missed and not any(isinstance(answer, type) for _, answer in answers)
