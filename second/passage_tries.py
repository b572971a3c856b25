"""What the wrong rules of passages are tried on: true inputs, damaged ones, every two refusals at once, and letters that the toy digest accepts."""
import functools
import itertools
from collections import namedtuple

from passages import LONG, MODES, SMALL, log_in, subsets, toy_answer
from portable.letters import flipped
from portable.passage_orders import PASSAGE_ORDERS, passage_calls
from portable.passages import damages, forgeries
from rules import passage_finder, passages
from rules.finder import PAIR
from rules.log import NODE
from rules.passages import closed, digest_at, passage_bytes, passage_of

# A call: its name among the rules, and how it is made now, whichever rules there are; it gives the answer, and what was lent as it is afterwards.
Call = namedtuple("Call", "name make")
# The calls of the orders by their names among the rules.
NAMES = {"passage_write": "write_passage", "passage_check": "check_passage", "passage_entry": "passage_entry", "passage_entries": "passage_entries",
         "passage_find": "find_passage"}


def called(name, *given):
    """A call of the rules with what it is given; lists and buffers are copied each time."""
    def make():
        now = [one.copy() if isinstance(one, (bytearray, list)) else one for one in given]
        return getattr(passage_finder if name == "find_passage" else passages, name)(*now, MODES[0]), now
    return Call(name, make)


def buffers(room=PAIR):
    """The finder's two buffers."""
    return bytearray(room), bytearray(room)


def true_calls():
    """Every request to logs of up to six, and some to longer ones: written, checked, handed out in two ways, and compared."""
    longer = ((15, (0,)), (15, (3, 8)), (15, (14,)), (23, (1, 20)))
    for leaves, indexes in (*((leaves, indexes) for leaves in range(1, SMALL) for indexes in subsets(leaves)), *longer):
        size, nodes, top, records = log_in(leaves, MODES[0])
        shown = [records[index] for index in indexes]
        letter, joined, lengths = passage_of(size, indexes, shown, nodes, MODES[0]), b"".join(shown), list(map(len, shown))
        yield called("write_passage", size, indexes, joined, lengths, nodes, bytearray(len(letter)))
        yield called("check_passage", size, top, letter)
        yield called("passage_entries", size, top, letter, *([9] * room for room in (len(indexes), len(indexes) + 1, 9)))
        yield from (called("passage_entry", size, top, letter, place) for place in (0, len(indexes) - 1, len(indexes), 2**32))
        yield called("find_passage", size, joined, lengths, nodes, letter, *buffers())


def damaged_calls():
    """One passage damaged in every way, and handed out into fewer places and more; forgeries."""
    (size, nodes, top, records), indexes = log_in(SMALL, MODES[0]), (0, 2, 5)
    letter = passage_of(size, indexes, [records[index] for index in indexes], nodes, MODES[0])
    for _, other in damages(letter):
        yield called("check_passage", size, top, other)
        yield called("passage_entry", size, top, other, 1)
        yield called("passage_entries", size, top, other, [9] * 3, [9] * 3, [9] * 3)
    for rooms in itertools.product((2, 3, 4), repeat=3):
        yield called("passage_entries", size, top, letter, *([9] * room for room in rooms))
    yield from (called("check_passage", *forgery) for _, *forgery in forgeries())


def node_calls():
    """Passages of a log with each of its nodes damaged in turn, and with lengths that are off."""
    size, nodes, _, records = log_in(SMALL, MODES[0])
    for indexes in ((0, 2, 5), (0, 1), (5,), (6,)):
        shown = [records[index] for index in indexes]
        letter, joined, lengths = passage_of(size, indexes, shown, nodes, MODES[0]), b"".join(shown), list(map(len, shown))
        for position in range(size):
            damaged = flipped(nodes, NODE * position)
            yield called("find_passage", size, joined, lengths, damaged, letter, *buffers())
            yield called("write_passage", size, indexes, joined, lengths, damaged, bytearray(len(letter)))
        for other in ([*lengths, 0], lengths[:-1], [2**31, 2**31 - len(joined), *lengths[2:]], [2**31, 2**31, len(joined)], lengths[::-1]):
            yield called("write_passage", size, indexes, joined, other, nodes, bytearray(len(letter) + 50))
            yield called("find_passage", size, joined, other, nodes, letter, *buffers())


def list_calls():
    """Requests of 254 to 257, and lists that are no requests."""
    size, nodes, top, records = log_in(LONG, MODES[0])
    for count in (254, 255, 256, 257):
        indexes, shown = range(20, 20 + count), records[20:20 + count]
        digests = [digest_at(place, nodes, MODES[0]) for place in closed(LONG, indexes)]
        yield called("write_passage", size, indexes, b"".join(shown), list(map(len, shown)), nodes, bytearray(20000))
        yield called("check_passage", size, top, passage_bytes(size, indexes, shown, digests))
    for indexes in ((), (1, 1), (2, 1), (1, 2, 2), (1, 2, 1), (7, 7, 7), (300,), (5, 300)):
        shown = [records[index % LONG] for index in indexes]
        yield called("write_passage", size, indexes, b"".join(shown), list(map(len, shown)), nodes, bytearray(2000))


def order_calls():
    """Every refusal alone and every two at once, of the orders."""
    for call, make, true, changes in passage_calls(MODES[0]):
        entries = [entry for entry in PASSAGE_ORDERS[call] if entry in changes]
        for several in (*itertools.combinations(entries, 1), *itertools.combinations(entries, 2)):
            change = dict(itertools.chain(*(changes[entry].items() for entry in several)))
            yield Call(NAMES[call], functools.partial(answer_of, make, {**true, **change}))


def answer_of(make, given):
    """The answer of a case."""
    return make("", mode=MODES[0], **given)["answer"]


def toy_calls(finds):
    """Accepted letters of the toy digest beside their log."""
    return (Call("find_passage", functools.partial(toy_answer, *find)) for find in finds)


def tried(finds):
    """All of them."""
    return [*true_calls(), *damaged_calls(), *node_calls(), *list_calls(), *toy_calls(finds), *order_calls()]
