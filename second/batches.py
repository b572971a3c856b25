"""The rule of batches (RULES 7.7) tried: on answers that are foreseen, on appending one by one, and on wrong rules, which are told from it."""
import functools
import itertools

from expected.given import LEAGUES, run_record
from grown import batched, grown
from rules.batch import append_many, cut
from rules.blake3 import PLAIN
from rules.log import LONGEST_RECORD, NODE, Appended, append
from rules.shape import MOST_LEAVES, leaf_count, nodes_of
from wide import Wide

FULL, MOST, LONGER = nodes_of(MOST_LEAVES), 2**32 - 1, bytes(LONGEST_RECORD + 1)
LEAVES, RECORDS = 3, tuple(run_record(number, (0, 5, 33)[number % 3]) for number in range(40))


# ---- what is tried: a size, joined records, their lengths, a buffer


def of_records(leaves, records, room, lengths=None):
    """Records to a log of so many leaves, with so many bytes of buffer; their own lengths, or others."""
    buffer = bytearray(b"\x3c" * room) if room < 2**20 else Wide(room)
    return nodes_of(leaves), b"".join(records), [len(record) for record in records] if lengths is None else lengths, buffer


def with_longer(records, *places):
    """The records, with one that is too long at these places."""
    return [LONGER if place in places else record for place, record in enumerate(records)]


def small_batches():
    """Batches of 0 to 40 records to small logs; each refusal at each record of three, and every two of them; a buffer short of any record."""
    for leaves, count in itertools.product((0, 1, 3), range(41)):
        yield of_records(leaves, RECORDS[:count], NODE * nodes_of(leaves + count))
    for count, room in itertools.product((3, 7), range(NODE * 20)):
        if room % NODE in (0, NODE - 1):
            yield of_records(LEAVES, RECORDS[:count], room)
    rooms = [NODE * nodes_of(LEAVES + taken) - short for taken in range(4) for short in (0, 1)]
    for places, room in itertools.product(([], [0], [1], [2], [0, 1], [1, 2], [0, 2]), rooms):
        yield of_records(LEAVES, with_longer(RECORDS[:3], *places), room)
        yield of_records(MOST_LEAVES, with_longer(RECORDS[:3], *places), room)


def sums():
    """Lengths that do not add up, alone and beside each other refusal; and sizes that are none."""
    whole = of_records(LEAVES, RECORDS[:4], NODE * nodes_of(LEAVES + 4))
    lengths, total = whole[2], len(whole[1])
    off = [lengths[:-1], [*lengths, 1], [lengths[0] + 1, *lengths[1:]], [], [MOST], [MOST, total + 1], [*lengths, MOST, 1], [2**31, *lengths, 2**31],
           [LONGEST_RECORD + 1, *lengths], [*lengths, LONGEST_RECORD + 1]]
    for size, each, room in itertools.product((nodes_of(LEAVES), FULL, 2, FULL - 1), (lengths, *off), (NODE * nodes_of(LEAVES + 4), 0)):
        yield size, whole[1], each, bytearray(room)
    for leaves, room in ((0, 0), (LEAVES, 0), (LEAVES, NODE), (MOST_LEAVES, 0)):
        yield of_records(leaves, (), room)


def wide_batches():
    """Batches at the end of a log of 2^32 leaves, over a buffer that has the room: 2 at the first record, the middle one and the last, and none."""
    for leaves, places, short in itertools.product(range(MOST_LEAVES - 3, MOST_LEAVES + 1), ([], [0], [1], [2]), (0, 1)):
        yield of_records(leaves, with_longer(RECORDS[:3], *places), NODE * FULL - short)
    for before in (1, 2, 3):
        yield of_records(MOST_LEAVES - before, RECORDS[:before], NODE * FULL)


def tried():
    """All of them."""
    return itertools.chain(small_batches(), sums(), wide_batches())


# ---- the answer once more, foreseen from counts alone


def each_refused(size, lengths, buffer):
    """For each record the numbers that apply to it, in their order. Nothing is written to find them."""
    leaves = leaf_count(size)[1]
    for place, length in enumerate(lengths, leaves):
        tests = ((2, place >= MOST_LEAVES), (3, length > LONGEST_RECORD), (4, len(buffer) < NODE * nodes_of(place + 1)))
        yield [number for number, applies in tests if applies]


def applying(size, joined, lengths, buffer):
    """The numbers that apply: to the size, to the sum, to each record."""
    return [1] * leaf_count(size)[0], [16] * (sum(lengths) != len(joined)), list(each_refused(size, lengths, buffer))


def first_of(each):
    """Of each record that has any the first number."""
    return [numbers[0] for numbers in each if numbers]


def foreseen(size, joined, lengths, buffer):
    """The answer by counts."""
    one, off, each = applying(size, joined, lengths, buffer)
    number, new = next(iter(one + off + first_of(each)), 0), nodes_of(leaf_count(size)[1] + len(lengths))
    return Appended(number, size, 0) if number else Appended(0, new, new - size)


def walked(size, records, buffer, digest):
    """Appends one by one over the buffer itself, up to the first refusal: the answers."""
    answers = []
    for record in records:
        answers.append(append(size, record, buffer, digest))
        size = answers[-1].size
        if answers[-1].number != 0:
            break
    return answers


# ---- wrong rules


def by_numbers(numbers):
    """A rule that answers the first of other numbers, where there is one."""
    def rule(size, joined, lengths, buffer, digest):
        number = next(iter(numbers(*applying(size, joined, lengths, buffer))), 0)
        return Appended(number, size, 0) if number else append_many(size, joined, lengths, buffer, digest)
    return rule


def written_before(size, joined, lengths, buffer, digest):
    answer = append_many(size, joined, lengths, buffer, digest)
    if answer.number in (2, 3, 4):
        walked(size, cut(joined, lengths), buffer, digest)
    return answer


def as_far_as_it_goes(size, joined, lengths, buffer, digest):
    answer = append_many(size, joined, lengths, buffer, digest)
    taken = sum(one.number == 0 for one in walked(size, cut(joined, lengths), buffer.copy(), digest)) if answer.number in (2, 3, 4) else 0
    return append_many(size, joined[:sum(lengths[:taken])], lengths[:taken], buffer, digest) if taken else answer


def size_so_far(size, joined, lengths, buffer, digest):
    answer = append_many(size, joined, lengths, buffer, digest)
    return walked(size, cut(joined, lengths), buffer.copy(), digest)[-1] if answer.number in (2, 3, 4) else answer


def modulo(size, joined, lengths, buffer, digest):
    right = sum(lengths) % 2**32 == len(joined)
    return append_many(size, joined, [len(record) for record in cut(joined, lengths)] if right else lengths, buffer, digest)


def count_of_records(size, joined, lengths, buffer, digest):
    answer = append_many(size, joined, lengths, buffer, digest)
    return answer._replace(hashes=len(lengths)) if answer.number == 0 else answer


def one_place_off(size, joined, lengths, buffer, digest):
    return append_many(size, joined, [*lengths[1:], *lengths[:1]], buffer, digest)


def empty_passed_over(size, joined, lengths, buffer, digest):
    return append_many(size, joined, [length for length in lengths if length], buffer, digest)


def none_refused_when_full(size, joined, lengths, buffer, digest):
    answer = append_many(size, joined, lengths, buffer, digest)
    return Appended(2, size, 0) if size == FULL and answer.number == 0 else answer


def none_refused_when_short(size, joined, lengths, buffer, digest):
    answer = append_many(size, joined, lengths, buffer, digest)
    return Appended(4, size, 0) if len(buffer) < NODE * answer.size and answer.number == 0 else answer


def none_is_done(size, joined, lengths, buffer, digest):
    return append_many(size, joined if lengths else b"", lengths, buffer, digest)


# Each wrong rule by what is wrong with it.
WRONG = {
    "writes the records before a refused one": written_before,
    "takes the records before a refused one": as_far_as_it_goes,
    "answers the size so far": size_so_far,
    "answers the last refusal": by_numbers(lambda one, off, each: one + off + first_of(each)[::-1]),
    "answers the lowest number of any record": by_numbers(lambda one, off, each: one + off + sorted(itertools.chain(*each))),
    "answers the highest number of any record": by_numbers(lambda one, off, each: one + off + sorted(itertools.chain(*each))[::-1]),
    "answers the last number of a record": by_numbers(lambda one, off, each: one + off + first_of(numbers[::-1] for numbers in each)),
    "tests 16 after the rest": by_numbers(lambda one, off, each: one + first_of(each) + off),
    "tests 16 before 1": by_numbers(lambda one, off, each: off + one + first_of(each)),
    "adds up modulo 2^32": modulo,
    "counts the records": count_of_records,
    "has the lengths one place off": one_place_off,
    "passes over records of no bytes": empty_passed_over,
    "refuses no record at a full log": none_refused_when_full,
    "refuses no record in a short buffer": none_refused_when_short,
    "is done without lengths, whatever is joined": none_is_done,
}


# ---- the checks


def outcome(rule, size, joined, lengths, buffer, digest):
    """The answer of a rule, and the buffer after it."""
    after = buffer.copy()
    return rule(size, joined, lengths, after, digest), after


def right(case, digest):
    """Whether a batch is answered as foreseen, and leaves what one by one leaves, or nothing."""
    size, joined, lengths, buffer = case
    answer, after = outcome(append_many, *case, digest)
    beside = buffer.copy()
    if answer.number == 0:
        walked(size, cut(joined, lengths), beside, digest)
    return answer == foreseen(*case) and after == beside


def check_cuts(digest):
    """Forty records in batches of every length, refused ones among them, the roots held to the rule: how often the nodes are those of one by one."""
    *_, (_, nodes) = grown(RECORDS, digest)
    good = 0
    for length in range(1, len(RECORDS) + 1):
        cuts = [RECORDS[at:at + length] for at in range(0, len(RECORDS), length)]
        *_, (answer, buffer) = batched([(LONGER,), *itertools.chain(*zip(cuts, itertools.repeat((b"a", LONGER)))), ()], digest, bytearray(len(nodes)))
        good += answer == (0, nodes_of(len(RECORDS)), 0) and buffer == nodes
    return good


def check_batches():
    """The rule in two modes, then the wrong rules, each of which is told from it by some case."""
    cases, good, wrong = list(tried()), 0, 0
    for mode in (PLAIN, LEAGUES[0]):
        once = functools.lru_cache(maxsize=None)(mode)
        good += sum(right(case, once) for case in cases)
        wrong += len(RECORDS) - check_cuts(once)
    print(f"batches: {good} of {2 * len(cases)} are answered as foreseen and leave what one by one leaves; {wrong} ways to cut a log make another")
    once = functools.lru_cache(maxsize=None)(PLAIN)
    told = {name: sum(outcome(rule, *case, once) != outcome(append_many, *case, once) for case in cases) for name, rule in WRONG.items()}
    for name in (name for name, count in told.items() if count == 0):
        print(f"batches: a rule that {name} is not told from the right one")
    print(f"batches: {sum(map(bool, told.values()))} of {len(WRONG)} wrong rules are told from the right one")
    return good == 2 * len(cases) and wrong == 0 and all(told.values())
