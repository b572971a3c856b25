"""The rules of passages (RULES 12) tried: every request to small logs, requests of 1 to 257, both kinds of letter by both checkers, letters with a
bit flipped; and the finder with a digest that has collisions. Wrong rules are told from them in wrong_passages.py."""
import bisect
import functools
import itertools
import random
import zlib
from collections import Counter

from expected.given import LEAGUES, flips_of, run_record
from grown import log_of
from once import Once
from rules.blake3 import PLAIN
from rules.finder import PAIR
from rules.letters import check_letter, items_in, letter_of
from rules.log import NODE, root
from rules.passage_finder import FoundIn, find_passage
from rules.passages import (MOST_RECORDS, by_letter, check_passage, closed, digests_in, passage_bytes, passage_entries, passage_entry, passage_length,
                            passage_of, records_in, write_passage)
from rules.plain import plain_root
from rules.shape import MOST_LEAVES

MODES = (Once(*PLAIN), Once(*LEAGUES[0]))
SMALL, LONG = 7, 300


# ---- logs, requests, letters


@functools.lru_cache(maxsize=None)
def log_in(leaves, mode):
    """A log of short records: its size, nodes, root and records."""
    records = [run_record(number, number % 4) for number in range(leaves)]
    size, nodes = log_of(records, mode)
    return size, nodes, root(size, nodes, mode).root, records


def subsets(leaves):
    """Every request to a log of so many leaves."""
    return itertools.chain(*(itertools.combinations(range(leaves), count) for count in range(1, leaves + 1)))


def halves(part):
    """The two sides of leaves that are a subtree of the folded tree, as sets."""
    left = min(part) + (1 << (len(part) - 1).bit_length() - 1)
    return frozenset(leaf for leaf in part if leaf < left), frozenset(leaf for leaf in part if leaf >= left)


def subtrees(part):
    """Every subtree of the folded tree in these leaves: its leaves, as a set."""
    return [part, *itertools.chain(*map(subtrees, halves(part)))] if len(part) > 1 else [part]


def largest_without(leaves, asked):
    """The largest subtrees that hold no asked record, as sets: the larger ones first, those that are in none before. From left to right."""
    found = []
    for part in sorted(subtrees(frozenset(range(leaves))), key=len, reverse=True):
        if part.isdisjoint(asked) and all(part.isdisjoint(other) for other in found):
            found.append(part)
    return sorted(found, key=min)


def right_letter(leaves, indexes, mode):
    """Whether the letter of a request has the digests of those subtrees, by the plain rule, is accepted, gives its records, and is found the same."""
    size, nodes, top, records = log_in(leaves, mode)
    shown = [records[index] for index in indexes]
    letter = passage_of(size, indexes, shown, nodes, mode)
    lists = [[9] * (len(indexes) + 1) for _ in range(3)]
    handed = passage_entries(size, top, letter, *lists, mode)
    some = sorted({0, 1, len(indexes) // 2, len(indexes) - 1, len(indexes)} & set(range(len(indexes) + 1)))
    entries = [passage_entry(size, top, letter, place, mode) for place in some]
    parts = [letter[start:start + length] for start, length in zip(*(places[:-1] for places in lists[1:]))]
    return (
        digests_in(letter) == [plain_root([records[leaf] for leaf in sorted(part)], mode) for part in largest_without(leaves, indexes)]
        and check_passage(size, top, letter, mode) == handed == (0, len(indexes))
        and [places[-1] for places in lists] == [9] * 3 and lists[0][:-1] == list(indexes) and parts == shown
        and entries == [*((0, *list(zip(*lists))[place]) for place in some[:-1]), (0, 0, 0, 0)]
        and find_passage(size, b"".join(shown), list(map(len, shown)), nodes, letter, bytearray(PAIR), bytearray(PAIR), mode) == (0, "same", 0)
        and check_letter(size, top, letter, mode).number == 5
    )


def check_subsets():
    """Every request to logs of up to seven records, in two modes."""
    tried = [(leaves, indexes, mode) for mode in MODES for leaves in range(1, SMALL + 1) for indexes in subsets(leaves)]
    good = sum(right_letter(*one) for one in tried)
    print(f"passages: {good} of {len(tried)} requests have the largest subtrees' digests, are accepted, give their records and are found the same")
    return good == len(tried)


def check_lengths():
    """Requests of 1 to 257 records of a log of 300: neighbours at either end, and spread out. More than 256 are refused."""
    size, nodes, _, records = log_in(LONG, MODES[0])
    tried = good = 0
    for count in (1, 2, 40, 255, 256, 257):
        for indexes in (range(count), range(LONG - count, LONG), [place * LONG // count for place in range(count)]):
            shown = [records[index] for index in indexes]
            out = bytearray(passage_length(LONG, indexes, list(map(len, shown))))
            number, length = write_passage(size, indexes, b"".join(shown), list(map(len, shown)), nodes, out, MODES[0])
            tried += 1
            good += number == 19 if count > MOST_RECORDS else number == 0 and length == len(out) and right_letter(LONG, indexes, MODES[0])
    print(f"passages: {good} of {tried} requests of 1 to 257 records of {LONG} are answered rightly")
    return good == tried


def check_kinds():
    """A passage of one record has the items of its letter in another order, and shows the same; each kind of letter is refused by the other checker;
    no bit can be changed."""
    good = tried = 0
    for mode, leaves in itertools.product(MODES, range(1, 12)):
        size, nodes, top, records = log_in(leaves, mode)
        for index in range(leaves):
            letter, passage = letter_of(size, index, records[index], nodes, mode), passage_of(size, (index,), [records[index]], nodes, mode)
            tried += 1
            good += (Counter(items_in(letter)) == Counter(digests_in(passage)) and check_passage(size, top, letter, mode).number == 19
                     and check_letter(size, top, passage, mode).number == 5 and len(passage) == len(letter) + 2)
    size, nodes, top, records = log_in(SMALL, MODES[0])
    letter = passage_of(size, (1, 2, 5), [records[index] for index in (1, 2, 5)], nodes, MODES[0])
    accepted = sum(check_passage(size, top, other, MODES[0]).number == 0 for other in flips_of(letter))
    print(f"passages: {good} of {tried} of one record have their letter's items, neither passes for the other, {accepted} pass with a bit flipped")
    return good == tried and accepted == 0


def digests_of(leaves, indexes):
    """How many digests a letter has: the walk, by counts alone."""
    asked = bisect.bisect_left(indexes, leaves[1]) - bisect.bisect_left(indexes, leaves[0])
    if asked == 0 or leaves[1] - leaves[0] == 1:
        return int(asked == 0)
    middle = leaves[0] + (1 << (leaves[1] - leaves[0] - 1).bit_length() - 1)
    return digests_of((leaves[0], middle), indexes) + digests_of((middle, leaves[1]), indexes)


def check_counts():
    """No request needs more than 6,144 digests, which 256 as far apart as can be need of 2^32 leaves; and the count is the walk's."""
    chance, counts = random.Random("passages"), Counter()
    for _ in range(60):
        leaves = min(chance.getrandbits(chance.randrange(9, 34)) + 257, MOST_LEAVES)
        indexes = sorted(chance.sample(range(leaves), chance.choice((1, 2, 40, 255, 256))))
        counts[len(closed(leaves, indexes)) == digests_of((0, leaves), indexes) <= 6144] += 1
    most = len(closed(MOST_LEAVES, [place << 24 for place in range(MOST_RECORDS)]))
    print(f"passages: {counts[True]} of {counts.total()} requests to logs of up to 2^32 leaves have at most {most} digests")
    return not counts[False] and most == 6144


# ---- the finder, with a digest that has collisions


def toy(data):
    """A digest with collisions everywhere: one byte, and zeros."""
    return zlib.crc32(data).to_bytes(4, "big")[:1].ljust(NODE, b"\0")


def others(part):
    """Other bytes in place of a part of a letter."""
    return (number.to_bytes(8, "big") + bytes(NODE - 8) for number in range(1, 10000) if number.to_bytes(8, "big") + bytes(NODE - 8) != part)


def made_of(size, indexes, parts):
    """A letter from its parts: records, then digests."""
    return passage_bytes(size, indexes, parts[:len(indexes)], parts[len(indexes):])


def inputs_of(leaves, digests):
    """What is hashed at each subtree, by its leaves, where some subtrees have these digests: from the smallest up, as far as both sides have one."""
    digests, inputs = dict(digests), {}
    for part in sorted(subtrees(frozenset(range(leaves))), key=len):
        if part not in digests and len(part) > 1 and all(side in digests for side in halves(part)):
            inputs[part] = b"".join(digests[side] for side in halves(part))
            digests[part] = toy(inputs[part])
    return inputs


def foreseen(leaves, indexes, records, parts):
    """What the finder is to say of an accepted letter with these parts, and the two strings: at the first place from the root, left before right,
    where log and letter hash other bytes; else at the first record."""
    shown, digests = parts[:len(indexes)], parts[len(indexes):]
    of_log = inputs_of(leaves, {frozenset([leaf]): toy(record) for leaf, record in enumerate(records)})
    of_letter = inputs_of(leaves, {**{frozenset([index]): toy(record) for index, record in zip(indexes, shown)},
                                   **dict(zip(largest_without(leaves, indexes), digests))})
    for part in sorted(of_letter, key=lambda part: (min(part), -len(part))):
        if of_log[part] != of_letter[part]:
            return FoundIn(0, "pair", 0), (of_log[part], of_letter[part])
    differ = [index for index, record in zip(indexes, shown) if record != records[index]]
    return FoundIn(0, "records", differ[0]) if differ else FoundIn(0, "same", 0), None


def changed(leaves, indexes, parts, place):
    """Other bytes for one part of a letter, with which it is accepted all the same: the first two that there are, for a record also the first two of
    its digest. The parts are the records and then the digests."""
    size, nodes = toy_log(leaves)[:2]
    top = root(size, nodes, toy).root
    shown = ((other, made_of(size, indexes, [*parts[:place], other, *parts[place + 1:]])) for other in others(parts[place]))
    yield from itertools.islice((other for other, letter in shown if by_letter(leaves, letter, toy)[0] == top), 2)
    if place < len(indexes):
        yield from itertools.islice((other for other in others(parts[place]) if toy(other) == toy(parts[place])), 2)


@functools.lru_cache(maxsize=None)
def toy_log(leaves):
    """A log under the toy digest: its size, nodes and records."""
    records = [run_record(number, 3) for number in range(leaves)]
    return *log_of(records, toy), records


def accepted_letters(leaves, indexes):
    """The log's own letter; with each part changed; and with every two parts changed, where that is accepted too. As lists of parts."""
    size, nodes, records = toy_log(leaves)
    letter = passage_of(size, indexes, [records[index] for index in indexes], nodes, toy)
    true = [*records_in(letter), *digests_in(letter)]
    yield true
    ways = dict.fromkeys((place, other) for place in range(len(true)) for other in changed(leaves, indexes, true, place))
    for count in (1, 2):
        for several in itertools.combinations(ways, count):
            parts = [dict(several).get(place, part) for place, part in enumerate(true)]
            if len(dict(several)) == count and check_passage(size, root(size, nodes, toy).root, made_of(size, indexes, parts), toy).number == 0:
                yield parts


def toy_finds():
    """Accepted letters of small logs beside their log: the leaf count, the indexes, the parts of the letter."""
    for leaves, indexes in (*((leaves, indexes) for leaves in range(1, 5) for indexes in subsets(leaves)), (7, (2, 5)), (7, (0, 1, 6)), (5, (1, 4))):
        yield from ((leaves, indexes, parts) for parts in accepted_letters(leaves, indexes))


def toy_answer(leaves, indexes, parts):
    """What the finder says of such a letter, and its buffers after it."""
    (size, nodes, records), ours, theirs = toy_log(leaves), bytearray(b"\5" * (PAIR + 1)), bytearray(b"\6" * (PAIR + 1))
    own = [records[index] for index in indexes]
    answer = find_passage(size, b"".join(own), list(map(len, own)), nodes, made_of(size, indexes, parts), ours, theirs, toy)
    return answer, bytes(ours), bytes(theirs)


def check_toy(finds):
    """Each is found as it is foreseen, and a pair has one digest; no other byte of the buffers changes."""
    counts, wrong = Counter(), 0
    for leaves, indexes, parts in finds:
        expected, strings = foreseen(leaves, indexes, toy_log(leaves)[2], parts)
        answer, *buffers = toy_answer(leaves, indexes, parts)
        counts[expected.outcome] += 1
        one, two = strings or (b"\5" * PAIR, b"\6" * PAIR)
        wrong += answer != expected or buffers != [one + b"\5", two + b"\6"] or (strings is not None and toy(one) != toy(two))
    print(f"passages: the finder says {', '.join(f'{count} {word}' for word, count in sorted(counts.items()))}; {wrong} are not what they should be")
    return wrong == 0 and set(counts) == {"same", "records", "pair"}


def check_passages():
    """Requests, lengths, kinds, counts, and the finder."""
    return all([check_subsets(), check_lengths(), check_kinds(), check_counts(), check_toy(toy_finds())])
