"""The random cases of passages: a true one with some of its parts changed, or none."""
from collections import namedtuple

from calls import Case, u32s, u64s
from inputs.choices import any_lengths, any_nodes
from inputs.world import EDGES
from rules import letters
from rules.finder import PAIR
from rules.log import NODE
from rules.passages import by_letter, closed, digests_in, entries_in, passage_bytes, passage_of, records_in
from rules.shape import MOST_LEAVES, nodes_of


def any_indexes(chance, leaves):
    """A request to a log of so many leaves: neighbours, or any, up to forty."""
    count = min(chance.choice((1, 2, 3, chance.randrange(1, 12), chance.randrange(1, 41))), leaves)
    first = chance.randrange(leaves - count + 1)
    return chance.choice((list(range(first, first + count)), sorted(chance.sample(range(leaves), count))))


def other_indexes(chance, indexes, leaves):
    """A list with one index changed, left out or added, or two changed about."""
    others, place = list(indexes), chance.randrange(len(indexes))
    how = chance.randrange(4)
    if how == 0:
        others[place] = chance.choice((others[place - 1], leaves, chance.randrange(leaves), chance.number()))
    elif how == 1:
        others.pop(place)
    elif how == 2:
        others.insert(place, chance.choice((others[place], chance.randrange(leaves + 1), chance.number())))
    else:
        chance.shuffle(others)
    return others


def with_number(chance, letter):
    """A passage with one of its numbers replaced: size, number of records, an index or a length."""
    starts = [entry.start for entry in entries_in(letter)]
    start, end = chance.choice([(0, 8), (8, 10), *((start - 12, start - 4) for start in starts), *((start - 4, start) for start in starts)])
    old = int.from_bytes(letter[start:end], "big")
    number = chance.choice((old + 1, max(old - 1, 0), old ^ 1 << chance.randrange(8 * (end - start)), chance.choice(EDGES), chance.number()))
    return letter[:start] + (number % 256 ** (end - start)).to_bytes(end - start, "big") + letter[end:]


def with_parts(chance, letter, indexes):
    """A passage with a digest more, one less, digests or records changed about, or another record."""
    digests, records = digests_in(letter), records_in(letter)
    how = chance.randrange(5)
    if how == 0 or (how < 3 and not digests):
        digests.append(chance.randbytes(NODE))
    elif how == 1:
        digests.pop(chance.randrange(len(digests)))
    elif how == 2:
        chance.shuffle(digests)
    elif how == 3:
        chance.shuffle(records)
    else:
        place = chance.randrange(len(records))
        records[place] = chance.damage(records[place])
    return passage_bytes(letters.size_in(letter), indexes, records, digests)


# A random passage: the leaf count of its log, its indexes, the log's records at them, and the log's own letter.
Passage = namedtuple("Passage", "leaves indexes own letter")


def any_passage(chance, world, given):
    """A passage of the log; the longest record is in few of them."""
    indexes = [index for index in any_indexes(chance, given.leaves) if index != 77 or chance.random() < 0.1] or [0]
    own = [world.records[index] for index in indexes]
    return Passage(given.leaves, indexes, own, passage_of(nodes_of(given.leaves), indexes, own, world.nodes(given.leaves), world.digest))


def shown_passage(chance, world, given, passage):
    """Its letter, or one that was changed, or another's, or one of a single record."""
    how = chance.randrange(9)
    if how < 4:
        return passage.letter
    if how == 4:
        return with_number(chance, passage.letter)
    if how == 5:
        return with_parts(chance, passage.letter, passage.indexes)
    if how == 6:
        return chance.choice((any_passage(chance, world, given).letter, world.letter(given.leaves, given.index)))
    return chance.damage(passage.letter)


def joined_and_lengths(chance, own, record):
    """Joined records and their lengths, sometimes with another record among them, or lengths that are off."""
    own = list(own)
    if chance.random() < 0.2:
        own[chance.randrange(len(own))] = record
    joined, lengths = b"".join(own), [len(record) for record in own]
    return [chance.often(joined, joined, chance.damage(joined)), u32s(chance.often(lengths, lengths, any_lengths(chance, lengths)))]


def random_passage_write(chance, world, given):
    passage = any_passage(chance, world, given)
    nodes = any_nodes(chance, world, given.leaves, NODE * nodes_of(given.leaves))
    shown = chance.often(passage.indexes, passage.indexes, other_indexes(chance, passage.indexes, given.leaves))
    return Case("passage_write", (given.size,), [world.mode, u64s(shown), *joined_and_lengths(chance, passage.own, given.record), nodes,
                                                 chance.out(len(passage.letter)), chance.variable()])


def checked_parts(chance, world, given):
    """What the checker of passages is given: the mode, a root, a letter."""
    passage = any_passage(chance, world, given)
    return [world.mode, chance.bytes_like(world.root(given.leaves)), shown_passage(chance, world, given, passage)], len(passage.indexes)


def random_passage_check(chance, world, given):
    return Case("passage_check", (given.size,), [*checked_parts(chance, world, given)[0], chance.variable()])


def random_passage_entry(chance, world, given):
    parts, count = checked_parts(chance, world, given)
    place = chance.often(chance.randrange(count), count, chance.randrange(2 * count + 2), chance.number())
    return Case("passage_entry", (given.size, place), [*parts, *(chance.variable() for _ in range(3))])


def random_passage_entries(chance, world, given):
    parts, count = checked_parts(chance, world, given)
    lists = [chance.randbytes(8 * chance.often(count, count + 1, max(count - 1, 0), chance.randrange(60))) for _ in range(3)]
    return Case("passage_entries", (given.size,), [*parts, *lists, chance.variable()])


def random_far_check(chance, world, given):
    """A passage of a log that nobody has built, of up to 2^32 leaves, and the root that its digests decide on."""
    leaves = min(chance.getrandbits(chance.randrange(1, 34)) + 1, MOST_LEAVES)
    indexes = sorted({chance.randrange(leaves) for _ in range(chance.choice((1, 2, 5)))})
    digests = [chance.randbytes(NODE) for _ in closed(leaves, indexes)]
    letter = passage_bytes(nodes_of(leaves), indexes, [chance.randbytes(chance.randrange(20)) for _ in indexes], digests)
    top = by_letter(leaves, letter, world.digest)[0]
    shown = chance.often(letter, with_number(chance, letter), with_parts(chance, letter, indexes), chance.damage(letter))
    return Case("passage_check", (nodes_of(leaves),), [world.mode, chance.bytes_like(top), shown, chance.variable()])


def random_passage_find(chance, world, given):
    passage = any_passage(chance, world, given)
    nodes = any_nodes(chance, world, given.leaves, NODE * nodes_of(given.leaves))
    letter = shown_passage(chance, world, given, passage)
    return Case("passage_find", (given.size,), [world.mode, nodes, *joined_and_lengths(chance, passage.own, given.record), letter, chance.out(PAIR),
                                                chance.out(PAIR), chance.randbytes(4), chance.variable()])
