"""The fixed cases of passages: every request to small logs, requests of 1 to 257, each refusal at the first, a middle and the last record, every byte
damaged, digests changed about, every node damaged, records handed out into fewer places, and letters of logs that nobody has built."""
import functools
import itertools

from calls import check_case, flipped, passage_check_case, passage_entries_case, passage_entry_case, passage_find_case, passage_write_case
from grown import log_of
from inputs.fixed import damaged
from rules import log
from rules.log import LONGEST_RECORD, NODE
from rules.passages import ENTRY_HEAD, PASSAGE_HEAD, by_letter, closed, digest_at, digests_in, entries_in, passage_bytes, passage_of, records_in
from rules.shape import MOST_LEAVES, nodes_of

# A log of so many records for long requests; how many records those have.
LONG, COUNTS = 300, (1, 2, 40, 255, 256, 257)
FULL, MOST = nodes_of(MOST_LEAVES), 2**64 - 1


@functools.lru_cache(maxsize=None)
def long_log(digest):
    """A log of short records, none to six bytes: its size, nodes, root and records."""
    records = [bytes((number + place) % 256 for place in range(number % 7)) for number in range(LONG)]
    size, nodes = log_of(records, digest)
    return size, nodes, log.root(size, nodes, digest).root, records


class Passage:
    """A request to a log, and its letter."""

    def __init__(self, world, records, size, nodes, indexes):
        self.world, self.size, self.nodes, self.indexes = world, size, nodes, list(indexes)
        self.top, self.own = log.root(size, nodes, world.digest).root, [records[index] for index in self.indexes]
        self.letter = passage_of(size, self.indexes, self.own, nodes, world.digest)

    def written(self, room=None, **changed):
        """Written, with what is changed."""
        own = changed.get("own", self.own)
        return passage_write_case(changed.get("size", self.size), changed.get("indexes", self.indexes), changed.get("joined", b"".join(own)),
                                  changed.get("lengths", list(map(len, own))), changed.get("nodes", self.nodes),
                                  len(self.letter) if room is None else room, self.world.mode)

    def found(self, rooms=(64, 64), **changed):
        """Compared with the log, with what is changed."""
        own = changed.get("own", self.own)
        return passage_find_case(changed.get("size", self.size), changed.get("nodes", self.nodes), changed.get("joined", b"".join(own)),
                                 changed.get("lengths", list(map(len, own))), changed.get("letter", self.letter), rooms, self.world.mode)

    def checked(self, letter=None, size=None, top=None):
        """Checked, it or another letter."""
        return passage_check_case(self.size if size is None else size, self.top if top is None else top, self.letter if letter is None else letter,
                                  self.world.mode)

    def entry(self, place, letter=None):
        """One of its records."""
        return passage_entry_case(self.size, self.top, self.letter if letter is None else letter, place, self.world.mode)

    def entries(self, rooms, letter=None):
        """All of its records, into lists of so many places."""
        return passage_entries_case(self.size, self.top, self.letter if letter is None else letter, rooms, self.world.mode)


def passage_in(world, leaves, indexes):
    """A passage of the world's log of the first so many records."""
    return Passage(world, world.records, nodes_of(leaves), world.nodes(leaves), indexes)


def long_passage(world, indexes):
    """A passage of the long log."""
    size, nodes, _, records = long_log(world.digest)
    return Passage(world, records, size, nodes, indexes)


def fixed_subsets(world):
    """Every request to logs of up to seven records: written, checked, handed out and compared; and as a letter of one record."""
    for leaves in range(1, 8):
        for indexes in itertools.chain(*(itertools.combinations(range(leaves), count) for count in range(1, leaves + 1))):
            shown = passage_in(world, leaves, indexes)
            count = len(indexes)
            yield from (shown.written(), shown.checked(), shown.entries((count, count + 1, 9)), shown.found())
            yield from (shown.entry(place) for place in (0, count - 1, count))
            yield check_case(shown.size, shown.top, shown.letter, world.mode)


def fixed_lengths(world):
    """Requests of 1 to 257 records, at either end of a log and spread out; lists that are too long; and the longest into fewer places."""
    for count in COUNTS:
        for indexes in (range(count), range(LONG - count, LONG), [place * LONG // count for place in range(count)]):
            shown = long_passage(world, indexes)
            yield shown.written(len(shown.letter) or 40000)
            if count <= 256:
                yield from (shown.written(len(shown.letter) - 1), shown.checked(), shown.found(), shown.entries((256, count, count + 3)))
                yield from (shown.entry(place) for place in (0, count // 2, count - 1, count, 2**32 + count - 1, MOST))
                yield from (shown.entries(rooms) for rooms in ((count - 1, count, count), (count, count - 1, count), (count, count, count - 1)))
    for count in (256, 257, 300, 8000):
        yield passage_write_case(FULL, range(count), b"", [0] * count, b"", 0, world.mode)
        yield passage_write_case(FULL, [0] * count, b"", [0] * count, b"", 0, world.mode)


def fixed_longer(world):
    """The passage of 257 records that nobody may write: checked, handed out and compared."""
    size, nodes, top, records = long_log(world.digest)
    for indexes in (range(257), range(LONG)):
        own = [records[index] for index in indexes]
        letter = passage_bytes(size, indexes, own, [digest_at(place, nodes, world.digest) for place in closed(LONG, indexes)])
        yield passage_check_case(size, top, letter, world.mode)
        yield passage_entries_case(size, top, letter, (LONG, LONG, LONG), world.mode)
        yield passage_find_case(size, nodes, b"".join(own), list(map(len, own)), letter, mode=world.mode)


def at_each(shown):
    """The first place of a passage, a middle one and the last."""
    return sorted({0, len(shown.indexes) // 2, len(shown.indexes) - 1})


def fixed_write_refusals(world):
    """Each refusal of the writer at the first, a middle and the last record of three, of forty and of 256, alone and by twos."""
    for shown in (passage_in(world, 7, (1, 2, 5)), long_passage(world, range(13, 53)), long_passage(world, range(40, 296))):
        places = at_each(shown)
        wrong = [("own", place, record) for place in places for record in (world.longer, b"other record")]
        high = [("indexes", place, None) for place in places]
        for several in (*((one,) for one in wrong + high), *itertools.combinations(wrong + high, 2)):
            own, indexes = list(shown.own), list(shown.indexes)
            for kind, place, record in several:
                if kind == "own":
                    own[place] = record
                else:
                    indexes[place:] = range(LONG, LONG + len(indexes) - place)
            if len(b"".join(own)) < 100000:
                yield shown.written(own=own, indexes=indexes)
        for place in places:
            yield shown.written(own=[*shown.own[:place], world.longer, *shown.own[place + 1:]], nodes=shown.nodes[:-1])
            yield shown.written(own=[*shown.own[:place], b"other record", *shown.own[place + 1:]], room=len(shown.letter) - 1)


def fixed_lists(world):
    """Lists of indexes that do not rise at each place; lengths that are off: their count, their sum, and modulo 2^32."""
    for shown in (passage_in(world, 7, (0, 2, 3, 6)), long_passage(world, range(100, 140))):
        joined, lengths = b"".join(shown.own), list(map(len, shown.own))
        for place in range(1, len(lengths)):
            for other in (shown.indexes[place - 1], max(shown.indexes[place - 1] - 1, 0), 0):
                yield shown.written(indexes=[*shown.indexes[:place], other, *shown.indexes[place + 1:]])
        yield shown.written(indexes=shown.indexes[::-1])
        for size in (shown.size, 2, 0, FULL):
            yield shown.written(indexes=[], joined=b"", lengths=[], size=size)
            yield shown.written(indexes=[], size=size)
            yield shown.written(indexes=[MOST], joined=b"", lengths=[0], size=size)
        off = [lengths[:-1], [*lengths, 0], [], [lengths[0] + 1, *lengths[1:]], [*lengths[:-1], lengths[-1] + 1], lengths[1:] + lengths[:1],
               [2**31, 2**31, *lengths[2:]], [*lengths[:-2], 2**32 - 1, len(joined) + 1]]
        for other in (*off, [2**32 - 1] * len(lengths), [0] * len(lengths), [len(joined)]):
            yield from (shown.written(lengths=other), shown.found(lengths=other))
        for other in (joined + b"\0", joined[:-1], b""):
            yield from (shown.written(joined=other), shown.found(joined=other))


def fixed_find_refusals(world):
    """Each refusal of the finder's records at the first, a middle and the last, alone and by twos; its buffers; a size that is none."""
    for shown in (passage_in(world, 7, (1, 2, 5)), long_passage(world, range(13, 53)), long_passage(world, range(40, 296))):
        wrong = [(place, record) for place in at_each(shown) for record in (world.longer, b"other record")]
        for several in (*((one,) for one in wrong), *itertools.combinations(wrong, 2)):
            own = list(shown.own)
            for place, record in several:
                own[place] = record
            yield shown.found(own=own)
        for rooms in ((63, 64), (64, 63), (0, 0), (65, 70)):
            yield shown.found(rooms)
        for size in (0, 2, shown.size - 1, shown.size + 1, FULL, MOST):
            yield from (shown.found(size=size), shown.checked(size=size), shown.written(size=size))


def fixed_damaged(world):
    """Letters with every byte damaged and cut at every length: checked and compared, and some of them handed out; every two digests changed about."""
    for leaves, indexes in ((1, (0,)), (7, (1, 2, 5)), (7, (0, 6)), (11, (8, 9))):
        shown = passage_in(world, leaves, indexes)
        for turn, other in enumerate(damaged(shown.letter)):
            yield from (shown.checked(other), shown.found(letter=other))
            if turn % 6 < 2:
                yield from (shown.entry(len(indexes) - 1, other), shown.entries((len(indexes),) * 3, other))
        for place in range(NODE):
            yield shown.checked(top=flipped(shown.top, place, 1 << place % 8))
        for length in (0, 31, 33):
            yield shown.checked(top=(shown.top + b"\0")[:length])
        yield from (shown.checked(other) for other in changed_about(shown))


def by_twos(several):
    """A list with every two of its elements changed about."""
    for one, other in itertools.combinations(range(len(several)), 2):
        yield [several[{one: other, other: one}.get(place, place)] for place in range(len(several))]


def changed_about(shown):
    """The letter with every two digests, every two records and every two indexes changed about; with a digest more, and one less."""
    size, indexes, digests, records = shown.size, shown.indexes, digests_in(shown.letter), records_in(shown.letter)
    yield from (passage_bytes(size, indexes, records, others) for others in by_twos(digests))
    yield from (passage_bytes(size, indexes, others, digests) for others in by_twos(records))
    yield from (passage_bytes(size, others, records, digests) for others in by_twos(indexes))
    for others in ([*digests, bytes(NODE)], digests[1:], digests[:-1], digests[::-1]):
        yield passage_bytes(size, indexes, records, others)


def fixed_fields(world):
    """Every field of a long letter with other numbers in it, at the first record, a middle one and the last."""
    shown = long_passage(world, range(13, 53))
    entries = list(entries_in(shown.letter))
    numbers = {(8, PASSAGE_HEAD): (0, 1, 39, 41, 256, 257, 2**16 - 1), (0, 8): (0, 1, shown.size - 1, MOST)}
    for place in at_each(shown):
        index, start, length = entries[place][1:]
        numbers[start - ENTRY_HEAD, start - 4] = (0, index - 1, index + 1, index + 2, LONG, 2**32, 2**63, MOST)
        numbers[start - 4, start] = (0, 1, length + 1, length + 32, LONGEST_RECORD, LONGEST_RECORD + 1, 2**31, 2**32 - 1)
    for (start, end), others in numbers.items():
        for other in others:
            letter = shown.letter[:start] + other.to_bytes(end - start, "big") + shown.letter[end:]
            yield from (shown.checked(letter), shown.found(letter=letter), shown.entries((40, 40, 40), letter))
    for entry in entries:
        for length in (entry.start - ENTRY_HEAD, entry.start - 1, entry.start, entry.start + entry.length):
            yield shown.checked(shown.letter[:length])


def fixed_node_damage(world):
    """Every node damaged in turn, in the walk and beside it, for requests that close much of the log, some of it and none; written and compared."""
    for leaves, indexes in ((1, (0,)), (7, (1, 2, 5)), (7, (1, 2)), (7, (6,)), (11, (9,)), (11, range(11)), (15, (0,)), (16, (3, 12))):
        shown = passage_in(world, leaves, indexes)
        for position, by in itertools.product(range(shown.size), (0, 31)):
            nodes = flipped(shown.nodes, NODE * position + by)
            yield from (shown.found(nodes=nodes), shown.written(nodes=nodes))
        yield from (shown.found(nodes=shown.nodes + b"\x3c" * 33), shown.found(nodes=shown.nodes[:-1]), shown.written(nodes=shown.nodes[:-1]))
    shown = long_passage(world, range(13, 53))
    for position in range(0, shown.size, 5):
        yield shown.found(nodes=flipped(shown.nodes, NODE * position))


def fixed_far(world):
    """Letters of logs that nobody has built, of up to 2^32 leaves, whose digests decide on the root; one byte short, one long; long records."""
    last, chosen = MOST_LEAVES - 1, [(MOST_LEAVES, (0,)), (2**31 + 1, (2**31,)), (2**32 - 1, (5, 2**32 - 2))]
    for leaves, indexes in (*chosen, (MOST_LEAVES, (0, 1, 2, last)), (2**20, range(7, 47)), (2**20 + 1, range(2**20 - 39, 2**20 + 1)),
                            (2**24 + 5, [place << 16 for place in range(40)])):
        records = [bytes([place % 256]) * (place % 3) for place in range(len(indexes))]
        digests = [bytes((3 * place + by) % 256 for by in range(NODE)) for place in range(len(closed(leaves, indexes)))]
        for own in (records, [bytes(LONGEST_RECORD), *records[1:]], [*records[:-1], bytes(LONGEST_RECORD + 1)]):
            letter, size = passage_bytes(nodes_of(leaves), indexes, own, digests), nodes_of(leaves)
            top = by_letter(leaves, letter, world.digest)[0]
            for shown in (letter, letter[:-1], letter + b"\0", letter[:-NODE], flipped(letter, len(letter) - 1)):
                yield passage_check_case(size, top, shown, world.mode)
            yield passage_entries_case(size, top, letter, (len(indexes),) * 3, world.mode)


def fixed_passages(world):
    """All of them."""
    return itertools.chain(fixed_subsets(world), fixed_lengths(world), fixed_longer(world), fixed_write_refusals(world), fixed_lists(world),
                           fixed_find_refusals(world), fixed_damaged(world), fixed_fields(world), fixed_node_damage(world), fixed_far(world))
