"""The random cases: a true input with some of its parts changed, or none."""
from calls import PLAIN, Case, flipped, u32
from inputs.chance_passages import (random_far_check, random_passage_check, random_passage_entries, random_passage_entry, random_passage_find,
                                    random_passage_write)
from inputs.choices import any_given, any_lengths, any_nodes
from inputs.parts import STATE, any_state
from inputs.world import EDGES, LEAGUES, LEAVES, packed
from rules import letters, shape, stored
from rules.finder import PAIR
from rules.log import LONGEST_RECORD, NODE
from rules.parts import MOST_BYTES
from rules.shape import MOST_LEAVES, nodes_of


def with_field(chance, letter):
    """A letter with one of its numbers replaced: size, index or record length."""
    start, end = chance.choice(((0, 8), (8, 16), (16, 20)))
    old = int.from_bytes(letter[start:end], "big")
    number = chance.choice((old + 1, max(old - 1, 0), old ^ 1 << chance.randrange(8 * (end - start)), chance.choice(EDGES), chance.number()))
    return letter[:start] + (number % 256 ** (end - start)).to_bytes(end - start, "big") + letter[end:]


def with_items(chance, letter):
    """A letter with an item more, one less, two changed about, or another record in front of the same items."""
    items, record = letters.items_in(letter), letters.record_in(letter)
    how = chance.randrange(4)
    if how == 0 or not items:
        items = items + [chance.randbytes(NODE)]
    elif how == 1:
        items.pop(chance.randrange(len(items)))
    elif how == 2:
        chance.shuffle(items)
    else:
        record = chance.damage(record)
    return letters.letter_bytes(letters.size_in(letter), letters.index_in(letter), record, items)


def any_letter(chance, world, leaves, index):
    """A letter of the log, or one that was changed, or another's."""
    letter = world.letter(leaves, index)
    how = chance.randrange(8)
    if how < 3:
        return letter
    if how == 3:
        return with_field(chance, letter)
    if how == 4:
        return with_items(chance, letter)
    if how == 5:
        others = chance.randrange(1, LEAVES + 1)
        return world.letter(others, chance.randrange(others))
    return chance.damage(letter)


def random_digest(chance, world, given):
    return Case("digest", (), [world.mode, given.record, chance.out(NODE)])


def any_length(chance, most):
    """A length: small, around a block or a chunk, or any."""
    around = chance.choice((64, 1024, 1024, 4096)) * chance.randrange(9) + chance.randrange(-2, 3)
    return min(max(chance.choice((chance.randrange(70), around, around, chance.randrange(most + 1))), 0), most)


def any_counts(chance, state):
    """A state with one of its numbers replaced."""
    name = chance.choice(("total", "held", "stacked", "keyed"))
    value = getattr(state, name)
    other = chance.choice((value + 1, max(value - 1, 0), value ^ 1 << chance.randrange(32), chance.number()))
    return state._replace(**{name: other % 2 ** (64 if name in ("total", "held") else 32)})


def any_parts(chance, world):
    """A state as C has it, and how many bytes of the world's input it has taken: a true one, one of any bytes and true counts, or a damaged one."""
    length = any_length(chance, LONGEST_RECORD)
    total = chance.choice((length, chance.number() % (MOST_BYTES + 1), MOST_BYTES - chance.randrange(2000), MOST_BYTES + chance.randrange(3)))
    made = chance.often(world.state(length), any_state(chance, total, chance.choice((world.mode[0], 0, 1, chance.getrandbits(32)))))
    state = packed(chance.often(made, made, any_counts(chance, made)))
    return chance.often(state, state, flipped(state, chance.randrange(STATE), chance.randrange(1, 256)), chance.randbytes(STATE)), length


def random_parts_begin(chance, world, given):
    return Case("parts_begin", (), [world.mode, chance.randbytes(STATE)])


def random_parts_add(chance, world, given):
    state, taken = any_parts(chance, world)
    length = any_length(chance, 5000)
    part = chance.often(world.longer[taken:taken + length], world.longer[taken:taken + length], b"", chance.randbytes(length % 300))
    return Case("parts_add", (), [part, state])


def random_parts_end(chance, world, given):
    return Case("parts_end", (), [any_parts(chance, world)[0], chance.out(NODE)])


def random_parts_cut(chance, world, given):
    """An input in parts of any lengths, many of them empty."""
    length, lengths = any_length(chance, LONGEST_RECORD + 1), []
    most = chance.choice((3, 70, 1100, 5000))
    while sum(lengths) < length and len(lengths) < 200:
        lengths.append(min(chance.often(chance.randrange(most), 0), length - sum(lengths)))
    shown = b"".join(map(u32, [*lengths, length - sum(lengths)]))
    return Case("parts_cut", (), [world.mode, world.longer[:length], shown, chance.randbytes(STATE), chance.randbytes(NODE + chance.randrange(3))])


def random_number(chance, world, given):
    call = chance.choice(("size", "leaf_position", "leaf_count"))
    return Case(call, (chance.choice((given.size, given.leaves, chance.number(), chance.choice(EDGES))),), [chance.variable()])


def random_append(chance, world, given):
    nodes = any_nodes(chance, world, given.leaves, NODE * nodes_of(given.leaves + 1))
    return Case("append", (given.size,), [world.mode, given.record, nodes, chance.variable(), chance.variable()])


def random_append_many(chance, world, given):
    count = chance.choice((0, 1, 2, 3, chance.randrange(12), chance.randrange(41)))
    records = [world.records[(given.leaves + place) % LEAVES] for place in range(count)]
    if records and chance.random() < 1 / 3:
        records[chance.randrange(count)] = given.record
    joined, lengths = b"".join(records), [len(record) for record in records]
    nodes = any_nodes(chance, world, given.leaves, NODE * nodes_of(given.leaves + chance.often(count, chance.randrange(count + 2))))
    shown = b"".join(map(u32, chance.often(lengths, lengths, any_lengths(chance, lengths))))
    return Case("append_many", (given.size,), [world.mode, joined, shown, nodes, chance.variable(), chance.variable()])


def random_root(chance, world, given):
    nodes = any_nodes(chance, world, given.leaves, NODE * nodes_of(given.leaves))
    return Case("root", (given.size,), [world.mode, nodes, chance.out(NODE)])


def random_letter_write(chance, world, given):
    index = chance.often(given.index, given.leaves, chance.randrange(given.leaves), chance.number())
    nodes = any_nodes(chance, world, given.leaves, NODE * nodes_of(given.leaves))
    out = chance.out(len(world.letter(given.leaves, given.index)))
    return Case("letter_write", (given.size, index), [world.mode, given.record, nodes, out, chance.variable()])


def random_letter_check(chance, world, given):
    top, letter = world.root(given.leaves), any_letter(chance, world, given.leaves, given.index)
    return Case("letter_check", (given.size,), [world.mode, chance.bytes_like(top), letter, *(chance.variable() for _ in range(3))])


def random_large_check(chance, world, given):
    """A letter of a log that nobody has built, of up to 2^32 leaves, and the root that its items decide on."""
    leaves = min(chance.getrandbits(chance.randrange(1, 34)) + 1, MOST_LEAVES)
    index = chance.randrange(leaves)
    items = [chance.randbytes(NODE) for _ in shape.items_of(leaves, index)]
    letter = letters.letter_bytes(nodes_of(leaves), index, chance.randbytes(chance.randrange(40)), items)
    top = letters.worked_root(leaves, letter, world.digest)
    shown = chance.often(letter, with_field(chance, letter), with_items(chance, letter), chance.damage(letter))
    return Case("letter_check", (nodes_of(leaves),), [world.mode, chance.bytes_like(top), shown, *(chance.variable() for _ in range(3))])


def random_find(chance, world, given):
    nodes = any_nodes(chance, world, given.leaves, NODE * nodes_of(given.leaves))
    letter = any_letter(chance, world, given.leaves, given.index)
    return Case("find", (given.size,), [world.mode, nodes, given.record, letter, chance.out(PAIR), chance.out(PAIR), chance.randbytes(4)])


def random_store_leaf(chance, world, given):
    return Case("store_leaf", (), [world.mode, given.record, chance.out(37 + len(given.record)), chance.variable()])


def random_store_inner(chance, world, given):
    return Case("store_inner", (), [chance.bytes_like(world.digest(given.record)), chance.out(33), chance.variable()])


def any_leaf(chance, world, record):
    """A stored leaf: true, or with another record, another's digest, or both of one other record."""
    other = chance.choice((chance.damage(record), chance.choice(world.records)))[:LONGEST_RECORD]
    shown, hashed = chance.often((record, record), (other, record), (record, other), (other, other))
    return stored.stored_leaf(shown, lambda _: world.digest(hashed))


def random_read_node(chance, world, given):
    leaf, inner = any_leaf(chance, world, given.record[:LONGEST_RECORD]), stored.stored_inner(world.digest(given.record))
    data = chance.bytes_like(chance.often(leaf, inner))
    return Case("read_node", (), [world.mode, data, chance.randbytes(4), chance.out(NODE), chance.variable(), chance.variable()])


# Each kind of random case, and how often it is taken.
RANDOM = {
    random_digest: 1, random_parts_begin: 1, random_parts_add: 4, random_parts_end: 3, random_parts_cut: 3, random_number: 2, random_append: 3,
    random_append_many: 3, random_root: 2, random_letter_write: 3, random_letter_check: 3, random_large_check: 1, random_find: 4,
    random_store_leaf: 1, random_store_inner: 1, random_read_node: 1, random_passage_write: 2, random_passage_check: 2, random_passage_entry: 1,
    random_passage_entries: 1, random_far_check: 1, random_passage_find: 3,
}
# Those of calls that work out no digest, and have no mode.
NO_MODE = (random_number, random_store_inner)
# Those of calls that have it in a state.
IN_STATE = (random_parts_add, random_parts_end)


def any_kind(chance):
    """A kind of random case."""
    kind, = chance.choices(list(RANDOM), RANDOM.values())
    return kind


def random_case(chance, world):
    """A case of any call."""
    return any_kind(chance)(chance, world, any_given(chance, world))


def any_mode(chance, mode):
    """A keyed mode: often the one that is given, else one with another number, of another key, or plain with a key that means nothing."""
    key = mode[4:]
    other = (1 << chance.randrange(32)).to_bytes(4, "little")
    return chance.often(mode, other + key, other + key, *LEAGUES, bytes(4) + key, PLAIN)


def random_keyed_cases(chance, own, world):
    """The case of the same choices in a keyed world, where it has a mode, which is chosen by itself."""
    kind = any_kind(chance)
    if kind not in NO_MODE:
        case = kind(chance, world, any_given(chance, world))
        yield case if kind in IN_STATE else case._replace(parts=[any_mode(own, world.mode), *case.parts[1:]])
