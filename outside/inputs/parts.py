"""The fixed cases of digests in parts: a byte behind every length, every two edges, empty parts, counts that are off, limits, states of any bytes."""
import itertools
import random

from calls import BEFORE_STATE, add_case, begin_case, cut_case, end_case, flipped, mode_bytes
from expected.given import KEYS
from inputs.world import packed
from rules.blake3 import BLOCK, CHUNK, words_of
from rules.log import NODE
from rules.parts import MOST_BYTES, PLACES, WORDS, State, held_of, stacked_of

STATE = len(BEFORE_STATE)
# Lengths around blocks, chunks, four chunks and more.
EDGES = sorted({0, 1, 2, *(edge + by for edge in (64, 128, 1024, 1088, 2048, 3072, 4096, 5120, 8192) for by in (-2, -1, 0, 1, 2)), 16383, 16384})
# Lengths behind which one byte is added.
EACH = (*range(1100), *range(2040, 2060), *range(3070, 3080), *range(4090, 4110), *range(8190, 8200))
# Totals at the limit and beyond; totals of states that nobody made.
LIMITS = (*range(MOST_BYTES - 7, MOST_BYTES + 3), MOST_BYTES - CHUNK, MOST_BYTES - CHUNK + 1, 2**41, 2**63, 2**64 - 64, 2**64 - 1)
TOTALS = (0, 1, 64, 1024, 1025, 3073, 2**32, MOST_BYTES - 5, MOST_BYTES)


def any_state(chance, total, keyed):
    """A state of that total, with its counts and with any bytes in the other fields."""
    key, chain, stack = (words_of(chance.randbytes(4 * WORDS * results)) for results in (1, 1, PLACES))
    return State(total, held_of(total), stacked_of(total) % 2**32, keyed, key, chain, stack, chance.randbytes(BLOCK))


def fixed_begins(world):
    """States begun over other bytes, in modes of other numbers and keys, and in any 36 bytes."""
    chance = random.Random("begins")
    numbers = (0, 1, 2, 256, 2**24, 2**31, 2**32 - 1)
    modes = [world.mode, *(mode_bytes(number, key) for number, key in itertools.product(numbers, (*KEYS, bytes(32))))]
    for mode in (*modes, *(chance.randbytes(36) for _ in range(10))):
        yield from (begin_case(mode, before) for before in (BEFORE_STATE, bytes(STATE), b"\xff" * STATE))


def fixed_adds(world):
    """From every edge to every later one; one byte behind every length; and the end at each of them, into 32 bytes, one less, one more and none."""
    for start, end in itertools.combinations(EDGES, 2):
        yield add_case(packed(world.state(start)), world.longer[start:end])
    for length in EACH:
        yield add_case(packed(world.state(length)), world.longer[length:length + 1])
        yield end_case(packed(world.state(length)), NODE)
    for length, room in itertools.product(EDGES, (0, NODE - 1, NODE, NODE + 1)):
        yield end_case(packed(world.state(length)), room)


def fixed_cuts(world):
    """An input in parts of one length, from the begin to the end; and with empty parts."""
    for length, step in itertools.product((0, 1, 64, 65, 1023, 1024, 1025, 4096, 4097, 9000, 16385), (1, 3, 63, 64, 65, 1024, 1500, 4096, 5000)):
        if length < 5000 or step > 60:
            lengths = [min(step, length - at) for at in range(0, length, step)]
            yield cut_case(world.longer[:length], lengths, world.mode)
            yield cut_case(world.longer[:length], [0, *itertools.chain(*zip(lengths, itertools.repeat(0)))], world.mode)


def fixed_empty(world):
    """An empty part, with zeros and with anything where nothing is meant; the same with a byte, which leaves zeros there."""
    for length, part in itertools.product(EDGES, (b"", b"\5")):
        state = world.state(length)
        other = state._replace(stack=state.stack[:WORDS * state.stacked] + (7,) * WORDS * (PLACES - state.stacked),
                               block=state.block[:state.held].ljust(BLOCK, b"\xdd"))
        yield add_case(packed(other), part)
        yield end_case(packed(other), NODE)
        if not part:
            yield add_case(packed(state), part)


def fixed_counts(world):
    """Every bit of the total, of the bytes held and of the subtrees stacked; each count wrong by one, and by more; at the end 17 comes before 6."""
    chance = random.Random("counts")
    for total, bit in itertools.product(TOTALS, range(160)):
        state = flipped(packed(any_state(chance, total, world.mode[0])), bit // 8, 1 << bit % 8)
        yield add_case(state, (b"", b"\5")[bit % 2]) if bit % 4 else end_case(state, (NODE, NODE - 1)[bit % 8 // 4])
    for total, name, by in itertools.product(TOTALS, ("total", "held", "stacked"), (1, -1, 2, -2, 30, 64, 1024)):
        state = any_state(chance, total, world.mode[0])
        if 0 <= getattr(state, name) + by:
            other = packed(state._replace(**{name: getattr(state, name) + by}))
            yield from (add_case(other, b""), add_case(other, b"\5" * 70), *(end_case(other, room) for room in (0, NODE - 1, NODE, NODE + 1)))


def fixed_limits(world):
    """Totals at 2^40 and beyond, with the counts that they would have, and parts that end there, before it or behind it."""
    chance = random.Random("limits")
    for total in LIMITS:
        state = packed(any_state(chance, total, world.mode[0]))
        yield from (add_case(state, world.longer[:length]) for length in (0, 1, 2, 5, 6, 7, 64, 100, CHUNK - 1, CHUNK, CHUNK + 1))
        yield end_case(state, NODE)


def fixed_any(world):
    """States of any total with anything in them, and long parts behind them; one of them with each fourth byte changed; and any bytes at all."""
    chance = random.Random("any")
    for _ in range(120):
        around = chance.randrange(1, 20) * CHUNK + chance.randrange(-1, 2)
        total = chance.choice((chance.randrange(1100), around, chance.getrandbits(chance.randrange(41))))
        state = packed(any_state(chance, total, chance.choice((world.mode[0], 2, 2**31))))
        for length in (0, 1, BLOCK - total % BLOCK, CHUNK - total % CHUNK + 1, chance.randrange(3000)):
            yield add_case(state, chance.randbytes(length))
        yield end_case(state, NODE)
    for total, length in itertools.product((0, 1, 64, 1024, 4096, 12288), (4096, 4097, 5121, 9000)):
        yield add_case(packed(any_state(chance, total, world.mode[0])), world.longer[:length])
    state = packed(any_state(chance, MOST_BYTES - 2000, world.mode[0]))
    for place in range(world.mode[0], STATE, 4):  # other places under a key
        yield end_case(flipped(state, place, 1 << place % 8), NODE)
        yield add_case(flipped(state, place, 1 << place % 8), world.longer[:BLOCK + 1])
    for data in (bytes(STATE), b"\xff" * STATE, BEFORE_STATE, *(chance.randbytes(STATE) for _ in range(20))):
        yield from (add_case(data, b""), add_case(data, b"\5"), end_case(data, NODE), end_case(data, NODE - 1))


def fixed_parts(world):
    """All of them."""
    return itertools.chain(fixed_begins(world), fixed_adds(world), fixed_cuts(world), fixed_empty(world), fixed_counts(world), fixed_limits(world),
                           fixed_any(world))
