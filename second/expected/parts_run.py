"""What parts_run must write."""
import functools

from expected.digest_run import LENGTHS
from expected.given import LEAGUES, numbers_line, run_record
from rules.blake3 import BLOCK, CHUNK, PLAIN, digest
from rules.log import LONGEST_RECORD
from rules.parts import MOST_BYTES, PLACES, WORDS, State, add, begin, end

BYTES = run_record(0, LONGEST_RECORD + 1)
# Rows of cuts: the length of the parts, how many there are, and how many bytes come behind them at once.
CUTS = (
    *((length, 1, 0) for length in LENGTHS),
    *((edge + by, 1, more) for edge in (BLOCK, CHUNK, 4 * CHUNK) for by in range(-2, 3) for more in (1, BLOCK)),
    (0, 3, 1), (1, 65, 1), (1, 1025, 3000), (1, 4097, 0), (7, 150, 5000), (63, 66, 5000), (64, 80, 0), (1024, 5, 9000), (1500, 10, 1),
    (4096, 3, 4097), (5000, 2, 6385),
)
# Rows of states: total, held, stacked, and how many bytes are added. Counts of some totals, and each of them wrong by one;
OFF = ((0, 0, 0, 0), (0, 1, 0, 0), (0, 0, 1, 0), (1, 0, 0, 1), (1, 2, 0, 1), (64, 0, 0, 1), (64, 63, 0, 1), (64, 65, 0, 1), (1024, 64, 0, 1),
       (1024, 63, 0, 1), (1024, 0, 1, 1), (1024, 64, 1, 0), (1025, 1, 1, 1), (1024, 1, 1, 1), (1026, 1, 1, 1), (1025, 0, 1, 0), (1025, 2, 1, 0),
       (1025, 1, 0, 1), (1025, 1, 2, 1))
# a stack too high or too low;
STACKS = (*((4096, 64, stacked, 1) for stacked in (2, 1, 3)), *((4097, 1, stacked, 1) for stacked in (1, 0, 2)), (4097, 1, 2**32 - 1, 0))
# totals at the limit and beyond it;
LIMITS = (*((MOST_BYTES - 5, 59, 30, more) for more in (0, 5, 6)), *((MOST_BYTES - CHUNK, 64, 29, more) for more in (CHUNK, CHUNK + 1)),
          *((MOST_BYTES, 64, 30, more) for more in (0, 1)), (MOST_BYTES, 63, 30, 0), (MOST_BYTES, 64, 29, 0), (MOST_BYTES, 64, 31, 0),
          *((MOST_BYTES + 1, 1, 1, more) for more in (0, 1)), *((2**64 - 1, 63, 54, more) for more in (0, 1, 2)))
# and counts that are their total's.
RIGHT = ((0, 0, 0, 1025), (0, 0, 0, 9000), (1, 1, 0, 63), (63, 63, 0, 2), (1024, 64, 0, 0), (1025, 1, 1, 7168), (3072, 64, 1, 1), (4096, 64, 2, 5000),
         (2**32, 64, 22, 1))
shown = functools.lru_cache(maxsize=None)(digest)


def end_line(state):
    """What a state ends in."""
    number, ended = end(state)
    return f" {number} {ended.hex()}"


def added_line(number, state):
    """What came of a part: the number, the state's numbers, two words of its stack, the digest of its block, and what it ends in."""
    return f":{numbers_line(number, *state[:4], state.stack[WORDS], state.stack[-1])} {shown(state.block).hex()}{end_line(state)}"


def cut_line(mode, length, count, more):
    """An input in parts of one length, and more bytes behind them, whose digest is held to that of the whole."""
    state = begin(mode)
    for place in range(count):
        state = add(state, BYTES[length * place:length * (place + 1)]).state
    total = length * count + more
    number, state = add(state, BYTES[length * count:total])
    if (number, *end(state)) != (0, 0, mode(BYTES[:total])):
        raise ValueError(f"the digest of {total} bytes in parts is not that of the whole")
    return f" {numbers_line(length, count, more)}{added_line(number, state)}"


def state_lines(state):
    """With the counts of each row: what the state ends in, and what comes of bytes that are added to it."""
    for total, held, stacked, more in (*OFF, *STACKS, *LIMITS, *RIGHT):
        with_counts, row = state._replace(total=total, held=held, stacked=stacked), f" {numbers_line(total, held, stacked, more)}"
        yield row + end_line(with_counts)
        yield row + added_line(*add(with_counts, BYTES[:more]))


def any_state(keyed):
    """A state with anything in its other fields."""
    return State(0, 0, 0, keyed, (0x01020304,) * WORDS, (0x11121314,) * WORDS, (0x21222324,) * WORDS * PLACES, b"\x31" * BLOCK)


def expect_parts_run():
    """Cuts and states, plain and keyed; then states with anything in them."""
    lines = []
    for name, mode in (("plain", PLAIN), ("keyed", LEAGUES[0])):
        lines += [name, *(cut_line(mode, *row) for row in CUTS), *state_lines(begin(mode))]
    lines += ["anything", *state_lines(any_state(0)), *state_lines(any_state(2**31))]
    return "".join(line + "\n" for line in lines)
