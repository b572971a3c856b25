"""The layout of a mode and of a state from both sides: as the C compiler has it from the header, and as the library fills and reads their bytes."""
import itertools

from calls import add_case, begin_case, end_case, flipped, layout_case, mode_bytes, mode_keyed_case, mode_plain_case, state_bytes, u32, u64
from rules import parts
from rules.blake3 import Mode, bytes_of

# A mode: its size; where its number stands, and how long it is; where its key stands, and how long that is.
LAYOUT = [36, 0, 4, 4, 32]
# A state: its size; then the same of total, held, stacked, keyed, key, chain, stack and block.
STATE = [1112, 0, 8, 8, 8, 16, 4, 20, 4, 24, 32, 56, 32, 88, 960, 1048, 64]
KEYED_AT = range(20, 24)
KEY = bytes(range(65, 97))
# More bytes than a mode or a state has, twice, with nothing in common.
FILLS = (b"\x11" * 1200, b"\xee" * 1200)
# An input whose state has other numbers in all counts, no two of which can be taken for each other: two subtrees, and 37 bytes in the block.
INPUT = bytes(5 * place % 251 for place in range(5 * 1024 + 37))


def parts_after(bridge, case):
    """The parts at return; an empty one where the bridge has ended."""
    answer = bridge.ask(0, case)
    return answer.parts if answer else [b""]


def filled_by(bridge, make):
    """The first bytes of what is lent as far as a call fills them, whatever they were before: two calls over other bytes agree there."""
    one, other = (parts_after(bridge, make(before))[-1] for before in FILLS)
    return bytes(a for a, b in zip(one, other) if a == b)


def mode_agrees(bridge, compiled):
    """Whether size and offsets of a mode are the same on both sides."""
    keyed, plain = (filled_by(bridge, make) for make in (lambda before: mode_keyed_case(KEY, before), mode_plain_case))
    by_library = [len(keyed), keyed.find(1), keyed.find(KEY) - keyed.find(1), keyed.find(KEY), len(KEY)]
    good = compiled == by_library == LAYOUT and keyed == mode_bytes(1, KEY) and plain == bytes(LAYOUT[0])
    print(f"outside: a mode's size, offset and length of its number, and of its key: {compiled} by the compiler, {by_library} by the library"
          + ("" if good else f", but {LAYOUT} is expected"))
    return good


def found_in(state):
    """Where the fields of the state of that input are, found by what they hold."""
    trees = bytes_of(parts.add(parts.begin(Mode(1, KEY)), INPUT).state.stack[:2 * parts.WORDS])
    total, held, stacked, key = state.find(u64(len(INPUT))), state.find(u64(37)), state.find(u32(2) + u32(1)), state.find(KEY)
    return [total, held, stacked, stacked + 4, key, state.find(KEY, key + 1), state.find(trees), state.find(INPUT[-37:] + bytes(27))]


def written_by(bridge):
    """A state's size and fields as the library writes them: begun over other bytes, then added to; and whether the bytes behind it stay."""
    begun = filled_by(bridge, lambda before: begin_case(mode_bytes(1, KEY), before))
    state = parts_after(bridge, add_case(begun + FILLS[0], INPUT))[-1]
    starts = found_in(state[:len(begun)])
    each = ([start, end - start] for start, end in itertools.pairwise([*starts, len(begun)]))
    return [len(begun), *itertools.chain(*each)], state[len(begun):] == FILLS[0]


def read_by(bridge, size):
    """What the library reads of a state that has everything in use: for each byte, and some behind it, what a change of it changes at the end."""
    fields = [bytes([11 + number] * length) for number, length in enumerate((32, 32, 960, 64))]
    states = [state_bytes(2**40, 64, 30, keyed, *fields) + bytes(16) for keyed in (0, 1)]
    digests = [parts_after(bridge, end_case(state, 32))[-1] for state in states]
    for place in range(size + 16):
        keyed = place not in KEYED_AT
        answer = bridge.ask(0, end_case(flipped(states[keyed], place), 32))
        yield answer and ("number" if answer.number == 17 else "digest" if answer.parts[-1] != digests[keyed] else "nothing")


def state_agrees(bridge, compiled):
    """Whether size and offsets of a state are the same on both sides, as it is written and as it is read."""
    by_library, stay = written_by(bridge)
    read = [(what, len(list(run))) for what, run in itertools.groupby(read_by(bridge, STATE[0]))]
    good = compiled == by_library == STATE and stay and read == [("number", KEYED_AT.start), ("digest", STATE[0] - KEYED_AT.start), ("nothing", 16)]
    print(f"outside: a state's size, offset and length of each field: {compiled} by the compiler, {by_library} by the library"
          + ("" if good else f", but {STATE} is expected; read: {read}; bytes behind it {'stay' if stay else 'change'}"))
    return good


def layout_agrees(bridge):
    """Whether the layout of both is the same on both sides."""
    compiled = [[int.from_bytes(part[at:at + 8], "little") for at in range(0, len(part), 8)] for part in parts_after(bridge, layout_case())]
    return mode_agrees(bridge, compiled[0]) and state_agrees(bridge, compiled[-1])
