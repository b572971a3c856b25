"""The rule of the digest in parts (RULES 5.7) tried: on cuts, beside the tree of the whole, on states of any values, and on wrong rules, which are
told from it."""
import functools
import itertools
import random
from unittest import mock

from expected.given import LEAGUES, counting_bytes
from rules import parts
from rules.blake3 import BLOCK, CHUNK, CHUNK_END, CHUNK_START, PLAIN, ROOT, Mode, bytes_of, compress, tree_words, words_of
from rules.parts import MOST_BYTES, PLACES, WORDS, Added, Ended, State, held_of, stacked_of, starts, trees_of
from rules.shape import peaks_of, trailing_ones

LONGEST = 9300
DATA = counting_bytes(LONGEST)
EDGES = (BLOCK, CHUNK, 4 * CHUNK)
# Lengths of parts that an input is cut into, over and over.
STEPS = (1, 7, 63, 64, 65, 1000, 1023, 1024, 1025, 1500, 4095, 4096, 4097)
# Totals of states that nobody has to have made.
TOTALS = (0, 1, 63, 64, 65, 1023, 1024, 1025, 2048, 3072, 3073, 4096, 4097, 7168, 2**32 - 5, 2**32, 2**39 + 1, MOST_BYTES - 5, MOST_BYTES)


def in_parts(mode, data, length=1500):
    """The digest of the data in parts of one length."""
    state = parts.begin(mode)
    for at in range(0, len(data), length):
        state = parts.add(state, data[at:at + length]).state
    return parts.end(state).digest


# ---- what is tried: cuts of an input, and states with a part


def in_steps(length, step):
    """So many bytes in parts of one length, the last of which may be shorter."""
    return [min(step, length - at) for at in range(0, length, step)]


def cuts():
    """Each input as the lengths of its parts: cut at every place of a short one, and around each edge, byte by byte, in steps, with empty parts."""
    yield from ([], [0], [0, 0, 0], [1], [0, 1, 0])
    yield from ([at, 130 - at] for at in range(131))
    for edge in EDGES:
        around = range(edge - 2, edge + 3)
        yield from ([at, more] for at, more in itertools.product(around, (0, 1, BLOCK, BLOCK + 1, CHUNK)))
        yield from ([at, to - at, 0] for at, to in itertools.product((1, edge // 2, edge - 2), around))
        yield from ([at, edge, CHUNK - 1] for at in around)
    yield from (in_steps(LONGEST if step > 1 else 4 * CHUNK + 3, step) for step in STEPS)
    yield [4 * CHUNK, 0, 1, 0, 1023, 0, 2 * CHUNK, 0]


def any_state(total, mode, chance):
    """A state of that total whose other fields have any values: its counts are the total's."""
    key, chain, stack = (words_of(chance.randbytes(4 * WORDS * results)) for results in (1, 1, PLACES))
    return State(total, held_of(total), stacked_of(total), mode.keyed, key, chain, stack, chance.randbytes(BLOCK))


def off_counts(state):
    """The state with each count wrong by one, and by more; and its counts under a total that is too high."""
    for name in ("total", "held", "stacked"):
        value = getattr(state, name)
        yield from (state._replace(**{name: value + by}) for by in (1, -1, 32, 64) if 0 <= value + by)
    yield from (state._replace(total=total, held=held_of(total), stacked=stacked_of(total)) for total in (MOST_BYTES + 1, 2 * MOST_BYTES, 2**64 - 1))


def asked():
    """Calls on states of any values, in every mode: what is called, and with what."""
    chance = random.Random("parts")
    for total, mode in itertools.product(TOTALS, (PLAIN, Mode(1, b""), Mode(2**31, b""))):
        state = any_state(total, mode, chance)
        lengths = {length for length in (0, 1, 5, 6, 64, 65, 1088) if length < 64 or mode.keyed != 1}
        yield from (("add", (state, DATA[:length])) for length in sorted(lengths))
        yield "end", (state,)
        for other in off_counts(state):
            yield from (("add", (other, b"")), ("add", (other, b"\5")), ("end", (other,)))
    for mode in (PLAIN, Mode(0, LEAGUES[0].key), *LEAGUES, *(Mode(number, LEAGUES[0].key) for number in (2, 256, 2**31, 2**32 - 1))):
        yield "begin", (mode,)


# ---- the same once more, from the whole


def begun(mode):
    """The state that has taken nothing, in a mode of number 0 or 1 whose key is zeros where it is plain."""
    return State(0, 0, 0, mode.keyed, words_of(mode.key), mode.starting, (0,) * WORDS * PLACES, bytes(BLOCK))


def tree_state(mode, data):
    """The state that holds the data, by the tree of the whole (RULES 5.4): a subtree on the stack is what the tree has there."""
    last = max(len(data) - 1, 0)
    chunks, chunk_at, block_at = last // CHUNK, last // CHUNK * CHUNK, last // BLOCK * BLOCK
    trees = [tree_words(mode, peak.first, data[CHUNK * peak.first:CHUNK * (peak.first + 2**peak.height)], 0) for peak in peaks_of(chunks)]
    chain, stack = mode.starting, tuple(itertools.chain(*trees))
    for at in range(chunk_at, block_at, BLOCK):
        chain = compress(chain, data[at:at + BLOCK], chunks, BLOCK, mode.flag | (CHUNK_START if at == chunk_at else 0))
    return begun(mode)._replace(total=len(data), held=len(data) - block_at, stacked=len(trees), chain=tuple(chain),
                                stack=stack + (0,) * (WORDS * PLACES - len(stack)), block=data[block_at:].ljust(BLOCK, b"\0"))


# ---- wrong rules: functions of the rules in whose place others stand


right_compressed, right_tidy, right_joined, right_moved = parts.compressed, parts.tidy, parts.joined, parts.moved_on
right_begin, right_add, right_end = parts.begin, parts.add, parts.end


def early(every):
    """A rule that does not hold back the block that ends so many bytes."""
    def tidy(state, total, chain, trees, block):
        if total % every == 0:
            (chain, trees), block = right_moved(parts.mode_of(state), total, chain, trees, block), b""
        return right_tidy(state, total, chain, trees, block)
    return tidy


def other_joins(by):
    """A rule that joins more often, or less."""
    def stacked_on(mode, trees, tree, before):
        trees = list(trees)
        for _ in range(min(max(trailing_ones(before) + by, 0), len(trees))):
            tree = right_joined(mode, trees.pop(), tree)
        return [*trees, tree]
    return stacked_on


def root_on_chunk(chain, block, counter, length, flags):
    last = flags & CHUNK_END and length < BLOCK
    return right_compressed(chain, block, counter, length, flags | ROOT if last else flags)


def first_joined_first(state):
    return right_end(state._replace(stack=tuple(itertools.chain(*reversed(trees_of(state)))) + state.stack[WORDS * state.stacked:]))


def whole_block(state):
    with mock.patch.object(parts, "held_in", lambda state: state.block):
        return right_end(state)


def at_empty(change):
    """A rule that changes the state where a part is empty."""
    def add(state, part):
        answer = right_add(state, part)
        return answer if part or answer.number else Added(0, change(state))
    return add


def tidied(state):
    return right_tidy(state, state.total, state.chain, trees_of(state), parts.held_in(state))


def beginning_again(state, part):
    after = (state.total + len(part)) % 2**64
    return Added(0, state._replace(total=after)) if after <= MOST_BYTES < state.total else right_add(state, part)


def limit_off(by):
    """A rule whose limit for a part is another."""
    def add(state, part):
        after = state.total + len(part)
        if parts.contradicts(state) or not part or after <= MOST_BYTES + min(by, 0):
            return right_add(state, part)
        return Added(17, state) if after > MOST_BYTES + by else Added(0, state._replace(total=after))
    return add


def own_start(mode, total, chain, trees, block):
    return right_moved(mode, total, tuple(mode.starting) if starts(total) else chain, trees, block)


def left_behind(state, total, chain, trees, block):
    made = right_tidy(state, total, chain, trees, block)
    return made._replace(block=block + state.block[len(block):])


def left_above(state, total, chain, trees, block):
    made = right_tidy(state, total, chain, trees, block)
    return made._replace(stack=made.stack[:WORDS * len(trees)] + state.stack[WORDS * len(trees):])


def looking_at(*names):
    """A rule that looks at some of the counts only."""
    def contradicts(state):
        tests = {"total": state.total > MOST_BYTES, "held": state.held != held_of(state.total), "stacked": state.stacked != stacked_of(state.total)}
        return any(tests[name] for name in names)
    return contradicts


# Wrong rules by what is wrong with them: the functions that they have in place of others. Some cut of an input has another digest by these; their own
# counts are not looked at.
WRONG_BY_CUT = {
    "ends a chunk as soon as it is full": {"tidy": early(CHUNK)},
    "compresses a block as soon as it is full": {"tidy": early(BLOCK)},
    "joins once too few": {"stacked_on": other_joins(-1)},
    "joins once too many": {"stacked_on": other_joins(1)},
    "does not number the chunks": {"compressed": lambda chain, block, counter, *rest: right_compressed(chain, block, 0, *rest)},
    "forgets the block at an empty part": {"add": at_empty(lambda state: state._replace(held=0, block=bytes(BLOCK)))},
    "has the root's flag on the last chunk of many": {"compressed": root_on_chunk},
    "has the root's flag on no parent": {"joined": lambda mode, left, right, root=0: right_joined(mode, left, right)},
    "has the root's flag on every parent": {"joined": lambda mode, left, right, root=0: right_joined(mode, left, right, ROOT)},
    "joins right before left": {"joined": lambda mode, left, right, root=0: right_joined(mode, right, left, root)},
    "joins the first subtree first": {"end": first_joined_first},
    "has the start's flag on every block": {"starts": lambda total: CHUNK_START},
    "takes a short block for a full one": {"compressed": lambda *given: right_compressed(*given[:3], BLOCK, given[4])},
    "joins by the starting words under a key": {"joined": lambda mode, *rest: right_joined(Mode(0, b""), *rest)},
}
# Some call on a state is answered in another way by these.
WRONG_BY_CALL = {
    "does not look at the total": {"contradicts": looking_at("held", "stacked")},
    "does not look at the bytes held": {"contradicts": looking_at("total", "stacked")},
    "does not look at the subtrees stacked": {"contradicts": looking_at("total", "held")},
    "lets the total begin again at 2^64": {"add": beginning_again},
    "counts the total in 32 bits": {"tidy": lambda state, total, *rest: right_tidy(state, total % 2**32, *rest)},
    "refuses a part that ends at 2^40": {"add": limit_off(-1)},
    "takes a part that ends at 2^40 + 1": {"add": limit_off(1)},
    "begins each chunk anew": {"moved_on": own_start},
    "leaves bytes behind those held": {"tidy": left_behind},
    "leaves subtrees behind those stacked": {"tidy": left_above},
    "tidies at an empty part": {"add": at_empty(tidied)},
    "hashes the block's bytes behind those held": {"end": whole_block},
    "takes only number 1 for keyed": {"mode_of": lambda state: Mode(int(state.keyed == 1), bytes_of(state.key))},
    "keeps the mode's number": {"begin": lambda mode: right_begin(mode)._replace(keyed=mode.keyed)},
    "keeps a plain mode's key": {"begin": lambda mode: right_begin(mode)._replace(key=words_of(mode.key))},
}


# ---- the checks


def taken(mode, lengths):
    """An input in parts: the state behind each of them, and at last what it ends in. A refusal is its number."""
    state, at = parts.begin(mode), 0
    for length in lengths:
        number, state = parts.add(state, DATA[at:at + length])
        at += length
        if number != 0:
            return number
    return state, parts.end(state)


@functools.lru_cache(maxsize=None)
def whole(mode, length):
    """What the first bytes come to, by the tree: the state, and the digest."""
    return tree_state(mode, DATA[:length]), Ended(0, mode(DATA[:length]))


def check_cuts(mode):
    """How many cuts have the state and the digest of the whole, and of how many."""
    all_cuts = list(cuts())
    return sum(taken(mode, lengths) == whole(mode, sum(lengths)) for lengths in all_cuts), len(all_cuts)


def right_anyway(call, given):
    """Whether a call on a state of any values does as it should: 17 by the counts, nothing changed where it is refused or empty, two parts as one."""
    if call == "begin":
        mode, = given
        return parts.begin(mode) == begun(PLAIN if mode.keyed == 0 else Mode(1, mode.key))
    state, part = (*given, b"")[:2]
    counts = (0, 0) if state.total == 0 else ((state.total - 1) % 64 + 1, len(peaks_of((state.total - 1) // 1024)))
    refused = (state.held, state.stacked) != counts or state.total + len(part) > 2**40
    if call == "end":
        return parts.end(state).number == (17 if refused else 0)
    if refused or not part:
        return parts.add(state, part) == (17 if refused else 0, state)
    half = parts.add(state, part[:len(part) // 2])
    return half.number == 0 and parts.add(half.state, part[len(part) // 2:]) == parts.add(state, part)


def another_cut(swapped):
    """Whether some cut has another digest by a rule with other functions, under a key or under none."""
    with mock.patch.multiple(parts, contradicts=looking_at("total"), **swapped):
        return any(taken(mode, lengths)[1] != whole(mode, sum(lengths))[1] for lengths in cuts() for mode in (PLAIN, LEAGUES[0]))


def another_answer(swapped, calls):
    """Whether one of these calls has another answer by a rule with other functions."""
    right = [getattr(parts, call)(*given) for call, given in calls]
    with mock.patch.multiple(parts, **swapped):
        return any(getattr(parts, call)(*given) != answer for (call, given), answer in zip(calls, right))


def check_parts():
    """Cuts in two modes, states of any values, then the wrong rules, each of which is told from the right one."""
    modes, calls = (PLAIN, LEAGUES[0]), list(asked())
    good, total = map(sum, zip(*(check_cuts(mode) for mode in modes)))
    print(f"parts: {good} of {total} cuts have the state that the tree of the whole has, and its digest")
    anyway = sum(right_anyway(*call) for call in calls)
    print(f"parts: {anyway} of {len(calls)} calls on states of any values are answered by their counts, and two parts as one")
    missed = [name for name, swapped in WRONG_BY_CUT.items() if not another_cut(swapped)]
    missed += [name for name, swapped in WRONG_BY_CALL.items() if not another_answer(swapped, calls)]
    for name in missed:
        print(f"parts: a rule that {name} is not told from the right one")
    wrong = len(WRONG_BY_CUT) + len(WRONG_BY_CALL)
    print(f"parts: {wrong - len(missed)} of {wrong} wrong rules are told from the right one")
    return good == total and anyway == len(calls) and not missed
