"""The digest of input that comes in parts (RULES 5.7): a state is begun in a mode, takes one part after the other, and is ended."""
import functools
from collections import namedtuple

from rules.blake3 import BLOCK, CHUNK, CHUNK_END, CHUNK_START, PARENT, ROOT, Mode, bytes_of, compress, words_of
from rules.shape import ones, trailing_ones

MOST_BYTES = 2**40
# Words of a result, and the places of the stack.
WORDS, PLACES = 8, 30
# A state: words are in tuples, the stack's one place behind the other; the block is bytes.
State = namedtuple("State", "total held stacked keyed key chain stack block")
Added = namedtuple("Added", "number state")
Ended = namedtuple("Ended", "number digest")


@functools.lru_cache(maxsize=2**14)
def compressed(chain, block, counter, length, flags):
    """One compression, worked out once however often cuts of the same input come to it."""
    return tuple(compress(chain, block.ljust(BLOCK, b"\0"), counter, length, flags))


def finished(total):
    """How many chunks of so many bytes a byte follows."""
    return max(total - 1, 0) // CHUNK


def held_of(total):
    """How many bytes the block holds behind so many."""
    return 0 if total == 0 else (total - 1) % BLOCK + 1


def stacked_of(total):
    """How many subtrees the stack holds then."""
    return ones(finished(total))


def contradicts(state):
    """Whether 17 applies to a state: its total is too high, or a count is not its total's."""
    return state.total > MOST_BYTES or (state.held, state.stacked) != (held_of(state.total), stacked_of(state.total))


def mode_of(state):
    """The mode that a state keeps."""
    return Mode(state.keyed, bytes_of(state.key))


def starts(total):
    """The flag of the block that is held behind so many bytes: chunk start where it is the first of its chunk."""
    return CHUNK_START if max(total - 1, 0) % CHUNK < BLOCK else 0


def joined(mode, left, right, root=0):
    """The result of a parent."""
    return compressed(tuple(mode.starting), bytes_of(left + right), 0, BLOCK, mode.flag | PARENT | root)


def stacked_on(mode, trees, tree, before):
    """The stack with one chunk's result on it, where so many chunks were finished before: joined once for each trailing one of them."""
    trees = list(trees)
    for _ in range(trailing_ones(before)):
        tree = joined(mode, trees.pop(), tree)
    return [*trees, tree]


def moved_on(mode, total, chain, trees, block):
    """A full block that a byte follows, compressed: the chain and the stack behind it."""
    ends = CHUNK_END if total % CHUNK == 0 else 0
    result = compressed(chain, block, finished(total), BLOCK, mode.flag | starts(total) | ends)
    return (tuple(mode.starting), stacked_on(mode, trees, result, finished(total))) if ends else (result, trees)


def trees_of(state):
    """The subtrees on the stack, the leftmost first."""
    return [state.stack[WORDS * place:WORDS * (place + 1)] for place in range(state.stacked)]


def held_in(state):
    """The bytes that the block holds."""
    return state.block[:state.held]


def begin(mode):
    """The state that has taken nothing."""
    keyed = int(mode.keyed != 0)
    key = words_of(mode.key) if keyed else (0,) * WORDS
    return State(0, 0, 0, keyed, key, tuple(mode.starting), (0,) * WORDS * PLACES, bytes(BLOCK))


def tidy(state, total, chain, trees, block):
    """The state with what it now holds, and zeros where nothing is meant."""
    stack = tuple(word for tree in trees for word in tree)
    return state._replace(total=total, held=len(block), stacked=len(trees), chain=chain, stack=stack + (0,) * (WORDS * PLACES - len(stack)),
                          block=block.ljust(BLOCK, b"\0"))


def add(state, part):
    """The state that has taken the part too, as many bytes at once as the block has room for."""
    if contradicts(state) or len(part) > MOST_BYTES - state.total:
        return Added(17, state)
    if not part:
        return Added(0, state)
    mode, total, chain, trees, block, at = mode_of(state), state.total, state.chain, trees_of(state), held_in(state), 0
    while at < len(part):
        if len(block) == BLOCK:
            chain, trees = moved_on(mode, total, chain, trees, block)
            block = b""
        taken = part[at:at + BLOCK - len(block)]
        block, total, at = block + taken, total + len(taken), at + len(taken)
    return Added(0, tidy(state, total, chain, trees, block))


def end(state):
    """The digest of what was taken: the held block, joined with the subtrees from the last to the first."""
    if contradicts(state):
        return Ended(17, bytes(4 * WORDS))
    mode, trees = mode_of(state), trees_of(state)
    flags = mode.flag | starts(state.total) | CHUNK_END | (0 if trees else ROOT)
    result = compressed(state.chain, held_in(state), finished(state.total), state.held, flags)
    while trees:
        left = trees.pop()
        result = joined(mode, left, result, 0 if trees else ROOT)
    return Ended(0, bytes_of(result))
