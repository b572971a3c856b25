"""Letters, written and checked (RULES 9); the panels' programs (RULES 11)."""
from collections import namedtuple

from rules.blake3 import KEY, PLAIN, keyed
from rules.log import LONGEST_RECORD, NODE, folded, node
from rules.shape import items_of, leaf_count, nodes_of, path_of, peaks_around

LETTER_HEAD = 20
MOST_ITEMS = 32
PANEL_HEAD = 40
PANEL_MOST = 17469
# The whole letter of one empty record (RULES 9.7); its root is the digest of empty input.
WHOLE_LETTER = bytes([0] * 7 + [1] + [0] * 12)
Written = namedtuple("Written", "number length")
# What the checker returns: the number, the index, and where the record lies in the letter.
Checked = namedtuple("Checked", "number index start length")


def letter_bytes(size, index, record, items):
    """Size (8), index (8), record length (4), all big-endian; record; items, no count."""
    head = size.to_bytes(8, "big") + index.to_bytes(8, "big") + len(record).to_bytes(4, "big")
    return head + record + b"".join(items)


def size_in(letter):
    """The size that a letter names."""
    return int.from_bytes(letter[0:8], "big")


def index_in(letter):
    """Its index."""
    return int.from_bytes(letter[8:16], "big")


def stated_in(letter):
    """Its stated record length."""
    return int.from_bytes(letter[16:20], "big")


def record_in(letter):
    """Its record."""
    return letter[LETTER_HEAD:LETTER_HEAD + stated_in(letter)]


def items_in(letter):
    """Its items, behind the record."""
    start = LETTER_HEAD + stated_in(letter)
    return [letter[at:at + NODE] for at in range(start, len(letter), NODE)]


def first_of(refusals):
    """The first number that applies; 0, done, where none does. What gives the numbers looks at no later test than it has to."""
    return next(refusals, 0)


def writing(size, index, record, buffer, out, digest):
    """The refusals of writing a letter: 1, 5, 3, 4, 13, 6."""
    number, leaves = leaf_count(size)
    if number != 0:
        yield number
    if index >= leaves:
        yield 5
    if len(record) > LONGEST_RECORD:
        yield 3
    if len(buffer) < NODE * size:
        yield 4
    if node(buffer, nodes_of(index)) != digest(record):
        yield 13
    if len(out) < LETTER_HEAD + len(record) + NODE * len(items_of(leaves, index)):
        yield 6


def write_letter(size, index, record, buffer, out, digest=PLAIN):
    """The letter of an index, into the first bytes of out: the number and the length."""
    number = first_of(writing(size, index, record, buffer, out, digest))
    if number != 0:
        return Written(number, 0)
    positions = items_of(leaf_count(size)[1], index)
    items = [folded([node(buffer, position) for position in item], digest) for item in positions]
    letter = letter_bytes(size, index, record, items)
    out[:len(letter)] = letter
    return Written(0, len(letter))


def letter_of(size, index, record, buffer, digest=PLAIN):
    """The letter of an index."""
    out = bytearray(LETTER_HEAD + len(record) + NODE * MOST_ITEMS)
    return bytes(out[:write_letter(size, index, record, buffer, out, digest).length])


def letter_inputs(leaves, letter, digest):
    """What checking a letter hashes beside its record, 64 bytes each, from the root down."""
    left, own, right = peaks_around(leaves, index_in(letter))
    items = items_in(letter)
    inputs, so_far = [], digest(record_in(letter))
    for sibling, step in zip(items[len(left):], reversed(path_of(own, index_in(letter)))):
        inputs.append(sibling + so_far if step.goes_right else so_far + sibling)
        so_far = digest(inputs[-1])
    if right:
        inputs.append(so_far + items[-1])
        so_far = digest(inputs[-1])
    for peak in reversed(items[:len(left)]):
        inputs.append(peak + so_far)
        so_far = digest(inputs[-1])
    return inputs[::-1]


def worked_root(leaves, letter, digest):
    """The root worked out from a letter (RULES 9.5)."""
    inputs = letter_inputs(leaves, letter, digest)
    return digest(inputs[0] if inputs else record_in(letter))


def checking_from_7(size, leaves, top, letter, digest):
    """The refusals of checking a letter, from 7: 7 (short), 8, 5, 3, 7 (exact), 9."""
    if len(letter) < LETTER_HEAD:
        yield 7
    if size_in(letter) != size:
        yield 8
    if index_in(letter) >= leaves:
        yield 5
    if stated_in(letter) > LONGEST_RECORD:
        yield 3
    if len(letter) != LETTER_HEAD + stated_in(letter) + NODE * len(items_of(leaves, index_in(letter))):
        yield 7
    if worked_root(leaves, letter, digest) != top:
        yield 9


def checking(size, top, letter, digest):
    """All of them: 1, 12, then from 7."""
    number, leaves = leaf_count(size)
    if number != 0:
        yield number
    if len(top) != NODE:
        yield 12
    yield from checking_from_7(size, leaves, top, letter, digest)


def check_letter(size, top, letter, digest=PLAIN):
    """A letter checked against a trusted size and root."""
    number = first_of(checking(size, top, letter, digest))
    return Checked(number, 0, 0, 0) if number != 0 else Checked(0, index_in(letter), LETTER_HEAD, stated_in(letter))


def panel(data, digest=PLAIN):
    """The panel's verdict on what stands on its standard input: trusted size (8), root (32), one letter."""
    given = data[:PANEL_MOST]
    if len(given) < PANEL_HEAD:
        return 12
    return check_letter(int.from_bytes(given[:8], "big"), given[8:PANEL_HEAD], given[PANEL_HEAD:], digest).number


def keyed_panel(data):
    """The verdict under a key, which stands before the rest (32): 24 where it is cut, else what the panel answers for the rest in its mode."""
    number, mode = keyed(data[:KEY])
    return number if number != 0 else panel(data[KEY:], mode)
