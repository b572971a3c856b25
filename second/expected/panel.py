"""What the panel's program must write on its stored input."""
from expected.given import counting_bytes, letter_in
from rules.blake3 import PLAIN, digest
from rules.letters import MOST_ITEMS, letter_bytes, panel, worked_root
from rules.log import LONGEST_RECORD
from rules.shape import MOST_LEAVES, nodes_of


def panel_input(size, top, letter):
    """What the panel's program reads: trusted size, root, letter."""
    return size.to_bytes(8, "big") + top + letter


def panel_stdin():
    """The stored input of the panel's program: the last record but two of a log of fifteen."""
    return panel_input(*letter_in(15, 12))


def expect_panel():
    """The verdict on it: the number and a newline."""
    return f"{panel(panel_stdin())}\n"


def longest_letter(mode=PLAIN):
    """The longest letter that is accepted, 16,384 bytes and 32 items, in a log of 2^32 leaves that nobody has built: its items decide on its root."""
    size = nodes_of(MOST_LEAVES)
    items = [digest(bytes([number])) for number in range(MOST_ITEMS)]
    letter = letter_bytes(size, 0x12345678, counting_bytes(LONGEST_RECORD), items)
    return size, worked_root(MOST_LEAVES, letter, mode), letter
