"""What docs/RULES.md shows more than once: its three records, their log, one of its letters; and how numbers are written there."""
from grown import grown
from rules.blake3 import PLAIN
from rules.letters import letter_of
from rules.log import root

RECORDS = (b"goal", b"no goal", b"corner")


def small_log(mode=PLAIN):
    """The log of section 7.6 in a mode: its nodes, and the answers of its appends."""
    made = list(grown(RECORDS, mode))
    return bytes(made[-1][1]), [answer for answer, _ in made]


def shown_letter(mode=PLAIN):
    """The root of that log, and its letter of section 9.7."""
    nodes, _ = small_log(mode)
    return root(4, nodes, mode).root, letter_of(4, 1, RECORDS[1], nodes, mode)


def with_comma(numbers):
    """Numbers with commas between them."""
    return ", ".join(f"{number:,}" for number in numbers)


def with_last_bit(data, place):
    """Bytes with the last bit of one of them changed."""
    return data[:place] + bytes([data[place] ^ 1]) + data[place + 1:]


def fold_said(positions):
    """What is folded into a digest, by position; one position is the node that stands there."""
    *before, last = map(str, positions)
    return f"the fold of {', '.join(before)} and {last}" if before else last
