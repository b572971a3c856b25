"""What the programs are given: bytes, keys, records, logs, letters; and how numbers are printed."""
from grown import log_of as log_of_records
from rules.blake3 import PLAIN, keyed
from rules.letters import letter_of
from rules.log import root

# The lengths of the records, over and over; and the bytes that a letter with a record of at most 200 is given.
LENGTHS = (0, 1, 31, 200, 16384)
LETTER_ROOM = 400
# The keys of two leagues, the first being that of BLAKE3's published figures; and their modes.
KEYS = (b"whats the Elvish word for friend", bytes(range(200, 232)))
LEAGUES = tuple(keyed(key).mode for key in KEYS)


def counting_bytes(length):
    """The input of the published figures: byte i is i mod 251."""
    return bytes(i % 251 for i in range(length))


def run_record(number, length):
    """The record of that number: byte j is 7 times the number and j, mod 251."""
    return bytes((7 * number + j) % 251 for j in range(length))


def record_of(number):
    """The record of that number, of its own length."""
    return run_record(number, LENGTHS[number % len(LENGTHS)])


def log_of(count, digest=PLAIN):
    """A log of so many records: its size and nodes."""
    return log_of_records([record_of(number) for number in range(count)], digest)


def letter_in(leaves, index, digest=PLAIN):
    """A log of so many records, and one of its letters: the size, the root, the letter."""
    size, nodes = log_of(leaves, digest)
    return size, root(size, nodes, digest).root, letter_of(size, index, record_of(index), nodes, digest)


def flips_of(data):
    """The data with one bit flipped, for each of its bits."""
    for bit in range(8 * len(data)):
        other = bytearray(data)
        other[bit // 8] ^= 1 << bit % 8
        yield bytes(other)


def numbers_line(*numbers):
    """Numbers with a space before each."""
    return "".join(f" {number}" for number in numbers)
