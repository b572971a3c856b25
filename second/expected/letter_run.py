"""What letter_run must write."""
from collections import Counter

from expected.given import LETTER_ROOM, flips_of, letter_in, record_of, log_of, numbers_line, run_record
from grown import grown
from rules.blake3 import digest
from rules.letters import LETTER_HEAD, WHOLE_LETTER, check_letter, letter_bytes, letter_of, size_in, write_letter
from rules.log import NODE, node, root

LEAVES = 20
# Letters written of a log of seven records: the size, the index, the record's number and length, how much of the nodes and of the output is lent.
WRITES = (
    (11, 3, 3, 200, 352, 316), (11, 3, 3, 200, 352, 315), (2, 3, 3, 200, 352, 400), (11, 7, 3, 200, 352, 400),
    (11, 3, 3, 16385, 352, 400), (11, 3, 3, 200, 351, 400), (11, 3, 2, 200, 352, 400),
)
# Letters checked: the size, the root's length, then the size, the index and the record length that the letter states, and its length.
CHECKS = (
    (11, 32, 11, 3, 200, 316), (2, 32, 11, 3, 200, 316), (11, 31, 11, 3, 200, 316), (11, 32, 11, 3, 200, 19), (11, 32, 4, 3, 200, 316),
    (11, 32, 11, 7, 200, 316), (11, 32, 11, 3, 16385, 316), (11, 32, 11, 3, 200, 315), (11, 32, 11, 3, 200, 317),
    (11, 32, 11, 2, 200, 316),
)


def lines_of_letters(most):
    """Every letter of logs of 1 to most records: written, checked; 0 where its record is the log's, 0 where no byte behind it has changed."""
    for leaves, (answer, buffer) in enumerate(grown([record_of(number) for number in range(most)]), 1):
        size, top = answer.size, root(answer.size, buffer).root
        for index in range(leaves):
            record = record_of(index)
            letter = letter_of(size, index, record, buffer)
            checked = check_letter(size, top, letter)
            differs = int(letter[checked.start:checked.start + checked.length] != record)
            yield f"letter {leaves} {index} 0 {len(letter)} {digest(letter).hex()} check{numbers_line(*checked)} differ {differs} 0"


def lines_of_writes(size, buffer):
    """Letters written and refused, and whether a byte of the output behind what was written has changed."""
    for row in WRITES:
        named, index, number, length, lent, room = row
        before = run_record(9, LETTER_ROOM)
        part = bytearray(before[:room])
        answer = write_letter(named, index, run_record(number, length), buffer[:lent], part)
        changed = (bytes(part) + before[room:])[answer.length:] != before[answer.length:]
        yield f"write{numbers_line(*row)}:{numbers_line(*answer)} differ {int(changed)}"


def lines_of_checks(top, letter):
    """A letter accepted, and refused by each number."""
    given = letter.ljust(LETTER_ROOM, b"\0")
    for row in CHECKS:
        size, root_length, named, index, stated, length = row
        head = named.to_bytes(8, "big") + index.to_bytes(8, "big") + stated.to_bytes(4, "big")
        answer = check_letter(size, top.ljust(NODE + 1, b"\0")[:root_length], (head + given[LETTER_HEAD:])[:length])
        yield f"check{numbers_line(*row)}:{numbers_line(*answer)}"


def lines_of_counts(label, size, top, letters):
    """How many of the letters get each number."""
    counts = Counter(check_letter(size, top, letter).number for letter in letters)
    yield label
    for number in sorted(counts):
        yield f"  {number}: {counts[number]}"


def lines_of_changes(size, top, letter):
    """One letter cut anywhere, with bytes behind it, and with each of its bits flipped."""
    longer = letter.ljust(LETTER_ROOM, b"\0")
    yield from lines_of_counts("cut", size, top, [letter[:length] for length in range(len(letter))])
    yield from lines_of_counts("longer", size, top, [longer[:length] for length in range(len(letter) + 1, len(longer) + 1)])
    yield from lines_of_counts("flipped", size, top, flips_of(letter))


def lines_of_shortcuts():
    """Letters that pass where the size is their own, against the true size and against their own; the whole letter of one empty record."""
    for label, size, nodes, named, index, record, items in (
        ("last of three as second of two", *log_of(3), 3, 1, record_of(2), [2]),
        ("two leaf digests as one record", *log_of(2), 1, 0, log_of(2)[1][:2 * NODE], []),
    ):
        top = root(size, nodes).root
        letter = letter_bytes(named, index, record, [node(nodes, position) for position in items])
        restated = letter_bytes(size, index, record, [node(nodes, position) for position in items])
        for trusted, shown in ((size, letter), (size, restated), (named, letter)):
            yield f"{label}{numbers_line(trusted, size_in(shown))}:{numbers_line(*check_letter(trusted, top, shown))}"
    yield f"one empty record:{numbers_line(*check_letter(1, digest(b''), WHOLE_LETTER))}"


def expect_letter_run():
    """Letters of small logs; each refusal of both orders; one letter changed; the shortcuts."""
    lines = [*lines_of_letters(LEAVES), *lines_of_writes(*log_of(7)), *lines_of_checks(*letter_in(7, 3)[1:])]
    lines += [*lines_of_changes(*letter_in(15, 12)), *lines_of_shortcuts()]
    return "".join(line + "\n" for line in lines)
