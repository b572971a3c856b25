"""What finder_run must write."""
from expected.given import LETTER_ROOM, letter_in, record_of, log_of, numbers_line, run_record
from rules.blake3 import digest
from rules.finder import PAIR, Found, compared, find
from rules.letters import LETTER_HEAD, letter_of

# Letters compared with a log of seven records: the size, how much of the nodes is lent, the byte of them that is flipped; the number and the length
# of the log's own record; the size, the index and the record length that the letter states, its length, and the byte of it that is flipped; how much
# of the two buffers is lent. 999: none is flipped.
CALLS = (
    (11, 352, 999, 3, 200, 11, 3, 200, 316, 999, 64, 64), (2, 352, 999, 3, 200, 11, 3, 200, 316, 999, 80, 80),
    (0, 352, 999, 3, 200, 11, 3, 200, 316, 999, 80, 80), (11, 351, 999, 3, 200, 11, 3, 200, 316, 999, 80, 80),
    (11, 352, 999, 3, 200, 11, 3, 200, 19, 999, 80, 80), (11, 352, 999, 3, 200, 4, 3, 200, 316, 999, 80, 80),
    (11, 352, 999, 3, 200, 11, 7, 200, 316, 999, 80, 80), (11, 352, 999, 3, 200, 11, 3, 16385, 316, 999, 80, 80),
    (11, 352, 999, 3, 200, 11, 3, 200, 315, 999, 80, 80), (11, 352, 999, 3, 200, 11, 3, 200, 316, 20, 80, 80),
    (11, 352, 999, 3, 16385, 11, 3, 200, 316, 999, 80, 80), (11, 352, 999, 2, 200, 11, 3, 200, 316, 999, 80, 80),
    (11, 352, 160, 3, 200, 11, 3, 200, 316, 999, 80, 80), (11, 352, 999, 3, 200, 11, 3, 200, 316, 999, 63, 64),
    (11, 352, 999, 3, 200, 11, 3, 200, 316, 999, 64, 63),
)
# Lists compared: their lengths in bytes, two bytes of the second that are flipped, the number and the length of the one record and of the other,
# and how much of the two buffers is lent.
LISTS = (
    (320, 320, 999, 999, 3, 200, 3, 200, 80, 80), (320, 320, 999, 999, 3, 200, 3, 200, 64, 64), (0, 0, 999, 999, 3, 200, 3, 200, 80, 80),
    (320, 320, 0, 999, 3, 200, 3, 200, 80, 80), (320, 320, 63, 999, 3, 200, 3, 200, 80, 80), (320, 320, 31, 32, 3, 200, 3, 200, 80, 80),
    (320, 320, 128, 999, 3, 200, 3, 200, 80, 80), (320, 320, 191, 999, 3, 200, 3, 200, 80, 80),
    (320, 320, 256, 999, 3, 200, 3, 200, 80, 80), (320, 320, 319, 999, 3, 200, 3, 200, 80, 80), (320, 320, 192, 64, 3, 200, 3, 200, 80, 80),
    (320, 320, 0, 319, 3, 200, 3, 200, 80, 80), (320, 320, 128, 999, 3, 200, 3, 200, 64, 64), (320, 320, 128, 999, 3, 200, 3, 199, 80, 80),
    (256, 320, 999, 999, 3, 200, 3, 200, 80, 80), (320, 256, 999, 999, 3, 200, 3, 200, 80, 80),
    (320, 256, 256, 999, 3, 200, 3, 200, 80, 80), (319, 320, 256, 999, 3, 200, 3, 200, 80, 80),
    (320, 319, 200, 999, 3, 200, 3, 200, 80, 80), (63, 63, 0, 999, 3, 200, 3, 200, 80, 80), (64, 320, 63, 999, 3, 200, 3, 200, 80, 80),
    (320, 320, 999, 999, 3, 200, 3, 199, 80, 80), (320, 320, 999, 999, 3, 200, 2, 200, 80, 80), (0, 0, 999, 999, 3, 0, 3, 1, 80, 80),
    (320, 320, 64, 999, 3, 200, 3, 200, 63, 64), (320, 320, 64, 999, 3, 200, 3, 200, 64, 63), (320, 320, 999, 999, 3, 200, 3, 200, 63, 80),
    (320, 320, 999, 999, 3, 200, 3, 199, 80, 63),
)
LEAVES = 9
ROOM = 80
FOUND_NUMBERS = {None: 0, "same": 1, "records": 2, "pair": 3}


def flipped_at(data, *places):
    """The data with the lowest bit of these bytes changed, where there are such bytes."""
    return bytes(byte ^ (place in places) for place, byte in enumerate(data))


def finder_run_buffers():
    """The two buffers before a call."""
    return bytearray(run_record(5, ROOM)), bytearray(run_record(6, ROOM))


def lent_buffers(one, two, call, *given):
    """A call that is lent the first bytes of the two buffers behind what it is given: its answer, and the buffers after it."""
    ours, theirs = finder_run_buffers()
    front, other = ours[:one], theirs[:two]
    answer = call(*given, front, other)
    ours[:one], theirs[:two] = front, other
    return answer, (ours, theirs)


def found_line(answer, buffers):
    """The number, what is found, and for each buffer whether it has changed."""
    changes = [int(now != before) for now, before in zip(buffers, finder_run_buffers())]
    return ":" + numbers_line(answer.number, FOUND_NUMBERS[answer.outcome]) + " differ" + numbers_line(*changes)


def lines_of_found(most):
    """Every letter of logs of 1 to most records, compared with its log."""
    for leaves in range(1, most + 1):
        size, nodes = log_of(leaves)
        for index in range(leaves):
            record = record_of(index)
            letter = letter_of(size, index, record, nodes)
            answer = lent_buffers(ROOM, ROOM, find, size, record, nodes, letter)
            yield f"letter {leaves} {index}" + found_line(*answer)


def lines_of_finder_calls():
    """A letter compared, and refused by each number."""
    _, nodes = log_of(7)
    given = letter_in(7, 3)[2].ljust(LETTER_ROOM, b"\0")
    for row in CALLS:
        size, lent, damaged, number, length, named, index, stated, shown, flipped, one, two = row
        head = named.to_bytes(8, "big") + index.to_bytes(8, "big") + stated.to_bytes(4, "big")
        letter = flipped_at(head + given[LETTER_HEAD:], flipped)[:shown]
        buffer = flipped_at(nodes.ljust(512, b"\0"), damaged)[:lent]
        answer = lent_buffers(one, two, find, size, run_record(number, length), buffer, letter)
        yield "find" + numbers_line(*row) + found_line(*answer)


def inputs_in(data, count):
    """The first count inputs of a list."""
    return [data[at:at + PAIR] for at in range(0, PAIR * count, PAIR)]


def compare_lists(of_log, of_letter, record, other, ours, theirs):
    """Two given lists, as many inputs as both have: 6, and what is found."""
    if len(ours) < PAIR or len(theirs) < PAIR:
        return Found(6, None)
    count = min(len(of_log), len(of_letter)) // PAIR
    return Found(0, compared(inputs_in(of_log, count), inputs_in(of_letter, count), record, other, ours, theirs))


def lines_of_lists():
    """Given lists compared: what is found, and the digests of both buffers."""
    given = run_record(1, 5 * PAIR)
    for row in LISTS:
        length, other_length, flipped, also, number, count, other_number, other_count, one, two = row
        lists = given[:length], flipped_at(given, flipped, also)[:other_length]
        records = run_record(number, count), run_record(other_number, other_count)
        answer, buffers = lent_buffers(one, two, compare_lists, *lists, *records)
        digests = "".join(f" {digest(bytes(buffer)).hex()}" for buffer in buffers)
        yield "compare" + numbers_line(*row) + ":" + numbers_line(answer.number, FOUND_NUMBERS[answer.outcome]) + digests


def expect_finder_run():
    """Letters of small logs, a letter refused by each number, and given lists."""
    lines = [*lines_of_found(LEAVES), *lines_of_finder_calls(), *lines_of_lists()]
    return "".join(line + "\n" for line in lines)
