"""What log_run must write."""
from expected.given import run_record
from grown import grown, hold
from rules.blake3 import PLAIN, digest
from rules.log import NODE, append, root

LENGTHS = (0, 1, 31, 32, 33, 63, 64, 65, 200, 1024, 16384)
BUFFER = NODE * 82
RECORDS = tuple(run_record(i, LENGTHS[i % len(LENGTHS)]) for i in range(40))
# Appends once 40 records are in: the size, the record's length, and how much of the buffer is lent.
APPENDS = (
    (2, 0, 2624), (8589934591, 0, 2624), (78, 16385, 2624), (78, 16384, 2527), (78, 16384, 2528), (79, 0, 2592),
)
# Roots after those: the size, and how much of the buffer is lent.
ROOTS = (
    (2, 2624), (0, 2624), (81, 2591), (81, 2592), (78, 2624),
)


def run_buffer(step):
    """A buffer before any append: byte k is k times the step, mod 256."""
    return bytearray(step * k % 256 for k in range(BUFFER))


def lent_append(size, record, buffer, lent):
    """An append that is lent the front of the buffer."""
    front = buffer[:lent]
    answer = append(size, record, front)
    buffer[:lent] = front
    return answer


def state_lines(size, buffer):
    """The digests of the nodes and of the bytes beyond the size, and the root."""
    number, top = root(size, buffer)
    edge = NODE * size
    return [
        f"  nodes {digest(bytes(buffer[:edge])).hex()}",
        f"  beyond {digest(bytes(buffer[edge:])).hex()}",
        f"  root {number} {top.hex()}",
    ]


def run_log(buffer):
    """Forty records of mixed lengths: the lines of each append, and the size at the end."""
    lines, size = [], 0
    for i, (answer, _) in enumerate(grown(RECORDS, buffer=buffer)):
        size = answer.size
        lines += ["append {}, record of length {}: {} {} {}".format(i, len(RECORDS[i]), *answer), *state_lines(size, buffer)]
    return lines, size


def expect_log_run():
    """Forty appends; then appends and roots at the edges; then the forty once more over another buffer."""
    buffer, taken = run_buffer(1), list(RECORDS)
    lines = ["empty:", *state_lines(0, buffer)]
    lines += run_log(buffer)[0]
    for size, length, lent in APPENDS:
        lines.append(f"size {size}, record of length {length}, buffer of length {lent}:")
        lines.append(f"  before {digest(bytes(buffer)).hex()}")
        answer = lent_append(size, run_record(40, length), buffer, lent)
        taken += [run_record(40, length)] * (answer.number == 0)
        lines += ["  append {} {} {}".format(*answer), f"  after {digest(bytes(buffer)).hex()}"]
    hold(answer.size, taken, buffer, PLAIN)
    for size, lent in ROOTS:
        number, top = root(size, buffer[:lent])
        lines.append(f"root of size {size}, buffer of length {lent}: {number} {top.hex()}")
    lines.append(f"after {digest(bytes(buffer)).hex()}")
    other = run_buffer(3)
    lines += ["over other bytes:", *state_lines(run_log(other)[1], other)]
    return "".join(line + "\n" for line in lines)
