"""How the portable vectors are written: bytes, numbers, modes, a case, a file."""
import functools
import json

from rules.blake3 import PLAIN

# A run of counting bytes that is at least so long is described, and not spelled out.
LONG = 48
# The lengths of the records of these logs, over and over.
LENGTHS = (7, 0, 64, 1, 100, 33)


def counted(start, length):
    """A run of counting bytes: byte i is start + i, mod 251."""
    return bytes((start + i) % 251 for i in range(length))


def logged(number):
    """The record of that number in the logs of these vectors."""
    return counted(100 + number, LENGTHS[number % len(LENGTHS)])


def run_at(data, at):
    """How long the run of counting bytes from a place on is."""
    end = at
    while end < len(data) and data[end] < 251 and (end == at or data[end] == (data[end - 1] + 1) % 251):
        end += 1
    return end - at


@functools.lru_cache(maxsize=None)
def pieces_of(data):
    """The data as long runs of counting bytes, and what is between them in hexadecimal."""
    pieces, spelled, at = [], 0, 0
    while at < len(data):
        run = run_at(data, at)
        if run >= LONG:
            pieces += [data[spelled:at].hex()] if spelled < at else []
            pieces.append({"start": data[at], "length": run})
            spelled = at + run
        at += max(run, 1)
    return pieces + ([data[spelled:].hex()] if spelled < len(data) else [])


def bytes_form(data):
    """Bytes: one piece by itself, several as a list, none as an empty string."""
    pieces = pieces_of(bytes(data))
    return pieces if len(pieces) > 1 else pieces[0] if pieces else ""


def form(value):
    """A value as JSON has it: bytes described, a number of up to 64 bits as decimal digits. A list stands by its elements' forms."""
    if isinstance(value, (bytes, bytearray)):
        return bytes_form(value)
    if isinstance(value, list):
        return [form(element) for element in value]
    return str(value) if isinstance(value, int) else value


def mode_fields(mode):
    """A mode among what is given: nothing where it is the plain one, the key where it is that key's, else its number too."""
    if mode == PLAIN:
        return {}
    return {"key": mode.key} if mode.keyed == 1 else {"keyed": mode.keyed, "key": mode.key}


def case(call, name, given, number, mode=PLAIN, **values):
    """A case: the call, a name, what it is given, and the answer, which for a refusal is its number alone."""
    given = {**mode_fields(mode), **given}
    answer = {name: form(value) for name, value in values.items()} if number == 0 else {}
    return {"name": name, "call": call, "given": {name: form(value) for name, value in given.items()}, "answer": {"number": number, **answer}}


def only_once(what, values):
    """An error where one of the values stands twice."""
    twice = sorted({value for value in values if values.count(value) > 1})
    if twice:
        raise ValueError(f"two cases have one {what}: {twice}")


def file_text(about, section, cases):
    """The text of a file: what it is about, where the rules have it, and a line for each case."""
    only_once("name", [one["name"] for one in cases])
    only_once("input", [one["call"] + json.dumps(one["given"]) for one in cases])
    head = f'{{"about": {json.dumps(about)},\n "rules": {json.dumps(section)},\n "cases": [\n'
    return head + ",\n".join(json.dumps(one) for one in cases) + "\n]}\n"
