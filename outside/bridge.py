"""The library's answers through C: the bridge's program built, asked and ended, and an answer compared with the one that is expected."""
import struct
import subprocess
import sys
from collections import namedtuple
from pathlib import Path

from calls import PARTS, flipped

TOP = Path(__file__).resolve().parent.parent
# An answer: the number (RULES 2), the parts at return, and whether a byte beside them was changed.
Answer = namedtuple("Answer", "number parts strayed")


def build():
    """The bridge's program, built where it has to be. Where it cannot be, exit status 2."""
    if subprocess.run([TOP / "hosts" / "build.sh"], stdout=sys.stderr, check=False).returncode != 0:
        sys.exit(2)
    return TOP / "target" / "hosts" / "bridge"


class Bridge:
    """The bridge's program, kept running."""

    def __init__(self, program):
        self.running = subprocess.Popen([program], stdin=subprocess.PIPE, stdout=subprocess.PIPE)

    def ask(self, at, case):
        """The answer of the library, or None where the program has ended. The case's number decides on the placing of the parts."""
        numbers = [*case.numbers, 0, 0][:2]
        head = struct.pack("<16sBB2Q", case.call.encode(), at % 4, len(case.parts), *numbers)
        lengths = struct.pack(f"<{len(case.parts)}I", *map(len, case.parts))
        try:
            self.running.stdin.write(head + lengths + b"".join(case.parts))
            self.running.stdin.flush()
        except BrokenPipeError:
            return None
        start, *parts = [self.running.stdout.read(length) for length in (5, *map(len, case.parts))]
        if len(start) < 5:
            return None
        strayed, number = struct.unpack("<BI", start)
        return Answer(number, parts, strayed != 0)

    def close(self):
        """End the program; its exit status."""
        try:
            self.running.stdin.close()
        except BrokenPipeError:
            pass
        return self.running.wait()


def refused(number, case):
    """A refusal: every part as it was."""
    return Answer(number, list(case.parts), False)


def short(data):
    """Bytes in hexadecimal, the middle of many left out."""
    digits = data.hex() or "none"
    return digits if len(digits) <= 160 else f"{digits[:120]}..{digits[-20:]} ({len(data)} bytes)"


def differences(case, ours, expected):
    """What differs between the library's answer and the expected one, a line each."""
    if ours is None:
        return ["the library ended the bridge: it read or wrote what it was not lent, or wrote to what it only reads"]
    lines = [] if ours.number == expected.number else [f"number: {ours.number} from C, {expected.number} is expected"]
    for name, got, wanted in zip(PARTS[case.call], ours.parts, expected.parts):
        if got != wanted:
            first = next((i for i, pair in enumerate(zip(got, wanted)) if pair[0] != pair[1]), min(len(got), len(wanted)))
            lines.append(f"{name}, from byte {first}: {short(got[first:])} from C, {short(wanted[first:])} is expected")
    return lines + (["a byte beside what was lent was changed"] if ours.strayed else [])


def lines_of(case, whole):
    """The inputs of a case, whole or with the middle left out."""
    yield f"  numbers: {' '.join(map(str, case.numbers)) or 'none'}"
    for name, part in zip(PARTS[case.call], case.parts):
        yield f"  {name}, {len(part)} bytes: {part.hex() if whole else short(part)}"


def made_wrong(answer, place):
    """An answer with one bit changed: of the number, or of a part that has bytes."""
    if place == 0:
        return answer._replace(number=answer.number ^ 1)
    parts = list(answer.parts)
    parts[place - 1] = flipped(parts[place - 1], len(parts[place - 1]) // 2)
    return answer._replace(parts=parts)


def wrong_answers(right):
    """The answer made wrong at each place in turn."""
    return [made_wrong(right, place) for place in [0] + [1 + i for i, part in enumerate(right.parts) if part]]
