"""What the panel's programs for passages are run on: the passages of vectors/ that are checked, in the plain mode or under a key, and what such files
are too small for, the longest passage letter and what is longer. Numbers that stand in no file are the second program's."""
import sys
from pathlib import Path

sys.path.insert(0, str(Path(__file__).resolve().parent.parent / "second"))

from calls import PLAIN, mode_bytes  # noqa: E402
from expected.given import KEYS  # noqa: E402
from expected.panel import panel_input  # noqa: E402
from expected.passage_panel import PASSAGE_PANEL_MOST, passage_panel  # noqa: E402
from far import LONGEST, SPREAD  # noqa: E402
from inputs.world import digest_in  # noqa: E402
from rules.log import LONGEST_RECORD, NODE  # noqa: E402
from rules.passages import by_letter, closed, passage_bytes  # noqa: E402
from rules.shape import MOST_LEAVES, nodes_of  # noqa: E402
from vector_cases import vectors  # noqa: E402

# Each program: the file whose passages it is run on; the key that its edges are tried under, which it reads first; lengths of inputs that are short.
PROGRAMS = {"passage_panel": ("passages-checked.json", b"", (0, 39, 40)), "keyed_passage_panel": ("keyed.json", KEYS[0], (0, 31, 32, 71, 72))}


def checked_inputs(file, keyed):
    """The cases of the file, under keys or without: what is given to a checker, as the program reads it. It has no place for a root that is not 32
    bytes."""
    for vector in vectors():
        given = vector.given
        if (vector.file, vector.call, "key" in given) == (file, "passage_check", keyed) and len(given["root"]) == NODE:
            yield vector.name, given.get("key", b"") + panel_input(*(given[name] for name in ("size", "root", "letter"))), vector.answer["number"]


def longest_passage(digest):
    """The longest letter that is accepted, and what it is accepted against: the digests decide on its root."""
    record, size = bytes(place % 251 for place in range(LONGEST_RECORD)), nodes_of(MOST_LEAVES)
    digests = [bytes((3 * place + by) % 256 for by in range(NODE)) for place in range(len(closed(MOST_LEAVES, SPREAD)))]
    letter = passage_bytes(size, SPREAD, [record] * len(SPREAD), digests)
    assert len(letter) == LONGEST
    return panel_input(size, by_letter(MOST_LEAVES, letter, digest)[0], letter)


def edge_inputs(good, lengths, key, digest):
    """Inputs that are too short, the longest letter, and longer ones, up to one byte more than is read."""
    longest = longest_passage(digest)
    for length in lengths:
        yield f"{length} bytes", good[:length]
    yield "the longest passage letter", key + longest
    yield "one byte more than the longest", key + longest + b"\0"
    yield "one byte more than is read", key + longest + bytes(PASSAGE_PANEL_MOST + 1 - len(longest))


def passage_inputs(program):
    """A name, the input, and the number that the program writes. A key that is cut gets 24."""
    file, key, lengths = PROGRAMS[program]
    digest = digest_in(mode_bytes(1, key) if key else PLAIN)
    cases = list(checked_inputs(file, key != b""))
    yield from cases
    for name, data in edge_inputs(cases[0][1], lengths, key, digest):
        yield name, data, passage_panel(data[len(key):], digest) if len(data) >= len(key) else 24
