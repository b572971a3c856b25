"""The vectors of the panel's program, and of that for keyed logs: what stands on its standard input, and the number that it writes."""
from expected.given import KEYS, LEAGUES
from expected.keyed_panel import keyed_panel_input
from expected.panel import longest_letter, panel_input
from portable.form import case, counted, logged
from portable.letters import restated
from portable.logs import small_log
from rules.blake3 import digest
from rules.letters import WHOLE_LETTER, keyed_panel, letter_of, panel
from rules.log import root

LEAVES, INDEX = 13, 9


def panel_case(name, data):
    """One input. The program's answer is the number, whatever it is; there is no other result."""
    return case("panel", name, {"input": data}, panel(data))


def keyed_case(name, data):
    """One input of the program for keyed logs."""
    return case("keyed_panel", name, {"input": data}, keyed_panel(data))


def panel_cases():
    """An input cut anywhere, each number once, the longest input that is read, and longer ones."""
    size, nodes = small_log(LEAVES)
    top, letter = root(size, nodes).root, letter_of(size, INDEX, logged(INDEX), nodes)
    good, longest = panel_input(size, top, letter), panel_input(*longest_letter())
    yield panel_case("an accepted letter", good)
    for length in (0, 1, 39, 40, 59, 60, len(good) - 1):
        yield panel_case(f"its first {length} bytes", good[:length])
    yield panel_case("one byte more", good + b"\0")
    yield panel_case("size 2", panel_input(2, top, letter))
    yield panel_case("size 2, no letter", panel_input(2, top, b""))
    yield panel_case("size 2, 39 bytes", panel_input(2, top, b"")[:-1])
    yield panel_case("another size", panel_input(10, top, letter))
    yield panel_case(f"index {LEAVES}", panel_input(size, top, restated(letter, 8, 16, LEAVES)))
    yield panel_case("record length 16385", panel_input(size, top, restated(letter, 16, 20, 16385)))
    yield panel_case("another root", panel_input(size, digest(top), letter))
    yield panel_case("another index", panel_input(size, top, restated(letter, 8, 16, INDEX + 1)))
    yield panel_case("the whole letter of one empty record", panel_input(1, digest(b""), WHOLE_LETTER))
    yield panel_case("the longest letter", longest)
    yield panel_case("one byte more than the longest", longest + b"\0")
    yield panel_case("20000 bytes", longest + counted(0, 20000 - len(longest)))


def keyed_panel_cases():
    """The same under a key: cut within the key and behind it, under other keys, each number once, the longest input that is read, and longer ones."""
    (key, other), (mode, _) = KEYS, LEAGUES
    size, nodes = small_log(LEAVES, mode)
    top, letter = root(size, nodes, mode).root, letter_of(size, INDEX, logged(INDEX), nodes, mode)
    good, longest = keyed_panel_input(key, size, top, letter), keyed_panel_input(key, *longest_letter(mode))
    yield keyed_case("an accepted letter", good)
    for length in (0, 1, 31, 32, 71, 72, 91, 92, len(good) - 1):
        yield keyed_case(f"its first {length} bytes", good[:length])
    yield keyed_case("one byte more", good + b"\0")
    for name, used in (("another league's key", other), ("a key of zeros", bytes(len(key)))):
        yield keyed_case(name, keyed_panel_input(used, size, top, letter))
    yield keyed_case("no key", good[len(key):])
    yield keyed_case("a letter of no league", keyed_panel_input(key, 1, digest(b""), WHOLE_LETTER))
    yield keyed_case("size 2", keyed_panel_input(key, 2, top, letter))
    yield keyed_case("size 2, 71 bytes", keyed_panel_input(key, 2, top, b"")[:-1])
    yield keyed_case("another size", keyed_panel_input(key, 10, top, letter))
    yield keyed_case(f"index {LEAVES}", keyed_panel_input(key, size, top, restated(letter, 8, 16, LEAVES)))
    yield keyed_case("record length 16385", keyed_panel_input(key, size, top, restated(letter, 16, 20, 16385)))
    yield keyed_case("the whole letter of one empty record", keyed_panel_input(key, 1, mode(b""), WHOLE_LETTER))
    yield keyed_case("the longest letter", longest)
    yield keyed_case("one byte more than the longest", longest + b"\0")
    yield keyed_case("20000 bytes", longest + counted(0, 20000 - len(longest)))
