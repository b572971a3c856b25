"""What the panel's program for passages of keyed logs must write on its stored input."""
from expected.given import KEYS, LEAGUES
from expected.passage_panel import passage_panel, passage_panel_stdin
from rules.blake3 import KEY, keyed


def keyed_passage_panel(data):
    """The verdict under a key, which stands before the rest (32): 24 where it is cut, else that on the rest in its mode."""
    number, mode = keyed(data[:KEY])
    return number if number != 0 else passage_panel(data[KEY:], mode)


def keyed_passage_panel_stdin():
    """Its stored input: the passage of the other program's, of a log of the first league's, behind its key."""
    return KEYS[0] + passage_panel_stdin(LEAGUES[0])


def expect_keyed_passage_panel():
    """The verdict on it: the number and a newline."""
    return f"{keyed_passage_panel(keyed_passage_panel_stdin())}\n"
