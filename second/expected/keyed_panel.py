"""What the panel's program for keyed logs must write on its stored input."""
from expected.given import KEYS, LEAGUES, letter_in
from expected.panel import panel_input
from rules.letters import keyed_panel


def keyed_panel_input(key, size, top, letter):
    """What the program reads: key, trusted size, root, letter."""
    return key + panel_input(size, top, letter)


def keyed_panel_stdin():
    """Its stored input: the last record but two of a log of fifteen, under the first league's key."""
    return keyed_panel_input(KEYS[0], *letter_in(15, 12, LEAGUES[0]))


def expect_keyed_panel():
    """The verdict on it: the number and a newline."""
    return f"{keyed_panel(keyed_panel_stdin())}\n"
