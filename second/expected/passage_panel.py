"""What the panel's program for passages must write on its stored input."""
from expected.given import log_of, record_of
from expected.panel import panel_input
from rules.blake3 import PLAIN
from rules.letters import MOST_ITEMS, PANEL_HEAD
from rules.log import LONGEST_RECORD, NODE, root
from rules.passages import ENTRY_HEAD, MOST_RECORDS, PASSAGE_HEAD, check_passage, passage_of

# The most that the program reads: size and root, one more than a letter of 256 of the longest records with 32 digests for each.
PASSAGE_PANEL_MOST = PANEL_HEAD + PASSAGE_HEAD + MOST_RECORDS * (ENTRY_HEAD + LONGEST_RECORD + NODE * MOST_ITEMS) + 1


def passage_panel(data, mode=PLAIN):
    """The verdict on what stands on its standard input: trusted size (8), root (32), one passage letter."""
    given = data[:PASSAGE_PANEL_MOST]
    if len(given) < PANEL_HEAD:
        return 12
    return check_passage(int.from_bytes(given[:8], "big"), given[8:PANEL_HEAD], given[PANEL_HEAD:], mode).number


def passage_panel_stdin(mode=PLAIN):
    """Its stored input: three records of a log of fifteen."""
    (size, nodes), indexes = log_of(15, mode), (3, 8, 12)
    return panel_input(size, root(size, nodes, mode).root, passage_of(size, indexes, [record_of(index) for index in indexes], nodes, mode))


def expect_passage_panel():
    """The verdict on it: the number and a newline."""
    return f"{passage_panel(passage_panel_stdin())}\n"
