"""Section 12 of docs/RULES.md, passages, their programs in sections 11.3 and 11.4, and what the tables of other sections have of them: the examples
as the rules make them."""
import functools

from expected.given import KEYS, LEAGUES, run_record
from expected.keyed_passage_panel import keyed_passage_panel
from expected.panel import panel_input
from expected.passage_panel import PASSAGE_PANEL_MOST, passage_panel
from grown import log_of
from portable.letters import restated
from portable.passage_orders import EACH, PASSAGE_FROM_7, PASSAGE_ORDERS
from rules.blake3 import KEY, PLAIN, digest
from rules.finder import PAIR
from rules.letters import MOST_ITEMS, PANEL_HEAD, check_letter, keyed_panel, panel
from rules.log import LONGEST_RECORD, NODE, node, root
from rules.passage_finder import find_passage, opened
from rules.passages import (ENTRY_HEAD, MOST_RECORDS, PASSAGE_HEAD, by_letter, check_passage, closed, looked_into, passage_bytes, passage_entry,
                            passage_length, passage_of, positions_of, sides, walk_of, write_passage)
from rules.shape import MOST_LEAVES
from shown import RECORDS, fold_said, shown_letter, small_log, with_comma, with_last_bit

WHOLE_PASSAGE = bytes([0] * 7 + [1] + [0, 1] + [0] * 12)
# Section 12.3: lists of indexes, and how they stand there where they are long.
LISTS = ((5,), (0, 6), (), (2, 2), (5, 2), (7, 7), (5, 7), (2**64 - 1,), range(256), range(257))
# Section 12.4: the request whose walk is shown; leaf counts and indexes.
LEAVES, ASKED = 7, (1, 2, 5)
REQUESTS = ((1, (0,)), (2, (1,)), (3, (0, 2)), (7, (0,)), (7, (2,)), (7, (4,)), (7, (0, 6)), (7, (2, 3)), (7, range(7)), (11, (0, 9)), (15, (14,)),
            (15, (0,)))
# Section 12.7: the indexes of the passage that is shown.
SHOWN = (0, 2)
FAR = [place << 24 for place in range(MOST_RECORDS)]


def place_said(place):
    """A place of a log of seven, as the page has it."""
    return fold_said(positions_of(place)) + (", the root" if place.count == LEAVES else "")


def list_rows():
    """The rows of section 12.3."""
    (size, nodes), records = log_of([run_record(number, 0) for number in range(LEAVES)]), b""
    for indexes in LISTS:
        number = write_passage(size, indexes, records, [0] * len(indexes), nodes, bytearray(1000)).number
        shown = f"0 up to {len(indexes) - 1}" if isinstance(indexes, range) else with_comma(indexes) or "none"
        yield f"| {shown} | {f'number {number}' if number else 'a request'} |"


def walk_rows():
    """The walk of section 12.4, and the inputs of section 12.9, each as one run of rows."""
    rows = []
    for place in walk_of(LEAVES, ASKED):
        leaves = f"{place.first} to {place.first + place.count - 1}" if place.count > 1 else str(place.first)
        done = "looked into" if looked_into(place) else "record" if place.asked else "digest"
        rows.append(f"| {place_said(place)} | {leaves} | {with_comma(place.asked) or 'none'} | {done} |")
    yield " ".join(rows)
    yield " ".join(f"| {place_said(place)} | {', '.join(map(place_said, sides(place)))} |" for place in opened(LEAVES, ASKED))


def digest_rows():
    """The second table of section 12.4."""
    for leaves, indexes in REQUESTS:
        yield f"| {leaves} | {with_comma(indexes)} | {', '.join(fold_said(positions_of(place)) for place in closed(leaves, indexes)) or 'none'} |"


def shown_passage(mode=PLAIN):
    """The root of the log of section 7.6, and the passage of section 12.7."""
    nodes, _ = small_log(mode)
    return root(4, nodes, mode).root, passage_of(4, SHOWN, [RECORDS[index] for index in SHOWN], nodes, mode)


def forged():
    """The two forgeries of section 12.7."""
    nodes, _ = small_log()
    yield passage_bytes(4, (), (), [root(4, nodes).root])
    yield passage_bytes(4, (0, 0), (RECORDS[0], b"foul"), [node(nodes, 1), node(nodes, 3)])


def changes():
    """The rows of the table in section 12.7: a name, and the letters."""
    _, letter = shown_passage()
    yield "cut to 9 bytes", [letter[:9]]
    yield "cut to 21, 25, 37 or 43 bytes", [letter[:length] for length in (21, 25, 37, 43)]
    yield "one byte short, or one byte long", [letter[:-1], letter + b"\0"]
    yield "naming size 3", [restated(letter, 0, 8, 3)]
    yield "naming 0 records, or 257", [restated(letter, 8, 10, count) for count in (0, 257)]
    yield "naming 1 record", [restated(letter, 8, 10, 1)]
    yield "naming 3 records", [restated(letter, 8, 10, 3)]
    for index in (0, 1, 3):
        yield f"its second index {index}", [restated(letter, 26, 34, index)]
    for index in (2, 3):
        yield f"its first index {index}", [restated(letter, 10, 18, index)]
    yield "its second length 5, 38 or 39", [restated(letter, 34, 38, length) for length in (5, 38, 39)]
    yield "its second length 16,385", [restated(letter, 34, 38, LONGEST_RECORD + 1)]
    places = (*range(22, 26), *range(38, len(letter)))
    yield "a bit of a record or of its digest changed", [with_last_bit(letter, place) for place in places]


def change_rows():
    """Those rows, with the numbers that the rules give."""
    (top, letter), (_, under) = shown_passage(), shown_passage(LEAGUES[0])
    for name, letters in changes():
        yield f"| {name} | {', '.join(sorted({str(check_passage(4, top, shown).number) for shown in letters}))} |"
    numbers = {check_passage(4, top, letter, LEAGUES[0]).number, check_passage(4, top, under).number}
    yield f"| under the key, or the second letter in the plain mode | {', '.join(map(str, numbers))} |"
    yield f"| by the checker of 9.6 | {check_letter(4, top, letter).number} |"
    yield f"| the letter of `no goal` in 9.7, by this checker | {check_passage(4, *shown_letter()).number} |"


def damage_rows():
    """The table of damaged nodes in section 12.9."""
    records = [run_record(number, 3) for number in range(LEAVES)]
    size, nodes = log_of(records)
    for name, indexes in (("records 1, 2 and 5", ASKED), ("records 1 and 2", (1, 2)), ("record 6", (6,))):
        own = [records[index] for index in indexes]
        letter = passage_of(size, indexes, own, nodes)
        compare = functools.partial(find_passage, size, b"".join(own), [len(record) for record in own])
        found = [compare(with_last_bit(nodes, NODE * at), letter, bytearray(PAIR), bytearray(PAIR)) for at in range(size)]
        yield f"| {name} | {' | '.join(str(answer.number or answer.outcome) for answer in found)} |"


def passage_rows():
    """The rows of section 12."""
    for rows in (list_rows, walk_rows, digest_rows, change_rows, damage_rows):
        yield from rows()


def passage_order_rows():
    """The rows of section 3, where they are those of the second program."""
    written, found, check = (PASSAGE_ORDERS[call] for call in ("passage_write", "passage_find", "passage_check"))
    numbers = [entry.split()[0] for entry in written]
    if numbers == ["1", "19", "16", "16", *["5", "3"] * 3, "4", *["13"] * 3, "6"]:
        yield "| passage, written | 1, 19, 16, then of the first record that has any: 5, 3; then 4, 13 for each record, 6 |"
    if check == ("1", "12", *PASSAGE_FROM_7) and PASSAGE_ORDERS["passage_entry"] == check:
        yield "| passage, checked | 1, 12, then **passage from 7** |"
    each = [entry.format("last") for entry in EACH]
    if PASSAGE_FROM_7[-7:] == (*each, "7 (exact length)", "9") and PASSAGE_FROM_7[:3] == ("7 (under 10 bytes)", "8", "19 (number)"):
        yield ("| **passage from 7** | 7 (under 10 bytes), 8, 19 (number of records), then for each record in turn 7 (its 12 bytes cut off), 19"
               " (index not above the last), 5, 3 (stated length), 7 (record cut off); then 7 (exact length), 9 |")
    if PASSAGE_ORDERS["passage_entries"] == (*check, "6 (indexes)", "6 (starts)", "6 (lengths)"):
        yield "| all records of a passage | as a passage is checked, then 6 (indexes), 6 (starts), 6 (lengths) |"
    behind = [entry.split()[0] for entry in found[3 + len(PASSAGE_FROM_7):]]
    if found[:3 + len(PASSAGE_FROM_7)] == ("1", "10", "4", *PASSAGE_FROM_7) and behind == ["16", "16", *["3", "13"] * 3, "14", "6", "6"]:
        yield ("| finder of passages | 1, 10, 4, **passage from 7** with the root of its own nodes, 16, then of the first record that has any: 3, 13;"
               " then 14, 6 (first buffer), 6 (second buffer) |")


def passage_sentences():
    """Numbers that stand in sentences and in the tables of sections 1 and 2."""
    digests = len(closed(MOST_LEAVES, FAR))
    longest = passage_length(MOST_LEAVES, FAR, [LONGEST_RECORD] * MOST_RECORDS)
    yield f"| indexes of a request | 1 | {MOST_RECORDS} |"
    yield f"| digests of a passage letter | 0 | {digests:,} |"
    yield (f"| passage letter | {len(WHOLE_PASSAGE)} bytes | {longest:,} bytes ({PASSAGE_HEAD} + {MOST_RECORDS} × ({ENTRY_HEAD} + {LONGEST_RECORD:,})"
           f" + {NODE} × {digests:,}) |")
    yield f"No request needs more than {digests:,} digests."
    yield f"records 0 and 2 of the plain log of 7.6, {len(shown_passage()[1])} bytes:"
    yield "| 19 | the list of indexes is empty, has more than 256, or does not rise strictly |"
    yield (f"It reads at most {PASSAGE_PANEL_MOST:,} bytes, which is {PANEL_HEAD} and one more than {MOST_RECORDS} of the longest records would take with"
           f" {MOST_ITEMS} digests for each, {PASSAGE_HEAD} + {MOST_RECORDS} × ({ENTRY_HEAD} + {LONGEST_RECORD:,} + {NODE} × {MOST_ITEMS}).")
    yield f"It reads at most {KEY + PASSAGE_PANEL_MOST:,} bytes, the key and as many as that of 11.3:"


def passage_bytes_shown():
    """Bytes of section 12.7, in hexadecimal."""
    return (WHOLE_PASSAGE, shown_passage()[1], shown_passage(LEAGUES[0])[1], *forged())


def passages_as_said():
    """Whether the examples of section 12.7 get the numbers that the page gives them: both letters accepted, with these parts; both forgeries 19, and
    the root worked out from the second is the log's."""
    (none, twice), top = forged(), shown_passage()[0]
    good = check_passage(1, digest(b""), WHOLE_PASSAGE) == (0, 1) and by_letter(3, twice, digest)[0] == top == none[PASSAGE_HEAD:]
    for mode in (PLAIN, LEAGUES[0]):
        top, letter = shown_passage(mode)
        entries = [passage_entry(4, top, letter, place, mode) for place in range(3)]
        good &= check_passage(4, top, letter, mode) == (0, 2) and entries == [(0, 0, 22, 4), (0, 2, 38, 6), (0, 0, 0, 0)]
    return good and [check_passage(4, shown_passage()[0], letter).number for letter in (none, twice)] == [19, 19]


def panels_as_said():
    """Whether the programs of sections 11.3 and 11.4 write what the page says: for the passages of section 12.7, cut at every byte and with one more,
    under keys with a bit changed; and each kind of letter by the program of the other."""
    plain, under = (panel_input(4, *shown_passage(mode)) for mode in (PLAIN, LEAGUES[0]))
    whole, single = KEYS[0] + under, panel_input(4, *shown_letter())
    keyed_single = KEYS[0] + panel_input(4, *shown_letter(LEAGUES[0]))
    cut = [passage_panel(plain[:length]) for length in range(len(plain))]
    keyed_cut = [keyed_passage_panel(whole[:length]) for length in range(len(whole))]
    changed = {keyed_passage_panel(with_last_bit(whole, place)) for place in range(KEY)}
    more = [passage_panel(plain + b"\0"), keyed_passage_panel(whole + b"\0")]
    others = [panel(plain), passage_panel(single), keyed_panel(whole), keyed_passage_panel(keyed_single)]
    return (cut == [12] * 40 + [7] * 76 and keyed_cut == [24] * 32 + [12] * 40 + [7] * 76 and (len(plain), len(whole)) == (116, 148)
            and (passage_panel(plain), keyed_passage_panel(whole)) == (0, 0) and changed == {9} and more == [7, 7] and others == [5, 19, 5, 19])
