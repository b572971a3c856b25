"""The page of rules, docs/RULES.md: its examples have to be as the rules make them, and a section that is cited somewhere has to be there."""
import itertools
import re
from pathlib import Path

from expected.given import KEYS, LEAGUES, counting_bytes
from page_passages import panels_as_said, passage_bytes_shown, passage_order_rows, passage_rows, passage_sentences, passages_as_said
from portable.orders import FROM_7, ORDERS
from rules.batch import append_many
from rules.blake3 import BLOCK, CHUNK, KEY, PLAIN, Mode, bytes_of, digest, keyed, words_of
from rules.letters import PANEL_HEAD, PANEL_MOST, WHOLE_LETTER, check_letter, keyed_panel, letter_bytes, panel
from rules.log import LONGEST_RECORD, NODE, append, node, root
from rules.parts import MOST_BYTES, PLACES, WORDS, State, add, begin, end, finished, held_of, stacked_of
from rules.plain import largest_power
from rules.shape import MOST_LEAVES, items_of, leaf_count, leaf_position, nodes_of, size_of
from rules.stored import read_stored, stored_inner, stored_leaf
from shown import RECORDS, fold_said, shown_letter, small_log, with_comma, with_last_bit

TOP = Path(__file__).resolve().parent.parent
PAGE = TOP / "docs" / "RULES.md"
# Where sections are cited.
CITING = ("second/**/*.py", "outside/**/*.[pc]*", "vectors/*", "include/*.h", "hosts/*.[chp]*", "README.md", "docs/*.md", "crates/**/*.md",
          "crates/**/*.rt", "crates/**/*.antt")
# Section 7.7: the size, the joined records, the lengths, the bytes of the buffer. The longer record is zeros.
FULL, LONGER = nodes_of(MOST_LEAVES), bytes(LONGEST_RECORD + 1)
BATCHES = (
    (0, RECORDS, (4, 7, 6), 128), (1, RECORDS[1:], (7, 6), 128), (0, (), (), 0), (FULL, (), (), 0), (FULL - 1, (), (), 0),
    (2, RECORDS, (4, 7), 128), (FULL, RECORDS, (4, 7), 128), (0, RECORDS, (4, 7, 5), 128), (0, RECORDS, (2**32 - 1, 18), 128),
    (FULL, RECORDS, (4, 7, 6), 128), (0, RECORDS, (4, 7, 6), 127), (0, (b"goal", LONGER), (4, len(LONGER)), 31),
    (0, (b"goal", LONGER), (4, len(LONGER)), 32), (0, (LONGER, b"goal"), (len(LONGER), 4), 31),
)
# Section 5.7: totals; states by their counts, and the bytes that are added to them.
TOTALS = (0, 1, BLOCK, BLOCK + 1, CHUNK, CHUNK + 1, 2 * CHUNK, 2 * CHUNK + 1, 3 * CHUNK + 1, 4 * CHUNK + 1, MOST_BYTES)
STATES = (
    (0, 0, 0, 0), (0, 1, 0, 0), (1024, 64, 0, 1), (1024, 0, 1, 1),
    (1025, 1, 1, 0), (1025, 0, 1, 0), (1025, 2, 1, 0), (1025, 1, 0, 0), (1025, 1, 2, 0),
    *((MOST_BYTES - 5, 59, 30, more) for more in (5, 6)), *((MOST_BYTES, 64, 30, more) for more in (0, 1)), (MOST_BYTES, 64, 29, 0),
    (MOST_BYTES + 1, 1, 1, 0), (2**64 - 1, 63, 54, 1),
)
# Section 4.4: the fields of a state in C, their types and how many bytes they have.
FIELDS = (("total", "uint64_t", 8), ("held", "uint64_t", 8), ("stacked", "uint32_t", 4), ("keyed", "uint32_t", 4), ("key", "uint32_t[8]", 32),
          ("chain", "uint32_t[8]", 32), ("stack", "uint32_t[240]", 960), ("block", "uint8_t[64]", 64))
# Section 8.4: what somebody has put in place of the first record.
EDITED = b"foul"
# Section 9.3: the name of an example, the leaf count, the index.
ITEMS = (("", 1, 0), ("", 2, 1), ("", 3, 2), ("M14", 5, 2), ("M15", 7, 4), ("M16", 7, 0), ("", 8, 3), ("", 11, 9))


def noted(mode=PLAIN):
    """The size and the root of that log, as the panel's program reads them."""
    return (4).to_bytes(8, "big") + shown_letter(mode)[0]


def shape_rows():
    """The rows of section 6.6, as the rules make them."""
    full = nodes_of(MOST_LEAVES)
    yield f"| M1 to M9 | sizes of {with_comma(range(9))} leaves | {with_comma(size_of(n)[1] for n in range(9))} |"
    yield f"| M10 | leaf count of size 2 | number {leaf_count(2)[0]} |"
    yield f"| M11 | position of leaf 2 | {leaf_position(2)[1]} |"
    yield f"| M12 | position of leaf 7 | {leaf_position(7)[1]} |"
    yield f"| | leaf count of sizes 5, 6, 9 | number {', '.join(sorted({str(leaf_count(size)[0]) for size in (5, 6, 9)}))} |"
    yield f"| | size of 2^32 leaves | {full:,} |"
    yield f"| | leaf count of {full:,} | {leaf_count(full)[1]:,} |"
    yield f"| | leaf count of {full + 1:,} | number {leaf_count(full + 1)[0]} |"
    yield f"| | position of leaf {MOST_LEAVES - 1:,} | {leaf_position(MOST_LEAVES - 1)[1]:,} |"
    yield f"| | position of leaf {MOST_LEAVES:,} | number {leaf_position(MOST_LEAVES)[0]} |"
    yield f"| | size of {MOST_LEAVES + 1:,} leaves | number {size_of(MOST_LEAVES + 1)[0]} |"


def state_of(total, held, stacked, fill=0):
    """A state with these counts; its other fields are zeros, or have that number everywhere."""
    return State(total, held, stacked, fill, (fill,) * WORDS, (fill,) * WORDS, (fill,) * WORDS * PLACES, bytes([fill] * BLOCK))


def field_rows():
    """The fields of a state in section 4.4, each behind the one before it."""
    for (name, kind, size), at in zip(FIELDS, itertools.accumulate((size for _, _, size in FIELDS), initial=0)):
        yield f"| `{name}` | `{kind}` | {at:,} | {size} |"


def count_rows():
    """The counts of totals in section 5.7."""
    yield f"| total | {' | '.join('2^40' if total == MOST_BYTES else f'{total:,}' for total in TOTALS)} |"
    for name, counted in (("held", held_of), ("finished chunks", finished), ("stacked", stacked_of)):
        yield f"| {name} | {' | '.join(f'{counted(total):,}' for total in TOTALS)} |"


def state_rows():
    """The states of section 5.7."""
    for total, held, stacked, more in STATES:
        (number, after), ended = add(state_of(total, held, stacked), bytes(more)), end(state_of(total, held, stacked)).number
        said = f"done, total {after.total:,}" if number == 0 else f"number {number}"
        yield f"| {total:,} | {held} | {stacked} | {more} | {said} | {f'number {ended}' if ended else 'done'} |"


def item_rows():
    """The rows of section 9.3."""
    for name, leaves, index in ITEMS:
        yield f"| {name + ' ' if name else ''}| {leaves} | {index} | {', '.join(map(fold_said, items_of(leaves, index))) or 'none'} |"


def batch_done(batch, mode=PLAIN):
    """A batch of section 7.7 in a mode, over a buffer that begins with the first node of section 7.6: the answer, and the buffer."""
    size, records, lengths, room = batch
    buffer = bytearray(small_log(mode)[0][:NODE].ljust(room, b"\x3c")[:room])
    return append_many(size, b"".join(records), lengths, buffer, mode), bytes(buffer)


def joined_said(records):
    """Joined records as the page has them."""
    if LONGER in records:
        return ", ".join(f"{len(record):,} bytes" if record == LONGER else f"`{record.decode()}`" for record in records)
    return f"`{b''.join(records).decode()}`" if records else "none"


def batch_rows():
    """The rows of section 7.7."""
    for batch in BATCHES:
        (size, records, lengths, room), (answer, _) = batch, batch_done(batch)
        said = f"done, size {answer.size:,}, count {answer.hashes}" if answer.number == 0 else f"number {answer.number}"
        yield f"| {size:,} | {joined_said(records)} | {with_comma(lengths) or 'none'} | {room} | {said} |"


def edited_leaves():
    """The three leaves of section 8.4: the record edited, the digest edited, under the key."""
    leaf = stored_leaf(RECORDS[0])
    return leaf[:-len(EDITED)] + EDITED, with_last_bit(leaf, 32), stored_leaf(RECORDS[0], LEAGUES[0])


def shown_nodes():
    """The nodes of the table in section 8.4: a name, and the bytes."""
    leaf, inner, (record, digits, under) = stored_leaf(RECORDS[0]), stored_inner(node(small_log()[0], 2)), edited_leaves()
    yield "the leaf of `goal`", leaf
    yield "the same, its record changed to `foul`", record
    yield "the same, its record changed to `foul`, and its digest to that of `foul`", stored_leaf(EDITED)
    yield "the same, the last bit of its digest changed", digits
    yield "the leaf of `goal` under the key", under
    yield "the same, its record changed to `foul`", under[:-len(EDITED)] + EDITED
    yield "the parent in 7.6", inner
    yield "the same, the last bit of its digest changed", with_last_bit(inner, 32)
    yield "the changed leaf, `foul` in it, with a byte behind it", record + b"\0"
    yield "the changed leaf, stating 16,385 bytes", record[:33] + (LONGEST_RECORD + 1).to_bytes(4, "big") + record[37:]
    yield "the changed leaf, its first byte 02", b"\2" + record[1:]


def read_said(data, mode):
    """What a reader answers, as the page has it."""
    read = read_stored(data, mode)
    return f"number {read.number}" if read.number else f"done, {read.kind}" + (f", {len(read.record)} bytes" if read.kind == "leaf" else "")


def stored_rows():
    """The rows of section 8.4, as they stand one behind the other."""
    yield " ".join(f"| {name} | {read_said(data, PLAIN)} | {read_said(data, LEAGUES[0])} |" for name, data in shown_nodes())


def order_rows():
    """Rows of section 3."""
    yield f"| mode of a key | {keyed(b'').number} |"
    for name, call in (("part, added", "parts_add"), ("digest in parts, ended", "parts_end")):
        yield f"| {name} | {', '.join(sorted({entry.split()[0] for entry in ORDERS[call]}))} |"
    for name, call in (("append", "append"), ("root", "root"), ("stored node, read", "read_node"), ("letter, written", "letter_write")):
        yield f"| {name} | {', '.join(ORDERS[call])} |"
    if [entry.split()[0] for entry in ORDERS["append_many"][:5]] == ["1", "16", *ORDERS["append"][1:]]:
        yield f"| append of many | 1, 16, then of the first record that has any: {', '.join(ORDERS['append'][1:])} |"
    yield f"| **from 7** | {', '.join(FROM_7)} |"
    if ORDERS["letter_check"] == ("1", "12", *FROM_7):
        yield "| letter, checked | 1, 12, then **from 7** |"
    if ORDERS["find"] == ("1", "10", "4", *FROM_7, "3 (record)", "13", "14", "6 (first buffer)", "6 (second buffer)"):
        yield "| finder | 1, 10, 4, **from 7** with the root of its own nodes, 3 and 13 for the log's record, 14, 6 (first buffer), "


def sentences():
    """Numbers that stand in sentences."""
    answers = small_log()[1]
    longest = letter_bytes(0, 0, bytes(LONGEST_RECORD), [bytes(NODE)] * 32)
    yield f"sizes {with_comma(answer.size for answer in answers)}, hash counts {with_comma(answer.hashes for answer in answers)}."
    yield f"The records of 7.6, joined, are the {len(b''.join(RECORDS))} bytes `{b''.join(RECORDS).decode()}`, and their lengths are"
    yield f"4,294,967,295 and 18 then pass for {(2**32 - 1 + 18) % 2**32} (7.7)."
    yield f"M13: at n = 7 the hash count is {append(nodes_of(7), b'', bytearray(NODE * nodes_of(8))).hashes}:"
    yield f"| letter | {len(WHOLE_LETTER)} bytes | {len(longest):,} bytes (20 + {LONGEST_RECORD:,} + 32 × {NODE}) |"
    yield (f"Eleven records are split after {largest_power(11)}, and the three that are left after {largest_power(11 - largest_power(11))};"
           f" four are split after {largest_power(4)}.")
    for more in (0, KEY):
        yield f"It reads at most {more + PANEL_MOST:,} bytes, which is {more + PANEL_HEAD} and one more than the longest letter"
    yield f"the {KEY} ASCII bytes `{KEYS[0].decode()}`."
    yield "its first two words are {:08x} and {:08x}.".format(*words_of(KEYS[0]))
    yield f"the {len(KEYS[1])} bytes from {KEYS[1][0]} up to {KEYS[1][-1]}."
    yield f"| {read_stored(edited_leaves()[0]).number} | the digest in a stored leaf isn't that of its record |"
    yield f"| {keyed(b'').number} | a key is not {KEY} bytes |"
    yield f"| input of the digest, in parts | 0 bytes | {MOST_BYTES:,} bytes in all, which is 2^40 |"
    yield f"A state (5.7) is a struct of {sum(size for _, _, size in FIELDS):,} bytes, `keeper_parts`,"
    yield f"Up to 2^40 bytes it is at most {max(map(stacked_of, (MOST_BYTES - CHUNK, MOST_BYTES)))}."
    yield f"the block is {in_parts(PLAIN).block[0]:02x} in hexadecimal and {in_parts(PLAIN).block.count(0)} zeros;"
    if PANEL_MOST == PANEL_HEAD + len(longest) + 1 and len(items_of(MOST_LEAVES, 5)) == len(items_of(MOST_LEAVES - 1, 0)) == 32:
        yield f"and {len(items_of(MOST_LEAVES - 1, MOST_LEAVES - 2))} for the last index"


def forgeries(nodes):
    """The two forged letters of section 9.7: the letter, the trusted size, the size that it names, the root of that log."""
    yield letter_bytes(3, 1, RECORDS[2], [node(nodes, 2)]), 4, 3, root(4, nodes).root
    yield letter_bytes(1, 0, nodes[:2 * NODE], []), 3, 1, root(3, nodes).root


def in_parts(mode, length=CHUNK + 1):
    """The state that holds the bytes of section 5.6."""
    return add(begin(mode), counting_bytes(length)).state


def example_bytes():
    """Bytes that stand in the page, in hexadecimal: digests, nodes, letters, what the panels' programs read."""
    for mode in (PLAIN, LEAGUES[0]):
        nodes, _ = small_log(mode)
        yield from (digest(data, mode) for data in (b"", b"abc", counting_bytes(1024), counting_bytes(1025)))
        yield from (node(nodes, position) for position in range(4))
        yield from shown_letter(mode)
        yield bytes_of(in_parts(mode).stack[:WORDS])
    nodes, _ = small_log()
    yield end(state_of(0, 0, 0)).digest
    yield from (keyed(bytes(KEY)).mode(b""), stored_leaf(RECORDS[0]), stored_inner(node(nodes, 2)), *edited_leaves(), WHOLE_LETTER)
    yield from (noted(), KEYS[0] + noted(LEAGUES[0]))
    yield from (letter for letter, _, _, _ in forgeries(nodes))
    yield from passage_bytes_shown()


def keyed_as_said():
    """Whether the keyed examples do: keys of other lengths, the letter in other modes, the input of the program for keyed logs."""
    (key, other), (mode, _) = KEYS, LEAGUES
    (top, letter), (plain_top, plain_letter) = shown_letter(mode), shown_letter()
    keys = [keyed(one).number for one in (key[:-1], key + b"\n", key.hex().encode(), b"")]
    in_modes = [check_letter(4, top, letter, Mode(number, key)).number for number in (1, 2, 2**31, 0)]
    changed = [with_last_bit(key, place) for place in range(KEY)]
    refused = [check_letter(4, top, letter, keyed(one).mode).number for one in (other, *changed)]
    refused += [check_letter(4, plain_top, letter).number, check_letter(4, top, plain_letter, mode).number]
    whole = key + noted(mode) + letter
    cut = [keyed_panel(whole[:length]) for length in range(len(whole) + 1)]
    return (keys == [24] * 4 and in_modes == [0, 0, 0, 9] and refused == [9] * (KEY + 3) and len(whole) == 163
            and cut == [24] * 32 + [12] * 40 + [7] * 91 + [0] and {keyed_panel(one + whole[KEY:]) for one in changed} == {9})


def batches_as_said():
    """Whether the batches of section 7.7 have the same numbers under a key, and the nodes of section 7.6 where they are done and write any."""
    keyed_too = all(batch_done(batch)[0] == batch_done(batch, LEAGUES[0])[0] for batch in BATCHES)
    return keyed_too and all(batch_done(batch, mode)[1] == small_log(mode)[0] for batch in BATCHES[:2] for mode in (PLAIN, LEAGUES[0]))


def parts_as_said():
    """Whether the states of section 5.7 are as it says: those of 1,025 bytes and of one less, by any cut; and the numbers by the counts alone."""
    good = True
    for mode in (PLAIN, LEAGUES[0]):
        data, whole, before = counting_bytes(CHUNK + 1), in_parts(mode), in_parts(mode, CHUNK)
        cut = [add(add(begin(mode), data[:at]).state, data[at:]).state for at in (0, 1, 1000, CHUNK, CHUNK + 1)]
        good &= cut == [whole] * len(cut) and whole[:3] == (1025, 1, 1) and whole.chain == mode.starting and before[:3] == (1024, 64, 0)
        good &= end(whole).digest == mode(data)
    for total, held, stacked, more in STATES:
        states = [state_of(total, held, stacked, fill) for fill in (0, 7)]
        good &= len({(add(state, bytes(more)).number, end(state).number) for state in states}) == 1
    return good


def as_said():
    """Whether the examples get the numbers that the page gives them."""
    nodes, _ = small_log()
    top, letter = shown_letter()
    whole = noted() + letter
    changed = [with_last_bit(letter, place) for place in range(20, len(letter))]
    numbers = [check_letter(4, top, shown).number for shown in (letter[:-1], letter + b"\0", *changed)]
    forged = [(check_letter(size, of, shown).number, check_letter(named, of, shown).number) for shown, size, named, of in forgeries(nodes)]
    return (check_letter(4, top, letter) == (0, 1, 20, 7) and numbers == [7, 7] + [9] * len(changed) and forged == [(8, 0), (8, 0)]
            and (len(letter), len(whole), panel(whole)) == (91, 131, 0) and check_letter(1, digest(b""), WHOLE_LETTER).number == 0)


def examples_stand(page):
    """Look for each example in the page, and for digests in it that are none."""
    lines, squeezed = " ".join(page.split()), "".join(page.split())
    made = [data.hex() for data in example_bytes()]
    rows = (*order_rows(), *field_rows(), *count_rows(), *state_rows(), *shape_rows(), *batch_rows(), *stored_rows(), *item_rows(),
            *passage_order_rows(), *passage_rows())
    wanted = [(text, lines) for text in (*rows, *sentences(), *passage_sentences())] + [(text, squeezed) for text in made]
    missing = [text for text, where in wanted if text not in where]
    foreign = [found for found in re.findall("[0-9a-f]{64}", page) if not any(found in one for one in made)]
    for text in missing:
        print(f"rules: not in docs/RULES.md: {text}")
    for text in foreign:
        print(f"rules: in docs/RULES.md, and of nothing that is made here: {text}")
    print(f"rules: {len(wanted) - len(missing)} of {len(wanted)} examples of docs/RULES.md are as the rules make them")
    return not missing and not foreign


def citations():
    """The sections that are cited: where, and which."""
    for path in sorted({path for where in CITING for path in TOP.glob(where) if path.is_file()}):
        for cited in re.findall(r"RULES (\d+(?:\.\d+)?(?:, \d+\.\d+)*)", path.read_text(errors="replace")):
            yield from ((path.relative_to(TOP), section) for section in cited.split(", "))


def citations_stand(page):
    """Look for each section that is cited, and each that the page itself points to."""
    sections = set(re.findall(r"^##+ (\d+(?:\.\d+)?)\.? ", page, re.MULTILINE))
    cited = [*citations(), *((PAGE.relative_to(TOP), section) for section in re.findall(r"\b(\d{1,2}\.\d)\b(?![\d,])", page))]
    wrong = [(path, section) for path, section in cited if section not in sections]
    for path, section in wrong:
        print(f"rules: {path} cites section {section}, which docs/RULES.md does not have")
    print(f"rules: {len(cited) - len(wrong)} of {len(cited)} citations lead to one of {len(sections)} sections")
    return not wrong


def check_page():
    """Its examples, the numbers that it gives them, and what cites it."""
    page = PAGE.read_text()
    told = as_said() and keyed_as_said() and parts_as_said() and batches_as_said() and passages_as_said() and panels_as_said()
    if not told:
        print("rules: an example of docs/RULES.md has another number than the page says")
    good = examples_stand(page)
    return citations_stand(page) and good and told
