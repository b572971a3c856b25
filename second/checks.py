"""The rules tried on published figures, on the marked examples (M1 to M16 of docs/RULES.md) and on each other."""
import functools
import zlib
from collections import Counter
from pathlib import Path

from batches import check_batches
from expected.given import KEYS, LEAGUES, counting_bytes, flips_of, letter_in, log_of, record_of, run_record
from grown import grown
from page import check_page
from parts import check_parts, in_parts
from passages import check_passages
from portable.orders import check_orders
from review import check_review
from rules.blake3 import PLAIN, Mode, digest, keyed
from rules.finder import PAIR, find, log_inputs
from rules.letters import LETTER_HEAD, MOST_ITEMS, WHOLE_LETTER, check_letter, index_in, items_in, letter_bytes, letter_inputs, letter_of, record_in
from rules.letters import size_in
from rules.log import LONGEST_RECORD, NODE, append, folded, node, root
from rules.plain import plain_items
from rules.shape import MOST_LEAVES, items_of, leaf_count, leaf_position, nodes_of, size_of, trailing_ones
from stored import check_stored
from table import check_numbers
from wrong_passages import check_wrong_passages

PUBLISHED = Path(__file__).resolve().parent.parent / "vectors" / "blake3-published.txt"
# The modes that the rules are tried in, by name.
MODES = {"plain": PLAIN, "keyed": LEAGUES[0]}


def published_figures():
    """The published figures: length, plain hash, keyed hash."""
    for line in PUBLISHED.read_text().splitlines():
        if not line.startswith("#"):
            length, plain, with_key = line.split()
            yield int(length), plain, with_key


def check_mode(name, mode, figures):
    """Compare the digests of one mode with its published figures: a line for each difference, then one for the group."""
    wrong = 0
    for length, published in figures:
        ours = digest(counting_bytes(length), mode).hex()
        if ours != published:
            wrong += 1
            print(f"{name}, {length} bytes: {ours}, but {published} is published")
    print(f"{name}: {len(figures) - wrong} of {len(figures)} published digests agree")
    return bool(figures) and wrong == 0


def marked_examples():
    """The marked examples: name, what the rules give, what is marked."""
    for leaves, marked in enumerate((0, 1, 3, 4, 7, 8, 10, 11, 15)):
        yield f"M{leaves + 1}", size_of(leaves), (0, marked)
    yield "M10", leaf_count(2), (1, 0)
    yield "M11", leaf_position(2), (0, 3)
    yield "M12", leaf_position(7), (0, 11)
    yield "M13", append(11, b"", bytearray(NODE * 15)).hashes, 4
    yield "M14", items_of(5, 2), [(4,), (2,), (7,)]
    yield "M15", items_of(7, 4), [(6,), (8,), (10,)]
    yield "M16", items_of(7, 0), [(1,), (5,), (9, 10)]


def check_marked():
    """Compare the rules with the marked examples."""
    wrong = [(name, got, marked) for name, got, marked in marked_examples() if got != marked]
    for name, got, marked in wrong:
        print(f"{name}: {got}, but {marked} is marked")
    total = len(list(marked_examples()))
    print(f"marked: {total - len(wrong)} of {total} examples agree")
    return not wrong


def check_logs(most, name):
    """Logs of 1 to most records in a mode: counts, sizes and positions by two rules each. Their making holds the root to the plain rule."""
    mode = MODES[name]
    records, good = [run_record(i, i) for i in range(most)], 0
    for i, (answer, buffer) in enumerate(grown(records, mode)):
        good += (
            answer == (0, nodes_of(i + 1), 1 + trailing_ones(i))
            and leaf_count(answer.size) == (0, i + 1)
            and node(buffer, nodes_of(i)) == mode(records[i])
        )
    print(f"logs, {name}: {good} of {most} keep size, count and leaf position, and have the plain rule's root")
    return good == most


def check_refusals(name):
    """Appends in a mode with room for five records, refused ones among them, the first and the last too; the root is held to the rule after each."""
    longer, room = bytes(LONGEST_RECORD + 1), bytearray(b"\x3c" * NODE * nodes_of(5))
    records = [longer, b"", longer, longer, b"a", b"b", longer, b"c", b"d", b"e", longer]
    numbers = [answer.number for answer, _ in grown(records, MODES[name], room)]
    print(f"refusals, {name}: of {len(numbers)} appends {numbers.count(0)} are taken, and after each the root is the plain rule's")
    return numbers == [3, 0, 3, 3, 0, 0, 3, 0, 0, 4, 3]


def marked_letters():
    """The letters of the marked examples M14 to M16: name, the items in the letter's bytes, the digests at the marked positions."""
    for name, leaves, index, marked in (("M14", 5, 2, [[4], [2], [7]]), ("M15", 7, 4, [[6], [8], [10]]), ("M16", 7, 0, [[1], [5], [9, 10]])):
        nodes = log_of(leaves)[1]
        yield name, items_in(letter_in(leaves, index)[2]), [folded([node(nodes, position) for position in item]) for item in marked]


def check_letters(most, name):
    """In a mode every letter of logs of 1 to most records is accepted, gives its record, has the plain rule's items and is found the same; no letter
    with a bit flipped is."""
    mode = MODES[name]
    good, records = 0, [run_record(index, index) for index in range(most)]
    for leaves, (answer, buffer) in enumerate(grown(records, mode), 1):
        size = answer.size
        for index, record in enumerate(records[:leaves]):
            letter = letter_of(size, index, record, buffer, mode)
            good += (
                check_letter(size, root(size, buffer, mode).root, letter, mode) == (0, index, LETTER_HEAD, index)
                and record_in(letter) == record
                and items_in(letter) == plain_items(records[:leaves], index, mode)
                and find(size, record, buffer, letter, bytearray(PAIR), bytearray(PAIR), mode) == (0, "same")
            )
    total = most * (most + 1) // 2
    print(f"letters, {name}: {good} of {total} are accepted, give their record, have the plain rule's items and are found the same")
    size, top, letter = letter_in(7, 2, mode)
    flipped = [check_letter(size, top, other, mode).number for other in flips_of(letter)]
    print(f"letters, {name}: of {len(flipped)} with one bit flipped {flipped.count(0)} are accepted")
    return good == total and flipped.count(0) == 0


def check_items():
    """No size and index within the limits needs more than 32 items: leaf counts and indexes around every power of two, and small logs whole."""
    near = sorted({at + step for at in (1 << height for height in range(33)) for step in (-1, 0, 1) if 0 < at + step <= MOST_LEAVES})
    some = [(leaves, index) for leaves in near for index in {0, leaves // 2, leaves - 1, *(at for at in near if at < leaves)}]
    small = [(leaves, index) for leaves in range(1, 130) for index in range(leaves)]
    counts = Counter(len(items_of(leaves, index)) for leaves, index in some + small)
    print(f"items: {sum(counts.values())} indexes need {min(counts)} to {max(counts)}")
    return (min(counts), max(counts)) == (0, MOST_ITEMS)


def check_marked_letters():
    """The items of the marked letters; the whole letter of one empty record."""
    marked = [name for name, items, digests in marked_letters() if items == digests]
    print(f"letters: the items of {', '.join(marked)} are those at the marked positions")
    whole = letter_of(1, 0, b"", digest(b"")) == WHOLE_LETTER and check_letter(1, digest(b""), WHOLE_LETTER) == (0, 0, LETTER_HEAD, 0)
    return len(marked) == 3 and whole


def check_keys():
    """Keys of every length up to 70; modes of other numbers; a key of zeros, which is not the plain mode."""
    numbers = [keyed(bytes(length)).number for length in range(71)]
    taken = numbers == [0 if length == len(KEYS[0]) else 24 for length in range(71)]
    data, (ours, other) = counting_bytes(1025), LEAGUES
    plain = {digest(data), *(Mode(0, key)(data) for key in KEYS)}
    under = {ours(data), *(Mode(1 << bit, KEYS[0])(data) for bit in range(32))}
    apart = {*plain, *under, other(data), keyed(bytes(len(KEYS[0]))).mode(data)}
    good = taken and (len(plain), len(under), len(apart)) == (1, 1, 4)
    print(f"modes: {numbers.count(24)} keys of another length get 24; plain, two keys and a key of zeros have {len(apart)} digests")
    return good


def check_leagues(most):
    """Every letter of logs of 1 to most records, plain and of two leagues: each in its own mode alone, in another 9 by the checker and the finder."""
    modes, tried, wrong = (PLAIN, *LEAGUES), 0, 0
    for of, leaves in ((mode, leaves) for mode in modes for leaves in range(1, most + 1)):
        size, nodes = log_of(leaves, of)
        for index, mode in ((index, mode) for index in range(leaves) for mode in modes):
            letter = letter_of(size, index, record_of(index), nodes, of)
            found = find(size, record_of(index), nodes, letter, bytearray(PAIR), bytearray(PAIR), mode)
            tried += 1
            wrong += {check_letter(size, root(size, nodes, of).root, letter, mode).number, found.number} != {0 if mode == of else 9}
    print(f"leagues: {tried - wrong} of {tried} letters are accepted in their own mode and get 9 in another")
    return wrong == 0


def toy_digest(data):
    """A digest with collisions everywhere: one byte, and zeros."""
    return zlib.crc32(data).to_bytes(4, "big")[:1].ljust(NODE, b"\0")


def with_others(letter, place):
    """A letter with other bytes in place of its record, place 0, or of one of its items, from place 1 on."""
    for number in range(1, 10000):
        parts = [record_in(letter), *items_in(letter)]
        parts[place] = number.to_bytes(8, "big") + bytes(NODE - 8)
        yield letter_bytes(size_in(letter), index_in(letter), parts[0], parts[1:])


def other_letters(size, top, letter):
    """For each such place an accepted letter with other bytes there, and what the finder is to say of it."""
    for place in range(1 + len(items_in(letter))):
        shown = next(other for other in with_others(letter, place) if check_letter(size, top, other, toy_digest).number == 0)
        one_digest = toy_digest(record_in(shown)) == toy_digest(record_in(letter))
        yield "records" if place == 0 and one_digest else "pair", shown


def found_rightly(kind, size, record, buffer, letter):
    """Whether the finder's answer is of this kind, with two strings of one digest at one place and no other byte changed."""
    ours, theirs = bytearray(b"\5" * (PAIR + 1)), bytearray(b"\6" * (PAIR + 1))
    if find(size, record, buffer, letter, ours, theirs, toy_digest) != (0, kind):
        return False
    if kind != "pair":
        return ours == b"\5" * (PAIR + 1) and theirs == b"\6" * (PAIR + 1)
    leaves = leaf_count(size)[1]
    places = zip(log_inputs(leaves, index_in(letter), buffer, toy_digest), letter_inputs(leaves, letter, toy_digest))
    return (
        ours[:PAIR] != theirs[:PAIR] and toy_digest(ours[:PAIR]) == toy_digest(theirs[:PAIR])
        and (ours[:PAIR], theirs[:PAIR]) in list(places) and ours[PAIR:] == b"\5" and theirs[PAIR:] == b"\6"
    )


def check_finder(most):
    """With the toy digest: every letter of small logs, and for each part of it an accepted letter that differs there."""
    counts, wrong, records = Counter(), 0, [run_record(index, 5) for index in range(most)]
    for leaves, (answer, buffer) in enumerate(grown(records, toy_digest), 1):
        size = answer.size
        for index, record in enumerate(records[:leaves]):
            letter = letter_of(size, index, record, buffer, toy_digest)
            for kind, shown in [("same", letter), *other_letters(size, root(size, buffer, toy_digest).root, letter)]:
                counts[kind] += 1
                wrong += not found_rightly(kind, size, record, buffer, shown)
    print(f"finder: {', '.join(f'{count} {kind}' for kind, count in counts.items())}; {wrong} are not what they should be")
    return wrong == 0 and set(counts) == {"same", "records", "pair"}


def check():
    """Try the rules on the published figures, on the marked examples and on each other."""
    good, figures = True, list(published_figures())
    for mode, published in zip(MODES, ([(n, plain) for n, plain, _ in figures], [(n, with_key) for n, _, with_key in figures])):
        good &= check_mode(mode, MODES[mode], published)
        good &= check_mode(f"{mode}, in parts", functools.partial(in_parts, MODES[mode]), published)
    good &= check_keys()
    good &= check_marked()
    good &= check_marked_letters()
    for name, leaves in (("plain", 20), ("keyed", 12)):
        good &= check_logs(70, name)
        good &= check_refusals(name)
        good &= check_letters(leaves, name)
    good &= check_parts()
    good &= check_batches()
    good &= check_stored()
    good &= check_leagues(4)
    good &= check_finder(9)
    good &= check_passages()
    good &= check_wrong_passages()
    good &= check_orders()
    good &= check_items()
    good &= check_numbers()
    good &= check_page()
    good &= check_review()
    return good
