"""The vectors of the orders (RULES 3): every two refusals of a call at once, in any mode."""
import itertools

from expected.given import LEAGUES
from once import Once
from portable.batches import many_case
from portable.form import counted, logged
from portable.finder import find_case
from portable.letters import check_case, flipped, write_case
from portable.logs import append_case, root_case, small_log
from portable.parts import add_case, end_case, state_of
from portable.passage_orders import PASSAGE_ORDERS, passage_calls, shared
from portable.stored import RECORD, read_case
from rules.blake3 import PLAIN
from rules.finder import PAIR
from rules.letters import LETTER_HEAD, letter_of
from rules.log import LONGEST_RECORD, NODE, root
from rules.parts import MOST_BYTES, held_of, stacked_of
from rules.shape import MOST_LEAVES, nodes_of
from rules.stored import stored_leaf

LEAVES, INDEX = 3, 0
# An order: its entries, each a number and where there are two of it a word for which. A batch is of three records; its later ones have no 2 of their
# own, for the buffer that those before them would fill has 2^38 bytes.
FROM_7 = ("7 (under 20 bytes)", "8", "5", "3 (stated length)", "7 (exact length)", "9")
ORDERS = {
    "parts_add": ("17 (total)", "17 (held)", "17 (stacked)", "17 (part)"),
    "parts_end": ("17 (total)", "17 (held)", "17 (stacked)"),
    "read_node": ("11 (form)", "3", "11 (exact length)", "18"),
    "append": ("1", "2", "3", "4"),
    "append_many": ("1", "16", "2", "3 (first)", "4 (first)", "3 (middle)", "4 (middle)", "3 (last)", "4 (last)"),
    "root": ("1", "10", "4"),
    "letter_write": ("1", "5", "3", "4", "13", "6"),
    "letter_check": ("1", "12", *FROM_7),
    "find": ("1", "10", "4", *FROM_7, "3 (record)", "13", "14", "6 (first buffer)", "6 (second buffer)"),
    **PASSAGE_ORDERS,
}


def letter_from(size, index, stated, body, length):
    """A letter of these numbers, record and items, cut at a length or with zeros behind it."""
    head = size.to_bytes(8, "big") + index.to_bytes(8, "big") + stated.to_bytes(4, "big")
    return (head + body).ljust(length, b"\0")[:length]


def letter_changes(letter, stated):
    """A letter's parts, and for each entry of the order from 7 a change of them to which it applies."""
    body, parts = letter[LETTER_HEAD:], ("letter size", "letter index", "stated", "body", "length")
    true = dict(zip(parts, (nodes_of(LEAVES), INDEX, stated, body, len(letter))))
    return true, {
        "7 (under 20 bytes)": {"length": 19}, "8": {"letter size": nodes_of(2)}, "5": {"letter index": LEAVES},
        "3 (stated length)": {"stated": LONGEST_RECORD + 1}, "7 (exact length)": {"length": len(letter) + 1},
        "9": {"body": flipped(body, len(body) - 1)},
    }


def with_records(name, first, middle, last, spare, **given):
    """A case of a batch of three records, with bytes to spare behind the joined ones."""
    records = (first, middle, last)
    return many_case(name, joined=b"".join(records) + spare, lengths=[len(record) for record in records], **given)


def with_counts(make):
    """A case of a call on a state that has these counts."""
    def made(name, total, held, stacked, mode, **given):
        return make(name, state_of(total, held, stacked, mode), **given)
    return made


def parts_calls():
    """The calls on a state, five bytes before the limit; the total that is too high has the same counts beside it."""
    total, part = MOST_BYTES - 5, counted(9, 6)
    true = {"total": total, "held": held_of(total), "stacked": stacked_of(total)}
    off = {"17 (total)": {"total": 2 * MOST_BYTES - 1029}, "17 (held)": {"held": true["held"] - 1}, "17 (stacked)": {"stacked": true["stacked"] - 1}}
    yield "parts_add", with_counts(add_case), {**true, "part": part[1:]}, {**off, "17 (part)": {"part": part}}
    yield "parts_end", with_counts(end_case), true, off


def with_fields(name, flag, digest, stated, record, length, mode):
    """A case of a leaf with these fields, cut at a length or with zeros behind it."""
    return read_case(name, (flag + digest + stated.to_bytes(4, "big") + record).ljust(length, b"\0")[:length], mode)


def read_call(mode):
    """The reader of stored nodes, on a leaf."""
    leaf = stored_leaf(RECORD, mode)
    true = {"flag": leaf[:1], "digest": leaf[1:33], "stated": len(RECORD), "record": RECORD, "length": len(leaf)}
    return "read_node", with_fields, true, {"11 (form)": {"flag": b"\2"}, "3": {"stated": LONGEST_RECORD + 1},
                                            "11 (exact length)": {"length": len(leaf) + 1}, "18": {"record": flipped(RECORD, 0)}}


def with_letter(make, parts):
    """A case of a call that is given a letter, from the letter's parts and the call's own."""
    def made(name, **given):
        return make(name, letter=letter_from(*(given.pop(part) for part in parts)), **given)
    return made


def calls(mode):
    """Each call: what makes a case of it, inputs that are done, and for each entry of its order a change to which it applies."""
    yield from parts_calls()
    yield read_call(mode)
    size, nodes = small_log(LEAVES, mode)
    record, longer, short = logged(INDEX), counted(8, LONGEST_RECORD + 1), {"nodes": nodes[:-1]}
    letter, top, no_size = letter_of(size, INDEX, record, nodes, mode), root(size, nodes, mode).root, {"size": 2}
    parts, from_7 = letter_changes(letter, len(record))
    room = {"nodes": nodes + bytes(NODE * (nodes_of(LEAVES + 1) - size) - 1)}
    yield "append", append_case, {"size": size, "record": record, "nodes": room["nodes"] + b"\0"}, {
        "1": no_size, "2": {"size": nodes_of(MOST_LEAVES)}, "3": {"record": longer}, "4": room}
    wanted = [NODE * nodes_of(LEAVES + taken) for taken in (1, 2, 3)]
    yield "append_many", with_records, {
        "size": size, "first": b"", "middle": record, "last": logged(2), "spare": b"", "nodes": nodes.ljust(wanted[2], b"\x3c")}, {
        "1": no_size, "16": {"spare": b"\0"}, "2": {"size": nodes_of(MOST_LEAVES)}, **{
            f"3 ({which})": {which: longer} for which in ("first", "middle", "last")}, **{
            f"4 ({which})": {"nodes": nodes.ljust(room, b"\x3c")[:room - 1]} for which, room in zip(("first", "middle", "last"), wanted)}}
    yield "root", root_case, {"size": size, "nodes": nodes}, {"1": no_size, "10": {"size": 0}, "4": short}
    yield "letter_write", write_case, {"size": size, "index": INDEX, "record": record, "nodes": nodes, "room": len(letter)}, {
        "1": no_size, "5": {"index": LEAVES}, "3": {"record": longer}, "4": short, "13": {"record": b"other"}, "6": {"room": len(letter) - 1}}
    yield "letter_check", with_letter(check_case, parts), {"size": size, "top": top, **parts}, {
        "1": no_size, "12": {"top": top[:-1]}, **from_7}
    yield "find", with_letter(find_case, parts), {"size": size, "nodes": nodes, "record": record, "rooms": (PAIR, PAIR), **parts}, {
        "1": no_size, "10": {"size": 0}, "4": short, **from_7, "3 (record)": {"record": longer}, "13": {"record": b"other"},
        "14": {"nodes": flipped(nodes, NODE)}, "6 (first buffer)": {"rooms": (PAIR - 1, PAIR)}, "6 (second buffer)": {"rooms": (PAIR, PAIR - 1)}}
    yield from passage_calls(mode)


def twos(call, changes, left_out):
    """Every two entries of an order whose changes are of different parts, but for some that are left out."""
    for one, other in itertools.combinations([entry for entry in ORDERS[call] if entry in changes], 2):
        if not set(changes[one]) & set(changes[other]) and not left_out(call, one, other):
            yield one, other


def pairs(mode, left_out=lambda *two: False):
    """A case for every two entries of an order: the entry that comes first, and the case. What is changed behind the end of a passage that is cut
    is not there."""
    for call, make, true, changes in calls(mode):
        alone = {entry: make("", mode=mode, **{**true, **change})["given"] for entry, change in changes.items()}
        for one, other in twos(call, changes, left_out):
            case = make(f"{call}, {one} and {other}", mode=mode, **{**true, **changes[one], **changes[other]})
            if call not in PASSAGE_ORDERS or case["given"] not in (alone[one], alone[other]):
                yield one, case


def singles(mode):
    """Each entry of an order alone, and the case."""
    for call, make, true, changes in calls(mode):
        for entry, change in changes.items():
            yield entry, make(f"{call}, {entry}", mode=mode, **{**true, **change})


def order_cases(mode=PLAIN):
    """Every two refusals at once."""
    return [case for _, case in pairs(mode)]


def order_vectors():
    """Those that are stored as vectors: where calls of passages share tests, those of one of them."""
    return [case for _, case in pairs(Once(*PLAIN), shared)]


def check_orders():
    """In each mode each entry applies alone, and of two the one that comes first is answered."""
    tried = [one for mode in (Once(*PLAIN), Once(*LEAGUES[0])) for one in (*singles(mode), *pairs(mode))]
    wrong = [case for entry, case in tried if case["answer"]["number"] != int(entry.split()[0])]
    for case in wrong:
        print(f"orders: {case['name']}: answered {case['answer']['number']}")
    print(f"orders: {len(tried) - len(wrong)} of {len(tried)} refusals, alone and by twos, are the first in the order")
    return not wrong
