"""The orders of passages (RULES 3): three records of a log of four, and for each entry a change of what is given to which it applies."""
from grown import log_of
from portable.form import counted
from portable.letters import flipped
from portable.passages import check_case, entries_case, entry_case, find_case, heads, write_case
from rules.finder import PAIR
from rules.log import LONGEST_RECORD, NODE, root
from rules.passages import MOST_RECORDS, PASSAGE_HEAD, passage_of
from rules.shape import nodes_of

LOG, INDEXES = (b"goal", b"no goal", b"corner", b"foul"), (0, 1, 3)
WHICH = ("first", "middle", "last")
# The order from 7, and those of the calls, an entry for each record where the record decides. The first index has none before it.
EACH = ("7 (12 bytes of the {} cut off)", "19 (index of the {})", "5 ({})", "3 (stated length of the {})", "7 ({} cut off)")
PASSAGE_FROM_7 = ("7 (under 10 bytes)", "8", "19 (number)", *(entry.format(which) for which in WHICH for entry in EACH
                                                             if (which, entry) != ("first", EACH[1])), "7 (exact length)", "9")
PASSAGE_CHECK = ("1", "12", *PASSAGE_FROM_7)
PASSAGE_ORDERS = {
    "passage_write": ("1", "19", "16 (count)", "16 (sum)", *(f"{number} ({which})" for which in WHICH for number in (5, 3)), "4",
                      *(f"13 ({which})" for which in WHICH), "6"),
    "passage_check": PASSAGE_CHECK,
    "passage_entry": PASSAGE_CHECK,
    "passage_entries": (*PASSAGE_CHECK, "6 (indexes)", "6 (starts)", "6 (lengths)"),
    "passage_find": ("1", "10", "4", *PASSAGE_FROM_7, "16 (count)", "16 (sum)", *(f"{number} ({which})" for which in WHICH for number in (3, 13)),
                     "14", "6 (first buffer)", "6 (second buffer)"),
}


# ---- a letter from its parts


def letter_parts(letter):
    """The parts of a letter of three records: each field, the records, the digests, and its length."""
    parts = {"letter size": letter[:8], "number": letter[8:PASSAGE_HEAD]}
    for which, (head, start, end) in zip(WHICH, heads(letter)):
        parts |= {f"index of {which}": letter[head:start - 4], f"length of {which}": letter[start - 4:start], which: letter[start:end]}
    return {**parts, "digests": letter[end:], "length": len(letter)}


def with_passage(make, names):
    """A case of a call that is given a passage letter, from the letter's parts and the call's own."""
    def made(name, **given):
        *parts, length = [given.pop(part) for part in names]
        return make(name, letter=b"".join(parts).ljust(length, b"\0")[:length], **given)
    return made


def letter_changes(letter):
    """For each entry of the order from 7 a change of the letter's parts to which it applies. 16,385 bytes are stated, and not there."""
    changes = {"7 (under 10 bytes)": {"length": 9}, "8": {"letter size": nodes_of(3).to_bytes(8, "big")}, "19 (number)": {"number": b"\1\1"},
               "7 (exact length)": {"length": len(letter) + 1}, "9": {"digests": flipped(letter, len(letter) - 1)[heads(letter)[-1][2]:]}}
    for place, (which, (head, start, end)) in enumerate(zip(WHICH, heads(letter))):
        changes |= dict(zip((entry.format(which) for entry in EACH), (
            {"length": start - 1}, {f"index of {which}": INDEXES[max(place - 1, 0)].to_bytes(8, "big")},
            {f"index of {which}": len(LOG).to_bytes(8, "big")}, {f"length of {which}": (LONGEST_RECORD + 1).to_bytes(4, "big")},
            {"length": end - 1})))
    del changes[EACH[1].format("first")]
    return changes


# ---- the calls


def with_list(make):
    """A case of the writer, from its three records and indexes: what stands behind these, and behind the lengths and the joined bytes."""
    def made(name, at, behind, more, spare, **given):
        records = [given.pop(which) for which in WHICH]
        return make(name, indexes=[*at, *behind], joined=b"".join(records) + spare, lengths=[*map(len, records), *more], **given)
    return made


def with_own(make, names):
    """A case of the finder, from the log's three records and the letter's parts."""
    make = with_passage(make, names)

    def made(name, more, spare, **given):
        records = [given.pop(f"own {which}") for which in WHICH]
        return make(name, joined=b"".join(records) + spare, lengths=[*map(len, records), *more], **given)
    return made


def with_rooms(make, names):
    """A case of the call that hands out all records, from the places in each list and the letter's parts."""
    make = with_passage(make, names)

    def made(name, indexes, starts, lengths, **given):
        return make(name, rooms=(indexes, starts, lengths), **given)
    return made


def write_call(size, nodes, records, room):
    """The writer. An index that is too high makes those behind it too high as well, since the list rises."""
    high, longer = len(LOG), counted(8, LONGEST_RECORD + 1)
    at = {which: {"at": [*INDEXES[:place], *range(high, high + 3 - place)]} for place, which in enumerate(WHICH)}
    true = {"size": size, "at": INDEXES, "behind": [], "more": [], "spare": b"", **dict(zip(WHICH, records)), "nodes": nodes, "room": room}
    return "passage_write", with_list(write_case), true, {
        "1": {"size": 2}, "19": {"behind": [INDEXES[-1]]}, "16 (count)": {"more": [0]}, "16 (sum)": {"spare": b"\0"}, "4": {"nodes": nodes[:-1]},
        "6": {"room": room - 1}, **{f"5 ({which})": at[which] for which in WHICH}, **{f"3 ({which})": {which: longer} for which in WHICH},
        **{f"13 ({which})": {which: b"other"} for which in WHICH}}


def find_call(size, nodes, records, parts, from_7):
    """The finder. The node that is damaged is beside an asked leaf, below a node that is looked into."""
    longer, own = counted(8, LONGEST_RECORD + 1), [f"own {which}" for which in WHICH]
    true = {"size": size, "nodes": nodes, **dict(zip(own, records)), "more": [], "spare": b"", "rooms": (PAIR, PAIR), **parts}
    return "passage_find", with_own(find_case, parts), true, {
        "1": {"size": 2}, "10": {"size": 0}, "4": {"nodes": nodes[:-1]}, **from_7, "16 (count)": {"more": [0]}, "16 (sum)": {"spare": b"\0"},
        **{f"3 ({which})": {f"own {which}": longer} for which in WHICH}, **{f"13 ({which})": {f"own {which}": b"other"} for which in WHICH},
        "14": {"nodes": flipped(nodes, NODE * nodes_of(2))}, "6 (first buffer)": {"rooms": (PAIR - 1, PAIR)},
        "6 (second buffer)": {"rooms": (PAIR, PAIR - 1)}}


def passage_calls(mode):
    """Each call: what makes a case of it, inputs that are done, and for each entry of its order a change to which it applies."""
    size, nodes = log_of(LOG, mode)
    top, records = root(size, nodes, mode).root, [LOG[index] for index in INDEXES]
    letter = passage_of(size, INDEXES, records, nodes, mode)
    parts, from_7 = letter_parts(letter), letter_changes(letter)
    true, changes = {"size": size, "top": top, **parts}, {"1": {"size": 2}, "12": {"top": top[:-1]}, **from_7}
    yield write_call(size, nodes, records, len(letter))
    yield "passage_check", with_passage(check_case, parts), true, changes
    yield "passage_entry", with_passage(entry_case, parts), {**true, "place": 1}, changes
    yield "passage_entries", with_rooms(entries_case, parts), {**true, "indexes": 3, "starts": 3, "lengths": MOST_RECORDS}, {
        **changes, **{f"6 ({which})": {which: 2} for which in ("indexes", "starts", "lengths")}}
    yield find_call(size, nodes, records, parts, from_7)


def shared(call, one, other):
    """Whether two entries of an order are left out where vectors are stored: they are tests that the call shares with passage_check, which has
    them. What hands out records has no others but 6; beside those of the finder those of the middle record stand for all."""
    from_7 = set(PASSAGE_CHECK if call in ("passage_entry", "passage_entries") else PASSAGE_FROM_7)
    both = one in from_7 and other in from_7
    apart = {entry for entry in PASSAGE_FROM_7 if "first" in entry or "last" in entry}
    return {"passage_entry": True, "passage_entries": both, "passage_find": both or one in apart or other in apart}.get(call, False)
