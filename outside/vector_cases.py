"""The files of vectors/ as cases of the calls for C: what is asked of the library, and the answer that the file has for it."""
import json
from collections import namedtuple
from pathlib import Path

from bridge import Answer, refused
from calls import (add_case, append_case, begin_case, check_case, cut_case, digest_case, end_case, find_case, inner_case, leaf_case, many_case,
                   mode_bytes, mode_keyed_case, mode_plain_case, number_case, passage_check_case, passage_entries_case, passage_entry_case,
                   passage_find_case, passage_write_case, read_case, root_case, state_bytes, u32, u64, u64s, write_case)

VECTORS = Path(__file__).resolve().parent.parent / "vectors"
PUBLISHED, PUBLISHED_KEY = "blake3-published.txt", b"whats the Elvish word for friend"
NODE = 32
# The words of a finder, as C has them.
WORDS = {"same": 1, "records": 2, "pair": 3}
# A vector: its file, its name, the call, what is given and the answer, with bytes and numbers as Python has them.
Vector = namedtuple("Vector", "file name call given answer")


def octets(form):
    """Bytes: hexadecimal digits, a run of counting bytes, or a list of these, joined."""
    if isinstance(form, list):
        return b"".join(map(octets, form))
    if isinstance(form, dict):
        return (bytes(range(251)) * (2 + form["length"] // 251))[form["start"]:][:form["length"]]
    return bytes.fromhex(form)


def state_in(forms):
    """A state, as C has it: numbers, and bytes whose zeros at the end are left out."""
    return state_bytes(**{name: octets(form) if name in ("key", "chain", "stack", "block") else int(form) for name, form in forms.items()})


def each(kind):
    """A list of such values."""
    return lambda forms: [kind(form) for form in forms]


# What the fields hold, where it is not bytes.
KINDS = {
    **dict.fromkeys(("number", "size", "new_size", "hashes", "leaves", "index", "position", "record_at", "room", "first_room",
                     "second_room", "keyed", "count", "place", "indexes_room", "starts_room", "lengths_room"), int),
    **dict.fromkeys(("sizes", "hashes_each", "lengths", "indexes", "starts"), each(int)),
    **dict.fromkeys(("records", "roots"), each(octets)),
    **dict.fromkeys(("kind", "found"), str),
    **dict.fromkeys(("items", "digests"), each(each(int))),
    "state": state_in,
}


def fields(forms):
    """The fields of a case, read."""
    return {name: KINDS.get(name, octets)(form) for name, form in forms.items()}


def published():
    """BLAKE3's published figures, as vectors."""
    for line in (VECTORS / PUBLISHED).read_text().splitlines():
        if not line.startswith("#"):
            length, plain, keyed = line.split()
            given = {"input": octets({"start": 0, "length": int(length)})}
            yield Vector(PUBLISHED, f"{length} bytes", "digest", given, {"number": 0, "digest": octets(plain)})
            under = {"key": PUBLISHED_KEY, **given}
            yield Vector(PUBLISHED, f"{length} bytes, keyed", "keyed_digest", under, {"number": 0, "digest": octets(keyed)})


def read_vector(file, case):
    """A case of a file, read."""
    return Vector(file, case["name"], case["call"], fields(case["given"]), fields(case["answer"]))


def vectors():
    """Every vector of every file."""
    yield from published()
    for path in sorted(VECTORS.glob("*.json")):
        for case in json.loads(path.read_text())["cases"]:
            yield read_vector(path.name, case)


def mode_in(given):
    """The mode that a vector gives, as C has it: plain where there is no key, and else of number 1 where it names no other."""
    return mode_bytes(given.get("keyed", 1), given["key"]) if "key" in given else mode_bytes(0, bytes(32))


def filled(out, data):
    """A buffer with the data in its first bytes."""
    return data + out[len(data):]


def asked_once(case, answer, results):
    """One question: the case, and the answer, whose last parts are what results() gives where it is done."""
    if answer["number"] != 0:
        return [(case, refused(answer["number"], case))]
    last = results()
    return [(case, Answer(0, [*case.parts[:-len(last)], *last], False))]


def plain_asked(given, answer):
    return asked_once(mode_plain_case(), answer, lambda: [mode_in({})])


def keyed_asked(given, answer):
    return asked_once(mode_keyed_case(given["key"]), answer, lambda: [mode_in(given)])


def digest_asked(given, answer):
    return asked_once(digest_case(given["input"], NODE, mode_in(given)), answer, lambda: [answer["digest"]])


def begin_asked(given, answer):
    return asked_once(begin_case(mode_in(given)), answer, lambda: [answer["state"]])


def add_asked(given, answer):
    return asked_once(add_case(given["state"], given["part"]), answer, lambda: [answer["state"]])


def end_asked(given, answer):
    return asked_once(end_case(given["state"], NODE), answer, lambda: [answer["digest"]])


def cut_asked(given, answer):
    return asked_once(cut_case(given["input"], given["lengths"], mode_in(given)), answer, lambda: [answer["state"], answer["digest"]])


def number_asked(call, name, result):
    """The questions of a call that makes one number of another."""
    return lambda given, answer: asked_once(number_case(call, given[name]), answer, lambda: [u64(answer[result])])


def append_asked(given, answer):
    case = append_case(given["size"], given["record"], given["nodes"], mode_in(given))
    return asked_once(case, answer, lambda: [answer["nodes"], u64(answer["new_size"]), u64(answer["hashes"])])


def many_asked(given, answer):
    case = many_case(given["size"], given["joined"], given["lengths"], given["nodes"], mode_in(given))
    return asked_once(case, answer, lambda: [answer["nodes"], u64(answer["new_size"]), u64(answer["hashes"])])


def root_asked(given, answer):
    return asked_once(root_case(given["size"], given["nodes"], NODE, mode_in(given)), answer, lambda: [answer["root"]])


def log_asked(given, answer):
    """An append and a root for each record, in one buffer whose bytes beyond the size stay as they were."""
    size, nodes, asked = 0, answer["nodes"], []
    beyond = b"\x3c" * len(nodes)
    for record, new_size, count, top in zip(given["records"], answer["sizes"], answer["hashes_each"], answer["roots"], strict=True):
        before, after = (nodes[:NODE * of] + beyond[NODE * of:] for of in (size, new_size))
        one = {"number": answer["number"], "nodes": after, "new_size": new_size, "hashes": count, "root": top}
        asked += append_asked({**given, "size": size, "record": record, "nodes": before}, one)
        asked += root_asked({**given, "size": new_size, "nodes": after}, one)
        size = new_size
    return asked


def write_asked(given, answer):
    case = write_case(given["size"], given["index"], given["record"], given["nodes"], given["room"], mode_in(given))
    return asked_once(case, answer, lambda: [filled(case.parts[-2], answer["letter"]), u64(len(answer["letter"]))])


def check_asked(given, answer):
    case = check_case(given["size"], given["root"], given["letter"], mode_in(given))
    return asked_once(case, answer, lambda: [u64(answer["index"]), u64(answer["record_at"]), u64(len(answer["record"]))])


def find_asked(given, answer):
    rooms = given["first_room"], given["second_room"]
    case = find_case(given["size"], given["nodes"], given["record"], given["letter"], rooms, mode_in(given))
    return asked_once(case, answer, lambda: [u32(WORDS[answer["found"]])])


def passage_write_asked(given, answer):
    case = passage_write_case(given["size"], given["indexes"], given["joined"], given["lengths"], given["nodes"], given["room"], mode_in(given))
    return asked_once(case, answer, lambda: [filled(case.parts[-2], answer["letter"]), u64(len(answer["letter"]))])


def passage_check_asked(given, answer):
    case = passage_check_case(given["size"], given["root"], given["letter"], mode_in(given))
    return asked_once(case, answer, lambda: [u64(answer["count"])])


def passage_entry_asked(given, answer):
    case = passage_entry_case(given["size"], given["root"], given["letter"], given["place"], mode_in(given))
    return asked_once(case, answer, lambda: [u64(answer["index"]), u64(answer["record_at"]), u64(len(answer["record"]))])


def passage_entries_asked(given, answer):
    rooms = given["indexes_room"], given["starts_room"], given["lengths_room"]
    case = passage_entries_case(given["size"], given["root"], given["letter"], rooms, mode_in(given))
    lists = [u64s(answer.get(name, ())) for name in ("indexes", "starts", "lengths")]
    return asked_once(case, answer, lambda: [*map(filled, case.parts[3:6], lists), u64(len(answer["indexes"]))])


def passage_find_asked(given, answer):
    rooms = given["first_room"], given["second_room"]
    case = passage_find_case(given["size"], given["nodes"], given["joined"], given["lengths"], given["letter"], rooms, mode_in(given))
    return asked_once(case, answer, lambda: [u32(WORDS[answer["found"]]), u64(answer["index"])])


def written_asked(case, answer):
    """The questions of a writer of stored nodes."""
    return asked_once(case, answer, lambda: [filled(case.parts[-2], answer["node"]), u64(len(answer["node"]))])


def leaf_asked(given, answer):
    return written_asked(leaf_case(given["record"], given["room"], mode_in(given)), answer)


def inner_asked(given, answer):
    return written_asked(inner_case(given["digest"], given["room"]), answer)


def read_asked(given, answer):
    case = read_case(given["node"], NODE, mode_in(given))
    return asked_once(case, answer, lambda: [u32({"inner": 0, "leaf": 1}[answer["kind"]]), answer["digest"], u64(answer["record_at"]),
                                             u64(len(answer["record"]))])


# What a vector of each call asks of the library.
ASKED = {
    "mode_plain": plain_asked,
    "mode_keyed": keyed_asked,
    "digest": digest_asked,
    "keyed_digest": digest_asked,
    "parts": cut_asked,
    "parts_begin": begin_asked,
    "parts_add": add_asked,
    "parts_end": end_asked,
    "size": number_asked("size", "leaves", "size"),
    "leaf_position": number_asked("leaf_position", "index", "position"),
    "leaf_count": number_asked("leaf_count", "size", "leaves"),
    "append": append_asked,
    "append_many": many_asked,
    "root": root_asked,
    "log": log_asked,
    "letter_write": write_asked,
    "letter_check": check_asked,
    "find": find_asked,
    "store_leaf": leaf_asked,
    "store_inner": inner_asked,
    "read_node": read_asked,
    "passage_write": passage_write_asked,
    "passage_check": passage_check_asked,
    "passage_entry": passage_entry_asked,
    "passage_entries": passage_entries_asked,
    "passage_find": passage_find_asked,
}
# Vectors that no call of the library answers, and why.
UNASKED = dict.fromkeys(("panel", "keyed_panel"), "outside/panel.sh runs the program on them")


def cases_of(given):
    """Every case that these vectors ask."""
    return [case for vector in given if vector.call in ASKED for case, _ in ASKED[vector.call](vector.given, vector.answer)]


def cases_in_vectors():
    """Every case that the files ask."""
    return cases_of(vectors())
