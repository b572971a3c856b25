#!/usr/bin/env python3
"""The calls for C held to vectors/: the library answers every vector, and each number and byte of its answer is compared with the file's.

Nothing of the second program is used here: what is expected is read from the files alone. That the files are what the second program makes is
another check, second/second.py vectors --verify.

    vectors.py                build the bridge and compare
    vectors.py --self-test    only try that a wrong vector is noticed (each run begins with this)

Exit status: 0 where all agree; 1 where one differs, which is printed; 2 where nothing could be run.
"""
import argparse
import sys
from collections import Counter

from bridge import Bridge, build, differences, lines_of
from calls import NO_CALLS, PARTS, Case, digest_case, flipped
from vector_cases import ASKED, NODE, UNASKED, mode_in, vectors


def digest_by(bridge, data, mode):
    """The library's digest of the data in a mode."""
    answer = bridge.ask(0, digest_case(data, NODE, mode))
    return answer.parts[-1] if answer else b""


def folded(bridge, nodes, mode):
    """Nodes folded from the right (RULES 7.4), by the library's digest."""
    so_far = nodes[-1]
    for left in reversed(nodes[:-1]):
        so_far = digest_by(bridge, left + so_far, mode)
    return so_far


def wrong_items(bridge, given, answer, name, before):
    """What is wrong with the positions that a vector has for the items of its letter, or the digests of its passage, behind so many bytes."""
    nodes, items = given["nodes"], answer[name]
    if len(answer["letter"]) - NODE * len(items) != before:
        yield f"{name}: {len(items)} positions, which are not as many as the letter has"
    for place, positions in enumerate(items):
        shown = answer["letter"][before + NODE * place:][:NODE]
        if folded(bridge, [nodes[NODE * position:][:NODE] for position in positions], mode_in(given)) != shown:
            yield f"{name}: number {place} of the letter is not what stands at {positions}"


def wrong_within(bridge, vector):
    """What is wrong with a vector beside the questions: the record that it has is the part it names, the items those at their positions."""
    given, answer = vector.given, vector.answer
    if answer["number"] != 0:
        return
    whole = given.get("node" if vector.call == "read_node" else "letter", b"")
    if "record_at" in answer and whole[answer["record_at"]:][:len(answer["record"])] != answer["record"]:
        yield "record: it is not the part that it is said to be"
    if "items" in answer:
        yield from wrong_items(bridge, given, answer, "items", 20 + len(given["record"]))
    if "digests" in answer:
        yield from wrong_items(bridge, given, answer, "digests", 10 + 12 * len(given["indexes"]) + len(given["joined"]))


def wrong_lines(bridge, at, vector):
    """What differs between a vector and the library, a line each. The vector's number decides on the placing of the parts."""
    for step, (case, expected) in enumerate(ASKED[vector.call](vector.given, vector.answer)):
        lines = differences(case, bridge.ask(at + step, case), expected)
        if lines:
            return [f"keeper_{case.call}", *lines, "what was given:", *lines_of(case, False)]
    return list(wrong_within(bridge, vector))


def other(value):
    """Another value of its kind, for a field of an answer."""
    if isinstance(value, int):
        return value + 1
    if isinstance(value, bytes):
        return flipped(value, len(value) // 2) if value else b"\0"
    if isinstance(value, str):
        return {"inner": "leaf", "leaf": "inner", "same": "records"}[value]
    return [other(value[0]), *value[1:]] if value else [[0]]


def damaged(vector):
    """The vector with each field of its answer made wrong in turn."""
    for name, value in vector.answer.items():
        yield vector._replace(answer={**vector.answer, name: other(value)})


def noticed(bridge, vector):
    """Whether a wrong vector is noticed."""
    try:
        return bool(wrong_lines(bridge, 0, vector))
    except ValueError:
        return True


def self_test(bridge):
    """For each call one vector of each number: every field of its answer made wrong in turn, and each wrong vector noticed."""
    tried = {(vector.call, vector.answer["number"]): vector for vector in vectors() if vector.call in ASKED}
    wrong = [one for vector in tried.values() for one in damaged(vector)]
    missed = [one for one in wrong if not noticed(bridge, one)]
    stray = Case("stray", (), [b"lent"])
    missed += [stray for at in range(2) if not differences(stray, bridge.ask(at, stray), bridge.ask(at, stray))]
    for one in missed:
        print(f"vectors: a wrong vector is not noticed: {one}")
    print(f"vectors: {len(wrong) + 2 - len(missed)} of {len(wrong) + 2} wrong vectors are noticed")
    return not missed


def compare(bridge):
    """Every vector of every file: each difference, then a line for each file."""
    agree, total, unasked = Counter(), Counter(), Counter()
    met = set()
    for at, vector in enumerate(vectors()):
        if vector.call in UNASKED:
            unasked[vector.call] += 1
            continue
        lines = wrong_lines(bridge, at, vector)
        if lines:
            print("\n  ".join([f"vectors/{vector.file}, {vector.name}: the library differs", *lines]))
        agree[vector.file] += not lines
        total[vector.file] += 1
        met.add(vector.call)
    return told(agree, total, unasked, met)


def told(agree, total, unasked, met):
    """The lines at the end; whether all agree and no call was left out."""
    for name in total:
        print(f"vectors/{name}: {agree[name]} of {total[name]} agree")
    for call, count in unasked.items():
        print(f"vectors: {count} {call} vectors are not asked here: {UNASKED[call]}")
    unmet = sorted(set(PARTS) - set(NO_CALLS) - met)
    print(f"vectors: {agree.total()} of {total.total()} agree" + "".join(f"\n  never met: keeper_{call}" for call in unmet))
    return agree == total and bool(total) and not unmet


def main():
    parser = argparse.ArgumentParser(description=__doc__, formatter_class=argparse.RawDescriptionHelpFormatter)
    parser.add_argument("--self-test", action="store_true", help="only try that wrong vectors are noticed")
    parser.add_argument("--bridge", help="a bridge that is built already")
    given = parser.parse_args()
    bridge = Bridge(given.bridge or build())
    good = self_test(bridge) and (given.self_test or compare(bridge))
    return bridge.close() == 0 and good


if __name__ == "__main__":
    sys.exit(0 if main() else 1)
