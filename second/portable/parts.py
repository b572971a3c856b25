"""The vectors of digests in parts: inputs cut in many ways, states begun, added to and ended, and states that are refused or hold anything."""
from expected.digest_run import LENGTHS
from expected.given import KEYS, LEAGUES
from portable.form import case, counted, form
from rules.blake3 import BLOCK, CHUNK, KEY, PLAIN, Mode, bytes_of, words_of
from rules.parts import MOST_BYTES, PLACES, State, add, begin, end, held_of, stacked_of

ONE = LEAGUES[0]
EDGES = (BLOCK, CHUNK, 4 * CHUNK)
# Parts of one length, over and over, and how many bytes they make: byte by byte, packets, and more than a chunk.
STEPS = ((1, 1025), (7, 1030), (63, 1024), (65, 1025), (1000, 9001), (1024, 8193), (1500, 20000), (4095, 16381), (4096, 16385), (5000, 65537))
# Any bytes, for fields that may hold anything: counting ones, which are written briefly where they are many.
ANY_KEY, ANY_CHAIN, ANY_STACK, ANY_BLOCK = counted(11, KEY), counted(77, 32), counted(140, 960), counted(200, BLOCK)
NO_WORDS = (0,) * 8


# ---- states


def state_form(state):
    """A state as the files have it: numbers, and bytes, words being as C has them; zeros at the end of bytes are left out."""
    fields = {name: bytes_of(value) if isinstance(value, tuple) else value for name, value in state._asdict().items()}
    return {name: form(value.rstrip(b"\0") if isinstance(value, bytes) else value) for name, value in fields.items()}


def state_after(length, mode=PLAIN):
    """The state that has taken the first bytes of a run."""
    return add(begin(mode), counted(0, length)).state


def state_of(total, held=None, stacked=None, mode=PLAIN):
    """A state of a total that nobody made, with any stack and block; its counts are the total's, or others."""
    held, stacked = held_of(total) if held is None else held, stacked_of(total) if stacked is None else stacked
    return begin(mode)._replace(total=total, held=held, stacked=stacked, chain=NO_WORDS, stack=words_of(ANY_STACK), block=ANY_BLOCK)


def any_state(total, keyed=7):
    """A state of a total with anything in its other fields, where they mean nothing too."""
    return state_of(total)._replace(keyed=keyed, key=words_of(ANY_KEY), chain=words_of(ANY_CHAIN))


# ---- cases


def begin_case(name, mode):
    """A state begun."""
    return case("parts_begin", name, {}, 0, mode, state=state_form(begin(mode)))


def add_case(name, state, part):
    """A part added to a state."""
    answer = add(state, part)
    return case("parts_add", name, {"state": state_form(state), "part": part}, answer.number, state=state_form(answer.state))


def end_case(name, state):
    """A state ended."""
    answer = end(state)
    return case("parts_end", name, {"state": state_form(state)}, answer.number, digest=answer.digest)


def cut_case(name, lengths, mode=PLAIN):
    """An input in parts of these lengths, begun, added and ended: the state behind the last of them, and the digest."""
    data, state, at = counted(0, sum(lengths)), begin(mode), 0
    for length in lengths:
        state = add(state, data[at:at + length]).state
        at += length
    if end(state).digest != mode(data):
        raise ValueError(f"{name}: the digest in parts is not that of the whole")
    return case("parts", name, {"input": data, "lengths": list(lengths)}, 0, mode, state=state_form(state), digest=end(state).digest)


def in_steps(length, step):
    """So many bytes in parts of one length, the last of which may be shorter."""
    return [min(step, length - at) for at in range(0, length, step)]


def cut_cases(mode=PLAIN, more=""):
    """Two parts around each edge; the lengths of digest_run whole; parts of one length; empty parts anywhere; no byte at all."""
    for edge in EDGES:
        for length in (edge - 1, edge, edge + 1, edge + BLOCK + 1):
            for at in range(edge - 2, min(edge + 2, length) + 1):
                yield cut_case(f"{length} bytes, cut after {at}{more}", [at, length - at], mode)
    for length in LENGTHS:
        yield cut_case(f"{length} bytes in one part{more}", [length], mode)
    for step, length in STEPS:
        yield cut_case(f"{length} bytes in parts of {step}{more}", in_steps(length, step), mode)
    yield cut_case(f"no part{more}", [], mode)
    yield cut_case(f"three empty parts{more}", [0, 0, 0], mode)
    for length in (1, BLOCK, CHUNK, 2 * CHUNK):
        yield cut_case(f"{length} bytes and one more, an empty part before, between and behind{more}", [0, length, 0, 1, 0], mode)


def keyed_cuts():
    """Some of them under a key."""
    return [one for place, one in enumerate(cut_cases(ONE, ", keyed")) if place % 5 == 0 or "empty" in one["name"] or "no part" in one["name"]]


def begin_cases():
    """Modes of every kind: what the state keeps of them."""
    yield begin_case("begun plain", PLAIN)
    yield begin_case("begun plain, with a key that means nothing", Mode(0, KEYS[0]))
    for number in (1, 2, 256, 2**31, 2**32 - 1):
        yield begin_case(f"begun keyed, number {number}", Mode(number, KEYS[0]))
    yield begin_case("begun keyed, a key of zeros", Mode(1, bytes(KEY)))


def true_cases(mode, more, totals):
    """States that were begun and added to: ended, and with one byte more; an empty part, four chunks and more."""
    for total in totals:
        yield end_case(f"{total} bytes, ended{more}", state_after(total, mode))
        yield add_case(f"one byte behind {total}{more}", state_after(total, mode), counted(total, 1))
    for total, length in ((CHUNK, 3 * CHUNK), (CHUNK + 1, 7 * CHUNK), (4 * CHUNK, 4 * CHUNK), (100, 0), (CHUNK, 0)):
        yield add_case(f"{length} bytes behind {total}{more}", state_after(total, mode), counted(total, length))


def off_cases():
    """Counts that are not the total's, by one and by more; a stack too high or too low: a part added, with a byte or with none, and ended."""
    for total in (0, 1, BLOCK, CHUNK, CHUNK + 1, 3 * CHUNK + 1, MOST_BYTES):
        held, stacked = held_of(total), stacked_of(total)
        bytes_off, trees_off = (held + 1, held - 1, held + 2**32), (stacked + 1, stacked - 1, 2**32 - 1)
        for count in (count for count in bytes_off if count >= 0):
            yield add_case(f"total {total}, {count} held, one byte added", state_of(total, count), b"\5")
            yield end_case(f"total {total}, {count} held, ended", state_of(total, count))
        for count in (count for count in trees_off if count >= 0):
            yield add_case(f"total {total}, {count} stacked, nothing added", state_of(total, held, count), b"")
            yield end_case(f"total {total}, {count} stacked, ended", state_of(total, held, count))
    for total in (CHUNK, CHUNK + 1, 2 * CHUNK):
        for other in (total - 1, total + 1):
            yield end_case(f"the state of {total} bytes with the total {other}", state_after(total)._replace(total=other))


def limit_cases():
    """Totals at 2^40 and beyond, with the counts that they would have; parts that end there, and that would pass it."""
    for total in (MOST_BYTES - 6, MOST_BYTES - 5, MOST_BYTES - 1, MOST_BYTES, MOST_BYTES + 1, 2**63, 2**64 - 1):
        for length in (0, 1, 5, 6, 100):
            yield add_case(f"total {total}, {length} bytes added", state_of(total), counted(9, length))
        yield end_case(f"total {total}, ended", state_of(total))
    yield add_case("total 1099511626752, a chunk added", state_of(MOST_BYTES - CHUNK), counted(9, CHUNK))
    yield add_case("total 1099511626752, a chunk and a byte added", state_of(MOST_BYTES - CHUNK), counted(9, CHUNK + 1))


def any_cases():
    """Anything in the other fields of a state, taken as it stands; what means nothing is zeros behind a part, and stays where the part is empty."""
    for total in (0, 1, BLOCK - 1, BLOCK, CHUNK, CHUNK + 1, 3 * CHUNK, 4 * CHUNK, 2**32):
        for keyed in (0, 2**31):
            name, part = f"anything in a state of {total} bytes, keyed {keyed}", counted(9, total % 7)
            yield end_case(f"{name}, ended", any_state(total, keyed))
            yield add_case(f"{name}, {len(part)} bytes added", any_state(total, keyed), part)
        yield add_case(f"anything in a state of {total} bytes, 65 bytes added", any_state(total), counted(9, BLOCK + 1))
    zeros = State(0, 0, 0, 0, NO_WORDS, NO_WORDS, NO_WORDS * PLACES, bytes(BLOCK))
    yield end_case("a state of zeros, ended", zeros)
    yield add_case("a state of zeros, a chunk and a byte added", zeros, counted(0, CHUNK + 1))


def parts_cases():
    """All of them."""
    around = sorted(edge + by for edge in EDGES for by in (-1, 0, 1))
    true = [*true_cases(PLAIN, "", [0, 1, *around, 3 * CHUNK]), *true_cases(ONE, ", keyed", [0, *EDGES, CHUNK + 1])]
    return [*cut_cases(), *keyed_cuts(), *begin_cases(), *true, *off_cases(), *limit_cases(), *any_cases()]
