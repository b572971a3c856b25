"""The vectors of digests, plain and keyed, beside BLAKE3's published ones."""
from expected.given import LEAGUES
from portable.form import case, counted
from rules.blake3 import PLAIN, digest

# Lengths that the published figures leave out: around a block, a node, the chunks of a tree of three and more, the longest record.
LENGTHS = (2, 31, 32, 33, 200, 4095, 7777, 12289, 16383, 16385, 65536, 100000)


def digest_case(name, data, mode=PLAIN, call="digest"):
    """The digest of the data in a mode."""
    return case(call, name, {"input": data}, 0, mode, digest=digest(data, mode))


def digest_cases():
    """Runs of counting bytes, plain and keyed; two digests as a parent has them, in both orders; bytes that do not count."""
    of = {n: digest(counted(9, n)) for n in (2, 31)}
    for length in LENGTHS:
        yield digest_case(f"{length} bytes", counted(9, length))
    for left, right in ((2, 31), (31, 2), (2, 2)):
        yield digest_case(f"the digest of {left} bytes, then that of {right}", of[left] + of[right])
    yield digest_case("64 zeros", bytes(64))
    yield digest_case("1,024 bytes of value 255", b"\xff" * 1024)
    for length in LENGTHS:
        yield digest_case(f"{length} bytes, keyed", counted(9, length), LEAGUES[1], "keyed_digest")
