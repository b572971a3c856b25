"""What digest_run must write."""
from expected.given import counting_bytes
from rules.blake3 import digest, digest_of_pair

LENGTHS = (0, 1, 63, 64, 65, 1023, 1024, 1025, 2048, 2049)


def expect_digest_run():
    """A line for each length, then a line for each pair of the digests of 0 bytes and of 1 byte."""
    lines = [f"{n} {digest(counting_bytes(n)).hex()}" for n in LENGTHS]
    of = {n: digest(counting_bytes(n)) for n in (0, 1)}
    for left, right in ((0, 1), (1, 0), (1, 1)):
        lines.append(f"pair {left} {right} {digest_of_pair(of[left], of[right]).hex()}")
    return "".join(line + "\n" for line in lines)
