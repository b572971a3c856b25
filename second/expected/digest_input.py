"""What digest_input must write."""
from pathlib import Path

from rules.blake3 import digest

STDIN = Path(__file__).resolve().parents[2] / "crates" / "digest_input" / "stdin"


def expect_digest_input():
    """The digest of the program's stored input."""
    return digest(STDIN.read_bytes()).hex() + "\n"
