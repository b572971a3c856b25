#!/usr/bin/env python3
"""The second program: the rules of Cinchcleat, docs/RULES.md, once more, in standard-library Python.

It shares no code with the crates. The rules stand in rules/; what the crates' programs must write by them, in expected/; test vectors for other
implementers, in portable/.

    second.py check                    try the rules on published figures and marked examples, and on each other
    second.py expect NAME              print what the program crates/NAME must write
    second.py expect --all             write what each program must write to crates/NAME/stdout, and what programs read to their stdin
    second.py expect --all --verify    compare those files, and change none
    second.py vectors                  write the portable test vectors, vectors/*.json
    second.py vectors --verify         compare those files, and change none
"""
import argparse
import sys
from pathlib import Path

from checks import check
from expected.batch_run import expect_batch_run
from expected.digest_input import expect_digest_input
from expected.digest_run import expect_digest_run
from expected.finder_run import expect_finder_run
from expected.keyed_panel import expect_keyed_panel, keyed_panel_stdin
from expected.keyed_passage_panel import expect_keyed_passage_panel, keyed_passage_panel_stdin
from expected.letter_run import expect_letter_run
from expected.log_run import expect_log_run
from expected.panel import expect_panel, panel_stdin
from expected.parts_run import expect_parts_run
from expected.passage_panel import expect_passage_panel, passage_panel_stdin
from expected.passage_run import expect_passage_run, passage_run_stdin
from expected.shape_run import expect_shape_run
from expected.stored_run import expect_stored_run
from portable.files import verify_vectors, write_vectors

TOP = Path(__file__).resolve().parent.parent
EXPECTED = {
    "batch_run": expect_batch_run,
    "digest_input": expect_digest_input,
    "digest_run": expect_digest_run,
    "finder_run": expect_finder_run,
    "keyed_panel": expect_keyed_panel,
    "keyed_passage_panel": expect_keyed_passage_panel,
    "letter_run": expect_letter_run,
    "log_run": expect_log_run,
    "panel": expect_panel,
    "parts_run": expect_parts_run,
    "passage_panel": expect_passage_panel,
    "passage_run": expect_passage_run,
    "shape_run": expect_shape_run,
    "stored_run": expect_stored_run,
}
# What is stored for the programs: a file, and what makes its bytes.
STORED = {f"crates/{name}/stdout": lambda made=made: made().encode() for name, made in EXPECTED.items()}
STORED["crates/panel/stdin"] = panel_stdin
STORED["crates/keyed_panel/stdin"] = keyed_panel_stdin
STORED["crates/passage_panel/stdin"] = passage_panel_stdin
STORED["crates/keyed_passage_panel/stdin"] = keyed_passage_panel_stdin
STORED["crates/passage_run/stdin"] = passage_run_stdin


def expect_one(name):
    """Print what one program must write."""
    if name not in EXPECTED:
        print(f"no program {name}; there are: {' '.join(EXPECTED)}", file=sys.stderr)
        return False
    sys.stdout.write(EXPECTED[name]())
    return True


def expect_all(verify):
    """Write, or only compare, what is stored for every program."""
    good = True
    for path, made in STORED.items():
        stored = TOP / path
        if not verify:
            stored.write_bytes(made())
            print(f"{path}: written")
        elif stored.is_file() and stored.read_bytes() == made():
            print(f"{path}: as expected")
        else:
            print(f"{path}: differs from what is expected")
            good = False
    return good


def main():
    parser = argparse.ArgumentParser(description=__doc__, formatter_class=argparse.RawDescriptionHelpFormatter)
    commands = parser.add_subparsers(dest="command", required=True)
    commands.add_parser("check", help="try the rules on figures, examples and each other")
    expect = commands.add_parser("expect", help="what the programs must write")
    expect.add_argument("name", nargs="?", help="one program: print what it must write")
    expect.add_argument("--all", action="store_true", help="every program: write crates/NAME/stdout")
    expect.add_argument("--verify", action="store_true", help="with --all: compare, and change nothing")
    vectors = commands.add_parser("vectors", help="the portable test vectors, vectors/*.json")
    vectors.add_argument("--verify", action="store_true", help="compare, and change nothing")
    given = parser.parse_args()
    if given.command == "check":
        return check()
    if given.command == "vectors":
        return verify_vectors() if given.verify else write_vectors()
    if given.all == bool(given.name) or (given.verify and not given.all):
        expect.error("give one NAME, or --all, or --all --verify")
    return expect_all(given.verify) if given.all else expect_one(given.name)


if __name__ == "__main__":
    sys.exit(0 if main() else 1)
