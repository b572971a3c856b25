#!/usr/bin/env python3
"""A panel's program held to its file of vectors/, panel.json, panel-keyed.json, passages-checked.json or keyed.json: run on each input, and its number
compared with the file's.

An input is given at once, and some in pieces. The programs for passages are run on what panel_passages.py has.

    panel.py PROGRAM WORD..                which program it is, by the name of its crate, and the words that start it
    panel.py --self-test PROGRAM WORD..    only try that a wrong number is noticed (each run begins with this)

Exit status: 0 where all agree; 1 where one differs, which is printed.
"""
import argparse
import subprocess
import sys
import time
from concurrent.futures import ThreadPoolExecutor

from panel_passages import PROGRAMS, passage_inputs
from vector_cases import vectors

# An input that is given in pieces too: how long it is at least, and in how many.
IN_PIECES = 100
PIECES = (2, 3, 7)
# How many programs run at a time: those that get pieces wait for most of it.
AT_ONCE = 4


def run_panel(words, data, pieces):
    """What the program writes. Each piece is there for a while before the next one."""
    step = -(-len(data) // pieces)
    with subprocess.Popen(words, stdin=subprocess.PIPE, stdout=subprocess.PIPE) as program:
        for at in range(0, len(data), step or 1):
            try:
                program.stdin.write(data[at:at + step])
                program.stdin.flush()
            except BrokenPipeError:
                break
            time.sleep(0.05 if pieces > 1 else 0)
        try:
            program.stdin.close()
        except BrokenPipeError:
            pass
        return program.stdout.read()


def inputs_of(program):
    """A name, the input, and the number."""
    if program in PROGRAMS:
        return passage_inputs(program)
    return ((vector.name, vector.given["input"], vector.answer["number"]) for vector in vectors() if vector.call == program)


def runs(program):
    """A name, the input, in how many pieces it is given, and the number. The first input of each number is given in pieces too."""
    seen = set()
    for name, data, number in inputs_of(program):
        first = number not in seen and len(data) >= IN_PIECES
        seen |= {number} if first else set()
        for pieces in (1, *PIECES) if first or len(data) > 17000 else (1,):
            yield f"{name}, in {pieces} pieces" if pieces > 1 else name, data, pieces, number


def agrees(program, words, name, data, pieces, number):
    """Whether the program writes the number and a newline, and nothing else."""
    wrote, expected = run_panel(words, data, pieces), f"{number}\n".encode()
    if wrote != expected:
        print(f"{program}, {name}: wrote {wrote}, but {expected} is expected")
    return wrote == expected


def self_test(program, words):
    """A wrong number is noticed."""
    _, data, pieces, number = next(runs(program))
    noticed = run_panel(words, data, pieces) != f"{number + 1}\n".encode()
    print(f"{program}: a wrong number is {'noticed' if noticed else 'not noticed'}")
    return noticed


def main():
    parser = argparse.ArgumentParser(description=__doc__, formatter_class=argparse.RawDescriptionHelpFormatter)
    parser.add_argument("--self-test", action="store_true", help="only try that a wrong number is noticed")
    parser.add_argument("program", choices=("panel", "keyed_panel", *PROGRAMS), help="which program it is")
    parser.add_argument("words", nargs=argparse.REMAINDER, help="what starts the program")
    given = parser.parse_args()
    noticed = self_test(given.program, given.words)
    if not noticed or given.self_test:
        return noticed
    tried = list(runs(given.program))
    with ThreadPoolExecutor(AT_ONCE) as pool:
        results = list(pool.map(lambda run: agrees(given.program, given.words, *run), tried))
    numbers = sorted({number for _, _, _, number in tried})
    print(f"{given.program}: {results.count(True)} of {len(results)} verdicts agree, with the numbers {' '.join(map(str, numbers))}")
    return all(results)


if __name__ == "__main__":
    sys.exit(0 if main() else 1)
