"""The numbers of docs/RULES.md, section 2, wherever they stand again: all have the same ones, and one that is struck is not used again."""
import json
import re
from pathlib import Path

from portable.orders import ORDERS

TOP = Path(__file__).resolve().parent.parent
# A number that was in the table and is never used again, and the name that it had for C.
STRUCK, NAME = 15, "KEEPER_TOO_MANY_ITEMS"
# Where a call, a table or a constant could use it: no line there has it, but for those below.
SCANNED = ("crates/*/src/**/*.rt", "crates/*/specs/**/*.antt", "include/*.h", "hosts/*.[ch]", "man/*", "completion/*", "second/rules/*.py",
           "outside/*.[pc]*")
# The orders with it, kept to say that every answer by them is the answer without it.
KEPT = "crates/letter_promise/specs/Struck.antt"
# Lines in which it is something else: a word of a compression, a chunk's last block, the size of eight leaves, bits, a log of so many leaves, a
# table of so many rows.
OTHERS = {
    "const ORDER: [usize; 16] = [2, 6, 3, 10, 7, 0, 4, 13, 1, 11, 12, 5, 9, 14, 15, 8];",
    "let u = mix(s[3], s[7], s[11], s[15], m[6], m[7]);",
    "let u = mix(s[3], s[4], s[9], s[14], m[14], m[15]);",
    "let p = mix(s[0], s[5], s[10], s[15], m[8], m[9]);",
    "for b in 0..15 {",
    "let size = log_of(15, &mut nodes);",
    "const LIMITS: [(u64, u64, u32, usize); 15] = [",
    "order = 2 ∷ 6 ∷ 3 ∷ 10 ∷ 7 ∷ 0 ∷ 4 ∷ 13 ∷ 1 ∷ 11 ∷ 12 ∷ 5 ∷ 9 ∷ 14 ∷ 15 ∷ 8 ∷ []",
    "3 7 11 15 (slice_index m 6) (slice_index m 7)",
    "mixed_at (mixed_at (mixed_at (mixed_at s 0 5 10 15 (slice_index m 8) (slice_index m 9))",
    "3 4 9 14 (slice_index m 14) (slice_index m 15)",
    "size 0 0 ∷ size 1 1 ∷ size 2 3 ∷ size 3 4 ∷ size 4 7 ∷ size 5 8 ∷ size 6 10 ∷ size 7 11 ∷ size 8 15",
    "digits[2 * i + 1] = digit[bytes[i] & 15];",
    "uint8_t below[1 << 15];",
    "PERMUTATION = (2, 6, 3, 10, 7, 0, 4, 13, 1, 11, 12, 5, 9, 14, 15, 8)",
    "COLUMNS = ((0, 4, 8, 12), (1, 5, 9, 13), (2, 6, 10, 14), (3, 7, 11, 15))",
    "DIAGONALS = ((0, 5, 10, 15), (1, 6, 11, 12), (2, 7, 8, 13), (3, 4, 9, 14))",
    'return Case("read_node", (), [mode, data, u32(77), b"\\x1e" * room, u64(15 << 33), u64(17 << 33)])',
}
# Lines that say that it is struck.
SAID = {
    "/* 15 is struck: it was for a letter of more than 32 items, which no log needs. No call answers it, and it will never mean anything else */",
    "Number 15 is struck: no call returns it, and it will never mean anything else.",
    "-- the number of a refusal: 15 is struck",
    "-- What writer, checker and finder promise together, over a log's nodes and by the plain rule; and number 15, which is struck.",
}
# Lines of each kind that use it, which have to be noticed.
PLANTED = ("return write_refused(15);", "∷ 15 if item_count n i above 32", "KEEPER_TOO_MANY_ITEMS = 15,", "case 15:", "15 KEEPER_TOO_MANY_ITEMS",
           "yield 15", "const TOO_MANY: u32 = 15;", "6, 15 (either buffer). */", "return 0x0F;", "KEEPER_OTHER = 15, /* 15 is struck */")


def sections():
    """The sections of the page, by their number."""
    return dict(enumerate(re.split(r"^## ", (TOP / "docs" / "RULES.md").read_text(), flags=re.M)))


def order_numbers():
    """The orders of section 3 and of the second program, and what the vectors are answered with: where, and the numbers."""
    for call, order in re.findall(r"^\| (?!call)([^|]+) \| ([^|]+) \| [\d.]+ \|$", sections()[3], re.M):
        yield f"the order of {call}", {int(number) for number in re.findall(r"\b\d+\b", re.sub(r"\([^)]*\)|\*\*[^*]*\*\*", "", order))}
    for call, order in ORDERS.items():
        yield f"the second program's order of {call}", {int(entry.split()[0]) for entry in order}
    for path in sorted((TOP / "vectors").glob("*.json")):
        yield f"vectors/{path.name}", {case["answer"]["number"] for case in json.loads(path.read_text())["cases"]}


def strangers(numbers):
    """What has a number that is none of these; constants and lists of them also where they lack one."""
    constants = re.search(r"The numbers,.*?enum \{(.*?)\};", (TOP / "include" / "keeper.h").read_text(), re.S).group(1)
    header = {name: int(number) for name, number in re.findall(r"^ +(KEEPER_\w+) = (\d+)", constants, re.M)}
    refusals = {name: int(number) for number, name in re.findall(r"^(\d+) (KEEPER_\w+)$", (TOP / "man" / "keeper.3").read_text(), re.M)}
    words = set(re.findall(r"\[(KEEPER_\w+)\] =", (TOP / "hosts" / "numbers.c").read_text()))
    stated = dict(re.findall(r"^number_of (\w+) = (\d+)$", (TOP / "crates/refusals/specs/Numbers.antt").read_text(), re.M))
    answered = dict(re.findall(r"^ +Refused::(\w+) => (\d+),$", (TOP / "crates/refusals/src/lib.rt").read_text(), re.M))
    yield from ["include/keeper.h"] if set(header.values()) != numbers else []
    yield from ["man/keeper.3"] if {"KEEPER_DONE": 0, **refusals} != header else []
    yield from ["hosts/numbers.c"] if words != set(header) else []
    yield from ["crates/refusals"] if stated != answered or {0, *map(int, stated.values())} != numbers else []
    yield from (where for where, got in order_numbers() if not got <= numbers)


def used(line):
    """Whether a line uses the struck number."""
    number = rf"(?:{STRUCK}|0x0*{STRUCK:x})"
    return bool(re.search(rf"(?i)(?<![\w.]){number}(?!\w)|(?<=\.\.){number}\b|{NAME}", line)) and line.strip() not in OTHERS | SAID


def uses():
    """Where it is used: the file and the line. The orders of the page are looked at whole, and the calls of the crates' pages."""
    for path in sorted({path for where in SCANNED for path in TOP.glob(where) if path.is_file() and path.relative_to(TOP) != Path(KEPT)}):
        yield from ((path.relative_to(TOP), line.strip()) for line in path.read_text().splitlines() if used(line))
    for path in (TOP / "docs" / "RULES.md", *sorted(TOP.glob("crates/*/README.md"))):
        found = re.findall(rf"^.*(?:the first of [^|]*\b{STRUCK}\b|[;.] {STRUCK};).*$", path.read_text(), re.M)
        yield from ((path.relative_to(TOP), line) for line in found)


def check_numbers():
    """The tables have one set of numbers, and what is struck is used nowhere and said to be struck."""
    numbers = {int(number) for number in re.findall(r"^\| (\d+) \|", sections()[2], re.M)}
    wrong = [f"{where} has other numbers than docs/RULES.md, section 2" for where in strangers(numbers)]
    wrong += [f"{STRUCK} is struck, and {path} uses it: {line}" for path, line in uses()]
    wrong += [f"it would not be noticed that a line uses {STRUCK}: {line}" for line in PLANTED if not used(line)]
    wrong += [f"{path} does not say that {STRUCK} is struck" for path in ("docs/RULES.md", "include/keeper.h")
              if f"{STRUCK} is struck" not in (TOP / path).read_text()]
    for line in wrong:
        print(f"numbers: {line}")
    said = "to be looked at" if wrong else "in none"
    print(f"numbers: {len(numbers)} in tables, constants, orders and vectors, and {STRUCK}, which is struck, {said}")
    return len(numbers) > 1 and not wrong
