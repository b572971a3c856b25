"""The reviewer's page, docs/REVIEW.md: its lines of Python are the plain rule that is run here, and its figures those of the rules. And wrong rules
are told from it."""
import inspect
import re
from pathlib import Path

from expected.given import run_record
from rules.blake3 import PLAIN
from rules.log import node
from rules.plain import largest_power, plain_root
from shown import RECORDS, shown_letter, small_log

REVIEW = Path(__file__).resolve().parent.parent / "docs" / "REVIEW.md"
LINES = 10


def code_of(function):
    """The lines of a function, without what it says of itself."""
    return [line for line in inspect.getsource(function).splitlines() if '"""' not in line]


def code_stands(page):
    """The page shows the rule as it is run, in ten lines."""
    shown = code_of(largest_power) + [""] + code_of(plain_root)
    return len(shown) == LINES + 1 and "\n\n" + "".join(f"    {line}".rstrip() + "\n" for line in shown) + "\n" in page


def figures_stand(page):
    """The digests and the letter of the page are those of its three records, and it has no other digest."""
    nodes, squeezed = small_log()[0], "".join(page.split())
    top, letter = shown_letter()
    made = [data.hex() for data in (*(node(nodes, position) for position in range(4)), top, letter)]
    found = re.findall("[0-9a-f]{64}", page)
    return top == plain_root(RECORDS, PLAIN) and all(data in squeezed for data in made) and all(any(one in data for data in made) for one in found)


def by_split(split, join=lambda left, right: left + right, alone=lambda digest: digest):
    """A rule like the plain one: how many go left, in which order the two roots are hashed, and what a record alone gives."""
    def rule(records):
        if len(records) == 1:
            return alone(PLAIN(records[0]))
        left = split(len(records))
        if not 0 < left < len(records):
            return None
        sides = rule(records[:left]), rule(records[left:])
        return None if None in sides else PLAIN(join(*sides))
    return rule


# Wrong rules, and up to sixteen records the numbers of them for which they give the right root all the same. A split that leaves a side empty
# gives none.
WRONG = (
    ("split at half", by_split(lambda count: count // 2), [1, 2, 4, 8, 16]),
    ("split after the smallest power of two not below", by_split(lambda count: 2 * largest_power(count)), [1]),
    ("the sides swapped", by_split(largest_power, lambda left, right: right + left), [1]),
    ("a record alone hashed twice", by_split(largest_power, alone=PLAIN), []),
)


def wrong_rules():
    """Each wrong rule is told from the right one by every log but those."""
    logs = [[run_record(number, number) for number in range(count)] for count in range(1, 17)]
    for name, rule, alike in WRONG:
        same = [len(records) for records in logs if rule(records) == plain_root(records, PLAIN)]
        print(f"plain rule: {name} gives another root for {len(logs) - len(same)} of {len(logs)} logs")
        yield same == alike


def check_review():
    """The page, and the wrong rules."""
    page = REVIEW.read_text()
    code, figures, told = code_stands(page), figures_stand(page), all([*wrong_rules()])
    has = {True: "has", False: "DOES NOT HAVE"}
    print(f"review: docs/REVIEW.md {has[code]} the rule as it is run, and {has[figures]} its figures")
    return code and figures and told
