"""The vectors of sizes, positions and leaf counts."""
from portable.form import case
from rules.shape import leaf_count, leaf_position, size_of

LEAVES = (*range(17), 31, 32, 33, 2**31, 2**32 - 1, 2**32, 2**32 + 1, 2**33, 2**64 - 1)
INDEXES = (*range(17), 31, 32, 33, 2**31, 2**32 - 2, 2**32 - 1, 2**32, 2**64 - 1)
SIZES = (*range(33), 63, 64, 8589934526, 8589934558, 8589934559, 8589934590, 8589934591, 8589934592, 2**63, 2**64 - 1)


def shape_cases():
    """A case for each number that is given to a call."""
    for call, rule, given, value, numbers in (
        ("size", size_of, "leaves", "size", LEAVES),
        ("leaf_position", leaf_position, "index", "position", INDEXES),
        ("leaf_count", leaf_count, "size", "leaves", SIZES),
    ):
        for number in numbers:
            refusal, result = rule(number)
            yield case(call, f"{call} {number}", {given: number}, refusal, **{value: result})
