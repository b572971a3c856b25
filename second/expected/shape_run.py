"""What shape_run must write."""
from rules.shape import leaf_count, leaf_position, size_of, trailing_ones

LEAVES = (*range(9), 2**32, 2**32 + 1)
INDEXES = (*range(9), 2**32 - 1, 2**32)
SIZES = (*range(10), 8589934591, 8589934592)


def expect_shape_run():
    """A line for each call: what it is given, then the number and the value; for merges the value alone."""
    lines = []
    for label, call, given in (
        ("size", size_of, LEAVES),
        ("position", leaf_position, INDEXES),
        ("leaves", leaf_count, SIZES),
    ):
        lines += ["{} {}: {} {}".format(label, of, *call(of)) for of in given]
    lines += [f"merges {leaves}: {trailing_ones(leaves)}" for leaves in range(17)]
    return "".join(line + "\n" for line in lines)
