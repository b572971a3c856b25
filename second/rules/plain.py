"""The plain rule: the root of records without positions (RULES 7.5), and the items of their letters (RULES 9.2). docs/REVIEW.md shows the rule."""


def largest_power(count):
    """The largest power of two below a count above 1."""
    power = 1
    while 2 * power < count:
        power *= 2
    return power


def plain_root(records, digest):
    """One record gives its digest; more are split after the largest power of two below their number, and the two sides' roots are hashed."""
    if len(records) == 1:
        return digest(records[0])
    left = largest_power(len(records))
    return digest(plain_root(records[:left], digest) + plain_root(records[left:], digest))


def plain_items(records, index, digest):
    """The root of each side that the way to a record leaves, innermost first; but a left side longer than the right before all within the right."""
    if len(records) == 1:
        return []
    left = largest_power(len(records))
    if index < left:
        return plain_items(records[:left], index, digest) + [plain_root(records[left:], digest)]
    passed, inside = plain_root(records[:left], digest), plain_items(records[left:], index - left, digest)
    return inside + [passed] if len(records) == 2 * left else [passed] + inside
