"""Sizes, positions and counts (RULES 6); the peaks of a log, the path to a leaf, the items of a letter (RULES 9.2)."""
import functools
from collections import namedtuple

MOST_LEAVES = 2**32


def ones(number):
    """The number of ones in a number."""
    return bin(number).count("1")


def trailing_ones(number):
    """The ones at the low end of a number, up to the first zero."""
    count = 0
    while number >> count & 1:
        count += 1
    return count


def nodes_of(leaves):
    """The size of so many leaves, and the position of the leaf of that index: 2n minus the ones in n."""
    return 2 * leaves - ones(leaves)


def size_of(leaves):
    """The number and the size of so many leaves."""
    return (2, 0) if leaves > MOST_LEAVES else (0, nodes_of(leaves))


def leaf_position(index):
    """The number and the position of a leaf."""
    return (5, 0) if index >= MOST_LEAVES else (0, nodes_of(index))


@functools.lru_cache(maxsize=None)
def leaf_count(size):
    """The number and the leaf count whose size this is. Sizes rise with the count, so that halving the range finds it."""
    low, high = 0, MOST_LEAVES
    while low < high:
        middle = (low + high) // 2
        if nodes_of(middle) < size:
            low = middle + 1
        else:
            high = middle
    return (0, low) if nodes_of(low) == size else (1, 0)


# A peak: its height, the index of its first leaf, and its position.
Peak = namedtuple("Peak", "height first position")


def peaks_of(leaves):
    """The peaks, one for each one-bit of the count, tallest first. A peak stands behind the two perfect trees below it."""
    peaks, first, behind = [], 0, 0
    for height in reversed(range(leaves.bit_length())):
        if leaves >> height & 1:
            behind += 2 ** (height + 1) - 1
            peaks.append(Peak(height, first, behind - 1))
            first += 2**height
    return peaks


def peaks_around(leaves, index):
    """The peaks left of the index's own, its own, and those to the right."""
    peaks = peaks_of(leaves)
    own = [peak.first <= index for peak in peaks].count(True) - 1
    return peaks[:own], peaks[own], peaks[own + 1:]


# A step down the path to a leaf: the positions of the two children of a node on it, and whether it goes on to the right one.
Step = namedtuple("Step", "left right goes_right")


def path_of(peak, index):
    """The steps from a peak down to a leaf."""
    steps = []
    height, first, position = peak
    while height > 0:
        height -= 1
        right = position - 1
        left = right - (2 ** (height + 1) - 1)
        goes_right = index >= first + 2**height
        steps.append(Step(left, right, goes_right))
        if goes_right:
            first += 2**height
        position = right if goes_right else left
    return steps


def siblings(peak, index):
    """The positions of the siblings within a peak, from the leaf upward."""
    return [step.left if step.goes_right else step.right for step in reversed(path_of(peak, index))]


def items_of(leaves, index):
    """The items of a letter, each as the positions that are folded into it: one position is the digest that stands there."""
    left, own, right = peaks_around(leaves, index)
    items = [(peak.position,) for peak in left] + [(position,) for position in siblings(own, index)]
    return items + ([tuple(peak.position for peak in right)] if right else [])
