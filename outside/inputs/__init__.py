"""The inputs that outside/outside.py puts before the calls for C: true ones, damaged ones, random ones, each case from its number alone.

The fixed cases are the same for every seed: numbers beside the edges, letters with every byte damaged, stored nodes with every bit, logs of every
length, batches refused at every record, digests in parts at every edge and on states of any bytes, stored nodes of every form, leaves with the record
or the digest of another and of another mode, modes of every kind, every request to small logs and passages damaged in every byte. None stands twice,
and none in vectors/, which have each refusal alone and every two at once. The random ones take a true input and change some of its parts, or none.
What works out a digest is tried plain and under a key.
"""
import itertools

from inputs.batches import fixed_batches
from inputs.chance import random_case, random_keyed_cases
from inputs.choices import Chance
from inputs.fixed import fixed_bits, fixed_digests, fixed_edits, fixed_forms, fixed_letters, fixed_logs, fixed_nodes, fixed_numbers, fixed_roots
from inputs.modes import fixed_any_modes, fixed_keys, fixed_modes, fixed_orders
from inputs.parts import fixed_parts
from inputs.passages import fixed_passages
from inputs.world import LEAGUES, World
from vector_cases import cases_in_vectors


def fixed_in(world):
    """The fixed cases that work out a digest, in the world's mode."""
    return itertools.chain(fixed_digests(world), fixed_parts(world), fixed_letters(world), fixed_logs(world), fixed_roots(world),
                           fixed_batches(world), fixed_nodes(world), fixed_bits(world), fixed_edits(world), fixed_forms(world),
                           fixed_passages(world))


def fixed_cases(plain, keyed):
    """The fixed cases."""
    yield from itertools.chain(fixed_numbers(), fixed_in(plain))
    yield from itertools.chain(fixed_keys(), fixed_modes(plain), fixed_any_modes(plain), fixed_any_modes(keyed), fixed_orders(), fixed_in(keyed))


def each_once(given, seen):
    """The cases that are not among those seen, each once."""
    seen = {(case.call, case.numbers, *case.parts) for case in seen}
    for case in given:
        key = case.call, case.numbers, *case.parts
        if key not in seen:
            seen.add(key)
            yield case


def cases(seed, rounds):
    """All cases of a seed in their order: the fixed ones, which are the same for every seed and no copies of the vectors, and the random ones."""
    plain, keyed = World(), World(LEAGUES[0])
    yield from each_once(fixed_cases(plain, keyed), cases_in_vectors())
    for turn in range(rounds):
        yield random_case(Chance(f"{seed}/{turn}"), plain)
        yield from random_keyed_cases(Chance(f"{seed}/{turn}"), Chance(f"{seed}/{turn}/mode"), keyed)
