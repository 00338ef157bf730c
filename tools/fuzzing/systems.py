"""Numeration systems: their digits, and the representations of numbers."""
import itertools
import operator
from functools import lru_cache
from typing import NamedTuple

# Of a system that is no base: its first weights, how often each further one counts those before it (oldest first), its digits.
OTHERS = {
    "fib": ((1, 2), (1, 1), 2),
    "trib": ((1, 2, 4), (1, 1, 1), 2),
    "pell": ((1, 2), (1, 2), 3),
    "nara": ((1, 2, 3), (1, 0, 1), 2),
}
USERS = ("trib", "pell", "nara")


def kind_of(system):
    """The name without its direction."""
    return system[4:]


def is_msd(system):
    return system.startswith("msd")


def is_users(system):
    return kind_of(system) in USERS


def digits_of(system):
    kind = kind_of(system)
    return OTHERS[kind][2] if kind in OTHERS else int(kind)


@lru_cache(maxsize=None)
def weights_of(kind, least):
    """The weights from the least one on, up to the first above `least`."""
    if kind not in OTHERS:
        weights = [1]
        while weights[-1] <= least:
            weights.append(weights[-1] * int(kind))
        return weights
    first, counts, _ = OTHERS[kind]
    weights = list(first)
    while weights[-1] <= least:
        weights.append(sum(count * weight for count, weight in zip(counts, weights[-len(counts):])))
    return weights


@lru_cache(maxsize=None)
def representation(kind, number):
    """The digits of a number without leading zeros, the most significant one first."""
    digits = []
    for weight in reversed(weights_of(kind, number)):
        digit, number = divmod(number, weight)
        if digits or digit:
            digits.append(digit)
    return tuple(digits)


def word_of(systems, numbers):
    """The shortest word of letters that represents these numbers, in reading order."""
    rows = [representation(kind_of(system), number) for system, number in zip(systems, numbers)]
    width = max(map(len, rows))
    columns = list(zip(*((0,) * (width - len(row)) + row for row in rows)))
    return columns if is_msd(systems[0]) else columns[::-1]


class Tree(NamedTuple):
    """Words as a tree: of each node but the first, its parent and the number of its letter; and the node where each word ends."""

    steps: list
    ends: list

    def reached(self, first, rows):
        """What is reached at the end of each word from a first state, by the target of each state and letter."""
        states = [first]
        for parent, letter in self.steps:
            states.append(rows[states[parent]][letter])
        return [states[node] for node in self.ends]


def numbered_words(systems, bound):
    """The shortest words of the tuples of numbers below a bound, in the order of the tuples, with the numbers of their letters."""
    width = max(len(representation(kind_of(it), bound - 1)) for it in systems)
    words, lengths, factor = [(0,) * width], [0], 1
    for system in reversed(systems):
        rows = [representation(kind_of(system), number) for number in range(bound)]
        columns = [(0,) * (width - len(row)) + tuple(digit * factor for digit in row) for row in rows]
        words = [tuple(map(operator.add, one, other)) for one in columns for other in words]
        lengths = [max(len(row), other) for row in rows for other in lengths]
        factor *= digits_of(system)
    turn = 1 if is_msd(systems[0]) else -1
    return [word[width - length:][::turn] for word, length in zip(words, lengths)]


@lru_cache(maxsize=256)
def tree_below(systems, bound):
    """The shortest words of the tuples of numbers below a bound, in the order of the tuples."""
    nodes, ends = {}, []
    for word in numbered_words(systems, bound):
        node = 0
        for letter in word:
            node = nodes.setdefault((node, letter), len(nodes) + 1)
        ends.append(node)
    return Tree(list(nodes), ends)
