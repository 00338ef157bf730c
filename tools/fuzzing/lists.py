"""Lists of words as `test` prints them."""
import itertools
from functools import lru_cache

import systems

# So many numbers of each track are tried, by the number of tracks and the depth of quantifiers.
TRIED = {1: (300, 300, 60, 20), 2: (24, 24, 12, 6), 3: (9, 9, 6, 4)}


def text_of(word):
    return "".join("[" + ",".join(map(str, letter)) + "]" for letter in word) or "[]"


def complete_length(over, bound):
    """A length up to which each word represents numbers below the bound alone."""
    length = 0
    while all(len(systems.representation(systems.kind_of(it), bound)) > length + 1 for it in over):
        length += 1
    return length


@lru_cache(maxsize=64)
def words_in_order(over, depth):
    """The shortest words of the tuples below a bound, up to a length, shorter ones first and then by their letters, each with its tuple."""
    bound = TRIED[len(over)][min(depth, 3)]
    length = complete_length(over, bound)
    words = [(systems.word_of(over, at), at) for at in itertools.product(range(bound), repeat=len(over))]
    return sorted((it for it in words if len(it[0]) <= length), key=lambda it: (len(it[0]), it[0]))


def representations(over, holds, depth):
    """The shortest words of the tuples for which it holds, up to a length and in order."""
    return [word for word, at in words_in_order(over, depth) if holds(*at)]


def differs(lines, wanted, count):
    """Where printed lines differ from the words that are wanted first. Of longer words the tool knows none."""
    if len(lines) > count:
        return f"{len(lines)} lines"
    known = lines[:len(wanted)]
    if known != wanted[:min(count, len(known))] or len(lines) < min(count, len(wanted)):
        return f"{lines[:5]}, not {wanted[:5]}"
    return "" if len(set(lines)) == len(lines) else "a line comes again"
