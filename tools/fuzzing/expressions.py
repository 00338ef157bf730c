"""Regular expressions: random ones as text, and the words that they match."""
import itertools
from functools import lru_cache, reduce

import reading


# How long the words are that are compared, by the number of letters: shorter where there are many.
LENGTHS = {1: 6, 2: 6, 3: 6}
LONGEST = 3


class Expression:
    """A nondeterministic automaton of an expression: the places reached before anything is read, and by each letter."""

    def __init__(self, letters):
        self.letters, self.rows = letters, reading.Rows(self.after, letters)
        self.silent, self.by, self.kept = {}, {}, {}
        self.count = 0

    def place(self):
        self.count += 1
        return self.count - 1

    def joins(self, one, other, letter=None):
        if letter is None:
            self.silent.setdefault(one, []).append(other)
        else:
            self.by.setdefault((one, letter), []).append(other)

    def reached(self, place):
        """The places that are reached from a place before anything is read."""
        if place not in self.kept:
            found, left = {place}, [place]
            while left:
                new = set(self.silent.get(left.pop(), ())) - found
                found |= new
                left += new
            self.kept[place] = frozenset(found)
        return self.kept[place]

    def after(self, places, letter):
        return frozenset().union(*(self.reached(to) for it in places for to in self.by.get((it, letter), ())))

    def ends(self, start, end):
        """Sets where it starts and where it ends."""
        self.first, self.end = self.reached(start), end

    def accepts(self, places):
        return self.end in places

    def reader(self, tracks):
        """Reads numbers by the expression."""
        return reading.Reader(tracks, self.first, self.after, self.accepts)

    def language(self):
        """Its words by their length, each as the numbers of its letters."""
        places, found = [self.first], []
        for words in words_of(len(self.letters)):
            found.append({word for word, reached in zip(words, places) if self.end in reached})
            places = [other for one in places for other in self.rows[one]]
        return found


def letter_text(rng, letter):
    if len(letter) == 1 and 0 <= letter[0] <= 9 and rng.random() < 0.8:
        return str(letter[0])
    return f"[{','.join(map(str, letter))}]"


def atom(rng, made, depth):
    """The text of a part without change, with its first and last place."""
    one, other = made.place(), made.place()
    draw = rng.random()
    if depth > 0 and draw < 0.4:
        text, first, last = alternatives(rng, made, depth - 1)
        made.joins(one, first)
        made.joins(last, other)
        return f"({text})", one, other
    if draw < 0.46:
        made.joins(one, other)
        return "()", one, other
    chosen = made.letters if draw < 0.56 else [rng.choice(made.letters)]
    for letter in chosen:
        made.joins(one, other, letter)
    return "." if draw < 0.56 else letter_text(rng, chosen[0]), one, other


def repeated(rng, made, depth):
    text, first, last = atom(rng, made, depth)
    while rng.random() < 0.3:
        sign = rng.choice("*+?")
        one, other = made.place(), made.place()
        made.joins(one, first)
        made.joins(last, other)
        if sign in "*?":
            made.joins(one, other)
        if sign in "*+":
            made.joins(other, one)
        text, first, last = text + sign, one, other
    return text, first, last


def sequence(rng, made, depth):
    text, first, last = repeated(rng, made, depth)
    for _ in range(rng.choice([0, 1, 1, 2, 3])):
        more, begin, end = repeated(rng, made, depth)
        made.joins(last, begin)
        text, last = text + rng.choice(["", "", " "]) + more, end
    return text, first, last


def alternatives(rng, made, depth):
    text, first, last = sequence(rng, made, depth)
    for _ in range(rng.choice([0, 0, 1, 2])):
        more, begin, end = sequence(rng, made, depth)
        one, other = made.place(), made.place()
        for inner in (first, begin):
            made.joins(one, inner)
        for inner in (last, end):
            made.joins(inner, other)
        text, first, last = f"{text}|{more}", one, other
    return text, first, last


def random_expression(rng, letters, depth=2):
    """A text, and an automaton of what it matches."""
    made = Expression(letters)
    text, start, end = alternatives(rng, made, depth)
    made.ends(start, end)
    return text, made


@lru_cache(maxsize=None)
def words_of(count):
    """The words over a number of letters, up to a length, by their length and in order."""
    return [[bytes(it) for it in itertools.product(range(count), repeat=length)] for length in range(LENGTHS.get(count, LONGEST) + 1)]


def joined(heads, tails, length, least=0):
    """The words of a length that are a head, which has a least length, with a tail."""
    return {head + tail for at in range(least, length + 1) for head in heads[at] for tail in tails[length - at]}


def joins(one, other):
    return [joined(one, other, length) for length in range(len(one))]


def repeats(one):
    """The words that are joined of words, none of which is empty."""
    found = [{b""}]
    for length in range(1, len(one)):
        found.append(joined(one, found, length, 1))
    return found


def made_of(kind, parts):
    """What a language command makes of languages, each of which is its words by their length."""
    return {
        "union": lambda: [set.union(*words) for words in zip(*parts)],
        "intersect": lambda: [set.intersection(*words) for words in zip(*parts)],
        "concat": lambda: reduce(joins, parts),
        "star": lambda: repeats(parts[0]),
        "reverse": lambda: [{word[::-1] for word in words} for words in parts[0]],
    }[kind]()
