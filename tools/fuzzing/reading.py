"""Reads words by nondeterministic automata."""
import itertools

import systems


class Rows(dict):
    """The states that follow a set of states by each letter, which are found when they are asked for and kept."""

    def __init__(self, after, letters):
        self.after, self.letters = after, letters

    def __missing__(self, states):
        row = self[states] = [self.after(states, letter) for letter in self.letters]
        return row


class Reader:
    """Reads representations of numbers, of which one with any leading zeros has to be accepted."""

    def __init__(self, tracks, first, after, accepts):
        self.tracks, self.accepts = tuple(tracks), accepts
        letters = list(itertools.product(*(range(systems.digits_of(it)) for it in tracks)))
        self.rows, self.numbers = Rows(after, letters), {letter: number for number, letter in enumerate(letters)}
        self.first = self.after_zeros(first) if systems.is_msd(tracks[0]) else first

    def after_zeros(self, states):
        """The states after any number of zero letters."""
        while not self.rows[states][0] <= states:
            states |= self.rows[states][0]
        return states

    def is_accepted(self, states):
        return self.accepts(states if systems.is_msd(self.tracks[0]) else self.after_zeros(states))

    def holds(self, *numbers):
        states = self.first
        for letter in systems.word_of(self.tracks, numbers):
            states = self.rows[states][self.numbers[letter]]
        return self.is_accepted(states)

    def held_below(self, bound):
        """Of each tuple of numbers below a bound, in order, whether it holds."""
        reached = systems.tree_below(self.tracks, bound).reached(self.first, self.rows)
        accepted = {states: self.is_accepted(states) for states in set(reached)}
        return bytes([accepted[states] for states in reached])
