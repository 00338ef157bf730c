"""Transducers: random ones, their files, and what they make of words."""
from typing import NamedTuple


class Transducer(NamedTuple):
    """Its letters, its number of states, and by state and letter the next state and the output."""

    letters: list
    states: int
    lines: dict

    def text(self, rng):
        rows = ["{" + ",".join(map(str, rng.sample(self.letters, len(self.letters)))) + "}"]
        for state in range(self.states):
            rows.append(str(state))
            rows += [f"{letter} -> {to} / {output}" for (at, letter), (to, output) in self.lines.items() if at == state]
        return rng.choice(["\n", "\n", "\r\n"]).join([*rows, ""])


def random_transducer(rng, letters):
    states, lacking = rng.randint(1, 4), rng.choice([0, 0, 0.1])
    pairs = [(state, letter) for state in range(states) for letter in letters if rng.random() >= lacking]
    return Transducer(letters, states, {it: (rng.randrange(states), rng.randint(-1, 3)) for it in pairs})


class Run:
    """The run of a transducer over a word, as far as it was asked for."""

    def __init__(self, transducer, letter_at):
        self.lines, self.letter_at = transducer.lines, letter_at
        self.state, self.outputs = 0, []

    def output_at(self, at):
        """The output at a place, or none from the place on where the run stops."""
        while len(self.outputs) <= at and self.state is not None:
            self.state, output = self.lines.get((self.state, self.letter_at(len(self.outputs))), (None, None))
            if self.state is not None:
                self.outputs.append(output)
        return self.outputs[at] if at < len(self.outputs) else None
