"""Files of automata and of words, as the program reads and writes them."""
import itertools
from typing import NamedTuple

import reading
import systems


class Table(NamedTuple):
    """A table: what its header says, its states in order, their outputs, or none, and the targets by state and letter."""

    tracks: list
    states: list
    outputs: dict
    targets: dict


def digits_of_track(track):
    return [int(it) for it in track[1:-1].split(",")] if track.startswith("{") else list(range(systems.digits_of(track)))


def parse(text):
    """The table of a file over tracks. A star means each digit."""
    lines = [line.strip() for line in text.splitlines()]
    lines = [line for line in lines if line and not line.startswith("#")]
    tracks = lines[0].split()
    table = Table(tracks, [], {}, {})
    for line in lines[1:]:
        left, arrow, right = line.partition("->")
        if not arrow:
            state, output = left.split()
            table.states.append(int(state))
            table.outputs[int(state)] = None if output == "-" else int(output)
            continue
        choices = [digits_of_track(track) if it == "*" else [int(it)] for it, track in zip(left.split(), tracks)]
        for letter in itertools.product(*choices):
            table.targets.setdefault((table.states[-1], letter), []).extend(map(int, right.split()))
    return table


def reader_of(table):
    """Reads numbers by a table, with several targets of a letter or none."""
    def after(states, letter):
        return frozenset(target for state in states for target in table.targets.get((state, letter), ()))
    return reading.Reader(table.tracks, frozenset(table.states[:1]), after, lambda states: any(table.outputs[state] for state in states))


def output_of(table, word):
    """The output of the state to which a word leads, or none."""
    state = table.states[0]
    for letter in word:
        targets = table.targets.get((state, letter))
        if targets is None:
            return None
        state = targets[0]
    return table.outputs[state]


def letters_of(table):
    """The letters of a table, in order."""
    return itertools.product(*map(digits_of_track, table.tracks))


def rows_of(table):
    """The target of each state, and of none, by the number of each letter, or none."""
    letters, none = list(letters_of(table)), [None]
    rows = {state: [table.targets.get((state, letter), none)[0] for letter in letters] for state in table.states}
    return {**rows, None: none * len(letters)}


def outputs_below(table, bound):
    """The outputs to which the words of the tuples of numbers below a bound lead, in the order of the tuples."""
    outputs = {**table.outputs, None: None}
    states = systems.tree_below(tuple(table.tracks), bound).reached(table.states[0], rows_of(table))
    return [outputs[state] for state in states]


def held_below(text, tracks, bound):
    """Of each tuple of numbers below a bound, in order, whether a stored text holds, which is a sentence where it has no track."""
    if not tracks:
        return bytes([text == "true\n"])
    table = parse(text)
    return bytes([bool(it) for it in outputs_below(table, bound)]) if table.tracks == list(tracks) else None


def held_words(table, length):
    """Of each word up to a length, shorter ones first and in order, whether a table accepts it."""
    rows, outputs = rows_of(table), {**table.outputs, None: None}
    level = table.states[:1]
    states = list(level)
    for _ in range(length):
        level = [target for state in level for target in rows[state]]
        states += level
    return bytes([bool(outputs[state]) for state in states])


def parts_of(table):
    """The class of each state: states of one class have one output, and lead into one class by each letter."""
    targets, count = rows_of(table), 0
    classes = {**table.outputs, None: None}
    while count != len(set(classes.values())):
        count = len(set(classes.values()))
        rows = {it: (classes[it], *(classes[to] for to in targets[it])) for it in classes}
        numbers = {row: number for number, row in enumerate(dict.fromkeys(rows.values()))}
        classes = {it: numbers[rows[it]] for it in classes}
    return {it: classes[it] for it in table.states}


def fault_of(text):
    """What keeps a stored text from being canonical, or nothing: order and numbers of states, useless and equal states."""
    if text in ("true\n", "false\n"):
        return ""
    table = parse(text)
    if any(len(found) != 1 for found in table.targets.values()):
        return "a letter has two targets"
    rows, reached = rows_of(table), [0]
    for state in reached:
        reached += [to for to in dict.fromkeys(rows.get(state, ())) if to is not None and to not in reached]
    if table.states != list(range(len(table.states))) or reached != table.states:
        return "states are not numbered as words reach them"
    useful, more = set(), {it for it in table.states if table.outputs[it]}
    while more != useful:
        useful, more = more, more | {it for it in table.states if not more.isdisjoint(rows[it])}
    if useful != set(table.states) and len(table.states) > 1:
        return "a state leads to no acceptance"
    return "" if len(set(parts_of(table).values())) == len(table.states) else "two states may be followed by the same"
