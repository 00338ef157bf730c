"""Random sessions: commands over one or more worlds, and what has to hold of their answers."""
import itertools
import random
from functools import lru_cache
from pathlib import Path
from typing import NamedTuple

import expressions
import lists
import systems
import tables
import transducers
from formulas import Call, In, Join, Not, Num, Quantified, Var, is_plain, quantifiers, variables
from growing import Grower
from laws import rewritten

LIBRARY = Path(__file__).resolve().parent.parent.parent / "library"
LANGUAGE_COMMANDS = ["union", "intersect", "concat", "star", "reverse"]
WORD_COMMANDS = ["promote", "image", "combine", "transduce", "convert"]
FOLDERS = {"eval": "Result", "morphism": "Morphism Library", "macro": "Macro Library",
           **dict.fromkeys(["def", "reg", *LANGUAGE_COMMANDS], "Automata Library"), **dict.fromkeys(WORD_COMMANDS, "Word Automata Library")}
LIBRARY_WORDS = {"2": ["T", "VTM", "RS", "P", "PD", "BS"], "3": ["T3", "MW", "SC", "CA"], "13": ["L"], "fib": ["F", "FTM"],
                 "trib": ["TR"], "pell": ["PELL"], "nara": ["NA"]}
# A definition is compared with the tool below a bound, by the number of its variables and the depth of its quantifiers.
BOUNDS = [(1, 1, 1, 1), (60, 60, 60, 40), (60, 30, 14, 10), (12, 8, 6, 5)]


class Command(NamedTuple):
    """A command that stores a file, or, as `test` and `inf`, none: then its name is one of the tool's."""

    kind: str
    name: str
    text: str
    is_sentence: bool = False

    @property
    def file(self):
        return f"{FOLDERS[self.kind]}/{self.name}.txt" if self.kind in FOLDERS else None

    @property
    def is_list(self):
        return self.kind == "test"


class Check(NamedTuple):
    """What is said of the outcomes of some commands: `test` gives what differs, or nothing."""

    what: str
    names: list
    test: object


class Printer:
    """Writes trees for one world: the systems of the tracks, and the ending that its names have."""

    def __init__(self, rng, world, ending, session):
        self.rng, self.systems, self.ending, self.session = rng, world, ending, session
        self.in_macro, self.wants_macros = None, False

    def toss(self):
        return self.rng.random() < 0.3

    def name_of(self, name):
        return name if name in self.session.fixed else name + self.ending

    def variable(self, it):
        return f"%{self.in_macro.index(it.name)}" if self.in_macro and it.name in self.in_macro else it.name

    def put(self, formula, allowed, is_last):
        if self.wants_macros and self.in_macro is None and self.rng.random() < 0.3:
            return f"({self.call_of_macro(formula)})"
        is_bare = formula.level in allowed or formula.level == "quantifier" and is_last
        return formula.text(self, is_last) if is_bare and self.rng.random() < 0.8 else f"({formula.text(self, True)})"

    def call_of_macro(self, formula):
        names = [it.name for it in variables(formula)]
        self.in_macro = names
        text = formula.text(self, True)
        self.in_macro = None
        name = self.session.command("macro", "m", f'"{text}"', self.ending)
        return f"#{name}({','.join(names)})"

    def whole(self, formula, wants_macros=False):
        """The text of a formula with its mark."""
        self.wants_macros = wants_macros
        text = self.put(formula, {"atom", "not", "&", "|", "^", "=>", "<=>"}, True)
        self.wants_macros = False
        return text if self.systems[0] == "msd_2" and self.toss() else f"?{self.systems[0]} {text}"


class Session:
    """The commands of a session with the files that it is given, and the checks of its answers."""

    def __init__(self, seed):
        self.rng = random.Random(seed)
        self.commands, self.checks, self.files = [], [], {}
        self.fixed, self.space, self.depths, self.count, self.languages = set(), {}, {}, 0, []
        self.worlds = self.some_worlds()
        self.is_native = len(self.worlds) == 1
        self.printers = [Printer(self.rng, world, f"_{at}" if len(self.worlds) > 1 else "", self) for at, world in enumerate(self.worlds)]
        self.grower = Grower(self.rng, [0, 1] if len(set(self.worlds[0])) > 1 and self.rng.random() < 0.4 else [0])
        if self.is_native:
            self.take_library_words()
        for _ in range(self.rng.randint(3, 7)):
            self.rng.choice(self.kinds())()

    def some_worlds(self):
        rng = self.rng
        kinds = ["2", "2", "2", "2", "3", "3", "fib", "fib", "fib"]
        draw = rng.random()
        if draw < 0.1:
            kinds = ["trib", "pell", "nara", "2", "fib"]
        elif draw < 0.2:
            kinds += ["4", "5", "10"]
        if rng.random() < 0.5:
            direction = rng.choice(["msd", "msd", "lsd"])
            return [[f"{direction}_{rng.choice(kinds)}" for _ in range(2)]]
        first = [rng.choice(kinds), rng.choice(kinds)]
        others = [[f"{rng.choice(['msd', 'lsd'])}_{rng.choice(kinds)}"] * 2 for _ in range(rng.randint(0, 1))]
        return [[f"msd_{it}" for it in first], [f"lsd_{it}" for it in first], *others]

    def kinds(self):
        if not self.is_native:
            return [self.add_definition] * 5 + [self.add_sentence] * 4 + [self.add_combined_word]
        formulas = [self.add_definition] * 5 + [self.add_sentence] * 3 + [self.add_combined_word]
        words = [self.add_given_word, self.add_promoted_word, self.add_promoted_word, self.add_image, self.add_image]
        words += [self.add_transduced, self.add_converted]
        languages = [self.add_sets, self.add_language, self.add_language]
        return formulas + words + languages + [self.add_given_automaton, self.add_given_automaton, self.add_reg, self.add_list, self.add_list]

    # Commands and checks

    def fresh(self, letter):
        self.count += 1
        return f"{letter}{self.count}"

    def command(self, kind, letter, rest, ending="", is_sentence=False, name=None):
        name = (name or self.fresh(letter)) + ending
        text = f"{kind} {name} {rest}"
        self.commands.append(Command(kind, name, text, is_sentence))
        return name

    def check(self, what, names, test):
        self.checks.append(Check(what, names, test))

    def systems_of(self, tracks, world):
        return tuple(world[track] for track in tracks)

    def alike(self, what, one, other):
        self.check(what, [one, other], lambda a, b: "" if a.text == b.text else f"{one} and {other} store different texts")

    def is_canonical(self, name):
        self.check("canonical", [name], lambda it: tables.fault_of(it.text))

    def function(self, name, arguments, code):
        self.space[name] = lru_cache(maxsize=None)(eval(f"lambda {arguments}: {code}", self.space))

    # Definitions

    def add_definition(self):
        rng = self.rng
        scope = self.grower.free(rng.choice([1, 1, 1, 2, 2, 3]))
        formula = self.grower.formula(scope, 0, rng.choice([1, 2, 2, 3]))
        used = variables(formula)
        if not is_plain(formula) or len(used) > 3:
            return
        name = self.fresh("d")
        names = [self.command("def", "", f'"{printer.whole(formula)}"', printer.ending, not used, name) for printer in self.printers]
        self.held_as_in_tool(formula, used, names)
        at = rng.randrange(len(names))
        self.add_twins(formula, used, self.printers[at], names[at])
        self.function(name, ",".join(it.name for it in used), formula.code())
        self.depths[name] = quantifiers(formula, self.depths)
        if used:
            self.grower.definitions.append((name, [it.track for it in used]))

    def held_as_in_tool(self, formula, used, names):
        bound = BOUNDS[len(used)][min(quantifiers(formula), 3)]
        tools = lru_cache(maxsize=None)(lambda: held_in_python(formula, used, bound, self.space))
        for name, world in zip(names, self.worlds):
            tracks = self.systems_of([it.track for it in used], world)
            self.check("numbers", [name], lambda it, tracks=tracks: first_of(tables.held_below(it.text, tracks, bound), tools(), bound, len(tracks)))

    def add_twins(self, formula, used, printer, name):
        """Commands that have to store the text of a definition."""
        rng, draw = self.rng, self.rng.random()
        called = ",".join(it.name for it in used)
        if draw < 0.3:
            self.is_canonical(name)
            self.alike("call", self.command("def", "c", f'"${name}({called})"', "", not used), name)
        elif draw < 0.65:
            other = rewritten(rng, formula)
            self.alike("law", self.command("def", "r", f'"{printer.whole(other)}"', "", not used), name)
        elif draw < 0.8:
            text = printer.whole(formula, wants_macros=True)
            self.alike("macro", self.command("def", "n", f'"{text}"', "", not used), name)
        elif draw < 0.9:
            self.alike("eval", self.command("eval", "e", f'"{printer.whole(formula)}"', "", not used), name)

    # Sentences

    def add_sentence(self):
        rng = self.rng
        free_of_bounds = rng.random() < 0.5
        formula = self.grower.formula(self.grower.free(rng.choice([1, 2])), 0, rng.choice([2, 2, 3]), free_of_bounds)
        for it in variables(formula):
            bound = None if free_of_bounds or rng.random() < 0.2 else Num(rng.randint(1, 12))
            formula = In(it.track, Quantified(rng.choice("EA"), it, bound, In(0, formula) if it.track else formula))
        name = self.fresh("s")
        names = [self.command("eval", "", f'"{printer.whole(formula)}"', printer.ending, True, name) for printer in self.printers]
        for one, other in zip(names, names[1:]):
            self.check("systems", [one, other], lambda a, b: "" if a.verdict == b.verdict else "one sentence is true and false")
        printer, name = rng.choice(list(zip(self.printers, names)))
        if is_plain(formula):
            tools = lru_cache(maxsize=None)(lambda: bool(eval(formula.code(), self.space)))
            self.check("truth", [name], lambda it: "" if it.verdict == tools() else f"the tool says {tools()}")
        negated = self.command("eval", "t", f'"{printer.whole(Not(formula))}"', "", True)
        self.check("negation", [name, negated], lambda a, b: "" if a.verdict != b.verdict else "a sentence and its negation agree")
        if rng.random() < 0.5:
            other = self.command("eval", "u", f'"{printer.whole(rewritten(rng, formula))}"', "", True)
            self.check("law", [name, other], lambda a, b: "" if a.verdict == b.verdict else "equivalent sentences differ")

    # Words

    def letters_as_in_tool(self, name, tracks, world, function):
        """The letters of a word's stored text at the first positions."""
        over, bound = self.systems_of(tracks, world), 120 if len(tracks) == 1 else 12

        def test(it):
            table = tables.parse(it.text)
            if table.tracks != list(over):
                return "another header"
            found = zip(itertools.product(range(bound), repeat=len(over)), tables.outputs_below(table, bound))
            wrong = next((at for at, letter in found if letter != function(*at)), None)
            return "" if wrong is None else f"another letter at {wrong}"
        self.check("letters", [name], test)

    def has_word(self, name, tracks, letters):
        self.grower.words.append((name, list(tracks), sorted(letters - {None}), None in letters))

    def take_library_words(self):
        for track in sorted(set(self.grower.tracks)):
            system = self.worlds[0][track]
            for name in LIBRARY_WORDS.get(systems.kind_of(system), []) if systems.is_msd(system) else []:
                self.takes_word(name, track, *library_word(name))

    def takes_word(self, name, track, table, letter):
        """Takes a word whose table is in a file. A ready-made word over no base lacks only transitions that no number follows."""
        self.space[name] = letter
        self.fixed.add(name)
        lacks_some = len(table.targets) < len(table.states) * systems.digits_of(table.tracks[0])
        is_whole = name in LIBRARY_WORDS.get(systems.kind_of(table.tracks[0]), []) and not systems.kind_of(table.tracks[0]).isdigit()
        self.has_word(name, [track], set(table.outputs.values()) | ({None} if lacks_some and not is_whole else set()))

    def add_combined_word(self):
        rng = self.rng
        if not self.grower.definitions:
            return
        tracks = rng.choice(self.grower.definitions)[1]
        chosen = [name for name, other in self.grower.definitions if other == tracks]
        chosen = rng.sample(chosen, min(len(chosen), rng.randint(1, 3)))
        values = [rng.choice([None, rng.randint(-3, 9)]) for _ in chosen]
        name = self.fresh("w")
        letters = [at if value is None else value for at, value in enumerate(values, 1)]
        held = [(self.space[one], letter) for one, letter in zip(chosen, letters)]
        self.depths[name] = max(self.depths.get(one, 0) for one in chosen)
        self.space[name] = lru_cache(maxsize=None)(lambda *at: next((letter for holds, letter in held if holds(*at)), 0))
        for printer, world in zip(self.printers, self.worlds):
            parts = [printer.name_of(one) + ("" if value is None else f"={value}") for one, value in zip(chosen, values)]
            made = self.command("combine", "", " ".join(parts), printer.ending, False, name)
            self.letters_as_in_tool(made, tracks, world, self.space[name])
        self.has_word(name, tracks, {0, *letters})

    # What one world has: files, morphisms, expressions

    def add_given_automaton(self):
        rng = self.rng
        tracks = [rng.choice(self.grower.tracks) for _ in range(rng.choice([1, 1, 2]))]
        over = self.systems_of(tracks, self.worlds[0])
        text = random_file(rng, over, rng.randint(1, 4))
        table, name = tables.parse(text), self.fresh("g")
        self.files[f"Automata Library/{name}.txt"] = text
        self.has_numbers(name, tracks, tables.reader_of(table))

    def has_numbers(self, name, tracks, reader):
        """A definition that calls an automaton holds of the numbers that the tool finds."""
        self.space[name] = lru_cache(maxsize=None)(reader.holds)
        self.grower.definitions.append((name, tracks))
        variables_of = [Var(it, track) for it, track in zip("xy", tracks)]
        called = ",".join(it.name for it in variables_of)
        made = self.command("def", "h", f'"${name}({called})"')
        bound = 60 if len(tracks) == 1 else 16
        wanted = lambda: reader.held_below(bound)
        self.check("file", [made], lambda it: first_of(tables.held_below(it.text, reader.tracks, bound), wanted(), bound, len(tracks)))
        self.is_canonical(made)

    def add_given_word(self):
        rng, system = self.rng, self.worlds[0][0]
        states, digits = rng.randint(1, 4), range(systems.digits_of(system))
        lacking = rng.choice([0, 0, 0.2])
        output = lambda: "-" if rng.random() < lacking else rng.randint(-2, 3)
        row = lambda: "".join(f"{it} -> {rng.randrange(states)}\n" for it in digits if rng.random() >= lacking)
        rows = [f"{at} {output()}\n{row()}" for at in range(states)]
        name, text = self.fresh("v"), "\n".join([system + "\n", *rows])
        self.files[f"Word Automata Library/{name}.txt"] = text
        table = tables.parse(text)
        self.takes_word(name, 0, table, letters_in(table))

    def add_promoted_word(self):
        rng, system = self.rng, self.worlds[0][0]
        kind = systems.kind_of(system)
        if not systems.is_msd(system) or not kind.isdigit():
            return
        letters = [0, *rng.sample([1, 2, 3, -1, 12], rng.randint(1, 3))]
        images = {it: [rng.choice(letters) for _ in range(int(kind))] for it in letters}
        images[0][0] = 0
        morphism = self.command("morphism", "p", f'"{rules_text(rng, images)}"')
        name = self.fresh("w")
        self.command("promote", "", morphism, "", False, name)
        letter = lru_cache(maxsize=None)(lambda at: 0 if at == 0 else images[letter(at // int(kind))][at % int(kind)])
        self.has_made(name, letter, images)

    def add_image(self):
        rng = self.rng
        words = [it for it in self.grower.words if it[1] == [0]]
        if not words:
            return
        old, _, letters, lacks_some = rng.choice(words)
        if not letters:
            return
        width = rng.choice([1, 1, 2, 3])
        images = {it: [rng.randint(-1, 3) for _ in range(width)] for it in letters}
        morphism = self.command("morphism", "p", f'"{rules_text(rng, images)}"')
        name, read = self.fresh("w"), self.space[old]
        self.depths[name] = self.depths.get(old, 0)
        self.command("image", "", f"{morphism} {old}", "", False, name)
        images[None] = [None] * width
        self.has_made(name, lru_cache(maxsize=None)(lambda at: images[read(at // width)][at % width]), images if lacks_some else only_letters(images))

    def has_made(self, name, letter, images):
        self.space[name] = letter
        self.letters_as_in_tool(name, [0], self.worlds[0], letter)
        self.has_word(name, [0], {it for image in images.values() for it in image})

    def add_transduced(self):
        rng, system = self.rng, self.worlds[0][0]
        words = [it for it in self.grower.words if it[1] == [0] and it[2]]
        if not words or not systems.is_msd(system) or not systems.kind_of(system).isdigit():
            return
        old, _, letters, _ = rng.choice(words)
        made = transducers.random_transducer(rng, letters)
        transducer, name = self.fresh("t"), self.fresh("w")
        self.files[f"Transducer Library/{transducer}.txt"] = made.text(rng)
        self.command("transduce", "", f"{transducer} {old}", "", False, name)
        run = transducers.Run(made, self.space[old])
        self.space[name] = run.output_at
        self.depths[name] = self.depths.get(old, 0)
        self.letters_as_in_tool(name, [0], self.worlds[0], run.output_at)
        self.has_word(name, [0], {output for _, output in made.lines.values()} | {None})

    def add_converted(self):
        """A word over a related base, and the same word in its own system again."""
        rng, system = self.rng, self.worlds[0][0]
        words = [it[0] for it in self.grower.words if it[1] == [0]]
        powers = {"2": [2, 4, 8, 16], "4": [2, 4, 8], "3": [3, 9], "5": [5, 25]}.get(systems.kind_of(system))
        if not words or not powers:
            return
        old, other = rng.choice(words), f"{rng.choice(['msd', 'lsd'])}_{rng.choice(powers)}"
        name, back = self.fresh("w"), self.fresh("w")
        for new, over, of in ((name, other, old), (back, system, name)):
            self.command("convert", "", f"{over} {of}", "", False, new)
            self.letters_as_in_tool(new, [0], [over], self.space[old])

    def add_reg(self):
        rng = self.rng
        tracks = [rng.choice(self.grower.tracks) for _ in range(rng.choice([1, 1, 2]))]
        over = self.systems_of(tracks, self.worlds[0])
        letters = list(itertools.product(*(range(systems.digits_of(it)) for it in over)))
        text, made = expressions.random_expression(rng, letters)
        name = self.command("reg", "g", f'{" ".join(over)} "{text}"')
        self.has_numbers(name, tracks, made.reader(over))

    def add_sets(self):
        rng = self.rng
        sets = [sorted(rng.sample([-1, 0, 1, 2, 7, 10], rng.randint(1, 3))) for _ in range(rng.choice([1, 1, 2]))]
        if self.languages and rng.random() < 0.6:
            sets = rng.choice(self.languages)[1]
        text, made = expressions.random_expression(rng, list(itertools.product(*sets)))
        heads = " ".join("{" + ",".join(map(str, it)) + "}" for it in sets)
        self.has_language(self.command("reg", "l", f'{heads} "{text}"'), sets, made.language())

    def has_language(self, name, sets, language):
        """The stored language has the words that the tool finds."""
        def test(it):
            table = tables.parse(it.text)
            letters = list(tables.letters_of(table))
            if letters != list(itertools.product(*sets)):
                return "another header"
            words = itertools.chain(*expressions.words_of(len(letters)))
            found = zip(words, tables.held_words(table, len(language) - 1))
            wrong = next((word for word, held in found if held != (word in language[len(word)])), None)
            return "" if wrong is None else f"the word {[letters[at] for at in wrong]}"
        self.check("language", [name], test)
        self.is_canonical(name)
        self.languages.append((name, sets, language))

    def add_language(self):
        rng = self.rng
        if not self.languages:
            self.add_sets()
        kind, sets = rng.choice(LANGUAGE_COMMANDS), rng.choice(self.languages)[1]
        alike = [it for it in self.languages if it[1] == sets]
        chosen = [rng.choice(alike) for _ in range(1 if kind in ("star", "reverse") else rng.choice([1, 2, 2, 3]))]
        name = self.command(kind, "l", " ".join(it[0] for it in chosen))
        self.has_language(name, sets, expressions.made_of(kind, [it[2] for it in chosen]))

    def add_list(self):
        """The first words of a language, or of a relation, as `test` and `inf` have them."""
        rng, count = self.rng, self.rng.choice([0, 1, 3, 10, 30])
        choices = [(it, None) for it in self.languages] + [(it, it[1]) for it in self.grower.definitions]
        if not choices:
            return
        chosen, tracks = rng.choice(choices)
        listed = self.listed_words(chosen, tracks)
        at = rng.randrange(-1, min(len(listed), 20))
        place = f' "{lists.text_of(listed[at])}"' if at >= 0 else ""
        wanted = [lists.text_of(word) for word in listed[at + 1:]]
        name = self.fresh("q")
        self.commands.append(Command("test", name, f"test {chosen[0]} {count}{place}"))
        self.check("list", [name], lambda it: lists.differs(it.lines, wanted, count))
        if tracks:
            self.add_infinity(chosen[0], tracks)

    def listed_words(self, chosen, tracks):
        """Words of a language, or shortest representations of a relation's tuples, up to a length, in the order of a list."""
        if tracks:
            return lists.representations(self.systems_of(tracks, self.worlds[0]), self.space[chosen[0]], self.depths.get(chosen[0], 0))
        letters = list(itertools.product(*chosen[1]))
        return [[letters[at] for at in word] for words in chosen[2] for word in sorted(words)]

    def add_infinity(self, name, tracks):
        """Whether infinitely many tuples satisfy a definition, by `inf` and by a sentence."""
        used = [Var(it, track) for it, track in zip("xyz", tracks)]
        parts = []
        for it in used:
            body = Call(name, tuple(used))
            for other in used:
                body = body if other == it else In(other.track, Quantified("E", other, None, body))
            parts.append(In(it.track, Quantified("I", it, None, body)))
        formula = parts[0]
        for part in parts[1:]:
            formula = Join(formula, "|", part)
        asked, answered = self.fresh("q"), self.command("eval", "e", f'"{self.printers[0].whole(formula)}"', "", True)
        self.commands.append(Command("inf", asked, f"inf {name}", True))
        self.check("infinity", [asked, answered], lambda a, b: "" if a.verdict == b.verdict else f"`inf` says {a.verdict}")


def held_in_python(formula, used, bound, space):
    """Of each tuple below a bound, in order, whether a formula is true."""
    loops = " ".join(f"for {it.name} in range({bound})" for it in used) or "for _ in range(1)"
    return bytes(eval(f"[{formula.code()} {loops}]", space))


def first_of(stored, tools, bound, count):
    """Where two relations of so many numbers below a bound differ first, or nothing."""
    if stored is None:
        return "another header"
    if stored == tools:
        return ""
    numbers = itertools.product(range(bound), repeat=count)
    return next(f"at {at} the tool says {bool(listed)}" for at, held, listed in zip(numbers, stored, tools) if held != listed)


def only_letters(images):
    return {letter: image for letter, image in images.items() if letter is not None}


def rules_text(rng, images):
    text = lambda it: str(it) if 0 <= it <= 9 else f"[{it}]"
    rules = [f"{text(it)}->{''.join(map(text, images[it]))}" for it in images]
    return rng.choice([" ", ", "]).join(rules)


def random_file(rng, over, states):
    """The text of a nondeterministic automaton over some systems, with stars and comments."""
    lines, end = [" ".join(over)], rng.choice(["\n", "\n", "\r\n"])
    for at in rng.sample(range(states), states):
        lines += ["# a state"] * (rng.random() < 0.1) + [f"{at} {rng.choice([0, 0, 1, -1, 2])}"]
        for _ in range(rng.randint(0, 5)):
            digits = [rng.choice(["*", *(str(it) for it in range(systems.digits_of(system)))]) for system in over]
            targets = [str(rng.randrange(states)) for _ in range(rng.choice([1, 1, 2]))]
            lines.append(f"{' '.join(digits)} -> {' '.join(targets)}")
    return end.join(lines) + end


def letters_in(table):
    """The letters of a word by its table."""
    return lru_cache(maxsize=10000)(lambda at: tables.output_of(table, systems.word_of(table.tracks, [at])))


@lru_cache(maxsize=None)
def library_word(name):
    """A ready-made word: its table and its letters."""
    table = tables.parse((LIBRARY / "Word Automata Library" / f"{name}.txt").read_text())
    return table, letters_in(table)
