"""Formulas as trees: their text for the program, and their truth as an expression of Python.

A variable has a track, which means one of the systems of a world: the same tree is written over several systems.
"""
from typing import NamedTuple

OPERAND = {"atom", "not"}
CHAINS = {*OPERAND, "&", "|", "^"}
# What may be without parentheses left and right of a connective.
LEFT = {"&": {*OPERAND, "&"}, "|": {*OPERAND, "&", "|"}, "^": {*OPERAND, "&", "^"}, "=>": CHAINS, "<=>": {*CHAINS, "=>", "<=>"}}
RIGHT = {"&": OPERAND, "|": OPERAND, "^": OPERAND, "=>": CHAINS, "<=>": {*CHAINS, "=>"}}
IN_PYTHON = {"=": "==", "&": "({}) and ({})", "|": "({}) or ({})", "^": "({}) != ({})", "=>": "not ({}) or ({})", "<=>": "({}) == ({})"}


class Var(NamedTuple):
    name: str
    track: int

    def text(self, to):
        return to.variable(self)

    def code(self):
        return self.name

    def parts(self):
        return ()

    def needs(self):
        """The conditions under which the term is defined."""
        return []

    def reach(self, name):
        """A number from which on the variable of this name decides each comparison of the term."""
        return "0" if self.name == name else self.name


class Num(NamedTuple):
    value: int

    def text(self, to):
        return str(self.value)

    def code(self):
        return str(self.value)

    def parts(self):
        return ()

    def needs(self):
        return []

    def reach(self, name):
        return str(self.value)


class Sum(NamedTuple):
    left: tuple
    sign: str
    right: tuple

    def text(self, to):
        right = self.right.text(to)
        return f"{self.left.text(to)}{self.sign}" + (f"({right})" if isinstance(self.right, Sum) else right)

    def code(self):
        return f"({self.left.code()}{self.sign}{self.right.code()})"

    def parts(self):
        return self.left, self.right

    def needs(self):
        own = [f"{self.left.code()}>={self.right.code()}"] if self.sign == "-" else []
        return self.left.needs() + self.right.needs() + own

    def reach(self, name):
        return f"{self.left.reach(name)}+{self.right.reach(name)}"


class Product(NamedTuple):
    count: int
    term: tuple

    def text(self, to):
        inner = self.term.text(to)
        inner = f"({inner})" if isinstance(self.term, (Sum, Product, Quotient)) else inner
        return f"{inner}*{self.count}" if to.toss() else f"{self.count}*{inner}"

    def code(self):
        return f"{self.count}*{self.term.code()}"

    def parts(self):
        return (self.term,)

    def needs(self):
        return self.term.needs()

    def reach(self, name):
        return f"{max(self.count, 1)}*({self.term.reach(name)})"


class Quotient(NamedTuple):
    """The greatest number whose product with the divisor is at most the term."""

    term: tuple
    divisor: int

    def text(self, to):
        inner = self.term.text(to)
        is_bare = not isinstance(self.term, (Sum, Product, Quotient)) or not isinstance(self.term, Sum) and to.toss()
        return f"{inner if is_bare else f'({inner})'}/{self.divisor}"

    def code(self):
        return f"({self.term.code()}//{self.divisor})"

    def parts(self):
        return (self.term,)

    def needs(self):
        return self.term.needs()

    def reach(self, name):
        return self.term.reach(name)


def defined(terms, code):
    """The code of an atom, which is false where a term is undefined."""
    return " and ".join([need for term in terms for need in term.needs()] + [code])


class Compare(NamedTuple):
    left: tuple
    sign: str
    right: tuple
    level = "atom"

    def text(self, to, is_last):
        return f"{self.left.text(to)}{self.sign}{self.right.text(to)}"

    def code(self):
        return defined(self.parts(), f"{self.left.code()} {IN_PYTHON.get(self.sign, self.sign)} {self.right.code()}")

    def parts(self):
        return self.left, self.right


class Read(NamedTuple):
    """A word with its indices, or, without any, a letter."""

    word: object
    indices: tuple
    is_partial: bool = False

    def text(self, to):
        if not self.indices:
            return f"@{self.word}"
        return to.name_of(self.word) + "".join(f"[{it.text(to)}]" for it in self.indices)

    def code(self):
        return f"{self.word}({','.join(it.code() for it in self.indices)})" if self.indices else f"({self.word})"

    def parts(self):
        return self.indices


class Letters(NamedTuple):
    left: Read
    sign: str
    right: Read
    level = "atom"

    def text(self, to, is_last):
        return f"{self.left.text(to)}{self.sign}{self.right.text(to)}"

    def code(self):
        has = "".join(f"{it.code()} is not None and " for it in (self.left, self.right) if it.is_partial)
        return defined(self.parts(), f"{has}{self.left.code()} {IN_PYTHON.get(self.sign, self.sign)} {self.right.code()}")

    def parts(self):
        return (*self.left.indices, *self.right.indices)

    def is_partial(self):
        return self.left.is_partial or self.right.is_partial


class Call(NamedTuple):
    name: str
    terms: tuple
    level = "atom"

    def text(self, to, is_last):
        return f"${to.name_of(self.name)}({','.join(it.text(to) for it in self.terms)})"

    def code(self):
        return defined(self.terms, f"{self.name}({','.join(it.code() for it in self.terms)})")

    def parts(self):
        return self.terms


class Not(NamedTuple):
    formula: tuple
    level = "not"

    def text(self, to, is_last):
        return "~" + to.put(self.formula, OPERAND, is_last)

    def code(self):
        return f"not ({self.formula.code()})"

    def parts(self):
        return (self.formula,)


class Join(NamedTuple):
    left: tuple
    sign: str
    right: tuple

    @property
    def level(self):
        return self.sign

    def text(self, to, is_last):
        blank = " " if to.toss() else ""
        left, right = to.put(self.left, LEFT[self.sign], False), to.put(self.right, RIGHT[self.sign], is_last)
        return f"{left}{blank}{self.sign}{blank}{right}"

    def code(self):
        return IN_PYTHON[self.sign].format(self.left.code(), self.right.code())

    def parts(self):
        return self.left, self.right


class Quantified(NamedTuple):
    """A quantifier over a variable: below a bound, below none, or for infinitely many numbers, which have no bound."""

    sign: str
    variable: Var
    bound: object
    body: tuple
    level = "quantifier"

    def text(self, to, is_last):
        head = f"{self.sign}{self.variable.text(to)} "
        if self.bound is None:
            return head + to.put(self.body, {*CHAINS, "=>", "<=>"}, is_last)
        join, allowed = (" & ", RIGHT["&"]) if self.sign == "E" else (" => ", RIGHT["=>"])
        return f"{head}{self.variable.text(to)}<{self.bound.text(to)}{join}{to.put(self.body, allowed, is_last)}"

    def code(self):
        name = self.variable.name
        if self.bound is None:
            reaches = [f"{it.left.reach(name)}+{it.right.reach(name)}" for it in atoms(self.body)]
            bound = f"2+max({','.join(reaches)},0)"
            if self.sign == "I":
                return f"any({self.body.code()} for {name} in [{bound}])"
        else:
            bound = self.bound.code()
        return f"{'any' if self.sign == 'E' else 'all'}({self.body.code()} for {name} in range({bound}))"

    def parts(self):
        return (self.body,) if self.bound is None else (self.bound, self.body)


class In(NamedTuple):
    """A formula over the system of another track."""

    track: int
    formula: tuple
    level = "atom"

    def text(self, to, is_last):
        return f"(?{to.systems[self.track]} {to.put(self.formula, {*CHAINS, '=>', '<=>'}, True)})"

    def code(self):
        return f"({self.formula.code()})"

    def parts(self):
        return (self.formula,)


def atoms(formula):
    if isinstance(formula, (Compare, Letters, Call)):
        return [formula]
    return [atom for part in formula.parts() if hasattr(part, "level") for atom in atoms(part)]


def variables(tree):
    """The free variables, each with its track, in byte order of their names."""
    if isinstance(tree, Var):
        return [tree]
    found = {it for part in tree.parts() for it in variables(part)}
    if isinstance(tree, Quantified):
        found.discard(tree.variable)
    return sorted(found)


def names_of(atom):
    """The definitions and words that an atom asks."""
    return [atom.name] if isinstance(atom, Call) else [atom.left.word, atom.right.word] if isinstance(atom, Letters) else []


def quantifiers(formula, depths={}):
    """How deep quantifiers are nested, where the definitions and words that it asks have some depths."""
    inner = [quantifiers(it, depths) for it in formula.parts() if hasattr(it, "level")]
    return max([*inner, *(depths.get(name, 0) for name in names_of(formula))], default=0) + isinstance(formula, Quantified)


def is_plain(formula):
    """Whether the truth is found by trying: below bounds, or where comparisons alone decide."""
    if isinstance(formula, Quantified) and formula.bound is None:
        return quantifiers(formula.body) == 0 and all(isinstance(it, Compare) and not has_quotient(it) for it in atoms(formula.body))
    return all(is_plain(it) for it in formula.parts() if hasattr(it, "level"))


def has_quotient(tree):
    return isinstance(tree, Quotient) or any(has_quotient(it) for it in tree.parts())


def has_difference(tree):
    return isinstance(tree, Sum) and tree.sign == "-" or any(has_difference(it) for it in tree.parts())
