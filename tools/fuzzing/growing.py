"""Random terms and formulas."""
from formulas import Call, Compare, In, Join, Letters, Not, Num, Product, Quantified, Quotient, Read, Sum, Var, atoms, has_quotient, quantifiers
from laws import NAMES

SIGNS = ["=", "!=", "<", ">", "<=", ">="]
CONNECTIVES = ["&", "&", "|", "|", "^", "=>", "<=>"]


class Grower:
    """Makes formulas over definitions and words, each with a name and the tracks of its terms; a word also has its letters, and whether it lacks some."""

    def __init__(self, rng, tracks):
        self.rng, self.tracks = rng, tracks
        self.definitions, self.words = [], []

    def term(self, scope, track, depth=2):
        rng = self.rng
        own = [it for it in scope if it.track == track]
        draw = rng.random()
        if depth == 0 or draw < 0.5:
            if own and rng.random() < 0.8:
                return rng.choice(own)
            return Num(rng.choice([0, 1, 1, 2, 3, 5, 8, rng.randint(0, 40)]))
        if draw < 0.7:
            return Product(rng.choice([0, 1, 2, 2, 3, 3, 4, 5]), self.term(scope, track, depth - 1))
        if draw < 0.78:
            return Quotient(self.term(scope, track, depth - 1), rng.choice([1, 2, 2, 3, 4, 5, 6]))
        return Sum(self.term(scope, track, depth - 1), rng.choice("++-"), self.term(scope, track, depth - 1))

    def compare(self, scope, here):
        track = self.rng.choice(scope).track if scope else here
        made = Compare(self.term(scope, track), self.rng.choice(SIGNS), self.term(scope, track))
        return made if track == here else In(track, made)

    def read(self, scope, word):
        return Read(word[0], tuple(self.term(scope, track, 1) for track in word[1]), word[3])

    def letters(self, scope):
        word = self.rng.choice(self.words)
        left = self.read(scope, word)
        if self.rng.random() < 0.4:
            right = self.read(scope, self.rng.choice(self.words))
        else:
            right = Read(self.rng.choice([*word[2], self.rng.randint(-2, 9)]), ())
            left, right = (left, right) if self.rng.random() < 0.7 else (right, left)
        return Letters(left, self.rng.choice(["=", "=", *SIGNS]), right)

    def atom(self, scope, here):
        draw = self.rng.random()
        if self.words and draw < 0.3:
            return self.letters(scope)
        if self.definitions and draw < 0.5:
            name, tracks = self.rng.choice(self.definitions)
            return Call(name, tuple(self.term(scope, track, 1) for track in tracks))
        return self.compare(scope, here)

    def quantified(self, scope, here, depth, free_of_bounds):
        rng = self.rng
        track = rng.choice(self.tracks)
        named = Var(rng.choice([it for it in NAMES if it not in {each.name for each in scope}]), track)
        bound = None
        if not free_of_bounds:
            others = [it for it in scope if it.track == track]
            bound = rng.choice([Num(rng.randint(0, 8)), *(Sum(it, "+", Num(rng.randint(0, 3))) for it in others), *others])
        body = self.formula([*scope, named], track, depth - 1, free_of_bounds)
        if not free_of_bounds and quantifiers(body) == 0 and rng.random() < 0.6:
            bound = None if all(isinstance(it, Compare) and not has_quotient(it) for it in atoms(body)) else bound
        made = Quantified(rng.choice("EA" if bound else "EEAAI"), named, bound, body)
        return made if track == here else In(track, made)

    def formula(self, scope, here, depth, free_of_bounds=False):
        """A formula over variables of the scope. Its quantifiers have bounds, or comparisons alone below them, unless none has to."""
        draw = self.rng.random()
        if depth == 0 or draw < 0.15:
            return self.atom(scope, here)
        if draw < 0.25:
            return Not(self.formula(scope, here, depth - 1, free_of_bounds))
        if draw < 0.6 or len(scope) > 3:
            parts = [self.formula(scope, here, depth - 1, free_of_bounds) for _ in range(2)]
            return Join(parts[0], self.rng.choice(CONNECTIVES), parts[1])
        return self.quantified(scope, here, depth, free_of_bounds)

    def free(self, count):
        names = self.rng.sample(NAMES[:12], count)
        return [Var(name, self.rng.choice(self.tracks)) for name in names]
