"""Formulas rewritten by laws of logic and of arithmetic, which keep their free variables."""
from formulas import Call, Compare, In, Join, Letters, Not, Num, Product, Quantified, Quotient, Sum, Var, has_difference, variables

TURNED = {"=": "=", "!=": "!=", "<": ">", ">": "<", "<=": ">=", ">=": "<="}
OPPOSITE = {"=": "!=", "!=": "=", "<": ">=", ">": "<=", "<=": ">", ">=": "<"}
NAMES = ["a", "b", "k", "m", "n", "p", "u", "v", "w", "x", "y", "z", "i", "j", "x_1", "b2"]


def names_in(tree):
    """All names of variables, also of those that are bound and do not occur."""
    if isinstance(tree, Var):
        return {tree.name}
    own = {tree.variable.name} if isinstance(tree, Quantified) else set()
    return own.union(*map(names_in, tree.parts()))


def fresh(rng, track, *trees):
    """A variable that occurs in none of the trees."""
    used = set().union(*map(names_in, trees))
    return Var(rng.choice([it for it in NAMES if it not in used] or ["fresh"]), track)


def replaced(tree, old, new):
    """The tree with each `old` replaced, where `new` occurs nowhere in it."""
    if tree == old and isinstance(tree, Var):
        return new
    if not isinstance(tree, tuple):
        return tree
    inner = [replaced(it, old, new) for it in tree]
    return type(tree)(*inner) if hasattr(tree, "_fields") else tuple(inner)


def of_term(rng, term):
    """Another term of the same value, undefined at the same numbers."""
    if isinstance(term, Product):
        term = Product(term.count, of_term(rng, term.term))
        if term.count == 2:
            return Sum(term.term, "+", term.term)
        return Sum(term.term, "+", Product(term.count - 1, term.term)) if term.count > 2 else term
    if isinstance(term, Quotient):
        inner, divisors = of_term(rng, term.term), [it for it in range(2, term.divisor) if term.divisor % it == 0]
        if not divisors or rng.random() < 0.4:
            return Quotient(inner, term.divisor)
        first = rng.choice(divisors)
        return Quotient(Quotient(inner, first), term.divisor // first)
    if isinstance(term, Sum):
        left, right = of_term(rng, term.left), of_term(rng, term.right)
        return Sum(right, "+", left) if term.sign == "+" and rng.random() < 0.5 else Sum(left, term.sign, right)
    return rng.choice([term, Sum(term, "+", Num(0)), Product(1, term), Quotient(term, 1), Quotient(Product(3, term), 3)])


def of_compare(rng, it):
    left, right = of_term(rng, it.left), of_term(rng, it.right)
    forms = [Compare(left, it.sign, right), Compare(right, TURNED[it.sign], left)]
    if not has_difference(it):
        forms.append(Not(Compare(left, OPPOSITE[it.sign], right)))
        if it.sign == "=":
            forms.append(Join(Compare(left, "<=", right), "&", Compare(left, ">=", right)))
        if it.sign == "<":
            forms.append(Compare(Sum(left, "+", Num(1)), "<=", right))
        if it.sign == "!=":
            forms.append(Join(Compare(left, "<", right), "|", Compare(right, "<", left)))
    elif isinstance(it.left, Sum) and it.left.sign == "-" and variables(it):
        # the difference has a name
        named = fresh(rng, variables(it)[0].track, it)
        first = Compare(Sum(named, "+", it.left.right), "=", it.left.left)
        forms.append(Quantified("E", named, None, Join(first, "&", Compare(named, it.sign, it.right))))
    return rng.choice(forms)


def of_letters(rng, it):
    forms = [Letters(it.right, TURNED[it.sign], it.left)]
    if not has_difference(it) and not it.is_partial():
        forms.append(Not(Letters(it.left, OPPOSITE[it.sign], it.right)))
    return rng.choice(forms)


def of_call(rng, it):
    """The last term gets a name."""
    if not variables(it.terms[-1]):
        return it
    named = fresh(rng, variables(it.terms[-1])[0].track, it)
    equal = In(named.track, Compare(named, "=", it.terms[-1]))
    return Quantified("E", named, None, Join(equal, "&", Call(it.name, (*it.terms[:-1], named))))


def of_join(rng, it):
    left, sign, right = rewritten(rng, it.left), it.sign, rewritten(rng, it.right)
    if sign == "=>":
        return rng.choice([Join(Not(left), "|", right), Join(Not(right), "=>", Not(left)), Not(Join(left, "&", Not(right)))])
    forms = [Join(right, sign, left)]
    forms += {
        "&": [Not(Join(Not(left), "|", Not(right))), Not(Join(left, "=>", Not(right)))],
        "|": [Not(Join(Not(left), "&", Not(right))), Join(Not(left), "=>", right)],
        "^": [Not(Join(left, "<=>", right)), Join(Join(left, "|", right), "&", Not(Join(left, "&", right)))],
        "<=>": [Join(Join(left, "=>", right), "&", Join(right, "=>", left)), Join(Not(left), "^", right)],
    }[sign]
    if sign in "&|" and isinstance(right, Join) and right.sign in "&|" and right.sign != sign:
        forms.append(Join(Join(left, sign, right.left), right.sign, Join(left, sign, right.right)))
    return rng.choice(forms)


def of_quantified(rng, it):
    body = rewritten(rng, it.body)
    named = fresh(rng, it.variable.track, it, body)
    renamed = replaced(body, it.variable, named)
    if it.sign == "I":
        least = fresh(rng, it.variable.track, named, renamed)
        beyond = Quantified("E", named, None, Join(Compare(named, rng.choice([">", ">="]), least), "&", renamed))
        return rng.choice([Quantified("I", named, None, renamed), Quantified("A", least, None, beyond)])
    other = "A" if it.sign == "E" else "E"
    forms = [Quantified(it.sign, named, it.bound, renamed), Not(Quantified(other, it.variable, it.bound, Not(body)))]
    if it.bound is not None:
        below = Compare(named, "<", it.bound)
        forms.append(Quantified(it.sign, named, None, Join(renamed, "&", below) if it.sign == "E" else Join(below, "=>", renamed)))
    splits = "|" if it.sign == "E" else "&"
    if isinstance(body, Join) and body.sign == splits and all(it.variable in variables(part) for part in body.parts()):
        forms.append(Join(Quantified(it.sign, it.variable, it.bound, body.left), splits, Quantified(it.sign, it.variable, it.bound, body.right)))
    return rng.choice(forms)


def padded(rng, it):
    """The formula beside itself, or beside what is always true or never."""
    used = variables(it)
    if not used or rng.random() < 0.5:
        return rng.choice([Not(Not(it)), Join(it, "&", it), Join(it, "|", it)])
    some = rng.choice(used)
    part = In(some.track, Compare(some, rng.choice("<>="), Num(rng.randint(0, 9))))
    return rng.choice([Join(it, "&", Join(part, "|", Not(part))), Join(it, "|", Join(part, "&", Not(part)))])


def rewritten(rng, it):
    """An equivalent formula with the same free variables."""
    if isinstance(it, Not):
        inner = rewritten(rng, it.formula)
        new = inner.formula if isinstance(inner, Not) else Not(inner)
    elif isinstance(it, In):
        new = In(it.track, rewritten(rng, it.formula))
    elif isinstance(it, Join) and isinstance(it.left, (Quantified, Join)) and rng.random() < 0.2:
        new = Join(it.left, it.sign, rewritten(rng, it.right))
    else:
        by = {Compare: of_compare, Letters: of_letters, Call: of_call, Join: of_join, Quantified: of_quantified}[type(it)]
        new = by(rng, it)
    return padded(rng, new) if rng.random() < 0.08 else new
