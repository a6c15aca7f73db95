"""The rules 25 to 28 of a line with indices, ranges and sums, as docs/formats.md has them: which one is named.

A form over the values of nested ranges is a constant and a factor for each range, the outermost first.
"""
from grammar import Statement
from expand import values_of

MOST_VALUES, GREATEST, ROOM, EFFORT = 100, 999, 20_000, 500_000
CLAMP = 2 ** 62             # digits in an index count as this where they are more
STEPS = 200_000             # values that are run through here before a line is given up


class GivenUp(Exception):
    """A line with too many settings to be judged here."""


class Full(Exception):
    """There is no room for so many tokens."""


# ---- the tokens of what a line stands for

class Room:
    """Counts the canonical tokens of plain statements, which are never made."""

    def __init__(self, room, limit):
        self.left, self.limit, self.steps = room, limit, 0

    def pay(self, tokens):
        self.steps += 1
        if self.steps > STEPS:
            raise GivenUp
        self.left -= tokens
        if self.left < 0:
            raise Full

    def fits(self, number):
        _, numerator, divisor = number
        return numerator <= self.limit and (divisor is None or 0 < divisor <= self.limit)

    def number(self, number):
        _, numerator, divisor = number
        whole = divisor is None or (self.fits(number) and numerator % divisor == 0)
        self.pay(1 if whole else 3)

    def signed(self, pair):
        minus, number = pair
        self.pay(1 if minus and not (self.fits(number) and number[1] == 0) else 0)
        self.number(number)

    def tree(self, tree, setting, inside=""):
        """The tokens of an expression, and the parentheses that it needs inside a sum or a product"""
        kind, *parts = tree
        if kind == "ranged":
            return self.ranged(*parts, setting, inside)
        if kind == "number":
            return self.number(tree)
        if kind == "ref":
            return self.pay(1)
        self.pay(2 if inside and (kind == "sum" or inside == "product") else 0)
        for at, part in enumerate(parts[0]):
            if kind == "sum":
                self.pay(1 if at or part[0] else 0)
                self.tree(part[1], setting, kind)
            else:
                self.pay(1 if at else 0)
                self.tree(part, setting, kind)
        return None

    def ranged(self, bound, tree, setting, inside):
        values = values_of(bound, setting)
        if not values:
            return self.pay(1)
        if values[0] == values[-1]:
            return self.tree(tree, {**setting, bound[0]: values[0]}, inside)
        self.pay(2 if inside else 0)
        for value in values:
            self.pay(1 if value > values[0] else 0)
            self.tree(tree, {**setting, bound[0]: value}, "sum")
        return None

    def bounds(self, found):
        if found is not None:
            self.pay(4 if found[0] == "in" else 1)
            for pair in found[1:]:
                self.signed(pair)

    def items(self, statement, setting):
        first = True
        for item, ranges in statement.items:
            for _ in self.settings(ranges, setting):
                self.pay(1 if first else 2)
                first = False
                if statement.kind == "budget":
                    self.pay(2)
                    self.signed(item[1])
                    self.number(item[2])

    def settings(self, ranges, setting):
        """Each range upwards, the last one fastest; each value is counted as a step"""
        if not ranges:
            yield setting
            return
        for value in values_of(ranges[0], setting):
            self.pay(0)
            yield from self.settings(ranges[1:], {**setting, ranges[0][0]: value})

    def line(self, statement, setting):
        """The line's keyword, its name, its signs and its end; then what it holds"""
        self.pay({"set": 3, "budget": 3, "adaptive": 5, "minimise": 2, "maximise": 2, "row": 5}.get(statement.kind, 3))
        if statement.number:
            self.number(statement.number)
        self.items(statement, setting)
        self.bounds(statement.bounds)
        for side in statement.sides:
            if not isinstance(side, str):
                self.tree(side, setting)
        self.pay(2 if statement.over else 0)

    def lines(self, statement):
        for setting in self.settings(statement.ranges, {}):
            self.line(statement, setting)


def tokens_behind(statement, total, limit):
    """The canonical tokens with those of the line, or None where there is no room for them"""
    room = Room(ROOM - total, limit)
    try:
        room.lines(statement)
    except Full:
        return None
    return ROOM - room.left


# ---- places: each index and each range, with the ranges around it

def ref_places(ref, around):
    return [(around, "index", index) for index in (ref[1] if ref else [])]


def range_places(ranges, around):
    return [((*around, *ranges[:at]), "range", bound) for at, bound in enumerate(ranges)]


def tree_places(tree, around):
    kind, *parts = tree
    if kind == "ref":
        return ref_places(parts, around)
    if kind == "ranged":
        return range_places(parts[:1], around) + tree_places(parts[1], (*around, parts[0]))
    if kind == "number":
        return []
    inside = [part[1] for part in parts[0]] if kind == "sum" else parts[0]
    return [place for part in inside for place in tree_places(part, around)]


def places(statement: Statement):
    """All of a line, in order"""
    around = tuple(statement.ranges)
    found = range_places(statement.ranges, ()) + ref_places(statement.name, around)
    for item, ranges in statement.items:
        name = item[0] if statement.kind == "budget" else item
        found += range_places(ranges, around) + ref_places(name, (*around, *ranges))
    for side in statement.sides:
        found += [] if isinstance(side, str) else tree_places(side, around)
    return found + ref_places(statement.over, around)


# ---- rule 25, and the digits of rule 27

def is_unknown(place, declared):
    around, kind, what = place
    bound = {name for name, _, _ in around}
    if kind == "range" and (what[0] in bound or what[0] in declared):
        return True
    indices = [what] if kind == "index" else what[1:]
    return any(not isinstance(atom, int) and atom not in bound for index in indices for _, atom in index)


def has_great_digits(place):
    _, kind, what = place
    indices = [what] if kind == "index" else what[1:]
    return any(isinstance(atom, int) and atom > GREATEST for index in indices for _, atom in index)


# ---- forms

def form_of(index, names):
    """The form that an index is over the values of ranges with these names, the outermost first"""
    constant, factors = 0, [0] * len(names)
    for sign, atom in index:
        if isinstance(atom, int):
            constant += sign * min(atom, CLAMP)
        else:
            factors[max(at for at, name in enumerate(names) if name == atom)] += sign
    return constant, factors


def minus(one, other):
    length = max(len(one[1]), len(other[1]))
    factors = [form[1] + [0] * (length - len(form[1])) for form in (one, other)]
    return one[0] - other[0], [a - b for a, b in zip(*factors)]


def nest_of(around):
    names = [name for name, _, _ in around]
    return [(form_of(start, names[:at]), form_of(end, names[:at])) for at, (_, start, end) in enumerate(around)]


def greatest(nest, form):
    """No value of the form is over this: the ends of the ranges are put in, the innermost first"""
    constant, factors = form[0], list(form[1])
    for at in range(len(nest) - 1, -1, -1):
        factor = factors[at] if at < len(factors) else 0
        end_constant, end_factors = nest[at][factor >= 0]
        constant += factor * end_constant
        for outer, number in enumerate(end_factors):
            if factor * number:
                factors[outer] += factor * number
    return constant


def from_ends(nest, form, bound):
    """Whether the form reaches the bound; None where the ends don't tell"""
    lengths = [greatest(nest[:at], minus(end, start)) for at, (start, end) in enumerate(nest)]
    if greatest(nest, form) < bound or any(length < 0 for length in lengths):
        return False
    lacks = [greatest(nest[:at], minus(start, end)) for at, (start, end) in enumerate(nest)]
    return True if all(lack <= 0 for lack in lacks) else None


def reaches(nest, form, bound, purse, fixed=0):
    """Whether the form reaches the bound somewhere in the nest, whose outermost ranges have one value each; where the
    purse has no end, this is exact"""
    told = from_ends(nest, form, bound)
    if told is not None or fixed == len(nest):
        return bool(told)
    start, end = (greatest(nest[:fixed], form) for form in nest[fixed])
    for value in range(start, end + 1):
        if not purse.paid():
            return False
        at_value = (value, [])
        if reaches([*nest[:fixed], (at_value, at_value), *nest[fixed + 1:]], form, bound, purse, fixed + 1):
            return True
    return False


class Purse:
    """What may be spent on values that are put in; where nothing has a price, so many steps may be made."""

    def __init__(self, left, price=None):
        self.left, self.price = left, price

    def paid(self):
        if self.price is None:
            self.left -= 1
            if self.left < 0:
                raise GivenUp
            return True
        if self.left < self.price:
            self.left = 0
            return False
        self.left -= self.price
        return True


def is_long(place, purse):
    around, kind, what = place
    names = [name for name, _, _ in around]
    return kind == "range" and reaches(nest_of(around), minus(form_of(what[2], names), form_of(what[1], names)),
                                       MOST_VALUES, purse)


def is_out(place, purse):
    around, kind, what = place
    if kind == "range":
        return False
    nest, form = nest_of(around), form_of(what, [name for name, _, _ in around])
    return reaches(nest, minus((0, []), form), 1, purse) or reaches(nest, form, GREATEST + 1, purse)


# ---- the rule that is named

def named(statement, declared, total, limit):
    """The rule of indices that is named of a line, or None; and the canonical tokens behind it"""
    found = places(statement)
    behind = tokens_behind(statement, total, limit) if not any(is_unknown(place, declared) for place in found) else None
    if any(is_unknown(place, declared) for place in found):
        return 25, None
    if behind is None:
        return crowded(found), None
    endless = Purse(STEPS)
    if any(is_long(place, endless) for place in found):
        return 26, None
    if any(has_great_digits(place) for place in found) or any(is_out(place, endless) for place in found):
        return 27, None
    return None, behind


def crowded(found):
    """The same where there is no room"""
    left = EFFORT
    for rule, test in ((26, is_long), (27, is_out)):
        if rule == 27 and any(has_great_digits(place) for place in found):
            return 27
        for place in found:
            purse = Purse(left, len(place[0]) ** 3)
            if test(place, purse):
                return rule
            left = purse.left
    return 28
