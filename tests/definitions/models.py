"""A model's text as forms and set rows in whole numbers, as docs/formats.md has them. The text breaks no rule."""
from fractions import Fraction
from math import lcm

from expand import plain_lines


class Model:
    """The statements of a text; forms and set rows are dictionaries of whole numbers."""

    def __init__(self, text):
        self.parameters, self.sets, self.statements = [], [], []
        self.variables, self.adaptives, self.rows = [], [], []
        self.goal = None
        for tokens in plain_lines(text):
            self.take(tokens)
        self.number_columns()

    def take(self, tokens):
        """A statement; its set is 0 for the default one."""
        of_set = 0
        if len(tokens) > 2 and tokens[-2] == "over":
            of_set = 1 + self.sets.index(tokens[-1])
            tokens = tokens[:-2]
        kind, *rest = tokens
        if kind == "over":
            self.sets.append(rest[0])
        elif kind == "uncertain":
            self.parameters.append((rest[0], *bounds(rest[1:])))
        elif kind == "var":
            self.variables.append((rest[0], *bounds(rest[1:])))
        elif kind == "adaptive":
            end = rest.index(")")
            self.adaptives.append((rest[0], [name for name in rest[2:end] if name != ","], *bounds(rest[end + 1:])))
        elif kind == "set":
            self.statements.append((of_set, relation(rest), None))
        elif kind == "budget":
            self.statements.append((of_set, None, budget(rest)))
        elif kind == "row":
            self.rows.append((rest[0], of_set, relation(rest[2:])))
        else:
            self.goal = (kind[:3] == "min", of_set, rest)

    def number_columns(self):
        """Decision columns count from 1, 0 being the constant; joint parameters too."""
        self.columns = {}
        for name, *_ in self.variables:
            self.columns[name] = 1 + len(self.columns)
        for name, known, *_ in self.adaptives:
            for column in (name, *((name, parameter) for parameter in known)):
                self.columns[column] = 1 + len(self.columns)
        self.tau = 1 + len(self.columns)
        names = [name for name, *_ in self.parameters]
        self.number = {name: 1 + at for at, name in enumerate(names)}
        self.known = {name: known for name, known, *_ in self.adaptives}
        self.joint = names + [f"{of_set}.{name}" for of_set in self.sets for name in names]

    def place(self, parameter, of_set):
        """The number of the joint parameter"""
        return of_set * len(self.parameters) + self.number[parameter]

    def table(self, tokens, of_set):
        """The numbers of an expression, by joint parameter and column"""
        return Expression(self, of_set, tokens).sum()

    def forms(self):
        """Each form's name and its numbers by joint parameter and column, in whole numbers"""
        minimised, of_set, tokens = self.goal
        goal, tau = self.table(tokens, of_set), {(0, self.tau): Fraction(1)}
        forms = [("objective", less(goal, tau) if minimised else less(tau, goal))]
        for name, of_set, sides in self.rows:
            endings = (".le", ".ge") if sides[1] == "=" else ("",)
            forms += [(name + ending, table) for ending, table in zip(endings, self.differences(sides, of_set))]
        for name, *ends in self.variables:
            forms += bound_forms(name, self.table([name], 0), ends)
        for name, _, *ends in self.adaptives:
            forms += bound_forms(name, self.table([name], 0), ends)
        return [(name, whole(table)) for name, table in forms]

    def differences(self, sides, of_set):
        """What is at most 0 where the sides stand in their relation"""
        left, relation_word, right = self.table(sides[0], of_set), sides[1], self.table(sides[2], of_set)
        below, above = less(left, right), less(right, left)
        return {"<=": [below], ">=": [above], "=": [below, above]}[relation_word]

    def set_rows(self):
        """Each set row's numbers by set column, from 0, and its right side, in whole numbers; and how many columns"""
        rows = []
        for of_set in range(1 + len(self.sets)):
            for name, lower, upper in self.parameters:
                at = self.place(name, of_set) - 1
                rows += [({at: Fraction(-1)}, -lower)] if lower is not None else []
                rows += [({at: Fraction(1)}, upper)] if upper is not None else []
        columns = len(self.joint)
        for of_set, sides, members in self.statements:
            if members is None:
                for table in self.differences(sides, of_set):
                    left = {parameter - 1: number for (parameter, _), number in table.items() if parameter}
                    rows.append((left, -table.get((0, 0), Fraction(0))))
            else:
                rows += self.budget_rows(of_set, members, columns)
                columns += len(members[1])
        return [whole_row(*row) for row in rows], columns

    def budget_rows(self, of_set, members, first):
        """Two rows for each member, whose further column is the next one, and one for their sum"""
        limit, members = members
        for column, (name, centre, deviation) in enumerate(members, first):
            at = self.place(name, of_set) - 1
            yield {at: Fraction(1), column: -deviation}, centre
            yield {at: Fraction(-1), column: -deviation}, -centre
        yield {column: Fraction(1) for column in range(first, first + len(members))}, limit


class Expression:
    """Reads an expression from the left to the right."""

    def __init__(self, model, of_set, tokens):
        self.model, self.of_set, self.tokens, self.at = model, of_set, tokens, 0

    def next(self, *wanted):
        """The next token, where it is one of these"""
        if self.at < len(self.tokens) and self.tokens[self.at] in wanted:
            self.at += 1
            return self.tokens[self.at - 1]
        return None

    def sum(self):
        table = times({(0, 0): Fraction(-1)}, self.product()) if self.next("-") else self.product()
        while sign := self.next("+", "-"):
            table = (less if sign == "-" else plus)(table, self.product())
        return table

    def product(self):
        table = self.factor()
        while self.next("*"):
            table = times(table, self.factor())
        return table

    def factor(self):
        if self.next("("):
            table = self.sum()
            self.next(")")
            return table
        word = self.tokens[self.at]
        self.at += 1
        if word.isdigit():
            below = int(self.tokens[self.at]) if self.next("/") else None
            self.at += below is not None
            return {(0, 0): Fraction(int(word), below or 1)}
        return self.named(word)

    def named(self, word):
        model = self.model
        if word in model.number:
            return {(model.place(word, self.of_set), 0): Fraction(1)}
        policy = {(model.place(name, self.of_set), model.columns[word, name]): Fraction(1)
                  for name in model.known.get(word, [])}
        return {(0, model.columns[word]): Fraction(1)} | policy


# ---- tables of fractions, by joint parameter and column

def plus(left, right, sign=1):
    return {place: left.get(place, 0) + sign * right.get(place, 0) for place in (*left, *right)}


def less(left, right):
    return plus(left, right, -1)


def times(left, right):
    product = {}
    for (parameter, column), number in left.items():
        for (other, second), factor in right.items():
            place = parameter + other, column + second
            product[place] = product.get(place, 0) + number * factor
    return product


def whole(table):
    """A table times its least common denominator, without its zeros"""
    common = lcm(*(number.denominator for number in table.values()))
    return {place: int(number * common) for place, number in table.items() if number}


def whole_row(left, right):
    row = whole(left | {None: right})
    right = row.pop(None, 0)
    return row, right


# ---- parts of statements

def number_of(tokens):
    sign = -1 if tokens[0] == "-" else 1
    above, *below = [int(token) for token in tokens if token.isdigit()]
    return Fraction(sign * above, *below)


def bounds(tokens):
    """The lower and the upper bound, None where there is none"""
    if not tokens:
        return None, None
    if tokens[0] == "in":
        comma = tokens.index(",")
        return number_of(tokens[2:comma]), number_of(tokens[comma + 1:-1])
    number = number_of(tokens[1:])
    return (number, None) if tokens[0] == ">=" else (None, number)


def relation(tokens):
    """The left side, the relation, the right side"""
    at = next(at for at, token in enumerate(tokens) if token in ("<=", ">=", "="))
    return tokens[:at], tokens[at], tokens[at + 1:]


def budget(tokens):
    """The limit, and each member's name, centre and deviation"""
    colon = tokens.index(":")
    members, member = [], []
    for token in (*tokens[colon + 1:], ","):
        if token != ",":
            member.append(token)
            continue
        by = member.index("by")
        members.append((member[0], number_of(member[2:by]), number_of(member[by + 1:])))
        member = []
    return number_of(tokens[:colon]), members


def bound_forms(name, table, ends):
    """The forms of a lower and an upper bound"""
    lower, upper = ends
    if lower is not None:
        yield name + ".lower", less({(0, 0): lower}, table)
    if upper is not None:
        yield name + ".upper", less(table, {(0, 0): upper})
