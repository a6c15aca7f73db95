"""What `solve` prints of a model by each route, worked out from the definitions: the counterpart, and the run of the
cutting-plane method."""
from fractions import Fraction
from math import lcm

from models import Model
from simplex import feasible, solved


def paired(row):
    """Each free column as the difference of two that are at least 0"""
    return {2 * column + second: -number if second else number for column, number in row.items() for second in (0, 1)}


def difference(point, column):
    return point.get(2 * column, Fraction(0)) - point.get(2 * column + 1, Fraction(0))


def cleared(numbers):
    """The least common denominator, and the numbers times it"""
    common = lcm(*(number.denominator for number in numbers))
    return common, [int(number * common) for number in numbers]


class Solver:
    """A model, with its forms, its set rows and a first dictionary of the set's program."""

    def __init__(self, text):
        self.model = Model(text)
        self.forms = self.model.forms()
        self.set_rows, self.set_columns = self.model.set_rows()
        left, right = [paired(row) for row, _ in self.set_rows], [limit for _, limit in self.set_rows]
        self.set = feasible(left, right, 2 * self.set_columns)
        self.cost = paired({self.model.tau - 1: -1 if self.model.goal[0] else 1})

    def size(self):
        """The rows and the columns of the counterpart"""
        height = len(self.forms) * (1 + 2 * self.set_columns)
        return height, 2 * self.model.tau + len(self.forms) * len(self.set_rows) + height

    # ---- by the counterpart

    def by_counterpart(self):
        if self.set is None:
            return ["empty set"]
        rows = [row for at, (_, form) in enumerate(self.forms) for row in self.counterpart_rows(at, form)]
        width = 2 * self.model.tau + len(self.forms) * len(self.set_rows)
        first = feasible([left for left, _ in rows], [right for _, right in rows], width)
        if first is None:
            return ["infeasible"]
        last, column = solved(first, self.cost)
        return ["unbounded"] if column is not None else self.report(last.point())

    def counterpart_rows(self, number, form):
        """Two rows for each set column, that equate the multipliers' sum with the form's number, and one of the right
        sides"""
        first = 2 * self.model.tau + number * len(self.set_rows)
        parts = {}
        for (parameter, column), entry in form.items():
            parts.setdefault(parameter, {})[column - 1] = entry
        for column in range(self.set_columns):
            part = dict(parts.get(column + 1, {}))
            constant = part.pop(-1, 0)
            multipliers = {first + at: row[column] for at, (row, _) in enumerate(self.set_rows) if column in row}
            left = paired({at: -entry for at, entry in part.items()}) | multipliers
            yield left, constant
            yield {at: -entry for at, entry in left.items()}, -constant
        part = dict(parts.get(0, {}))
        constant = part.pop(-1, 0)
        yield paired(part) | {first + at: limit for at, (_, limit) in enumerate(self.set_rows)}, -constant

    # ---- by cuts

    def by_cuts(self):
        if self.set is None:
            return ["empty set"]
        cuts, lines = [], []
        while True:
            master = feasible(*self.master_rows(cuts), 2 * self.model.tau)
            if master is None:
                answer = ["infeasible"]
                break
            last, column = solved(master, self.cost)
            via, cut = self.next_cut(last, column)
            if cut is None:
                answer = self.report(last.point()) if column is None else ["unbounded"]
                break
            cuts.append(cut)
            lines.append(self.round_line(len(cuts), last, column, via, cut))
        return [*answer, f"rounds {len(cuts)}", *lines]

    def master_rows(self, cuts):
        """The rows of the master, a cut each, and their right sides"""
        left, right = [], []
        for form, base, numbers in cuts:
            row = {}
            for (parameter, column), entry in self.forms[form][1].items():
                factor = numbers[parameter - 1] if parameter else base
                row[column - 1] = row.get(column - 1, 0) + factor * entry
            right.append(-row.pop(-1, 0))
            left.append(paired(row))
        return left, right

    def next_cut(self, last, column):
        """What the round cuts off, and its cut; None where the run is finished"""
        if column is not None:
            cut = self.broken(self.vector(last.move(column), 0))
            if cut:
                return "move", cut
        return "plan", self.broken(self.vector(last.point(), 1))

    def vector(self, point, first):
        """A plan, behind 1, or a direction, behind 0, with its bound"""
        return [Fraction(first)] + [difference(point, column) for column in range(self.model.tau)]

    def broken(self, vector):
        """The cut of the first form that is broken in some scenario"""
        _, numbers = cleared(vector)
        parameters = range(len(self.model.joint))
        for at, (_, form) in enumerate(self.forms):
            sums = [0] * (1 + len(parameters))
            for (parameter, column), entry in form.items():
                sums[parameter] += entry * numbers[column]
            last, column = solved(self.set, paired({at: number for at, number in enumerate(sums[1:]) if number}))
            if column is not None:
                return at, 0, cleared([difference(last.move(column), one) for one in parameters])[1]
            scenario = [difference(last.point(), one) for one in parameters]
            if sums[0] + sum(factor * number for factor, number in zip(sums[1:], scenario)) > 0:
                return at, *cleared(scenario)
        return None

    # ---- texts

    def report(self, point):
        """The lines of an optimum: its value, its plan and its policies"""
        model, vector = self.model, self.vector(point, 1)
        lines = [f"optimal {vector[model.tau]}"]
        lines += [f"here {name} {vector[model.columns[name]]}" for name, *_ in model.variables]
        for name, known, *_ in model.adaptives:
            terms = "".join(f" {vector[model.columns[name, parameter]]}*{parameter}" for parameter in known)
            lines.append(f"policy {name} {vector[model.columns[name]]}{terms}")
        return lines

    def round_line(self, number, last, column, via, cut):
        form, base, numbers = cut
        scenario = "".join(f" {name} {entry}" for name, entry in zip(self.model.joint, numbers))
        basis = "".join(f" {basic}" for basic in last.basis)
        kind, entering = ("optimal", "") if column is None else ("unbounded", f" column {column}")
        return f"round {number} {kind} {via} cut {self.forms[form][0]} {base}{scenario} basis{basis}{entering}"
