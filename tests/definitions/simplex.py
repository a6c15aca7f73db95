"""The path of bases of a program, maximise c * x with A * x at most b and x at least 0, in whole numbers of any size:
the first improving column enters, the row that comes first in the lexicographic order of quotients leaves."""
from fractions import Fraction
from math import gcd


def reduced(row):
    """A row in lowest terms"""
    common = gcd(*row)
    return [number // common for number in row] if common > 1 else row


class Dictionary:
    """The rows of a basis: `height` of them, and behind them the objective's. A row has a number for each column, then
    one for the objective, then its right side. `basis` has the basic column of each position."""

    def __init__(self, rows, basis, columns, tags):
        self.rows, self.basis, self.columns, self.tags = rows, basis, columns, tags
        self.height = len(basis)

    def pivot(self, position, column):
        leaving = self.rows[position]
        entries = [(at, number) for at, number in enumerate(leaving) if number]
        for at, row in enumerate(self.rows):
            if at != position and row[column]:
                factor = row[column]
                row = [leaving[column] * number for number in row]
                for place, number in entries:
                    row[place] -= factor * number
                self.rows[at] = reduced(row)
        self.basis[position] = column

    def comes_first(self, position, other, column):
        """Whether the key of one position, over its entry in the column, comes before that of the other"""
        row, second = self.rows[position], self.rows[other]
        for place in (self.columns + 1, *self.tags):
            left, right = row[place] * second[column], second[place] * row[column]
            if left != right:
                return left < right
        return False

    def leaving(self, column):
        """The position that leaves, None where no row stops the column"""
        first = None
        for position in range(self.height):
            if self.rows[position][column] > 0 and (first is None or self.comes_first(position, first, column)):
                first = position
        return first

    def turn(self, while_basic=None):
        """Turns until no column improves, or that column is no longer basic; the column that no row stops, or None"""
        while while_basic is None or while_basic in self.basis:
            column = next((at for at in range(self.columns) if self.rows[-1][at] < 0), None)
            if column is None:
                return None
            position = self.leaving(column)
            if position is None:
                return column
            self.pivot(position, column)
        return None

    def point(self):
        """The basic solution, by column"""
        return {column: Fraction(row[self.columns + 1], row[column]) for column, row in zip(self.basis, self.rows)}

    def move(self, entering):
        """The direction in which the entering column grows by 1"""
        moved = {column: Fraction(-row[entering], row[column]) for column, row in zip(self.basis, self.rows)}
        return moved | {entering: Fraction(1)}


def feasible(left, right, width):
    """A feasible dictionary of rows with these right sides, without a cost; None where there is no feasible point"""
    height = len(left)
    slacks = [width + at for at in range(height)]
    rows = [[row.get(at, 0) for at in range(width)] + [int(at == own) for own in range(height)] for at, row in
            enumerate(left)]
    if all(number >= 0 for number in right):
        rows = [row + [0, number] for row, number in zip(rows, right)]
        return Dictionary(rows, slacks, width + height, slacks)
    # the auxiliary column stands behind the slack columns, with -1 in each row; the greatest of minus it is looked for
    auxiliary = width + height
    rows = [row + [-1, 0, number] for row, number in zip(rows, right)]
    first = max(at for at in range(height) if right[at] == min(right))
    rows[first] = [-number for number in rows[first]]
    rows.append([0] * auxiliary + [1, 1, 0])
    phase = Dictionary(rows, list(slacks), auxiliary + 1, slacks)
    phase.pivot(first, auxiliary)
    phase.turn(while_basic=auxiliary)
    if auxiliary in phase.basis:
        return None
    rows = [reduced(row[:auxiliary] + row[auxiliary + 1:]) for row in phase.rows[:-1]]
    return Dictionary(rows, phase.basis, auxiliary, slacks)


def solved(start, cost):
    """The last dictionary from a feasible one, with a cost by column, and the column that no row stops, or None"""
    objective = [-cost.get(at, 0) for at in range(start.columns)] + [1, 0]
    for column, row in zip(start.basis, start.rows):
        if objective[column]:
            factor = objective[column]
            objective = reduced([row[column] * old - factor * number for old, number in zip(objective, row)])
    rows = [*map(list, start.rows), reduced(objective)]
    last = Dictionary(rows, list(start.basis), start.columns, start.tags)
    return last, last.turn()
