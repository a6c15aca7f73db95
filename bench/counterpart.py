#!/usr/bin/env python3
"""Writes the robust counterpart of a model as a linear program, for other solvers.

    robust rows MODEL > ROWS
    python3 bench/counterpart.py ROWS > PROGRAM.lp              # CPLEX LP: esolver -L, glpsol --lp
    python3 bench/counterpart.py --smt ROWS > PROGRAM.smt2      # SMT-LIB 2: z3

Form i of the model is a(x) + sum over set columns c of b_c(x) * c, and is at most 0 in each scenario of the set
G v <= g. For it the program has a multiplier y_r >= 0 for each set row r, and the rows

    fi_c    sum over r of G_rc * y_r  -  b_c(x) less its constant  =   the constant of b_c       for each set column c
    fi      sum over r of g_r * y_r   +  a(x) less its constant   <=  minus the constant of a

tau, the bound of the objective, is minimised, or maximised where the objective's form holds it with a positive number.
All numbers are the whole ones of `rows`, so nothing is rounded. In the names fi_c, fi and yi_r each number counts from
0; the columns xk are decision columns.

With --short a form that no parameter stands in is one row without multipliers. Where the set admits a scenario, that
loses no plan and no value.
"""
import sys

TAU = "tau"
PER_LINE = 8


class Program:
    """A row is its name, numbers by column, relation and right side; free columns go by the model's names."""

    def __init__(self, maximised):
        self.maximised = maximised
        self.rows, self.free, self.multipliers = [], {}, {}

    def columns(self):
        return [*self.free.values(), *self.multipliers]

    def of_plan(self, part, sign):
        """The part's numbers at decisions, by column"""
        row = {}
        for decision, number in part.items():
            if decision != "1":
                row[self.free.setdefault(decision, TAU if decision == TAU else f"x{len(self.free)}")] = sign * number
        return row

    def of_multipliers(self, form, numbers):
        """The numbers of set rows, by the form's multiplier of each"""
        row = {f"y{form}_{at}": number for at, number in numbers.items()}
        self.multipliers |= dict.fromkeys(row)
        return row

    def add(self, name, row, relation, right):
        """A row without a column says nothing where it holds."""
        if row or (right != 0 if relation == "=" else right < 0):
            self.rows.append((name, row, relation, right))


def read_rows(lines):
    """The set rows, each its numbers by column and its right side; the forms, their numbers by column and decision"""
    sets, forms = [], []
    for line in lines:
        kind, _, *terms, _, right = line.split()
        terms = [term.split("*") for term in terms if term != "0"]
        if kind == "set":
            sets.append(({column: int(number) for number, column in terms}, int(right)))
        else:
            forms.append({})
            for number, column, decision in terms:
                forms[-1].setdefault(column, {})[decision] = int(number)
    return sets, forms


def counterpart(sets, forms, short=False):
    """The counterpart of the model with these set rows and forms; the objective's form is the first"""
    program = Program(maximised=forms[0]["1"][TAU] > 0)
    named = [column for left, _ in sets for column in left] + [column for form in forms for column in form]
    columns = [column for column in dict.fromkeys(named) if column != "1"]
    for i, form in enumerate(forms):
        multiplied, equated = list(enumerate(sets)), columns
        if short and not any(column in form for column in columns):
            multiplied, equated = [], []
        for c, column in enumerate(equated):
            part = form.get(column, {})
            row = program.of_multipliers(i, {r: left[column] for r, (left, _) in multiplied if column in left})
            program.add(f"f{i}_{c}", row | program.of_plan(part, -1), "=", part.get("1", 0))
        part = form.get("1", {})
        row = program.of_multipliers(i, {r: right for r, (_, right) in multiplied if right != 0})
        program.add(f"f{i}", row | program.of_plan(part, 1), "<=", -part.get("1", 0))
    return program


def as_lp(program):
    for decision, column in program.free.items():
        if column != TAU:
            yield f"\\ {column} is {decision}"
    yield "Maximize" if program.maximised else "Minimize"
    yield f" value: {TAU}"
    yield "Subject To"
    for name, row, relation, right in program.rows:
        terms = [f"{number:+d} {column}" for column, number in row.items()] or [f"0 {TAU}"]
        for at in range(0, len(terms), PER_LINE):
            yield (f" {name}: " if at == 0 else "  ") + " ".join(terms[at:at + PER_LINE])
        yield f"  {relation} {right}"
    yield "Bounds"
    for column in program.free.values():
        yield f" {column} free"
    yield "End"


def as_smt(program):
    def written(number):
        return f"{number}.0" if number >= 0 else f"(- {-number}.0)"

    for column in program.columns():
        yield f"(declare-const {column} Real)"
    for column in program.multipliers:
        yield f"(assert (>= {column} 0.0))"
    for _, row, relation, right in program.rows:
        terms = " ".join(f"(* {written(number)} {column})" for column, number in row.items())
        yield f"(assert ({relation} (+ 0.0 {terms}) {written(right)}))"
    yield f"({'maximize' if program.maximised else 'minimize'} {TAU})"
    yield "(check-sat)"
    yield "(get-objectives)"


def main():
    *options, path = sys.argv[1:]
    if set(options) - {"--smt", "--short"}:
        sys.exit(__doc__)
    with open(path) as file:
        sets, forms = read_rows(file.read().splitlines())
    program = counterpart(sets, forms, "--short" in options)
    print("\n".join(as_smt(program) if "--smt" in options else as_lp(program)))


if __name__ == "__main__":
    main()
