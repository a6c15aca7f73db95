#!/usr/bin/env python3
"""What a model's text of either version reads as, as docs/formats.md has it: its plain statements, or the rule that it
breaks and the line.

    python3 tests/definitions/reading.py MODEL [--bits V]     # the plain lines, or the rule and the line
"""
import argparse
import pathlib

from expand import line_of, plain_statements
from grammar import Broken, LONGEST, NoStatement, statement_of, token_lines, version_of
from indices import named

LIMITS = {"parameters": 96, "sets": 8, "columns": 600, "rows": 300, "set_lines": 64, "members": 64, "size": 12_000}
DECISIONS = ("variable", "policy", "known")       # an adaptive variable with a list, and one without
OF_NAME = {"parameter": (1, 0), "variable": (0, 1), "known": (0, 1), "policy": (1, 1)}


class Known:
    """What stands in front of a statement: what each name stands for, the counts, and whether there is a goal."""

    def __init__(self):
        self.sorts, self.goal = {}, False
        self.counts = dict.fromkeys("parameters sets columns rows set_lines members set_rows bounds".split(), 0)
        self.counts["forms"] = 1

    def note(self, plain):
        sort = {"uncertain": "parameter", "over": "set", "var": "variable", "row": "row",
                "adaptive": "policy" if plain.items else "known"}.get(plain.kind)
        if sort:
            self.sorts.setdefault(plain.name, sort)
        self.goal = self.goal or plain.kind in ("minimise", "maximise")
        self.counts = counted(self.counts, plain)

    def copy(self):
        other = Known()
        other.sorts, other.goal, other.counts = dict(self.sorts), self.goal, dict(self.counts)
        return other


def counted(counts, plain):
    """The counts with one statement more"""
    ends = len(plain.bounds[1:]) if plain.bounds else 0
    equal = 2 if plain.sides[1:2] == ("=",) else 1
    more = {
        "uncertain": {"parameters": 1, "bounds": ends}, "over": {"sets": 1},
        "set": {"set_lines": 1, "set_rows": equal},
        "budget": {"set_lines": 1, "members": len(plain.items), "set_rows": 1 + 2 * len(plain.items)},
        "var": {"columns": 1, "forms": ends}, "adaptive": {"columns": 1 + len(plain.items), "forms": ends},
        "row": {"rows": 1, "forms": equal},
    }.get(plain.kind, {})
    return {what: number + more.get(what, 0) for what, number in counts.items()}


def is_within(counts):
    joint = counts["parameters"] * (counts["sets"] + 1)
    rows = counts["set_rows"] + counts["bounds"] * (counts["sets"] + 1)
    size = counts["forms"] * (rows + 2 * (joint + counts["members"]) + 1)
    return all({**counts, "parameters": joint, "size": size}[what] <= most for what, most in LIMITS.items())


# ---- what stands in a plain statement

def leaves(tree):
    """The names and numbers of an expression"""
    if tree[0] in ("name", "number"):
        yield tree
    else:
        for part in tree[1]:
            yield from leaves(part[1] if tree[0] == "sum" else part)


def trees(plain):
    return [side for side in plain.sides if not isinstance(side, str)]


def names_used(plain):
    listed = [item[0] if plain.kind == "budget" else item for item in plain.items]
    return listed + [leaf[1] for tree in trees(plain) for leaf in leaves(tree) if leaf[0] == "name"]


def numbers_of(plain):
    found = [leaf for tree in trees(plain) for leaf in leaves(tree) if leaf[0] == "number"]
    found += [number for _, number in (plain.bounds[1:] if plain.bounds else ())] + [plain.number] * bool(plain.number)
    for item in plain.items if plain.kind == "budget" else ():
        found += [item[1][1], item[2]]
    return found


def products(tree, sorts):
    """Each product of two factors or more, prefixes too: its degrees, and whether a policy with a list is in it"""
    kind, inside = tree[0], tree[1]
    if kind == "sum":
        for _, part in inside:
            yield from products(part, sorts)
    if kind == "product":
        for factor in inside:
            yield from products(factor, sorts)
        for count in range(2, len(inside) + 1):
            prefix = ("product", inside[:count])
            holds = any(sorts.get(leaf[1]) == "policy" for leaf in leaves(prefix) if leaf[0] == "name")
            yield *degrees(prefix, sorts), holds


def degrees(tree, sorts):
    """In the parameters, and in the decisions"""
    if tree[0] == "number":
        return 0, 0
    if tree[0] == "name":
        return OF_NAME.get(sorts.get(tree[1]), (0, 0))
    pairs = [degrees(part[1] if tree[0] == "sum" else part, sorts) for part in tree[1]]
    together = max if tree[0] == "sum" else sum
    return together(pair[0] for pair in pairs), together(pair[1] for pair in pairs)


# ---- the rules 11 to 23 of a plain statement

def is_none(plain):
    """Rule 11, as it is judged on a plain statement"""
    names = [name for name in (plain.name, plain.over, *names_used(plain)) if name]
    return any(len(name) > LONGEST for name in names) or (plain.kind == "budget" and not plain.items)


def rules_broken(plain, before, now, limit):
    """The rules 12 to 23 that a plain statement breaks; `before` stands in front of its line"""
    sorts = before.sorts
    listed = [item[0] if plain.kind == "budget" else item for item in plain.items]
    found = [one for tree in trees(plain) for one in products(tree, sorts)]
    after = now.copy()
    after.note(plain)
    broken = {
        12: plain.name in now.sorts or len(set(listed)) < len(listed),
        13: any(sorts.get(name) in (None, "row", "set") for name in names_used(plain))
            or (plain.over is not None and sorts.get(plain.over) != "set"),
        14: any(part is not None and part > limit for number in numbers_of(plain) for part in number[1:]),
        15: plain.kind == "budget" and any(item[2][1] == 0 for item in plain.items),
        16: any(decision > 1 for _, decision, _ in found),
        17: any(uncertain > 1 and not holds for uncertain, _, holds in found),
        18: any(uncertain > 1 and holds for uncertain, _, holds in found),
        19: plain.kind in ("set", "budget", "adaptive")
            and any(sorts.get(name) in DECISIONS for name in names_used(plain)),
        21: now.goal and plain.kind in ("minimise", "maximise"),
        22: not is_within(after.counts),
        23: any(number[2] == 0 for number in numbers_of(plain)),
    }
    return [rule for rule, holds in broken.items() if holds]


# ---- lines and texts

class Reader:
    """Reads lines one after another."""

    def __init__(self, version, limit):
        self.version, self.limit = version, limit
        self.known, self.total, self.plain = Known(), 0, []

    def rule(self, tokens):
        """The rule that the next line breaks, or None; then its plain statements are kept"""
        try:
            statement = statement_of(tokens, self.version)
        except NoStatement:
            return 11
        rule, total = named(statement, self.known.sorts, self.total, self.limit)
        if rule:
            return rule
        plain = plain_statements(statement)
        if any(map(is_none, plain)):
            return 11
        before, broken = self.known.copy(), []
        for one in plain:
            broken += rules_broken(one, before, self.known, self.limit)
            self.known.note(one)
        self.plain += plain
        self.total = total
        return min(broken, default=None)


def read(text, limit=2 ** 62 - 1):
    """The plain statements of a text; it raises Broken with the rule and the line that decide"""
    version, lines = version_of(token_lines(text))
    reader = Reader(version, limit)
    for number, line in enumerate(lines, 1):
        rule = reader.rule(line) if line else None
        if rule:
            raise Broken(rule, number)
    if not reader.known.goal:
        raise Broken(20, text.count(b"\n") + 1)
    return reader.plain


def main():
    parser = argparse.ArgumentParser(description=__doc__.splitlines()[0])
    parser.add_argument("model", type=pathlib.Path)
    parser.add_argument("--bits", type=int, default=62)
    options = parser.parse_args()
    try:
        for plain in read(options.model.read_bytes(), 2 ** options.bits - 1):
            print(" ".join(line_of(plain)))
    except Broken as broken:
        print(f"rule {broken.rule} line {broken.line}")


if __name__ == "__main__":
    main()
