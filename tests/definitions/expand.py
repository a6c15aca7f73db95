#!/usr/bin/env python3
"""The lines of version 1 for which a text of either version stands, as docs/formats.md has them.

    python3 tests/definitions/expand.py MODEL     # prints them, of a text that breaks no rule
"""
import sys
from dataclasses import replace

from grammar import statement_of, token_lines, version_of


def value_of(index, setting):
    """An index: digits and names of ranges, added and subtracted"""
    return sum(sign * (atom if isinstance(atom, int) else setting[atom]) for sign, atom in index)


def values_of(bound, setting):
    """The values of a range, upwards"""
    _, start, end = bound
    return range(value_of(start, setting), value_of(end, setting) + 1)


def settings(ranges, setting):
    """Each range upwards, the last one fastest"""
    if not ranges:
        yield setting
        return
    for value in values_of(ranges[0], setting):
        yield from settings(ranges[1:], {**setting, ranges[0][0]: value})


def name_of(ref, setting):
    """`d[1, 2]` is `d_1_2`; nothing stays nothing"""
    if ref is None:
        return None
    name, indices = ref
    return "_".join([name, *(str(value_of(index, setting)) for index in indices)])


def expanded(tree, setting):
    """An expression with plain names, ("name", name), and sums written out"""
    kind, *parts = tree
    if kind == "ref":
        return "name", name_of(parts, setting)
    if kind == "sum":
        return kind, [(minus, expanded(part, setting)) for minus, part in parts[0]]
    if kind == "product":
        return kind, [expanded(factor, setting) for factor in parts[0]]
    if kind == "ranged":
        bound, inside = parts
        found = [expanded(inside, {**setting, bound[0]: value}) for value in values_of(bound, setting)]
        return ("number", 0, None) if not found else found[0] if len(found) == 1 else (
            "sum", [(False, part) for part in found])
    return tree


def plain_item(item, kind, setting):
    return (name_of(item[0], setting), *item[1:]) if kind == "budget" else name_of(item, setting)


def at_setting(statement, setting):
    """The plain statement of one setting"""
    items = [plain_item(item, statement.kind, inner)
             for item, ranges in statement.items for inner in settings(ranges, setting)]
    sides = tuple(side if isinstance(side, str) else expanded(side, setting) for side in statement.sides)
    return replace(statement, name=name_of(statement.name, setting), items=items, sides=sides, ranges=[],
                   over=name_of(statement.over, setting))


def plain_statements(statement):
    """The statements that a line stands for"""
    return [at_setting(statement, setting) for setting in settings(statement.ranges, {})]


# ---- as lines of version 1

def number(tree):
    _, numerator, divisor = tree
    return [str(numerator)] if divisor is None else [str(numerator), "/", str(divisor)]


def signed(pair):
    return ["-"] * pair[0] + number(pair[1])


def spelled(tree, inside=""):
    """An expression, in parentheses where it needs them inside a sum or a product"""
    kind, *parts = tree
    if kind == "name":
        return parts
    if kind == "number":
        return number(tree)
    if kind == "sum":
        tokens = [token for minus, part in parts[0] for token in ("-" if minus else "+", *spelled(part, kind))]
        tokens = tokens[tokens[0] == "+":]
    else:
        tokens = [token for factor in parts[0] for token in ("*", *spelled(factor, kind))][1:]
    return ["(", *tokens, ")"] if inside and (kind == "sum" or inside == "product") else tokens


def bounds(found):
    if found is None:
        return []
    if found[0] == "in":
        return ["in", "[", *signed(found[1]), ",", *signed(found[2]), "]"]
    return [found[0], *signed(found[1])]


def item_tokens(item, kind):
    return [item[0], "at", *signed(item[1]), "by", *number(item[2])] if kind == "budget" else [item]


def line_of(plain):
    """The tokens of a plain statement"""
    kind = plain.kind
    items = [token for item in plain.items for token in (",", *item_tokens(item, kind))][1:]
    sides = [token for side in plain.sides for token in ([side] if isinstance(side, str) else spelled(side))]
    front = [kind, *([plain.name] if plain.name else []), *(number(plain.number) if plain.number else [])]
    front += {"adaptive": ["(", *items, ")"], "budget": [":", *items], "row": [":"]}.get(kind, [])
    return [*front, *bounds(plain.bounds), *sides, *(["over", plain.over] if plain.over else [])]


def plain_lines(text):
    """The lines of a text, as lines of version 1: each a list of tokens, none of it empty"""
    version, lines = version_of(token_lines(text.encode("latin-1")))
    return [line_of(plain) for line in lines if line for plain in plain_statements(statement_of(line, version))]


if __name__ == "__main__":
    for tokens in plain_lines(open(sys.argv[1], encoding="latin-1").read()):
        print(" ".join(tokens))
