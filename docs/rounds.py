#!/usr/bin/env python3
"""Draws a run of cuts of a model with two decisions: from what `robust rows` printed of it, and `robust solve` by cuts.

    (robust rows oven.rob; robust solve oven.rob --route cuts) > rounds.out
    python3 rounds.py x z 20 20 < rounds.out > rounds.svg

The words are the two decisions, and how far the picture goes. Each cut of a row is a line with the number of its
round; beyond it the row is broken in the round's scenario. A ring is the plan of a round, which its cut then cuts off;
the dot is the answer. Places are exact to a tenth of a pixel.
"""
import sys
from fractions import Fraction

WIDTH, HEIGHT, MARGIN = 420, 400, 45


def read(lines):
    """The terms of each form by its name, the rounds as their words, and the number of each variable."""
    forms, rounds, plan = {}, [], {}
    for words in map(str.split, lines):
        if words[0] == "form":
            terms = [word.split("*") for word in words[2:-2] if word != "0"]
            forms[words[1][:-1]] = [(Fraction(number), *where) for number, *where in terms]
        elif words[0] == "round":
            rounds.append(words)
        elif words[0] == "here":
            plan[words[1]] = Fraction(words[2])
    return forms, rounds, plan


def cut_of(forms, words):
    """What the round's form says in its scenario: the number of each column, that of 1 being the constant."""
    form, base, *rest = words[words.index("cut") + 1 : words.index("basis")]
    scenario = dict(zip(rest[::2], map(Fraction, rest[1::2])), **{"1": Fraction(base)})
    cut = {}
    for number, parameter, column in forms[form]:
        cut[column] = cut.get(column, 0) + number * scenario[parameter]
    return cut


def plan_of(words, cuts, columns):
    """The plan of the round's master: where what isn't in its basis is 0, of the cuts so far their slacks."""
    basis = set(words[words.index("basis") + 1 :])
    first = 2 * len(columns)
    tight = [cut for at, cut in enumerate(cuts) if str(first + at) not in basis]
    tight += [{it: 1} for at, it in enumerate(columns) if not {str(2 * at), str(2 * at + 1)} & basis]
    table = [[Fraction(cut.get(it, 0)) for it in columns] + [Fraction(-cut.get("1", 0))] for cut in tight]
    for at in range(len(columns)):
        pivot = next(it for it in range(at, len(table)) if table[it][at])
        table[at], table[pivot] = table[pivot], table[at]
        for it in range(len(table)):
            if it != at:
                share = table[it][at] / table[at][at]
                table[it] = [a - share * b for a, b in zip(table[it], table[at])]
    return {it: table[at][-1] / table[at][at] for at, it in enumerate(columns)}


def ends(cut, names, far):
    """The two points in which the cut's line leaves the picture."""
    a, b, c = (Fraction(cut.get(it, 0)) for it in (*names, "1"))
    found = [(Fraction(x), -(c + a * x) / b) for x in (0, far[0]) if b]
    found += [(-(c + b * y) / a, Fraction(y)) for y in (0, far[1]) if a]
    return sorted({it for it in found if 0 <= it[0] <= far[0] and 0 <= it[1] <= far[1]})


def place(point, far):
    """Where a point stands in the picture."""
    across = MARGIN + point[0] * (WIDTH - 2 * MARGIN) / far[0]
    up = HEIGHT - MARGIN - point[1] * (HEIGHT - 2 * MARGIN) / far[1]
    return round(float(across), 1), round(float(up), 1)


def kept(cuts, names, far):
    """The outline of what all cuts leave of the picture."""
    outline = [(Fraction(0), Fraction(0)), (far[0], Fraction(0)), far, (Fraction(0), far[1])]
    for cut in cuts:
        beyond = [sum(cut.get(it, 0) * number for it, number in zip((*names, "1"), (*point, 1))) for point in outline]
        left = []
        for at, (point, over) in enumerate(zip(outline, beyond)):
            before, was = outline[at - 1], beyond[at - 1]
            if was * over < 0:
                share = was / (was - over)
                left.append(tuple(p + share * (q - p) for p, q in zip(before, point)))
            left += [point] if over <= 0 else []
        outline = left
    return outline


def drawn(names, far, cuts, plans, answer):
    """The text of the picture."""
    yield f'<svg xmlns="http://www.w3.org/2000/svg" width="{WIDTH}" height="{HEIGHT}" viewBox="0 0 {WIDTH} {HEIGHT}"'
    yield ' font-family="sans-serif" font-size="12">'
    yield f'<rect width="{WIDTH}" height="{HEIGHT}" fill="white"/>'
    rows = {number: cut for number, cut in cuts.items() if not cut.get("tau")}
    path = " ".join("{},{}".format(*place(it, far)) for it in kept(rows.values(), names, far))
    yield f'<polygon points="{path}" fill="black" fill-opacity="0.08"/>'
    yield f'<path d="M{MARGIN} {MARGIN - 15}V{HEIGHT - MARGIN}H{WIDTH - MARGIN + 15}" fill="none" stroke="gray"/>'
    for number, cut in rows.items():
        line = [place(it, far) for it in ends(cut, names, far)]
        if len(line) == 2 and line[0] != line[1]:
            (a, b), (c, d) = line
            yield f'<path d="M{a} {b}L{c} {d}" stroke="black"/>'
            # (below the line, as far as it falls over the label's width)
            below = b + 16 * (d - b) / (c - a) + 11 if a < c else b + 14
            yield f'<text x="{a + 7}" y="{below:.1f}">{number}</text>'
    for number, plan in plans.items():
        x, y = place(tuple(plan[it] for it in names), far)
        yield f'<circle cx="{x}" cy="{y}" r="4" fill="white" stroke="black"/>'
        yield f'<text x="{x + 4}" y="{y - 9}" text-anchor="middle">{number}</text>'
    x, y = place(answer, far)
    yield f'<circle cx="{x}" cy="{y}" r="4"/>'
    for at, number in enumerate(far):
        x, y = place((number, 0) if at == 0 else (0, number), far)
        yield f'<text x="{x - 12 * at}" y="{y + (4 if at else 18)}" text-anchor="middle">{number}</text>'
    yield f'<text x="{WIDTH // 2}" y="{HEIGHT - 12}" text-anchor="middle">{names[0]}</text>'
    yield f'<text x="20" y="{HEIGHT // 2}" text-anchor="middle">{names[1]}</text>'
    yield "</svg>"


def main():
    names, far = sys.argv[1:3], tuple(map(Fraction, sys.argv[3:5]))
    forms, rounds, plan = read(sys.stdin)
    cuts, plans = {}, {}
    for words in rounds:
        if words[2] == "optimal":
            plans[words[1]] = plan_of(words, list(cuts.values()), [*names, "tau"])
        cuts[words[1]] = cut_of(forms, words)
    print("\n".join(drawn(names, far, cuts, plans, tuple(plan[it] for it in names))))


if __name__ == "__main__":
    main()
