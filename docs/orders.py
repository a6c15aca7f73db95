#!/usr/bin/env python3
"""Draws what plans decide in all, against one parameter, from what `robust solve` printed of each model.

    (robust solve today.rob; robust solve later.rob) > orders.out
    python3 orders.py d1 8 12 x y < orders.out > orders.svg

The words are the parameter, its bounds, and the decisions that are added up: now, by their numbers, or later, by their
policies. The last plan is drawn through, the ones before it dashed. Places are exact to a tenth of a pixel.
"""
import sys
from fractions import Fraction

WIDTH, HEIGHT, MARGIN = 480, 280, 50


def plans(lines):
    """The decisions of each plan, by name: a constant, and the number of each parameter."""
    found = []
    for words in map(str.split, lines):
        if words[0] == "optimal":
            found.append({})
        elif words[0] in ("here", "policy"):
            terms = [word.split("*") for word in words[3:]]
            found[-1][words[1]] = (Fraction(words[2]), {name: Fraction(number) for number, name in terms})
    return found


def total(plan, names, parameter, number):
    """What these decisions are together where the parameter is the number."""
    return sum(plan[it][0] + plan[it][1].get(parameter, 0) * number for it in names)


def drawn(parameter, bounds, names, found):
    """The text of the picture."""
    lines = [[total(plan, names, parameter, at) for at in bounds] for plan in found]
    least, greatest = (edge(number for line in lines for number in line) for edge in (min, max))

    def place(at, number):
        across = MARGIN + (at - bounds[0]) * (WIDTH - 2 * MARGIN) / (bounds[1] - bounds[0])
        up = HEIGHT - MARGIN - (number - least) * (HEIGHT - 2 * MARGIN) / ((greatest - least) or 1)
        return round(float(across), 1), round(float(up), 1)

    yield f'<svg xmlns="http://www.w3.org/2000/svg" width="{WIDTH}" height="{HEIGHT}" viewBox="0 0 {WIDTH} {HEIGHT}"'
    yield ' font-family="sans-serif" font-size="12">'
    yield f'<rect width="{WIDTH}" height="{HEIGHT}" fill="white"/>'
    yield f'<path d="M{MARGIN} {MARGIN - 20}V{HEIGHT - MARGIN + 10}H{WIDTH - MARGIN + 20}" fill="none" stroke="gray"/>'
    for line in lines:
        path = " ".join("{},{}".format(*place(at, number)) for at, number in zip(bounds, line))
        look = "" if line is lines[-1] else ' stroke-dasharray="6 4"'
        yield f'<polyline points="{path}" fill="none" stroke="black" stroke-width="2"{look}/>'
    for number in sorted({number for line in lines for number in line}):
        yield f'<text x="{MARGIN - 10}" y="{place(bounds[0], number)[1] + 4}" text-anchor="end">{number}</text>'
    for at in bounds:
        yield f'<text x="{place(at, least)[0]}" y="{HEIGHT - MARGIN + 26}" text-anchor="middle">{at}</text>'
    yield f'<text x="{WIDTH // 2}" y="{HEIGHT - 8}" text-anchor="middle">{parameter}</text>'
    yield f'<text x="{MARGIN}" y="{MARGIN - 30}" text-anchor="middle">{" + ".join(names)}</text>'
    yield "</svg>"


def main():
    parameter, names = sys.argv[1], sys.argv[4:]
    bounds = [Fraction(number) for number in sys.argv[2:4]]
    print("\n".join(drawn(parameter, bounds, names, plans(sys.stdin))))


if __name__ == "__main__":
    main()
