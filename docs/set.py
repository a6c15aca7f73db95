#!/usr/bin/env python3
"""Draws sets of two parameters, one inside the other, from the set rows that `robust rows` printed of each model.

    for limit in 1/2 1 3/2 2; do
        robust sweeptext stock.rob 1 $limit > limit.rob
        robust rows limit.rob
    done > set.out
    python3 set.py d1 d2 1/2 1 3/2 2 < set.out > set.svg

The words are the two parameters, and a label for each model. The outline of a set is the hull of the corners of its
rows, columns of budgets left out; places are exact to a tenth of a pixel.
"""
import sys
from fractions import Fraction
from itertools import combinations

WIDTH, HEIGHT, MARGIN = 360, 340, 50


def systems(lines):
    """The set rows of each model: the numbers of its columns, and its right side. Behind forms another model begins."""
    rows = []
    for line in lines:
        words = line.split()
        if words[0] == "set":
            terms = [word.split("*") for word in words[2:-2] if word != "0"]
            rows.append(({name: Fraction(number) for number, name in terms}, Fraction(words[-1])))
        elif rows:
            yield rows
            rows = []


def solved(rows, columns):
    """The point at which all these rows are tight, or None where there isn't one alone."""
    table = [[row.get(name, Fraction(0)) for name in columns] + [right] for row, right in rows]
    for at in range(len(columns)):
        pivot = next((line for line in table[at:] if line[at]), None)
        if pivot is None:
            return None
        table.remove(pivot)
        table = [[a - line[at] / pivot[at] * b for a, b in zip(line, pivot)] for line in table]
        table.insert(at, [a / pivot[at] for a in pivot])
    return {name: line[-1] for name, line in zip(columns, table)}


def corners(rows, names):
    """The corners of the set, in the plane of the two parameters."""
    columns = sorted({name for row, _ in rows for name in row})
    for tight in combinations(rows, len(columns)):
        point = solved(tight, columns)
        if point and all(sum(number * point[it] for it, number in row.items()) <= right for row, right in rows):
            yield tuple(point[name] for name in names)


def hull(points):
    """The outline of the points, from corner to corner."""
    rising, outline = sorted(set(points)), []
    for ordered in (rising, rising[::-1]):
        chain = []
        for point in ordered:
            while len(chain) > 1 and orientation(chain[-2], chain[-1], point) <= 0:
                chain.pop()
            chain.append(point)
        outline += chain[:-1]
    return outline


def orientation(a, b, c):
    """Above 0 where the way from a by b to c turns left."""
    return (b[0] - a[0]) * (c[1] - a[1]) - (b[1] - a[1]) * (c[0] - a[0])


def drawn(names, labels, outlines):
    """The text of the picture."""
    least, greatest = ([edge(point[at] for it in outlines for point in it) for at in (0, 1)] for edge in (min, max))

    def place(point):
        across = MARGIN + (point[0] - least[0]) * (WIDTH - 2 * MARGIN) / (greatest[0] - least[0])
        up = HEIGHT - MARGIN - (point[1] - least[1]) * (HEIGHT - 2 * MARGIN) / (greatest[1] - least[1])
        return round(float(across), 1), round(float(up), 1)

    yield f'<svg xmlns="http://www.w3.org/2000/svg" width="{WIDTH}" height="{HEIGHT}" viewBox="0 0 {WIDTH} {HEIGHT}"'
    yield ' font-family="sans-serif" font-size="12">'
    yield f'<rect width="{WIDTH}" height="{HEIGHT}" fill="white"/>'
    for label, outline in zip(labels, outlines):
        path = " ".join("{},{}".format(*place(point)) for point in outline)
        yield f'<polygon points="{path}" fill="black" fill-opacity="0.08" stroke="black"/>'
        x, y = place(max(outline, key=sum))
        across, down = WIDTH / 2 - x, HEIGHT / 2 - y
        step = 18 / (across**2 + down**2) ** 0.5
        yield f'<text x="{x + step * across:.1f}" y="{y + step * down + 4:.1f}" text-anchor="middle">{label}</text>'
    for number in (least[0], (least[0] + greatest[0]) / 2, greatest[0]):
        x, _ = place((number, least[1]))
        yield f'<text x="{x}" y="{HEIGHT - MARGIN + 18}" text-anchor="middle">{number}</text>'
    for number in (least[1], (least[1] + greatest[1]) / 2, greatest[1]):
        _, y = place((least[0], number))
        yield f'<text x="{MARGIN - 10}" y="{y + 4}" text-anchor="end">{number}</text>'
    yield f'<text x="{WIDTH // 2}" y="{HEIGHT - 10}" text-anchor="middle">{names[0]}</text>'
    yield f'<text x="{MARGIN}" y="{MARGIN - 14}" text-anchor="middle">{names[1]}</text>'
    yield "</svg>"


def main():
    names, labels = sys.argv[1:3], sys.argv[3:]
    outlines = [hull(corners(rows, names)) for rows in systems(sys.stdin)]
    if len(outlines) != len(labels):
        sys.exit("there are other models than labels")
    print("\n".join(drawn(names, labels, outlines)))


if __name__ == "__main__":
    main()
