#!/usr/bin/env python3
"""Draws what `robust sweep` printed as a curve: budgets to the right, optimal values upwards, each line a point.

    robust sweep stock.rob 1 0,1/2,1,3/2,2 > price.out
    python3 price.py < price.out > price.svg

A limit without an optimum has no point. Values are placed to a tenth of a pixel; the labels are the printed ones.
"""
import sys
from fractions import Fraction

WIDTH, HEIGHT, MARGIN = 480, 280, 50


def points(lines):
    """The budget and the value of each line that tells an optimum, as they are printed."""
    for line in lines:
        words = line.split()
        if len(words) == 4 and words[0] == "budget" and words[2] == "optimal":
            yield words[1], words[3]


def placed(numbers, start, end):
    """A place for each number, from start for the least to end for the greatest."""
    least, greatest = min(numbers), max(numbers)
    span = (greatest - least) or 1
    return [round(float(start + (number - least) * (end - start) / span), 1) for number in numbers]


def drawn(found):
    """The text of the picture."""
    across = placed([Fraction(budget) for budget, _ in found], MARGIN, WIDTH - MARGIN)
    up = placed([Fraction(value) for _, value in found], HEIGHT - MARGIN, MARGIN)
    font = 'font-family="sans-serif" font-size="12"'
    size = f'width="{WIDTH}" height="{HEIGHT}" viewBox="0 0 {WIDTH} {HEIGHT}"'
    yield f'<svg xmlns="http://www.w3.org/2000/svg" {size} {font}>'
    yield f'<rect width="{WIDTH}" height="{HEIGHT}" fill="white"/>'
    axes = f"M{MARGIN - 15} {MARGIN - 20}V{HEIGHT - MARGIN + 10}H{WIDTH - MARGIN + 20}"
    yield f'<path d="{axes}" fill="none" stroke="gray"/>'
    line = " ".join(f"{x},{y}" for x, y in zip(across, up))
    yield f'<polyline points="{line}" fill="none" stroke="black" stroke-width="2"/>'
    for (budget, value), x, y in zip(found, across, up):
        yield f'<circle cx="{x}" cy="{y}" r="3"/>'
        yield f'<text x="{x}" y="{y - 8}" text-anchor="middle">{value}</text>'
        yield f'<text x="{x}" y="{HEIGHT - MARGIN + 26}" text-anchor="middle">{budget}</text>'
    yield f'<text x="{WIDTH // 2}" y="{HEIGHT - 6}" text-anchor="middle">budget</text>'
    rotated = f'transform="rotate(-90 14 {HEIGHT // 2})"'
    yield f'<text x="14" y="{HEIGHT // 2}" text-anchor="middle" {rotated}>optimal value</text>'
    yield "</svg>"


def main():
    found = list(points(sys.stdin))
    if not found:
        sys.exit("no line tells an optimum")
    print("\n".join(drawn(found)))


if __name__ == "__main__":
    main()
