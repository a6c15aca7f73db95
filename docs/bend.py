#!/usr/bin/env python3
"""Draws the policies of one decision that `robust solve` and then `robust cells` printed, by one parameter with a cut.

    (robust solve bend.rob; robust cells bend.rob d=0) > bend.out
    python3 bend.py d -2 0 2 < bend.out > bend.svg

The words are the parameter, its bounds, and the cut between them. The policy of the whole set is dashed, those of the
two cells are drawn through, each over its own side of the cut. Places are exact to a tenth of a pixel.
"""
import sys
from fractions import Fraction

WIDTH, HEIGHT, MARGIN = 480, 280, 50


def policies(lines, parameter):
    """The constant and the coefficient of each policy, by its name, in the order of the lines."""
    for line in lines:
        words = line.split()
        if words[:1] == ["policy"]:
            # (`1/2*d` as the number 1/2 of d)
            terms = dict(reversed(word.split("*")) for word in words[3:])
            yield words[1], Fraction(words[2]), Fraction(terms.get(parameter, "0"))


def ends(policy, start, end):
    """The two ends of a policy's line over a side."""
    _, constant, slope = policy
    return [(at, constant + slope * at) for at in (start, end)]


def label(name, slope, line, look):
    """A policy's name: beside the middle of a line that rises or falls, and above the first quarter of a level one."""
    (left, start), (right, end) = line
    if slope == 0:
        return f'<text x="{(3 * left + right) / 4}" y="{start - 8}" text-anchor="middle" fill="{look}">{name}</text>'
    side, anchor = (10, "start") if slope < 0 else (-10, "end")
    x, y = (left + right) / 2 + side, (start + end) / 2
    return f'<text x="{x}" y="{y}" text-anchor="{anchor}" fill="{look}">{name}</text>'


def drawn(parameter, bounds, found):
    """The text of the picture."""
    low, cut, high = bounds
    one, left, right = found
    lines = [ends(one, low, high), ends(left, low, cut), ends(right, cut, high)]
    values = [value for line in lines for _, value in line]
    least, greatest = min(values + [Fraction(0)]), max(values)

    def place(at, value):
        across = MARGIN + (at - low) * (WIDTH - 2 * MARGIN) / (high - low)
        up = HEIGHT - MARGIN - (value - least) * (HEIGHT - 2 * MARGIN) / ((greatest - least) or 1)
        return round(float(across), 1), round(float(up), 1)

    font = 'font-family="sans-serif" font-size="12"'
    size = f'width="{WIDTH}" height="{HEIGHT}" viewBox="0 0 {WIDTH} {HEIGHT}"'
    yield f'<svg xmlns="http://www.w3.org/2000/svg" {size} {font}>'
    yield f'<rect width="{WIDTH}" height="{HEIGHT}" fill="white"/>'
    yield f'<path d="M{MARGIN} {MARGIN - 20}V{HEIGHT - MARGIN}H{WIDTH - MARGIN + 20}" fill="none" stroke="gray"/>'
    x, _ = place(cut, least)
    yield f'<path d="M{x} {MARGIN - 20}V{HEIGHT - MARGIN}" fill="none" stroke="lightgray"/>'
    for line, look in zip(lines, ('stroke="gray" stroke-dasharray="6 4"', 'stroke="black"', 'stroke="black"')):
        path = " ".join("{},{}".format(*place(*end)) for end in line)
        yield f'<polyline points="{path}" fill="none" stroke-width="2" {look}/>'
    for line, (name, _, slope), look in zip(lines, found, ("gray", "black", "black")):
        yield label(name, slope, [place(*end) for end in line], look)
    for at in bounds:
        yield f'<text x="{place(at, least)[0]}" y="{HEIGHT - MARGIN + 18}" text-anchor="middle">{at}</text>'
    for value in sorted({least, greatest}):
        yield f'<text x="{MARGIN - 10}" y="{place(low, value)[1] + 4}" text-anchor="end">{value}</text>'
    yield f'<text x="{WIDTH // 2}" y="{HEIGHT - 10}" text-anchor="middle">{parameter}</text>'
    yield "</svg>"


def main():
    parameter, *bounds = sys.argv[1:]
    found = list(policies(sys.stdin, parameter))
    if len(found) != 3:
        sys.exit("three policies are drawn: one for the set, and one for each cell")
    print("\n".join(drawn(parameter, [Fraction(bound) for bound in bounds], found)))


if __name__ == "__main__":
    main()
