"""Wrong texts: one to four changes of a text or of a word."""
import fractions
import re

from seeds import PIECES, SIGNS

PARTS = re.compile(rb"\s+|[A-Za-z_][A-Za-z_0-9.]*|\d+|.", re.DOTALL)


def changed(rng, text):
    """The text with one to four changes."""
    for _ in range(rng.choice((1, 1, 1, 2, 2, 4))):
        text = rng.choice(CHANGES)(rng, text)
    return text


def change_byte(rng, text):
    at = rng.randrange(len(text) + 1)
    return text[:at] + bytes([rng.randrange(256)]) + text[at + rng.randrange(2):]


def change_piece(rng, text):
    words = PARTS.findall(text) or [b""]
    words[rng.randrange(len(words))] = rng.choice(PIECES)
    return b"".join(words)


def swap_pieces(rng, text):
    words = PARTS.findall(text) or [b""]
    a, b = rng.randrange(len(words)), rng.randrange(len(words))
    words[a], words[b] = words[b], words[a]
    return b"".join(words)


def change_lines(rng, text):
    lines = text.splitlines(keepends=True) or [b""]
    a, b = rng.randrange(len(lines)), rng.randrange(len(lines))
    kind = rng.randrange(3)
    if kind == 0:
        lines.insert(a, lines[b])
    elif kind == 1:
        lines[a], lines[b] = lines[b], lines[a]
    else:
        del lines[a]
    return b"".join(lines)


def change_number(rng, text):
    found = list(re.finditer(rb"\d+", text))
    if not found:
        return text
    hit = rng.choice(found)
    number = rng.choice((b"0", b"1", b"2", b"3", b"7", b"255", b"256", b"4611686018427387903", b"4611686018427387904",
                         b"9" * 40, str(rng.randrange(10 ** rng.randrange(1, 19))).encode()))
    return text[:hit.start()] + number + text[hit.end():]


def nudge(rng, text):
    """Another number in the place of one, as the program spells it: most stay readable, and say something else."""
    found = list(re.finditer(rb"(?<![\w.])-?\d{1,40}(?:/[1-9]\d{0,40})?(?!\d)", text))
    if not found:
        return text
    hit = rng.choice(found)
    number = fractions.Fraction(hit[0].decode())
    seventh = fractions.Fraction(1, 7)
    other = rng.choice((number + 1, number - 1, -number, number * 2, number / 2, number / 3, number + seventh,
                        number * 0, number * 0 + 1, number * 100, 1 / (number or 1)))
    return text[:hit.start()] + str(other).encode() + text[hit.end():]


def cut(rng, text):
    return text[:rng.randrange(len(text) + 1)]


def swell(rng, text):
    """A piece or a line many times."""
    parts = PARTS.findall(text) if rng.randrange(2) else text.splitlines(keepends=True)
    if not parts or rng.randrange(8):
        return change_number(rng, text)
    at, times = rng.randrange(len(parts)), rng.choice((10, 100, 1000, 70_000))
    return b"".join(parts[:at] + [(parts[at] * times)[:70_000]] + parts[at + 1:])


CHANGES = (change_byte, change_piece, change_piece, swap_pieces, change_lines, change_lines, change_number,
           nudge, nudge, nudge, nudge, nudge, cut, swell)


def changed_word(rng, word):
    """A word of the command line with one to three changes; the outside can't give a word with a byte 0."""
    for _ in range(rng.choice((1, 1, 2, 3))):
        at = rng.randrange(len(word) + 1)
        kind = rng.randrange(4)
        if kind == 0:
            word = word[:at] + rng.choice(SIGNS) + word[at + rng.randrange(2):]
        elif kind == 1:
            word = word[:at] + word[at + 1:]
        elif kind == 2:
            word = ",".join(rng.choices(word.split(","), k=rng.choice((1, 2, 3, 4, 20, 21))))
        else:
            word = re.sub(r"\d+", lambda hit: rng.choice((hit[0], "0", "1", "255", "256", "9" * 20)), word)
    return word
