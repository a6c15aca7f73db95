"""Tokens and lines of a model's text, as docs/formats.md has them: the tokens or the rule that they break, and the
statement, with its indices, ranges and sums, that a line is.

An expression is a tuple: ("number", n, d), d being None where there is no `/`; ("ref", name, indices); ("sum", parts),
each part whether it is subtracted, and an expression; ("product", factors); ("ranged", range, expression). An index is
a list of signs, 1 or -1, each with a number or a name.
"""
import re
import sys
from dataclasses import dataclass, field

TOKEN = re.compile(rb"[A-Za-z_][A-Za-z_0-9]*|[0-9]+|<=|>=|[-+*/()\[\],:=\n]")
NAME = re.compile(r"[A-Za-z_][A-Za-z_0-9]*$")
KEYWORDS = set("uncertain set budget var adaptive minimise minimize maximise maximize row in at by objective tau model "
               "over sum for to".split())
MOST_TOKENS, MOST_OPEN, LONGEST = 20_000, 50, 32
MOST_INDICES = 15                    # with one more the shortest name that it gives is longer
sys.set_int_max_str_digits(0)        # digits may be as many as a text has bytes


class Broken(Exception):
    """The rule that a text breaks, and the line."""

    def __init__(self, rule, line):
        super().__init__(rule, line)
        self.rule, self.line = rule, line


class NoStatement(Exception):
    """A line that is no statement."""


@dataclass
class Statement:
    """A line; names are refs, and what it hasn't is empty. The items of a budget are refs with centre and deviation,
    those of a policy refs; each has its ranges."""
    kind: str
    name: tuple = None
    bounds: tuple = None
    sides: tuple = ()               # one expression; or two with the relation between them
    number: tuple = None
    items: list = field(default_factory=list)
    over: tuple = None
    ranges: list = field(default_factory=list)


# ---- tokens

def token_lines(text):
    """The tokens of each line"""
    lines, at, count, opened = [[]], 0, 0, []
    while at < len(text):
        if text[at] in b" \t\r":
            at += 1
            continue
        if text[at:at + 1] == b"#":
            at = text.find(b"\n", at) if b"\n" in text[at:] else len(text)
            continue
        token = TOKEN.match(text, at)
        if token is None:
            raise Broken(1 if text[at] > 127 else 2, len(lines))
        count += 1
        if count > MOST_TOKENS:
            raise Broken(3, len(lines))
        at, word = token.end(), token[0].decode()
        if word == "\n":
            lines.append([])
            opened = []
            continue
        opened = behind(opened, lines[-1], word)
        if sum(opened) > MOST_OPEN:
            raise Broken(4, len(lines))
        lines[-1].append(word)
    if lines[-1] and count == MOST_TOKENS:
        raise Broken(3, len(lines))
    return lines


def behind(opened, line, word):
    """What each open parenthesis counts, behind a word"""
    if word == "(":
        return [*opened, 2 if line[-1:] == ["sum"] else 1]
    return opened[:-1] if word == ")" else opened


def version_of(lines):
    """The version, and the lines without the one that names it"""
    first = next((at for at, line in enumerate(lines) if line), None)
    if first is None or lines[first] != ["model", "2"]:
        return 1, lines
    return 2, [*lines[:first], [], *lines[first + 1:]]


# ---- lines

class Line:
    """Reads the tokens of a line from the left to the right."""

    def __init__(self, tokens, version):
        self.tokens, self.version, self.at = tokens, version, 0

    def token(self, ahead=0):
        return self.tokens[self.at + ahead] if self.at + ahead < len(self.tokens) else ""

    def took(self, *wanted):
        """Whether the next token is one of these, which is passed then"""
        found = self.token() in wanted and self.token() != ""
        self.at += found
        return found

    def expect(self, *wanted):
        if not self.took(*wanted):
            raise NoStatement
        return self.tokens[self.at - 1]

    def is_name(self, word):
        return bool(NAME.match(word)) and word not in KEYWORDS and (self.version == 2 or len(word) <= LONGEST)

    def name(self):
        if not self.is_name(self.token()):
            raise NoStatement
        self.at += 1
        return self.tokens[self.at - 1]

    def digits(self):
        if not self.token().isdigit():
            raise NoStatement
        self.at += 1
        return int(self.tokens[self.at - 1])

    # ---- indices and ranges

    def atom(self):
        return self.digits() if self.token().isdigit() else self.name()

    def index(self):
        steps = [(1, self.atom())]
        while self.took("+", "-"):
            steps.append((1 if self.tokens[self.at - 1] == "+" else -1, self.atom()))
        return steps

    def ref(self):
        name, indices = self.name(), []
        if self.version == 2 and self.took("["):
            indices.append(self.index())
            while self.took(","):
                indices.append(self.index())
            self.expect("]")
        if len(indices) > MOST_INDICES:
            raise NoStatement
        return name, indices

    def range(self):
        name = self.name()
        self.expect("=")
        start = self.index()
        self.expect("to")
        return name, start, self.index()

    def ranges(self):
        if self.version == 1 or not self.took("for"):
            return []
        found = [self.range()]
        if self.token() == "," and self.is_name(self.token(1)) and self.token(2) == "=":
            self.expect(",")
            found.append(self.range())
        return found

    # ---- numbers and expressions

    def number(self):
        numerator = self.digits()
        return "number", numerator, self.digits() if self.took("/") else None

    def signed(self):
        return self.took("-"), self.number()

    def bounds(self):
        if self.took("in"):
            self.expect("[")
            lower = self.signed()
            self.expect(",")
            upper = self.signed()
            self.expect("]")
            return "in", lower, upper
        return (self.tokens[self.at - 1], self.signed()) if self.took(">=", "<=") else None

    def expression(self):
        parts = [(self.took("-"), self.term())]
        while self.took("+", "-"):
            minus = self.tokens[self.at - 1] == "-"
            parts.append((minus, self.term()))
        return parts[0][1] if len(parts) == 1 and not parts[0][0] else ("sum", parts)

    def term(self):
        factors = [self.factor()]
        while self.took("*"):
            factors.append(self.factor())
        return factors[0] if len(factors) == 1 else ("product", factors)

    def factor(self):
        if self.token().isdigit():
            return self.number()
        if self.took("("):
            inside = self.expression()
            self.expect(")")
            return inside
        if self.version == 2 and self.took("sum"):
            self.expect("(")
            over = self.range()
            self.expect(":")
            inside = self.expression()
            self.expect(")")
            return "ranged", over, inside
        return "ref", *self.ref()

    # ---- statements

    def relation(self):
        left = self.expression()
        return left, self.expect("<=", ">=", "="), self.expression()

    def behind_over(self):
        return self.ref() if self.took("over") else None

    def member(self):
        name = self.ref()
        self.expect("at")
        centre = self.signed()
        self.expect("by")
        return (name, centre, self.number()), self.ranges()

    def entry(self):
        return self.ref(), self.ranges()

    def entries(self):
        self.expect("(")
        found = [] if self.token() == ")" else self.listed(self.entry)
        self.expect(")")
        return found

    def listed(self, item):
        found = [item()]
        while self.took(","):
            found.append(item())
        return found

    def statement(self):
        kind = self.expect("uncertain", "over", "set", "budget", "var", "adaptive", "minimise", "minimize", "maximise",
                           "maximize", "row").replace("mize", "mise")
        found = Statement(kind)
        if kind in ("uncertain", "over", "var", "adaptive", "row"):
            found.name = self.ref()
        if kind == "adaptive":
            found.items = self.entries()
        if kind in ("uncertain", "var", "adaptive"):
            found.bounds = self.bounds()
        if kind == "budget":
            found.number = self.number()
        if kind in ("row", "budget"):
            self.expect(":")
        if kind == "budget":
            found.items = self.listed(self.member)
        if kind in ("set", "row"):
            found.sides = self.relation()
        if kind in ("minimise", "maximise"):
            found.sides = (self.expression(),)
        if kind in ("set", "row", "budget", "minimise", "maximise"):
            found.over = self.behind_over()
        if kind != "budget":
            found.ranges = self.ranges()
        if self.at < len(self.tokens):
            raise NoStatement
        return found


def statement_of(tokens, version):
    """The statement that a line of that version is; it raises NoStatement where it is none"""
    return Line(tokens, version).statement()
