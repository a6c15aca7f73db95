"""What each command may print, by exit code: docs/formats.md as patterns of whole outputs.

And which words are a command line.
"""
import re

WHOLE = r"(?:0|-?[1-9]\d*)"
NUMBER = rf"(?:{WHOLE}|-?[1-9]\d*/(?:[2-9]|[1-9]\d+))"
# a name, that of a joint parameter, a set row, a set column, a form or a decision column
NAME = r"[A-Za-z_][A-Za-z_0-9]*(?:\.[A-Za-z_0-9]+)*"
PLAIN = r"[A-Za-z_][A-Za-z_0-9]*"

PLAN = rf"(?:here {PLAIN} {NUMBER}\n)*(?:policy {PLAIN} {NUMBER}(?: {NUMBER}\*{PLAIN})*\n)*"
ROUND = (rf"round \d+ (?:optimal|unbounded) (?:plan|move) cut {NAME} \d+(?: {NAME} {WHOLE})* basis(?: \d+)*"
         r"(?: column \d+)?\n")
ROUNDS = rf"(?:rounds \d+\n(?:{ROUND})*)?"

PLACE = (rf"(?:scale|inside {NAME}|weight \d+|base \d+|item \d+ {NAME}|sum {NAME}|move tau"
         rf"|(?:cover|hold) {NAME} (?:constant|at {NAME}|{NAME}))")
WHERE = rf"(?:plan|move|cut {NAME}|cost {NAME}|{NAME})"
PROGRAM = rf"(?:set|reform|master|search {NAME} (?:plan|move))"
FORMING = rf"(?:coefficient {WHERE}|clearing {WHERE})"
ROUTE = rf"(?:{FORMING}|dictionary {PROGRAM} at \d+ basis(?: \d+)*|sum {WHERE} \d+)"

COVERS = rf"(?:cover {NAME} {NAME} {NUMBER}\n)*"
INSIDE = rf"(?:inside {NAME} {NUMBER}\n)*"
COLUMNS = rf"(?:plan {NAME} {NUMBER}\n)*"
ITEMS = rf"(?:item {NAME} {NUMBER} {NUMBER}\n(?:at {NAME} {NUMBER}\n)*)*"
VALUE = rf"value {NUMBER}\nscale {NUMBER}\n"
CERTIFICATES = {
    0: rf"certificate optimal\n{VALUE}{INSIDE}{COLUMNS}{COVERS}{ITEMS}end\n",
    10: rf"certificate infeasible\n{INSIDE}{ITEMS}end\n",
    11: (rf"certificate unbounded\n{VALUE}{INSIDE}{COLUMNS}(?:move {NAME} {NUMBER}\n)+{COVERS}"
         rf"(?:hold {NAME} {NAME} {NUMBER}\n)*end\n"),
}
NODES = (rf"(?:branch {PLAIN} {WHOLE}\n|open\n|leaf\n(?:{CERTIFICATES[0]}|{CERTIFICATES[10]}|{CERTIFICATES[11]}))+")
TREES = {
    0: rf"tree optimal {NUMBER}\nbest \d+\n{NODES}",
    10: rf"tree infeasible\n{NODES}",
    11: rf"tree unbounded\nbest \d+\n{NODES}",
}
STATUSES = {0: rf"optimal {NUMBER}\n{PLAN}", 10: r"infeasible\n", 11: r"unbounded\n"}
ACCEPTED = rf"accepted (?:optimal {NUMBER}|infeasible|unbounded)\n"
EMPTY = rf"empty set\n(?:{NAME} {WHOLE}\n)+"
NODE_COUNT = r"nodes [1-9]\d*\n"
SAID = rf"(?:optimal {NUMBER}|infeasible|unbounded)"
BRANCHES = rf"(?:where {PLAIN} [<>]= {WHOLE}\n)*"

HEADING = r"gen (?:0|[1-9]\d*) periods [2-5]\n"
LINES = r"(?:uncertain|over|set|budget|var|adaptive|minimise|maximise|row) [ -~]*\n"
TABLE = rf"(?:\d+ outside\n|\d+ inside(?: {NAME} {NUMBER})* objective {NUMBER}(?: {NAME} {NUMBER})*\n)*"
BOUNDS = (r"set rows \d+ greatest \d+ bound (?:\d+|wide)\nreform rows \d+ greatest \d+ bound (?:\d+|wide)\n"
          r"narrow (?:yes|no)\n")

# what any command may answer
WORDS = {20: r"fault: words\n"}
FILES = {21: r"fault: missing .*\n", 22: r"fault: too long .*\n", 30: r"fault: read\n"}
MODEL = {**WORDS, **FILES, 23: r"fault: model (?:[1-4]|1[1-9]|2[0-35-8]) line [1-9]\d*\n"}
CERTIFICATE = {26: r"fault: certificate 3[123] line [1-9]\d*\n"}
PLANLESS = {26: r"fault: certificate (?:3[123] line [1-9]\d*|34 line 1)\n"}
NAMED = {33: r"fault: whole 6[123]\n"}
CELLS = {32: r"fault: cells 5[1234]\n"}
SWEEPS = {35: r"fault: sweep 8[12]\n"}

ANSWERS = {
    "rows": {**MODEL, 0: rf"(?:set {NAME}:[ -~]* <= {WHOLE}\n)*(?:form {NAME}:[ -~]* <= 0\n)+",
             25: rf"too wide {FORMING}\n"},
    "narrow": {**MODEL, 0: BOUNDS, 25: rf"too wide {FORMING}\n"},
    "solve": {**MODEL, **{code: text + ROUNDS for code, text in STATUSES.items()}, 24: EMPTY,
              25: rf"too wide {ROUTE}\n{ROUNDS}"},
    "prove": {**MODEL, **CERTIFICATES, 24: EMPTY, 25: rf"too wide {ROUTE}\n{ROUNDS}"},
    "check": {**MODEL, **CERTIFICATE, 0: ACCEPTED, 12: rf"rejected {PLACE}\n",
              25: rf"too wide (?:{FORMING}|check {PLACE})\n"},
    "replay": {**MODEL, **PLANLESS, 0: TABLE, 25: r"too wide replay \d+\n",
               27: r"fault: scenarios 4[1234] line [1-9]\d*\n"},
    "worst": {**MODEL, **PLANLESS, 0: rf"(?:worst {NAME} {NUMBER}|along {NAME})\n(?:at {NAME} {NUMBER}\n)*", 24: EMPTY,
              25: rf"too wide {ROUTE}\n", 29: r"fault: no row .*\n"},
    "whole": {**MODEL, **NAMED, **{code: text + NODE_COUNT for code, text in STATUSES.items()}, 24: EMPTY,
              25: rf"too wide {ROUTE}\n{BRANCHES}"},
    "tree": {**MODEL, **NAMED, **TREES, 24: EMPTY, 25: rf"too wide {ROUTE}\n{BRANCHES}"},
    "checktree": {**MODEL, **NAMED, 0: ACCEPTED, 12: rf"rejected leaf \d+ (?:{PLACE}|status|value|best|whole)\n",
                  25: rf"too wide (?:{FORMING}|check {PLACE})\n{BRANCHES}",
                  34: r"fault: tree (?:3[123]|7[123]) line [1-9]\d*\n"},
    "sweep": {**MODEL, **SWEEPS, 0: rf"(?:budget {NUMBER} (?:optimal {NUMBER}|infeasible|unbounded|empty set)\n)+",
              25: rf"too wide {ROUTE}\nwhere budget {NUMBER}\n"},
    "sweeptext": {**MODEL, **SWEEPS, 0: rf"(?:{LINES})+"},
    "cells": {**MODEL, **CELLS, **{code: r"cells [248]\n" + text for code, text in STATUSES.items()}, 24: EMPTY,
              25: rf"too wide {ROUTE}\n"},
    "celltext": {**MODEL, **CELLS, 0: rf"(?:{LINES})+"},
    "text": {**WORDS, 0: rf"(?:{LINES})+"},
    "gen": {**WORDS, 0: rf"{HEADING}dual {SAID}\ncuts {SAID}\n",
            25: rf"{HEADING}dual (?:{SAID}\ncuts too wide {ROUTE}\n{ROUNDS}"
                rf"|too wide {ROUTE}\ncuts (?:{SAID}\n|too wide {ROUTE}\n{ROUNDS}))"},
}
NAMING = (21, 22, 29)       # there a name is printed as it was given, with line ends too
PATTERNS = {command: {code: re.compile(text, re.DOTALL if code in NAMING else 0) for code, text in answers.items()}
            for command, answers in ANSWERS.items()}

# ---- command lines

# each command's own words: m, f a file or any word; n names; s a statement; l limits, b one; c cuts; t a number
OWN = {"rows": "m", "solve": "m", "prove": "m", "check": "mf", "replay": "mff", "worst": "mff", "whole": "mn",
       "tree": "mn", "checktree": "mnf", "sweep": "msl", "sweeptext": "msb", "cells": "mc", "celltext": "mc",
       "narrow": "m", "text": "t", "gen": "t"}
KEYWORDS = set("uncertain set budget var adaptive minimise minimize maximise maximize row in at by over objective tau "
               "model sum for to".split())
LIMITS = {"8": 255, "16": 65535, "32": 2 ** 32 - 1, "62": 2 ** 62 - 1}


def is_name(word):
    return re.fullmatch(PLAIN, word) is not None and word not in KEYWORDS


def is_limit(word, limit):
    found = re.fullmatch(r"(\d+)(?:/(\d+))?", word, re.ASCII)
    return bool(found) and int(found[1]) <= limit and (found[2] is None or 0 < int(found[2]) <= limit)


def is_cut(word, limit):
    name, equals, number = word.partition("=")
    return bool(equals) and is_name(name) and is_limit(number.removeprefix("-"), limit)


def is_own(kind, word, limit):
    parts = word.split(",")
    if kind == "n":
        return len(parts) <= 20 and all(map(is_name, parts))
    if kind == "s":
        return re.fullmatch(r"\d{1,3}", word, re.ASCII) is not None
    if kind in "lb":
        return len(parts) <= (20 if kind == "l" else 1) and all(is_limit(part, limit) for part in parts)
    if kind == "c":
        return len(parts) <= 3 and all(is_cut(part, limit) for part in parts)
    if kind == "t":
        return re.fullmatch(r"\d{1,10}", word, re.ASCII) is not None and int(word) < 2 ** 32
    return True


def is_command_line(words):
    """Whether the words are a command line, as docs/formats.md says."""
    if not words or words[0] not in OWN or any(word in ("", "-", "--") for word in words):
        return False
    options, own, rest = {}, [], list(words[1:])
    while rest:
        word = rest.pop(0)
        if not word.startswith("-"):
            own.append(word)
            continue
        option, equals, value = word.partition("=")
        if option in options or (not equals and not rest):
            return False
        options[option] = value if equals else rest.pop(0)
    known = {"--bits": LIMITS, "--route": {"dual", "cuts"} if words[0] in ("solve", "prove") else ()}
    if any(value not in known.get(option, ()) for option, value in options.items()):
        return False
    limit = LIMITS[options.get("--bits", "62")]
    kinds = OWN[words[0]]
    return len(own) == len(kinds) and all(is_own(kind, word, limit) for kind, word in zip(kinds, own))
