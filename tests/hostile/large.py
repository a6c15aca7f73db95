#!/usr/bin/env python3
"""The largest texts and words: one thing many times, up to the greatest size that is read, and words of 131,000 bytes.

    python3 tests/hostile/large.py crates/robust/out/robust

Prints a line for each, and ends with 1 where another answer comes than is wanted, or one takes over two seconds of the
processor. A stack that overflows shows as an exit code below 0.
"""
import os
import pathlib
import re
import sys
import tempfile

LIMIT = 2.0
MOST = 96          # the parameters of a model
MODEL = b"uncertain d in [8, 12]\nvar x in [0, 40]\nminimise x\nrow need: x >= d\n"
BUDGET = MODEL.replace(b"var", b"budget 1: d at 10 by 2\nvar")
BROAD = MODEL.replace(b"var", b"".join(b"uncertain e%d in [8, 12]\n" % k for k in range(1, MOST)) + b"var")
PLAN = b"certificate optimal\nvalue 12\nscale 1\ninside d 8\nplan x 12\ncover need d.upper 1\n"
PROOF = PLAN + b"item objective 1 1\nat d 12\nitem need 1 1\nat d 12\nend\n"
TEXT, FILE, TREE, WORD = 65_536, 4_194_304, 8_388_608, 131_000
GOAL = b"var x\nminimise x"
INDEXED = b"model 2\nuncertain d\nvar x\nminimise x\n"
LETTERS = b"abcefghijklmnopqrstuvwyz"
TOKEN, MOST_TOKENS = re.compile(rb"[A-Za-z_][A-Za-z_0-9]*|[0-9]+|[<>]=|[-+*/()\[\],:=\n]"), 20_000
LEAF = b"tree infeasible\nleaf\ncertificate infeasible\n"


def models():
    """Texts of up to 65,536 bytes."""
    yield "a sum of 9,981 terms", GOAL + b" + x" * 9980 + b"\n", (0, b"form objective: 9981*1*x")
    yield "a product of 9,981 factors", GOAL + b"*1" * 9980 + b"\n", (0, b"form objective: 1*1*x")
    yield "6,000 declarations", b"".join(b"var x%d\n" % k for k in range(6000)), (23, b"fault: model 22 line 601\n")
    yield "a comment", GOAL + b"\n#" + b"x" * 65_000, (0, b"form objective: 1*1*x")
    yield "members", b"uncertain d\nbudget 1: " + b", ".join([b"d at 1 by 1"] * 3000), (23, b"fault: model 12 line 2\n")
    yield "a list", b"uncertain d\nadaptive y(" + b", ".join([b"d"] * 9000) + b")\n", (23, b"fault: model 12 line 2\n")
    yield "spaces", b" " * TEXT, (23, b"fault: model 20 line 1\n")
    yield "digits", b"var x >= " + b"9" * 65_500, (23, b"fault: model 14 line 1\n")
    yield "a name", b"var " + b"x" * 65_500, (23, b"fault: model 11 line 1\n")
    yield "parentheses", b"(" * TEXT, (23, b"fault: model 4 line 1\n")


def filled(front, unit, sign, behind):
    """The unit as often as a text may have tokens and bytes, with the sign between."""
    tokens = [len(TOKEN.findall(part)) for part in (front + behind, unit + sign)]
    bytes_left = (TEXT - len(front) - len(behind)) // (len(unit) + len(sign))
    return front + sign.join([unit] * min((MOST_TOKENS - 10 - tokens[0]) // tokens[1], bytes_left)) + behind


def sums(ends):
    """Sums inside each other over a to z without d and x; each range ends as its letter and those around it say."""
    return b"".join(b"sum(%c = " % letter + ends(b"-".join(b"%c" % one for one in LETTERS[:at]) or b"0") + b": "
                    for at, letter in enumerate(LETTERS))


def indexed():
    """Texts of version 2 of up to 65,536 bytes."""
    row, end = INDEXED + b"row r: ", b" >= 0\n"
    closed, every = b")" * 24 + end, b"x[" + b"-".join(b"%c" % letter for letter in LETTERS) + b"]"
    many, one = sums(lambda _: b"1 to 100"), sums(lambda around: around + b" to " + around)
    too_much = (23, b"fault: model 28 line 5\n")
    unknown = (23, b"fault: model 13 line 5\n")
    yield "24 sums of 100 values", row + many + b"x" + closed, too_much
    yield "names in 24 sums of 100 values", filled(row + many, b"x[a+b+c-c]", b" + ", closed), too_much
    yield "24 sums of one value", filled(row + one, b"x[z]", b" + ", closed), (23, b"fault: model ")
    yield "24 sums, each name with all indices", filled(row + one, every, b" + ", closed), (23, b"fault: model ")
    yield "names of 6 indices", filled(row, b"x[1,2,3,4,5,6]", b" + ", end), unknown
    yield "sums of no value", filled(row, b"sum(i=2 to 1:x)", b" + ", end), (0, b"form")
    yield "sums of two values", filled(row, b"sum(i=1 to 2:x)", b" + ", end), (0, b"form")
    yield "a row for each of 2,800 settings", INDEXED + b"row r[i, j]: x >= 1 for i = 1 to 28, j = 1 to 100\n", (
        23, b"fault: model 22 line 5\n")
    policy, settings = INDEXED + b"adaptive y[s,t](", b") for s=1 to 39,t=1 to 100\n"
    yield "entries in 3,900 settings", filled(policy, b"d", b",", settings), too_much
    yield "entries that are in no setting", filled(policy, b"d for i=t to 50,j=51 to t", b",", settings), (
        23, b"fault: model 22 line 5\n")
    yield "entries with 101 values", filled(policy, b"d for i=1 to 101,j=1 to 0", b",", settings), (
        23, b"fault: model 26 line 5\n")
    yield "lines for no setting", filled(INDEXED, b"var y[i,j] for i=1 to 100,j=i to 0", b"\n", b"\n"), (0, b"form")
    yield "an index of digits", row + b"x[" + b"9" * 65_400 + b"]" + end, (23, b"fault: model 27 line 5\n")
    yield "an index of many atoms", filled(row + b"x[", b"0", b"+", b"]" + end), unknown
    long = b"i" * 32_000
    yield "a long name of a range", row + b"x[" + long + b"] >= 0 for " + long + b" = 1 to 2\n", (23, b"fault: model ")


def certificates():
    """Certificates of up to 4,194,304 bytes."""
    items = b"item objective 1/99999 1\nat d 12\n" * 123_000
    yield "items", PLAN + items + b"item need 1 1\nat d 12\nend\n", (12, b"rejected sum x\n")
    yield "one number", (b"certificate optimal\nvalue " + b"9" * FILE)[:FILE], (26, b"fault: certificate 31 line 2\n")
    wordy = (b"certificate optimal\nvalue" + b" 1" * FILE)[:FILE]
    yield "words of a line", wordy, (26, b"fault: certificate 31 line 2\n")
    yield "empty lines", b"certificate optimal\n" + b"\n" * 4_000_000, (26, b"fault: certificate 31 line 2\n")
    endless = (PLAN + b"item objective 1 1\n" * 221_000)[:FILE]
    yield "items without an end", endless, (26, b"fault: certificate 31 line ")


def tables():
    """Scenario files of up to 4,194,304 bytes."""
    yield "one field", (b"d\n" + b"9" * FILE)[:FILE], (27, b"fault: scenarios 43 line 2\n")
    yield "quotes", (b'd\n"' + b'""' * FILE)[:FILE], (27, b"fault: scenarios 43 line 2\n")
    yield "fields", (b"d\n9" + b",9" * FILE)[:FILE], (27, b"fault: scenarios 42 line 2\n")
    yield "10,000 records", b"d\n" + b"9\n" * 10_000, (0, b"2 inside objective 12 need 3\n")
    yield "2,000,000 records", (b"d\n" + b"9\n" * FILE)[:FILE], (27, b"fault: scenarios 44 line 10002\n")
    yield "lines of no bytes", (b"d\n" + b"\n" * FILE)[:FILE], (0, b"")
    yield "spaces of a field", (b"d\n" + b" " * FILE)[:FILE], (27, b"fault: scenarios 43 line 2\n")


def broad_tables():
    """A scenario file of a model with as many parameters as a model may have."""
    header = b",".join([b"d"] + [b"e%d" % k for k in range(1, MOST)])
    records = (b",".join([b"9"] * MOST) + b"\n") * 10_000
    yield f"10,000 records of {MOST} parameters", header + b"\n" + records, (0, b"2 inside objective 12 need 3\n")


def trees():
    """Trees of 8 megabytes; eight times as many may be read."""
    yield "items", LEAF + b"item need 1 1\n" * (TREE // 14) + b"end\n", (12, b"rejected leaf 1 inside d.lower\n")
    deep = b"tree infeasible\n" + b"branch x 9\n" * 999 + b"leaf\ncertificate infeasible\nend\n" * 1000
    yield "999 branches", deep, (12, b"rejected leaf 1 inside d.lower\n")
    yield "one line", b"tree infeasible\n" + b"b" * TREE, (34, b"fault: tree 71 line 2\n")
    yield "empty lines", b"tree infeasible\nleaf\n" + b"\n" * TREE, (34, b"fault: tree 31 line 3\n")


def words():
    """Words about as long as the machine takes."""
    yield "a name", ["whole", "m.rob", "x" * WORD], (33, b"fault: whole 61\n")
    yield "a name of a cut", ["cells", "m.rob", "d" * WORD + "=1"], (32, b"fault: cells 52\n")
    yield "commas", ["whole", "m.rob", "," * WORD], (20, b"fault: words\n")
    yield "zeros of a limit", ["sweep", "b.rob", "1", "0" * WORD], (0, b"budget 0 optimal 10\n")
    yield "zeros of a cut", ["cells", "m.rob", "d=" + "0" * WORD + "9"], (0, b"cells 2\noptimal 12\n")
    yield "digits of an option", ["solve", "m.rob", "--bits=" + "6" * WORD], (20, b"fault: words\n")
    yield "a file's name", ["solve", "x" * WORD], (30, b"fault: read\n")
    yield "10,000 words", ["solve"] + ["m.rob"] * 10_000, (20, b"fault: words\n")


def calls():
    for what, text, wanted in models():
        yield f"model, {what}", ["rows", "f"], text, wanted
    for what, text, wanted in indexed():
        yield f"text of version 2, {what}", ["rows", "f"], text, wanted
    for what, text, wanted in certificates():
        yield f"certificate, {what}", ["check", "m.rob", "f"], text, wanted
    for what, text, wanted in tables():
        yield f"scenario file, {what}", ["replay", "m.rob", "m.cert", "f"], text, wanted
    for what, text, wanted in broad_tables():
        yield f"scenario file, {what}", ["replay", "broad.rob", "m.cert", "f"], text, wanted
    for what, text, wanted in trees():
        yield f"tree, {what}", ["checktree", "m.rob", "x", "f"], text, wanted
    for what, line, wanted in words():
        yield f"word, {what}", line, b"", wanted


def run(program, line):
    """The exit code, or minus the signal; the output; the processor's seconds."""
    write = os.O_WRONLY | os.O_CREAT | os.O_TRUNC
    actions = [(os.POSIX_SPAWN_OPEN, 1, "out", write, 0o600)]
    process = os.posix_spawn(program, [program, *line], {}, file_actions=actions)
    _, status, used = os.wait4(process, 0)
    return os.waitstatus_to_exitcode(status), pathlib.Path("out").read_bytes(), used.ru_utime + used.ru_stime


def main():
    program = str(pathlib.Path(sys.argv[1]).resolve())
    wrong = 0
    with tempfile.TemporaryDirectory() as folder:
        os.chdir(folder)
        for name, text in (("m.rob", MODEL), ("b.rob", BUDGET), ("broad.rob", BROAD), ("m.cert", PROOF)):
            pathlib.Path(name).write_bytes(text)
        for what, line, text, (code, begins) in calls():
            pathlib.Path("f").write_bytes(text)
            came, out, seconds = run(program, line)
            right = came == code and out.startswith(begins) and seconds <= LIMIT
            wrong += not right
            print(f"{'' if right else 'WRONG: '}{what}: exit code {came}, {out[:40]!r}, {seconds:.3f} s", flush=True)
        os.chdir("/")
    return 1 if wrong else 0


if __name__ == "__main__":
    sys.exit(main())
