#!/usr/bin/env python3
"""How many models of realistic shape are refused since a number is too wide, by how many digits their data have.

    python3 bench/width.py                                   # crates/robust/out/robust, both routes, every family
    python3 bench/width.py --robust before=PATH --robust after=PATH --seeds 3
    python3 bench/width.py --write FOLDER                    # writes the models, and solves none

Eight families, each in two or three sizes, drawn at random with all their digits used: 2, 3 and 4 digits, and h, four digits as
hundredths. In the style `s` a parameter is the demand itself, in the style `n` a share between -1 and 1 of what it may be
off. It prints a table in Markdown: of so many models, how many were solved, how many certificates `check` then accepted, how many
were refused, and the processor time of all. What takes longer than --limit seconds of the processor is ended, and counts by itself.
To standard error go the certificates that aren't accepted, and the models of which two builds or routes give two answers, and
where there is such a model the exit status is 1.
"""
import argparse
import collections
import os
import pathlib
import random
import resource
import sys
import tempfile

TOP = pathlib.Path(__file__).resolve().parent.parent
DIGITS = {"2": 2, "3": 3, "4": 4, "h": 4}
COLUMNS = ("solved", "accepted", "refused", "ended")


class Data:
    """Draws numbers with so many digits, and says what a number off its mean is in either style; deviations keep so many of
    their digits."""

    def __init__(self, seed, digits, style, kept):
        self.random, self.digits, self.style, self.kept = random.Random(seed), digits, style, kept
        self.lines, self.shares = [], []

    def number(self, low, high):
        """A number between two shares of the largest one, all digits used"""
        return self.written(round(self.random.uniform(low, high) * 10 ** DIGITS[self.digits]))

    def written(self, units):
        """So many units, in hundredths where the data are hundredths"""
        return f"{units}/100" if self.digits == "h" else str(units)

    def off(self, name, mean, deviation):
        """A parameter of this name, whose mean and deviation are drawn between these shares; answers what it is written as"""
        middle = round(self.random.uniform(*mean) * 10 ** DIGITS[self.digits])
        far = round(float(f"{self.random.uniform(*deviation) * 10 ** DIGITS[self.digits]:.{self.kept - 1}e}"))
        if self.style == "n":
            self.lines.append(f"uncertain {name} in [-1, 1]")
            self.shares.append(f"{name} at 0 by 1")
            return f"({self.written(middle)} + {self.written(far)}*{name})"
        self.lines.append(f"uncertain {name} in [{self.written(middle - far)}, {self.written(middle + far)}]")
        self.shares.append(f"{name} at {self.written(middle)} by {self.written(far)}")
        return name

    def budget(self, limit):
        self.lines.append(f"budget {limit}: " + ", ".join(self.shares))


def added(terms):
    return " + ".join(terms)


def stock(data, weeks):
    """Orders that know the demands before, stock and backlog paid in each week"""
    demands = [data.off(f"d{t}", (0.4, 0.6), (0.05, 0.2)) for t in range(1, weeks + 1)]
    data.budget(2)
    names = [f"d{t}" for t in range(1, weeks + 1)]
    yield f"var o1 in [0, {data.number(0.8, 0.99)}]"
    for t in range(2, weeks + 1):
        yield f"adaptive o{t}({', '.join(names[:t - 1])}) in [0, {data.number(0.8, 0.99)}]"
    yield from (f"adaptive c{t}({', '.join(names[:t])})" for t in range(1, weeks + 1))
    yield "minimise " + added(f"{data.number(0.2, 0.4)}*o{t} + c{t}" for t in range(1, weeks + 1))
    for t in range(1, weeks + 1):
        orders, sold = added(f"o{s}" for s in range(1, t + 1)), added(demands[:t])
        yield f"row store{t}: c{t} >= {data.number(0.1, 0.2)}*({orders} - ({sold}))"
        yield f"row late{t}: c{t} >= {data.number(0.4, 0.6)}*({sold} - ({orders}))"


def dispatch(data, hours):
    """Three units with reserves that are held for all hours, and a load less an uncertain wind"""
    loads = [data.off(f"w{h}", (0.5, 0.6), (0.05, 0.1)) for h in range(1, hours + 1)]
    data.budget(1)
    units, hour = (1, 2, 3), range(1, hours + 1)
    most = {u: data.number(0.3, 0.5) for u in units}
    yield from (f"var p{u} in [0, {most[u]}]" for u in units)
    yield from (f"var r{u} in [0, {data.number(0.1, 0.3)}]" for u in units)
    yield from (f"adaptive a{u}_{h}(w{h}) in [0, {most[u]}]" for h in hour for u in units)
    costs = [added(f"{data.number(0.1, 0.9)}*{name}" for name in [f"r{u}", *(f"a{u}_{h}" for h in hour)]) for u in units]
    yield "minimise " + added(costs)
    for h in hour:
        yield f"row load{h}: a1_{h} + a2_{h} + a3_{h} >= {loads[h - 1]}"
        for u in units:
            yield f"row up{u}_{h}: a{u}_{h} <= p{u} + r{u}"
            yield f"row down{u}_{h}: a{u}_{h} >= p{u} - r{u}"


def transport(data, plants, customers):
    """Capacity that is rented now, and flows that know each customer's demand"""
    demands = [data.off(f"d{k}", (0.3, 0.5), (0.05, 0.15)) for k in range(1, customers + 1)]
    data.budget(2)
    pairs = [(i, k) for i in range(1, plants + 1) for k in range(1, customers + 1)]
    yield from (f"var k{i} >= 0" for i in range(1, plants + 1))
    yield from (f"adaptive x{i}_{k}(d{k}) >= 0" for i, k in pairs)
    rent = [f"{data.number(0.3, 0.6)}*k{i}" for i in range(1, plants + 1)]
    yield "minimise " + added(rent + [f"{data.number(0.1, 0.9)}*x{i}_{k}" for i, k in pairs])
    for i in range(1, plants + 1):
        yield f"row plant{i}: " + added(f"x{i}_{k}" for k in range(1, customers + 1)) + f" <= k{i}"
    for k in range(1, customers + 1):
        yield f"row customer{k}: " + added(f"x{i}_{k}" for i in range(1, plants + 1)) + f" >= {demands[k - 1]}"


def mix(data, products, rows):
    """Products on one machine whose times aren't known, and some rows that are"""
    times = [data.off(f"a{j}", (0.3, 0.7), (0.05, 0.1)) for j in range(1, products + 1)]
    data.budget(2)
    yield from (f"var x{j} >= 0" for j in range(1, products + 1))
    yield "maximise " + added(f"{data.number(0.3, 0.9)}*x{j}" for j in range(1, products + 1))
    room = data.written(round(data.random.uniform(5, 9) * 10 ** DIGITS[data.digits]))
    yield "row machine: " + added(f"{times[j - 1]}*x{j}" for j in range(1, products + 1)) + f" <= {room}"
    for i in range(rows):
        share = added(f"{data.number(0.1, 0.9)}*x{j}" for j in range(1, products + 1))
        yield f"row sure{i}: {share} <= {data.written(round(data.random.uniform(5, 9) * 10 ** DIGITS[data.digits]))}"


def staff(data, shifts):
    """A roster of which some stay away, and temps that are called when it is known who"""
    present = [data.off(f"a{s}", (0.7, 0.8), (0.05, 0.15)) for s in range(1, shifts + 1)]
    data.budget(2)
    yield from (f"var x{s} >= 0" for s in range(1, shifts + 1))
    yield from (f"adaptive t{s}(a{s}) >= 0" for s in range(1, shifts + 1))
    costs = [f"{data.number(0.2, 0.4)}*x{s} + {data.number(0.5, 0.9)}*t{s}" for s in range(1, shifts + 1)]
    yield "minimise " + added(costs)
    for s in range(1, shifts + 1):
        yield f"row shift{s}: {present[s - 1]}*x{s} + t{s} >= {data.number(0.2, 0.6)}"
    yield "row agency: " + added(f"t{s}" for s in range(1, shifts + 1)) + f" <= {data.number(0.5, 0.9)}"


def portfolio(data, assets):
    """Assets whose returns aren't known"""
    returns = [data.off(f"r{i}", (0.3, 0.7), (0.1, 0.3)) for i in range(1, assets + 1)]
    data.budget(3)
    yield from (f"var x{i} in [0, 30]" for i in range(1, assets + 1))
    yield "maximise " + added(f"{returns[i - 1]}*x{i}" for i in range(1, assets + 1))
    yield "row all: " + added(f"x{i}" for i in range(1, assets + 1)) + " <= 100"
    yield "row some: " + added(f"{data.number(0.1, 0.9)}*x{i}" for i in range(1, assets + 1, 2)) + f" <= {data.number(0.9, 0.99)}"


def reservoir(data, months):
    """Releases that know the inflow of the month before"""
    inflows = [data.off(f"z{t}", (0.2, 0.4), (0.02, 0.1)) for t in range(1, months + 1)]
    data.budget(2)
    yield f"var u1 in [0, {data.number(0.4, 0.6)}]"
    yield from (f"adaptive u{t}(z{t - 1}) in [0, {data.number(0.4, 0.6)}]" for t in range(2, months + 1))
    yield "maximise " + added(f"{data.number(0.1, 0.9)}*u{t}" for t in range(1, months + 1))
    start, low, high = data.number(0.4, 0.6), data.number(0.1, 0.2), data.number(0.9, 0.99)
    for t in range(1, months + 1):
        level = f"{start} + {added(inflows[:t])}" + "".join(f" - u{s}" for s in range(1, t + 1))
        yield f"row low{t}: {level} >= {low}"
        yield f"row high{t}: {level} <= {high}"


def crash(data, tasks):
    """Tasks in a row that may be late, and be hurried when it is known how late the one before was"""
    late = [data.off(f"g{t}", (0.2, 0.4), (0.05, 0.1)) for t in range(1, tasks + 1)]
    data.budget(1)
    yield from (f"adaptive h{t}(g{t - 1}) in [0, {data.number(0.05, 0.15)}]" for t in range(2, tasks + 1))
    yield from (f"adaptive e{t}({', '.join(f'g{s}' for s in range(1, t + 1))})" for t in range(1, tasks + 1))
    yield "minimise " + added([f"{data.number(0.1, 0.9)}*h{t}" for t in range(2, tasks + 1)] + [f"1/10*e{tasks}"])
    yield f"row e1_: e1 >= {late[0]}"
    for t in range(2, tasks + 1):
        yield f"row e{t}_: e{t} >= e{t - 1} + {late[t - 1]} - h{t}"


FAMILIES = {
    "stock": (stock, [(2,), (4,), (6,)]), "dispatch": (dispatch, [(1,), (3,)]), "transport": (transport, [(2, 3), (3, 5)]),
    "mix": (mix, [(4, 3), (8, 5), (12, 8)]), "staff": (staff, [(3,), (7,)]), "portfolio": (portfolio, [(5,), (10,), (16,)]),
    "reservoir": (reservoir, [(4,), (8,)]), "crash": (crash, [(5,), (8,)]),
}


def models(seeds, digits, only, kept):
    """The name of each model, what it counts for, and its text"""
    for family, (make, sizes) in FAMILIES.items():
        for size in sizes if not only or family in only else []:
            for style in "sn":
                for seed in range(seeds):
                    data = Data(f"{family} {size} {seed}", digits, style, kept)
                    body = list(make(data, *size))
                    name = "_".join([family, *map(str, size), digits + style, str(seed)])
                    yield name, f"{digits} {style}", "\n".join(data.lines + body) + "\n"


def run(words, limit):
    """The exit status and the output, or None where the processor's limit is passed; and the processor time"""
    with tempfile.TemporaryFile() as out:
        actions = [(os.POSIX_SPAWN_DUP2, out.fileno(), 1)]
        process = os.posix_spawn(words[0], words, {}, file_actions=actions)
        resource.prlimit(process, resource.RLIMIT_CPU, (limit, limit + 1))
        _, status, used = os.wait4(process, 0)
        out.seek(0)
        code = os.waitstatus_to_exitcode(status)
        return None if code < 0 else code, out.read().decode(), used.ru_utime + used.ru_stime


def answer_of(certificate):
    """The status that a certificate is of, and the value of an optimum"""
    head, *lines = certificate.splitlines()
    return " ".join([head.removeprefix("certificate "), *(it for it in lines if it.startswith("value "))])


def tried(robust, route, bits, path, limit):
    """What becomes of a model: solved, and whether its certificate is accepted; refused; or ended. And what it printed of
    that: a status, or the first line of a refusal; and the time of proving"""
    status, out, took = run([robust, "prove", path, "--route", route, "--bits", bits], limit)
    if status not in (0, 10, 11):
        said = out.partition("\n")[0]
        return ["refused" if status == 25 else "ended" if status is None else f"status {status}"], said, took
    certificate = path + ".cert"
    pathlib.Path(certificate).write_text(out)
    checked, said, _ = run([robust, "check", path, certificate, "--bits", bits], limit)
    if checked != 0:
        print(f"{pathlib.Path(path).stem}, {route}: check says {said.strip()}", file=sys.stderr)
    return ["solved"] + ["accepted"] * (checked == 0), answer_of(out), took


class Tally:
    """What became of some models at one build and route"""

    def __init__(self):
        self.models, self.found, self.seconds = 0, collections.Counter(), 0

    def add(self, kinds, took):
        self.models += 1
        self.found.update(kinds)
        self.seconds += took

    def line(self, head):
        others = sum(self.found.values()) - sum(self.found[it] for it in COLUMNS)
        counts = " | ".join(str(self.found[it]) for it in COLUMNS)
        return f"| {head} | {self.models} | {counts} | {others} | {self.seconds:.1f} |"


def main():
    parser = argparse.ArgumentParser(description=__doc__.splitlines()[0])
    parser.add_argument("--robust", action="append", help="a build, as NAME=PATH; it may be given several times")
    parser.add_argument("--seeds", type=int, default=3, help="models of each family, size and style (3)")
    parser.add_argument("--limit", type=int, default=60, help="the processor's seconds after which a run is ended (60)")
    parser.add_argument("--only", action="append", help="this family alone; it may be given several times")
    parser.add_argument("--digits", action="append", choices=DIGITS, help="these data alone; it may be given several times")
    parser.add_argument("--route", action="append", choices=("dual", "cuts"), help="this route alone")
    parser.add_argument("--kept", type=int, default=9, help="how many of their digits deviations keep (all)")
    parser.add_argument("--bits", default="62", help="the width that a model is proved and checked at (62)")
    parser.add_argument("--each", type=argparse.FileType("w"), help="a file that gets a line for each model, build and route")
    parser.add_argument("--write", help="write the models into this folder, and solve none")
    options = parser.parse_args()
    builds = dict(it.split("=", 1) for it in options.robust or [f"robust={TOP / 'crates/robust/out/robust'}"])
    drawn = [it for digits in options.digits or DIGITS for it in models(options.seeds, digits, options.only, options.kept)]
    if options.write:
        os.makedirs(options.write, exist_ok=True)
        for name, _, text in drawn:
            pathlib.Path(options.write, name + ".rob").write_text(text)
        return 0
    ways = [(build, route) for build in builds for route in options.route or ("dual", "cuts")]
    print("| digits, style | build, route | models | " + " | ".join(COLUMNS) + " | others | seconds |")
    print("|---|---|" + "---|" * (len(COLUMNS) + 3))
    differ, totals = 0, collections.defaultdict(Tally)
    with tempfile.TemporaryDirectory() as folder:
        for column in dict.fromkeys(it[1] for it in drawn):
            tallies = collections.defaultdict(Tally)
            for name, _, text in (it for it in drawn if it[1] == column):
                path = os.path.join(folder, name + ".rob")
                pathlib.Path(path).write_text(text)
                answers = set()
                for build, route in ways:
                    kinds, said, took = tried(builds[build], route, options.bits, path, options.limit)
                    tallies[build, route].add(kinds, took)
                    totals[build, route].add(kinds, took)
                    if kinds[0] == "solved":
                        answers.add(said)
                    if options.each:
                        print(name, build, route, "+".join(kinds), f"{took:.3f}", said, sep="\t", file=options.each, flush=True)
                if len(answers) > 1:
                    differ += 1
                    print(f"{name}: the answers are not one: {answers}", file=sys.stderr)
            for build, route in ways:
                print(tallies[build, route].line(f"{column} | {build}, {route}"), flush=True)
    for build, route in ways:
        print(totals[build, route].line(f"all | {build}, {route}"))
    return 1 if differ else 0


if __name__ == "__main__":
    sys.exit(main())
