#!/usr/bin/env python3
"""Times `robust solve` on the models of bench/models and examples and, in the same run, each other exact solver that
the machine has on the robust counterpart of the same models as a linear program (counterpart.py). It prints a table in
Markdown, and ends with 1 where an answer isn't the one that is kept beside the model.

    python3 bench/run.py                                           # crates/robust/out/robust
    python3 bench/run.py --robust first=PATH --robust second=PATH       # two builds beside each other
    python3 bench/run.py --routes --check                           # each route, and the check of its certificate
    python3 bench/run.py --runs 1 --only lot08 --only mix          # a short look
    python3 bench/run.py --programs                                # and the two bench programs, in a table below
"""
import argparse
import datetime
import hashlib
import os
import pathlib
import re
import resource
import shutil
import subprocess
import sys
import tempfile
from fractions import Fraction

import counterpart

TOP = pathlib.Path(__file__).resolve().parent.parent
FOLDERS = ("bench/models", "examples")
TIME = "/usr/bin/time"
# of each bench program the words of its runs: size and kind; how often, and the case
PROGRAMS = {
    "rob_simplex_bench": [(400, 0), (1000, 0), (1000, 1), (1000, 2), (250, 3), (1000, 3)],
    "rob_rows_bench": [(10000, case) for case in range(6)],
}
OVER = "over"


# ---- the answer that a tool's output tells: the optimal value, or `infeasible` or `unbounded`, or `?`

def answer_of_robust(text):
    word, *value = (text.splitlines() or ["?"])[0].split()
    return Fraction(value[0]) if word == "optimal" else word


def answer_of_check(text):
    return answer_of_robust(text.removeprefix("accepted "))


def answer_of_esolver(text):
    if found := re.search(r"^\s*Value = (\S+)", text, re.MULTILINE):
        return Fraction(found[1])
    return next((word for word in ("infeasible", "unbounded") if word in text.lower()), "?")


def answer_of_glpsol(text):
    for word, status in (("NO FEASIBLE", "infeasible"), ("UNBOUNDED", "unbounded")):
        if word in text:
            return status
    values = re.findall(r"objval = +(\S+)", text)
    return float(values[-1]) if "OPTIMAL SOLUTION FOUND" in text and values else "?"


def answer_of_z3(text):
    if "unsat" in text:
        return "infeasible"
    told = re.search(r"\(tau (.*)\)", text)
    if not told or "oo" in told[1]:
        return "unbounded" if told else "?"
    above, below = (re.findall(r"[\d.]+", told[1]) + ["1"])[:2]
    return Fraction(above) / Fraction(below) * (-1 if "-" in told[1] else 1)


def agrees(found, kept):
    """Whether it is the kept answer. glpsol tells its value with 15 digits."""
    if isinstance(found, float) and isinstance(kept, Fraction):
        return abs(found - float(kept)) <= 1e-9 * max(1, abs(float(kept)))
    return found == kept


# ---- the tools

class Tool:
    """A program, the words that it is run with, how its output is read, and which version it is; and the ending of the
    file beside a model that has its whole output, where one has."""

    def __init__(self, name, words, answer, version, output=None):
        self.name, self.words, self.answer, self.version, self.output = name, words, answer, version, output

    def command(self, files):
        """The words, with the files' names in the places of MODEL, CERT, LP, SMT and ANSWER"""
        return [files.get(word, word) for word in self.words]

    def fault(self, text, model, kept):
        """What is wrong with its output for a model whose answer is kept; None where nothing is"""
        found = self.answer(text)
        if not agrees(found, kept):
            return f"{self.name} says {found} of {model}; kept: {kept}"
        if self.output and text != pathlib.Path(model).with_suffix(self.output).read_text():
            return f"{self.name} prints of {model} another text than its file {self.output} has"
        return None


def first_line(*words):
    """The first line with a digit that a command prints"""
    done = subprocess.run(words, stdout=subprocess.PIPE, stderr=subprocess.STDOUT, text=True)
    return next((line for line in done.stdout.splitlines() if re.search(r"\d", line)), "?")


def build_of(path):
    """Which build of robust this is: the beginning of its SHA-256, as it knows no version"""
    return "SHA-256 " + hashlib.sha256(pathlib.Path(path).read_bytes()).hexdigest()[:12]


# of each route of `solve` and `prove`: how a column is called that has it, and the ending of the file of its output
ROUTES = {"dual": ("", ".out"), "cuts": (" by cuts", ".cuts")}


def robust_tools(options):
    """The builds of robust, by the default route or by each, and the check of what the last one proves by these"""
    routes = ROUTES if options.routes else ["dual"]
    for name, path in options.robust:
        for route in routes:
            called, output = ROUTES[route]
            line = [path, "solve", "MODEL", "--route", route]
            yield Tool(name + called, line, answer_of_robust, build_of(path), output)
    name, path = options.robust[-1]
    for route in routes if options.check else []:
        called, _ = ROUTES[route]
        line = [path, "check", "MODEL", "CERT " + route]
        yield Tool("check" + called, line, answer_of_check, f"of the certificate that {name} proves{called}")


def tools(options):
    """The builds of robust and each other solver that is on the PATH"""
    yield from robust_tools(options)
    for words, answer, version in (
        (["esolver", "-L", "-O", "ANSWER", "LP"], answer_of_esolver, ["esolver", "-v"]),
        (["glpsol", "--exact", "--lp", "LP"], answer_of_glpsol, ["glpsol", "--version"]),
        (["z3", "SMT"], answer_of_z3, ["z3", "--version"]),
    ):
        if shutil.which(words[0]):
            name = "glpsol --exact" if words[0] == "glpsol" else words[0]
            yield Tool(name, words, answer, first_line(*version))
        else:
            print(f"{words[0]} is not on the PATH: no column", file=sys.stderr)


# ---- one run

def processor_seconds(command, files, limit):
    """User and system seconds, and the output, of a command; `over` where it takes more than the limit. Both together,
    since their shares of a run of a few milliseconds are the kernel's guess."""
    pathlib.Path(files["ANSWER"]).write_text("")
    writing = os.O_WRONLY | os.O_CREAT | os.O_TRUNC
    pid = os.posix_spawnp(command[0], command, os.environ, file_actions=[
        (os.POSIX_SPAWN_OPEN, 0, os.devnull, os.O_RDONLY, 0),
        (os.POSIX_SPAWN_OPEN, 1, files["OUTPUT"], writing, 0o600),
        (os.POSIX_SPAWN_DUP2, 1, 2)])
    resource.prlimit(pid, resource.RLIMIT_CPU, (limit, limit))
    _, status, usage = os.wait4(pid, 0)
    seconds = usage.ru_utime + usage.ru_stime
    if os.WIFSIGNALED(status) and seconds > limit - 1:
        return OVER, ""
    return seconds, "".join(pathlib.Path(files[name]).read_text() for name in ("OUTPUT", "ANSWER"))


def peak_megabytes(command, files):
    """The greatest memory of a command, in a run of its own under `time`: what Python starts, counts Python's too"""
    words = [TIME, "-q", "-f", "%M", "-o", files["MEMORY"], *command]
    subprocess.run(words, stdin=subprocess.DEVNULL, stdout=subprocess.DEVNULL, stderr=subprocess.DEVNULL)
    return int(pathlib.Path(files["MEMORY"]).read_text().split()[-1]) / 1024


def measure(tool_list, files, kept, runs, limit):
    """For each tool its cell of the table, and whether each answer was the kept one. The tools take turns, so that what
    else the machine does falls on all of them."""
    best, right = {}, True
    for _ in range(runs):
        for tool in tool_list:
            if best.get(tool) == OVER:
                continue
            seconds, text = processor_seconds(tool.command(files), files, limit)
            best[tool] = seconds if seconds == OVER else min(seconds, best.get(tool, seconds))
            fault = None if seconds == OVER else tool.fault(text, files["MODEL"], kept)
            if fault:
                print(fault, file=sys.stderr)
                right = False
    cells = []
    for tool in tool_list:
        memory = None if best[tool] == OVER else peak_megabytes(tool.command(files), files)
        cells.append(f"over {limit}" if memory is None else f"{shown(best[tool])}, {memory:.0f}")
    return cells, right


def shown(seconds):
    return f"{seconds:.3f}" if seconds < 1 else f"{seconds:.2f}" if seconds < 10 else f"{seconds:.1f}"


# ---- the table

def models(only):
    """The models, with the name that each has in the table: those whose answer by both routes is kept beside them, so
    none that is solved in whole numbers"""
    for folder in FOLDERS:
        for path in sorted((TOP / folder).glob("*.rob")):
            name = path.stem if folder == FOLDERS[0] else f"{folder}/{path.stem}"
            if path.with_suffix(".cuts").exists() and (not only or name in only):
                yield name, path


def rounds_of(path):
    """How many rounds the kept run by cuts has"""
    return re.search(r"^rounds (\d+)$", path.with_suffix(".cuts").read_text(), re.MULTILINE)[1]


def printed(robust, *words):
    return subprocess.run([robust, *map(str, words)], capture_output=True, text=True).stdout


def write_files(path, words, folder):
    """Writes the counterpart for each reader, and certificates. Answers the names of a run's files, and its size."""
    robust = words.robust[-1][1]
    rows = printed(robust, "rows", path).splitlines()
    program = counterpart.counterpart(*counterpart.read_rows(rows), words.short)
    files = {word: folder / word.lower() for word in ("LP", "SMT", "ANSWER", "OUTPUT", "MEMORY")}
    files |= {"CERT " + route: folder / f"cert.{route}" for route in ROUTES}
    files["LP"].write_text("\n".join(counterpart.as_lp(program)) + "\n")
    files["SMT"].write_text("\n".join(counterpart.as_smt(program)) + "\n")
    for route in ROUTES if words.check else []:
        files["CERT " + route].write_text(printed(robust, "prove", path, "--route", route))
    files = {word: str(file) for word, file in files.items()} | {"MODEL": str(path)}
    return files, f"{len(program.rows)} x {len(program.columns())}"


def program_lines(runs, limit, folder):
    """A line of the second table for each run of a bench program that is built. Who isn't has none."""
    for program, calls in PROGRAMS.items():
        path = TOP / "crates" / program / "out" / program
        if not path.exists():
            print(f"{path} isn't built: no lines", file=sys.stderr)
            continue
        files = {word: str(folder / word.lower()) for word in ("ANSWER", "OUTPUT", "MEMORY")}
        for call in calls:
            command = [str(path), *map(str, call)]
            found = [processor_seconds(command, files, limit) for _ in range(runs)]
            over = any(seconds == OVER for seconds, _ in found)
            cell = f"over {limit}" if over else f"{shown(min(found)[0])}, {peak_megabytes(command, files):.0f}"
            told = "; ".join(found[-1][1].splitlines()) if program == "rob_simplex_bench" else ""
            yield [program, " ".join(map(str, call)), told, cell]


def print_table(heads, lines):
    for line in (heads, ["---"] * len(heads), *lines):
        print("|", " | ".join(line), "|")
    print()


def processor():
    lines = pathlib.Path("/proc/cpuinfo").read_text().splitlines()
    return next((line.split(":")[1].strip() for line in lines if line.startswith("model name")), "unknown processor")


def load():
    return f"{os.getloadavg()[0]:.1f}"


def words_of():
    parse = argparse.ArgumentParser(description=__doc__.split("\n\n")[0])
    add = parse.add_argument
    add("--robust", action="append", metavar="[NAME=]PATH", help="a build of robust; several may be given")
    add("--runs", type=int, default=3, help="how often each is run; the least time counts")
    add("--limit", type=int, default=60, help="the processor seconds at which a run is ended")
    add("--only", action="append", metavar="MODEL", help="a name of the table; several may be given")
    add("--routes", action="store_true", help="a column for each route, and one for the rounds by cuts")
    add("--check", action="store_true", help="a column for the check of the last build's certificate")
    add("--programs", action="store_true", help="a second table, of the bench programs")
    add("--short", action="store_true", help="for the others, forms without parameters are plain rows")
    words = parse.parse_args()
    given = [word.rpartition("=")[::2] for word in words.robust or [str(TOP / "crates/robust/out/robust")]]
    words.robust = [(name or "robust", path) for name, path in given]
    return words


def main():
    words = words_of()
    tool_list = list(tools(words))
    before, right, lines = load(), True, []
    with tempfile.TemporaryDirectory() as folder:
        for name, path in models(words.only):
            files, size = write_files(path, words, pathlib.Path(folder))
            kept = answer_of_robust(path.with_suffix(".out").read_text())
            cells, agreed = measure(tool_list, files, kept, words.runs, words.limit)
            right = right and agreed
            rounds = [rounds_of(path)] if words.routes else []
            lines.append([name, str(kept), size, *rounds, *cells])
            print(*lines[-1], sep="  ", file=sys.stderr, flush=True)
        programs = list(program_lines(words.runs, words.limit, pathlib.Path(folder))) if words.programs else []
    machine = f"{processor()}, {os.cpu_count()} processors"
    print(f"{datetime.date.today()}, {machine}, load {before} at the start and {load()} at the end.")
    print(f"Processor seconds, the least of {words.runs} runs; peak megabytes.\n")
    heads = ["model", "value", "rows x columns", *["rounds"] * words.routes, *(tool.name for tool in tool_list)]
    print_table(heads, lines)
    for tool in tool_list:
        print(f"- {tool.name}: {tool.version}")
    if programs:
        print()
        print_table(["program", "words", "prints", "seconds, megabytes"], programs)
    return 0 if right else 1


if __name__ == "__main__":
    sys.exit(main())
