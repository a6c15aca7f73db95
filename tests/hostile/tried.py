#!/usr/bin/env python3
"""Want of memory as the toolchain makes it: `rt try --fail-alloc N` refuses the allocation of number N of a call.

    python3 tests/hostile/tried.py --first 1 --last 3                     # of each call the first three allocations
    python3 tests/hostile/tried.py --first 20 --last 20 --only "check one.rob one.cert"

Nothing has to be built or proved before. Each run has to end with the call's answer, or with exit code 40 and `fault:
memory`; or with 40 and nothing, where the words can't be gathered. `rt try` makes the program anew for each run, with
checks of every access to memory, which takes minutes; memory.py refuses each allocation of the built program at once.
"""
import argparse
import pathlib
import subprocess
import sys
import tempfile

from memory import CALLS, FILES

TOP = pathlib.Path(__file__).resolve().parent.parent.parent
FOLDER = TOP / "crates" / "robust"
# solve by both routes, check, replay, and a command with whole numbers
TRIED = CALLS[:5]


class Try:
    """Runs the program by `rt try`, over the files of a folder."""

    def __init__(self, folder):
        self.folder = folder

    def run(self, words, number=None):
        """The exit code and the output, where the allocation of that number is refused, or none; what rt said of it."""
        given = [word for name in FILES for word in ("--data", f"{name}={self.folder}/{name}")]
        refused = ["--fail-alloc", str(number)] if number else []
        line = ["rt", "try", "--seconds", "300", *refused, *given, "--", *words.split()]
        done = subprocess.run(line, cwd=FOLDER, stdin=subprocess.DEVNULL, capture_output=True)
        return (done.returncode, done.stdout), done.stderr.decode(errors="replace")


def tried(trial, words, numbers):
    """Tries these allocations of a call: how many runs ended otherwise than they may."""
    answer, said = trial.run(words)
    allowed = {answer: "the answer", (40, b""): "silent", (40, b"fault: memory\n"): "fault: memory"}
    print(f"{words}: exit code {answer[0]}, {answer[1][:40]!r}", flush=True)
    wrong = 0
    for number in numbers:
        came, said = trial.run(words, number)
        print(f"  allocation {number}: {allowed.get(came, f'WRONG: {came}')}", flush=True)
        if came not in allowed:
            print(said, file=sys.stderr)
            wrong += 1
    return wrong


def main():
    parser = argparse.ArgumentParser(description=__doc__.splitlines()[0])
    parser.add_argument("--first", type=int, default=1, help="the first allocation that is refused")
    parser.add_argument("--last", type=int, required=True, help="the last one; each is refused alone")
    parser.add_argument("--only", action="append", help="this call alone; it may be given several times")
    options = parser.parse_args()
    wrong = 0
    with tempfile.TemporaryDirectory() as folder:
        for name, text in FILES.items():
            pathlib.Path(folder, name).write_text(text)
        trial = Try(folder)
        for words in options.only or TRIED:
            wrong += tried(trial, words, range(options.first, options.last + 1))
    return 1 if wrong else 0


if __name__ == "__main__":
    sys.exit(main())
