#!/usr/bin/env python3
"""Holds what is kept as the answers to models, or what a program prints of them, against what the definitions say.

    python3 tests/definitions/compare.py                                   # the models of examples and bench/models
    python3 tests/definitions/compare.py --only mix --route cuts
    python3 tests/definitions/compare.py --robust crates/robust/out/robust MODEL ..

Prints a line for each model and route, and ends with 1 where a text differs.
"""
import argparse
import pathlib
import subprocess
import sys

from routes import Solver

TOP = pathlib.Path(__file__).resolve().parent.parent.parent
FOLDERS = ("examples", "bench/models")
KEPT = {"dual": ".out", "cuts": ".cuts"}
LARGEST = 5_000_000        # the places of a counterpart that are still worked out here, in minutes


def said(path, route, robust):
    """What the program prints, or else what is kept"""
    if robust:
        words = [robust, "solve", str(path), "--route", route]
        return subprocess.run(words, capture_output=True, text=True).stdout.splitlines()
    return path.with_suffix(KEPT[route]).read_text().splitlines()


def verdict(path, route, robust):
    solver = Solver(path.read_text())
    height, width = solver.size()
    if route == "dual" and height * width > LARGEST:
        return "too large to be worked out here"
    wanted = solver.by_cuts() if route == "cuts" else solver.by_counterpart()
    found = said(path, route, robust)
    if wanted == ["empty set"]:
        found = found[:1]
    return "same" if found == wanted else f"DIFFERS: {found[:1]}, and {wanted[:1]} by the definitions"


def main():
    parser = argparse.ArgumentParser(description=__doc__.splitlines()[0])
    parser.add_argument("models", nargs="*", type=pathlib.Path, help="files; else those whose answers are kept")
    parser.add_argument("--robust", help="the built program, whose answers are taken in the place of the kept ones")
    parser.add_argument("--only", action="append", help="this model alone; it may be given several times")
    parser.add_argument("--route", choices=KEPT, action="append", help="this route alone")
    options = parser.parse_args()
    kept = sorted(path.with_suffix(".rob") for folder in FOLDERS for path in (TOP / folder).glob("*.cuts"))
    differ = 0
    for path in options.models or kept:
        if options.only and path.stem not in options.only:
            continue
        for route in options.route or KEPT:
            found = verdict(path, route, options.robust)
            differ += found.startswith("DIFFERS")
            print(f"{path.stem}, {route}: {found}", flush=True)
    return 1 if differ else 0


if __name__ == "__main__":
    sys.exit(main())
