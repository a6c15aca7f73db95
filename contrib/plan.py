#!/usr/bin/env python3
"""Solves a model, has the answer checked by its certificate, and reads the plan: python3 plan.py ROBUST MODEL"""
import subprocess
import sys
import tempfile
from fractions import Fraction


def robust(*words):
    done = subprocess.run([sys.argv[1], *words], capture_output=True, text=True)
    if done.returncode != 0:
        sys.exit(f"{' '.join(words)}: exit code {done.returncode}, {done.stdout.strip()}")
    return done.stdout


model = sys.argv[2]
status, *plan = robust("solve", model).splitlines()
with tempfile.NamedTemporaryFile("w", suffix=".cert") as file:
    print(robust("prove", model), end="", file=file, flush=True)
    if robust("check", model, file.name) != f"accepted {status}\n":
        sys.exit(f"{model}: another answer was checked")
value = Fraction(status.split()[1])
print(f"worst case {value}, about {float(value):.4g}; accepted {status}")
for kind, name, *numbers in map(str.split, plan):
    if kind == "here":
        print(f"{name}: {float(Fraction(numbers[0])):.4g}")
