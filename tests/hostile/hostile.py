#!/usr/bin/env python3
"""Hostile use: many wrong inputs, and what must never come of one. README.md says what is asked of each run.

The same seed gives the same runs. What is found is kept in a folder, with the words to run it again.
"""
import argparse
import collections
import concurrent.futures
import os
import pathlib
import random
import sys
import tempfile

from changes import changed, changed_word
from every import EVERY
from follow import Follower
from runner import Runner
from seeds import BY_NAME, MODELS, OPEN, WORDS
from written import written

SIZE = 500      # the runs of a batch, which has a seed of its own
MEMORY = "/dev/shm"     # where there is such a folder the files of runs stand there: no disk is waited for


def width(rng):
    return rng.choice(([], [], [], ["--bits=8"], ["--bits=16"], ["--bits=32"]))


def route(rng):
    return rng.choice(([], ["--route=dual"], ["--route=cuts"], ["--route=cuts"]))


def model_words(rng, model):
    """Words of a command that reads a model and no other file."""
    command = rng.choice("rows narrow solve solve prove prove whole tree sweep sweeptext cells celltext".split())
    limit = rng.choice(model.limits.split(","))
    own = {"whole": [model.names], "tree": [model.names], "cells": [model.cuts], "celltext": [model.cuts],
           "sweep": [model.statement, model.limits], "sweeptext": [model.statement, limit]}.get(command, [])
    own = [changed_word(rng, word) if rng.randrange(6) == 0 else word for word in own]
    return [command, "m.rob", *own, *(route(rng) if command in ("solve", "prove") else []), *width(rng)]


def try_model(rng, runner):
    model = rng.choice(MODELS)
    text = changed(rng, model.text)
    return runner.run("changed model", model_words(rng, model), {"m.rob": text})


def try_written(rng, runner):
    command = rng.choice(("rows", "rows", "solve", "narrow"))
    return runner.run("written model", [command, "m.rob", *width(rng)], {"m.rob": written(rng)})


def try_words(rng, runner):
    """Changed own words over a model as it stands."""
    model = rng.choice(MODELS)
    words = model_words(rng, model)
    if len(words) > 2 and not words[2].startswith("-"):
        words[2:] = [changed_word(rng, word) if rng.randrange(2) else word for word in words[2:]]
    return runner.run("changed word", words, {"m.rob": model.text})


def try_line(rng, runner):
    """Any words; twice, since the same must come."""
    words = [rng.choice(WORDS) for _ in range(rng.randrange(6))]
    if rng.randrange(2):
        words.insert(0, model_words(rng, MODELS[0])[0])
    elif rng.randrange(4) == 0:
        words = [rng.choice(("text", "gen")), changed_word(rng, str(rng.randrange(2 ** 33))), *width(rng)]
    first = runner.run("any words", words, {"m.rob": MODELS[0].text})
    if runner.run("any words", words, first.files) != first:
        runner.keep("any words", first, "two runs differ")
    return first if words[:1] in (["text"], ["gen"]) else None


def proof(rng, runner, model):
    return runner.run("model", ["prove", "m.rob", *route(rng)], {"m.rob": model.text}).out


def try_certificate(rng, runner):
    model = rng.choice(MODELS)
    files = {"m.rob": model.text, "c.cert": changed(rng, proof(rng, runner, model))}
    words = rng.choice((["check", "m.rob", "c.cert"], ["worst", "m.rob", "c.cert", rng.choice(model.forms)]))
    return runner.run("changed certificate", [*words, *width(rng)], files)


def try_table(rng, runner):
    model = rng.choice([model for model in MODELS if model.scenarios])
    certificate = proof(rng, runner, model)
    if rng.randrange(3) == 0:
        certificate = changed(rng, certificate)
    files = {"m.rob": model.text, "c.cert": certificate, "s.csv": changed(rng, model.scenarios)}
    return runner.run("changed scenario file", ["replay", "m.rob", "c.cert", "s.csv", *width(rng)], files)


def try_worst(rng, runner):
    model = rng.choice(MODELS)
    form = rng.choice(model.forms)
    files = {"m.rob": model.text, "c.cert": proof(rng, runner, model)}
    words = ["worst", "m.rob", "c.cert", changed_word(rng, form) if rng.randrange(3) == 0 else form]
    return runner.run("worst case", [*words, *width(rng)], files)


def try_tree(rng, runner):
    model = BY_NAME[rng.choice(("trucks", "halves", "runaway", "bins", "empty"))]
    tree = runner.run("model", ["tree", "m.rob", model.names], {"m.rob": model.text}).out
    if model.name == "runaway" and rng.randrange(2):
        tree = OPEN
    files = {"m.rob": model.text, "t.tree": changed(rng, tree)}
    return runner.run("changed tree", ["checktree", "m.rob", model.names, "t.tree", *width(rng)], files)


# how often each is made, among these
TRIES = ((try_model,) * 8 + (try_written,) * 3 + (try_words,) * 3 + (try_line,) * 2 + (try_certificate,) * 3
         + (try_tree,) * 3 + (try_table, try_table, try_worst))


def in_folder(work, program, limit):
    """Does the work in a folder of its own: the counts, what was found, and the slowest run."""
    runner = Runner(program, limit)
    with tempfile.TemporaryDirectory(dir=MEMORY if os.path.isdir(MEMORY) else None) as folder:
        os.chdir(folder)
        work(runner, Follower(runner))
        os.chdir("/")
    return runner.counts, runner.found, runner.slowest


def batch(program, limit, seed):
    def work(runner, follower):
        rng = random.Random(seed)
        while runner.counts.total() < SIZE:
            run = rng.choice(TRIES)(rng, runner)
            if run:
                follower.after(run)
    return in_folder(work, program, limit)


def every(program, limit, number):
    return in_folder(EVERY[number], program, limit)


def keep(folder, number, found):
    kind, words, files, fault = found
    place = folder / f"{number:03}"
    place.mkdir(parents=True, exist_ok=True)
    for name, text in files.items():
        (place / name).write_bytes(text)
    (place / "words").write_bytes(b"\n".join(map(os.fsencode, words)) + f"\n# {kind}: {fault}\n".encode())


def report(counts, options, found, slowest):
    kinds = collections.defaultdict(collections.Counter)
    commands = collections.defaultdict(collections.Counter)
    for (kind, command, code), count in counts.items():
        kinds[kind][code] += count
        commands[command][code] += count
    for title, table in (("kind", kinds), ("command", commands)):
        for name, codes in sorted(table.items()):
            listed = ", ".join(f"{code}: {count}" for code, count in sorted(codes.items()))
            print(f"{title} {name}: {codes.total()} runs; {listed}")
    for number, one in enumerate(found[:options.most]):
        keep(pathlib.Path(options.found), number, one)
    print(f"slowest {slowest[0]:.3f} s: {' '.join(slowest[1])[:80]}")
    print(f"{counts.total()} runs, seed {options.seed}: {len(found)} found")


def arguments():
    parser = argparse.ArgumentParser(description=__doc__.splitlines()[0])
    parser.add_argument("program", help="the built program, as crates/robust/out/robust")
    parser.add_argument("--runs", type=int, default=100_000, help="how many runs on changed texts")
    parser.add_argument("--seed", type=int, default=1)
    parser.add_argument("--jobs", type=int, default=2)
    parser.add_argument("--limit", type=float, default=2.0, help="the processor's seconds that a run may take")
    parser.add_argument("--found", default="found", help="the folder for what is found")
    parser.add_argument("--most", type=int, default=200, help="how many finds are written at most")
    parser.add_argument("--short", action="store_true", help="leave out every prefix and every byte")
    return parser.parse_args()


def main():
    options = arguments()
    program = str(pathlib.Path(options.program).resolve())
    counts, found, slowest = collections.Counter(), [], (0, ())
    with concurrent.futures.ProcessPoolExecutor(options.jobs) as pool:
        seeds = [options.seed * 1_000_003 + number for number in range(-(-options.runs // SIZE))]
        futures = [pool.submit(batch, program, options.limit, seed) for seed in seeds]
        if not options.short:
            futures += [pool.submit(every, program, options.limit, number) for number in range(len(EVERY))]
        for future in futures:
            some, more, slow = future.result()
            counts += some
            found += more
            slowest = max(slowest, slow)
            print(f"{counts.total()} runs, {len(found)} found", file=sys.stderr, flush=True)
    report(counts, options, found, slowest)
    return 1 if found else 0


if __name__ == "__main__":
    sys.exit(main())
