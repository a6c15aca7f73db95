#!/usr/bin/env python3
"""Want of memory: each allocation is refused, in a run of its own alone, and in another with all behind it.

    python3 tests/hostile/memory.py crates/robust/out/robust

Each run has to end with its answer, or with exit code 40 and `fault: memory`; or with 40 and nothing, where the words
can't be gathered. It takes a C compiler: a library of a few lines stands in front of the C library's `malloc`.
"""
import collections
import os
import pathlib
import subprocess
import sys
import tempfile

REFUSING = r"""
#include <stdlib.h>
#include <stdio.h>
void *__libc_malloc(size_t), *__libc_calloc(size_t, size_t), *__libc_realloc(void *, size_t);
static long calls, first, last;
__attribute__((constructor)) static void begin(void) {
  const char *range = getenv("REFUSED");
  if (range) sscanf(range, "%ld %ld", &first, &last);
}
__attribute__((destructor)) static void end(void) {
  const char *name = getenv("COUNTED");
  long count = calls;
  FILE *file = name ? fopen(name, "w") : NULL;
  if (file) { fprintf(file, "%ld", count); fclose(file); }
}
static int refused(void) { calls++; return first <= calls && calls <= last; }
void *malloc(size_t size) { return refused() ? NULL : __libc_malloc(size); }
void *calloc(size_t count, size_t size) { return refused() ? NULL : __libc_calloc(count, size); }
void *realloc(void *old, size_t size) { return refused() ? NULL : __libc_realloc(old, size); }
"""
STOCK = ("uncertain d1 in [8, 12]\nuncertain d2 in [8, 12]\nbudget 1: d1 at 10 by 2, d2 at 10 by 2\nvar x\n"
         "adaptive y(d1) >= 0\nminimise 2*x + 2*y - d1\nrow now: x >= d1\nrow all: x + y >= d1 + d2\n")
ONE = "uncertain d in [8, 12]\nvar x\nminimise x\nrow need: x >= d\n"
PROOF = ("certificate optimal\nvalue 12\nscale 1\ninside d 8\nplan x 12\ncover need d.upper 1\n"
         "item objective 1 1\nat d 12\nitem need 1 1\nat d 12\nend\n")
TRUCKS = "uncertain d in [8, 13]\nvar x in [0, 10]\nminimise x\nrow need: 2*x >= d\n"
# solved over deep rows: the counterpart, and by cuts a search
DEEP = ("uncertain p >= 0\nuncertain q >= 0\nset 3000000021*p + 5000000029*q <= 8000000050\n"
        "set 2000000014*p + 1000000009*q <= 3000000023\nvar x\nminimise x\n"
        "row need: x >= 5000000035*p + 6000000038*q\n")
FILES = {"stock.rob": STOCK, "one.rob": ONE, "one.cert": PROOF, "some.csv": "d\n9\n12\n13\n", "trucks.rob": TRUCKS,
         "deep.rob": DEEP}
CALLS = ["solve stock.rob", "solve stock.rob --route cuts", "check one.rob one.cert",
         "replay one.rob one.cert some.csv", "whole trucks.rob x", "worst one.rob one.cert need",
         "sweep stock.rob 1 0,1", "cells one.rob d=10", "rows stock.rob", "text 3", "solve deep.rob",
         "solve deep.rob --route cuts"]

# texts of version 2: one that reads, and one with a name that is too long
INDEXED = ("model 2\nuncertain d[i] in [8, 12] for i = 1 to 2\nbudget 1: d[i] at 10 by 2 for i = 1 to 2\nvar x\n"
           "adaptive y[t](d[i] for i = 1 to t - 1, j = i to 1) >= 0 for t = 2 to 2\n")
FILES["weeks.rob"] = INDEXED + ("minimise 2*x + 2*y[2] - d[1]\nrow now: x >= d[1]\n"
                                "row all: x + y[2] >= sum(i = 1 to 2: d[i])\n")
FILES["long.rob"] = INDEXED + "var " + "x" * 30 + "[i, 10 - i] for i = 8 to 10\n"
CALLS += ["rows weeks.rob", "rows long.rob"]


class Trial:
    def __init__(self, program, library):
        self.program, self.library = program, library

    def run(self, words, first=0, last=0):
        """The exit code and the output, where the allocations from the first to the last number are refused."""
        how = {"LD_PRELOAD": self.library, "REFUSED": f"{first} {last}", **({} if first else {"COUNTED": "count"})}
        done = subprocess.run([self.program, *words.split()], env=how, capture_output=True, timeout=300)
        return done.returncode, done.stdout, done.stderr

    def tried(self, words):
        """Refuses each allocation of a call: how many there are, how the runs ended, and what is wrong."""
        answer = self.run(words)
        count = int(pathlib.Path("count").read_text())
        allowed = {answer: "with the answer", (40, b"", b""): "silent", (40, b"fault: memory\n", b""): "with the line"}
        ends, wrong = collections.Counter(), []
        for number in range(1, count + 1):
            for last in (number, 1 << 60):
                came = self.run(words, number, last)
                ends[allowed.get(came, "wrong")] += 1
                if came not in allowed:
                    wrong.append((number, last == number, came))
        return count, ends, wrong


def main():
    program = str(pathlib.Path(sys.argv[1]).resolve())
    found = 0
    with tempfile.TemporaryDirectory() as folder:
        os.chdir(folder)
        pathlib.Path("refusing.c").write_text(REFUSING)
        subprocess.run(["cc", "-shared", "-fPIC", "-O1", "-fno-builtin", "-o", "refusing.so", "refusing.c"], check=True)
        for name, text in FILES.items():
            pathlib.Path(name).write_text(text)
        trial = Trial(program, f"{folder}/refusing.so")
        for words in CALLS:
            count, ends, wrong = trial.tried(words)
            print(f"{words}: {count} allocations; runs: " + ", ".join(f"{runs} {end}" for end, runs in ends.items()))
            for number, alone, came in wrong[:5]:
                print(f"  allocation {number}{'' if alone else ' and all behind it'}: {came}")
            found += len(wrong)
        os.chdir("/")
    return 1 if found else 0


if __name__ == "__main__":
    sys.exit(main())
