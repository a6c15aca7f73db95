"""What has to follow from a run's answer: wherever a status is printed its certificate is accepted, the two routes
agree, and a printed text is read again."""
import re

from runner import bits_of
from texts import UNKNOWN, joint_parameters, plain_of, plain_text

STATUSES = (0, 10, 11)
TOO_LONG = 22
BROKEN = 23
EMPTY = 24
WIDE = 25
SAID = {0: b"optimal", 10: b"infeasible", 11: b"unbounded"}
TOKEN = re.compile(rb"\w+|[<>]=|[-+*/()\[\],:=]|\n")


class Follower:
    """Makes the further runs that an answer calls for, and keeps what doesn't follow."""

    def __init__(self, runner):
        self.runner = runner
        self.by_command = {
            "rows": self.cleared, "solve": self.solved, "prove": self.proved, "whole": self.branched,
            "tree": self.grown, "check": self.checked, "checktree": self.tree_checked, "sweep": self.swept,
            "cells": self.split, "narrow": self.narrowed, "replay": self.replayed, "worst": self.searched,
            "text": self.generated, "gen": self.compared,
        }

    def after(self, run):
        follow = self.by_command.get(run.words[0] if run.words else "")
        if follow and run.code in (*STATUSES, WIDE, EMPTY):
            follow(run)

    def again(self, kind, run, words, **files):
        """A further run over the files of a run, and others."""
        names = {name.replace("_", "."): text for name, text in files.items()}
        return self.runner.run(kind, words, {**run.files, **names})

    def wrong(self, kind, run, why):
        self.runner.keep(kind, run, why)

    def same_status(self, kind, run, other, what):
        """Two answers tell one status with one value, or one empty set, unless one names a wide number."""
        if WIDE in (run.code, other.code):
            return
        same = run.out == other.out if run.code == EMPTY else first_line(run) == first_line(other)
        if run.code != other.code or not same:
            self.wrong(kind, run, f"{run.out[:200]!r}, but {what} says {other.out[:200]!r}")

    # ---- models

    def cleared(self, run):
        """The rows of a text are those of its plain lines, where these are no larger than a text may be."""
        text, bits = run.files[run.words[1]], bits_of(run.words)
        if plain_of(text, bits) == UNKNOWN or b"model" not in text:
            return
        plain = plain_text(text, bits)
        rows = self.again("rows of plain lines", run, ["rows", "l.rob", *width(run)], l_rob=plain)
        if (rows.code, rows.out) != (run.code, run.out) and rows.code not in (TOO_LONG, BROKEN):
            self.wrong("rows of plain lines", run, f"{run.out[:200]!r}, and {rows.out[:200]!r} of the plain lines")

    def solved(self, run):
        """`prove` answers alike, its certificate is accepted, and the other route tells the same status."""
        proved = self.again("proof of an answer", run, ["prove", *run.words[1:]])
        if proved.code != run.code:
            self.wrong("proof of an answer", run, f"exit code {run.code}, but {proved.code} at prove")
        self.certified(proved, first_line(run))
        way = "--route=dual" if "--route=cuts" in run.words else "--route=cuts"
        other = self.again("other route", run, ["solve", run.words[1], way, *width(run)])
        self.same_status("other route", run, other, "the other route")

    def proved(self, run):
        self.certified(run, None)

    def certified(self, run, said):
        """The printed certificate of what was said is accepted, or a number of the check is wide."""
        if run.code not in STATUSES:
            return
        claim = said or claim_of(run.out)
        verdict = self.again("printed certificate", run, ["check", run.words[1], "c.cert", *width(run)], c_cert=run.out)
        if verdict.out != b"accepted " + claim + b"\n" and not verdict.out.startswith(b"too wide check "):
            self.wrong("printed certificate", verdict, f"of {claim!r}: {verdict.out!r}")

    def narrowed(self, run):
        """Of a narrow model the counterpart names no wide number."""
        if run.out.endswith(b"narrow yes\n"):
            solved = self.again("narrow model", run, ["solve", *run.words[1:]])
            if solved.code == WIDE:
                self.wrong("narrow model", solved, "a narrow model with a wide number")

    # ---- certificates

    def checked(self, run):
        """An accepted status is the model's."""
        if run.code == 0:
            solved = self.again("status of an accepted certificate", run, ["solve", run.words[1]])
            said = first_line(solved)
            if solved.code != WIDE and b"accepted " + said + b"\n" != run.out:
                self.wrong("status of an accepted certificate", run, f"{run.out!r}, but solve says {said!r}")

    def is_accepted(self, run):
        return self.again("certificate of a plan", run, ["check", *run.words[1:3], *width(run)]).code == 0

    def replayed(self, run):
        """Where the certificate is accepted, no inside line shows a slack below 0."""
        if run.code == 0 and self.is_accepted(run):
            for line in run.out.splitlines():
                if re.search(rb" objective \S+(?: \S+ \d\S*)* \S+ -", line):
                    self.wrong("table", run, f"a slack below 0: {line!r}")

    def searched(self, run):
        """The worst scenario is inside; where the certificate is accepted there is one, and its slack isn't below 0."""
        if run.code != 0:
            return
        names = joint_parameters(run.files["m.rob"], bits_of(run.words))
        if run.out.startswith(b"worst ") and names:
            numbers = dict(line.split()[1:] for line in run.out.splitlines()[1:])
            table = b",".join(names) + b"\n" + b",".join(numbers.get(name, b"0") for name in names) + b"\n"
            words = ["replay", *run.words[1:3], "s.csv", *width(run)]
            replayed = self.again("worst scenario", run, words, s_csv=table)
            if replayed.code != WIDE and not replayed.out.startswith(b"2 inside "):
                self.wrong("worst scenario", replayed, f"not inside: {replayed.out!r}")
        if not re.match(rb"worst \S+ \d", run.out) and self.is_accepted(run):
            self.wrong("worst case", run, f"of an accepted certificate: {first_line(run)!r}")

    # ---- whole numbers

    def branched(self, run):
        grown = self.again("tree of an answer", run, ["tree", *run.words[1:]])
        if grown.code != run.code:
            self.wrong("tree of an answer", run, f"exit code {run.code}, but {grown.code} at tree")
        self.accepted_tree(grown, first_line(run))

    def grown(self, run):
        self.accepted_tree(run, first_line(run).removeprefix(b"tree "))

    def accepted_tree(self, run, claim):
        """The printed tree is accepted, or a number of its check is wide."""
        if run.code not in STATUSES:
            return
        model, names, *options = run.words[1:]
        verdict = self.again("printed tree", run, ["checktree", model, names, "t.tree", *options], t_tree=run.out)
        if verdict.out != b"accepted " + claim + b"\n" and not verdict.out.startswith(b"too wide check "):
            self.wrong("printed tree", verdict, f"of {claim!r}: {verdict.out!r}")

    def tree_checked(self, run):
        """An accepted status is the model's over plans with whole numbers."""
        if run.code == 0:
            whole = self.again("status of an accepted tree", run, ["whole", *run.words[1:3]])
            if whole.code != WIDE and b"accepted " + first_line(whole) + b"\n" != run.out:
                self.wrong("status of an accepted tree", run, f"{run.out!r}, but whole says {first_line(whole)!r}")

    # ---- printed models

    def swept(self, run):
        """Each line of a sweep is the answer for the text that `sweeptext` prints."""
        if run.code != 0:
            return
        model, statement, _, *options = run.words[1:]
        for line in run.out.splitlines()[:3]:
            _, limit, answer = line.split(b" ", 2)
            text = self.again("text of a limit", run, ["sweeptext", model, statement, limit.decode(), *options])
            solved = self.read_again("model of a limit", run, text.out, options)
            if solved and first_line(solved) != answer:
                self.wrong("model of a limit", solved, f"{answer!r} in the sweep, here {first_line(solved)!r}")

    def split(self, run):
        """The report of the cells is that of the text which `celltext` prints."""
        text = self.again("text of cells", run, ["celltext", *run.words[1:]])
        solved = self.read_again("model of cells", run, text.out, run.words[3:])
        report = run.out.partition(b"\n")[2] if run.code in STATUSES else run.out
        if solved and (solved.code, solved.out) != (run.code, report):
            self.wrong("model of cells", solved, f"{report!r} of the cells, here {solved.out!r}")

    def read_again(self, kind, run, text, options):
        """What `solve` answers of a printed model; None where it is too large for a model's file, as it has to say."""
        solved = self.again(kind, run, ["solve", "l.rob", *options], l_rob=text)
        if len(text) > 65_536 or len(TOKEN.findall(text)) > 20_000:
            if solved.code not in (TOO_LONG, BROKEN):
                self.wrong(kind, solved, f"{first_line(solved)!r} of a text that is too large")
            return None
        self.solved(solved)
        return solved

    def generated(self, run):
        """The model of a number has an optimum, by both routes."""
        if run.code == 0:
            solved = self.again("model of a number", run, ["solve", "l.rob"], l_rob=run.out)
            if solved.code != 0:
                self.wrong("model of a number", solved, f"exit code {solved.code}")
            self.solved(solved)

    def compared(self, run):
        """The line of each route is what `solve` says by it of the number's model."""
        text = self.again("model of a number", run, ["text", run.words[1]])
        told = b""
        for way in ("dual", "cuts"):
            solved = self.again("route of a number", run, ["solve", "l.rob", f"--route={way}", *width(run)],
                                l_rob=text.out)
            told += way.encode() + b" " + (solved.out if solved.code == WIDE else first_line(solved) + b"\n")
        if run.out.partition(b"\n")[2] != told:
            self.wrong("summary of a number", run, f"{run.out!r}, but solve says {told!r}")


def first_line(run):
    return run.out.split(b"\n", 1)[0]


def width(run):
    """The option on the width among a run's words, where it has one."""
    return [word for word in run.words if word.startswith("--bits=")]


def claim_of(certificate):
    """What a certificate claims, as `check` says it."""
    lines = certificate.splitlines()
    status = lines[0].removeprefix(b"certificate ")
    return status + b" " + lines[1].removeprefix(b"value ") if status == SAID[0] else status
