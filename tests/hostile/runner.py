"""Runs the program in the current folder, and says what is wrong with a run by itself."""
import collections
import os
import signal
import time

from answers import OWN, PATTERNS, is_command_line
from texts import UNKNOWN, fault_of

Run = collections.namedtuple("Run", "words files code out")
WAIT = 600          # seconds of the clock after which a run is ended, however busy the machine is
NO_TEXT = 41        # the exit code for words that are no text
UNREAD = (20, 21, 22, 30, 31, 40, NO_TEXT)      # those where no model is read


class Runner:
    """Runs the program, counts its runs, and keeps what is found."""

    def __init__(self, program, limit):
        self.program = program
        self.limit = limit
        self.counts = collections.Counter()
        self.found = []
        self.slowest = (0, ())

    def put(self, files):
        for name, text in files.items():
            with open(name, "wb") as file:
                file.write(text)

    def run(self, kind, words, files=None):
        """One run, with these files put before; what is wrong with it is kept."""
        files = files or {}
        self.put(files)
        code, out, errors, seconds = self.started(words)
        self.counts[kind, words[0] if words and words[0] in PATTERNS else "no command", code] += 1
        self.slowest = max(self.slowest, (seconds, tuple(map(str, words))[:4]))
        run = Run(words, files, code, out)
        for fault in self.faults(run, errors, seconds):
            self.keep(kind, run, fault)
        return run

    def keep(self, kind, run, fault):
        self.found.append((kind, run.words, run.files, fault))

    def started(self, words):
        """The exit code, or minus the signal; the output; standard error; the processor's seconds."""
        write = os.O_WRONLY | os.O_CREAT | os.O_TRUNC
        actions = [(os.POSIX_SPAWN_OPEN, 0, "/dev/null", os.O_RDONLY, 0),
                   (os.POSIX_SPAWN_OPEN, 1, ".out", write, 0o600), (os.POSIX_SPAWN_OPEN, 2, ".err", write, 0o600)]
        process = os.posix_spawn(self.program, [self.program, *words], {}, file_actions=actions)
        signal.signal(signal.SIGALRM, lambda number, frame: os.kill(process, signal.SIGKILL))
        signal.alarm(WAIT)
        _, status, used = os.wait4(process, 0)
        signal.alarm(0)
        with open(".out", "rb") as out, open(".err", "rb") as errors:
            return os.waitstatus_to_exitcode(status), out.read(), errors.read(), used.ru_utime + used.ru_stime

    def faults(self, run, errors, seconds):
        if errors:
            yield f"standard error has {errors[:200]!r}"
        if seconds > self.limit:
            yield f"{seconds:.2f} seconds"
        try:
            words = [os.fsencode(word).decode() for word in run.words]
        except UnicodeDecodeError:
            if (run.code, run.out) != (NO_TEXT, b""):
                yield f"words that are no text: exit code {run.code}"
            return
        if (run.code == 20) == is_command_line(words):
            yield f"exit code {run.code} for these words"
            return
        pattern = PATTERNS.get(words[0], {}).get(run.code) if words else None
        if run.code == 20 and run.out == b"fault: words\n":
            return
        yield from self.misread(run, words)
        if pattern is None:
            yield f"exit code {run.code}"
        elif not pattern.fullmatch(run.out.decode("latin-1")):
            yield f"exit code {run.code} with {run.out[:300]!r}"

    def misread(self, run, words):
        """The model's text is refused exactly where the definitions say so, by that rule and line."""
        if run.code in UNREAD or not OWN[words[0]].startswith("m"):
            return
        name = without_options(words)[0]
        wanted = fault_of(run.files[name], bits_of(words)) if name in run.files else UNKNOWN
        if wanted != UNKNOWN and wanted != (run.out if run.code == 23 else None):
            yield f"exit code {run.code} with {run.out[:80]!r} in place of {wanted!r}"


def without_options(words):
    """The words behind the command that are no option and no value of one."""
    behind = zip(words[1:], words)
    return [word for word, before in behind if not word.startswith("-") and before not in ("--bits", "--route")]


def bits_of(words):
    """The width that the words of a command line ask for."""
    for word, before in zip(words[1:], words):
        if before == "--bits" or word.startswith("--bits="):
            return int(word.removeprefix("--bits="))
    return 62
