#!/usr/bin/env python3
"""The machine's edge: files and outputs that are none, and what the program makes of each.

    python3 tests/hostile/edge.py crates/robust/out/robust

Prints a line for each, and ends with 1 where something else comes than is wanted, which docs/formats.md says. A file
that may not be read is tried as `nobody` where root runs this.
"""
import os
import pathlib
import subprocess
import sys
import tempfile
import threading

MODEL = b"var x\nminimise x\nrow a: x >= 7\n"
SOLVED = b"optimal 7\nhere x 7\n"
READ, LONG = b"fault: read\n", b"fault: too long "


def run(words, output=subprocess.PIPE, **how):
    done = subprocess.run(words, stdin=subprocess.DEVNULL, stdout=output, stderr=subprocess.PIPE, timeout=300, **how)
    return done.returncode, done.stdout or b"", done.stderr


def through_shell(line, program):
    return run(["bash", "-c", line, "bash", program])


def growing(program):
    """A file that is written to while it is read: the program ends, with what it saw."""
    ends = threading.Event()
    with open("growing", "wb") as file:
        file.write(MODEL)

        def grow():
            while not ends.is_set():
                file.write(b"# and more\n" * 1000)
                file.flush()
                if file.tell() > 1 << 27:
                    return
        writer = threading.Thread(target=grow)
        writer.start()
        answer = run([program, "solve", "growing"])
        ends.set()
        writer.join()
    return answer


def piped(program):
    """A named pipe with a writer is read as a file is."""
    os.mkfifo("pipe")
    writer = threading.Thread(target=lambda: pathlib.Path("pipe").write_bytes(MODEL))
    writer.start()
    answer = run([program, "solve", "pipe"])
    writer.join()
    return answer


def unread(program):
    """Standard output is a pipe that nobody reads."""
    reads, writes = os.pipe()
    os.close(reads)
    try:
        return run([program, "solve", "m.rob"], output=writes)
    finally:
        os.close(writes)


def forbidden(program):
    os.chmod("closed", 0)
    if os.geteuid() != 0:
        return run([program, "solve", "closed"])
    os.chmod(".", 0o755)
    with open(program, "rb") as it, open("program", "wb") as copy:
        copy.write(it.read())
    os.chmod("program", 0o755)
    return run(["./program", "solve", "closed"], user="nobody")


def outcomes(program):
    """Each try: what it is, what came, and what is wanted: an exit code and how the output begins, or several."""
    def solve(name):
        return run([program, "solve", name])
    yield "a file", solve("m.rob"), [(0, SOLVED)]
    yield "a directory", solve("."), [(30, READ)]
    yield "a file without permission", forbidden(program), [(30, READ)]
    yield "no such file", solve("nope"), [(21, b"fault: missing nope\n")]
    yield "a file as a directory", solve("m.rob/"), [(30, READ)]
    yield "a link to itself", solve("loop"), [(30, READ)]
    yield "a name of 5,000 bytes", solve("x" * 5000), [(30, READ)]
    yield "an empty file", solve("empty"), [(23, b"fault: model 20 line 1\n")]
    yield "a file without an end", solve("/dev/zero"), [(22, LONG)]
    yield "a sparse file of 8 GB", solve("sparse"), [(22, LONG)]
    yield "a file that grows while it is read", growing(program), [(0, SOLVED), (22, LONG)]
    yield "a named pipe", piped(program), [(0, SOLVED)]
    yield "a name that holds a line end", solve("a\nb"), [(21, b"fault: missing a\nb\n")]
    yield "a name that is no text", run([program.encode(), b"solve", b"\xff"]), [(41, b"")]
    with open("/dev/full", "wb") as full:
        yield "standard output that is full", run([program, "solve", "m.rob"], output=full), [(31, b"")]
    yield "standard output that is closed", through_shell('"$1" solve m.rob >&-', program), [(31, b"")]
    yield "no open file at all", through_shell('"$1" solve m.rob <&- >&- 2>&-', program), [(31, b"")]
    yield "standard output that nobody reads", unread(program), [(31, b"")]


def main():
    program = str(pathlib.Path(sys.argv[1]).resolve())
    wrong = 0
    with tempfile.TemporaryDirectory() as folder:
        os.chdir(folder)
        for name, text in (("m.rob", MODEL), ("closed", MODEL), ("empty", b"")):
            pathlib.Path(name).write_bytes(text)
        os.symlink("loop", "loop")
        with open("sparse", "wb") as file:
            file.truncate(8 << 30)
        for what, (code, out, errors), wanted in outcomes(program):
            right = not errors and any(code == number and out.startswith(text) for number, text in wanted)
            wrong += not right
            said = f", standard error {errors[:100]!r}" if errors else ""
            print(f"{'' if right else 'WRONG: '}{what}: exit code {code}, {out[:60]!r}{said}")
        os.chdir("/")
    return 1 if wrong else 0


if __name__ == "__main__":
    sys.exit(main())
