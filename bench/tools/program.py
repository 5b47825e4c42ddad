"""What the scripts under bench/ share: where the program is, how it is run, and how differences are
reported.

The program is the one that the environment variable CAROUSEL names, or the one that ./carousel
runs. That of crates/bench_programs is the one that BENCH_PROGRAMS names, or rt builds it.
"""

import os
import shutil
import subprocess
import sys
import tempfile
from collections import namedtuple

TOP = os.path.dirname(os.path.dirname(os.path.dirname(os.path.abspath(__file__))))
BENCH = os.path.join(TOP, "bench")
WORK = os.path.join(BENCH, "work")
MOST_SHOWN = 10
NOT_RUN = 77

Ended = namedtuple("Ended", "status out error")


def not_run(why):
    """Ends a script that this machine has no tool for."""
    print(f"not run here: {why}", file=sys.stderr)
    sys.exit(NOT_RUN)


def find():
    """The file of the program that the launcher would run. release/program names it."""
    given = os.environ.get("CAROUSEL")
    if given:
        return given
    places = [os.path.join(TOP, *it) for it in (("crates", "carousel", "out"), ("release",))]
    names = [os.path.join(it, "carousel") for it in places]
    asked = os.path.join(TOP, "release", "program")
    if os.access(asked, os.X_OK):
        done = subprocess.run([asked], stdin=subprocess.DEVNULL, stdout=subprocess.PIPE, text=True)
        names = [done.stdout.rstrip("\n")] if done.returncode == 0 else []
    for name in names:
        if os.access(name, os.X_OK):
            return name
    sys.exit("the program isn't there: rt ci makes it, and CAROUSEL=FILE names another one")


def measured_work(*words):
    """The words that start a work of crates/bench_programs, which is proved and built first where
    it is missing or old."""
    given = os.environ.get("BENCH_PROGRAMS")
    if given:
        return [given, *words]
    if not shutil.which("rt"):
        not_run("rt, which builds crates/bench_programs, isn't installed")
    folder = os.path.join(TOP, "crates", "bench_programs")
    nothing = subprocess.DEVNULL
    how = {"stdin": nothing, "stdout": nothing, "stderr": nothing}
    subprocess.run(["rt", "run", "--", "crc"], cwd=folder, check=True, **how)
    return [os.path.join(folder, "out", "bench_programs"), *words]


def compiled(source):
    """The program of a Rust source under bench/, which is named without its ending, by rustc, for
    the processors that the kit builds for."""
    if not shutil.which("rustc"):
        not_run(f"rustc, which compiles {source}.rs, isn't installed")
    made = os.path.join(WORK, os.path.basename(source))
    os.makedirs(WORK, exist_ok=True)
    how = ["--edition", "2024", "-O", "-C", "target-cpu=x86-64-v2"]
    subprocess.run(["rustc", *how, "-o", made, os.path.join(BENCH, f"{source}.rs")], check=True)
    return made


def shim(room):
    """failing.c as a library in the folder `room`, for LD_PRELOAD."""
    if not shutil.which("cc"):
        not_run("cc, which compiles failing.c, isn't installed")
    made = os.path.join(room, "failing.so")
    source = os.path.join(BENCH, "check", "failing.c")
    words = ["cc", "-shared", "-fPIC", "-O2", "-Wall", "-o", made, source]
    subprocess.run(words, check=True)
    return made


def over_libdvbpsi(source, room):
    """A program in C over libdvbpsi, built in the folder `room`; None where the library's header or
    a C compiler isn't there."""
    made = os.path.join(room, "dvbpsi")
    with open(f"{made}.c", "w") as out:
        out.write(source)
    words = ["cc", "-O2", "-o", made, f"{made}.c", "-ldvbpsi"]
    if shutil.which("cc") and subprocess.run(words, capture_output=True).returncode == 0:
        return made
    return None


def run(program, stream, *words):
    """Status, output and line on standard error of a command on some input."""
    done = subprocess.run([program, *words], input=stream, capture_output=True)
    return Ended(done.returncode, done.stdout, done.stderr)


def excerpt(wanted, got):
    """Both texts from the first line in which they differ."""
    for line, (a, b) in enumerate(zip(wanted.split(b"\n"), got.split(b"\n")), 1):
        if a != b:
            return f"  line {line}, the model: {shortened(a)}\n  line {line}, the program: {shortened(b)}"
    return f"  the model wrote {len(wanted)} bytes, the program {len(got)}"


def shortened(line):
    text = ascii(line)[1:]
    return text if len(text) <= 200 else f"{text[:200]}.. of {len(line)} bytes"


class Tally:
    """Counts what was compared and what differed, and keeps the input of each of the first
    differences."""

    def __init__(self):
        self.compared, self.differences, self.folder = 0, 0, None

    def compare(self, again, words, stream, wanted, got):
        """Compares the model's ending with the program's. `again` is the command that makes this
        case once more."""
        self.compared += 1
        if wanted == got:
            return
        what = ", ".join(name for name in Ended._fields if getattr(wanted, name) != getattr(got, name))
        self.differ(f"{again}: {what} of {' '.join(words)[:200]}, input {{}}", stream)
        if self.differences <= MOST_SHOWN:
            print(f"  the model: status {wanted.status} {wanted.error.decode()!r}, the program: {got.status} {got.error.decode()!r}")
            print(excerpt(wanted.out, got.out), flush=True)

    def differ(self, text, *streams):
        """Reports a difference. In its text each {} is the file in which the input at its place is
        kept."""
        self.differences += 1
        if self.differences > MOST_SHOWN:
            return
        self.folder = self.folder or tempfile.mkdtemp(prefix="carousel-bench-")
        kept = [os.path.join(self.folder, f"input-{self.differences}" + (f"-{place}" if place else "")) for place in range(len(streams))]
        for name, stream in zip(kept, streams):
            with open(name, "wb") as out:
                out.write(stream)
            text = text.replace("{}", name, 1)
        print(f"difference {self.differences}: {text}", flush=True)

    def end(self, said):
        """Prints the counts and ends, with 1 where something differed."""
        print(f"{said}, {self.compared} answers compared, {self.differences} differences")
        sys.exit(1 if self.differences else 0)
