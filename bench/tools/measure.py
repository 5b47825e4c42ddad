"""How long a command takes, and what memory it needs, for the scripts of this folder that
measure."""

import os
import subprocess
import tempfile
import time
from collections import namedtuple

# Seconds by the clock and of the processor, the most bytes resident, and the bytes written where
# they were counted. The system counts what this process has resident (about 20 MiB) for its
# children too, so less than that isn't seen.
Measured = namedtuple("Measured", "taken processor resident written")


def measured(words, source=None, counts=False, statuses=(0,)):
    """Runs a command whose input comes through a pipe from a file, or is empty, and which ends with
    one of these statuses. Its output is passed over, or counted by `wc` at the other end of a
    pipe."""
    feeder = subprocess.Popen(["cat", source], stdout=subprocess.PIPE) if source else None
    began = time.monotonic()
    child = subprocess.Popen(words, stdin=feeder.stdout if feeder else subprocess.DEVNULL, stdout=subprocess.PIPE if counts else subprocess.DEVNULL)
    if feeder:
        feeder.stdout.close()
    counter = subprocess.Popen(["wc", "-c"], stdin=child.stdout, stdout=subprocess.PIPE) if counts else None
    if counter:
        child.stdout.close()
    _, status, usage = os.wait4(child.pid, 0)
    taken = time.monotonic() - began
    written = int(counter.communicate()[0]) if counter else None
    if feeder:
        feeder.wait()
    child.returncode = os.waitstatus_to_exitcode(status)
    if child.returncode not in statuses:
        raise SystemExit(f"status {child.returncode} of {' '.join(words)[:200]}")
    return Measured(taken, usage.ru_utime + usage.ru_stime, usage.ru_maxrss * 1024, written)


def best(words, source=None, counts=False, runs=3):
    """The least time and the most memory of some runs."""
    every = [measured(words, source, counts) for _ in range(runs)]
    least = min(every)
    return least._replace(processor=min(it.processor for it in every), resident=max(it.resident for it in every))


def resident(helper, words, source):
    """The status of a command whose input is a file, and the most bytes that it had resident, to
    within 2 MiB. `helper` is the program of resident.rs. The output is passed over."""
    with tempfile.NamedTemporaryFile("r") as said, open(source, "rb") as stream:
        status = subprocess.run([helper, said.name, *words], stdin=stream, stdout=subprocess.DEVNULL).returncode
        return status, int(said.read())
