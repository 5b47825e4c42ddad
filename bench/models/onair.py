"""The command `air` at work on a pipe, for bench/check/air. Nothing of its output is read but what
is asked for, so that it has to wait; and each change of its folder is kept beside how much it had
written then.
"""

import array
import fcntl
import os
import re
import select
import subprocess
import termios

from models import air, streams
from models.air import Change, History, Wrong
from tools.program import Ended

PAGE, PIECE, WAIT = 4096, 65_536, 0.0005


class OnAir:
    """While it is `held`, each change waits until the program waits for its output to be read: then
    it has read its folder for the cycle that it writes, and reads it next for the one after that,
    however many calls a change takes. Where it isn't, the folder changes while the program reads
    it, writes, or does anything else."""

    def __init__(self, found, folder, cycles, pid=256, carousel=1, held=True, seen_as=None, **how):
        self.folder, self.cycles, self.pid, self.carousel, self.held = folder, cycles, pid, carousel, held
        self.words = ["air", str(pid), folder, str(carousel), str(cycles)]
        self.out, self.lines, self.rest, self.missed = bytearray(), [], b"", 0
        self.changes = [Change(0, seen_as or air.read(folder))]
        self.tree = self.changes[0].reading.files
        self.pipe, inner = os.pipe()
        if held:
            fcntl.fcntl(inner, fcntl.F_SETPIPE_SZ, PAGE)
        self.process = subprocess.Popen([found, *self.words], stdin=subprocess.DEVNULL, stdout=inner, stderr=subprocess.PIPE, bufsize=0, **how)
        os.close(inner)
        self.told = self.process.stderr.fileno()
        self.open = {self.pipe, self.told}

    # ---- what it writes and says

    def hear(self, most=0, wait=None):
        """Waits for notices, and for output where some is asked for."""
        ready, _, _ = select.select([*(self.open if most else self.open - {self.pipe})], [], [], wait)
        for end in ready:
            piece = os.read(end, most if end == self.pipe else PIECE)
            if not piece:
                self.open.discard(end)
            elif end == self.pipe:
                self.out += piece
            else:
                *whole, self.rest = (self.rest + piece).split(b"\n")
                self.lines += [line.decode() for line in whole]

    def read(self, count):
        """Reads so many bytes more, or to the end."""
        most = len(self.out) + count
        while len(self.out) < most and self.pipe in self.open:
            self.hear(min(most - len(self.out), PIECE))

    def read_cycles(self, count):
        """Reads as much as so many cycles have, or somewhat more: each file and empty folder, and
        once more what the module has that comes twice."""
        size = sum(160 + len(content or b"") for content in self.tree.values())
        self.read(int(count * 1.05 * (1500 + size + min(size, streams.ROOM))))

    def in_pipe(self):
        count = array.array("i", [0])
        fcntl.ioctl(self.pipe, termios.FIONREAD, count)
        return count[0]

    def is_writing(self):
        """Whether it sleeps in a call on its output, and some of it lies in the pipe."""
        try:
            with open(f"/proc/{self.process.pid}/syscall") as told:
                return told.read().split()[1:2] == ["0x1"] and self.in_pipe() > 0
        except OSError:
            return False

    def settle(self):
        """Waits until the program waits for its output to be read, or has ended, and gives how much
        it has written."""
        while not self.is_writing() and self.process.poll() is None:
            self.hear(wait=WAIT)
        self.hear(wait=0)
        return len(self.out) + self.in_pipe()

    def begin(self):
        """Waits until the program has told of its first reading."""
        while not self.lines and self.open:
            self.hear()

    def most_resident(self):
        """The most bytes that it has had resident so far, once it waits."""
        self.settle()
        with open(f"/proc/{self.process.pid}/status") as told:
            return int(re.search(r"VmHWM:\s+(\d+) kB", told.read())[1]) * 1024

    # ---- what changes

    def change(self, make, seen_as=None):
        """Changes the folder by a call, and reads on until the program has told of it, or for a
        cycle where it owes no notice. `seen_as` is what is read then, where this process may read
        more. Where the program ended before, the change is missed, and counts no more."""
        written, told = self.settle() if self.held else self.begin(), len(self.lines)
        make()
        change = Change(written, seen_as or air.read(self.folder))
        owes = change.reading.cause is not None or change.reading.files != self.tree
        while owes and len(self.lines) == told and self.open:
            self.hear(PAGE)
        if self.process.poll() is not None and len(self.lines) == told:
            self.missed += 1
            return
        self.changes.append(change)
        if not owes:
            self.read_cycles(1.2)
        self.tree = self.tree if change.reading.files is None else change.reading.files

    # ---- the end

    def end(self):
        """Reads the rest, and tells how it ended: with which status, output and lines."""
        while self.open:
            self.hear(PIECE)
        os.close(self.pipe)
        return self.ended()

    def leave(self):
        """Stops reading, and tells how it ended."""
        os.close(self.pipe)
        self.open.discard(self.pipe)
        while self.open:
            self.hear()
        return self.ended()

    def ended(self):
        self.process.stderr.close()
        return Ended(self.process.wait(), bytes(self.out), self.lines + [self.rest.decode()] * bool(self.rest))

    def history(self, ended, status=0, last=(), is_cut=False):
        """The history of an ending with this status, whose last lines are no notices. `is_cut` says
        that the reader went."""
        lines = ended.error[:len(ended.error) - len(last)]
        if ended.status != status or ended.error[len(lines):] != [*last]:
            raise Wrong(f"it ends with status {ended.status} and {ended.error[-1:]}, and not with {status} and {[*last]}")
        return History(self.pid, self.carousel, ended.out, lines, is_cut)
