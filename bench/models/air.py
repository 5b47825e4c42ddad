"""What `air` writes and says of a folder that changes, for bench/check/air and the models' own
tests: by a walk of its own over the folder, and the independent writer's generations, each a group
of sections. It shares no code with the crates.

Before which cycle a change was read is taken from the notices; all else follows from the readings,
and is compared: each notice, and each group's bytes. Where it is known how many bytes were written
when a change was made, the cycle follows from that too.
"""

import bisect
import os
import re
from collections import namedtuple

from models import plan, receiver, streams
from models.changes import cost
from models.rehearse import Tuner

MOST_NUMBER = 16_383
PACKET = 188

# What a reading of a folder gives: the files, or the cause for which there are none.
Reading = namedtuple("Reading", "files cause")

# A change of the folder: how many bytes were written before it, or None where that isn't known, and
# what is read from then on.
Change = namedtuple("Change", "written reading")


def read(folder):
    folder = os.fsencode(folder)
    try:
        files = plan.Walk(folder).files
        plan.judge(folder, files)
        return Reading(files, None)
    except plan.Stopped as stopped:
        words = stopped.line.split(" ")
        return Reading(None, " ".join(words[:2] if stopped.status == 6 else words[1:3]))


def files_between(before, now):
    """How many files are new, gone or have other bytes. A kept folder counts for nothing."""
    return sum(before.get(path) != now.get(path) for path in before.keys() | now.keys())


class Playout:
    """The generation on the air, and where the packets are."""

    def __init__(self, pid, carousel):
        self.pid, self.counter, self.now = pid, 0, streams.first_generation(carousel)

    def begin(self, files, cycle):
        """Puts another tree on the air, and gives the notice of it."""
        before, self.now = self.now, streams.next_generation(self.now, files, streams.kept_placement)
        fetched = cost(before, self.now)
        differ = f"files {files_between(before.files, files)} modules {fetched.modules} bytes {fetched.bytes}"
        return f"generation {self.now.number} cycle {cycle} {differ}"

    def sections(self):
        return [*streams.cycle(self.now, streams.BUILT.weights)]

    def group(self, cycles):
        """The packets of so many cycles."""
        sent = [*streams.packed(self.sections() * cycles, self.pid, self.counter)]
        self.counter = (self.counter + len(sent)) % 16
        return b"".join(sent)


def settled(sections, cycles):
    """How many packets of a group are settled after one cycle, after two and so on, whatever
    follows; and after its end."""
    lengths, held, count, counts = [*map(len, sections)], 0, 0, []
    for _ in range(cycles):
        for length in lengths:
            if held + length < 183:
                held += length
                continue
            full, left = divmod(held + length - 183, 184)
            count, held = (count + 2 + full, 0) if left == 183 else (count + 1 + full, left)
        counts.append(count)
    return counts, count + (held > 0)


def trees_in(stream, pid):
    """The files of each generation in a stream, as a receiver has them that hears all of it. Each
    has to come whole."""
    tuner = Tuner()
    for candidate in receiver.candidates_of(stream, pid):
        heard = receiver.read(candidate)
        if isinstance(heard, receiver.Dii) and tuner.version not in (None, heard.version):
            yield tree_of(tuner.held())
        tuner.feed(candidate)
    yield tree_of(tuner.held())


def tree_of(held):
    """The files, and the folders below the root in which nothing is. Where a kept folder has
    something in it nobody sees that it is kept."""
    return {path: answer.content for path, answer in receiver.listed(held) if answer.names is None or (path and not answer.names)}


class Wrong(Exception):
    """Why an ending isn't that of the changes. In the text {} stands for each of the streams."""

    def __init__(self, text, *streams):
        super().__init__(text)
        self.streams = streams


# What was sent of a generation: where its packets begin and end, and where those end that each of
# its cycles settles.
Group = namedtuple("Group", "generation at end ends")


class History:
    """The notices and bytes of an ending, taken one after another. What doesn't follow from the
    changes raises Wrong."""

    def __init__(self, pid, carousel, out, lines, is_cut=False):
        self.air, self.out, self.lines, self.is_cut = Playout(pid, carousel), memoryview(out), lines, is_cut
        self.taken, self.begun, self.groups, self.compared = 0, None, [], 0

    @property
    def at(self):
        return self.groups[-1].end if self.groups else 0

    @property
    def ends(self):
        """Where the packets end that each cycle settles."""
        return [end for group in self.groups for end in group.ends]

    def line(self):
        return self.lines[self.taken] if self.taken < len(self.lines) else "none"

    def cycle_in(self, head, rest=""):
        """The cycle that the next notice names after such words."""
        found = re.match(rf"{head} cycle ([1-9]\d*) ", self.line())
        if found is None:
            raise Wrong(f"notice {self.taken + 1} is {self.line()!r}, and not {head} cycle .. {rest}")
        return int(found[1])

    def must(self, wanted):
        if self.line() != wanted:
            raise Wrong(f"notice {self.taken + 1} is {self.line()!r}, and not {wanted!r}")
        self.taken += 1
        self.compared += 1

    def take(self, reading):
        """The notices of a reading that begins to be so: the first cycle before which it was, and
        the last one told of. Neither is told of a tree that is on the air already."""
        if reading.cause is not None:
            return self.keep(reading.cause)
        if self.begun is not None and reading.files == self.air.now.files:
            return None, None
        cycle = self.cycle_in(f"generation {self.air.now.number + 1}")
        if self.begun is not None:
            self.end_group(cycle)
        self.must(self.air.begin(reading.files, cycle))
        self.begun = cycle
        return cycle, None

    def keep(self, cause):
        head = f"kept {self.air.now.number}"
        first = last = self.cycle_in(head, cause)
        self.must(f"{head} cycle {first} {cause}")
        while self.line() == f"{head} cycle {last + 1} {cause}":
            self.must(self.line())
            last += 1
        return first, last

    def end_group(self, until):
        """Compares the group that ends before a cycle."""
        cycles, number = until - self.begun, self.air.now.number
        if cycles < 1:
            raise Wrong(f"generation {number} has {cycles} cycles")
        counts, _ = settled(self.air.sections(), cycles)
        wanted = self.air.group(cycles)
        got = self.out[self.at:self.at + len(wanted)]
        if got != (wanted[:len(got)] if self.is_cut else wanted):
            place = next((k for k, (a, b) in enumerate(zip(wanted, got)) if a != b), min(len(wanted), len(got)))
            where = f"generation {number} from cycle {self.begun} on differs from byte {place} of {len(wanted)} on"
            raise Wrong(f"{where}: the model's {{}}, the program's {{}}", wanted, bytes(got))
        self.compared += 1
        self.groups.append(Group(self.air.now, self.at, self.at + len(wanted), [self.at + PACKET * count for count in counts]))

    def last_cycle(self):
        """The last cycle, by the length of what is left for the last group."""
        left, sections = len(self.out) - self.at, self.air.sections()
        most = left // sum(map(len, sections)) + 1
        for cycles in range(1, most + 1):
            if PACKET * settled(sections, cycles)[1] == left:
                return self.begun + cycles - 1
        raise Wrong(f"{left} bytes are no cycles of generation {self.air.now.number}")

    def end(self, last):
        """Ends the last group with this cycle."""
        self.end_group(last + 1)
        if self.at < len(self.out):
            raise Wrong(f"{len(self.out) - self.at} bytes follow the last cycle, {last}")
        if self.taken < len(self.lines):
            raise Wrong(f"notice {self.taken + 1}, {self.line()!r}, is one too many")

    def end_cut(self):
        """Of the last group as much was read as was."""
        left = max(len(self.out) - self.at, 0)
        self.end(self.begun + left // sum(map(len, self.air.sections())))

    def cycles(self):
        """The generation of each cycle, and the packets in which the cycle lies whole."""
        for group in self.groups:
            for begin, end in zip([group.at, *group.ends], group.ends):
                yield group.generation, bytes(self.out[begin:min(end + PACKET, group.end)])


def firsts_of(history, changes):
    """The first cycle before which each change was read, None where nothing tells it; and the last
    cycle that the last notices tell of."""
    firsts, last, before = [], None, None
    for change in changes:
        if change.reading.cause and change.reading == before:
            # The notices don't tell it from the one before.
            firsts.append(None)
            continue
        before = change.reading
        first, following = history.take(change.reading)
        if last is not None and first not in (None, last + 1):
            raise Wrong(f"nothing is told of cycle {last + 1}, and then of cycle {first}")
        firsts.append(first if last is None else last + 1)
        last = following
    return firsts, last


def check(history, changes, cycles, refused=None):
    """Holds a history against the changes, of which the first is what stood there at the beginning.
    Of so many cycles all were sent, but where the reader went, or where a change after all others,
    `refused`, ended it."""
    firsts, told = firsts_of(history, changes)
    last = history.last_cycle() if refused else cycles
    if history.is_cut:
        history.end_cut()
    else:
        history.end(last)
        if told not in (None, last):
            raise Wrong(f"nothing is told of cycle {told + 1}")
    ends, later = history.ends, [*zip(changes, firsts)][1:] + [(refused, last + 1)] * (refused is not None)
    for number, (change, first) in enumerate(later, 1):
        if None in (change.written, first):
            continue
        # The cycle that is written when so many bytes have been.
        at = bisect.bisect_right(ends, change.written) + 1
        if first != at + 1:
            raise Wrong(f"change {number}, after {change.written} bytes, amid cycle {at}, was first read before cycle {first}")
        history.compared += 1
