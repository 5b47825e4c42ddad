"""An independent model of the command `rehearse`, for tests alone: a script in, the report out.

It shares no code with the crates. Commits go by streams.py, and what a receiver makes of the
packets by receiver.py. Here the receiver goes on from candidate to candidate, for speed; the
models' own tests hold it against the look back.
"""

import re
from collections import namedtuple

from models import receiver, streams
from models.paths import BadPath, parsed, printed
from models.receiver import Ddb, Dii, Dsi

PID = 256
MOST_SCRIPT = 16_777_216
MOST_ACTOR = 64
MOST_DRAW = 1_048_576
MOST_FATES = 65_536
MOST_FILE = 16_777_216
MOST_NUMBER = 16_383
MOST_PUT = 536_870_912
MOST_OBJECTS = 8_192
MOST_FOLDER = 1_048_576
MOST_BYTES = 268_435_456


# Scripts

Put = namedtuple("Put", "path content")
Remove = namedtuple("Remove", "path")
MakeFolder = namedtuple("MakeFolder", "path")
RemoveFolder = namedtuple("RemoveFolder", "path")
Commit = namedtuple("Commit", "editor edits")
Draw = namedtuple("Draw", "asked fates")
Open = namedtuple("Open", "reader path")

KEEP, LOSE = "keep", "lose"


class BadLine(Exception):
    def __init__(self, line, cause):
        super().__init__(f"script line {line}: {cause}")
        self.line, self.cause = line, cause


class BadWord(Exception):
    pass


def number(least, most):
    def reads(word):
        if not re.fullmatch(rb"0|[1-9][0-9]*", word) or len(word) > 20 or not least <= int(word) <= most:
            raise BadWord("bad number")
        return int(word)

    return reads


def path(word):
    try:
        return parsed(word)
    except BadPath:
        raise BadWord("bad path") from None


def content(word):
    if word == b"-":
        return b""
    if len(word) % 2 or not re.fullmatch(rb"[0-9A-Fa-f]+", word):
        raise BadWord("bad hex")
    return bytes.fromhex(word.decode())


ACTOR = number(1, MOST_ACTOR)
WORDS = {
    b"put": [ACTOR, path, content],
    b"fill": [ACTOR, path, number(0, MOST_FILE + 1), number(0, 255)],
    b"remove": [ACTOR, path],
    b"mkdir": [ACTOR, path],
    b"rmdir": [ACTOR, path],
    b"commit": [ACTOR],
    b"draw": [number(1, MOST_DRAW)],
    b"open": [ACTOR, path],
    b"start": [],
    b"settle": [],
    b"finale": [ACTOR, path],
}


def fate(word):
    """A run of fates: what befalls a packet, and how many of them."""
    kind, rest = word[:1], word[1:]
    try:
        if kind in (b"k", b"d"):
            return (KEEP if kind == b"k" else LOSE), number(1, MOST_FATES)(rest)
        if kind == b"f":
            return number(0, 1503)(rest), 1
    except BadWord:
        pass
    raise BadWord("bad fate")


def fates_of(words):
    fates = []
    for word in words:
        what, count = fate(word)
        if len(fates) + count > MOST_FATES:
            raise BadWord("bad fate")
        fates += [what] * count
    return fates


ROUND = bytes(range(256)) * 2


def filled(length, begin):
    """Byte i is begin + 7 * i + i / 256, so each 256 bytes are those before them raised by one,
    round and round."""
    row = bytes((begin + 7 * i) % 256 for i in range(256))
    rows = b"".join(row.translate(ROUND[q:q + 256]) for q in range(min(256, -(-length // 256))))
    return (rows * (length // 65536 + 1))[:length]


def values_of(words):
    """The first word and the values of the others."""
    keyword, rest = words[0], words[1:]
    readers = WORDS[keyword]
    values = []
    for place, reads in enumerate(readers):
        if place >= len(rest):
            raise BadWord("word missing")
        values.append(reads(rest[place]))
    more = rest[len(readers):]
    if keyword == b"draw":
        values.append(fates_of(more))
    elif more:
        raise BadWord("extra word")
    return values


class Order:
    """Which lines may still come."""

    def __init__(self):
        self.seen = set()

    def admits(self, keyword):
        if self.seen & {b"settle", b"finale"} and keyword != b"finale":
            return False
        if keyword in (b"start", b"settle") and keyword in self.seen:
            return False
        self.seen.add(keyword)
        return True


def lines_of(text):
    """Each line that isn't passed over, as its number, first word and values."""
    order = Order()
    lines = text.split(b"\n")
    if lines[-1] == b"":
        lines.pop()
    for at, line in enumerate(lines, 1):
        if line == b"" or line.startswith(b"#"):
            continue
        words = line.split(b" ")
        if words[0] not in WORDS:
            raise BadLine(at, "unknown word")
        if not order.admits(words[0]):
            raise BadLine(at, "out of order")
        try:
            yield at, words[0], values_of(words)
        except BadWord as fault:
            raise BadLine(at, str(fault)) from None


# The lines whose edits have a path alone.
PATH_EDITS = {b"remove": Remove, b"mkdir": MakeFolder, b"rmdir": RemoveFolder}


def steps_of(text):
    """The first word of each line that is no edit, in written order, and its event; `start` and
    `settle` have none."""
    edits = {}
    for _, keyword, values in [*lines_of(text)]:
        if keyword == b"put":
            edits.setdefault(values[0], []).append(Put(*values[1:]))
        elif keyword == b"fill":
            edits.setdefault(values[0], []).append(Put(values[1], filled(*values[2:])))
        elif keyword in PATH_EDITS:
            edits.setdefault(values[0], []).append(PATH_EDITS[keyword](values[1]))
        elif keyword == b"commit":
            yield keyword, Commit(values[0], edits.pop(values[0], []))
        elif keyword == b"draw":
            yield keyword, Draw(*values)
        elif keyword in (b"open", b"finale"):
            yield keyword, Open(*values)
        else:
            yield keyword, None


def settling():
    """The two draws of `settle`."""
    return [Draw(MOST_DRAW, []), Draw(MOST_DRAW, [])]


def events_of(text):
    """The events of a script, in written order."""
    events = []
    for keyword, event in steps_of(text):
        if keyword == b"settle":
            events += settling()
        elif event is not None:
            events.append(event)
    return events


# Trees and commits

class Refused(Exception):
    """A commit's refusal, as its text."""


def fault_of(files, above, edit):
    """Why an edit is refused, or None. `above` counts what a tree has below each folder."""
    path, is_file = edit.path, streams.is_file(edit.path, files)
    is_kept = path in files and not is_file
    if isinstance(edit, Remove):
        return None if is_file else "no-such-file"
    if isinstance(edit, RemoveFolder):
        return "no-such-folder" if not is_kept else "not-empty" if path in above else None
    if not path or is_kept or (isinstance(edit, Put) and path in above):
        return "folder-there"
    if isinstance(edit, MakeFolder) and is_file:
        return "file-there"
    if any(streams.is_file(path[:n], files) for n in range(1, len(path))):
        return "through-file"
    return "file-too-large" if isinstance(edit, Put) and len(edit.content) > MOST_FILE else None


def applied(files, edits):
    """The tree after the edits."""
    files, above = dict(files), {}

    def count(file, by):
        for n in range(len(file)):
            above[file[:n]] = above.get(file[:n], 0) + by
            if not above[file[:n]]:
                del above[file[:n]]

    for file in files:
        count(file, 1)
    for place, edit in enumerate(edits):
        fault = fault_of(files, above, edit)
        if fault:
            raise Refused(f"edit {place} {fault}")
        if isinstance(edit, (Remove, RemoveFolder)):
            del files[edit.path]
            count(edit.path, -1)
        else:
            if edit.path not in files:
                count(edit.path, 1)
            files[edit.path] = edit.content if isinstance(edit, Put) else streams.KEPT
    return files


def check(files):
    """Refuses a tree that passes a limit, by the first that it passes."""
    objects, children = streams.objects_of(files), streams.children_of(files)
    if len(objects) > MOST_OBJECTS:
        raise Refused(f"too-many-objects {len(objects)}")
    sizes = [streams.size_of(it, files, children) for it in objects]
    for it, size in zip(objects, sizes):
        if not streams.is_file(it, files) and size > MOST_FOLDER:
            raise Refused(f"folder-too-large {printed(it).decode()}")
    if sum(sizes) > MOST_BYTES:
        raise Refused(f"too-many-bytes {sum(sizes)}")
    need = max(streams.fresh_placement(sizes))
    if need > streams.MOST_MODULES:
        raise Refused(f"too-many-modules {need}")


def put_bytes(edits):
    return sum(len(it.content) for it in edits if isinstance(it, Put))


class Station:
    """Commits and draws, one after another."""

    def __init__(self, rules=streams.BUILT):
        self.rules, self.put, self.cursor = rules, 0, 0
        self.generations = [streams.first_generation()]

    @property
    def current(self):
        return self.generations[-1]

    def full(self, edits):
        """Why no such commit is entered any more, or None."""
        if self.current.number == MOST_NUMBER:
            return f"season-full {MOST_NUMBER}"
        put = self.put + put_bytes(edits)
        return f"journal-full {put}" if put > MOST_PUT else None

    def commit(self, edits):
        """The new generation's number, or Refused."""
        if full := self.full(edits):
            raise Refused(full)
        self.put += put_bytes(edits)
        files = self.current.files
        if edits:
            files = applied(files, edits)
            check(files)
        self.generations.append(streams.next_generation(self.current, files, self.rules.place))
        self.cursor = 0
        return self.current.number

    def draw(self, asked):
        """The generation, the place of the first item in its cycle, and the items."""
        cycle = self.current.cycle(self.rules.weights)
        first = self.cursor
        items = cycle[first:first + asked]
        self.cursor = (first + len(items)) % len(cycle)
        return self.current, first, items


# The way to the receiver

class Part:
    """A held DII with what has come of its modules: blocks by place, and the bytes of those that
    are whole."""

    def __init__(self, dii, before=None):
        self.dii, self.lines = dii, {line.id: line for line in dii.lines}
        self.blocks, self.whole = {}, {}
        for m, line in self.lines.items():
            if line.compressed:
                continue
            stays = before is not None and m in before.blocks and receiver.agrees(before.dii, dii, m)
            self.blocks[m] = before.blocks[m] if stays else {}
            if stays and m in before.whole:
                self.whole[m] = before.whole[m]
            self.complete(m)

    def offer(self, it):
        line = self.lines[it.module]
        if line.compressed or it.version != line.version:
            return
        size = self.dii.block_size
        fits = it.block < receiver.block_count(line.size, size) and len(it.data) == receiver.block_span(line.size, size, it.block)
        if fits and it.block not in self.blocks[it.module]:
            self.blocks[it.module][it.block] = it.data
            self.complete(it.module)

    def complete(self, m):
        """Makes the module's bytes with its last block."""
        count = receiver.block_count(self.lines[m].size, self.dii.block_size)
        if len(self.blocks[m]) == count and m not in self.whole:
            self.whole[m] = b"".join(self.blocks[m][b] for b in range(count))


class Tuner:
    """What is held, taken on from candidate to candidate. At a turn the modules of each held DII
    begin to wait for the next DII of its identification, which takes over those that stay as they
    were; what still waits at the next turn is given up."""

    def __init__(self):
        self.version = self.label = self.gateway = None
        self.epoch, self.parts, self.waiting = 0, [], {}

    def feed(self, candidate):
        heard = receiver.read(candidate)
        if isinstance(heard, Dsi):
            self.gateway = heard.gateway or self.gateway
        elif isinstance(heard, Dii):
            self.control(heard)
        elif isinstance(heard, Ddb):
            for part in self.parts:
                if part.dii.download == heard.download and heard.module in part.lines:
                    part.offer(heard)

    def control(self, dii):
        if not dii.identification or not receiver.is_within(dii):
            return
        if self.version != dii.version:
            self.turn(dii.version)
        elif not self.has_room(dii):
            return
        self.parts.append(Part(dii, self.waiting.pop(dii.identification, None)))

    def turn(self, version):
        step = 0 if self.version is None else receiver.distance(self.version, version)
        self.label = version if self.version is None else self.label + step
        self.epoch += step >= 256
        self.waiting = {part.dii.identification: part for part in self.parts} if step < 256 else {}
        self.version, self.parts = version, []

    def has_room(self, dii):
        size = sum(line.size for part in self.parts for line in part.dii.lines) + sum(line.size for line in dii.lines)
        ids = {line.id for line in dii.lines}
        is_apart = all(part.dii.identification != dii.identification and not part.lines.keys() & ids for part in self.parts)
        return is_apart and len(self.parts) < receiver.MOST_HELD and size <= receiver.MOST_SUM

    def held(self):
        modules = {m: part.whole.get(m) for part in self.parts for m in part.blocks}
        return receiver.Held(self.label, self.epoch, [part.dii for part in self.parts], self.gateway, modules)


def flipped(packet, bit):
    packet = bytearray(packet)
    packet[bit // 8] ^= 0x80 >> bit % 8
    return bytes(packet)


class Downlink:
    """A multiplexer, what befalls the packets, a demultiplexer and a tuner."""

    def __init__(self, rules=streams.BUILT):
        self.lay = rules.lay
        self.counter, self.demux, self.tuner = 0, receiver.Demux(PID), Tuner()
        self.heard = []

    def carry(self, sections, fates):
        packets = [*self.lay(sections, PID, self.counter)]
        self.counter = (self.counter + len(packets)) % 16
        for number, packet in enumerate(packets):
            what = fates[number % len(fates)] if fates else KEEP
            if what == LOSE:
                continue
            for _, candidate in self.demux.feed(packet if what == KEEP else flipped(packet, what)):
                self.heard.append(candidate)
                self.tuner.feed(candidate)


# The report

def answer_text(answer):
    """An answer as the report has it: a file with its bytes, a folder with its names."""
    words = [answer.text]
    if answer.content is not None:
        words.append(answer.content.hex() or "-")
    return " ".join(words + [receiver.escaped(name).decode() for name in answer.names or []])


class World:
    """A station and a receiver, and one event after another."""

    def __init__(self, rules=streams.BUILT):
        self.station, self.downlink = Station(rules), Downlink(rules)

    def step(self, event):
        """The event's line of the report."""
        if isinstance(event, Commit):
            try:
                return f"commit {event.editor} generation {self.station.commit(event.edits)}"
            except Refused as refusal:
                return f"commit {event.editor} refused {refusal}"
        if isinstance(event, Draw):
            generation, first, items = self.station.draw(event.asked)
            self.downlink.carry(map(generation.section, items), event.fates)
            return f"draw {generation.number} {first} {len(items)}"
        held = self.downlink.tuner.held()
        label = "-" if held.label is None else held.label
        answer = answer_text(receiver.resolve(held, event.path))
        return f"open {event.reader} {label} {printed(event.path).decode()} {answer}"


Rehearsed = namedtuple("Rehearsed", "status report error")


def ended(text, reported):
    """The ending of a command that reports of a script, `reported` being what it writes of a right
    one."""
    if len(text) > MOST_SCRIPT:
        return Rehearsed(8, b"", b"carousel: input too long\n")
    try:
        return Rehearsed(0, reported(text), b"")
    except BadLine as fault:
        return Rehearsed(3, b"", f"carousel: {fault}\n".encode())


def rehearse(text, rules=streams.BUILT):
    """The status, the report and the line on standard error of a script."""
    def reported(text):
        events, world = events_of(text), World(rules)
        return b"".join(world.step(event).encode() + b"\n" for event in events)

    return ended(text, reported)
