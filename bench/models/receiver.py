"""An independent reading receiver, for tests alone: transport packets or sections in, answers out.

It shares no code with the crates. What is held is a look back over the whole list of candidates,
taken anew for each question, and the cuts of a stream look forward from each opening; `Demux` is
the same packet by packet, with its counts.
"""

from collections import Counter, namedtuple
from functools import lru_cache

from models.paths import DEEPEST, escaped, is_name, printed
from models.streams import crc

PACKET = 188
MOST_SECTION = 4093
MOST_BLOCK = 4066
MOST_MODULE = 16_842_752
MOST_BLOCKS = 65_536
MOST_SUM = 268_435_456
MOST_HELD = 16
MOST_LINES = 65_536

LOCATION, BINDER, BIOP = 0x49534F50, 0x49534F40, 0x49534F06
COMPRESSED_MODULE = 0x09
DELIVERY = 0x0016


class Broken(Exception):
    """A field breaks its rule or is cut; the place is its first byte."""

    def __init__(self, place):
        super().__init__(place)
        self.place = place


class Fields:
    """Big-endian fields of `data` from `at` to `end`. Places count from the first byte of
    `data`."""

    def __init__(self, data, at=0, end=None):
        self.data, self.at, self.end = data, at, len(data) if end is None else end

    def take(self, count):
        if self.end - self.at < count:
            raise Broken(self.at)
        self.at += count
        return self.data[self.at - count:self.at]

    def number(self, count):
        return int.from_bytes(self.take(count), "big")

    def within(self, count):
        """The next bytes as fields of their own."""
        at = self.at
        self.take(count)
        return Fields(self.data, at, self.at)

    def must(self, count, wanted):
        at = self.at
        if self.number(count) != wanted:
            raise Broken(at)

    def rest(self):
        return self.data[self.at:self.end]


# Transport packets

Packet = namedtuple("Packet", "pid start counter payload")


def packet_of(data):
    """The packet, or the name of the count that its fault raises."""
    if data[0] != 0x47:
        return "no_sync"
    if data[1] & 0x80:
        return "errored"
    if data[3] >> 6:
        return "scrambled"
    control = data[3] >> 4 & 3
    if control == 0:
        return "reserved"
    if control == 3 and data[4] > 182:
        return "bad_field"
    payload = {1: data[4:], 2: b"", 3: data[5 + data[4]:]}[control]
    return Packet((data[1] & 0x1F) << 8 | data[2], bool(data[1] & 0x40), data[3] & 15, payload)


def packets_of(stream):
    """The whole packets of a stream; a last piece may be short."""
    return [stream[at:at + PACKET] for at in range(0, len(stream) - PACKET + 1, PACKET)]


class Demux:
    """The rules packet by packet. Each candidate comes with the number of the packet in which it
    opened."""

    def __init__(self, pid):
        self.pid, self.counts = pid, Counter()
        self.counter = self.payload = self.open = None
        self.opened = 0

    def feed(self, data):
        number = self.counts["packets"]
        self.counts["packets"] += 1
        packet = packet_of(data)
        if isinstance(packet, str):
            self.counts[packet] += 1
            return []
        if packet.pid != self.pid:
            self.counts["other_pid"] += 1
            return []
        if not packet.payload:
            self.counts["no_payload"] += 1
            return []
        if self.counter is not None:
            if packet.counter == self.counter and packet.payload == self.payload:
                self.counts["duplicates"] += 1
                return []
            if packet.counter != (self.counter + 1) % 16:
                self.counts["jumps"] += 1
                self.open = None
        self.counter, self.payload = packet.counter, packet.payload
        return self.started(packet.payload, number) if packet.start else self.went_on(packet.payload)

    def went_on(self, payload):
        if self.open is None:
            self.counts["orphans"] += 1
            return []
        self.open += payload
        return self.completed()[0]

    def started(self, payload, number):
        pointer, at = payload[0], 1 + payload[0]
        if pointer > len(payload) - 1:
            self.counts["bad_pointer"] += 1
            self.open = None
            return []
        given = []
        if self.open is not None:
            self.open += payload[1:at]
            given, _ = self.completed()
            if self.open is not None:
                self.counts["cut"] += 1
                self.open = None
        while at < len(payload) and payload[at] != 0xFF:
            self.open, self.opened = payload[at:], number
            found, length = self.completed()
            if not found:
                break
            given += found
            at += length
        return given

    def completed(self):
        """The candidate that the open section has become, if it has, and its length."""
        if len(self.open) < 3:
            return [], 0
        length = 3 + ((self.open[1] & 0x0F) << 8 | self.open[2])
        if length > 3 + MOST_SECTION:
            self.counts["oversize"] += 1
            self.open = None
            return [], 0
        if len(self.open) < length:
            return [], 0
        whole, self.open = self.open[:length], None
        return [(self.opened, whole)], length


def cuts(packets, pid):
    """The candidates of all packets, by looking forward from each opening, with the number of the
    packet where it opens."""
    taken = []
    for number, data in enumerate(packets):
        packet = packet_of(data)
        if isinstance(packet, Packet) and packet.pid == pid and packet.payload:
            before = taken[-1][1] if taken else None
            if not (before and before.counter == packet.counter and before.payload == packet.payload):
                taken.append((number, packet))
    found = []
    for place, (number, packet) in enumerate(taken):
        if not packet.start or packet.payload[0] > len(packet.payload) - 1:
            continue
        at = 1 + packet.payload[0]
        while at < len(packet.payload) and packet.payload[at] != 0xFF:
            candidate = opening(taken, place, at)
            if candidate is not None:
                found.append((number, candidate))
            if candidate is None or at + len(candidate) > len(packet.payload):
                break
            at += len(candidate)
    return found


def opening(taken, place, at):
    """The candidate of the opening at a byte of a packet, or None."""
    data, counter = taken[place][1].payload[at:], taken[place][1].counter
    for _, packet in taken[place + 1:]:
        if len(data) >= 3 + MOST_SECTION or packet.counter != (counter + 1) % 16:
            break
        counter = packet.counter
        if packet.start:
            pointer = packet.payload[0]
            data += packet.payload[1:1 + pointer] if pointer < len(packet.payload) else b""
            break
        data += packet.payload
    return cut_first(data)


def cut_first(data):
    """The section that `data` begins with, by its length field, or None."""
    if len(data) < 3:
        return None
    length = (data[1] & 0x0F) << 8 | data[2]
    return data[:3 + length] if length <= MOST_SECTION and len(data) >= 3 + length else None


def back_to_back(data):
    """The candidates of input that is sections one after another: a length field alone cuts,
    whatever it holds."""
    found, at = [], 0
    while len(data) - at >= 3:
        length = 3 + ((data[at + 1] & 0x0F) << 8 | data[at + 2])
        if len(data) - at < length:
            break
        found.append(data[at:at + length])
        at += length
    return found


# Sections and messages

Line = namedtuple("Line", "id size version compressed")
Dsi = namedtuple("Dsi", "gateway")
Dii = namedtuple("Dii", "download block_size version identification lines")
Ddb = namedtuple("Ddb", "download module version block data")
Location = namedtuple("Location", "carousel module key delivery")


def skip_of(data):
    """Why the bytes are no section, or None."""
    if len(data) < 12:
        return "Short"
    length = (data[1] & 0x0F) << 8 | data[2]
    if length > MOST_SECTION or length != len(data) - 3:
        return "Length"
    if data[0] not in (0x3B, 0x3C):
        return "OtherTable"
    if not data[1] & 0x80:
        return "NoSyntax"
    if not data[5] & 1:
        return "NotCurrent"
    return "BadCrc" if crc(data) else None


def message(fields, kinds):
    """The header of a download message: its kind, its number, and its body as fields."""
    fields.must(1, 0x11)
    fields.must(1, 0x03)
    at = fields.at
    kind = fields.number(2)
    if kind not in kinds:
        raise Broken(at)
    number = fields.number(4)
    fields.take(1)
    adaptation = fields.number(1)
    at = fields.at
    length = fields.number(2)
    if length < adaptation or length > fields.end - fields.at:
        raise Broken(at)
    body = fields.within(length)
    body.take(adaptation)
    return kind, number, body


def control_of(payload):
    """A DSI or a DII."""
    kind, number, body = message(Fields(payload), (0x1002, 0x1006))
    return dsi_of(body) if kind == 0x1006 else dii_of(number, body)


def private_of(body):
    """The private data, whose place is its first byte also where it doesn't fit."""
    return body.within(body.number(2))


def dsi_of(body):
    body.take(20)
    body.take(body.number(2))
    return Dsi(biop_of(ior_of(private_of(body))))


def dii_of(transaction, body):
    download, block_size = body.number(4), body.number(2)
    body.take(10)
    body.take(body.number(2))
    lines = []
    for _ in range(body.number(2)):
        m, size, version = body.number(2), body.number(4), body.number(1)
        lines.append(Line(m, size, version, is_compressed(body.take(body.number(1)))))
    private_of(body)
    return Dii(download, block_size, transaction >> 16 & 0x3FFF, transaction >> 1 & 0x7FFF, lines)


def taps_of(fields):
    return [(fields.number(2), fields.number(2), fields.number(2), fields.take(fields.number(1))) for _ in range(fields.number(1))]


def is_compressed(info):
    """Whether a descriptor of a compressed module stands whole in the user info. What doesn't read
    has no user info."""
    fields = Fields(info)
    try:
        fields.take(12)
        taps_of(fields)
        user = fields.within(fields.number(1))
    except Broken:
        return False
    try:
        while user.at < user.end:
            tag = user.number(1)
            user.take(user.number(1))
            if tag == COMPRESSED_MODULE:
                return True
    except Broken:
        pass
    return False


def ddb_of(payload):
    _, download, body = message(Fields(payload), (0x1003,))
    m, version = body.number(2), body.number(1)
    body.take(1)
    return Ddb(download, m, version, body.number(2), body.rest())


def read(candidate):
    """The message of a candidate, or None where nothing reads."""
    if skip_of(candidate):
        return None
    try:
        return (control_of if candidate[0] == 0x3B else ddb_of)(candidate[8:-4])
    except Broken:
        return None


# IORs and objects

def ior_of(fields):
    """The profiles of an IOR: a location, or None for each profile of another kind."""
    fields.must(4, 4)
    fields.take(4)
    profiles = []
    for _ in range(fields.number(4)):
        tag = fields.number(4)
        profiles.append(profile_of(tag, fields.within(fields.number(4))))
    return profiles


def profile_of(tag, fields):
    if tag != BIOP:
        return None
    try:
        fields.must(1, 0)
        first = {}
        for _ in range(fields.number(1)):
            component = fields.number(4)
            first.setdefault(component, fields.within(fields.number(1)))
        if LOCATION not in first or BINDER not in first:
            return None
        location = first[LOCATION]
        carousel, m = location.number(4), location.number(2)
        location.must(1, 1)
        location.must(1, 0)
        key = location.take(location.number(1))
        return Location(carousel, m, key, delivery_of(taps_of(first[BINDER])))
    except Broken:
        return None


def delivery_of(taps):
    """The transaction of the first tap that delivers the object, if one does."""
    for _, use, _, selector in taps:
        if use == DELIVERY and len(selector) >= 10 and selector[:2] == b"\0\1":
            return int.from_bytes(selector[2:6], "big")
    return None


def biop_of(profiles):
    return next((it for it in profiles if it is not None), None)


File = namedtuple("File", "content")
Folder = namedtuple("Folder", "bindings")
OTHER = "other"


def object_of(fields):
    """The key and the object of the next message. The fields then stand after it."""
    if fields.take(4) != b"BIOP":
        raise Broken(fields.at)
    for wanted in (1, 0, 0, 0):
        fields.must(1, wanted)
    body = fields.within(fields.number(4))
    key = body.take(body.number(1))
    kind = body.take(body.number(4))
    body.take(body.number(2))
    for _ in range(body.number(1)):
        body.take(4)
        body.take(body.number(2))
    body = body.within(body.number(4))
    if kind == b"fil\0":
        return key, File(body.take(body.number(4)))
    if kind in (b"dir\0", b"srg\0"):
        return key, Folder([binding_of(body) for _ in range(body.number(2))])
    return key, OTHER


def binding_of(fields):
    """A name and the location that it is bound to, or None for one without a BIOP profile."""
    fields.must(1, 1)
    name = fields.take(fields.number(1))
    fields.take(fields.number(1))
    fields.take(1)
    target = biop_of(ior_of(fields))
    fields.take(fields.number(2))
    return name[:-1] if name.endswith(b"\0") else name, target


@lru_cache(maxsize=512)
def objects_in(data):
    """The first object of each key of a module, and where reading stopped, if it did before the
    end."""
    fields, found = Fields(data), {}
    while fields.at < fields.end:
        place = fields.at
        try:
            key, read_object = object_of(fields)
        except Broken:
            return found, place
        found.setdefault(key, read_object)
    return found, None


# What is held

# The DIIs stand in the order in which they were admitted; `modules` has the bytes of each listed
# module that isn't compressed, or None where it isn't whole.
Held = namedtuple("Held", "label epoch diis gateway modules")


def block_count(size, block_size):
    return -(-size // block_size)


def block_span(size, block_size, block):
    return min(block_size, size - block * block_size)


def is_within(dii):
    """Whether a DII is within the receiver's limits."""
    if not 1 <= dii.block_size <= MOST_BLOCK:
        return False
    ids = [line.id for line in dii.lines]
    return (
        all(line.size <= MOST_MODULE and block_count(line.size, dii.block_size) <= MOST_BLOCKS for line in dii.lines)
        and sum(line.size for line in dii.lines) <= MOST_SUM
        and len(set(ids)) == len(ids)
    )


def distance(old, new):
    return (new - old) % 16384


def line_of(dii, m):
    return next((line for line in dii.lines if line.id == m), None)


def agrees(dii, held, m):
    """Whether a DII describes the module as the held one of its identification does."""
    return (dii.download, dii.block_size, line_of(dii, m)) == (held.download, held.block_size, line_of(held, m))


def is_sound(message):
    return isinstance(message, Dii) and message.identification != 0 and is_within(message)


def joins(dii, beside):
    """Whether a DII of the held version is admitted beside those that have been since the last
    turn."""
    listed = [line for it in [*beside, dii] for line in it.lines]
    return (
        dii.identification not in {it.identification for it in beside}
        and len(beside) < MOST_HELD
        and not {line.id for line in dii.lines} & {line.id for it in beside for line in it.lines}
        and sum(line.size for line in listed) <= MOST_SUM
    )


def spans_of(messages):
    """The places of the admitted DIIs, span by span: in each the one that turns, and then those
    that join."""
    spans = []
    for place, message in enumerate(messages):
        if not is_sound(message):
            continue
        beside = [messages[k] for k in spans[-1]] if spans else []
        if not beside or beside[-1].version != message.version:
            spans.append([place])
        elif joins(message, beside):
            spans[-1].append(place)
    return spans


def steps_of(messages, spans):
    """The distances between turning DIIs that follow each other."""
    return [distance(messages[one[0]].version, messages[other[0]].version) for one, other in zip(spans, spans[1:])]


def agreeing(messages, span, dii, m):
    """The place in a span of the DII of this one's identification, where it describes the module as
    this one does, or None."""
    alike = [k for k in span if messages[k].identification == dii.identification and agrees(messages[k], dii, m)]
    return alike[0] if alike else None


def stretch(messages, spans, dii, m):
    """What was heard while the module was listed as it is now: in each span since then what comes
    after the DII that lists it."""
    steps, ends, begin = steps_of(messages, spans), [span[0] for span in spans[1:]] + [len(messages)], len(spans)
    while begin > 0:
        is_near = begin == len(spans) or steps[begin - 1] < 256
        if not is_near or agreeing(messages, spans[begin - 1], dii, m) is None:
            break
        begin -= 1
    heard = []
    for span, end in zip(spans[begin:], ends[begin:]):
        heard += messages[agreeing(messages, span, dii, m) + 1:end]
    return heard


def blocks_held(heard, dii, line):
    """The first fitting block of each place."""
    count, blocks = block_count(line.size, dii.block_size), {}
    for it in heard:
        if (
            isinstance(it, Ddb) and (it.download, it.module, it.version) == (dii.download, line.id, line.version)
            and it.block < count and len(it.data) == block_span(line.size, dii.block_size, it.block)
        ):
            blocks.setdefault(it.block, it.data)
    return blocks


def module_held(heard, dii, line):
    """The module's bytes where every block was heard, or None."""
    blocks = blocks_held(heard, dii, line)
    return b"".join(blocks[b] for b in sorted(blocks)) if len(blocks) == block_count(line.size, dii.block_size) else None


def look_back(messages):
    """What is held after a list of messages, one for each candidate and None for one that doesn't
    read."""
    gateway = next((it.gateway for it in reversed(messages) if isinstance(it, Dsi) and it.gateway), None)
    spans = spans_of(messages)
    if not spans:
        return Held(None, 0, [], gateway, {})
    steps, diis = steps_of(messages, spans), [messages[k] for k in spans[-1]]
    modules = {
        line.id: module_held(stretch(messages, spans, dii, line.id), dii, line)
        for dii in diis for line in dii.lines if not line.compressed
    }
    return Held(messages[spans[0][0]].version + sum(steps), sum(step >= 256 for step in steps), diis, gateway, modules)


# Answers

Answer = namedtuple("Answer", "text content names", defaults=(None, None))
NO_SUCH, NO_CAROUSEL, ELSEWHERE = Answer("no-such"), Answer("no-carousel"), Answer("elsewhere")


def object_at(held, location):
    """The object at a location, or the answer where there is none."""
    m, by = location.module, None if location.delivery is None else location.delivery >> 1 & 0x7FFF
    if location.carousel != held.gateway.carousel or by == 0:
        return ELSEWHERE
    asked = [dii for dii in held.diis if by is None or dii.identification == by]
    line = next((line for dii in asked for line in dii.lines if line.id == m), None)
    if line is None:
        return Answer(f"not-yet {m}" if by is None or not asked else f"dangling {m}")
    if line.compressed:
        return Answer(f"compressed {m}")
    if held.modules[m] is None:
        return Answer(f"not-yet {m}")
    objects, stopped = objects_in(held.modules[m])
    if location.key not in objects:
        return Answer(f"dangling {m}" if stopped is None else f"bad {m} {stopped}")
    found = objects[location.key]
    return Answer(f"other-kind {m}") if found is OTHER else found


def walk(held, location, names):
    """The answer for the names from a location on."""
    for place in range(len(names) + 1):
        found = object_at(held, location)
        if isinstance(found, Answer):
            return found
        if isinstance(found, File):
            return Answer(f"file {len(found.content)}", content=found.content) if place == len(names) else NO_SUCH
        if place == len(names):
            return Answer(f"folder {len(found.bindings)}", names=[name for name, _ in found.bindings])
        target = next((it for it in found.bindings if it[0] == names[place]), None)
        if target is None:
            return NO_SUCH
        if target[1] is None:
            return ELSEWHERE
        location = target[1]


def has_carousel(held):
    return held.gateway is not None and held.label is not None


def resolve(held, path):
    return walk(held, held.gateway, path) if has_carousel(held) else NO_CAROUSEL


def is_found(answer):
    return answer.content is not None or answer.names is not None


def open_text(held, paths):
    """What `open` writes for the paths, and its status."""
    return answers_text((path, resolve(held, path)) for path in paths)


def answers_text(answered):
    """What is written of paths with their answers, and the status."""
    out, status = [], 0
    for path, answer in answered:
        out.append(printed(path) + b" " + answer.text.encode() + b"\n")
        if answer.content is not None:
            out += [answer.content, b"\n"]
        out += [escaped(name) + b"\n" for name in answer.names or []]
        status = status if is_found(answer) else 1
    return b"".join(out), status


def listed(held):
    """The path and the answer of each line that `list` may write."""
    if has_carousel(held):
        yield from listed_at(held, (), held.gateway)
    else:
        yield (), NO_CAROUSEL


def listed_at(held, path, location):
    answer = walk(held, location, ()) if location else ELSEWHERE
    yield path, answer
    if answer.names is None or len(path) >= DEEPEST:
        return
    seen = set()
    for name, target in object_at(held, location).bindings:
        if is_name(name) and name not in seen:
            yield from listed_at(held, path + (name,), target)
        seen.add(name)


def list_text(held):
    """What `list` writes, and its status."""
    out, status = [], 0
    for path, answer in listed(held):
        if len(out) == MOST_LINES:
            return b"".join(out) + b"more\n", 1
        out.append(printed(path) + b" " + answer.text.encode() + b"\n")
        status = status if is_found(answer) else 1
    return b"".join(out), status


# From a stream

def candidates_of(stream, pid):
    return [candidate for _, candidate in cuts(packets_of(stream), pid)]


def held_of(candidates):
    return look_back([read(candidate) for candidate in candidates])


def record(candidates):
    """What `record` writes."""
    return b"".join(it for it in candidates if not skip_of(it))


def assemble(candidates, line, download):
    """The bytes of a module in blocks of the written size, or None with the least block that is
    missing."""
    messages = [read(candidate) for candidate in candidates]
    dii = Dii(download, MOST_BLOCK, 0, 1, [line])
    whole = module_held(messages, dii, line)
    missing = (b for b in range(block_count(line.size, MOST_BLOCK)) if b not in blocks_held(messages, dii, line))
    return whole, next(missing, None)
