"""Random receptions for bench/check/receptions and the models' own tests: what is sent of many
generations, and what comes of it.

A lawful case is a carousel as it should be: trees, one generation after another, some of which are
sent in whole or in part, in any order within a generation. A wild case is made of control messages
and blocks that fit together only now and then. On the way packets are lost, repeated at once,
damaged, and mixed with others.
"""

import random
import struct
from collections import namedtuple
from dataclasses import replace
from functools import partial

from models import receiver, streams
from models.streams import DSI, FIRST_DII, is_block

PID = 256

# The packets that arrive, the generation that each was sent for, the paths to ask, the trees by
# generation (None where there is no law), the generation of which a whole cycle came unhurt at the
# end, if one did, and the numbers of packets at which a part of what was sent ends.
Case = namedtuple("Case", "packets origins paths trees whole ends", defaults=((),))

# The number of the one case that is made by hand.
LOOPED = 7


def looped():
    """A gateway that binds two names to itself: a list of it ends at its limit of lines."""
    bindings = [streams.binding(name, False, streams.ior(b"dir\0", 1, 1, streams.key_bytes(1)), 0) for name in (b"l", b"m")]
    data = streams.folder_message(streams.key_bytes(1), bindings, b"srg\0")
    sections = [streams.dsi(1), streams.dii(1, [(1, len(data), 0)], 0), streams.ddb(1, 1, 0, 0, data)]
    packets = [*streams.packets(sections, PID)]
    return Case(packets, [0] * len(packets), [(), (b"l",) * 16, (b"m",)], None, None)


def case(seed):
    """The case of a number."""
    if seed == LOOPED:
        return looped()
    chance = random.Random(seed)
    return lawful(chance) if seed % 2 == 0 else wild(chance)


# The way

Way = namedtuple("Way", "lost burst repeated flipped mixed")
UNHURT = Way(0, 0, 0, 0, 0)


def way(chance):
    return chance.choice([
        UNHURT,
        Way(0, 0, 0.2, 0, 0.3),
        Way(0.02, 0, 0.05, 0.02, 0.1),
        Way(0.15, 0, 0.1, 0.1, 0.2),
        Way(0, 0.02, 0, 0, 0),
        Way(0.5, 0, 0.3, 0.3, 0.3),
    ])


def stray(chance):
    """A packet that says nothing of the carousel, or nothing that reads."""
    filler = chance.randbytes(184)
    return chance.choice([
        b"\x47\x1F\xFF\x10" + filler,
        b"\x47\x41\x01\x10" + filler,
        b"\x47\x01\x00\x90" + filler,
        b"\x47\x81\x00\x15" + filler,
        b"\x47\x01\x00\x05" + filler,
        b"\x47\x01\x00\x20\xB7" + filler[1:],
        b"\x47\x01\x00\x3A\xB7" + filler[1:],
        b"\x46\x01\x00\x10" + filler,
    ])


def with_field(packet, chance):
    """The packet with an adaptation field before its payload where the payload ends in filling, and
    else as it is."""
    kept = packet[4:].rstrip(b"\xFF")
    room = 184 - len(kept)
    if packet[3] >> 4 != 1 or room < 1:
        return packet
    length = chance.randrange(room)
    return packet[:3] + bytes([packet[3] | 0x20, length]) + chance.randbytes(length) + packet[4:187 - length]


def travelled(packets, way, chance):
    """What arrives of the packets. Their order stays."""
    arrived, dropping = [], 0
    for packet in packets:
        while chance.random() < way.mixed:
            arrived.append((stray(chance), False))
        if chance.random() < way.burst:
            dropping = chance.choice([1, 3, 15, 16, 16, 17, 32])
        if dropping or chance.random() < way.lost:
            dropping = max(dropping - 1, 0)
            continue
        if way.mixed and chance.random() < 0.1:
            packet = with_field(packet, chance)
        for _ in range(1 + (chance.random() < way.repeated)):
            copy = packet
            if chance.random() < way.flipped:
                copy = bytearray(packet)
                for _ in range(chance.choice([1, 1, 2, 8])):
                    copy[chance.randrange(188)] ^= 1 << chance.randrange(8)
            arrived.append((bytes(copy), True))
    return arrived


class Air:
    """Groups of sections on their way. The counter goes on from group to group."""

    def __init__(self, chance):
        self.chance, self.counter = chance, chance.randrange(16)
        self.packets, self.origins, self.ends = [], [], []

    def send(self, sections, origin, way):
        lay = self.chance.choice([streams.packets, streams.packed])
        sent = [*lay(sections, PID, self.counter)]
        self.counter = (self.counter + len(sent)) % 16
        for packet, is_ours in travelled(sent, way, self.chance):
            self.packets.append(packet)
            self.origins.append(origin if is_ours else None)
        self.ends.append(len(self.packets))


# Lawful cases

NAMES = [b"a", b"b", b"c", b"index.html", b"a b%", b"\xC3\xA9", b"n" * 254]
FOLDERS = [(), (), (b"d",), (b"d", b"e"), (b"news",)]


def some_path(chance):
    return chance.choice(FOLDERS) + (chance.choice(NAMES),)


def some_content(chance):
    length = chance.choice([0, 1, 20, 20, 200, 900, 4066, 5000, 9000])
    return chance.randbytes(length)


def edited(files, chance):
    """Another tree, with one file more, changed or fewer."""
    files = dict(files)
    path = some_path(chance)
    if path in files and chance.random() < 0.4:
        del files[path]
    else:
        files[path] = some_content(chance)
    return files


# The modules of these receptions, which have one DII; many_diis.py has those with several.
ONE_GROUP = range(1, streams.MOST_LINES + 1)


class Broadcaster:
    """Commits on a tree, and the trees of all generations so far. Its modules have the ids given,
    and `by` says which DII lists each."""

    def __init__(self, chance, ids=ONE_GROUP, rooms=(300, 1000, 6000, streams.ROOM), by=streams.group_of):
        self.chance = chance
        start = chance.choice([0, 0, 1, 200, 16_100, 16_383])
        counts = {m: chance.choice([0, 1, 250, 255, 256, 511]) for m in ids}
        self.now = replace(streams.first_generation(chance.choice([1, 7]), start, by), counts=counts)
        rule, room = chance.choice([streams.fresh_placement, streams.kept_placement]), chance.choice(rooms)
        self.place = streams.spread(ids, partial(rule, room=room))
        self.trees = {start: {}}
        for _ in range(chance.randrange(1, 8)):
            self.commit(edited(self.now.files, chance))

    def commit(self, files):
        self.now = streams.next_generation(self.now, files, self.place)
        self.trees[self.now.number] = self.now.files

    def several(self, count):
        """So many commits: of nothing, of one file again and again, or of anything. The last may
        bring the first tree back."""
        before, kind = self.now.files, self.chance.choice(["nothing", "one", "any"])
        path = self.chance.choice(sorted(before) or [(b"a",)])
        for k in range(count):
            if kind == "any" and (count < 20 or k % 50 == 0):
                self.commit(edited(self.now.files, self.chance))
            elif kind == "one" and (path in self.now.files or path not in streams.folders_of(self.now.files)):
                self.commit({**self.now.files, path: b"%d" % k})
            else:
                self.commit(self.now.files)
        if self.chance.random() < 0.3:
            self.commit(before)

    def part(self):
        """Some of a cycle, in some order."""
        items, kind = self.now.cycle(), self.chance.choice(["whole", "any order", "some", "some", "control", "rest", "blocks"])
        blocks = [it for it in items if is_block(it)]
        if kind == "any order":
            self.chance.shuffle(items)
        if kind == "some":
            items = [it for it in items if self.chance.random() < 0.6]
        if kind == "control":
            items = [self.chance.choice([DSI, FIRST_DII]), FIRST_DII][self.chance.randrange(2):]
        if kind == "rest":
            items = items[self.chance.randrange(len(items)):]
        if kind == "blocks":
            items = self.chance.sample(blocks, self.chance.randrange(len(blocks) + 1))
        return items


def lawful(chance, broadcaster=Broadcaster):
    caster, air = broadcaster(chance), Air(chance)
    for _ in range(chance.randrange(1, 7)):
        for _ in range(chance.choice([1, 1, 2])):
            air.send(map(caster.now.section, caster.part()), caster.now.number, way(chance))
        caster.several(chance.choice([0, 1, 1, 1, 2, 5, 100, 254, 255, 256, 257, 300]))
    whole = None
    if chance.random() < 0.7:
        air.send(streams.cycle(caster.now), caster.now.number, UNHURT)
        whole = caster.now.number
    return Case(air.packets, air.origins, some_paths(chance, caster.trees), caster.trees, whole)


def some_paths(chance, trees):
    """Paths to ask: of files and folders that are or were there, and some that never were."""
    every = {path: content for tree in trees.values() for path, content in tree.items()}
    files = sorted(every)
    paths = sorted({*files, *streams.folders_of(every), *(path + (b"x",) for path in files[:2]), (b"no", b"such")})
    chance.shuffle(paths)
    return paths[:40]


# Wild cases

SCRATCH = 40


def wild_ior(chance, kind, module, key):
    """An IOR, which may lead elsewhere, or nowhere."""
    carousel = 9 if chance.random() < 0.04 else 1
    transaction = chance.choice([0x80000002] * 12 + [0x80000003, 0x80050002, 0x80000004])
    whole = streams.ior(kind, carousel, module, key, transaction)
    if chance.random() < 0.06:
        whole = whole[:8] + struct.pack(">III", 2, 0x12345678, 2) + b"\xAA\xBB" + whole[12:]
    if chance.random() < 0.05:
        whole = whole.replace(struct.pack(">H", receiver.DELIVERY), struct.pack(">H", 0x17))
    if chance.random() < 0.03:
        whole = whole.replace(struct.pack(">I", receiver.BIOP), struct.pack(">I", receiver.BIOP + 1))
    if chance.random() < 0.03:
        whole = whole.replace(struct.pack(">I", receiver.BINDER), struct.pack(">I", receiver.BINDER + 1))
    return whole


def wild_folder(chance):
    """Bindings of a folder, to objects that may be there."""
    names = chance.choices([b"a", b"b", b"c", b"l", b"l", b"", b"x/y"], k=chance.randrange(1, 6))
    return [
        streams.binding(name, True, wild_ior(chance, b"fil\0", chance.randrange(1, 5), streams.key_bytes(chance.randrange(1, 4))), 0)
        for name in names
    ]


def wild_module(chance, m):
    """Messages back to back, most of which read. The first object of module 1 is a folder under key
    1."""
    parts = []
    for place, key in enumerate([1, *chance.sample([2, 3, 4], chance.randrange(1, 4))]):
        key, kind = streams.key_bytes(key), chance.random()
        if kind < 0.4 or (m, place) == (1, 0):
            parts.append(streams.folder_message(key, wild_folder(chance), chance.choice([b"dir\0", b"srg\0"])))
        elif kind < 0.9:
            parts.append(streams.file_message(key, chance.randbytes(chance.choice([0, 5, 90]))))
        else:
            parts.append(streams.biop(key, chance.choice([b"str\0", b"ste\0"]), b"", chance.randbytes(9)))
        if chance.random() < 0.04:
            hurt = bytearray(parts[-1])
            hurt[chance.randrange(len(hurt))] = chance.randrange(256)
            parts[-1] = bytes(hurt)
    return b"".join(parts)


def resealed(section):
    """The section with a right CRC."""
    return section[:-4] + struct.pack(">I", streams.crc(section[:-4]))


class Chaos:
    """Modules in some variants, and messages on them. A variant has mostly a version of its own,
    and not always."""

    def __init__(self, chance):
        self.chance = chance
        self.modules = {m: [wild_module(chance, m) for _ in range(2)] + [b""] * (chance.random() < 0.3) for m in range(1, 5)}
        self.now = {m: 0 for m in self.modules}
        self.block_size, self.version = chance.choice([4066, 4066, 100, 37]), chance.choice([0, 5, 16_380, 16_383])

    def mostly(self, value, *others):
        return value if self.chance.random() < 0.93 else self.chance.choice(others)

    def line(self, m):
        variant = self.now[m]
        size = self.mostly(len(self.modules[m][variant]), 0, 50, 5000)
        return m, size, self.mostly(variant, 0, 1, 2, 255)

    def dii(self):
        chance = self.chance
        self.version += chance.choice([0, 0, 1, 1, 1, 1, 2, 254, 255, 256, 257, 9000])
        for m in self.now:
            if chance.random() < 0.25:
                self.now[m] = chance.randrange(len(self.modules[m]))
        ids = chance.sample(sorted(self.modules), chance.choice([2, 3, 4, 4, 4, 4]))
        lines = [self.line(m) for m in ids]
        block_size, identification = self.mostly(self.block_size, 100, 4066), self.mostly(1, 0, 2)
        odd = chance.random()
        if odd < 0.03:
            lines.append(lines[0])
        elif odd < 0.06:
            block_size = chance.choice([0, 4067, 65_535])
        elif odd < 0.09:
            lines.append((9, chance.choice([16_842_752, 16_842_753, 65_536 * block_size + 1]), 0))
        elif odd < 0.12:
            lines += [(m, 16_842_752, 0) for m in range(10, 10 + chance.choice([15, 16]))]
        compressed = {m for m in ids if chance.random() < 0.04}
        return streams.dii(self.mostly(1, 2), lines, self.version, identification, block_size, compressed)

    def dsi(self):
        module, key = self.mostly(1, 2, 9), self.mostly(1, 2)
        return streams.dsi(1, wild_ior(self.chance, b"srg\0", module, streams.key_bytes(key)))

    def ddbs(self, m):
        """The blocks of a module, in some order."""
        variant = self.mostly(self.now.get(m, 0), 0, 1)
        data = self.modules.get(m, [b"none"] * 2)[variant]
        block_size = self.mostly(self.block_size, 100, 4066)
        version, download = self.mostly(variant, 0, 1, 255), self.mostly(1, 2)
        blocks = [*range(-(-len(data) // block_size) + (self.chance.random() < 0.1))]
        self.chance.shuffle(blocks)
        return [streams.ddb(download, m, version, b, data, block_size) for b in blocks]

    def sections(self):
        """A few sections. Now and then a byte is another one, under a right CRC."""
        chance, kind = self.chance, self.chance.random()
        if kind < 0.4:
            found = [self.dsi()] if kind < 0.15 else [self.dii()]
        elif kind < 0.8:
            found = self.ddbs(chance.choice([*self.modules, 6]))
        else:
            found = [section for m in self.modules for section in self.ddbs(m)]
        for place, section in enumerate(found):
            if chance.random() < 0.04:
                hurt = bytearray(section)
                hurt[chance.randrange(len(hurt))] = chance.randrange(256)
                found[place] = resealed(bytes(hurt)) if chance.random() < 0.9 else bytes(hurt)
        return [it for it in found if chance.random() < 0.95]


def wild(chance):
    chaos, air = Chaos(chance), Air(chance)
    air.send([chaos.dsi(), chaos.dii()], 0, UNHURT)
    for _ in range(chance.randrange(5, 40)):
        sections = [section for _ in range(chance.randrange(1, 5)) for section in chaos.sections()]
        air.send(sections, 0, way(chance) if chance.random() < 0.3 else UNHURT)
    names = [b"a", b"b", b"c", b"l"]
    paths = [(), *((n,) for n in names), *((n, k) for n in names for k in names), (b"l",) * 5 + (b"a",)]
    return Case(air.packets, air.origins, paths, None, None)


# What a case owes under the premises

class Premises:
    """Whether what was heard up to a packet meets the premises: no damage passes a CRC, and no
    block is 256 generations away."""

    def __init__(self, case):
        self.case, self.demux = case, receiver.Demux(PID)
        self.messages, self.near, self.first, self.last = [], True, None, None

    def generation(self, label):
        """The generation of a label. The two are one unless the versions had begun again before the
        first DII was heard."""
        return label + self.first // 16384 * 16384

    def hear(self, packet):
        for opened, candidate in self.demux.feed(packet):
            heard, origin = receiver.read(candidate), self.case.origins[opened]
            if isinstance(heard, receiver.Dii):
                self.first, self.last = origin if self.first is None else self.first, origin
            if isinstance(heard, receiver.Ddb) and self.last is not None and origin - self.last >= 256:
                self.near = False
            self.messages.append(heard)


def looked_up(files, path):
    """What a tree has at a path: the text of the answer, the bytes and the names."""
    if streams.is_file(path, files):
        return receiver.Answer(f"file {len(files[path])}", content=files[path])
    names = sorted({other[len(path)] for other in files if other[:len(path)] == path and len(other) > len(path)})
    return receiver.Answer(f"folder {len(names)}", names=names) if names or path in files or not path else receiver.NO_SUCH
