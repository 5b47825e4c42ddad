"""Receptions of carousels whose modules are listed by several DIIs, for bench/check/receptions and
the models' own tests.

The first cases are lawful carousels of 2, 3 and 4 DIIs, one for each order in which their DIIs can
come. After these, even numbers are lawful carousels of 1 to 16 DIIs, and odd ones are of other
senders: DIIs of any identifications that share the modules in any manner, and DIIs that can't be
held beside them.
"""

import itertools
import random

from models import receiver, receptions, streams
from models.receptions import UNHURT, Air, Broadcaster, Case, some_paths, way
from models.streams import DII, DSI, is_block, key_bytes

ORDERS = [order for count in (2, 3, 4) for order in itertools.permutations(range(count))]


def case(number):
    """The case of a number."""
    chance = random.Random(number)
    if number < len(ORDERS):
        return ordered(chance, ORDERS[number])
    if number == len(ORDERS):
        return fullest(chance)
    return lawful(chance) if number % 2 == 0 else of_others(chance)


def steps(case):
    """The numbers of packets after which another candidate has come."""
    demux = receiver.Demux(receptions.PID)
    return [arrived for arrived, packet in enumerate(case.packets, 1) if demux.feed(packet)]


# Lawful cases

def ids_in_groups(chance, count):
    """Ids of modules in so many groups. Each group has one of the first ids; the first one of all
    is 1."""
    groups = [1, *chance.sample(range(2, streams.MOST_GROUPS + 1), count - 1)]
    ids = [[*range(139 * group - 138, 139 * group + 1)] for group in groups]
    firsts = [1, *(chance.choice([its[0], its[-1], chance.choice(its)]) for its in ids[1:])]
    rest = [m for its in ids for m in its if m not in firsts]
    chance.shuffle(rest)
    return firsts + rest


class Sender(Broadcaster):
    """Commits on a tree whose modules are listed by so many DIIs: those of so many groups, as this
    project numbers them, or any."""

    def __init__(self, chance, groups):
        ids, by = ids_in_groups(chance, groups), streams.group_of
        if chance.random() < 0.4:
            diis = chance.sample([1, 2, 5, 9, 17, 100, 0x4000, 0x7FFE, 0x7FFF, *range(300, 310)], groups)
            by = {m: diis[place] if place < groups else chance.choice(diis) for place, m in enumerate(ids)}.get
        super().__init__(chance, ids, (300, 300, 300, 1000), by)
        large = {(b"part", b"%02d" % n): chance.randbytes(chance.choice([1001, 1100, 1300])) for n in range(groups)}
        self.commit({**self.now.files, **large})

    def next(self):
        """Some files have other bytes as many, and now and then one comes or goes, or the number
        rises far."""
        chance, files = self.chance, dict(self.now.files)
        for path in sorted({*chance.choices(sorted(files), k=chance.choice([0, 1, 1, 2, 3]))}):
            files[path] = chance.randbytes(len(files[path]))
        self.commit(receptions.edited(files, chance) if chance.random() < 0.3 else files)
        for _ in range(chance.choice([0] * 14 + [1, 2, 252, 253, 254, 255, 256, 300])):
            self.commit(self.now.files)

    def in_order(self, items):
        """The items, where each block comes after the DII that lists its module, which is sent
        before where it hasn't been."""
        sent = []
        for item in items:
            listed_by = (DII, self.now.by(item[0])) if is_block(item) else None
            sent += [it for it in (listed_by, item) if it is not None and it not in sent]
        return sent

    def part(self):
        """Some of a cycle, in some order."""
        chance, items, diis = self.chance, self.now.cycle(), self.now.diis()
        blocks = [it for it in items if is_block(it)]
        kind = chance.choice(["whole", "any order", "each before its blocks", "one is lost", "some", "some", "control", "blocks", "twice"])
        chance.shuffle(diis)
        if kind == "any order":
            chance.shuffle(items)
            return items
        if kind == "each before its blocks":
            chance.shuffle(items)
            return self.in_order(items)
        if kind == "some":
            chance.shuffle(items)
            return [it for it in items if chance.random() < 0.6]
        if kind == "control":
            return [DSI, *diis][chance.randrange(2):]
        if kind == "blocks":
            return chance.sample(blocks, chance.randrange(len(blocks) + 1))
        if kind == "one is lost":
            diis.pop()
        return [DSI, *diis, *(diis if kind == "twice" else []), *blocks]

    def whole(self):
        """A whole cycle in which each DII comes at any place before the blocks of its modules."""
        items = self.now.cycle()
        self.chance.shuffle(items)
        return self.in_order(items)


def lawful(chance):
    sender, air = Sender(chance, chance.choice([1, 2, 2, 3, 3, 4, 5, 8, 12, 16])), Air(chance)
    for _ in range(chance.randrange(2, 5)):
        for _ in range(chance.choice([1, 1, 2])):
            air.send(map(sender.now.section, sender.part()), sender.now.number, way(chance))
        sender.next()
    whole = None
    if chance.random() < 0.7:
        air.send(map(sender.now.section, sender.whole()), sender.now.number, UNHURT)
        whole = sender.now.number
    return Case(air.packets, air.origins, some_paths(chance, sender.trees), sender.trees, whole, air.ends)


def ordered(chance, order):
    """Four generations that differ in one or two modules. The DIIs of the second and the fourth
    come in the order asked for, in the second with blocks of any module between; those of the third
    come in the opposite order without the first of them."""
    sender, air = Sender(chance, len(order)), Air(chance)

    def send(items):
        air.send(map(sender.now.section, items), sender.now.number, UNHURT)

    def blocks():
        found = [it for it in sender.now.cycle() if is_block(it)]
        return chance.sample(found, len(found))

    def diis():
        found = sender.now.diis()
        return [found[place] for place in order if place < len(found)] + found[len(order):]

    def change():
        files = dict(sender.now.files)
        for path in sorted({*chance.choices([it for it in sorted(files) if files[it]], k=2)}):
            files[path] = chance.randbytes(len(files[path]))
        sender.commit(files)

    send([DSI, *chance.sample(diis(), len(diis())), *blocks()])
    change()
    send([it for dii in diis() for it in [dii, *blocks()[:2]]])
    change()
    send([*diis()[:0:-1], *blocks()[:4]])
    change()
    send([*diis(), *blocks()])
    return Case(air.packets, air.origins, some_paths(chance, sender.trees), sender.trees, sender.now.number)


def fullest(chance):
    """A generation of as many modules as 16 DIIs can list, 139 each, an object in each. The DIIs
    come in any order, and then the rest."""
    files = {(b"f%d" % n,): chance.randbytes(40) for n in range(139 * streams.MOST_GROUPS - 1)}
    now, air = streams.generation(files, place=lambda sizes, old: [*range(1, len(sizes) + 1)]), Air(chance)
    rest = [it for it in now.cycle() if it == DSI or is_block(it)]
    items = chance.sample(now.diis(), len(now.diis())) + chance.sample(rest, len(rest))
    air.send(map(now.section, items), now.number, UNHURT)
    trees = {0: {}, now.number: files}
    return Case(air.packets, air.origins, some_paths(chance, trees), trees, now.number, air.ends)


# Carousels of other senders

def some_tap(chance, by, others):
    """The transaction of a tap: mostly it names the DII asked for. None stands for a tap of another
    use."""
    if chance.random() < 0.85:
        return streams.tap(by)
    return None if chance.random() < 0.5 else chance.choice([0x80050001 | by << 1, *map(streams.tap, [0, 77, *others])])


def bound(name, m, key, transaction):
    """A binding, whose delivery may be unknown."""
    reference = streams.ior(b"fil\0", 1, m, key_bytes(key), transaction or 0)
    return streams.binding(name, True, unnamed(reference) if transaction is None else reference, 0)


def unnamed(reference):
    """The IOR with a tap of another use, so that its delivery isn't known."""
    return reference.replace(b"\0\x16", b"\0\x17")


# How often each kind of part comes.
WEIGHTS = {
    "dii": 3, "turn": 3, "some": 4, "blocks": 5, "dsi": 1, "zero": 1, "alternating": 1, "moved": 2, "seventeen": 2, "large": 2,
}
KINDS = [kind for kind, weight in WEIGHTS.items() for _ in range(weight)]


class Others:
    """Modules of key 1, a folder, and key 2, a file, in some variants, and DIIs that share them in
    any manner. Module `root` is the gateway's. A variant has mostly a version of its own. Where
    `says_nothing` holds no tap names a DII."""

    def __init__(self, chance):
        self.chance = chance
        self.diis = chance.sample([1, 2, 3, 5, 9, 100, 0x7FFF], chance.choice([1, 2, 2, 3, 3, 4, 7]))
        ids = chance.sample([0, *range(1, 12), 139, 140, 300, 65_535], chance.randrange(2, 8))
        self.root, self.home = ids[0], {m: chance.choice(self.diis) for m in ids}
        self.now = {m: 0 for m in ids}
        self.says_nothing = chance.random() < 0.4
        self.modules = {m: [self.module(m) for _ in range(3)] for m in ids}
        self.download = {it: chance.choice([1, 2]) for it in self.diis} if chance.random() < 0.4 else dict.fromkeys(self.diis, 1)
        self.block_size = dict.fromkeys(self.diis, chance.choice([4066, 200, 90]))
        if chance.random() < 0.4:
            self.block_size = {it: chance.choice([4066, 200, 90]) for it in self.diis}
        self.version = chance.choice([0, 5, 300, 16_380, 16_383])

    def module(self, m):
        """A folder that binds files and folders of all modules where it is the root's, and else two
        files; and a file."""
        chance, bindings = self.chance, []
        for other in sorted(self.home) if m == self.root else [self.root, m]:
            transaction = None if self.says_nothing else some_tap(chance, self.home[other], self.diis)
            bindings.append(bound(b"f%d" % other, other, 2, transaction))
            if m == self.root and (other != m or chance.random() < 0.1):
                bindings.append(bound(b"d%d" % other, other, 1, transaction))
        if chance.random() < 0.2:
            bindings.append(bound(b"none", 4000, 1, some_tap(chance, self.diis[0], self.diis)))
            bindings.append(bound(b"zero", self.root, 2, streams.tap(0)))
        content = chance.randbytes(chance.choice([0, 5, 90, 90, 90, 900]))
        return streams.folder_message(key_bytes(1), bindings) + streams.file_message(key_bytes(2), content)

    def mostly(self, value, *others):
        return value if self.chance.random() < 0.95 else self.chance.choice(others)

    def line(self, m):
        variant = self.now[m]
        return m, self.mostly(len(self.modules[m][variant]), 0, 50), self.mostly(variant, 0, 1, 2, 255)

    def lines_of(self, identification):
        lines = [self.line(m) for m in self.home if self.home[m] == identification]
        self.chance.shuffle(lines)
        return lines

    def dii(self, identification, lines=None, version=None):
        """The DII of an identification: its modules, or the lines given, and now and then something
        that is out of the ordinary."""
        chance = self.chance
        lines = self.lines_of(identification) if lines is None else lines
        odd, block_size = chance.random(), self.block_size.get(identification, 4066)
        if odd < 0.03:
            lines = lines + [self.line(chance.choice(sorted(self.home)))]
        elif odd < 0.05:
            block_size = chance.choice([0, 4067, 65_535])
        elif odd < 0.07:
            block_size = chance.choice([4066, 200, 90])
        elif odd < 0.09:
            lines = lines + [(900, chance.choice([16_842_752, 16_842_753, 65_536 * block_size + 1]), 0)]
        elif odd < 0.11:
            lines = lines[1:]
        compressed = {m for m, _, _ in lines if chance.random() < 0.02}
        download = self.mostly(self.download.get(identification, 1), 1, 2)
        return streams.dii(download, lines, self.version if version is None else version, identification, block_size, compressed)

    def all_diis(self):
        found = [self.dii(it) for it in self.diis]
        self.chance.shuffle(found)
        return found

    def turned(self):
        """A later version, in which some modules are others and now and then one has gone to
        another DII. Blocks come between."""
        chance = self.chance
        self.version += chance.choice([1, 1, 1, 1, 1, 2, 100, 254, 255, 256, 257, 9000, 16_383])
        for m in self.now:
            if chance.random() < 0.2:
                self.now[m] = chance.randrange(3)
            if chance.random() < 0.1:
                self.home[m] = chance.choice(self.diis)
        found = [it for it in self.all_diis() if chance.random() < 0.85]
        for block in self.some_blocks() if chance.random() < 0.6 else []:
            found.insert(chance.randrange(len(found) + 1), block)
        return found

    def moved(self):
        """The blocks of all modules, some of them only between the DIIs of the next version, which
        lists a module in any of the DIIs."""
        chance, blocks = self.chance, [section for m in self.home for section in self.ddbs(m)]
        self.version += 1
        self.home[chance.choice(sorted(self.home))] = chance.choice(self.diis)
        late = [chance.random() < 0.15 for _ in blocks]
        found = self.all_diis()
        for block in itertools.compress(blocks, late):
            found.insert(chance.randrange(len(found) + 1), block)
        return [block for block, is_late in zip(blocks, late) if not is_late] + found

    def alternating(self):
        """DIIs that carry versions of their own: each change of version is a turn."""
        versions = {it: self.version + self.chance.choice([0, 1, 2, 256]) for it in self.diis}
        return [self.dii(it, None, versions[it]) for it in self.chance.choices(self.diis, k=self.chance.randrange(2, 8))]

    def seventeen(self):
        """So many other DIIs that one isn't held, after a turn or not; ours come among them."""
        chance = self.chance
        self.version += chance.choice([0, 1])
        more = [*range(200, 200 + chance.choice([14, 15, 16, 17]))]
        chance.shuffle(more)
        found = [self.dii(it, [] if chance.random() < 0.5 else [(it, chance.choice([0, 9]), 0)]) for it in more]
        ours, cut = self.all_diis(), chance.choice([0, 1, 1, 2])
        return ours[:cut] + found + ours[cut:]

    def large(self):
        """DIIs whose modules sum to the limit of all sizes, or to a byte more, with one of ours;
        and one that has no room then."""
        chance = self.chance
        self.version += 1
        ours = self.dii(chance.choice(self.diis))
        heard = receiver.read(ours)
        left = max(receiver.MOST_SUM - sum(line.size for line in heard.lines) - 15 * receiver.MOST_MODULE, 0)
        lines = [(1000 + n, receiver.MOST_MODULE, 0) for n in range(15)] + [(1015, left + chance.choice([0, 0, 1]), 0)]
        chance.shuffle(lines)
        cut = chance.randrange(1, 16)
        found = [self.dii(50, lines[:cut]), self.dii(51, lines[cut:])]
        found.insert(chance.choice([0, 1, 2, 2]), ours)
        return found + [self.dii(52, [(2000, chance.choice([0, 1]), 0)]), *self.all_diis()][chance.randrange(2):]

    def dsi(self):
        chance = self.chance
        root, by = self.mostly(self.root, *self.home), self.mostly(self.home[self.root], 0, 1, 77)
        gateway = streams.ior(b"srg\0", 1, root, key_bytes(1), streams.tap(by))
        return streams.dsi(1, unnamed(gateway) if self.says_nothing or chance.random() < 0.1 else gateway)

    def ddbs(self, m):
        """The blocks of a module, in some order."""
        variant, by = self.mostly(self.now[m], 0, 1, 2), self.home[m]
        data, block_size = self.modules[m][variant], self.mostly(self.block_size[by], 90, 200)
        blocks = [*range(-(-len(data) // block_size))]
        self.chance.shuffle(blocks)
        return [streams.ddb(self.mostly(self.download[by], 1, 2), m, self.mostly(variant, 0, 1), b, data, block_size) for b in blocks]

    def some_blocks(self):
        blocks = [section for m in self.home for section in self.ddbs(m)]
        return self.chance.sample(blocks, self.chance.randrange(min(len(blocks), 8) + 1))

    def sections(self):
        """A few sections. Now and then a byte is another one, mostly under a CRC that is wrong
        then."""
        chance = self.chance
        kind = chance.choice(KINDS)
        if kind == "dii":
            found = [self.dii(chance.choice(self.diis))]
        elif kind == "turn":
            found = self.turned()
        elif kind == "some":
            found = self.some_blocks()
        elif kind == "blocks":
            found = [section for m in self.home for section in self.ddbs(m)]
        elif kind == "dsi":
            found = [self.dsi()]
        elif kind == "zero":
            found = [self.dii(0, self.lines_of(chance.choice(self.diis)), self.version + chance.choice([0, 1]))]
        else:
            found = {"moved": self.moved, "alternating": self.alternating, "seventeen": self.seventeen, "large": self.large}[kind]()
        return [self.hurt(it) for it in found if chance.random() < 0.97]

    def hurt(self, section):
        if self.chance.random() < 0.97:
            return section
        changed = bytearray(section)
        changed[self.chance.randrange(len(changed))] ^= 1 << self.chance.randrange(8)
        return receptions.resealed(bytes(changed)) if self.chance.random() < 0.3 else bytes(changed)


def of_others(chance):
    sender, air = Others(chance), Air(chance)
    air.send([sender.dsi(), *sender.all_diis()], 0, UNHURT)
    for _ in range(chance.randrange(5, 30)):
        air.send(sender.sections(), 0, way(chance) if chance.random() < 0.2 else UNHURT)
    names = [b"%b%d" % (kind, m) for m in sender.home for kind in (b"f", b"d")]
    root = b"f%d" % sender.root
    paths = [(), (b"none",), (b"zero",), *((name,) for name in names), *((b"d%d" % m, name) for m in sender.home for name in (root, b"f%d" % m))]
    return Case(air.packets, air.origins, paths[:40], None, None, air.ends)
