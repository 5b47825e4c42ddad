"""An independent writer of carousels, for tests and benchmarks alone: trees of files as transport
packets.

A tree has the bytes of each file by its path, and KEPT at the path of a folder that is kept,
whether or not something stands in it. It shares no code with the crates, so that what they read of
its streams says something. As a program:

    streams.py FOLDER CYCLES > STREAM                  the folder's files, as CYCLES cycles on PID
                                                       256
    streams.py --made MEGABYTES > STREAM               about so many megabytes of made files, one
                                                       cycle
    streams.py --folder MEGABYTES FOLDER               the same files in a new folder
    streams.py --sections FOLDER > SECTIONS            one cycle as sections back to back
    streams.py --two-diis FOLDER > STREAM              as another sender may do it: two DIIs, and a
                                                       second version of one file
    streams.py --two-carousels FOLDER FOLDER > STREAM  a cycle of each, as carousel 1 on PID 256 and
                                                       2 on PID 257, packet by packet in turn
    streams.py --update > STREAM                       a cycle of a tree whose one file is /now, and
                                                       one of the next, in which it says something
                                                       else
    streams.py --damaged FOLDER > STREAM               a cycle of the folder's files and a larger
                                                       one, with losses and damage
"""

import sys

if __name__ == "__main__":
    sys.path[0] += "/.."  # and not this folder, whose inspect.py is a model
import itertools
import os
import struct
import subprocess
import zlib
from dataclasses import dataclass, field, replace
from functools import partial

BLOCK = 4066
ROOM = 65536
MOST_LINES = 139
MOST_GROUPS = 16
# What the program places objects in: the modules of all DIIs.
MOST_MODULES = MOST_LINES * MOST_GROUPS
# What a tree has at the path of a kept folder.
KEPT = None
# The items of a cycle: the DSI, (DII, group) for each DII, and (module, block).
DSI, DII = "dsi", "dii"
FIRST_DII = (DII, 1)
COMPRESSED = b"\x09\x05\x01\0\0\0\0"
GATEWAY_KEY = 1


REVERSED = bytes(int(f"{byte:08b}"[::-1], 2) for byte in range(256))


def crc(data):
    """zlib has the CRC of this polynomial with the bits of each byte, and of the state, the other
    way round."""
    reflected = zlib.crc32(bytes(data).translate(REVERSED)) ^ 0xFFFFFFFF
    return int(f"{reflected:032b}"[::-1], 2)


assert crc(b"123456789") == 0x0376E6E7


def section(table, extension, version, number, last, payload):
    front = struct.pack(">BHHBBB", table, 0xB000 | len(payload) + 9, extension, 0xC1 | version << 1, number, last)
    return front + payload + struct.pack(">I", crc(front + payload))


def message(kind, transaction, body):
    return struct.pack(">BBHIBBH", 0x11, 0x03, kind, transaction, 0xFF, 0, len(body)) + body


def ior(kind, carousel, module, key, transaction=0x80000002):
    location = struct.pack(">IHBBB", carousel, module, 1, 0, len(key)) + key
    binder = struct.pack(">BHHHBHII", 1, 0, 0x16, 1, 10, 1, transaction, 0xFFFFFFFF)
    components = struct.pack(">BB", 0, 2)
    components += struct.pack(">IB", 0x49534F50, len(location)) + location
    components += struct.pack(">IB", 0x49534F40, len(binder)) + binder
    return struct.pack(">I4sIII", 4, kind, 1, 0x49534F06, len(components)) + components


def biop(key, kind, info, body):
    rest = struct.pack(">B", len(key)) + key + struct.pack(">I", 4) + kind
    rest += struct.pack(">H", len(info)) + info + b"\0" + struct.pack(">I", len(body)) + body
    return b"BIOP" + struct.pack(">BBBBI", 1, 0, 0, 0, len(rest)) + rest


def file_message(key, content):
    return biop(key, b"fil\0", struct.pack(">Q", len(content)), struct.pack(">I", len(content)) + content)


def folder_message(key, bindings, kind=b"dir\0"):
    return biop(key, kind, b"", struct.pack(">H", len(bindings)) + b"".join(bindings))


def binding(name, is_file, reference, size):
    kind = b"fil\0" if is_file else b"dir\0"
    info = struct.pack(">Q", size) if is_file else b""
    name += b"\0"
    return (
        struct.pack(">BB", 1, len(name)) + name + struct.pack(">B", 4) + kind
        + struct.pack(">B", 1 if is_file else 2) + reference + struct.pack(">H", len(info)) + info
    )


def key_bytes(key):
    return struct.pack(">I", key)


def is_file(path, files):
    return files.get(path, KEPT) is not KEPT


def folders_of(files):
    """The root, each kept folder, and each folder on the way to a file or to a kept one."""
    found = {(), *(path for path in files if not is_file(path, files))}
    for path in files:
        for n in range(1, len(path)):
            found.add(path[:n])
    return found


def objects_of(files):
    """All objects in order: the gateway, and then by path."""
    return [()] + sorted((set(files) | folders_of(files)) - {()})


def children_of(files):
    """The names right below each folder, in order."""
    children = {folder: [] for folder in folders_of(files)}
    for path in objects_of(files)[1:]:
        children[path[:-1]].append(path[-1])
    return children


def size_of(path, files, children):
    if is_file(path, files):
        return 44 + len(files[path])
    return 34 + sum(len(n) + (82 if is_file(path + (n,), files) else 74) for n in children[path])


def fresh_placement(sizes, old=None, room=ROOM):
    """The fresh rule: a module of its own above `room` bytes, else the open module while there is
    room."""
    modules, count, open_module, left = [], 0, None, 0
    for size in sizes:
        if size > room:
            count += 1
            modules.append(count)
        elif open_module is not None and size <= left:
            left -= size
            modules.append(open_module)
        else:
            count += 1
            open_module, left = count, room - size
            modules.append(count)
    return modules


def kept_placement(sizes, old, room=ROOM, most=MOST_MODULES):
    """The kept rule: what still has room stays in its old module, and the rest takes the least
    module with room."""
    placed, filled = [None] * len(sizes), {}

    def has_room(place, module):
        return module not in filled or (sizes[place] <= room and filled[module] + sizes[place] <= room)

    def put(place, module):
        placed[place] = module
        filled[module] = filled.get(module, 0) + sizes[place]

    put(0, 1)
    for place in range(1, len(sizes)):
        if old[place] is not None and has_room(place, old[place]):
            put(place, old[place])
    for place in range(len(sizes)):
        if placed[place] is None:
            in_use = sorted(filled) if sizes[place] <= room else []
            unused = next(m for m in range(1, len(filled) + 2) if m not in filled)
            put(place, next((m for m in in_use if has_room(place, m)), unused))
    return fresh_placement(sizes, room=room) if max(placed) > most else placed


def spread(ids, rule):
    """The rule under other numbers: what it puts in its n-th module goes to the n-th of these, of
    which the first is 1."""
    def place(sizes, old):
        return [ids[n - 1] for n in rule(sizes, [m and ids.index(m) + 1 for m in old])]

    return place


def group_of(m):
    """The identification of the DII that lists a module of this project's own carousels."""
    return 1 + (m - 1) // MOST_LINES


def tap(identification):
    """The transaction of a tap that names a DII."""
    return 0x80000000 | identification << 1


def is_block(item):
    return item != DSI and item[0] != DII


@dataclass(frozen=True)
class Generation:
    """One published tree: its files and kept folders by path, key and module of each object,
    modules by id, and how often each id has changed. `by` gives the identification of the DII that
    lists a module."""

    carousel: int
    number: int
    files: dict
    keys: dict
    places: dict
    modules: dict
    counts: dict
    by: object = group_of

    def lines(self):
        """The number of blocks of each module, by rising id."""
        return [(m, -(-len(data) // BLOCK)) for m, data in self.modules.items()]

    def diis(self):
        """The items of the DIIs, by rising identification."""
        return [(DII, it) for it in sorted({*map(self.by, self.modules)})]

    def cycle(self, weights=None):
        """The items of a cycle in order. A module weighs 1 where `weights` doesn't say more."""
        weights = weights or {}
        lines = self.lines()
        items = [DSI]
        for turn in range(max(weights.get(m, 1) for m, _ in lines)):
            items += self.diis()
            items += [(m, b) for m, blocks in lines if weights.get(m, 1) > turn for b in range(blocks)]
        return items

    def section(self, item):
        if item == DSI:
            return dsi(self.carousel, ior(b"srg\0", self.carousel, 1, key_bytes(GATEWAY_KEY), tap(self.by(1))))
        if not is_block(item):
            _, identification = item
            lines = [(m, len(data), self.counts[m] % 256) for m, data in self.modules.items() if self.by(m) == identification]
            return dii(self.carousel, lines, self.number, identification)
        m, b = item
        return ddb(self.carousel, m, self.counts[m], b, self.modules[m])


def was_there(path, files, before):
    """Whether an object of the same path and kind was in the generation before."""
    return path in before.keys and is_file(path, files) == is_file(path, before.files)


def keys_of(objects, files, before):
    """An object that was there keeps its key; the others take the least free numbers from 2 on."""
    keys = {path: before.keys[path] for path in objects if was_there(path, files, before)}
    taken, free = set(keys.values()), 2
    for path in objects:
        if path not in keys:
            while free in taken:
                free += 1
            keys[path] = free
            free += 1
    return keys


def modules_of(objects, files, children, keys, places, carousel, by):
    modules = {}
    for path in objects:
        if is_file(path, files):
            written = file_message(key_bytes(keys[path]), files[path])
        else:
            bindings = []
            for name in children[path]:
                child = path + (name,)
                is_one = is_file(child, files)
                m, key = places[child], key_bytes(keys[child])
                reference = ior(b"fil\0" if is_one else b"dir\0", carousel, m, key, tap(by(m)))
                bindings.append(binding(name, is_one, reference, len(files[child]) if is_one else 0))
            written = folder_message(key_bytes(keys[path]), bindings, b"dir\0" if path else b"srg\0")
        modules.setdefault(places[path], []).append(written)
    return {m: b"".join(parts) for m, parts in sorted(modules.items())}


def first_generation(carousel=1, number=0, by=group_of):
    """The generation of the empty tree, from which all begins."""
    modules = {1: folder_message(key_bytes(GATEWAY_KEY), [], b"srg\0")}
    return Generation(carousel, number, {}, {(): GATEWAY_KEY}, {(): 1}, modules, {1: 0}, by)


def next_generation(before, files, place=fresh_placement):
    """The generation of a tree after another one, its objects placed by the rule `place` of their
    sizes and old modules."""
    if files == before.files:
        return replace(before, number=before.number + 1)
    objects, children = objects_of(files), children_of(files)
    keys = keys_of(objects, files, before)
    sizes = [size_of(path, files, children) for path in objects]
    old = [before.places[path] if was_there(path, files, before) else None for path in objects]
    places = dict(zip(objects, place(sizes, old)))
    modules = modules_of(objects, files, children, keys, places, before.carousel, before.by)
    counts = dict(before.counts)
    for m, data in modules.items():
        counts[m] = counts.get(m, 0) + (before.modules.get(m) != data)
    return Generation(before.carousel, before.number + 1, dict(files), keys, places, modules, counts, before.by)


def generation(files, carousel=1, place=kept_placement):
    """The first generation of a tree, after the empty one; placed as the program does it where no
    other rule is given."""
    return next_generation(first_generation(carousel), files, place)


def dsi(carousel, gateway=None):
    gateway = (gateway or ior(b"srg\0", carousel, 1, key_bytes(GATEWAY_KEY))) + b"\0\0\0\0"
    body = b"\xFF" * 20 + b"\0\0" + struct.pack(">H", len(gateway)) + gateway
    return section(0x3B, 0, 0, 0, 0, message(0x1006, 0x80000000, body))


def transaction_of(number, identification=1):
    return 0x80000000 | number % 16384 << 16 | identification << 1 | number % 2


def module_info(is_compressed):
    user = COMPRESSED if is_compressed else b""
    return struct.pack(">IIIBHHHBB", 0xFFFFFFFF, 0xFFFFFFFF, 0, 1, 0, 0x17, 1, 0, len(user)) + user


def dii(download, lines, number, identification=1, block_size=BLOCK, compressed=()):
    """A DII of the version `number` modulo 16,384. A line is a module's id, size and version."""
    body = struct.pack(">IHBBIIHH", download, block_size, 0, 0, 0, 0, 0, len(lines))
    for m, size, version in lines:
        info = module_info(m in compressed)
        body += struct.pack(">HIBB", m, size, version, len(info)) + info
    transaction = transaction_of(number, identification)
    return section(0x3B, transaction & 0xFFFF, 0, 0, 0, message(0x1002, transaction, body + b"\0\0"))


def ddb(download, module, version, block, data, block_size=BLOCK):
    """A block of a module's bytes."""
    blocks = -(-len(data) // block_size)
    head = struct.pack(">HBBH", module, version % 256, 0xFF, block)
    body = message(0x1003, download, head + data[block * block_size:(block + 1) * block_size])
    return section(0x3C, module, version % 32, block % 256, max(min(blocks - 1, 255), 0), body)


def cycle(generation, weights=None):
    """The sections of a cycle, one after another."""
    return map(generation.section, generation.cycle(weights))


def packet(pid, start, counter, payload):
    return struct.pack(">BHB", 0x47, (0x4000 if start else 0) | pid, 0x10 | counter) + payload + b"\xFF" * (184 - len(payload))


def packets(sections, pid=256, counter=0):
    """Each section in packets of its own. The counter rises with each packet."""
    for each in sections:
        data, start = b"\0" + each, True
        for at in range(0, len(data), 184):
            yield packet(pid, start, counter, data[at:at + 184])
            counter, start = (counter + 1) % 16, False


def packed(sections, pid=256, counter=0):
    """The sections of a group back to back: a packet in which one begins says where."""
    sections = [*sections]
    stream, starts, at = b"".join(sections), [], 0
    for each in sections:
        starts.append(at)
        at += len(each)
    starts.append(at)
    done, following = 0, 0
    while done < len(stream):
        begun = starts[following] - done
        if begun >= 184:
            start, taken, payload = False, 184, stream[done:done + 184]
        elif begun == 183 or following == len(sections):
            start, taken, payload = False, begun, stream[done:done + begun]
        else:
            start, taken, payload = True, 183, bytes([begun]) + stream[done:done + 183]
        yield packet(pid, start, counter, payload)
        counter = (counter + 1) % 16
        done += taken
        while following < len(sections) and starts[following] < done:
            following += 1


@dataclass(frozen=True)
class Rules:
    """What a broadcaster may choose: the weights of modules, how sections are laid into packets,
    where objects are placed."""

    weights: dict = field(default_factory=dict)
    lay: object = packets
    place: object = fresh_placement


# What the program does: it sends module 1 twice a cycle, packs sections back to back and keeps
# objects in their modules.
BUILT = Rules({1: 2}, packed, kept_placement)


def published(files, cycles, carousel=1, rules=BUILT, pid=256):
    """The packets of so many cycles of the first generation of a tree, as `publish` writes them,
    and `publish-on` on other PIDs."""
    first = generation(files, carousel, rules.place)
    return rules.lay([section for _ in range(cycles) for section in cycle(first, rules.weights)], pid)


def published_in_groups(files, cycles, carousel=1):
    """The same where each cycle is a group of its own, as `publish-psi` writes them between the
    tables."""
    sections, sent = [*cycle(generation(files, carousel), BUILT.weights)], []
    for _ in range(cycles):
        sent += BUILT.lay(sections, counter=len(sent) % 16)
    return sent


def two_diis(files):
    """A cycle of a carousel whose modules are listed by the DIIs of identifications 5 and 9; and
    then, of its next generation, both DIIs and the blocks of the modules that changed: enough for
    whoever heard the first."""
    place = partial(kept_placement, room=300)
    first = next_generation(first_generation(by=lambda m: 5 if m % 2 else 9), files, place)
    path = max(path for path in files if is_file(path, files))
    second = next_generation(first, {**files, path: files[path].upper()}, place)
    changed = [it for it in second.cycle() if is_block(it) and second.counts[it[0]] != first.counts[it[0]]]
    return packed([*cycle(first), *map(second.section, [*reversed(second.diis()), *changed])])


def in_turn(*parts):
    """The packets of several lists, one of each in turn as long as it has any."""
    return [packet for turn in itertools.zip_longest(*parts) for packet in turn if packet]


def two_carousels(one, other):
    """A cycle of each of two trees, as carousels on two PIDs, packet by packet in turn."""
    return in_turn(published(one, 1, 1, pid=256), published(other, 1, 2, pid=257))


def updated(*trees, rules=BUILT):
    """The packets of a whole cycle of each of these trees, which are generations one after another;
    each cycle is a group of its own."""
    now, sent = first_generation(), []
    for files in trees:
        now = next_generation(now, files, rules.place)
        sent += rules.lay(cycle(now, rules.weights), counter=len(sent) % 16)
    return sent


def update():
    """One file, /now, and then another content of it. Each module comes once a cycle."""
    return updated({(b"now",): b"The news\n"}, {(b"now",): b"The weather\n"}, rules=Rules(lay=packed, place=kept_placement))


def damaged(files):
    """A cycle of these files and of a larger one, in modules of up to 4,000 bytes, in which packets
    of two blocks are lost, one comes twice, and a bit of another block is wrong."""
    tree = {**files, (b"img", b"map.pbm"): b"P4\n400 400\n" + bytes(n * n // 7 % 251 for n in range(20_000))}
    sent = [*packed([*cycle(generation(tree, place=partial(kept_placement, room=4_000)))])]
    wrong = bytearray(sent[-5])
    wrong[100] ^= 0x10
    return [*sent[:40], *sent[60:70], sent[69], *sent[70:-5], bytes(wrong), *sent[-4:]]


def path_below(folder, place):
    return tuple(os.fsencode(part) for part in os.path.relpath(place, folder).split(os.sep))


def files_in(folder):
    """The tree of a folder: its files, and each folder below it in which neither a file nor a
    folder stands."""
    files = {}
    for at, folders, names in os.walk(folder):
        there = [whole for name in names if os.path.isfile(whole := os.path.join(at, name)) and not os.path.islink(whole)]
        for whole in there:
            with open(whole, "rb") as source:
                files[path_below(folder, whole)] = source.read()
        if at != folder and not there and all(os.path.islink(os.path.join(at, name)) for name in folders):
            files[path_below(folder, at)] = KEPT
    return files


def made(megabytes):
    """Files of a megabyte each, up to 130 of them, and ten small ones."""
    files = {(b"large", b"%03d" % n): bytes([n % 251]) * 1000 + os.urandom(999000) for n in range(min(megabytes, 130))}
    for n in range(10):
        files[(b"small", b"%d.txt" % n)] = b"file %d\n" % n
    return files


def large_stream(folder, megabytes):
    """The file in `folder` with the packets of about so many megabytes of made files. Where it
    isn't there, another process makes it: what a process had resident counts as its children's
    too."""
    os.makedirs(folder, exist_ok=True)
    path = os.path.join(folder, f"stream-{megabytes}.ts")
    if not os.path.exists(path):
        with open(f"{path}.part", "wb") as out:
            subprocess.run([sys.executable, "-B", __file__, "--made", str(megabytes)], stdout=out, check=True)
        os.rename(f"{path}.part", path)
    return path


def large_folder(folder, megabytes):
    """The folder in `folder` with about so many megabytes of made files. Where it isn't there,
    another process makes it."""
    path = os.path.join(folder, f"site-{megabytes}")
    if not os.path.exists(path):
        subprocess.run([sys.executable, "-B", __file__, "--folder", str(megabytes), f"{path}.part"], check=True)
        os.rename(f"{path}.part", path)
    return path


def write_files(files, folder):
    """Writes a tree into a folder."""
    for path, content in files.items():
        place = os.path.join(os.fsencode(folder), *path)
        os.makedirs(os.path.dirname(place) if content is not KEPT else place, exist_ok=True)
        if content is not KEPT:
            with open(place, "wb") as out:
                out.write(content)


def main(words):
    out = sys.stdout.buffer
    if words[:1] == ["--folder"]:
        write_files(made(int(words[1])), words[2])
        return
    if words[:1] == ["--made"]:
        parts = published(made(int(words[1])), 1)
    elif words[:1] == ["--two-diis"]:
        parts = two_diis(files_in(words[1]))
    elif words[:1] == ["--two-carousels"]:
        parts = two_carousels(*map(files_in, words[1:]))
    elif words[:1] == ["--update"]:
        parts = update()
    elif words[:1] == ["--damaged"]:
        parts = damaged(files_in(words[1]))
    elif words[:1] == ["--sections"]:
        parts = cycle(generation(files_in(words[1])), BUILT.weights)
    else:
        parts = published(files_in(words[0]), int(words[1]))
    for part in parts:
        out.write(part)


if __name__ == "__main__":
    main(sys.argv[1:])
