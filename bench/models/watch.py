"""What is told of paths whose answers change, for bench/check/watch and the models' own tests: by
the independent receiver, which looks back over all that came after each section anew; and
receptions to watch.

A case is a reception as bench/check/receptions has them, one of a carousel that has a file or
folder /now, or one of a carousel that turns back and forth: some of its generations come again and
again, in any order. Now and then it stands on another PID, among packets of another case, or bits
of it are damaged at the end, whatever they are of.
"""

import itertools
import random
from collections import namedtuple

from models import many_diis, mounts, receiver, receptions, streams
from models.paths import DEEPEST, is_name, printed
from models.receptions import Air, Broadcaster, way
from models.rehearse import Tuner

# The program's two watchers, by their prefixes, and how many paths it watches at most.
PREFIXES = ((), (b"now",))
MOST_WATCHED = 1024


# What is told

# After so many sections a watcher is told that the answer to a path is another one now.
Notice = namedtuple("Notice", "mark watcher path answer")


def looked_back(candidates):
    """What is held after no section, after one, after two and so on: each time a look back over all
    of them."""
    messages = [receiver.read(it) for it in candidates]
    return (receiver.look_back(messages[:count]) for count in range(len(messages) + 1))


def taken_on(candidates):
    """The same, taken on from section to section."""
    tuner = Tuner()
    yield tuner.held()
    for candidate in candidates:
        tuner.feed(candidate)
        yield tuner.held()


def told(held, paths, prefixes=PREFIXES):
    """The notices in order, where `held` has what is held after no section, after one, and so
    on."""
    paths, before = [*dict.fromkeys(paths)], None
    for mark, it in enumerate(held):
        answers = [receiver.resolve(it, path) for path in paths]
        changed = [(path, answer) for path, answer, old in zip(paths, answers, before or answers) if answer != old]
        for watcher, prefix in enumerate(prefixes):
            yield from (Notice(mark, watcher, path, answer) for path, answer in changed if path[:len(prefix)] == prefix)
        before = answers


def line_of(notice):
    return b"%d %d %b %b\n" % (notice.watcher, notice.mark, printed(notice.path), notice.answer.text.encode())


def watch_text(held, paths, prefixes=PREFIXES):
    return b"".join(map(line_of, told(held, paths, prefixes)))


def texts_by_packet(packets, pid, paths):
    """What is written after no packet, after one, and so on, each time all of it."""
    demux, counts, candidates = receiver.Demux(pid), [0], []
    for packet in packets:
        candidates += [candidate for _, candidate in demux.feed(packet)]
        counts.append(len(candidates))
    texts = [b""]
    for mark, notices in itertools.groupby(told(looked_back(candidates), paths), key=lambda it: it.mark):
        texts += [texts[-1]] * (mark - len(texts))
        texts.append(texts[-1] + b"".join(map(line_of, notices)))
    texts += [texts[-1]] * (len(candidates) + 1 - len(texts))
    return [texts[count] for count in counts]


# Cases

# The packets that arrive, the PID to watch, and the paths, of which some stand twice.
Case = namedtuple("Case", "packets pid paths")

# What takes the name `now` in a case.
RENAMED = [b"news", b"d", b"a"]


class Current(Broadcaster):
    """Commits on a tree in which one of the usual names is `now` instead."""

    def __init__(self, chance):
        self.renamed = chance.choice(RENAMED)
        super().__init__(chance)

    def commit(self, files):
        super().commit({tuple(b"now" if name == self.renamed else name for name in path): content for path, content in files.items()})


def back_and_forth(chance):
    """Two or three generations, near to each other or not, parts of which come in turn or in any
    order."""
    caster, air = Current(chance), Air(chance)
    made = [caster.now]
    for _ in range(chance.choice([1, 1, 2])):
        caster.several(chance.choice([1, 1, 2, 254, 255, 256, 257]))
        made.append(caster.now)
    is_in_turn = chance.random() < 0.5
    for turn in range(chance.randrange(4, 12)):
        caster.now = made[turn % len(made)] if is_in_turn else chance.choice(made)
        air.send(map(caster.now.section, caster.part()), caster.now.number, way(chance))
    return receptions.Case(air.packets, air.origins, receptions.some_paths(chance, caster.trees), None, None)


def reception(chance, number):
    """A reception, by the number's last digits."""
    kind = number % 4
    if kind == 0:
        return receptions.lawful(chance, Current)
    if kind == 1:
        return back_and_forth(chance)
    if kind == 2:
        return receptions.case(chance.randrange(10_000))
    return many_diis.case(chance.randrange(len(many_diis.ORDERS) + 1, 10_000))


def asked(chance, paths):
    """The paths of a reception, /now, what may be below it, what isn't, and some of all these once
    more."""
    paths = [*paths, (b"now",), (b"now", b"a"), (b"nowhere",), (b"d", b"now"), *((b"now", *it) for it in paths[:3])]
    paths = [it for it in paths if len(it) <= DEEPEST and all(map(is_name, it))]
    chance.shuffle(paths)
    return paths + chance.sample(paths, chance.randrange(min(len(paths), 6)))


def moving_gateway():
    """The sections of four modules, each with a folder of one file, and of a gateway that moves
    from the first of these to the last. The second file has other bytes, as many; the third folder
    has another name; and the fourth is as the third."""
    modules = {}
    for m, (name, content) in enumerate([(b"a", b"one"), (b"a", b"two"), (b"b", b"two"), (b"b", b"two")], 1):
        bound = streams.binding(name, True, streams.ior(b"fil\0", 1, m, streams.key_bytes(2)), len(content))
        modules[m] = streams.folder_message(streams.key_bytes(1), [bound]) + streams.file_message(streams.key_bytes(2), content)
    dsi, *moved = [streams.dsi(1, streams.ior(b"srg\0", 1, m, streams.key_bytes(1))) for m in modules]
    dii = streams.dii(1, [(m, len(data), 0) for m, data in modules.items()], 0)
    return [dsi, dii, *(streams.ddb(1, m, 0, 0, data) for m, data in modules.items()), *moved]


def damaged(chance, packets):
    """The packets with some bits the other way round, at any places."""
    stream = bytearray(b"".join(packets))
    for _ in range(chance.choice([1, 5, 5, 40])):
        stream[chance.randrange(len(stream))] ^= 1 << chance.randrange(8)
    return receiver.packets_of(bytes(stream))


def case(number):
    """The case of a number."""
    chance = random.Random(number)
    it = reception(chance, number)
    packets, pid, kind = it.packets, receptions.PID, chance.random()
    if kind < 0.2:
        pid, others = chance.choice([0, 31, 257, 512, 8190]), reception(chance, chance.randrange(4)).packets
        packets = mounts.joined(chance, [[*mounts.on_pid(packets, pid)], others])
    elif kind < 0.4 and packets:
        packets = damaged(chance, packets)
    return Case(packets, pid, asked(chance, it.paths))
