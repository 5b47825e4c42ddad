"""Multiplexes of several carousels, for bench/check/mounts and the models' own tests: tables of
mounts, what is sent on each PID and what comes of it, and what is written under a table.

A case has 1 to 16 carousels, each on a PID of its own: published trees and receptions as
bench/check/receptions has them, with what was lost and damaged on the way. They come one after the
other, packet by packet in turn, or mixed by chance. Now and then all packets of one are lost, or
the table doesn't have it.
"""

import itertools
import random
import re
from collections import namedtuple

from models import many_diis, receiver, receptions, streams
from models.paths import DEEPEST, is_name

MOST_MOUNTS, MOST_NAME, MOST_PID = 16, 32, 8190


# Some PIDs and names that a table may have.
PIDS = [0, 1, 2, 16, 31, 32, 255, 256, 257, 258, 511, 512, 4095, 4096, 8189, 8190]
NAMES = [b"a", b"b", b"aa", b"ab", b"l", b"d", b"f1", b"d1", b"news", b"new", b"new5", b"0", b"00", b"9z", b"n" * 31, b"n" * 32, b"part"]


# Tables

Mount = namedtuple("Mount", "name pid")


def fault_of(mounts):
    """Why these mounts, in this order, are no table, with the place of the first that breaks a
    rule; None where they are one."""
    if len(mounts) > MOST_MOUNTS:
        return "TooMany", None
    for place, (name, pid) in enumerate(mounts):
        names, pids = {it.name for it in mounts[:place]}, {it.pid for it in mounts[:place]}
        if not re.fullmatch(rb"[a-z0-9]+", name) or len(name) > MOST_NAME:
            return "BadName", place
        if pid > MOST_PID:
            return "BadPid", place
        if name in names:
            return "NameTwice", place
        if pid in pids:
            return "PidTwice", place
    return None


def table_of(word):
    """The mounts of a command's word, or None where it has another form or is no table."""
    entries = [re.fullmatch(rb"([a-z0-9]{1,32})=(0|[1-9][0-9]{0,3})", entry) for entry in word.split(b",")]
    if not all(entries):
        return None
    mounts = [Mount(it[1], int(it[2])) for it in entries]
    return None if fault_of(mounts) else mounts


def word_of(mounts):
    return b",".join(b"%b=%d" % it for it in mounts)


def some_word(chance):
    """A word that may be a table, of up to 17 mounts: mostly with nothing that is wrong, or one
    thing."""
    count = chance.choice([1, 2, 3, 5, 16, 17])
    entries = [b"%b=%d" % it for it in zip(chance.sample(NAMES, count), chance.sample([*PIDS, 33, 8191], count))]
    for _ in range(chance.choice([0, 0, 1, 1, 2])):
        place, other = chance.randrange(count), chance.choice(entries)
        name, _, pid = entries[place].partition(b"=")
        entries[place] = chance.choice([
            b"%b=%b" % (name, other.partition(b"=")[2]), b"%b=%b" % (other.partition(b"=")[0], pid), b"%b=0%b" % (name, pid), b"%b=%b0" % (name, pid),
            b"%b=" % name, b"=" + pid, name, b"", b"%b=%b=1" % (name, pid), name.upper() + b"=" + pid, b"%b.=%b" % (name, pid), b"n" * 33 + b"=" + pid,
        ])
    return b",".join(entries)


# What is written

def mounted(mounts, held, path):
    """The answer of a path, where `held` has what is held of each PID."""
    if not path:
        return receiver.Answer(f"folder {len(mounts)}", names=sorted(it.name for it in mounts))
    pid = next((it.pid for it in mounts if it.name == path[0]), None)
    return receiver.NO_SUCH if pid is None else receiver.resolve(held[pid], path[1:])


def mounts_text(mounts, packets, paths):
    """What `mounts` writes, and its status."""
    held = {pid: receiver.held_of([candidate for _, candidate in receiver.cuts(packets, pid)]) for _, pid in mounts}
    return receiver.answers_text((path, mounted(mounts, held, path)) for path in paths)


def is_on(packet, pid):
    """Whether a packet parses with this PID."""
    read = receiver.packet_of(packet)
    return isinstance(read, receiver.Packet) and read.pid == pid


# Cases

# The table, the packets that arrive, the paths to ask, and by PID what was sent of those carousels
# that are one published tree.
Case = namedtuple("Case", "mounts packets paths trees")
Tree = namedtuple("Tree", "files sections")

NO_MOUNTS = [b"nothing", b"A", b"News", b"n" * 33, b"a=256", b"a b", b"\xC3\xA9", b"-", b"n" * 254]


def on_pid(packets, pid):
    """The packets with this PID in place of 256. Others that came among them stay."""
    for it in packets:
        is_ours = (it[1] & 0x1F, it[2]) == (1, 0)
        yield bytes([it[0], it[1] & 0xE0 | pid >> 8, pid & 0xFF]) + it[3:] if is_ours else it


def some_tree(chance):
    """The packets of a published tree that arrive, its paths, and what was sent."""
    files = {}
    for _ in range(chance.randrange(6)):
        files = receptions.edited(files, chance)
    sent = [*streams.published(files, chance.choice([1, 1, 2, 3]), chance.choice([1, 2, 7]))]
    arrived = [packet for packet, _ in receptions.travelled(sent, receptions.way(chance), chance)]
    return arrived, [*streams.objects_of(files), (b"no",)], Tree(files, {*receiver.candidates_of(b"".join(sent), receptions.PID)})


def some_carousel(chance):
    """The packets of a carousel that arrive, paths to ask of it, and what was sent where it is one
    published tree."""
    kind = chance.choice(["tree", "tree", "tree", "turns", "turns", "many"])
    if kind == "tree":
        return some_tree(chance)
    it = receptions.case(chance.randrange(10_000)) if kind == "turns" else many_diis.case(chance.randrange(len(many_diis.ORDERS) + 1, 10_000))
    return it.packets, it.paths, None


def joined(chance, parts):
    """The packets of all parts, those of each in their order."""
    kind = chance.choice(["after", "in turn", "mixed"])
    if kind == "after":
        return [*itertools.chain(*parts)]
    if kind == "in turn":
        return streams.in_turn(*parts)
    order, rest = [place for place, part in enumerate(parts) for _ in part], [*map(iter, parts)]
    chance.shuffle(order)
    return [next(rest[place]) for place in order]


def asked(chance, mounts, inside):
    """Paths under each mount, and some that are under none; `inside` has those of the carousel on
    each PID."""
    paths = [(), *((name,) for name in NO_MOUNTS[:8])]
    for name, pid in mounts:
        within = [it for it in inside[pid] if len(it) < DEEPEST]
        paths += [(name,), *((name, *it) for it in chance.sample(within, min(6, len(within))))]
        paths += [(other, *it) for other in (name + b"0", name[:-1], name.upper()) for it in within[:2]]
        paths += inside[pid][:1]
    chance.shuffle(paths)
    return [it for it in paths if all(map(is_name, it))]


def case(number):
    """The case of a number; it has 1 + NUMBER modulo 16 carousels."""
    chance, count = random.Random(number), 1 + number % MOST_MOUNTS
    pids = chance.sample(PIDS if chance.random() < 0.7 else range(MOST_PID + 1), count)
    parts, inside, trees = [], {}, {}
    for pid in pids:
        packets, inside[pid], trees[pid] = some_carousel(chance)
        parts.append([*on_pid(packets, pid)])
    if chance.random() < 0.4:
        parts[chance.randrange(count)] = []
    mounts = [*map(Mount, chance.sample(NAMES, count), pids)]
    if count > 1 and chance.random() < 0.3:
        mounts.remove(chance.choice(mounts))
    chance.shuffle(mounts)
    return Case(mounts, joined(chance, parts), asked(chance, mounts, inside), trees)


def broken(case):
    """The paths whose answers break what is owed: where the sections that read on a PID are
    sections that were sent there of one tree, each answer under its mount is that tree's, or waits
    for a module, or for the carousel."""
    for name, pid in case.mounts:
        candidates, tree = [candidate for _, candidate in receiver.cuts(case.packets, pid)], case.trees[pid]
        if tree and all(it in tree.sections for it in candidates if not receiver.skip_of(it)):
            held = receiver.held_of(candidates)
            for path in [it for it in case.paths if it[:1] == (name,)]:
                answer = receiver.resolve(held, path[1:])
                waits = answer.text.startswith("not-yet ") if receiver.has_carousel(held) else answer == receiver.NO_CAROUSEL
                if not waits and answer != receptions.looked_up(tree.files, path[1:]):
                    yield path


def with_others(chance, packets, pid, others):
    """The packets that parse with this PID, in order, among those of another multiplex that
    don't."""
    return joined(chance, [[it for it in packets if is_on(it, pid)], [it for it in others if not is_on(it, pid)]])
