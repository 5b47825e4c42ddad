"""Sites, and small changes of them, for bench/speed/changes and bench/check/air; and what of a
changed site a receiver fetches again."""

import os
import shutil
from collections import Counter, namedtuple

Cost = namedtuple("Cost", "bytes modules")


def made_site(chance, count=547):
    """Files of 60 to 12,000 bytes, most of them small, in a few dozen folders."""
    folders = [(), *((b"section%d" % n,) for n in range(12)), *((b"section%d" % n, b"img") for n in range(12))]
    return {
        chance.choice(folders) + (b"page%d.html" % n,): chance.randbytes(int(60 * 200 ** chance.random())) for n in range(count)
    }


def grown(chance, files, path):
    files[path] += b"."


def rewritten(chance, files, path):
    files[path] = chance.randbytes(len(files[path]))


def doubled(chance, files, path):
    files[path] += files[path]


def added(chance, files, path):
    files[path[:-1] + (b"new" + path[-1],)] = chance.randbytes(900)


def removed(chance, files, path):
    del files[path]


CHANGES = {
    "a file grows by a byte": grown,
    "a file has other bytes, as many": rewritten,
    "a file doubles": doubled,
    "a file of 900 bytes comes": added,
    "a file goes": removed,
}


def cost(before, after):
    """What of a generation a receiver has to fetch that holds the one before it whole."""
    fetched = [data for m, data in after.modules.items() if before.modules.get(m) is None or before.counts[m] != after.counts[m]]
    return Cost(sum(map(len, fetched)), len(fetched))


# Changes on a disk

SIZES = [0, 1, 60, 900, 3906, 5000, 9000, 20_000, 65_492, 65_493, 70_000]
NAMES = [b"a", b"b.html", b"now", b"x y%", "é".encode(), b".hidden", b"n" * 254]
FOLDERS = [(), (), (b"news",), (b"d",), (b"d", b"e"), (b"d", b"e", b"f"), (b"b.html",)]
MOST_BYTES = 400_000


class Editing:
    """Random changes of the files below a folder of the disk. Some change nothing that is sent, and
    some leave what can't be sent, until the next ones begin. `made` counts them."""

    def __init__(self, chance, folder):
        self.chance, self.folder, self.made, self.spoilt = chance, os.fsencode(folder), Counter(), None
        kinds = [self.add, self.add, self.grow, self.shrink, self.rewrite, self.remove, self.remove, self.rename, self.swap, self.touch]
        self.kinds = [*kinds, *kinds, self.leave_empty, self.link, self.empty]

    def some(self):
        """One to three of them, and now and then one that leaves what can't be sent."""
        self.mend()
        for _ in range(self.chance.choice([1, 1, 1, 2, 3])):
            self.make(self.remove if self.size() > MOST_BYTES else self.chance.choice(self.kinds))
        if self.chance.random() < 0.1:
            self.make(self.spoil)

    def make(self, kind):
        kind()
        self.made[kind.__name__] += 1

    def at(self, path):
        return os.path.join(self.folder, *path)

    def files(self):
        return sorted(os.path.join(at, name) for at, _, names in os.walk(self.folder) for name in names if not os.path.islink(os.path.join(at, name)))

    def size(self):
        return sum(map(os.path.getsize, self.files()))

    def one(self):
        files = self.files()
        return self.chance.choice(files) if files else self.place()

    def place(self):
        """Where a file can be written: what is a folder there, or a file on the way, goes."""
        path = self.at(self.chance.choice(FOLDERS) + (self.chance.choice(NAMES),))
        for way in self.way(path):
            if os.path.lexists(way) and (os.path.islink(way) or not os.path.isdir(way)):
                os.remove(way)
        os.makedirs(os.path.dirname(path), exist_ok=True)
        if os.path.isdir(path) and not os.path.islink(path):
            shutil.rmtree(path)
        elif os.path.lexists(path):
            os.remove(path)
        return path

    def way(self, path):
        names = os.path.relpath(os.path.dirname(path), self.folder).split(b"/")
        return [self.at(names[:n]) for n in range(1, len(names) + 1)]

    def read(self, path):
        with open(path, "rb") as file:
            return file.read()

    def write(self, path, content):
        with open(path, "wb") as out:
            out.write(content)

    def add(self):
        self.write(self.place(), self.chance.randbytes(self.chance.choice(SIZES)))

    def grow(self):
        with open(self.one(), "ab") as out:
            out.write(self.chance.randbytes(self.chance.choice([1, 1, 100, 9000])))

    def shrink(self):
        path = self.one()
        with open(path, "ab") as out:
            out.truncate(self.chance.randrange(max(out.tell(), 1)))

    def rewrite(self):
        path = self.one()
        self.write(path, self.chance.randbytes(os.path.getsize(path) if os.path.exists(path) else 5))

    def remove(self):
        path = self.one()
        if os.path.exists(path):
            os.remove(path)

    def rename(self):
        """A file goes to another place, maybe over another one."""
        old = self.one()
        if os.path.exists(old):
            content = self.read(old)
            os.remove(old)
            self.write(self.place(), content)

    def swap(self):
        one, other = self.one(), self.one()
        if os.path.exists(one) and os.path.exists(other):
            os.rename(one, one[:-1] + b"~")
            if one != other:
                os.rename(other, one)
            os.rename(one[:-1] + b"~", other)

    def touch(self):
        path = self.one()
        if os.path.exists(path):
            self.write(path, self.read(path))

    def leave_empty(self):
        """A folder with nothing in it, which is sent as one."""
        os.makedirs(self.at((b"nothing", b"%d" % self.chance.randrange(9))), exist_ok=True)

    def link(self):
        os.symlink(b"..", self.place())

    def empty(self):
        """Now and then everything goes."""
        if self.chance.random() < 0.1:
            shutil.rmtree(self.folder)
            os.mkdir(self.folder)

    def spoil(self):
        """A file that can't be sent, or a folder that isn't there."""
        name = self.chance.choice([b"n" * 255, b"\xFF", b"s/" * 17 + b"x", b"too-large", b""])
        if not name:
            self.spoilt = self.folder + b"-away"
            os.rename(self.folder, self.spoilt)
            return
        self.spoilt = self.at((name.split(b"/")[0],))
        os.makedirs(os.path.dirname(self.at((name,))), exist_ok=True)
        with open(self.at((name,)), "wb") as out:
            out.truncate(16_777_217 if name == b"too-large" else 3)

    def mend(self):
        if self.spoilt is None:
            return
        if self.spoilt == self.folder + b"-away":
            os.rename(self.spoilt, self.folder)
        elif os.path.isdir(self.spoilt):
            shutil.rmtree(self.spoilt)
        else:
            os.remove(self.spoilt)
        self.spoilt = None
