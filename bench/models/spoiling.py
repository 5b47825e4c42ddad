"""Ways in which a folder gives no tree, for bench/check/air: each as the cause that is told, a call
that brings it about, and one that mends it. The cause is None where any process finds it.
"""

import os
import shutil

DEEP = [b"%d" % n for n in range(1, 17)]
# Folders of files each of which fits: by the name, so many files, of so many bytes, and what their
# names end with.
LARGE = {"objects": (8_190, 0, ""), "names": (3_122, 0, "n" * 250)}
VERY_LARGE = {"modules": (2_224, 65_500, ""), "bytes": (16, 16_777_216, ""), "journal": (33, 16_777_216, "")}

# Files and folders with other modes, and the path that can't be read then.
DOORS = [("d/x", 0o000, "/d/x"), ("a", 0o200, "/a"), ("d", 0o000, "/d"), ("d", 0o444, "/d"), ("d", 0o311, "/d"), (".", 0o000, "/")]


def written(path, size):
    """A call that makes a file of zeros."""
    def make():
        os.makedirs(os.path.dirname(path), exist_ok=True)
        with open(path, "wb") as out:
            out.truncate(size)

    return make


def removed(path):
    return lambda: shutil.rmtree(path) if os.path.isdir(path) else os.remove(path)


def closed_doors(folder):
    """Files and folders that may not be read or gone through, which root doesn't meet."""
    for name, mode, path in DOORS:
        door = os.path.join(folder, name)
        before = 0o755 if os.path.isdir(door) else 0o644
        yield f"unreadable {path}", lambda door=door, mode=mode: os.chmod(door, mode), lambda door=door, before=before: os.chmod(door, before)


def reading_fails(room, folder):
    """What no process can read, and what is refused. `room` is a folder beside."""
    folder, away = os.fsencode(folder), os.path.join(room.encode(), b"away")

    def at(*names):
        return os.path.join(folder, *names)

    def in_its_place(make):
        return None, lambda: (os.rename(folder, away), make()), lambda: (os.remove(folder), os.rename(away, folder))

    yield None, lambda: os.rename(folder, away), lambda: os.rename(away, folder)
    yield in_its_place(written(folder, 1))
    yield in_its_place(lambda: os.symlink(b"nowhere", folder))
    # Names that aren't UTF-8.
    for names in ((b"\xff",), (b"d", b"\xc3")):
        yield None, written(at(*names), 1), removed(at(*names))
    yield None, written(at(b"new", b"\xed\xa0\x80"), 1), removed(at(b"new"))
    yield None, written(at(*DEEP, b"x"), 1), removed(at(b"1"))
    yield None, lambda: os.makedirs(at(*DEEP, b"17")), removed(at(b"1"))
    yield None, written(at(b"d", b"n" * 255), 1), removed(at(b"d", b"n" * 255))
    yield None, lambda: os.makedirs(at(b"n" * 255)), removed(at(b"n" * 255))
    yield None, written(at(b"d", b"z%"), 16_777_217), removed(at(b"d", b"z%"))
    yield None, written(at(b"video"), 20_000_000), removed(at(b"video"))
    yield from these_come(LARGE, room, folder)


def very_large(room, folder):
    return these_come(VERY_LARGE, room, os.fsencode(folder))


def these_come(kinds, room, folder):
    for name, (count, size, end) in kinds.items():
        beside, there = os.path.join(room, name), os.path.join(folder, name.encode())
        for n in range(count):
            written(os.path.join(beside, f"{n:04}{end}"), size)()
        yield None, lambda beside=beside, there=there: os.rename(beside, there), lambda beside=beside, there=there: os.rename(there, beside)
