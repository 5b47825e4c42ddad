"""What `plan` writes of a folder, line by line: by a walk of its own, and the independent writer's
carousel of what is there."""

import os
import stat

from models import streams
from models.paths import DEEPEST, LONGEST, is_name, printed

MOST_CONTENT = 16_777_216
MOST_PUT = 536_870_912
MOST_SIZED = MOST_PUT + 1
MOST_OBJECTS = 8_192
MOST_FOLDER = 1_048_576
MOST_TOTAL = 268_435_456
FAULT = b"carousel: folder fault\n"


class Stopped(Exception):
    """The one line that is written, and the status."""

    def __init__(self, status, *words):
        super().__init__(status, words)
        self.status, self.line = status, " ".join(map(str, words))


def refused(cause, *words):
    return Stopped(1, "refused", cause, *words)


def shown(path):
    return printed(path).decode()


class Walk:
    """The files below a folder, the folders in which neither a file nor a folder stands, and what
    is passed over, in the order in which they are met."""

    def __init__(self, folder):
        self.files, self.left, self.read = {}, [], 0
        self.walk(folder, ())

    def walk(self, folder, path):
        try:
            entries = sorted(os.scandir(folder), key=lambda it: it.name)
            [it.name.decode() for it in entries]
        except (OSError, UnicodeDecodeError):
            raise Stopped(6, "unreadable", shown(path)) from None
        for it in entries:
            if self.read <= MOST_PUT:
                self.meet(it, path)

    def meet(self, it, path):
        here, mode = path + (it.name,), it.stat(follow_symlinks=False).st_mode
        if not stat.S_ISREG(mode) and not stat.S_ISDIR(mode):
            self.left.append(here)
            return
        if len(path) == DEEPEST:
            raise refused("too-deep", shown(here), DEEPEST)
        if not is_name(it.name):
            raise refused("bad-name", shown(here), LONGEST)
        if stat.S_ISDIR(mode):
            met = len(self.files)
            self.walk(it.path, here)
            if len(self.files) == met:
                self.files[here] = streams.KEPT
            return
        try:
            with open(it.path, "rb") as file:
                self.files[here] = file.read(MOST_CONTENT + 1)
        except OSError:
            raise Stopped(6, "unreadable", shown(here)) from None
        self.read += len(self.files[here])


def judge(folder, files):
    total = sum(len(content or b"") for content in files.values())
    if total > MOST_PUT:
        raise refused("journal-full", total, MOST_PUT)
    for path, content in files.items():
        if len(content or b"") > MOST_CONTENT:
            size = min(os.path.getsize(os.path.join(folder, *path)), MOST_SIZED)
            raise refused("file-too-large", shown(path), size, MOST_CONTENT)
    objects, children = streams.objects_of(files), streams.children_of(files)
    if len(objects) > MOST_OBJECTS:
        raise refused("too-many-objects", len(objects), MOST_OBJECTS)
    sizes = [streams.size_of(path, files, children) for path in objects]
    for path, size in zip(objects, sizes):
        if not streams.is_file(path, files) and size > MOST_FOLDER:
            raise refused("folder-too-large", shown(path), size, MOST_FOLDER)
    if sum(sizes) > MOST_TOTAL:
        raise refused("too-many-bytes", sum(sizes), MOST_TOTAL)
    needed = max(streams.fresh_placement(sizes))
    if needed > streams.MOST_MODULES:
        raise refused("too-many-modules", needed, streams.MOST_MODULES)


def hidden(path):
    return " hidden" if any(name.startswith(b".") for name in path) else ""


def lines(walk, carousel, bitrate):
    made, children = streams.generation(walk.files, carousel), streams.children_of(walk.files)
    for path in sorted([*streams.objects_of(walk.files), *walk.left]):
        if path not in made.places:
            yield f"left {shown(path)}{hidden(path)}"
        elif streams.is_file(path, walk.files):
            yield f"file {shown(path)} {len(walk.files[path])} module {made.places[path]}{hidden(path)}"
        else:
            yield f"folder {shown(path)} {len(children[path])} module {made.places[path]}{hidden(path)}"
    for m, data in made.modules.items():
        yield f"module {m} size {len(data)} blocks {-(-len(data) // streams.BLOCK)} weight {streams.BUILT.weights.get(m, 1)}"
    sections = [*streams.cycle(made, streams.BUILT.weights)]
    packets = sum(1 for _ in streams.BUILT.lay(sections))
    time = -(-8000 * 188 * packets // bitrate)
    yield f"cycle sections {len(sections)} packets {packets} bytes {188 * packets} milliseconds {time}"


def planned(folder, carousel, bitrate):
    """The status, what `plan` writes, and its line on standard error."""
    folder = os.fsencode(folder)
    try:
        walk = Walk(folder)
        judge(folder, walk.files)
        told, status = [*lines(walk, carousel, bitrate)], 0
    except Stopped as stopped:
        told, status = [stopped.line], stopped.status
    return status, "".join(f"{line}\n" for line in told).encode(), FAULT if status == 6 else b""
