"""What `extract` makes of a carousel's files in a new folder, and its line on each. It shares no
code with the crates."""

import os

from models import receiver
from models.paths import escaped, is_name, printed
from tools.program import Ended

# The name under which a file is written, before it has its own.
PART = b".carousel-part"


def is_file_name(name):
    """Whether a name of a path can be that of a file."""
    try:
        name.decode()
    except UnicodeDecodeError:
        return False
    return name not in (b".", b"..", PART)


def passed(path):
    return b"passed " + b"".join(b"/" + escaped(name) for name in path)


def lines_of(path, answer):
    """The lines of a path whose names can be those of files."""
    if not receiver.is_found(answer):
        return [printed(path) + b" " + answer.text.encode()]
    kind, number = answer.text.encode().split(b" ")
    return [b"%s %s %s" % (kind, printed(path), number)] + [passed(path + (name,)) for name in answer.names or [] if not is_name(name)]


def extracted(held):
    """The contents by path, with None for a folder, and how the command ends where it meets no
    fault."""
    tree, lines, more = {}, [], []
    for number, (path, answer) in enumerate(receiver.listed(held)):
        if number == receiver.MOST_LINES:
            more = [b"more"]
            break
        if all(map(is_file_name, path)):
            lines += lines_of(path, answer)
            if receiver.is_found(answer):
                tree[path] = answer.content
        elif all(map(is_file_name, path[:-1])):
            lines.append(passed(path))
    lines += more
    whole = all(line.startswith((b"file ", b"folder ")) for line in lines)
    return tree, Ended(0 if whole else 1, b"".join(line + b"\n" for line in lines), b"")


def write(tree, folder):
    """Writes such contents, each folder before what is in it."""
    for path, content in tree.items():
        place = os.path.join(os.fsencode(folder), *path)
        if content is None:
            os.mkdir(place)
        else:
            with open(place, "xb") as out:
                out.write(content)


def content_of(path):
    if os.path.islink(path):
        return os.readlink(path)
    with open(path, "rb") as file:
        return file.read()


def tree_in(folder):
    """What stands in a folder of the system, as `extracted` has it; no paths where there is none. A
    link is its target's text."""
    folder, tree = os.fsencode(folder), {}
    if not os.path.lexists(folder):
        return tree
    for at, folders, names in os.walk(folder):
        front = () if at == folder else tuple(os.path.relpath(at, folder).split(b"/"))
        tree[front] = None
        for name in names + [name for name in folders if os.path.islink(os.path.join(at, name))]:
            tree[front + (name,)] = content_of(os.path.join(at, name))
    return tree
