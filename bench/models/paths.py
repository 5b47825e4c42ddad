"""Texts of paths, for the models and scripts of this folder. A path is a tuple of names, and a name
is bytes."""

import re

DEEPEST, LONGEST = 16, 254


class BadPath(Exception):
    pass


def escaped(name):
    return b"".join(bytes([b]) if 0x21 <= b <= 0x7E and b not in b"%/" else b"%%%02X" % b for b in name)


def printed(path):
    return b"".join(b"/" + escaped(name) for name in path) or b"/"


def is_name(name):
    return 0 < len(name) <= LONGEST and not {0, 0x2F} & set(name)


def parsed(text):
    """The path of a text, or BadPath."""
    if text == b"/":
        return ()
    if not text.startswith(b"/"):
        raise BadPath(text)
    words = text.split(b"/")[1:]
    if any(re.search(rb"%(?![0-9A-Fa-f]{2})", word) for word in words):
        raise BadPath(text)
    names = tuple(re.sub(rb"%(..)", lambda it: bytes([int(it[1], 16)]), word, flags=re.DOTALL) for word in words)
    if len(names) > DEEPEST or not all(map(is_name, names)):
        raise BadPath(text)
    return names
