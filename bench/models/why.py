"""What is wrong with the words of a command, by the words that stand on its page of help and their
ranges there."""

import os
import re
import string

from models.paths import BadPath, parsed

LETTERS = set(string.ascii_lowercase + string.digits)


def numbers(least, most):
    def fits(word):
        return re.fullmatch(r"0|[1-9][0-9]*", word) is not None and least <= int(word) <= most

    return f"{least} to {most}", fits


def is_path(word):
    try:
        parsed(os.fsencode(word))
    except BadPath:
        return False
    return True


def is_table(word):
    for entry in word.split(","):
        name, sign, where = entry.partition("=")
        if not sign or not 1 <= len(name) <= 32 or set(name) - LETTERS or not PID[1](where):
            return False
    return True


PID = numbers(0, 8190)
U32 = 2**32 - 1
RULES = {
    "ID": numbers(0, 65_535),
    "VERSION": numbers(0, 255),
    "SIZE": numbers(0, 16_842_752),
    "DOWNLOAD": numbers(0, U32),
    "PID": PID,
    "CAROUSEL": numbers(0, U32),
    "CYCLES": numbers(1, 1000),
    "BITRATE": numbers(1, U32),
    "N": numbers(1, 16),
    "FOLDER": ("not empty, and not beginning with -", lambda word: word != ""),
    "PATH": ("/, or / before each of 1 to 16 names", is_path),
    "TABLE": ("NAME=PID, or several with commas between; NAME 1 to 32 letters a to z or digits, PID 0 to 8190", is_table),
    "PID of open": ("0 to 8190, or sections", lambda word: word == "sections" or PID[1](word)),
}

# The words of each command as its page has them. PATH.. are one or more.
PAGES = {
    "assemble": "ID VERSION SIZE DOWNLOAD",
    "big": "N",
    "extract": "PID FOLDER",
    "find": "CAROUSEL",
    "inspect": "PID",
    "list": "PID",
    "mounts": "TABLE PATH..",
    "open": "PID PATH..",
    "open-id": "CAROUSEL PATH..",
    "plan": "FOLDER CAROUSEL BITRATE",
    "publish": "FOLDER CAROUSEL CYCLES",
    "publish-on": "PID FOLDER CAROUSEL CYCLES",
    "publish-psi": "FOLDER CAROUSEL CYCLES",
    "record": "PID",
    "rehearse": "",
    "session": "",
    "watch": "PID PATH..",
}


def name_at(command, place):
    """The name of the word at a place behind the command's, from 0, if one may stand there."""
    names = PAGES[command].split()
    if names and names[-1] == "PATH..":
        first = names[:-1]
        most = 1024 if command == "watch" else float("inf")
        return first[place] if place < len(first) else "PATH" if place - len(first) < most else None
    return names[place] if place < len(names) else None


def why(words):
    """The line, without its line feed."""
    if not words:
        return "too few COMMAND"
    command, behind = words[0], words[1:]
    if command == "why":
        return "fits"
    if command not in PAGES:
        return "word 1 COMMAND unknown"
    for place, word in enumerate(behind):
        name = name_at(command, place)
        if name is None:
            return f"word {place + 2} too many"
        rule, fits = RULES["PID of open" if (command, name) == ("open", "PID") else name]
        if word.startswith("-") or not fits(word):
            return f"word {place + 2} {name} {rule}"
    return f"too few {name_at(command, len(behind))}" if len(behind) < len(PAGES[command].split()) else "fits"
