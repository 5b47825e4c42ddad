"""Random scripts for bench/check/rehearse, bench/check/session and the models' own tests, each by
its number."""

import random

# Paths of which some lie below others, so that edits are refused now and then.
PATHS = [b"/a", b"/b", b"/d", b"/d/x", b"/d/y", b"/d/x/z", b"/index.html", b"/news/today.txt", b"/a%20b", b"/%41", b"/\xC3\xA9", b"/" + b"n" * 254]
ASKED = PATHS + [b"/", b"/news", b"/no/such", b"/a/b", b"/" + b"/".join([b"p"] * 16)]

# A line of each way to be wrong. The cause is the model's own to find; the models' tests have it
# beside the line.
WRONG = {
    b"unknown word": [b"frobnicate 1", b" commit 1", b"PUT 1 /a -", b" ", b"commit1", b"\r", b"finale\t1 /a", b"put\x00", b"mkdirs 1 /a", b"RMDIR 1 /a"],
    b"bad number": [
        b"commit 0", b"commit 65", b"commit 01", b"commit +1", b"commit 1\r", b"commit ", b"commit x", b"commit  1", b"put a b c",
        b"draw 0", b"draw 1048577", b"draw 99999999999999999999999", b"fill 1 /a 16777218 0", b"fill 1 /a 1 256", b"fill 1 /a -1 0",
        b"open 1\xFF /a", b"put /a 1 00", b"mkdir 0 /a", b"mkdir /a", b"rmdir 65 /a", b"rmdir 1\t /a",
    ],
    b"bad path": [
        b"open 1 relative", b"open 1 ", b"put 1 /a//b 00", b"remove 1 /a/", b"open 1 /%2f", b"open 1 /%00", b"open 1 /%4", b"open 1 /%zz",
        b"put 1 " + b"/a" * 17 + b" -", b"open 1 /" + b"n" * 255, b"put 1  /a 00", b"open 1 //", b"fill 1 a x y", b"mkdir 1 a",
        b"mkdir 1 /a/", b"rmdir 1 ", b"rmdir 1 /%2F",
    ],
    b"bad hex": [b"put 1 /a 0", b"put 1 /a 0g", b"put 1 /a --", b"put 1 /a ", b"put 1 /a 00-", b"put 1 /a +1", b"put 1 /a 0_0_"],
    b"bad fate": [
        b"draw 5 x1", b"draw 5 k0", b"draw 5 d65537", b"draw 5 f1504", b"draw 5 f01", b"draw 5 k", b"draw 5 ", b"draw 5 k1  d1",
        b"draw 5 k65536 k1", b"draw 5 k1 K1", b"draw 5 d65535 f3 f3", b"draw 5 k1 ", b"draw 5 k+1",
    ],
    b"word missing": [
        b"put", b"put 1", b"put 1 /a", b"fill 1 /a", b"fill 1 /a 3", b"remove 2", b"mkdir", b"mkdir 2", b"rmdir 64", b"commit", b"draw", b"open",
        b"open 3",
    ],
    b"extra word": [
        b"commit 1 2", b"commit 1 ", b"put 1 /a 00 00", b"open 1 /a /b", b"remove 1 /a ", b"mkdir 1 /a -", b"rmdir 1 /a /b", b"rmdir 1 /a ",
        b"fill 1 /a 3 4 5", b"start now", b"settle ",
    ],
}


def pick(chance, paths=PATHS):
    return chance.choice(paths)


def fates(chance):
    """Some words of fates, or none."""
    kinds = [b"k%d" % chance.randrange(1, 60), b"d%d" % chance.choice([1, 1, 1, 2, 15, 16, 17]), b"f%d" % chance.randrange(1504)]
    if chance.random() < 0.4:
        return []
    return [chance.choice(kinds) if chance.random() < 0.6 else b"k%d" % chance.randrange(1, 400) for _ in range(chance.randrange(1, 6))]


def edit(chance, editors=range(1, 4)):
    editor, kind = chance.choice(editors), chance.random()
    if kind < 0.4:
        content = chance.randbytes(chance.choice([0, 1, 3, 30])).hex().encode() or b"-"
        return b"put %d %s %s" % (editor, pick(chance), content.upper() if chance.random() < 0.2 else content)
    if kind < 0.6:
        length = chance.choice([0, 1, 500, 3905, 3906, 4066, 9000, 40_000, 65_492, 65_493, 70_000])
        return b"fill %d %s %d %d" % (editor, pick(chance), length, chance.randrange(256))
    return b"%s %d %s" % (chance.choice([b"remove", b"remove", b"mkdir", b"mkdir", b"rmdir"]), editor, pick(chance))


def draw(chance):
    asked = chance.choice([1, 1, 2, 3, 5, 20, 256, 1_048_576, 1_048_576])
    return b" ".join([b"draw %d" % asked, *fates(chance)])


def opened(chance, word=b"open", readers=(1, 2, 3, 64)):
    return b"%s %d %s" % (word, chance.choice(readers), pick(chance, ASKED))


def line(chance):
    kind = chance.random()
    if kind < 0.35:
        return edit(chance)
    if kind < 0.55:
        return b"commit %d" % chance.randrange(1, 5)
    if kind < 0.7:
        return draw(chance)
    if kind < 0.97:
        return opened(chance)
    return chance.choice([b"", b"# nothing", b"#put", b"# \xFF"])


def many_commits(chance):
    """Commits of one file, as many as make its module's version begin again, with some sections
    heard on the way."""
    path = pick(chance)
    far = chance.choice([3, 100, 254, 255, 256, 257, 300, 512])
    lines = [b"put 1 /keep 6b656570", b"fill 2 /large 70000 3", b"commit 1", b"commit 2", draw(chance), b"draw 1048576"]
    for _ in range(chance.randrange(1, 4)):
        kind = chance.choice([b"put 1 %s %02x", b"fill 1 %s 66000 %d", b"#%s %d"])
        for k in range(far + chance.choice([-1, 0, 0, 0, 1])):
            lines += [kind % (path, k % 256), b"commit 1"]
        lines += [opened(chance), draw(chance), opened(chance), b"open 1 /keep", b"open 1 /large", b"open 2 " + path, b"draw 1048576", b"open 1 " + path]
    return lines


def ending(chance):
    lines = [b"settle"] if chance.random() < 0.5 else []
    return lines + [opened(chance, b"finale") for _ in range(chance.randrange(4))]


def right(chance):
    """The lines of a script in which all is right."""
    lines = [line(chance) for _ in range(chance.choice([0, 1, 10, 60, 150, 300]))]
    if chance.random() < 0.15:
        lines += many_commits(chance)
    if chance.random() < 0.3:
        lines.insert(chance.randrange(len(lines) + 1), b"start")
    return lines + ending(chance)


def wrong(chance):
    """A script with a line that is wrong, or in which a byte or a line is another one."""
    lines, kind = right(chance), chance.random()
    place = chance.randrange(len(lines) + 1)
    if kind < 0.5:
        lines.insert(place, chance.choice(WRONG[chance.choice(sorted(WRONG))]))
    elif kind < 0.65:
        lines[place:place] = chance.sample([b"start", b"start", b"settle", b"settle", b"finale 1 /a", b"draw 1"], 3)
    elif lines and kind < 0.8:
        words = lines[place - 1].split(b" ")
        words.insert(chance.randrange(len(words) + 1), words[chance.randrange(len(words))])
        lines[place - 1] = b" ".join(words)
    elif lines:
        text = bytearray(lines[place - 1] or b"#")
        text[chance.randrange(len(text))] = chance.choice(b" 0/%-kz\r\xFF")
        lines[place - 1] = bytes(text)
    return lines


# What scripts are spelled with, so that bytes drawn of it get past the first word now and then.
LETTERS = [b" ", b"\n", b"#", b"-", b"/a", b"%41", b"\r\n", b"\0", b"\xFF", *(b"%d " % n for n in (0, 1, 2, 64, 65)), *(b"%s " % it for it in (
    b"put", b"fill", b"remove", b"mkdir", b"rmdir", b"commit", b"draw", b"open", b"start", b"settle", b"finale", b"k3", b"d1", b"f9",
))]


def any_bytes(chance):
    """Bytes of no script: any at all, any of a script's words, or a right script that is cut,
    joined or written over."""
    text, place = b"\n".join(right(chance)), chance.random()
    first = int(place * len(text))
    return chance.choice([
        chance.randbytes(chance.choice([1, 3, 100, 5000])),
        b"".join(chance.choices(LETTERS, k=chance.choice([3, 10, 200]))),
        text[:first],
        text[:first] + chance.randbytes(chance.choice([1, 2, 30])) + text[first:],
        text[first:] + text[:first],
        text.replace(b"\n", b"\r\n", chance.choice([1, -1])),
    ])


def script(number):
    chance = random.Random(number)
    if number % 10 == 5:
        return any_bytes(chance)
    lines = wrong(chance) if number % 4 == 3 else right(chance)
    return b"\n".join(lines) + (b"\n" if lines and chance.random() < 0.9 else b"")


# Scripts of sessions.

def fill_of_the_first(chance, editors):
    """Large files before `start`, so that draws and opens take their time."""
    editor = chance.choice(editors)
    fills = [b"fill %d /large/%d %d %d" % (editor, n, chance.choice([9000, 40_000, 150_000]), n) for n in range(chance.randrange(1, 3))]
    return [*fills, b"commit %d" % editor, b"draw 1048576"]


def session_line(chance, editors, readers, shares):
    kind = chance.choices(["edit", "commit", "draw", "open"], shares)[0]
    if kind == "edit":
        return edit(chance, editors)
    if kind == "commit":
        return b"commit %d" % chance.choice(editors)
    if kind == "draw" or not readers:
        return draw(chance)
    return opened(chance, readers=readers)


def right_session(chance):
    """The lines of a session of 1 to 5 editors and 0 to 5 readers, all right: some actors have no
    line, others many."""
    editors, readers = (chance.sample(range(1, 65), count) for count in (chance.randrange(1, 6), chance.randrange(6)))
    shares = chance.choice([[3, 2, 1, 3], [3, 2, 1, 3], [1, 1, 1, 12], [2, 9, 1, 2], [1, 1, 3, 6]])
    lines = [session_line(chance, editors, readers, shares) for _ in range(chance.choice([0, 4, 30, 100, 100, 250]))]
    if chance.random() < 0.1:
        lines += [b"put %d /a %02x\ncommit %d" % (editor, n % 256, editor) for n in range(130) for editor in editors[:3]]
    if chance.random() < 0.6:
        lines.insert(int(len(lines) * chance.random() ** 3), b"start")
    if chance.random() < 0.2:
        lines = fill_of_the_first(chance, editors) + lines
    lines += [b"settle"] if chance.random() < 0.6 else []
    return lines + [opened(chance, b"finale", readers or [1]) for _ in range(chance.randrange(6))]


def session(number):
    """A script for `session`; every tenth has another line somewhere, which is wrong in most."""
    chance = random.Random(f"session {number}")
    lines = right_session(chance)
    if number % 10 == 9:
        lines.insert(chance.randrange(len(lines) + 1), chance.choice(WRONG[chance.choice(sorted(WRONG))] + [b"start", b"settle", b"finale 1 /a"]))
    return b"\n".join(lines) + b"\n"


def full_sessions():
    """Sessions with more commits than a season has, and with more bytes than may be put, beside
    their names."""
    commits = [b"commit %d" % (1 + n % 5) for n in range(16_400)]
    yield "a full season", [*commits, *[b"draw 3\nopen 1 /\nopen 2 /"] * 40, b"settle", b"finale 2 /"]
    puts = [b"fill %d /%d %d 1\ncommit %d" % (editor, editor, length, editor) for length in (16_777_216, 16_000_000, 5) for _ in range(9) for editor in (1, 2)]
    yield "a full journal", [*puts, b"fill 1 /1 5 7", b"commit 1", b"start", *puts, b"put 2 /2 32", b"commit 2", b"settle", b"finale 2 /2"]


# Scripts of edits alone, in every order.

FAMILIES = [[b"/d", b"/d/x", b"/d/x/y"], [b"/d", b"/d/x", b"/e"]]
EDITS = [b"put 1 %s 61", b"remove 1 %s", b"mkdir 1 %s", b"rmdir 1 %s"]


def edits_in_order():
    """Each script beside its name. A commit has three of all edits of three paths, on the empty
    tree: what it left is taken away by the commits after it, of which each has one edit, and many
    are refused. Before that the root and the three paths are opened."""
    for paths in FAMILIES:
        edits = [edit % path for path in paths for edit in EDITS]
        away = [b"%s 1 %s\ncommit 1" % (word, path) for path in reversed(paths) for word in (b"remove", b"rmdir")]
        seen = [b"draw 9", *(b"open 1 " + path for path in (b"/", *paths))]
        for first in edits:
            lines = [line for second in edits for third in edits for line in [first, second, third, b"commit 1", *seen, *away]]
            yield f"{first.decode()} first, of {' '.join(path.decode() for path in paths)}", lines


def edits_at_random(number):
    """A script of commits of a few such edits, each on what the ones before it left; the root and
    the three paths are opened after some, and packets are lost on the way."""
    chance = random.Random(f"folders {number}")
    paths, lines = chance.choice(FAMILIES), []
    edits = [edit % path for path in paths for edit in [*EDITS, *chance.choices(EDITS, k=2)]]
    for _ in range(chance.choice([10, 40, 120])):
        lines += [*chance.choices(edits, k=chance.choice([0, 1, 1, 1, 2, 3, 8])), b"commit 1"]
        if chance.random() < 0.6:
            lines += [draw(chance), *(b"open 1 " + path for path in (b"/", *paths))]
    return [*lines, b"settle", *(b"finale 1 " + path for path in (b"/", *paths))]


# Scripts of files each of which has a module of its own, so many that several DIIs list them.

def some_draws(chance):
    """Draws of a generation's first items, in any of which packets may be lost, and mostly of the
    rest of its cycle."""
    first = [b"draw %d" % chance.choice([1, 1, 1, 2, 3]) for _ in range(chance.choice([0, 2, 3, 4]))]
    rest = chance.choice([[], [b"draw %d" % chance.randrange(1, 900)], [b"draw 1048576"], [b"draw 1048576 k%d d%d" % (chance.randrange(900, 9000), chance.choice([1, 16, 60]))]])
    return [draw + chance.choice([b"", b"", b"", b" d60", b" k24 d1"]) for draw in first] + rest


def in_groups(number):
    """A script of commits of which each puts, changes or removes a few of these files; DIIs are
    lost on the way, and others aren't."""
    chance = random.Random(f"groups {number}")
    names = [b"/f%03d" % n for n in range(chance.choice([138, 139, 140, 141, 150, 277, 278, 279, 290]))]

    def put(name):
        return b"fill 1 %s %d %d" % (name, chance.choice([65_493, 65_493, 65_493, 65_492, 70_000, 10]), chance.randrange(256))

    lines = [*(b"fill 1 %s 65493 %d" % (name, n % 256) for n, name in enumerate(names)), b"commit 1", b"draw 1048576", b"start"]
    for _ in range(chance.choice([2, 4, 6])):
        kind = chance.choice(["nothing", "nothing", "few", "few", "last go", "more"])
        if kind == "few":
            lines += [put(name) for name in chance.sample(names, chance.choice([1, 2, 5]))]
        if kind == "last go":
            gone = names[-chance.choice([1, 2, 11, 13]):]
            lines += [b"remove 1 " + name for name in gone]
            names = names[:-len(gone)]
        if kind == "more":
            more = [b"/g%03d%d" % (n, len(lines)) for n in range(chance.choice([1, 2, 12]))]
            lines, names = [*lines, *map(put, more)], [*names, *more]
        asked = [*chance.sample(names, 3), names[0], names[-1], b"/"]
        lines += [b"commit 1", *(line for draw in some_draws(chance) for line in [draw, *(b"open 1 " + path for path in asked)])]
    return [*lines, b"settle", *(b"finale 1 " + path for path in [b"/", *chance.sample(names, 5), names[-1]])]


# Scripts at the limits. Each is large, or takes a while.

def limits():
    """Each script beside its name: what is just within a limit, and what passes it."""
    deep = [b"put 1 /deep/%d/%d -" % (n // 91, n % 91) for n in range(8192)]
    flat = [b"put 1 /%d -" % n for n in range(8192)]
    yield "objects", [*flat[:8191], b"commit 1", flat[8191], b"commit 1", *deep, b"commit 1", b"draw 1048576", b"open 1 /3"]
    # names of 254 bytes and one of 140 fill a folder of 1,048,576 bytes
    names = [b"put 1 /d/%s -" % (b"%04d" % n).rjust(254, b"x") for n in range(4096)]
    full = [*names[:3120], b"put 1 /d/%s -" % (b"y" * 140), b"commit 1"]
    over = [b"remove 1 /d/" + b"y" * 140, b"put 1 /d/%s -" % (b"y" * 141), b"commit 1"]
    yield "a folder", [*full, *over, *names, b"commit 1", b"draw 1048576 k400 d1", b"open 1 /d", b"draw 1048576", b"open 1 /d"]
    modules = [b"fill 1 /%d 65493 %d" % (n, n % 256) for n in range(2224)]
    yield "modules", [*modules, b"commit 1", *modules[1:], b"commit 1", b"draw 1048576", b"open 1 /138", b"open 1 /2223"]
    yield "a file", [b"fill 1 /a 16777217 0", b"commit 1", b"fill 1 /a 16777216 0", b"commit 1", b"draw 1048576", b"finale 1 /a"]
    yield "generations", [*[b"commit 1"] * 16_384, b"draw 1", b"put 1 /a -", b"commit 1", b"draw 1048576", b"open 1 /"]
    # fifteen files of 16,777,216 bytes and one of 16,775,150 have 268,435,456 bytes with their
    # headers
    large = [b"fill 1 /%c 16777216 %d" % (97 + n, n) for n in range(15)]
    yield "bytes", [*large, b"fill 1 /p 16775150 0", b"commit 1", b"fill 1 /p 16775151 0", b"commit 1"]
    yield "what is put", [*[b"fill 1 /a 16777216 1"] * 32, b"commit 1", b"mkdir 2 /c", b"commit 2", b"put 2 /b 00", b"commit 2", b"commit 3"]
    bare = [b"mkdir 1 /%d/%d" % (n // 91, n % 91) for n in range(8102)]
    yield "folders", [*bare[:8101], b"commit 1", bare[8101], b"commit 1", b"draw 1048576", b"open 1 /7", b"open 1 /7/7"]


# Scripts as long as they may be.

def lines_of_all_kinds(count):
    """So many short lines: mostly opens, as many commits as a season has, draws, and lines that say
    nothing."""
    edits = [b"put 1 /a 61", b"remove 1 /a"]
    for n in range(count):
        if n % 120 == 0:
            yield edits[n // 120 % 2]
        elif n % 120 == 1:
            yield b"commit 1"
        elif n % 20 == 3:
            yield b"draw 1"
        else:
            yield b"open 1 /" if n % 5 < 3 else b"#"


def filled_up(text, length):
    """The script with a comment after it that makes it so long."""
    return text + b"#" * (length - len(text))


def long(most):
    """Scripts of `most` bytes and one more, beside their names, and one of 2,000,000 lines."""
    right = b"put 1 /a 61\ncommit 1\ndraw 9\nopen 1 /a\n"
    hexadecimal = (most - len(b"put 1 /a \ncommit 1\n")) // 2 * b"5a"
    yield "the greatest number of bytes", filled_up(right, most)
    yield "a byte more", filled_up(right, most + 1)
    yield "a byte more, after a wrong line", filled_up(b"frobnicate\n" + right, most + 1)
    yield "a line with as many digits as fit", b"put 1 /a %s\ncommit 1\n" % hexadecimal
    yield "one word", b"x" * most
    yield "line feeds alone", b"\n" * most
    yield "any bytes", random.Random(0).randbytes(most)
    yield "any bytes, and one more", random.Random(1).randbytes(most + 1)
    yield "2,000,000 lines", b"\n".join(lines_of_all_kinds(2_000_000)) + b"\n"
