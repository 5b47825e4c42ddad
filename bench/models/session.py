"""An independent model of the command `session`, for tests alone: which reports are those of a
session of a script.

A session has many reports, since its threads may meet in any order. `check` refuses a text that is
none of them, and `played` makes one of them by chance. What an event replies is the model's of
rehearse.py.
"""

import collections
from collections import namedtuple

from models import rehearse, streams
from models.paths import printed
from models.receptions import looked_up
from models.rehearse import Commit, Draw, World, answer_text

# While so few generations are published in all, no section can be taken for one of another
# generation.
NEAR = 255

# An open, and how many draws stand before it in the report, at least and at most.
Look = namedtuple("Look", "event least most is_finale")


class Wrong(Exception):
    """Why a text is no report of a session of its script."""


class Script:
    """A script by its actors: each editor's commits, the draws and each reader's opens, in written
    order."""

    def __init__(self, text):
        steps = [*rehearse.steps_of(text)]
        self.commits, self.draws, self.opens = {}, [], {}
        self.is_settled = (b"settle", None) in steps
        lines = sum(isinstance(event, Draw) for _, event in steps)
        start = steps.index((b"start", None)) if (b"start", None) in steps else 0
        self.first = [event for _, event in steps[:start] if isinstance(event, (Commit, Draw))]
        self.written = [event for _, event in steps if isinstance(event, (Commit, Draw))]
        before_start = sum(isinstance(event, Draw) for event in self.first)
        for place, (keyword, event) in enumerate(steps):
            if keyword == b"commit":
                self.commits.setdefault(event.editor, []).append(event)
            elif keyword == b"draw":
                self.draws.append(event)
            elif keyword == b"settle":
                self.draws += rehearse.settling()
            elif keyword == b"finale":
                self.look(event, len(self.draws), len(self.draws), True)
            elif keyword == b"open" and place < start:
                self.look(event, len(self.draws), len(self.draws))
            elif keyword == b"open":
                self.look(event, before_start, lines)

    def look(self, event, least, most, is_finale=False):
        self.opens.setdefault(event.reader, []).append(Look(event, least, most, is_finale))


class History:
    """The events of a report, taken line by line: each is the next of its actor, and the line is
    what the world replies.

    A commit line that found the season or the journal full has no event. It is passed over where it
    would be refused so at the editor's next commit, and nowhere else.
    """

    def __init__(self, script, is_merged=True, rules=streams.BUILT):
        self.script, self.is_merged, self.world = script, is_merged, World(rules)
        self.first, self.draws = collections.deque(script.first), collections.deque(script.draws)
        self.commits = {editor: collections.deque(events) for editor, events in script.commits.items()}
        self.opens = {reader: collections.deque(looks) for reader, looks in script.opens.items()}
        self.entered, self.drawn, self.last_reader, self.said = [], 0, 0, collections.Counter()

    def take(self, line):
        keyword, actor = [*line.split(b" "), b"", b""][:2]
        actor = int(actor) if actor.isdigit() else None
        if keyword == b"commit":
            self.commit(actor, line)
        elif keyword == b"draw":
            self.draw(line)
        elif keyword == b"open":
            self.open(actor, line)
        else:
            raise Wrong("it is no event's")

    def commit(self, editor, line):
        waiting = self.commits.get(editor, [])
        self.said["commits without an event"] += self.pass_over(waiting)
        if not waiting:
            raise Wrong(f"editor {editor} has no such commit left")
        event = waiting.popleft()
        self.enter(event)
        self.step(event, line)
        self.last_reader = rehearse.MOST_ACTOR + 1

    def draw(self, line):
        if not self.draws:
            raise Wrong("no such draw is left")
        event = self.draws.popleft()
        self.enter(event)
        self.step(event, line)
        self.drawn += 1
        self.last_reader = 0

    def open(self, reader, line):
        if not self.opens.get(reader):
            raise Wrong(f"reader {reader} has no such open left")
        look = self.opens[reader].popleft()
        if not look.least <= self.drawn <= look.most:
            raise Wrong(f"it stands after {self.drawn} draws, not after {look.least} to {look.most}")
        if self.is_merged and reader < self.last_reader:
            raise Wrong("it doesn't stand after its draw, among the opens there by their readers' numbers")
        self.last_reader = reader
        self.step(look.event, line)
        self.said["opens that saw more draws than they must"] += self.drawn > look.least
        if look.is_finale and self.script.is_settled and self.world.station.current.number <= NEAR:
            self.finale(look.event, line)

    def finale(self, event, line):
        """After `settle` a finale answers what the last tree has."""
        last = self.world.station.current
        answer = answer_text(looked_up(last.files, event.path))
        if line != f"open {event.reader} {last.number} {printed(event.path).decode()} {answer}".encode():
            raise Wrong("it isn't what the last tree has")
        self.said["finales of the last tree"] += 1

    def pass_over(self, commits):
        """Drops the commits that nothing is entered of any more, and counts them."""
        count = len(commits)
        while commits and isinstance(commits[0], Commit) and self.world.station.full(commits[0].edits):
            commits.popleft()
        return count - len(commits)

    def enter(self, event):
        """Commits and draws before `start` come before all others, in written order."""
        self.pass_over(self.first)
        if self.first and self.first.popleft() is not event:
            raise Wrong("another commit or draw before `start` comes before it")
        self.entered.append(id(event))

    def step(self, event, line):
        reply = self.world.step(event).encode()
        if line != reply:
            raise Wrong(f"the reply there is {reply[:200]!r}")
        self.said[kind(line.decode())] += 1

    def end(self):
        for editor, waiting in self.commits.items():
            self.said["commits without an event"] += self.pass_over(waiting)
            if waiting:
                raise Wrong(f"editor {editor}'s commits aren't all there")
        if self.draws:
            raise Wrong(f"{len(self.draws)} draws aren't there")
        for reader, waiting in self.opens.items():
            if waiting:
                raise Wrong(f"{len(waiting)} opens of reader {reader} aren't there")
        known = {*self.entered}
        written = [id(event) for event in self.script.written if id(event) in known]
        self.said["sessions in another order than written"] += self.entered[:len(written)] != written


def kind(line):
    """A right line without what is its own."""
    words = line.split(" ")
    return " ".join(words[place] for place in {"commit": [0, 2], "draw": [0], "open": [0, 4]}[words[0]])


def check(text, report, is_merged=True, rules=streams.BUILT):
    """Raises Wrong where the report is none of a session of the script. What was told, counted, is
    the answer.

    A rehearsal's report is the session's too but for the order, where opens may stand anywhere
    after their draw: so without `is_merged`.
    """
    history = History(Script(text), is_merged, rules)
    lines = report.split(b"\n")
    if lines.pop():
        raise Wrong("the last line has no end")
    for number, line in enumerate(lines, 1):
        try:
            history.take(line)
        except Wrong as fault:
            raise Wrong(f"line {number}, {line[:200]!r}: {fault}") from None
    history.end()
    return history.said


# Sessions by chance

def mixed(chance, lists):
    """Some lists in one, each in its order: in turns, or in long runs."""
    if chance.random() < 0.2:
        lists = chance.sample(lists, len(lists))
        return [it for one in lists for it in one]
    turns = [place for place, one in enumerate(lists) for _ in one]
    chance.shuffle(turns)
    lists = [iter(one) for one in lists]
    return [next(lists[place]) for place in turns]


def entries(script, chance):
    """The commits and draws in one order: those before `start` as they are written, and those of
    `settle` last."""
    before = {id(event) for event in script.first}
    last = len(script.draws) - 2 * script.is_settled
    actors = [*script.commits.values(), script.draws[:last]]
    rest = [[event for event in events if id(event) not in before] for events in actors]
    return script.first + mixed(chance, rest) + script.draws[last:]


def looks_by_draws(script, chance):
    """The opens after each number of draws, by their readers' numbers."""
    found = collections.defaultdict(list)
    for reader in sorted(script.opens):
        looks = script.opens[reader]
        seen = sorted(chance.randint(look.least, look.most) for look in looks)
        for drawn, look in zip(seen, looks):
            found[drawn].append(look.event)
    return found


def played(text, chance, rules=streams.BUILT):
    """The report of a session as it might have gone."""
    script, world = Script(text), World(rules)
    looks, drawn = looks_by_draws(script, chance), 0
    lines = [world.step(event) for event in looks[0]]
    for event in entries(script, chance):
        if isinstance(event, Draw):
            drawn += 1
            lines += [world.step(it) for it in [event, *looks[drawn]]]
        elif not world.station.full(event.edits):
            lines.append(world.step(event))
    return "".join(f"{line}\n" for line in lines).encode()


def session(text, chance, rules=streams.BUILT):
    """The status, the report and the line on standard error of a session."""
    return rehearse.ended(text, lambda it: played(it, chance, rules))
