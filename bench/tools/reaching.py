"""Which definitions of specs/ the names in a text reach, directly and through one another.

A definition is one name at the top of a page, with its clauses, fields or constructors and the
comment directly above it. What a page sees of the Rust source, its types and constants, is kept
apart. What std and the kit's crates define counts for nothing. A name that is neither bound nor
known ends the script, so that no page is read wrongly in silence.
"""

import os
import re
from collections import namedtuple

TOKEN = re.compile(r'--[^\n]*|"(?:\\.|[^"\\\n])*"|«([^»]*)»|\n|[(){}.;,@]|[^\s(){}.;,@"«»]+')
SIGNS = set("(){}.;,@\n") | set("= : | → × ↦ ← [ ] _ 𝕀".split())
# Words of the language, and names that no page imports.
WORDS = set("record data where let in do elim as λ ∀ Type module unfolding".split())
BUILT_IN = set("tt Unit absurd ⊥ ¬◌ ⊎ ↔ refl Prim yes no".split())
MARKS = {"pattern", "unfoldable", "abbrev", "axiom", "pub"}
USE = re.compile(r"(?:ghost )?(?:pub )?use ([\w.]+?)(?:\.\{([^}]*)\}| as (\w+))?;?\s*$")

Token = namedtuple("Token", "text start end")
# What an import stands for: a name of a module, a list of words.
Import = namedtuple("Import", "module name")
# A type or constant of the source, by its crate and its place there.
Declared = namedtuple("Declared", "crate name")


class Misread(SystemExit):
    """A text that isn't as this module expects it."""


def tokens_of(text):
    """Its tokens without comments and quoted texts. «x» is the name x."""
    for it in TOKEN.finditer(text):
        if not it[0].startswith(("--", '"')):
            yield Token(it[1] or it[0], it.start(), it.end())


def is_name(text):
    return text not in SIGNS and text not in WORDS and not re.match(r"\d", text)


class Definition:
    def __init__(self, page, name, kind, first, bound):
        self.page, self.name, self.kind, self.bound = page, name, kind, bound
        self.lines, self.place, self.parts, self.reached = set(), first, [], None

    def __str__(self):
        return f"{self.page.path}:{self.place} {self.name}"


class Page:
    """A file of specs/, or what a .rt file imports for its clauses."""

    def __init__(self, path):
        self.path, self.own, self.constructors = path, {}, {}
        self.imports, self.aliases, self.lent = {}, {}, set()

    def take_use(self, line):
        found = USE.match(line)
        if not found:
            raise Misread(f"{self.path}: {line}")
        path, items, alias = found[1].split("."), found[2], found[3]
        if items is None:
            self.aliases[alias or path[-1]] = path
        for item in (items or "").split(","):
            name, _, other = item.strip().partition(" as ")
            if name:
                self.imports[other or name] = Import(path, name)
                if "pub use" in line:
                    self.lent.add(other or name)

    def operator_of(self, part):
        """The operator that has this part, as ◌>>=◌ has >>=."""
        for name in [*self.own, *self.imports]:
            if "◌" in name and part in name.split("◌"):
                return name
        return None


def indent_of(line):
    return len(line) - len(line.lstrip(" "))


def is_signature(line):
    return re.match(r"\S+( \{[^}:]*\})? :( |$)", line) is not None


def parsed(path, text):
    """The page of a file of specs/."""
    page, now, above, base, bound = Page(path), None, [], 0, set()
    for number, line in enumerate(text.split("\n"), 1):
        words = line.split()
        if not words:
            above = []
            continue
        if indent_of(line) < base:
            base, bound = 0, set()
        if indent_of(line) > base:
            if words[0].startswith("--") and indent_of(line) == 2 and now is None:
                above.append(number)
            if now:
                now.lines.add(number)
                now.parts[-1] += "\n" + line
                if now.kind == "data" and indent_of(line) == base + 2:
                    for name in line.partition(" : ")[0].split():
                        page.constructors[name] = now
            continue
        if words[0].startswith("--"):
            above.append(number)
            continue
        if words[0] in ("use", "mod") or words[:2] in (["pub", "use"], ["pub", "mod"]):
            if "use" in words[:2]:
                page.take_use(line)
            now, above = None, []
            continue
        if words[0] in ("infixl", "infixr", "infix"):
            above.append(number)
            continue
        if words[0] == "module":
            base, bound, now, above = 2, set(names_bound(line)), None, []
            continue
        while words[0] in MARKS:
            words.pop(0)
        kind = words.pop(0) if words[0] in ("record", "data") else "function"
        if line.strip() != "}" and (kind != "function" or is_signature(" ".join(words))):
            now = Definition(page, words[0], kind, number, bound)
            page.own[now.name] = now
            now.parts.append(line)
        elif now is None:
            raise Misread(f"{path}:{number}: {line}")
        elif line.strip() == "}":
            now.parts[-1] += "\n" + line
        else:
            now.parts.append(line)
        now.lines.update([*above, number])
        above = []
    return page


def names_bound(text):
    """The names before the colon of each bracket."""
    for group in re.findall(r"[({]([^(){}:]*) : ", text):
        yield from group.split()


class Walk:
    """Goes over the tokens of a term, and hands out each name with what is projected from it and
    whether it is bound there. A name stays bound to the end of the bracket in which it was."""

    def __init__(self, text, bound):
        self.source, self.tokens = text, [*tokens_of(text)]
        self.frames = [set(bound)]
        self.kinds, self.after, self.lets, self.line = [""], [()], [], set()
        # where the record that a literal changes ends, if it stands in brackets
        self.changed = set()

    def is_dot(self, i):
        """Whether a dot projects: nothing stands around it."""
        before, dot = self.tokens[i - 1], self.tokens[i]
        behind = self.tokens[i + 1] if i + 1 < len(self.tokens) else None
        near = behind and before.end == dot.start and behind.start == dot.end
        return near and behind.text != "\n"

    def text(self, i):
        return self.tokens[i].text if i < len(self.tokens) else ""

    def names_until(self, i, *ends):
        """The names from i on, where one of these ends stands behind them."""
        first = i
        while i < len(self.tokens) and is_name(self.text(i)):
            i += 1
        if i > first and self.text(i) in ends:
            return [it.text for it in self.tokens[first:i]]
        return []

    def bind(self, names):
        self.frames[-1].update(names)

    def opened(self, i):
        """Enters a bracket at i; where it binds names, the colon behind them is next."""
        before = i - 1
        while before > 0 and (is_name(self.text(before)) or self.text(before) == "."):
            before -= 1
        labels = self.text(i) == "{" and (self.text(before) == "record" or before in self.changed)
        changed = self.text(i) == "(" and self.text(i - 1) == "record"
        self.kinds.append("record" if labels else "changed" if changed else "")
        self.frames.append(set())
        names = [] if labels else self.names_until(i + 1, ":")
        self.after.append(names)
        return i + 1 + len(names)

    def closed(self, i):
        self.frames.pop()
        self.bind(self.after.pop())
        if self.kinds.pop() == "changed":
            self.changed.add(i)
        return i + 1

    def is_label(self, i):
        """Whether the name at i is that of a field, or of an implicit argument."""
        within = self.kinds[-1] == "record" and self.text(i - 1) in ("{", ";", "\n")
        return self.text(i + 1) == "=" and (within or self.text(i - 1) == "{")

    def lambda_at(self, i):
        """Binds what a λ binds, and hands out the names in the types there."""
        i, names = i + 1, []
        while i < len(self.tokens) and (self.text(i) != "." or self.is_dot(i)):
            typed = self.names_until(i + 1, ":") if self.text(i) in ("(", "{") else []
            if typed:
                names += typed
                first, i = i + 1 + len(typed), self.end_of(i)
                term = self.source[self.tokens[first].end:self.tokens[i].start]
                yield from Walk(term, set().union(*self.frames)).names()
            elif is_name(self.text(i)):
                names.append(self.text(i))
            i += 1
        self.bind(names)
        return i + 1

    def end_of(self, i):
        """Where the bracket at i closes."""
        depth = 0
        for end in range(i, len(self.tokens)):
            depth += (self.text(end) in ("(", "{")) - (self.text(end) in (")", "}"))
            if depth == 0:
                return end
        raise Misread(f"an open bracket: {self.source}")

    def names(self):
        i = 0
        while i < len(self.tokens):
            text = self.text(i)
            if text == "\n":
                self.bind(self.line)
                self.line = set()
            if text == "." and self.is_dot(i):
                i += 2
            elif text in ("(", "{"):
                i = self.opened(i)
            elif text in (")", "}"):
                i = self.closed(i)
            elif text == "λ":
                i = yield from self.lambda_at(i)
            elif text == "let":
                names = self.names_until(i + 1, "=", ":")
                self.lets.append(names)
                i += 1 + len(names)
            elif text == "in":
                self.bind(self.lets.pop())
                i += 1
            elif not is_name(text):
                if text == "do":
                    yield "◌>>=◌", [], False
                i += 1
            elif self.text(i + 1) == "←":
                self.line.add(text)
                i += 1
            elif self.is_label(i):
                i += 1
            else:
                i = yield from self.name_at(i)

    def name_at(self, i):
        head, behind = self.text(i), []
        i += 1
        while self.text(i) == "." and self.is_dot(i):
            behind.append(self.text(i + 1))
            i += 2
        yield head, behind, any(head in frame for frame in self.frames)
        return i


class Specs:
    """All pages below a folder `crates`."""

    def __init__(self, folder):
        self.folder, self.pages = folder, {}

    def page(self, crate, words):
        """The page of a module, and what of its words is left; None where there is none."""
        for end in range(len(words), 0, -1):
            path = os.path.join(crate, "specs", *words[:end]) + ".antt"
            if path not in self.pages and os.path.exists(os.path.join(self.folder, path)):
                with open(os.path.join(self.folder, path), encoding="utf-8") as text:
                    self.pages[path] = parsed(path, text.read())
            if path in self.pages:
                return self.pages[path], words[end:]
        return None, words

    def named(self, module, name):
        """What a name of a module is, and whether it is a constructor; None where std or the kit
        defines it."""
        root, crate, *rest = module
        if root != "Rattle" or not os.path.isdir(os.path.join(self.folder, crate)):
            return None, False
        if rest[0] != "specs":
            raise Misread(f"{'.'.join(module)} is no module of specs")
        if rest[1] in ("declared", "contracts"):
            return declared(crate, [*rest[2:], name]), "TheVariants" in rest
        page, behind = self.page(crate, rest[1:])
        if page is None:
            raise Misread(f"no page is {'.'.join(module)}")
        return self.on(page, behind[0] if behind else name)

    def on(self, page, name):
        """What a name is to whoever imports it from a page."""
        if name in page.own:
            return page.own[name], False
        if name in page.constructors:
            return page.constructors[name], True
        if name in page.lent:
            return self.named(*page.imports[name])
        raise Misread(f"{page.path} has no {name}")

    def seen(self, page, name):
        """What a name is on a page itself, KeyError where it is none there."""
        if name in page.own or name in page.constructors:
            return self.on(page, name)
        if name in page.imports:
            return self.named(*page.imports[name])
        operator = page.operator_of(name)
        if operator:
            return self.seen(page, operator)
        if name in BUILT_IN:
            return None, False
        raise KeyError(name)

    def through_alias(self, page, head, behind):
        """What `alias.name` is; None where the head is no alias, or the name a field."""
        if head not in page.aliases or not behind:
            return None
        try:
            return self.named(page.aliases[head], behind[0])
        except Misread:
            return None

    def free(self, page, text, bound, where):
        """What the free names of a term are."""
        for head, behind, is_bound in Walk(text, bound).names():
            found = self.through_alias(page, head, behind)
            if found is None and not is_bound:
                try:
                    found = self.seen(page, head)
                except KeyError:
                    raise Misread(f"{where}: {head} is neither bound nor known") from None
            if found and found[0]:
                yield found[0]

    def pattern(self, page, text):
        """What the constructors in the left side of a clause belong to, and the names it binds."""
        found, names = [], set()
        for head, behind, _ in Walk(text, ()).names():
            it = self.through_alias(page, head, behind)
            if it is None:
                try:
                    it = self.seen(page, head)
                except KeyError:
                    it = None, False
            if it[1]:
                found.append(it[0])
            elif not behind:
                names.add(head)
        return found, names

    def clause(self, page, text, bound, where):
        """What a clause names. What stands below its `where` is a part of it."""
        head, _, below = text.partition(" where\n")
        left, right = sides(head)
        found, names = self.pattern(page, left)
        local = [it for it in split_below(below) if it]
        bound = bound | names | {it.split()[0] for it in local if is_signature(it)}
        yield from found
        yield from self.free(page, right, bound, where)
        for it in local:
            if is_signature(it):
                yield from self.free(page, it.partition(":")[2], bound, where)
            else:
                yield from self.clause(page, it, bound, where)

    def direct(self, it):
        """What the text of a definition names."""
        if it.reached is None:
            if it.kind == "function":
                found = [*self.free(it.page, it.parts[0].partition(" : ")[2], it.bound, it)]
                for part in it.parts[1:]:
                    found += self.clause(it.page, part, it.bound, it)
            else:
                found = [*self.free(it.page, fields_as_term(it), it.bound, it)]
            it.reached = set(found) - {it}
        return it.reached

    def reached(self, starts):
        """All definitions that these reach, themselves among them, and all declared things."""
        found, left = set(), [*starts]
        while left:
            it = left.pop()
            if it not in found:
                found.add(it)
                if isinstance(it, Definition):
                    left += self.direct(it)
        apart = {it for it in found if isinstance(it, Declared)}
        return found - apart, apart


def declared(crate, words):
    """A type by its place in the source, without its variants or its inside; a constant."""
    if "TheConstants" in words:
        return Declared(crate, words[-1])
    for end, word in enumerate(words, 1):
        if word[0].isupper():
            return Declared(crate, ".".join(words[:end]))
    return Declared(crate, ".".join(words))


def sides(clause):
    """The left and right side of a clause: the first equals sign outside of brackets parts them."""
    depth = 0
    for it in tokens_of(clause):
        depth += (it.text in ("(", "{")) - (it.text in (")", "}"))
        if it.text == "=" and depth == 0:
            return clause[:it.start], clause[it.end:]
    raise Misread(f"no clause: {clause}")


def split_below(text):
    """The signatures and clauses below a `where`, each without its indentation."""
    lines = [line for line in text.split("\n") if line.strip() and line.strip()[:2] != "--"]
    least = min(map(indent_of, lines), default=0)
    parts = []
    for line in lines:
        if indent_of(line) == least:
            parts.append(line[least:])
        else:
            parts[-1] += "\n" + line
    return parts


def fields_as_term(it):
    """A record or a data type as one term: each field binds its name for those behind it."""
    head, _, body = it.parts[0].partition(" where\n")
    names = re.sub(r"^\s*(pub )?(record|data) \S+", "", head)
    parts = [re.sub(r"^(pub )?", "", part) for part in split_below(body)]
    if it.kind == "record":
        return names + "".join(f" ({part})" for part in parts)
    return names + "".join(f" ({part.partition(' : ')[2]})" for part in parts)
