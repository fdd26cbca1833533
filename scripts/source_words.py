"""The text of a source file word by word, as `rt fmt` lays it out, and where in it the bodies of functions are."""

import dataclasses
import pathlib
import re

WORD = re.compile(
    r"""(?P<space>\s+)|(?P<comment>//[^\n]*|/\*.*?\*/)
    |(?P<string>b?r(?P<hashes>\#*)".*?"(?P=hashes)|b?"(?:\\.|[^"\\])*")
    |(?P<letter>b?'(?:\\[^\n']+|[^'\\\n])')|(?P<lifetime>'[A-Za-z_]\w*)
    |(?P<number>\d\w*)|(?P<name>[^\W\d]\w*)
    |(?P<sign>\.\.=|<<=|>>=|->|=>|::|==|!=|<=|>=|&&|\|\||\.\.|[-+*/%^&|]=|.)""",
    re.VERBOSE | re.DOTALL,
)
CLAUSES = {"requires", "ensures", "measure", "decreases", "invariant", "unfolding"}
OPENING, CLOSING = set("([{"), set(")]}")


def words_of(text):
    """The words of a text, as (kind, word, start, end), without spaces and comments."""
    found = []
    for match in WORD.finditer(text):
        if match.lastgroup not in ("space", "comment"):
            kind = "string" if match.lastgroup == "hashes" else match.lastgroup
            found.append((kind, match[0], match.start(), match.end()))
    return found


def in_one_line(text):
    """The text without comments, in one line."""
    parts = [" " if match.lastgroup in ("space", "comment") else match[0] for match in WORD.finditer(text)]
    return re.sub(r" +", " ", "".join(parts)).strip()


def pairs_of(words):
    """Where each bracket that opens is closed, and where each that closes is opened."""
    pairs, opened = {}, []
    for at, (kind, word, *_) in enumerate(words):
        if kind == "sign" and word in OPENING:
            opened.append(at)
        elif kind == "sign" and word in CLOSING and opened:
            pairs[at] = opened.pop()
            pairs[pairs[at]] = at
    return pairs


@dataclasses.dataclass(frozen=True)
class Function:
    """A function of a file in src/: the lines where its head, its body and the end of both are. The prover names an impl by its type, and
    then by its trait. If others of the file have the same name, its impl tells it from them; if not even that does, it has a namesake."""

    file: str
    name: str
    first: int
    body: int
    last: int
    owner: str = r"\w+"
    has_namesake: bool = False

    def module(self):
        parts = self.file.removeprefix("src/").removesuffix(".rt").split("/")
        return parts[:-1] if parts[-1] in ("lib", "main", "mod") else parts

    def is_at(self, line):
        """Whether a line of the prover is of this function: of its code, or of what is written of its proof."""
        if at := re.match(r"(?:note: )?(?:\./)?(src/\S+?):(\d+):", line):
            return at[1] == self.file and self.first <= int(at[2]) <= self.last
        owner = r"(\S+/)?" if self.owner == r"\w+" else self.owner + "/" if self.owner else ""
        return bool(re.match(rf"(note: )?(\./)?{'/'.join(['proofs', *self.module()])}/{owner}{self.name}/", line))

    def is_unproved_by(self, line, crate):
        """Whether a line of the prover says that this function, or a closure in it, isn't proved."""
        owner = rf"({self.owner}::)?" if self.owner == r"\w+" else f"{self.owner}::" if self.owner else ""
        found = re.match(rf"fn {'::'.join([crate, *self.module()])}::(fn::)?{owner}{self.name}(::\S+)?: (?P<told>.*)", line)
        return bool(found) and (found["told"] == "not proved" or found["told"].startswith("no proof: expected"))


class Source:
    """One file of a crate, word by word."""

    def __init__(self, file, text):
        self.file, self.text = file, text
        self.words = words_of(text)
        self.pairs = pairs_of(self.words)

    def word(self, at):
        return self.words[at][1] if 0 <= at < len(self.words) else ""

    def kind(self, at):
        return self.words[at][0] if 0 <= at < len(self.words) else ""

    def start(self, at):
        return self.words[at][2]

    def end(self, at):
        return self.words[at][3]

    def line(self, at):
        return self.text.count("\n", 0, self.start(at)) + 1

    def part(self, first, last):
        """The text from a word to another, both with it."""
        return self.text[self.start(first):self.end(last)]

    def bodies(self):
        """The brackets of each body of a function that is not a test, and the place at which its parameters begin."""
        at, tested = 0, False
        while at < len(self.words):
            word = self.word(at)
            if word == "#" and self.word(at + 1) == "[":
                names = [self.word(one) for one in range(at + 2, self.pairs[at + 1])]
                tested = tested or names[:1] == ["test"] or names[:1] == ["cfg"] and "test" in names
                at = self.pairs[at + 1] + 1
            elif word == "ghost":
                at = self.after_ghost(at)
            elif word == "mod" and tested:
                at, tested = self.after_block(at), False
            elif word == "fn" and self.kind(at + 1) == "name":
                first, last = self.body_from(at + 2)
                if first and not tested:
                    yield first, last, at
                at, tested = (last or first or at) + 1, False
            else:
                at += 1

    def functions(self):
        """The functions that have a body and are no tests, in their order."""
        impls = list(self.impls())
        bodies = list(self.bodies())
        named = [(next((owner for first, last, owner in impls if first < body < last), ""), self.word(head + 1)) for body, _, head in bodies]
        names = [name for _, name in named]
        owners = [{"owner": owner, "has_namesake": named.count((owner, name)) > 1} if names.count(name) > 1 else {} for owner, name in named]
        return [Function(self.file, name, self.line(head), self.line(body), self.line(end), **owner)
                for (body, end, head), name, owner in zip(bodies, names, owners)]

    def impls(self):
        """The brackets of each impl, and the name that the prover gives it: those of its type, its trait and what that is of, in a row."""
        for at, (_, word, *_) in enumerate(self.words):
            if word == "impl" and self.word(at - 1) in ("", "}", ";", "]", "{"):
                opening = next(here for here in range(at, len(self.words)) if self.word(here) == "{")
                yield opening, self.pairs[opening], self.owner_between(at, opening)

    def owner_between(self, impl, opening):
        """The name of the impl whose head is between these places. Of what is in angle brackets, the first ones may be its own parameters."""
        depth, parts, is_own = 0, [[]], self.word(impl + 1) == "<"
        for at in range(impl + 1, opening):
            word = self.word(at)
            depth += {"<": 1, ">": -1, ">>": -2}.get(word, 0)
            if word == "where":
                break
            if word == "for" and depth == 0:
                parts.append([])
            elif self.kind(at) == "name" and self.word(at + 1) != "::" and depth < 2 and not is_own:
                parts[-1].append((depth, word))
            is_own = is_own and depth > 0
        of = [word for depth, word in parts[-1] if depth == 0]
        return "".join([*of, *(word for _, word in parts[0])] if len(parts) > 1 else of)

    def after_block(self, at):
        while self.word(at) not in ("{", ";"):
            at += 1
        return self.pairs.get(at, at) + 1

    def after_ghost(self, at):
        while self.word(at) not in (";", ",") and at < len(self.words):
            if self.word(at) in OPENING:
                at = self.pairs[at]
            at += 1
        return at + 1

    def clause_from(self, at):
        """The bracket that opens what a clause says, after its word and its name, which may have a star."""
        at += 1 + (self.word(at + 1) == "*")
        return at + (self.kind(at) == "name")

    def body_from(self, at):
        """The brackets of the body of the function whose parameters begin there; they come after its clauses."""
        while at < len(self.words):
            word = self.word(at)
            if word in CLAUSES:
                at = self.pairs[self.clause_from(at)] + 1
            elif word == "{":
                return at, self.pairs[at]
            elif word == ";":
                return None, None
            else:
                at = self.pairs[at] + 1 if word in OPENING else at + 1
        return None, None


class Enums:
    """The variants of the enums of all crates."""

    def __init__(self, top):
        self.found = {("std", "Ordering"): {"Less": "", "Equal": "", "Greater": ""}}
        for file in sorted(pathlib.Path(top, "crates").glob("*/src/**/*.rt")):
            crate = file.relative_to(top).parts[1]
            words = words_of(file.read_text())
            pairs = pairs_of(words)
            for at, (_, word, *_) in enumerate(words):
                if word == "enum" and words[at + 1][0] == "name":
                    opening = next(here for here in range(at, len(words)) if words[here][1] == "{")
                    self.found[crate, words[at + 1][1]] = self.variants(words, pairs, opening)

    def variants(self, words, pairs, opening):
        """The name of each variant, and the form of what it holds."""
        found, at = {}, opening + 1
        while at < pairs[opening]:
            kind, word, *_ = words[at]
            if word == "#":
                at = pairs[at + 1] + 1
            elif kind == "name" and words[at + 1][1] in OPENING:
                inside = [one[1] for one in words[at + 2:pairs[at + 1]]]
                count = sum(one == "," for one in inside[:-1]) if words[at + 1][1] == "(" else " ".join(inside)
                found[word], at = words[at + 1][1] + str(count), pairs[at + 1] + 1
            else:
                found.update({word: ""} if kind == "name" else {})
                at += 1
        return found

    def others(self, crate, path, name, variant):
        """The variants of the same form in the enum of that name: the crate's own, or that of the path before it, or of any crate."""
        owners = [owner for owner, one in self.found if one == name and variant in self.found[owner, one]]
        chosen = next((one for one in (path, crate) if one in owners), None) or (owners[0] if owners else None)
        forms = self.found.get((chosen, name), {})
        return [other for other in forms if other != variant and forms[other] == forms[variant]]
