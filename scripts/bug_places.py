"""The places in the bodies of a crate's functions where a bug can be planted, and each bug as an edit.

Only bodies count: contracts, ghost code, attributes, comments and tests have no place. A place has one kind, and some changes of its
text; each change is a bug. The code is looked at word by word, as `rt fmt` lays it out, so a change need not
compile: the check of its edit says so.
"""

import dataclasses
import pathlib
import re

from bug_edits import Change
from source_words import CLAUSES, CLOSING, OPENING, Function, Source, in_one_line

HEADS = {"if", "while", "for", "match"}
NO_CALL = HEADS | {"in", "return", "let", "else", "as", "mut", "ref", "move", "loop", "fn"}
TURNED = {"<": "<=", "<=": "<", ">": ">=", ">=": ">", "==": "!=", "!=": "=="}
JOINED = {"&&": "||", "||": "&&"}


@dataclasses.dataclass
class Place:
    file: str
    line: int
    kind: str
    changes: list
    function: Function


class Places(Source):
    """The places in one file of a crate."""

    def __init__(self, crate, file, text, enums):
        super().__init__(file, text)
        self.crate, self.enums = crate, enums
        self.places = []
        self.blocks, self.matches = [], []
        for (start, end, parameters), self.owner in zip(self.bodies(), self.functions()):
            self.look(start, end, parameters)

    def add(self, kind, at, changes):
        """A place that begins at a word; of changes as lists of (first word, last word, new text)."""
        made = [Change(tuple((self.start(first), self.end(last), new) for first, last, new in change)) for change in changes]
        if made:
            self.places.append(Place(self.file, self.line(at), kind, made, self.owner))

    def look(self, start, end, parameters):
        self.function = (parameters, end, self.answers(parameters, start))
        self.skipped = self.ghost_parts(start, end)
        self.guards = set()
        heads = self.heads(start, end)
        for at in range(start + 1, end):
            if at not in self.skipped:
                self.look_at_word(at)
                if self.word(at) == "(":
                    self.look_at_call(at)
        for at in range(start, end):
            if self.word(at) == "{" and at not in self.skipped:
                if heads.get(at) == "match":
                    self.look_at_arms(at)
                elif heads.get(at) or self.is_block(at, start):
                    self.look_at_statements(at)

    def answers(self, parameters, start):
        """Whether a function's head has an arrow, but for those in the bounds of its types."""
        at, depth = parameters + 2, 0
        while at < start:
            word = self.word(at)
            if word == "->" and not depth:
                return True
            if word in CLAUSES:
                return False
            depth += {"<": 1, ">": -1}.get(word, 0)
            at = self.pairs[at] + 1 if word in OPENING else at + 1
        return False

    def ghost_parts(self, start, end):
        skipped = set()
        at = start + 1
        while at < end:
            last = at
            if self.word(at) == "ghost":
                last = self.after_ghost(at) - 1
            elif self.word(at) in CLAUSES and self.kind(at) == "name":
                opening = self.clause_from(at)
                last = self.pairs[opening] if self.word(opening) == "{" else at
            elif self.word(at) == "#" and self.word(at + 1) == "[":
                last = self.pairs[at + 1]
            if last > at:
                skipped.update(range(at, last + 1))
            at = last + 1
        return skipped

    def heads(self, start, end):
        """For each bracket that opens after `if`, `while`, `for` or `match`, which word that was. Looks at each condition."""
        found = {}
        for at in range(start + 1, end):
            word = self.word(at)
            if word in HEADS and self.kind(at) == "name" and at not in self.skipped:
                here, in_pattern = at + 1, False
                while self.word(here) not in ("=>", "{") or in_pattern and self.word(here) == "{":
                    in_pattern = self.word(here) in ("let", "for") or word == "for" and here == at + 1 or in_pattern and self.word(here) not in ("=", "in")
                    here = self.pairs[here] + 1 if self.word(here) in OPENING else here + 1
                if self.word(here) == "{":
                    found[here] = word
                if word in ("if", "while") and not any(self.word(one) == "let" for one in range(at, here)):
                    self.add("condition negated", at, [[(at + 1, here - 1, self.negated(at + 1, here - 1))]])
                if word == "if" and self.word(here) == "{":
                    self.look_at_branches(here)
        return found

    def look_at_branches(self, opening):
        """Where the two branches of an `if` have values: each is replaced by the other's."""
        closing = self.pairs[opening]
        if self.word(closing + 1) == "else" and self.word(closing + 2) == "{":
            other = self.pairs[closing + 2]
            one, two = self.part(opening, closing), self.part(closing + 2, other)
            if one != two:
                self.add("branch replaced by the other", opening, [[(opening, closing, two)], [(closing + 2, other, one)]])

    def negated(self, first, last):
        signs = [at for at in range(first, last + 1) if self.word(at) in (*TURNED, *JOINED)]
        if not signs and self.word(first) == "!":
            return self.part(first + 1, last)
        if len(signs) == 1 and self.word(signs[0]) in ("==", "!="):
            at = signs[0]
            return self.text[self.start(first):self.start(at)] + TURNED[self.word(at)] + self.text[self.end(at):self.end(last)]
        return f"!({self.part(first, last)})" if first < last else f"!{self.part(first, last)}"

    def is_operand_end(self, at):
        return self.kind(at) in ("name", "number", "string", "letter") and self.word(at) not in NO_CALL or self.word(at) in CLOSING or self.word(at) == "?"

    def is_spaced(self, at):
        return self.text[self.start(at) - 1].isspace() and self.text[self.end(at)].isspace() and self.is_operand_end(at - 1)

    def look_at_word(self, at):
        kind, word = self.kind(at), self.word(at)
        if word in TURNED and self.is_spaced(at):
            self.add("comparison turned", at, [[(at, at, TURNED[word])]])
        elif word in JOINED and self.is_spaced(at):
            self.add("and, or", at, [[(at, at, JOINED[word])]])
        elif word in ("true", "false"):
            self.add("true, false", at, [[(at, at, "false" if word == "true" else "true")]])
        elif kind == "number" and self.word(at - 1) != ".":
            self.look_at_number(at)
        elif kind == "name" and re.fullmatch(r"[A-Z][A-Z0-9_]+", word) and self.word(at + 1) not in ("::", "!"):
            first = at
            while self.word(first - 1) == "::":
                first -= 2
            whole = self.part(first, at)
            self.add("constant off by one", first, [[(first, at, f"({whole} + 1)")], [(first, at, f"({whole} - 1)")]])
        elif word in ("..", "..="):
            self.look_at_range(at)
        elif word == "::" and self.kind(at - 1) == "name" and self.kind(at + 1) == "name":
            path = self.word(at - 3) if self.word(at - 2) == "::" else None
            others = self.enums.others(self.crate, path, self.word(at - 1), self.word(at + 1))
            self.add("variant", at + 1, [[(at + 1, at + 1, other)] for other in others])

    def look_at_number(self, at):
        digits, kept = re.fullmatch(r"(0[xob][0-9a-fA-F_]+|[\d_]+)(\w*)", self.word(at)).groups()
        value = int(digits, 0) if digits.strip("0_") else 0
        as_text = hex if digits.startswith("0x") else str
        near = [value + 1] + ([value - 1] if value else [])
        self.add("number off by one", at, [[(at, at, as_text(one) + kept)] for one in near])

    def look_at_range(self, at):
        """A bound of a range: one more, one less, or with its last or without."""
        changes = []
        ends = self.operand_from(at + 1)
        starts = self.operand_to(at - 1)
        if ends:
            changes += [[(at, at, "..=" if self.word(at) == ".." else "..")]]
            changes += [[(at + 1, ends, self.moved(at + 1, ends, sign))] for sign in "+-" if self.kind(ends) != "number"]
        if starts and self.kind(starts) != "number":
            changes += [[(starts, at - 1, self.moved(starts, at - 1, sign))] for sign in "+-"]
        self.add("bound off by one", at, changes)

    def moved(self, first, last, sign):
        """One more or less than an operand."""
        text = f"{self.part(first, last)} {sign} 1"
        return f"({text})" if {self.word(first - 1), self.word(last + 1)} & {"*", "/", "%", "-", "as"} else text

    def operand_from(self, at):
        """The last word of the operand that begins there."""
        if self.kind(at) not in ("name", "number") and self.word(at) != "(":
            return None
        at = self.pairs.get(at, at)
        while self.word(at + 1) in (".", "::", "(", "["):
            at = self.pairs[at + 1] if self.word(at + 1) in OPENING else at + 2
        return at

    def operand_to(self, at):
        """The first word of the operand that ends there."""
        if not self.is_operand_end(at) or self.word(at) == "}":
            return None
        while True:
            if self.word(at) in CLOSING:
                at = self.pairs[at]
                if self.kind(at - 1) == "name":
                    at -= 1
            if self.word(at - 1) not in (".", "::"):
                return at
            at -= 2

    def look_at_call(self, opening):
        before = self.word(opening - 1)
        if not (self.kind(opening - 1) == "name" and before not in NO_CALL or before == ">" and self.text[self.end(opening - 1)] == "("):
            return
        given = self.listed(opening)
        shown = [self.part(*one) for one in given]
        # (no other argument has the type of the allocator)
        pairs = [(one, other) for one in range(len(given)) for other in range(one + 1, len(given))
                 if shown[one] != shown[other] and "alloc" not in (shown[one], shown[other])]
        self.add("arguments swapped", opening - 1, [[(*given[one], shown[other]), (*given[other], shown[one])] for one, other in pairs])

    def listed(self, opening):
        """The parts of a list in brackets, between its commas."""
        parts, first, at, closing = [], opening + 1, opening + 1, self.pairs[opening]
        while at < closing:
            if self.word(at) == "|" and (at == first or self.word(at - 1) == "move"):
                at = next(one for one in range(at + 1, closing) if self.word(one) == "|")
            elif self.word(at) == "<" and self.word(at - 1) == "::":
                depth = 1
                while depth:
                    at += 1
                    depth += {"<": 1, ">": -1}.get(self.word(at), 0)
            elif self.word(at) == ",":
                parts.append((first, at - 1))
                first = at + 1
            at = self.pairs[at] + 1 if self.word(at) in OPENING else at + 1
        return parts + ([(first, closing - 1)] if first < closing else [])

    # Arms and statements.

    def look_at_arms(self, opening):
        results, at, closing = [], opening + 1, self.pairs[opening]
        while at < closing:
            while self.word(at) != "=>":
                at = self.pairs[at] + 1 if self.word(at) in OPENING else at + 1
            first = at + 1
            if self.word(first) == "{":
                last = self.pairs[first]
            else:
                last = first
                while last < closing and self.word(last) != ",":
                    last = self.pairs[last] + 1 if self.word(last) in OPENING else last + 1
                last -= 1
            results.append((first, last))
            at = last + 1 + (self.word(last + 1) == ",")
        for first, last in results:
            own = self.part(first, last)
            # An arm without a block needs its comma.
            others = dict.fromkeys(self.part(*other) for other in results)
            changes = [[(first, last, other if not other.endswith("}") or self.word(last + 1) == "," or own.startswith("{") else f"{{ {other} }}")]
                       for other in others if in_one_line(other) != in_one_line(own)]
            if own.startswith("{") and self.word(last + 1) != ",":
                changes = [[(first, last, new if new.startswith("{") else f"{{ {new} }}")] for [(_, _, new)] in changes]
            self.add("arm's result replaced by another's", first, changes)

    def is_block(self, at, start):
        before = self.word(at - 1)
        return at == start or before in ("else", "loop", "unsafe", "=>", "|", "||", "=", "{", "}", ";", "move")

    def statements(self, opening):
        """The statements of a block, as (first word, last word, whether it ends without a value)."""
        found, at, closing = [], opening + 1, self.pairs[opening]
        while at < closing:
            first = at
            if self.word(at) in HEADS | {"loop", "unsafe", "{"} or self.kind(at) == "lifetime":
                at = self.after_blocks(at)
                if self.word(at) not in (".", "?", ";") or at >= closing:
                    found.append((first, at - 1, True))
                    continue
            while at < closing and self.word(at) != ";":
                at = self.pairs[at] + 1 if self.word(at) in OPENING else at + 1
            found.append((first, min(at, closing - 1), at < closing))
            at += 1
        return found

    def after_blocks(self, at):
        """The word after an `if` with its branches, a loop, a match or a block."""
        while True:
            in_pattern = False
            word = self.word(at)
            here = at + (word != "{")
            while self.word(here) != "{" or in_pattern:
                in_pattern = self.word(here) == "let" or word == "for" and here == at + 1 or in_pattern and self.word(here) not in ("=", "in")
                here = self.pairs[here] + 1 if self.word(here) in OPENING else here + 1
            here = self.pairs[here] + 1
            if self.word(here) != "else":
                return here
            at = here + 1

    def look_at_statements(self, opening):
        found = [one for one in self.statements(opening) if self.word(one[0]) not in ("use", "const", "fn", "ghost", "#")]
        for first, last, is_whole in found:
            if is_whole and not self.is_value(last, opening) and not self.is_needed(first, last, self.pairs[opening]):
                self.add("statement dropped", first, [[(first, last, "")]])
            if is_whole and self.word(last) == ";" and self.word(last - 1) == "?" and self.word(first) not in ("let", "return") and not self.is_set(first, last):
                self.add("fault passed over", first, [[(first, last, f"let _ = {self.part(first, last - 2)};")]])
        for one, other in zip(found, found[1:]):
            if one[2] and other[2] and not self.is_value(other[1], opening) and not self.is_needed(one[0], one[1], other[1] + 1):
                shown = [self.part(*both[:2]) for both in (one, other)]
                if shown[0] != shown[1]:
                    self.add("statements swapped", one[0], [[(*one[:2], shown[1]), (*other[:2], shown[0])]])

    def is_value(self, last, opening):
        """Whether the word ends the body of a function that answers something, and so is its answer's."""
        return last + 1 == self.pairs[opening] == self.function[1] and self.word(last) != ";" and self.function[2]

    def is_set(self, first, last):
        return any(self.word(at) in ("=", "+=", "-=", "*=") for at in range(first, last))

    def is_needed(self, first, last, end):
        """Whether a statement binds a name that wasn't there before, and is there up to a later word."""
        if self.word(first) != "let":
            return False
        equals = next(at for at in range(first, last + 1) if self.word(at) in ("=", ";"))
        bound = {self.word(at) for at in range(first + 1, equals) if self.kind(at) == "name" and self.word(at)[0].islower()} - {"mut", "ref"}
        before = {self.word(at) for at in range(self.function[0], first)}
        after = {self.word(at) for at in range(last + 1, end)}
        return any(name in after and name not in before for name in bound)


def places_of(crate, folder, enums):
    """The places of the crate in this folder, in the order of its files. No two changes make the same text of a file."""
    places = []
    for file in sorted(pathlib.Path(folder, "src").glob("**/*.rt")):
        text, seen = file.read_text(), set()
        for place in Places(crate, str(file.relative_to(folder)), text, enums).places:
            fresh = []
            for change in place.changes:
                made = in_one_line(change.of(text))
                if made not in seen:
                    seen.add(made)
                    fresh.append(change)
            if fresh:
                places.append(dataclasses.replace(place, changes=fresh))
    return sorted(places, key=lambda place: (place.file, place.line))
