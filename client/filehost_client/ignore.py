"""The rules of `.siteignore` files: which names in a folder aren't part of a site. They are those of `.gitignore` (gitignore(5))."""

import re
from collections import namedtuple

CLASSES = {
    "alnum": "a-zA-Z0-9", "alpha": "a-zA-Z", "blank": " \\t", "cntrl": "\\x00-\\x1f\\x7f", "digit": "0-9", "graph": "!-~", "lower": "a-z", "print": " -~",
    "punct": "!-/:-@\\[-`{-~", "space": " \\t-\\r", "upper": "A-Z", "xdigit": "0-9a-fA-F",
}
NOTHING = "(?!)"


class Rule(namedtuple("Rule", "base pattern is_of_names is_of_folders is_kept")):
    """One line: below which folder it counts (empty, or with a slash at its end), what it matches, whether that is a name alone, whether folders alone, and
    whether it keeps them."""

    __slots__ = ()

    def matches(self, path, is_folder):
        if self.is_of_folders and not is_folder or not path.startswith(self.base):
            return False
        below = path[len(self.base):]
        return self.pattern.fullmatch(below.rpartition("/")[2] if self.is_of_names else below) is not None


def rules_of(text, base=""):
    """The rules that a `.siteignore` in the folder `base` has, in order."""
    rules = []
    for line in text.splitlines():
        # A space at the end counts if a backslash is before it.
        line = re.sub(r"((?:[^\\]|\\.)*?)[ \t]+$", r"\1", line) if line.endswith((" ", "\t")) else line
        is_kept = line.startswith("!")
        line = line[is_kept:]
        if not line or line.startswith("#") and not is_kept:
            continue
        is_of_folders = line.endswith("/")
        line = line[:-1] if is_of_folders else line
        pattern = re.compile(expression_of(line.removeprefix("/")), re.DOTALL)
        rules.append(Rule(base, pattern, "/" not in line, is_of_folders, is_kept))
    return rules


def expression_of(pattern):
    """The regular expression for a pattern."""
    segments = pattern.split("/")
    parts = []
    for place, segment in enumerate(segments):
        is_last = place == len(segments) - 1
        if segment == "**" and len(segments) > 1:
            parts.append(".+" if is_last else "(?:.*/)?")
        else:
            parts.append(expression_of_segment(segment) + ("" if is_last else "/"))
    return "".join(parts)


def expression_of_segment(segment):
    """The same for what is between two slashes."""
    parts, place = [], 0
    while place < len(segment):
        character = segment[place]
        place += 1
        if character == "*":
            parts.append("[^/]*")
        elif character == "?":
            parts.append("[^/]")
        elif character == "[":
            found = re.compile(r"([!^]?)(\]?(?:\[:[a-z]+:\]|\\.|[^\]\\])*)\]").match(segment, place)
            if not found:
                return NOTHING
            parts.append(set_of(found[2], bool(found[1])))
            place = found.end()
        elif character == "\\":
            if place == len(segment):
                return NOTHING
            parts.append(re.escape(segment[place]))
            place += 1
        else:
            parts.append(re.escape(character))
    return re.sub(r"(?:\[\^/\]\*)+", "[^/]*", "".join(parts))


def set_of(text, is_negated):
    """The expression for one of these characters, or for any other."""
    members = []
    for name, escaped, plain in re.findall(r"\[:([a-z]+):\]|\\(.)|(.)", text, re.DOTALL):
        if name:
            members.append(CLASSES.get(name, ""))
        else:
            # A hyphen between two characters makes a range, as in a pattern.
            members.append("-" if plain == "-" else re.escape(escaped or plain))
    inside = "".join(members)
    try:
        expression = f"(?!/)[{'^' if is_negated else ''}{inside}]"
        re.compile(expression)
    except re.error:
        return NOTHING
    return expression
