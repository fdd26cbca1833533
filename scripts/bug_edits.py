"""A bug as an edit: each text is one line, and the old one is in the file once."""

import dataclasses

from source_words import in_one_line


@dataclasses.dataclass(frozen=True)
class Change:
    """Texts that are put in the place of stretches of a file, which don't meet."""

    parts: tuple

    def of(self, text):
        for start, end, new in sorted(self.parts, reverse=True):
            text = text[:start] + new + text[end:]
        return text

    def shown(self, text):
        """The two texts, of the whole stretch that is changed, in one line each."""
        start, end = min(part[0] for part in self.parts), max(part[1] for part in self.parts)
        moved = Change(tuple((one - start, other - start, new) for one, other, new in self.parts))
        return in_one_line(text[start:end]), in_one_line(moved.of(text[start:end]))


def pairs_for(text, change):
    """Old and new lines that make this change, or nothing if it can't be written so."""
    wanted = in_one_line(change.of(text))
    for written in (in_lines, in_a_comment):
        pairs = written(text, change)
        if pairs and in_one_line(applied(text, pairs) or "") == wanted:
            return pairs
    return None


def as_edit(file, pairs):
    return "".join([f"file: {file}\n", *(f"old: {old}\nnew: {new}\n" for old, new in pairs)])


def applied(text, pairs):
    for old, new in pairs:
        if text.count(old) != 1:
            return None
        text = text.replace(old, new)
    return text


def line_at(text, place):
    start = text.rfind("\n", 0, place) + 1
    end = text.find("\n", place)
    return start, len(text) if end < 0 else end


def in_lines(text, change):
    """Pairs of a line each. Two statements that are swapped are first one line and none."""
    parts = sorted(change.parts)
    if len(parts) == 2 and "\n" in text[parts[0][0]:parts[1][1]]:
        (one, one_end, _), (other, other_end, new) = parts
        parts = [(one, one_end, ""), (other, other_end, f"{text[other:other_end]} {text[one:one_end]}")]
    elif len(parts) == 2:
        (one, one_end, first), (other, other_end, second) = parts
        parts = [(one, other_end, first + text[one_end:other] + second)]
    pairs = []
    for start, end, new in parts:
        if "\n" in text[start:end] or "//" in new:
            return None
        from_, to = line_at(text, start)
        line, made = text[from_:to], text[from_:start] + in_one_line(new) + text[end:to]
        if text.count(line.strip()) == 1:
            line, made = line.strip(), made.strip()
        pairs.append((line, made.rstrip()))
    return pairs


def in_a_comment(text, change):
    """The changed text is written again after a line that occurs once in the file, and the old text becomes a comment."""
    start, end = min(part[0] for part in change.parts), max(part[1] for part in change.parts)
    above, below = line_at(text, start), line_at(text, end)
    while not is_anchor(text, above):
        if above[0] == 0:
            return None
        above = line_at(text, above[0] - 1)
    while not is_anchor(text, below) or below == above:
        if below[1] >= len(text) - 1:
            return None
        below = line_at(text, below[1] + 1)
    from_, to = above[0], max(end, below[0])
    moved = Change(tuple((one - from_, other - from_, new) for one, other, new in change.parts))
    made = in_one_line(moved.of(text[from_:to]))
    if "*/" in text[from_:to]:
        return None
    first, last = text[above[0]:above[1]], text[below[0]:below[1]]
    return [(last, "*/ " + text[to:below[1]].strip()), (first, made + " /*")]


def is_anchor(text, line):
    words = text[line[0]:line[1]]
    return bool(words.strip()) and not words.strip().startswith("//") and text.count(words) == 1
