"""The lines of clauses in code, which the tests and the counts of this repository measure."""

import re

BEGINS = re.compile(r" *(?:requires|ensures)\b.*\{|ghost \w+ ?[=:] ?\{")


def lines_of_clauses(text):
    """The lines of code on which the clauses of functions and the ghost items of traits stand."""
    lines, depth = [], 0
    for line in text.splitlines():
        if depth or BEGINS.match(line.lstrip() if "ghost" in line else line):
            lines.append(line)
            depth += line.count("{") - line.count("}")
    return lines
