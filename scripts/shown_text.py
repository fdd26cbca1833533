"""Texts of others as they may be printed: a name or a path must not tell a terminal what to do."""

import unicodedata

# Controls (C0, DEL and C1), marks that change the direction of text, bytes that are no UTF-8, and other ends of lines.
ESCAPED = {"Cc", "Cf", "Cs", "Zl", "Zp"}


def shown(text):
    """The text with each such character as an escape, such as `\\x1b`. No path of a site has a backslash."""
    return "".join(one.encode("unicode_escape").decode() if unicodedata.category(one) in ESCAPED else one for one in str(text))
