"""The logins of a netrc file. Python's own reader takes no letters but those of ASCII before its version 3.11."""

import re

from .addresses import Login
from .errors import WrongWords

TOKEN = re.compile(r'"((?:[^"\\]|\\.)*)"|(\S+)')
LARGEST = 1_048_576


def tokens_of(text):
    """The words of a netrc file, without comments and macros."""
    tokens, is_macro = [], False
    for line in text.splitlines():
        # A macro goes on to the next empty line.
        is_macro = is_macro and bool(line.strip())
        if is_macro or line.lstrip().startswith("#"):
            continue
        for quoted, plain in TOKEN.findall(line):
            if plain == "macdef":
                is_macro = True
                break
            tokens.append(plain or re.sub(r"\\(.)", r"\1", quoted))
    return tokens


def login_of(text, name):
    """The login for a host's name, else that of `default`, else None. Raises ValueError if the text isn't that of a netrc file."""
    found, tokens = {}, iter(tokens_of(text))
    entry = None
    for token in tokens:
        if token in ("machine", "default"):
            entry = {}
            found.setdefault(next(tokens, None) if token == "machine" else "", entry)
        elif entry is not None and token in ("login", "password", "account"):
            entry[token] = next(tokens, None)
        else:
            raise ValueError(f"{token[:20]!r} is not expected there")
    if None in found or any(None in entry.values() for entry in found.values()):
        raise ValueError("it ends too early")
    entry = found.get(name, found.get(""))
    return Login(entry.get("login", ""), entry.get("password", "")) if entry is not None else None


def login_in_file(file, name):
    """The same, of the text in a file. Raises WrongWords if it can't be read."""
    try:
        with open(file, encoding="utf-8") as source:
            return login_of(source.read(LARGEST), name)
    except (OSError, ValueError) as error:
        raise WrongWords(f"{file} can't be read: {error}") from None
