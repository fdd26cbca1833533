"""Where a host is: its URL, taken apart, and how addresses are printed. A login in a URL is used and never printed."""

import re
from collections import namedtuple

from .errors import WrongWords

PORTS = {"http": 80, "https": 443}
# RFC 3986, section 3: the login, the name, the port and the path. A name in brackets is an address of IPv6.
URL = re.compile(r"(?P<scheme>[A-Za-z][A-Za-z0-9+.-]*)://(?:(?P<login>[^@/?#]*)@)?(?P<name>\[[0-9A-Fa-f:.]+\]|[^@:/?#\[\]]*)(?::(?P<port>[0-9]*))?(?P<rest>[/?#].*)?")


class Login(namedtuple("Login", "name password")):
    """A name and a password, which nothing prints."""

    __slots__ = ()

    def __repr__(self):
        return "Login(..)"


class Address(namedtuple("Address", "scheme name port prefix login", defaults=(None,))):
    """A host's URL: its scheme, name and port, the prefix of all its targets, and the login that the URL had, or None."""

    __slots__ = ()

    @property
    def place(self):
        """The name with the port, if that isn't the scheme's own: the value of a Host field."""
        name = f"[{self.name}]" if ":" in self.name else self.name if self.name.isascii() else self.name.encode("idna").decode()
        return name if self.port == PORTS[self.scheme] else f"{name}:{self.port}"

    def url(self, target=""):
        """The URL of a target, without a login."""
        return f"{self.scheme}://{self.place}{self.prefix}{target}"

    def __str__(self):
        return self.url()


def parse_address(text, what="--host"):
    """Reads a URL such as https://example.org/files. Raises WrongWords, which says what is wrong and doesn't repeat a login."""
    found = URL.fullmatch(text.strip())
    scheme, name = (found["scheme"].lower(), found["name"].strip("[]").lower()) if found else ("", "")
    if scheme not in PORTS or not name:
        raise WrongWords(f"{what}: a URL begins with http:// or https:// and the host's name, such as http://127.0.0.1:8080")
    port, prefix = int(found["port"] or PORTS[scheme]), found["rest"] or ""
    if not 0 < port < 65_536:
        raise WrongWords(f"{what}: a port is a number from 1 to 65,535")
    if not re.fullmatch(r"[!-~]*", prefix) or "?" in prefix or "#" in prefix:
        raise WrongWords(f"{what}: a URL has no ?, no # and no space after the host's name, but at most a prefix, such as https://example.org/files")
    try:
        name.encode("ascii" if name.isascii() else "idna")
    except UnicodeError:
        raise WrongWords(f"{what}: this isn't the name of a host") from None
    return Address(scheme, name, port, prefix.rstrip("/"), login_in(found["login"]))


def login_in(text):
    """The login in front of a URL's name, or None."""
    if text is None:
        return None
    from urllib.parse import unquote
    name, _, password = text.partition(":")
    return Login(unquote(name), unquote(password))
