"""Where a command goes: from its options, the environment and the file `.site.json`, in this order."""

import os
import sys
from collections import namedtuple

from .addresses import Login, parse_address
from .command_table import RETRY_SECONDS
from .errors import WrongWords
from .host import Host
from .names import PREVIEW, check_site
from .patience import Waiting
from .settings_file import NAME as FILE
from .settings_file import find_settings


class Settings(namedtuple("Settings", "host site read ca login retry")):
    """The Address of the host, the name of the site, the Address where sites are read, the file of certificates that are trusted, the Login, each of these
    three or None, and for how many seconds a host that doesn't answer is asked again."""

    __slots__ = ()

    def of_site(self, name):
        """The same for another site."""
        return self._replace(site=name)

    def make_host(self, tell=None, retry=None):
        """The host. `tell` is told why it doesn't answer, once; `retry` are other seconds."""
        waiting = Waiting(self.retry if retry is None else retry, tell)
        return Host(self.host, read=self.read, ca=self.ca, login=self.login, waiting=waiting)


def settings_of(options, folder="."):
    """The settings for these options; `folder` is where the search for `.site.json` begins. Raises WrongWords if one is missing or wrong."""
    told = find_settings(folder)
    host = options.host or os.environ.get("SITE_HOST") or told.get("host")
    site = options.site or os.environ.get("SITE_NAME") or told.get("site")
    read = options.read or os.environ.get("SITE_READ") or told.get("read")
    for value, what, example in ((host, "host", "--host https://example.org"), (site, "site", "--site one")):
        if not value:
            raise WrongWords(f"which {what}? Give {example}, SITE_{'HOST' if what == 'host' else 'NAME'}, or a file {FILE} with a member {what}", "NoSettings")
    address = parse_address(host)
    check_site(site)
    login = login_of(options.user or told.get("user"), address)
    return Settings(address, site, parse_address(read, "--read") if read else None, options.ca or told.get("ca"), login, RETRY_SECONDS if options.retry is None else options.retry)


def preview_of(site):
    """The name of the site to which previews go. Raises WrongWords if it would be too long."""
    if len(site) > 63 - len(PREVIEW):
        raise WrongWords(f"the site {site} can't have a preview: with {PREVIEW} its name has over 63 characters")
    return site + PREVIEW


def login_of(user, address):
    """The login for a host: from --user, with a password out of SITE_PASSWORD, a netrc file or a question; or from netrc alone; or from the URL."""
    if not user:
        return address.login or kept_login(address.name)
    name, colon, password = user.partition(":")
    if colon:
        return Login(name, password)
    if "SITE_PASSWORD" in os.environ:
        return Login(name, os.environ["SITE_PASSWORD"])
    kept = kept_login(address.name)
    if kept and kept[0] == name:
        return kept
    if sys.stdin.isatty() and sys.stderr.isatty():
        import getpass
        return Login(name, getpass.getpass(f"password of {name} at {address}: "))
    raise WrongWords(f"--user {name} has no password: give it in SITE_PASSWORD, in ~/.netrc, or as --user {name}:PASSWORD", "NoPassword")


def kept_login(name):
    """The login that the netrc file has for a host's name, or None. Raises WrongWords if the file can't be read."""
    file = os.environ.get("NETRC") or os.path.expanduser("~/.netrc")
    if not os.path.isfile(file):
        return None
    from .netrc_file import login_in_file  # Most users have no such file.
    return login_in_file(file, name)
