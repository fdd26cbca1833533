"""A client of filehost: deploys folders to its sites, shows what differs, and takes changes back.

    host = Host("https://example.org")
    site = host.site("one")
    deploy = site.open({"/a.txt": "aaf4c61ddcc5e8a2dabede0f3b482cd9aea9434d"}, patch=True)
    if deploy.required:
        deploy.upload("/a.txt", b"hello")
    print(site.address("/a.txt"), deploy.published)
    site.undo(deploy.published)

`Host` says when a request is sent again, and which errors come. The command `site` is a user of this library.
"""

from .changes import Change
from .deploy import Deploy
from .errors import BadReply, ChangedMeanwhile, Refused, SiteError, Unfit, UnknownOutcome, Unreachable, WrongWords
from .host import Host
from .patience import Waiting
from .site import Site

__all__ = [
    "BadReply", "Change", "ChangedMeanwhile", "Deploy", "Host", "Refused", "Site", "SiteError", "Unfit", "UnknownOutcome", "Unreachable", "Waiting",
    "WrongWords",
]
