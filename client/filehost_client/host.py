"""A host: the requests that it is sent, when they are sent again, and when that would be wrong."""

import json

from .addresses import Address, parse_address
from .connection import Lost, NotSent, Pool, context_for
from .errors import Refused, Unreachable, UnknownOutcome
from .names import check_site
from .patience import Patience, Waiting
from .refusals import is_passing, raise_for, reason_of, words_of
from .site import Site

# How long a lost request that makes a change may take to be seen in the list, before it counts as not carried out.
SETTLING_SECONDS = 1.0
JSON = (("Content-Type", "application/json"),)


class Host:
    """A host, reached over connections that are kept.

    url      where its interface is, such as https://example.org or https://example.org/files
    read     where sites are read, if that is another place; the same form
    ca       a file with the certificates that are trusted, for https
    login    a name and a password for the proxy in front of the host
    waiting  how long a host that doesn't answer is asked again (120 seconds)

    The calls that only read, and uploads, are sent again if the host doesn't answer; Unreachable is raised once the time is over. A change is never sent
    twice unless the first one can't have been carried out; UnknownOutcome is raised if that can't be told.
    """

    def __init__(self, url, *, read=None, ca=None, login=None, waiting=None):
        self.address = url if isinstance(url, Address) else parse_address(url)
        self.read_address = (read if isinstance(read, Address) else parse_address(read, "--read")) if read else self.address
        self.waiting = waiting or Waiting()
        login = login or self.address.login
        self.interface = Pool(self.address, context_for(self.address, ca), login)
        self.reads = self.interface
        if str(self.read_address) != str(self.address):
            # A login for the interface isn't sent to another place.
            self.reads = Pool(self.read_address, context_for(self.read_address, ca), self.read_address.login)

    def site(self, name):
        """The site of this name. Raises WrongWords if it isn't one."""
        return Site(self, check_site(name))

    def patience(self, pool=None):
        return Patience(self.waiting, self.read_address if pool is self.reads else self.address)

    def ask(self, method, target, body=None, fields=(), at_read=False):
        """Sends a GET, a HEAD or the PUT of a file, again and again until there is an answer, and returns the Reply if it is one of success.

        Raises Refused, Unreachable, BadReply, or what reading the body of the request raises.
        """
        pool = self.reads if at_read else self.interface
        patience = self.patience(pool)
        while True:
            try:
                with pool.borrowed() as connection:
                    reply = connection.ask(method, target, body, fields)
            except (NotSent, Lost) as error:
                if not getattr(error, "is_stale", False):
                    patience.pause(error)
                continue
            if is_passing(reply):
                patience.pause(words_of(reply))
                continue
            self.waiting.note_answer()
            if reply.status not in (200, 206):
                raise_for(reply, patience.place)
            return reply

    def ask_heads(self, targets, answered):
        """Asks for the heads of files at the place of reading, over one connection, many at a time. Each Reply goes to `answered`, in order."""
        patience = self.patience(self.reads)
        left, most = list(targets), len(targets)
        with self.reads.borrowed() as connection:
            while left:
                try:
                    replies = connection.ask_heads(left[:most])
                except (NotSent, Lost) as error:
                    if not getattr(error, "is_stale", False):
                        patience.pause(error)
                    continue
                good = next((place for place, reply in enumerate(replies) if is_passing(reply)), len(replies))
                for reply in replies[:good]:
                    answered(reply)
                del left[:good]
                # A proxy may end each connection after a few requests: then it isn't sent many at once again.
                most = max(1, good) if connection.socket is None else len(left)
                if good < len(replies):
                    patience.pause(words_of(replies[good]))
                else:
                    patience = self.patience(self.reads)
                    self.waiting.note_answer()

    def get(self, target):
        """The members of a reply of the interface. Raises as `ask` does."""
        reply = self.ask("GET", target)
        members = reply.members()
        if members is None:
            raise_for(reply, self.address)
        return members

    def change(self, method, target, body, find):
        """Sends a request that makes a change, once, and returns the members of its reply.

        `find` looks at the host for a change whose reply was lost: it returns members like those of the reply, or None if there is no such change, and
        raises UnknownOutcome if that can't be told. Only if there is none, and the host can't carry the request out any more, it is sent again.
        """
        patience, is_lost = self.patience(), False
        text = json.dumps(body, ensure_ascii=False, separators=(",", ":")).encode() if body is not None else None
        while True:
            try:
                with self.interface.borrowed() as connection:
                    reply = connection.ask(method, target, text, JSON if text else ())
            except NotSent as error:
                patience.pause(error)
                continue
            except Lost as error:
                if (found := self.look_for(find, error.is_late, str(error))) is not None:
                    return found
                is_lost = True
                patience.pause(error)
                continue
            if not is_passing(reply):
                break
            reason = reason_of(reply)
            if reason == "Device":
                raise UnknownOutcome(f"{self.address} can't say whether this was done: {words_of(reply)}. Once it was started again, look: site log")
            # After Broken nothing was done. After anything else a part may have been, or all.
            if reason != "Broken" and (found := self.look_for(find, reply.status == 504, words_of(reply))) is not None:
                return found
            is_lost = is_lost or reason != "Broken"
            patience.pause(words_of(reply))
        self.waiting.note_answer()
        members = reply.members()
        if reply.status != 200 or members is None:
            # What was lost may have been carried out after the look.
            if is_lost and (found := find()) is not None:
                return found
            raise_for(reply, self.address)
        return members

    def look_for(self, find, is_late, why):
        """What `find` returns of a request whose reply was lost. If that is nothing, and the host may still carry the request out, UnknownOutcome is
        raised."""
        try:
            if (found := find()) is not None:
                return found
            self.waiting.ended.wait(SETTLING_SECONDS)
            if (found := find()) is not None:
                return found
        except (Unreachable, Refused) as error:
            raise UnknownOutcome(f"the reply was lost ({why}), and whether this was done can't be seen: {error}. Look: site log") from None
        if is_late:
            raise UnknownOutcome(f"the reply didn't come in time ({why}). It isn't done yet, and may still be. Look: site log")
        return None

    def cut(self):
        """Ends all waiting and all connections in use, so that threads end soon."""
        self.waiting.ended.set()
        self.interface.cut()
        self.reads.cut()

    def close(self):
        """Closes the connections that are kept."""
        self.interface.close()
        self.reads.close()
