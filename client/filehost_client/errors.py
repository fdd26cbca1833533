"""Why a call or a command ends without its result. Each error is told in one line, and has the exit status of a command that ends by it."""


class SiteError(Exception):
    """The text says what is wrong and what to do. `reason` is a short name of the error, which stays the same from version to version."""

    status = 2
    reason = "Error"

    def __init__(self, message, reason=None):
        super().__init__(message)
        if reason:
            self.reason = reason


class WrongWords(SiteError):
    """Words, settings or files are wrong. Nothing was sent."""

    reason = "WrongWords"


class Unfit(WrongWords):
    """Files can't be deployed. `problems` has a line for each."""

    reason = "Unfit"

    def __init__(self, problems):
        super().__init__("; ".join(problems))
        self.problems = problems


class Refused(SiteError):
    """The host refused a request.

    `reason` is the name that docs/HTTP.md gives the refusal, or `HTTP` and the status if something other than a filehost refused it; `details` has the
    other members of the reply.
    """

    status = 1

    def __init__(self, message, reason, details=None):
        super().__init__(message, reason)
        self.details = details or {}


class ChangedMeanwhile(SiteError):
    """A file was changed between its hash and its upload. `path` is its path on the site."""

    status = 1
    reason = "WrongDigest"

    def __init__(self, path, message):
        super().__init__(message)
        self.path = path


class Unreachable(SiteError):
    """The host doesn't answer, or can't carry out the request for now."""

    status = 3
    reason = "Unreachable"


class BadReply(Unreachable):
    """What answers isn't a filehost, or a reply is damaged."""

    reason = "BadReply"


class UnknownOutcome(SiteError):
    """A request that makes a change may or may not have been carried out."""

    status = 3
    reason = "UnknownOutcome"
