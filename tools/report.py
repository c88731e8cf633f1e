"""What the launchers report on standard error, and why a program gives no answer."""

import contextlib
import os

STANDARD_ERROR = 2
# The status where a program gives no answer of its own.
FAILED = 127
NO_KIT = "`rt` of the Rattle kit, which builds it, isn't on PATH"


class Failed(Exception):
    """Why there is no program or no answer of it, the log that says more, and the status of the command that failed."""

    def __init__(self, why, log=None, status=0):
        super().__init__(why)
        self.log = log
        self.status = 128 - status if status < 0 else status or FAILED


def hand_on(number, data):
    """Writes all of it to one of the standard streams."""
    while data:
        data = data[os.write(number, data) :]


def say(program, text):
    """Writes a line on standard error, in one piece, since several crates may be at work."""
    with contextlib.suppress(OSError):
        hand_on(STANDARD_ERROR, os.fsencode("%s: %s\n" % (program, text)))


def report(program, failed):
    """Reports why there is no answer, after the end of the log, and returns the status."""
    where = ""
    if failed.log:
        with open(failed.log, "rb") as file, contextlib.suppress(OSError):
            hand_on(STANDARD_ERROR, b"".join(file.readlines()[-20:]))
        where = "; the whole log is %s" % failed.log
    say(program, "%s%s" % (failed, where))
    return failed.status
