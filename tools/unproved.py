"""Runs a program that isn't built yet, by `rt try`: unproved, compiled with checks, in about a minute.

The program runs in another folder, so the folders among its words are made absolute. It writes at most 1 MiB, has 60
seconds, and reads less than 64 MiB: where a run passes such a limit, nothing that it wrote is shown.
"""

import contextlib
import os
import re
import shutil
import subprocess
import tempfile

from crates import TOP, folder
from report import NO_KIT, STANDARD_ERROR, Failed, hand_on, say

STANDARD_INPUT, STANDARD_OUTPUT = 0, 1
# The statuses with which each program says that a stream failed.
UNREAD = 3
UNWRITTEN = 4
# What is read at a time, and the most that `rt try` reads whole.
PIECE = 1 << 20
MOST_INPUT = (64 << 20) - 1
# The last lines of `rt try` where the program ended, and its line where it didn't.
ENDED = re.compile(rb"checked: ended status=\d+\n(races: .*\n)?run=ended status=(\d+) .*\n\Z")
BROKEN_OFF = re.compile(rb"^checked: no-answer: (.*)$", re.M)
# How many digits an id has.
DIGITS = (40, 64)
# The options of list_walk that a number follows.
COUNTS = ("--max-open", "--min-depth", "--max-depth")


def command(program):
    """How the program is proved and built, from the folder that this runs in."""
    is_here = os.path.realpath(".") == TOP
    return "%s --prove" % (os.path.join("." if is_here else TOP, program))


def beyond(program, limit):
    """Why there is no answer where a run passes a limit that only unproved runs have."""
    why = "this is beyond an unproved run, which %s, so no output is shown; %s builds the program, which has no such limit"
    return Failed(why % (limit, command(program)))


# ---- what it is given


def is_reading(program, words):
    """Whether a program reads standard input at these words. Where it doesn't, nobody is to be kept waiting for it."""
    if program == "gitodb":
        return words == ["world"]
    return program == "probe_index" and words and all(len(word) in DIGITS for word in words)


def standard_input(program, words):
    """A file of what standard input gives, which `rt try` takes for ended where it is silent for two seconds."""
    file = tempfile.TemporaryFile()
    if is_reading(program, words):
        while True:
            try:
                piece = os.read(STANDARD_INPUT, PIECE)
            except OSError:
                raise Failed("standard input can't be read", status=UNREAD) from None
            if not piece:
                break
            file.write(piece)
            if file.tell() > MOST_INPUT:
                raise beyond(program, "reads less than 64 MiB")
        file.seek(0)
    return file


def absolute(name):
    """A folder by its absolute name, as list_walk understands it: `..` leads up only before all names. A name that it
    refuses stays, since its report has it."""
    if not name or name.startswith("/"):
        return name
    at, is_front = os.getcwd(), True
    for part in name.split("/"):
        if part == ".." and not is_front:
            return name
        if part == "..":
            at = os.path.dirname(at)
        elif part not in ("", "."):
            at, is_front = os.path.join(at, part), False
    return at


def with_folders(words):
    """The words of list_walk with absolute folders: each word that is no option and no option's number."""
    found, follows = [], "any"
    for word in words:
        if follows == "folder" or follows == "any" and not word.startswith("-"):
            found.append(absolute(word))
            continue
        found.append(word)
        if follows == "number":
            follows = "any"
        elif word == "--":
            follows = "folder"
        elif word in COUNTS:
            follows = "number"
    return found


def texts(program, words):
    """The words as `rt try` takes them, which are texts."""
    try:
        for word in words:
            os.fsencode(word).decode()
    except UnicodeDecodeError:
        raise beyond(program, "takes words of UTF-8 alone") from None
    return words


# ---- the run


def tried(program, words, given):
    """What `rt try` writes on its two outputs over a program, and its status. It ends where this is ended."""
    how = {"cwd": folder(program), "stdin": given, "stdout": subprocess.PIPE, "stderr": subprocess.PIPE}
    child = subprocess.Popen(["rt", "try", "--", *words], **how)
    try:
        output, errors = child.communicate()
    finally:
        if child.poll() is None:
            child.terminate()
            child.wait()
    return output, errors, child.returncode


def answer(program, output, errors, status):
    """What the program itself wrote on its two outputs, and its status."""
    ended = ENDED.search(errors)
    if ended and int(ended[2]) == status:
        return output, errors[: ended.start()], status
    broken_off = BROKEN_OFF.search(errors)
    if broken_off and b"time limit" in broken_off[1]:
        raise beyond(program, "has %s seconds" % os.environ.get("RT_SECONDS", "60"))
    if broken_off and b"the program wrote more than" in broken_off[1]:
        raise beyond(program, "writes at most 1 MiB")
    hand_on(STANDARD_ERROR, errors)
    raise Failed("`rt try` ended with status %d, and the program gave no answer" % status)


def run(program, words, long):
    """Runs a program unproved, says so in a line on standard error, hands on what it writes, and returns its status."""
    if not shutil.which("rt"):
        raise Failed("the program isn't built of this text, and %s" % NO_KIT)
    notice = "this run isn't proved, and compiles for about a minute; %s (or the gate) proves and builds it once, in %s"
    say(program, notice % (command(program), long))
    with standard_input(program, words) as given:
        words = texts(program, with_folders(words) if program == "list_walk" else words)
        output, errors, status = answer(program, *tried(program, words, given))
    with contextlib.suppress(OSError):
        hand_on(STANDARD_ERROR, errors)
    try:
        hand_on(STANDARD_OUTPUT, output)
    except OSError:
        raise Failed("standard output can't be written", status=UNWRITTEN) from None
    return status
