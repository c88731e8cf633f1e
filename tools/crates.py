"""The crates of the repository for its launchers: what a program stands on, and whether what is built is of this text."""

import contextlib
import functools
import hashlib
import os

TOP = os.path.dirname(os.path.dirname(os.path.realpath(__file__)))
LIST = os.path.join(TOP, "crates.txt")
PARTS = ("src", "specs", "proofs")


def folder(crate, *below):
    return os.path.join(TOP, "crates", crate, *below)


def program_of(crate):
    """Where `rt run` and `rt ci` leave a program."""
    return folder(crate, "out", crate)


def listed():
    """The crates of the repository, each with those of the repository that its line names."""
    uses = {}
    with open(LIST, encoding="utf-8") as file:
        for line in file:
            name, colon, words = line.partition("#")[0].partition(":")
            if colon:
                uses[name.split()[0]] = words.split()
    return {name: [word for word in words if word in uses] for name, words in uses.items()}


def closure(uses, crate, found=()):
    """A crate after all that it stands on, each after those that it stands on itself."""
    found = list(found)
    for below in uses[crate]:
        if below not in found:
            found = closure(uses, below, found)
    return [*found, crate]


def lines_of(crates):
    """The lines of crates.txt on these crates."""
    with open(LIST, encoding="utf-8") as file:
        return [line for line in file if line.partition(":")[0].split(" ")[0] in crates]


@functools.lru_cache(maxsize=None)
def newest(crate):
    """When a file or a folder of a crate was changed last. A folder changes where a file is removed from it."""
    changed = 0
    for part in PARTS:
        for at, _, names in os.walk(folder(crate, part)):
            changed = max(changed, *(os.stat(os.path.join(at, name)).st_mtime for name in (".", *names)))
    return changed


def is_newer(made, crates):
    """Whether a file is newer than all that it was made of."""
    changed = max(os.stat(LIST).st_mtime, *map(newest, crates))
    return os.path.isfile(made) and os.stat(made).st_mtime >= changed


def text_sum(crates):
    """A sum of all that crates are made of."""
    made = hashlib.sha256("".join(lines_of(crates)).encode())
    for crate in crates:
        for part in PARTS:
            for at, folders, names in os.walk(folder(crate, part)):
                folders.sort()
                for name in sorted(names):
                    path = os.path.join(at, name)
                    with open(path, "rb") as file:
                        text = file.read()
                    made.update(b"%s\0%d\0" % (os.fsencode(path[len(TOP) :]), len(text)))
                    made.update(text)
    return made.hexdigest()


def mark_of(program):
    """What tells a built program from one that is built later."""
    found = os.stat(program_of(program))
    return "%d %d" % (found.st_size, found.st_mtime_ns)


def note_built(program, made_of):
    """Notes which text a program was built of."""
    note = folder(program, "out", program + ".text")
    with open("%s.%d" % (note, os.getpid()), "w", encoding="ascii") as file:
        file.write("%s %s\n" % (made_of, mark_of(program)))
    os.replace(file.name, note)


def is_built(uses, program):
    """Whether a program is built of this very text. `rt ci` notes no text: what it built is taken where it is newer than all
    that it was made of, and noted then. From then on the text alone counts, also where files are written anew."""
    if not os.path.isfile(program_of(program)):
        return False
    crates, noted = closure(uses, program), ""
    with contextlib.suppress(OSError), open(folder(program, "out", program + ".text"), encoding="ascii") as file:
        noted = file.read()
    made_of, _, mark = noted.strip().partition(" ")
    if mark == mark_of(program):
        return made_of == text_sum(crates)
    if not is_newer(program_of(program), crates):
        return False
    with contextlib.suppress(OSError):
        note_built(program, text_sum(crates))
    return True
