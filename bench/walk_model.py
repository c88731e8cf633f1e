"""Walks of real folders by their definition, written again apart from the program.

The original crate's walks are the same but for some switches, each of which is a row of docs/DIFFERENCES.md.
"""

import os
import stat

# What the original crate does otherwise.
DIFFERENCES = {
    "nodes": "fifos are given as entries",
    "names": "names that aren't UTF-8 are given as entries",
    "looks": "entries are given that can't be looked at",
    "opened links": "a followed link to a directory that can't be opened is one error without a path",
    "late": "below a root link that isn't followed, directories that come after their contents come too late or not at all",
}

KINDS = {stat.S_IFREG: "File", stat.S_IFDIR: "Dir", stat.S_IFLNK: "Link"}
ERRORS = {2: b"Absent", 20: b"WrongKind", 21: b"WrongKind", 40: b"LinkLoop"}


class Refused(Exception):
    """A place of which an error is given; the line is its only argument."""


class TooLong(Exception):
    """A walk of more lines than are asked for."""


def name_of(error):
    return ERRORS.get(error.errno, b"Failed")


def is_text(name):
    try:
        name.decode()
        return True
    except UnicodeDecodeError:
        return False


class Walk:
    """One walk, from a root in bytes. `others` are the differences that it has from the definition."""

    def __init__(self, root, options, others=(), most=20000):
        self.root, self.options, self.others, self.most = root, options, others, most
        self.lines, self.errors, self.deferred, self.device = [], 0, [], None

    def run(self):
        """The lines of the walk, and the exit status for them."""
        try:
            if self.options["same"]:
                self.device = self.look(self.root, True)[1][0]
            kind = self.look(self.root, False)[0]
        except Refused as refused:
            self.error(refused.args[0])
        else:
            self.walk_of(self.root, kind, 0, [])
            self.give_deferred(0)
        return self.lines, 2 if self.errors else 0

    # ---- what the disk answers

    def look(self, path, follow):
        """Kind and place of what stands at a path."""
        try:
            found = os.stat(path) if follow else os.lstat(path)
        except OSError as error:
            raise Refused(b"IO error for operation on %s: %s" % (path, name_of(error)))
        kind = KINDS.get(stat.S_IFMT(found.st_mode), "Node")
        if kind == "Node" and "nodes" not in self.others:
            raise Refused(b"IO error for operation on %s: Failed" % path)
        return kind, (found.st_dev, found.st_ino)

    def entries(self, path):
        """The entries of a directory in the order of its stream, and whether some were passed over."""
        try:
            found = list(os.scandir(path))
        except OSError as error:
            raise Refused(b"IO error for operation on %s: %s" % (path, name_of(error)))
        kinds = [(entry.name, self.kind_of(entry)) for entry in found]
        return [it for it in kinds if it[1]], any(it[1] is None for it in kinds)

    def kind_of(self, entry):
        """The kind of an entry of a directory, if it is given."""
        if "names" not in self.others and not is_text(entry.name):
            return None
        if "looks" in self.others:
            tests = ("Link", entry.is_symlink()), ("Dir", entry.is_dir(follow_symlinks=False)), ("File", entry.is_file(follow_symlinks=False))
            return next((kind for kind, is_so in tests if is_so), "Node" if "nodes" in self.others else None)
        try:
            return self.look(entry.path, False)[0]
        except Refused:
            return None

    # ---- the walk

    def walk_of(self, path, kind, depth, above):
        try:
            kind, enters, place = self.taken(path, kind, depth, above)
        except Refused as refused:
            return self.error(refused.args[0])
        after = self.options["first"] and kind == "Dir"
        if not after:
            self.give(path, depth)
        elif "late" in self.others:
            self.deferred.append(path)
        if enters and depth < self.options["max"]:
            self.contents(path, depth, above + [(path, place)])
        if after and "late" not in self.others:
            self.give(path, depth)

    def taken(self, path, kind, depth, above):
        """The kind that a place is taken for, whether it is entered, and where it stands if that matters."""
        follow, same, place = self.options["follow"], self.options["same"], None
        if kind == "Link" and follow:
            kind, place = self.look(path, True)
            if kind == "Dir":
                self.check_loop(path, place, above)
        if kind == "Link" and depth == 0:
            target, place = self.look(path, True)
            return kind, target == "Dir", place
        if kind == "Dir" and (same or follow):
            try:
                place = self.look(path, True)[1]
            except Refused:
                # The original looks there for `--same-file-system` alone.
                if same or "looks" not in self.others:
                    raise
        return kind, kind == "Dir" and not (same and depth and place[0] != self.device), place

    def check_loop(self, path, place, above):
        """Refuses a directory that the walk is in."""
        if "opened links" in self.others:
            try:
                os.close(os.open(path, os.O_RDONLY))
            except OSError as error:
                raise Refused(name_of(error))
        for ancestor, other in reversed(above):
            if other == place:
                raise Refused(b"File system loop found: %s points to an ancestor %s" % (path, ancestor))

    def contents(self, path, depth, above):
        try:
            children, odd = self.entries(path)
        except Refused as refused:
            return self.error(refused.args[0])
        if self.options["sort"]:
            children.sort()
            if odd:
                self.error(b"Failed")
        for name, kind in children:
            self.walk_of(path.rstrip(b"/") + b"/" + name, kind, depth + 1, above)
            self.give_deferred(depth + 1)
        if odd and not self.options["sort"]:
            self.error(b"Failed")

    # ---- what is given

    def error(self, line):
        self.errors += 1
        self.line(line)

    def give(self, path, depth):
        if self.options["min"] <= depth <= max(self.options["min"], self.options["max"]):
            self.line(path)

    def give_deferred(self, depth):
        """Gives the directories for which the original keeps more than so many, as if they had that depth."""
        while len(self.deferred) > depth:
            self.give(self.deferred.pop(), depth)

    def line(self, line):
        if len(self.lines) == self.most:
            raise TooLong
        self.lines.append(line)
