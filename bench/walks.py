#!/usr/bin/env python3
"""Compares `list_walk` and the original crate `walkdir` with walks by the definition, over generated real folders.

The folders have links, loops, fifos, odd names, locked directories and another device; walks have all options. Where
cargo or the crate's source (Debian's librust-walkdir-dev) is missing, `list_walk` alone is compared. See README.md.
"""

import argparse
import collections
import os
import random
import shutil
import subprocess
import sys
import tempfile

import original_walk
from walk_model import DIFFERENCES, TooLong, Walk

NAMES = [name.encode() for name in ("a", "b", "a.b", "a0", "A", "z z", "-", "\u00e9", "e\u0301", "x.y.z", ".hidden", "long" * 20, "new\nline", "\t")]
BAD_NAMES = [b"\xff", b"a\xed\xa0\x80"]
MODES = (0o000, 0o111, 0o444, 0o555)
MOST_NODES = 60
NOBODY = 65534


class Shape:
    """A folder and all that stands below it, made by chance."""

    def __init__(self, chance, root, elsewhere):
        self.chance, self.paths, self.folders, self.elsewhere, self.locked = chance, [root], [root], list(elsewhere), []
        os.mkdir(root)
        self.fill(root, 0)
        for path in self.folders[1:]:
            if chance.random() < 0.15:
                self.locked.append((path, chance.choice(MODES)))
        for path, mode in reversed(self.locked):
            os.chmod(path, mode)

    def unlock(self):
        for path, _ in self.locked:
            os.chmod(path, 0o755)

    def fill(self, folder, depth):
        names = NAMES + BAD_NAMES * (self.chance.random() < 0.2)
        for name in self.chance.sample(names, self.chance.randrange(2, 7)):
            path, form = os.path.join(folder, name), self.chance.random()
            if len(self.paths) >= MOST_NODES:
                return
            self.paths.append(path)
            if form < 0.4 and depth < 5:
                os.mkdir(path)
                self.folders.append(path)
                self.fill(path, depth + 1)
            elif form < 0.65:
                open(path, "w").close()
            elif form < 0.94:
                self.link(folder, path, depth)
            elif form < 0.97:
                self.chain(path)
            else:
                os.mkfifo(path)

    def link(self, folder, path, depth):
        """A link to something made so far, to something above, to another device, or to nothing."""
        near = [folder, os.path.join(self.chance.choice(self.paths), b"none")] + [os.path.dirname(folder)] * (depth > 0)
        target = self.chance.choice(self.chance.choice((self.paths, self.folders, near + self.elsewhere)))
        os.symlink(target if self.chance.random() < 0.5 else os.path.relpath(target, folder), path)

    def chain(self, path):
        """A directory of links, each to the next one, about as many as are followed at most."""
        count = self.chance.randrange(38, 43)
        os.mkdir(path)
        for number in range(count):
            os.symlink(b"%02d" % (number + 1), os.path.join(path, b"%02d" % number))
        os.mkdir(os.path.join(path, b"%02d" % count))


WORDS = {"follow": "--follow", "sort": "--sort", "first": "--contents-first", "same": "--same-file-system"}


def choose(chance):
    options = {name: chance.random() < 0.4 for name in WORDS}
    options["open"] = chance.choice((None, None, 0, 1, 2, 3))
    options["min"], options["max"] = chance.choice(((0, 99), (0, 99), (0, 99), (1, 99), (2, 99), (0, 2), (2, 3), (0, 0), (3, 1)))
    return options


def words_of(options):
    words = [word for name, word in WORDS.items() if options[name]]
    if options["open"] is not None:
        words += ["--max-open", str(options["open"])]
    return words + ["--max-depth", str(options["max"]), "--min-depth", str(options["min"])]


def model(path, options, others):
    """The lines of a walk by the definition, with these differences, and its status."""
    options = dict(options, max=max(options["min"], options["max"]))
    lines, status = Walk(path, options, others).run()
    return list(lines), status


def cases(count, seed, top, elsewhere):
    """Roots with options."""
    for number in range(count):
        chance = random.Random(seed * 100_003 + number)
        shape = Shape(chance, os.path.join(top, b"%d" % number), elsewhere)
        roots = [path for path in shape.paths if not any(name in path for name in BAD_NAMES)]
        links = [path for path in roots if os.path.islink(path)]
        for path in roots[:1] + chance.sample(roots, min(2, len(roots))) + links[:1]:
            yield path, choose(chance)
        shape.unlock()


class Comparison:
    """Two programs and the definition, and what was found of them."""

    def __init__(self, ours, original):
        self.ours, self.original = ours, original
        self.total, self.wrong, self.too_long = 0, 0, 0
        self.lines, self.met = collections.Counter(), collections.Counter()

    def add(self, path, options):
        try:
            wanted = model(path, options, ())
        except TooLong:
            self.too_long += 1
            return
        self.total += 1
        self.lines.update(map(form_of, wanted[0]))
        self.check("list_walk", self.ours, path, options, wanted, apart_from_errors)
        if self.original:
            self.check("the original", self.original, path, options, model(path, options, DIFFERENCES))
            self.met.update(name for name in DIFFERENCES if model(path, options, (name,)) != wanted)

    def check(self, title, program, path, options, wanted, outputs=lambda lines: (joined(lines), b"")):
        found = subprocess.run([program, path] + words_of(options), stdin=subprocess.DEVNULL, stdout=subprocess.PIPE, stderr=subprocess.PIPE)
        entries, errors = outputs(wanted[0])
        if (found.stdout, found.stderr, found.returncode) != (entries, errors, wanted[1]):
            self.wrong += 1
            print("%s differs, with status %d for %d: %r %s" % (title, found.returncode, wanted[1], path, " ".join(words_of(options))))
            show(found.stdout.split(b"\n"), entries.split(b"\n"))
            show(found.stderr.split(b"\n"), errors.split(b"\n"))


SYSTEM = {b"Absent": b"No such file or directory", b"WrongKind": b"Not a directory", b"LinkLoop": b"Too many levels of symbolic links", b"Failed": b"refused by the system, or an entry that can't be listed"}


def told(line):
    """How `list_walk` tells an error: behind its name, with the system's words."""
    words = None if line.startswith(b"File system loop found: ") else SYSTEM.get(line.rsplit(b" ", 1)[-1])
    return b"list_walk: " + line + (b" (%s)\n" % words if words else b"\n")


def joined(lines):
    return b"".join(line + b"\n" for line in lines)


def apart_from_errors(lines):
    """What `list_walk` writes on standard output and on standard error. An entry begins with a slash, an error never."""
    return joined(l for l in lines if l.startswith(b"/")), b"".join(told(l) for l in lines if not l.startswith(b"/"))


def form_of(line):
    """What a line tells; of an error its name."""
    if line.startswith(b"File system loop found: "):
        return "loop"
    name = line.rsplit(b" ", 1)[-1].decode(errors="replace")
    return name if name in ("Absent", "WrongKind", "LinkLoop", "Failed") else "entry"


def show(found, wanted):
    """Prints the first line that differs."""
    for number, (given, due) in enumerate(zip(found + [b""], wanted + [b""])):
        if given != due:
            return print("  line %d is %r in place of %r" % (number + 1, given, due))


def compare(programs, words, top, elsewhere):
    """Walks all cases, and gives the exit status."""
    if os.geteuid() == 0:
        os.setgroups([])
        os.setgid(NOBODY)
        os.setuid(NOBODY)
    comparison = Comparison(*programs)
    for path, options in cases(words.shapes, words.seed, top, elsewhere):
        comparison.add(path, options)
    lines = ", ".join("%d %s" % (count, form) for form, count in comparison.lines.most_common())
    print("%d walks, %d differ, %d too long to compare; lines: %s" % (comparison.total, comparison.wrong, comparison.too_long, lines))
    for name, text in DIFFERENCES.items():
        if comparison.original:
            print("%5d have a listed difference: %s" % (comparison.met[name], text))
    return 1 if comparison.wrong else 0


def apart(work):
    """The exit status of some work in a process of its own, which may give up root's rights."""
    sys.stdout.flush()
    child = os.fork()
    if child:
        return os.waitstatus_to_exitcode(os.waitpid(child, 0)[1])
    status = 3
    try:
        status = work()
    finally:
        sys.stdout.flush()
        os._exit(status)


def far_folder(near):
    """A new folder on another device than a folder's, if there is one, and what links may lead to there."""
    if not os.access("/dev/shm", os.W_OK) or os.stat("/dev/shm").st_dev == os.stat(near).st_dev:
        return None, []
    folder = os.fsencode(tempfile.mkdtemp(dir="/dev/shm"))
    os.chmod(folder, 0o755)
    os.makedirs(os.path.join(folder, b"d/e"))
    open(os.path.join(folder, b"d/f"), "w").close()
    return folder, [folder, os.path.join(folder, b"d"), os.path.join(folder, b"d/f")]


def run(words, folder, far):
    """Copies and builds the programs into a folder that all may read, and compares them there."""
    os.chmod(folder, 0o755)
    ours = shutil.copy(words.program, os.path.join(folder, "list_walk"))
    original, told = original_walk.build(os.path.join(folder, "original"), words.registry)
    print("the original is " + told if original else "without the original: " + told)
    shapes = os.path.join(os.fsencode(folder), b"shapes")
    os.mkdir(shapes)
    if os.geteuid() == 0:
        os.chown(shapes, NOBODY, NOBODY)
    return apart(lambda: compare((ours, original), words, shapes, far))


def main():
    top = os.path.dirname(os.path.dirname(os.path.realpath(__file__)))
    parser = argparse.ArgumentParser(description=__doc__)
    parser.add_argument("program", nargs="?", default=os.path.join(top, "crates/list_walk/out/list_walk"))
    parser.add_argument("--shapes", type=int, default=100)
    parser.add_argument("--seed", type=int, default=1)
    parser.add_argument("--registry", default=original_walk.REGISTRY, help="where the sources of the crate and of what it stands on lie")
    words = parser.parse_args()
    if not os.access(words.program, os.X_OK):
        sys.exit("no program at %s: build it by `rt run` in crates/list_walk" % words.program)
    folder = os.path.realpath(tempfile.mkdtemp())
    far, targets = far_folder(folder)
    try:
        sys.exit(run(words, folder, targets))
    finally:
        for path in filter(None, (folder, far)):
            shutil.rmtree(path)


if __name__ == "__main__":
    main()
