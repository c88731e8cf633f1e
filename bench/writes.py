#!/usr/bin/env python3
"""Growth and peak memory of `gitodb world` over many small writes, and over one large write. See README.md."""

import argparse
import hashlib
import os
import subprocess
import sys
import tempfile

import world

# How many objects of a few bytes, and of how many MiB the one object is.
CASES = (("objects", (2000, 8000)), ("MiB", (1, 4, 16)))


def wrote(data):
    """The line that a write of a blob must give."""
    return "wrote " + hashlib.sha1(b"blob %d\0" % len(data) + data).hexdigest()


def script(contents):
    """A script that writes blobs one after another, and the output that it must have."""
    steps, output = ["mkdir /o", "steps", "open 0 /o slots=4", "finish 0"], ["applied", "opened 4"]
    for data in contents:
        steps += ["write 0 blob " + data.hex(), "finish 0"]
        output += ["applied", wrote(data)]
    return "\n".join(steps) + "\n", "\n".join(output) + "\n"


def contents(case, size):
    """The data of the blobs of a case."""
    if case == "objects":
        return [b"object %d\n" % number for number in range(size)]
    return [b"x" * (size << 20)]


def make(folder):
    """Writes the scripts and their outputs, those of a case into a folder of its own."""
    for case, sizes in CASES:
        os.mkdir(os.path.join(folder, case))
        for size in sizes:
            for name, text in zip(("script", "output"), script(contents(case, size))):
                with open(os.path.join(folder, case, "%d.%s" % (size, name)), "w") as file:
                    file.write(text)


def main():
    top = os.path.dirname(os.path.dirname(os.path.realpath(__file__)))
    parser = argparse.ArgumentParser(description=__doc__)
    parser.add_argument("program", nargs="?", default=os.path.join(top, "crates/gitodb/out/gitodb"))
    parser.add_argument("--make", metavar="FOLDER", help="only write the scripts and their outputs there")
    words = parser.parse_args()
    if words.make:
        return make(words.make)
    if not os.access(words.program, os.X_OK):
        sys.exit("no program at %s: build it with ./gitodb --prove" % words.program)
    missed = False
    with tempfile.TemporaryDirectory() as folder:
        # A process of its own makes them: a child's peak counts what this process has at its start.
        subprocess.run([sys.executable, __file__, "--make", folder], check=True)
        for case, sizes in CASES:
            inner = os.path.join(folder, case)
            missed |= world.report(inner, sizes, case, *world.rounds(words.program, inner, sizes))
    if missed:
        sys.exit("a bound was missed")


if __name__ == "__main__":
    main()
