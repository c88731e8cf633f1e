#!/usr/bin/env python3
"""Growth and peak memory of `gitodb world` over many loose objects. See README.md."""

import argparse
import filecmp
import hashlib
import os
import subprocess
import sys
import tempfile
import time

SIZES = (4000, 16000, 64000)
ROUNDS = 9
MOST_GROWTH = 4.8
MEMORY_FACTOR = 12
MEMORY_BASE = 32 * 1024 * 1024


def script(count, objects):
    """A script of so many objects in a folder with one find each, and the output that it must have."""
    names = objects.strip("/").split("/")
    setup = ["mkdir /" + "/".join(names[: depth + 1]) for depth in range(len(names))]
    steps, output = ["steps", "open 0 %s slots=4" % objects, "finish 0"], ["applied", "opened 4"]
    folders = set()
    for number in range(count):
        data = b"object %d\n" % number
        name = hashlib.sha1(b"blob %d\0" % len(data) + data).hexdigest()
        if name[:2] not in folders:
            folders.add(name[:2])
            setup.append("mkdir %s/%s" % (objects, name[:2]))
        setup.append("put %s/%s/%s 0 @loose:blob:%s" % (objects, name[:2], name[2:], data.hex()))
        steps += ["find 0 " + name, "finish 0"]
        output += ["applied", "found blob %d %s" % (len(data), data.hex())]
    return "\n".join(setup + steps) + "\n", "\n".join(output) + "\n"


def make(folder, objects):
    """Writes the scripts and their outputs."""
    for size in SIZES:
        for name, text in zip(("script", "output"), script(size, objects)):
            with open(os.path.join(folder, "%d.%s" % (size, name)), "w") as file:
                file.write(text)


def run(program, script_path, output_path):
    """Seconds, peak bytes and status of one run."""
    with open(script_path, "rb") as given, open(output_path, "wb") as taken:
        begun = time.perf_counter()
        child = subprocess.Popen([program, "world"], stdin=given, stdout=taken)
        _, status, usage = os.wait4(child.pid, 0)
        seconds = time.perf_counter() - begun
        child.returncode = os.waitstatus_to_exitcode(status)
    return seconds, usage.ru_maxrss * 1024, child.returncode


def measured(program, folder, size):
    """Seconds and peak bytes of one run, whose output is right."""
    got = os.path.join(folder, "got")
    seconds, peak, status = run(program, os.path.join(folder, "%d.script" % size), got)
    if status != 0 or not filecmp.cmp(got, os.path.join(folder, "%d.output" % size), shallow=False):
        sys.exit("wrong output at size %d, status %d" % (size, status))
    return seconds, peak


def rounds(program, folder, sizes):
    """The best time and the greatest peak of each size over some rounds, in which each size has its turn."""
    best, most = dict.fromkeys(sizes, float("inf")), dict.fromkeys(sizes, 0)
    for _ in range(ROUNDS):
        for size in sizes:
            seconds, peak = measured(program, folder, size)
            best[size], most[size] = min(best[size], seconds), max(most[size], peak)
    return best, most


def report(folder, sizes, title, best, most):
    """Prints a line for each size, and tells whether a bound was missed."""
    missed, before = False, None
    print("%7s  seconds  growth  peak MiB  peak / script" % title)
    for size in sizes:
        length = os.path.getsize(os.path.join(folder, "%d.script" % size))
        growth = best[size] / before if before else None
        missed |= bool(growth and growth > MOST_GROWTH) or most[size] > MEMORY_FACTOR * length + MEMORY_BASE
        shown = "%6.2f" % growth if growth else "     -"
        print("%7d  %7.3f  %s  %8.1f  %13.1f" % (size, best[size], shown, most[size] / 2**20, most[size] / length))
        before = best[size]
    return missed


def main():
    top = os.path.dirname(os.path.dirname(os.path.realpath(__file__)))
    parser = argparse.ArgumentParser(description=__doc__)
    parser.add_argument("program", nargs="?", default=os.path.join(top, "crates/gitodb/out/gitodb"))
    parser.add_argument("--objects", default="/o", help="the objects directory of the scripts")
    parser.add_argument("--make", metavar="FOLDER", help="only write the scripts and their outputs there")
    words = parser.parse_args()
    if words.make:
        return make(words.make, words.objects)
    if not os.access(words.program, os.X_OK):
        sys.exit("no program at %s: build it with ./gitodb --prove" % words.program)
    with tempfile.TemporaryDirectory() as folder:
        # A process of its own makes them: a child's peak counts what this process has at its start.
        subprocess.run([sys.executable, __file__, "--make", folder, "--objects", words.objects], check=True)
        if report(folder, SIZES, "objects", *rounds(words.program, folder, SIZES)):
            sys.exit("a bound was missed")


if __name__ == "__main__":
    main()
