#!/usr/bin/env python3
"""Growth and memory of `probe_index` over indices and multi-pack indices of many rows, or of many packs. See README.md."""

import argparse
import os
import resource
import subprocess
import sys
import tempfile
import time

import fuzz_index
import indices

# Rows of an index, rows of the multi-pack index of four packs, and packs of one row in one multi-pack index.
SIZES = {"index": (10000, 40000, 160000), "multi": (10000, 40000, 160000), "packs": (250, 1000, 4000)}
ROUNDS = 9
MOST_GROWTH = 4.4
MEMORY_FACTOR = 3
MEMORY_BASE = 16 * 1024 * 1024


def bytes_of(form, size):
    """An index of so many rows, a multi-pack index of four packs with so many rows, or one of so many packs."""
    ids = fuzz_index.names(size, 20, size)
    if form == "index":
        return indices.index([(name, 12 + 100 * number) for number, name in enumerate(ids)], 20)
    packs = 4 if form == "multi" else size
    rows = [(name, number % packs, 12 + 100 * number) for number, name in enumerate(ids)]
    return indices.multi_index(["pack-%04d.idx" % number for number in range(packs)], rows, 20)


def make(folder):
    """Writes an index or a multi-pack index of each form and size."""
    for form, sizes in SIZES.items():
        for size in sizes:
            with open(os.path.join(folder, "%d.%s" % (size, form)), "wb") as file:
                file.write(bytes_of(form, size))


def asked_of(form, size):
    """An id of each of the packs; else the first, the middle and the last id, and one that is not there."""
    ids = fuzz_index.names(size, 20, size)
    return ids if form == "packs" else [ids[0], ids[len(ids) // 2], ids[-1], bytes(20)]


def run(program, path, asked, room=None):
    """Seconds, status and output of one run, in so much address space if that is given."""
    limit = (lambda: resource.setrlimit(resource.RLIMIT_AS, (room, room))) if room else None
    with open(path, "rb") as given:
        begun = time.perf_counter()
        made = subprocess.run([program] + [name.hex() for name in asked], stdin=given, capture_output=True, preexec_fn=limit)
        return time.perf_counter() - begun, made.returncode, made.stdout


def is_right(body, asked, made):
    return (made[1], made[2]) == fuzz_index.wanted(body, asked, 20)


def least_room(program, path, body, asked, most):
    """The least address space, to one MiB, in which the answer is right; none where that is above the most."""
    if not is_right(body, asked, run(program, path, asked, most)):
        return None
    low, high = 0, most >> 20
    while high - low > 1:
        middle = (low + high) // 2
        if is_right(body, asked, run(program, path, asked, middle << 20)):
            high = middle
        else:
            low = middle
    return high << 20


def measured(program, folder, form):
    """Prints a line for each size, and tells whether a bound was missed."""
    sizes = SIZES[form]
    missed, best = False, dict.fromkeys(sizes, float("inf"))
    paths = {size: os.path.join(folder, "%d.%s" % (size, form)) for size in sizes}
    bodies = {size: open(paths[size], "rb").read() for size in sizes}
    asked = {size: asked_of(form, size) for size in sizes}
    for _ in range(ROUNDS):
        for size in sizes:
            made = run(program, paths[size], asked[size])
            if not is_right(bodies[size], asked[size], made):
                sys.exit("wrong output of %s at %d rows: status %d" % (form, size, made[1]))
            best[size] = min(best[size], made[0])
    print("%6s rows  seconds  growth  room MiB  allowed" % form)
    for number, size in enumerate(sizes):
        most = MEMORY_FACTOR * len(bodies[size]) + MEMORY_BASE
        room = least_room(program, paths[size], bodies[size], asked[size], most)
        growth = best[size] / best[sizes[number - 1]] if number else None
        missed |= bool(growth and growth > MOST_GROWTH) or room is None
        shown = "%6.2f" % growth if growth else "     -"
        print("%11d  %7.4f  %s  %8s  %7.1f" % (size, best[size], shown, room >> 20 if room else "more", most / 2**20))
    return missed


def main():
    top = os.path.dirname(os.path.dirname(os.path.realpath(__file__)))
    parser = argparse.ArgumentParser(description=__doc__)
    parser.add_argument("program", nargs="?", default=os.path.join(top, "crates/probe_index/out/probe_index"))
    words = parser.parse_args()
    if not os.access(words.program, os.X_OK):
        sys.exit("no program at %s: build it by `rt run` in crates/probe_index" % words.program)
    with tempfile.TemporaryDirectory() as folder:
        make(folder)
        results = [measured(words.program, folder, form) for form in SIZES]
    if any(results):
        sys.exit("a bound was missed")


if __name__ == "__main__":
    main()
