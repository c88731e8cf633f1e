#!/usr/bin/env python3
"""Growth, speed and memory of `list_walk` over real folders of many files, beside `find` and the original crate. See README.md."""

import argparse
import hashlib
import os
import resource
import shutil
import subprocess
import sys
import tempfile

import original_walk

SIZES = (25000, 100000)
ROUNDS = 9
WIDTH = 100
MOST_GROWTH = 4.8
MOST_OF_FIND = 3
MOST_OF_ORIGINAL = 1.5
MEMORY_STEP = 128 * 1024
MEMORY_SLACK = 1024 * 1024
MOST_MEMORY = 256 * 1024 * 1024


def make(folder, size, width):
    """Makes a folder with so many files, so many of them in each of its directories, and digests its sorted walk."""
    digest = hashlib.sha256()

    def add(path):
        digest.update(os.fsencode(path) + b"\n")
        return path

    os.makedirs(add(folder), exist_ok=True)
    for first in range(0, size, width):
        inner = os.path.join(folder, "%04d" % (first // width // WIDTH), "%02d" % (first // width % WIDTH))
        if first // width % WIDTH == 0:
            os.makedirs(add(os.path.dirname(inner)), exist_ok=True)
        os.makedirs(add(inner), exist_ok=True)
        for number in range(width):
            os.close(os.open(add(os.path.join(inner, "file-%06d.txt" % number)), os.O_CREAT | os.O_WRONLY))
    return digest.hexdigest()


def run(words, room=None):
    """The status of one run, in so much address space if that is given, and the digest of its output."""
    limit = (lambda: resource.setrlimit(resource.RLIMIT_AS, (room, room))) if room else None
    digest = hashlib.sha256()
    # A loader for which there is no room says so.
    quiet = subprocess.DEVNULL if room else None
    with subprocess.Popen(words, stdin=subprocess.DEVNULL, stdout=subprocess.PIPE, stderr=quiet, bufsize=0, preexec_fn=limit) as child:
        while True:
            piece = child.stdout.read(65536)
            if not piece:
                break
            digest.update(piece)
        status = child.wait()
    return status, digest.hexdigest()


def timed(words):
    """Processor seconds of one run, whose output nobody reads. Other programs disturb them less than the clock's."""
    child = subprocess.Popen(words, stdin=subprocess.DEVNULL, stdout=subprocess.DEVNULL)
    _, status, usage = os.wait4(child.pid, 0)
    child.returncode = os.waitstatus_to_exitcode(status)
    if status:
        sys.exit("status %d of %s" % (child.returncode, " ".join(words)))
    return usage.ru_utime + usage.ru_stime


def best_times(runs):
    """The best time of each run of these words over some rounds, in which each has its turn."""
    best = dict.fromkeys(runs, float("inf"))
    for _ in range(ROUNDS):
        for words in runs:
            best[words] = min(best[words], timed(words))
    return best


def least_room(words, wanted):
    """The least address space, to one step, in which the output is right."""
    low, high = 0, MOST_MEMORY // MEMORY_STEP
    while high - low > 1:
        middle = (low + high) // 2
        if run(words, middle * MEMORY_STEP) == (0, wanted):
            high = middle
        else:
            low = middle
    return high * MEMORY_STEP


def speeds(program, original, folders):
    """Prints the times of each size, and tells whether a bound was missed."""
    peers = {"unsorted": (program,), "sorted": (program, "--sort"), "find": ("find",)}
    pairs = [("unsorted", "find", MOST_OF_FIND), ("sorted", "find", MOST_OF_FIND)]
    if original:
        peers.update({"original": (original,), "original sorted": (original, "--sort"), "original looking": (original, "--sort", "--look")})
        pairs += [("sorted", "original sorted", MOST_OF_ORIGINAL), ("sorted", "original looking", MOST_OF_ORIGINAL)]
    runs = {(name, size): (words[0], path, *words[1:]) for size, path in folders.items() for name, words in peers.items()}
    best = best_times(list(runs.values()))
    took = {run: best[words] for run, words in runs.items()}
    missed = False
    for name in peers:
        small, large = (took[name, size] for size in SIZES)
        print("%-16s %8.4f s %8.4f s, growth %.2f" % (name, small, large, large / small))
        missed |= name in ("unsorted", "sorted") and large / small > MOST_GROWTH
    for name, peer, most in pairs:
        ratios = [took[name, size] / took[peer, size] for size in SIZES]
        print("%s / %s: %.2f and %.2f, at most %.1f" % (name, peer, *ratios, most))
        missed |= max(ratios) > most
    return missed


def memory(program, digests, trees, flat):
    """Prints the memory that each folder needs, and tells whether it grows with the tree."""
    rooms = {path: least_room((program, path, "--sort"), digests[path]) for path in (*trees, flat)}
    for path, room in rooms.items():
        print("%s: %.2f MiB" % (os.path.basename(path), room / 2**20))
    return rooms[trees[1]] > rooms[trees[0]] + MEMORY_SLACK


def measured(program, top, registry):
    """Makes and walks folders below one, and tells whether a bound was missed."""
    with tempfile.TemporaryDirectory() as folder:
        original, told = original_walk.build(os.path.join(folder, "original"), registry)
        print("the original is " + told if original else "without the original: " + told)
        trees = {size: os.path.join(top, "tree-%d" % size) for size in SIZES}
        flat = os.path.join(top, "flat-%d" % SIZES[0])
        digests = {path: make(path, size, WIDTH) for size, path in trees.items()}
        digests[flat] = make(flat, SIZES[0], SIZES[0])
        for path, wanted in digests.items():
            for name in filter(None, (program, original)):
                if run((name, path, "--sort")) != (0, wanted):
                    sys.exit("wrong output of %s over %s" % (name, path))
        missed = speeds(program, original, trees)
        return memory(program, digests, list(trees.values()), flat) | missed


def main():
    top = os.path.dirname(os.path.dirname(os.path.realpath(__file__)))
    parser = argparse.ArgumentParser(description=__doc__)
    parser.add_argument("program", nargs="?", default=os.path.join(top, "crates/list_walk/out/list_walk"))
    parser.add_argument("--registry", default=original_walk.REGISTRY, help="where the sources of the crate and of what it stands on lie")
    parser.add_argument("--folder", help="where the folders that are walked lie; they are made if need be, and kept")
    words = parser.parse_args()
    if not os.access(words.program, os.X_OK):
        sys.exit("no program at %s: build it by `rt run` in crates/list_walk" % words.program)
    folder = os.path.realpath(words.folder or tempfile.mkdtemp())
    try:
        if measured(words.program, folder, words.registry):
            sys.exit("a bound was missed")
    finally:
        if not words.folder:
            shutil.rmtree(folder)


if __name__ == "__main__":
    main()
