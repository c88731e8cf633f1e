#!/usr/bin/env python3
"""Time of workers that hash messages, memory of a pipe, readers that stop half way, and rounds. See README.md."""

import argparse
import os
import re
import subprocess
import sys
import time

WORKERS = (1, 2, 4)
MOST_SHARE = {1: 1, 2: 0.6, 4: 0.35}
MESSAGES, KIB = 64, 4096
ROUNDS = 9
PIECES, PIECE_KIB = 16384, 64
MOST_PEAK = 64 * 2**20
ITEMS, STOP_WORKERS, IN_FLIGHT = 10000, 8, 4
CHUNK = 64
ROUND_ITEMS = 4096


def run(program, *words):
    """Seconds, peak bytes and output of one run."""
    begun = time.perf_counter()
    child = subprocess.Popen([program, *map(str, words)], stdout=subprocess.PIPE)
    output = child.stdout.read().decode().strip()
    _, status, usage = os.wait4(child.pid, 0)
    child.returncode = os.waitstatus_to_exitcode(status)
    if child.returncode != 0:
        sys.exit("%s ended with status %d" % (" ".join(map(str, words)), child.returncode))
    return time.perf_counter() - begun, usage.ru_maxrss * 1024, output


def apart(program, count):
    """Seconds of so many processes side by side that hash an equal part each, with one worker."""
    begun = time.perf_counter()
    words = [program, "hash", "1", str(MESSAGES // count), str(KIB)]
    children = [subprocess.Popen(words, stdout=subprocess.DEVNULL) for _ in range(count)]
    if any(child.wait() for child in children):
        sys.exit("%s ended badly" % " ".join(words))
    return time.perf_counter() - begun


def hashing(program):
    """Prints the time of each number of workers beside that of one, and that of as many processes, which tells what the
    machine can do. Tells whether a bound was missed."""
    best, processes, hashes = dict.fromkeys(WORKERS, float("inf")), dict.fromkeys(WORKERS, float("inf")), set()
    for _ in range(ROUNDS):
        for workers in WORKERS:
            seconds, _, output = run(program, "hash", workers, MESSAGES, KIB)
            best[workers] = min(best[workers], seconds)
            processes[workers] = min(processes[workers], apart(program, workers))
            hashes.add(output)
    print("workers  seconds  share  wanted  processes")
    for workers in WORKERS:
        print("%7d  %7.3f  %5.2f  %6.2f  %9.3f" % (workers, best[workers], best[workers] / best[1], MOST_SHARE[workers], processes[workers]))
    if len(hashes) != 1:
        print("the hashes differ: %s" % ", ".join(sorted(hashes)))
    return len(hashes) != 1 or any(best[workers] > MOST_SHARE[workers] * best[1] for workers in WORKERS)


def passing(program):
    """Prints what went through a pipe and the most memory, and tells whether a bound was missed."""
    seconds, peak, output = run(program, "pipe", PIECES, PIECE_KIB)
    print("pipe: %s bytes in %.2f s, peak %.1f MiB" % (output, seconds, peak / 2**20))
    return int(output) != PIECES * PIECE_KIB * 1024 or peak > MOST_PEAK


def stopping(program):
    """Prints what was seen of a pipe whose reader stops half way, and tells whether it is anything else than wanted."""
    seconds, _, output = run(program, "stop", ITEMS, STOP_WORKERS)
    print("stop: %s, in %.2f s" % (output, seconds))
    seen = re.fullmatch(r"read (\d+), written (\d+), came back (\d+)", output)
    if not seen:
        return True
    read, written, back = map(int, seen.groups())
    return read != ITEMS // 2 or written + back != ITEMS or not read <= written <= read + IN_FLIGHT


def drawing(program):
    """Prints how many numbers came that a worker drew ahead, and tells whether it is another number than wanted."""
    seconds, _, output = run(program, "draw", ITEMS, CHUNK)
    print("draw: %s of %d, in %.2f s" % (output, ITEMS, seconds))
    return int(output) != ITEMS // 2


def rounds(program):
    """Prints what a round costs with each number of workers, and tells whether the items came out wrong."""
    wrong = False
    for workers in WORKERS:
        best = float("inf")
        for _ in range(ROUNDS):
            seconds, _, output = run(program, "slice", ROUND_ITEMS, workers)
            best, wrong = min(best, seconds), wrong or int(output) != 2 * ROUND_ITEMS
        count = -(-ROUND_ITEMS // workers)
        print("slice: %d rounds of %d in %.3f s, %.1f us a round" % (count, workers, best, best / count * 1e6))
    return wrong


def main():
    top = os.path.dirname(os.path.dirname(os.path.realpath(__file__)))
    parser = argparse.ArgumentParser(description=__doc__)
    parser.add_argument("program", nargs="?", default=os.path.join(top, "crates/parallel_trials/out/parallel_trials"))
    words = parser.parse_args()
    if not os.access(words.program, os.X_OK):
        sys.exit("no program at %s: build it with rt run in crates/parallel_trials" % words.program)
    if sum([trial(words.program) for trial in (hashing, passing, stopping, drawing, rounds)]):
        sys.exit("a bound was missed")


if __name__ == "__main__":
    main()
