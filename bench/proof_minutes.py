#!/usr/bin/env python3
"""Runs a command, `rt ci` if none is given, and prints the processor minutes that the prover took in it, by crate: for
the crate's own proof, for its tests, and for its edits.

A look at /proc each half second adds up, for each process of the prover that another program began, its own time and that
of its children that ended. What a process takes after the last look at it is lost, which is less than half a second.
Only what is proved anew counts: on a machine that keeps proofs, begin with nothing kept.

usage: bench/proof_minutes.py [COMMAND ..]
"""
import os
import subprocess
import sys
import time
from collections import defaultdict

TICKS = os.sysconf("SC_CLK_TCK")
KINDS = ["proof", "tests", "edits"]


def processes():
    """Each process by its number: when it began, its parent, its ticks with those of its ended children."""
    found = {}
    for name in os.listdir("/proc"):
        if not name.isdigit():
            continue
        try:
            with open(f"/proc/{name}/stat") as file:
                text = file.read()
        except OSError:
            continue
        fields = text[text.rindex(")") + 2 :].split()
        found[int(name)] = (fields[19], int(fields[1]), sum(map(int, fields[11:15])))
    return found


def below(found, top):
    """The processes that `top` began, and those that they began."""
    children = defaultdict(list)
    for pid, (_, parent, _) in found.items():
        children[parent].append(pid)
    reached, waiting = [], [top]
    while waiting:
        pid = waiting.pop()
        reached.append(pid)
        waiting += children[pid]
    return reached


def words_of(pid):
    try:
        with open(f"/proc/{pid}/cmdline") as file:
            return file.read().split("\0")
    except OSError:
        return []


def folder_of(pid):
    try:
        return os.readlink(f"/proc/{pid}/cwd")
    except OSError:
        return ""


def is_prover(words):
    return bool(words) and os.path.basename(words[0]) == "rattle" and "--crate-name" in words


def kind_of(words, folder):
    # Edits are tried in folders of their own; the check that they begin with keeps its work in one.
    if any("/rt-edit" in word for word in [folder, *words]):
        return "edits"
    return "tests" if "--test" in words else "proof"


def watch(command):
    """The ticks of each process of the prover, by crate and kind, and how the command ended."""
    provers, others, ticks = {}, set(), {}
    run = subprocess.Popen(command)
    while run.poll() is None:
        found = processes()
        for pid in below(found, run.pid):
            if pid not in found:
                continue
            began, parent, spent = found[pid]
            key = (pid, began)
            if key not in provers and key not in others:
                words = words_of(pid)
                if not is_prover(words) or is_prover(words_of(parent)):
                    if words and os.path.basename(words[0]) != "python3":
                        others.add(key)
                    continue
                provers[key] = (words[words.index("--crate-name") + 1], kind_of(words, folder_of(pid)))
            if key in provers:
                ticks[key] = spent
        time.sleep(0.5)
    sums = defaultdict(int)
    for key, name_and_kind in provers.items():
        sums[name_and_kind] += ticks.get(key, 0)
    return sums, run.returncode


def main():
    sums, status = watch(sys.argv[1:] or ["rt", "ci"])
    rows = [(name, [sums[(name, kind)] / TICKS / 60 for kind in KINDS]) for name in sorted({name for name, _ in sums})]
    print("| crate | proof | tests | edits | together |\n|---|---|---|---|---|")
    for name, minutes in rows + [("together", [sum(row[1][i] for row in rows) for i in range(3)])]:
        print(f"| {name} | " + " | ".join(f"{m:.1f}" for m in minutes + [sum(minutes)]) + " |")
    sys.exit(status)


if __name__ == "__main__":
    main()
