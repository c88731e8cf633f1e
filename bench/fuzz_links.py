#!/usr/bin/env python3
"""Changes by chance around links in watched folders: each outcome of `gitodb world` against a plain model. See README.md."""

import argparse
import random
import subprocess
import sys
from collections import Counter

from link_model import Model, path, text

FOLDERS = [path(it) for it in ("/o", "/s", "/q")]
FIRST = [path(it) for it in ("/o", "/o/pack", "/s", "/s/pack", "/q", "/r", "/d", "/d/e", "/q/pack")]
NAMES = ["a.idx", "a.idx", "b.idx", "multi-pack-index", "x"]
DIRECTORIES = [path(it) for it in ("/o/pack", "/o/pack", "/s/pack", "/s/pack", "/q", "/q/pack", "/r", "/d", "/d/e")]
PLACES = [path(it) for it in ("/o/pack", "/s/pack", "/o/pack", "/s/pack", "/q/pack", "/q", "/r", "/d", "/d/e", "/d/pack", "/l", "/m", "/n", "/o", "/s")]
LEAVES = [path(it) for it in ("/t", "/u", "/l", "/m", "/n", "/d/e/x")]


class Chances:
    """Changes by chance, as a seed says."""

    def __init__(self, seed):
        self.chance = random.Random(seed)
        self.same = self.chance.choice((0.5, 0.7, 0.9))

    def one_in(self, share):
        return self.chance.random() < share

    def leaf(self):
        return self.chance.choice(LEAVES) if self.one_in(0.4) else self.chance.choice(DIRECTORIES) + (self.chance.choice(NAMES),)

    def node(self, tree, kinds):
        """The path of a node of one of these kinds, if there is one."""
        there = sorted(names for names, node in tree.nodes.items() if names and node[0] in kinds)
        return self.chance.choice(there) if there else self.leaf()

    def target(self, tree):
        return self.node(tree, ("link",)) if self.one_in(0.4) else self.leaf() if self.one_in(0.5) else self.chance.choice(PLACES)

    def change(self, tree):
        part = self.chance.random()
        if part < 0.3:
            at = self.node(tree, ("file",)) if self.one_in(0.5) else self.node(tree, ("link",)) if self.one_in(0.15) else self.leaf()
            return "put", at, self.chance.choice((1, 1, 2)), "78" if self.one_in(self.same) else "79"
        if part < 0.44:
            return "link", self.node(tree, ("link",)) if self.one_in(0.3) else self.leaf(), self.leaf() if self.one_in(0.7) else self.node(tree, ("file", "link"))
        if part < 0.6:
            return "link", self.node(tree, ("link",)) if self.one_in(0.3) else self.chance.choice(PLACES), self.chance.choice(PLACES)
        if part < 0.68:
            return "mkdir", self.chance.choice(PLACES)
        if part < 0.76:
            return "rename", self.node(tree, ("link",)), self.target(tree)
        if part < 0.8:
            return "rename", self.node(tree, ("file",)), self.leaf()
        if part < 0.9:
            return "rename", self.node(tree, ("dir",)), self.chance.choice(PLACES)
        if part < 0.97:
            return "remove", self.node(tree, ("link", "file", "dir"))
        return "time", self.node(tree, ("file",)), self.chance.choice((1, 2))


def words(change):
    return " ".join(it if isinstance(it, str) else text(it) if isinstance(it, tuple) else str(it) for it in change)


def made(seed, steps):
    """A script, and the lines that it has to print: an opening only names a folder and makes no call."""
    chances, model = Chances(seed), Model()
    lines, wanted = ["steps"], []
    folders = chances.chance.sample(FOLDERS, len(FOLDERS))
    for place in FIRST[: chances.chance.choice((2, 4, 7, 9))]:
        lines.append("do mkdir " + text(place))
        wanted.append(model.change(("mkdir", place)))
    for step in range(steps):
        if folders and chances.one_in(0.25 if step < 8 else 0.03):
            lines.append("open %d %s slots=4" % (len(FOLDERS) - len(folders), text(folders[-1])))
            wanted.append("applied")
            model.watch(folders.pop())
            continue
        change = chances.change(model.tree)
        for _ in range(12):
            if model.tree.is_possible(change) or chances.one_in(0.05):
                break
            change = chances.change(model.tree)
        lines.append("do " + words(change))
        wanted.append(model.change(change))
    return lines, wanted


def main():
    parser = argparse.ArgumentParser(description=__doc__)
    parser.add_argument("program", nargs="?", default="../crates/gitodb/out/gitodb")
    parser.add_argument("--seed", type=int, default=0)
    parser.add_argument("--cases", type=int, default=200)
    parser.add_argument("--steps", type=int, default=70)
    given = parser.parse_args()
    counts, wrong = Counter(), 0
    for seed in range(given.seed, given.seed + given.cases):
        lines, wanted = made(seed, given.steps)
        run = subprocess.run([given.program, "world"], input="\n".join(lines) + "\n", capture_output=True, text=True)
        printed = run.stdout.splitlines()
        counts.update(wanted)
        if printed != wanted:
            wrong += 1
            at = next((i for i, pair in enumerate(zip(printed, wanted)) if pair[0] != pair[1]), min(len(printed), len(wanted)))
            print("seed %d, line %r: wanted %r, printed %r" % (seed, lines[at + 1], wanted[at : at + 1], printed[at : at + 1]))
    print(", ".join("%s %d" % it for it in sorted(counts.items())))
    print("%d scripts, %d otherwise" % (given.cases, wrong))
    return 1 if wrong else 0


if __name__ == "__main__":
    sys.exit(main())
