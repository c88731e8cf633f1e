#!/usr/bin/env python3
"""Damaged indices and multi-pack indices: each answer of `probe_index` against a reader in python. See README.md."""

import argparse
import os
import random
import subprocess
import sys
import tempfile

import indices

REFUSALS = {
    "index": b"refused: no pack index of version 2 with ids of this length\n",
    "multi": b"refused: no multi-pack index of version 1\n",
    None: b"refused: neither a pack index nor a multi-pack index\n",
}


def names(count, width, seed):
    """So many different ids, spread over first bytes."""
    maker = random.Random(seed)
    return sorted({bytes(maker.getrandbits(8) for _ in range(width)) for _ in range(count)})


def made_by_python():
    """Good files, with narrow and wide offsets, of both hashes."""
    for width in (20, 32):
        for count in (0, 1, 7):
            ids = names(count, width, count)
            places = [12 + 900 * number for number in range(count)]
            yield width, indices.index(list(zip(ids, places)), width)
            yield width, indices.index([(name, place << 28) for name, place in zip(ids, places)], width)
            packs = ["pack-%d.idx" % number for number in range(3)]
            rows = [(name, number % 3, place) for number, (name, place) in enumerate(zip(ids, places))]
            yield width, indices.multi_index(packs, rows, width)
            yield width, indices.multi_index(packs, [(name, pack, place << 28) for name, pack, place in rows], width)


def git(folder, *words, given=None):
    return subprocess.run(["git", "-C", folder, *words], input=given, check=True, capture_output=True).stdout


def made_by_git(folder, form, width):
    """An index and a multi-pack index of two packs, as Git writes them."""
    git(folder, "init", "-q", "--object-format=" + form)
    packs = os.path.join(folder, ".git", "objects", "pack")
    for first in (0, 5):
        objects = [git(folder, "hash-object", "-w", "--stdin", given=b"object %d\n" % number) for number in range(first, first + 6)]
        git(folder, "pack-objects", "-q", os.path.join(packs, "pack"), given=b"".join(objects))
    git(folder, "multi-pack-index", "write")
    files = sorted(name for name in os.listdir(packs) if name.endswith(".idx")) + ["multi-pack-index"]
    for name in files:
        with open(os.path.join(packs, name), "rb") as file:
            yield width, file.read()


def good_files():
    """Files that are sound, with the length of their ids."""
    files = list(made_by_python())
    for form, width in (("sha1", 20), ("sha256", 32)):
        with tempfile.TemporaryDirectory() as folder:
            files += made_by_git(folder, form, width)
    return files


def damaged(body, maker):
    """The bytes with some changed, cut off or added."""
    body = bytearray(body)
    for _ in range(maker.choice((1, 1, 1, 2, 5))):
        place = maker.randrange(len(body) + 1)
        kind = maker.randrange(8)
        if kind == 0:
            del body[place : place + maker.choice((1, 4, 8, 20))]
        elif kind == 1:
            body[place:place] = bytes(maker.choice((0, 1, 128, 255)) for _ in range(maker.choice((1, 4, 8))))
        elif kind == 2:
            body = body[:place]
        elif place < len(body):
            # Most bytes of a small file are counts: heads and ends are hit more often than their share.
            near = place % min(len(body), 300)
            low = place if kind == 3 else near % 120 % len(body) if kind == 4 else len(body) - 1 - near
            body[low] = maker.choice((0, 1, 127, 128, 255, body[low] ^ 1, maker.randrange(256)))
        if not body:
            break
    return bytes(body)


def format_of(body):
    return "index" if body[:4] == indices.SIGNATURE[:4] else "multi" if body[:4] == b"MIDX" else None


def wanted(body, asked, width):
    """The status and the output that the program must have."""
    form = format_of(body)
    rows = {"index": lambda: indices.read_index(body, width), "multi": lambda: indices.read_multi_index(body)}.get(form, lambda: None)()
    if rows is None:
        return 2, REFUSALS[form]
    return 0, "".join(line(name, rows.get(name)) for name in asked).encode()


def line(name, row):
    if row is None:
        return "%s absent\n" % name.hex()
    return "%s %s\n" % (name.hex(), row if isinstance(row, int) else "%d %s" % row)


def asked_of(body, width, maker):
    """Ids to ask for: some that stand in the bytes, wherever that is, and one that is made up."""
    places = [maker.randrange(max(1, len(body) - width)) for _ in range(3)]
    rows = (indices.read_index(body, width) if format_of(body) == "index" else indices.read_multi_index(body)) or {}
    found = [name for name in rows if len(name) == width]
    asked = [body[place : place + width] for place in places] + maker.sample(found, min(4, len(found)))
    return [name for name in asked if len(name) == width] + [bytes(maker.getrandbits(8) for _ in range(width))]


def cases(count, seed):
    """Files, undamaged and damaged, with the ids to ask for and what must be answered."""
    maker, files = random.Random(seed), good_files()
    for number in range(count):
        width, body = files[number % len(files)]
        if number >= 2 * len(files):
            body = damaged(body, maker)
        if maker.randrange(12) == 0:
            width = 52 - width
        asked = asked_of(body, width, maker)
        yield body, asked, wanted(body, asked, width)


def main():
    top = os.path.dirname(os.path.dirname(os.path.realpath(__file__)))
    parser = argparse.ArgumentParser(description=__doc__)
    parser.add_argument("program", nargs="?", default=os.path.join(top, "crates/probe_index/out/probe_index"))
    parser.add_argument("--cases", type=int, default=5000, help="how many files")
    parser.add_argument("--seed", type=int, default=1)
    words = parser.parse_args()
    if not os.access(words.program, os.X_OK):
        sys.exit("no program at %s: build it by `rt run` in crates/probe_index" % words.program)
    answers, wrong = {0: 0, 2: 0}, 0
    for number, (body, asked, (status, output)) in enumerate(cases(words.cases, words.seed)):
        made = subprocess.run([words.program] + [name.hex() for name in asked], input=body, capture_output=True)
        answers[status] += 1
        if (made.returncode, made.stdout) != (status, output):
            wrong += 1
            print("file %d: status %d, %r in place of %d, %r" % (number, made.returncode, made.stdout, status, output))
    print("answered %d, refused %d, wrong %d" % (answers[0], answers[2], wrong))
    sys.exit(1 if wrong else 0)


if __name__ == "__main__":
    main()
