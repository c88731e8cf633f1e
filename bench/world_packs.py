#!/usr/bin/env python3
"""Growth and peak memory of `gitodb world` over packs that stay, and over packs that are replaced. See README.md."""

import argparse
import hashlib
import os
import subprocess
import sys
import tempfile

from world import report, rounds


def blob(number):
    """The data of an object, and its name."""
    data = b"object %d\n" % number
    return data, hashlib.sha1(b"blob %d\0" % len(data) + data).hexdigest()


def contents(numbers):
    return ",".join("blob:" + blob(number)[0].hex() for number in numbers)


def put(stem, numbers, time, front="", directory="/o/pack"):
    """The lines that put a pack of these objects, and then its index."""
    return ["%sput %s/%s.%s %d @%s:%s" % (front, directory, stem, end, time, kind, contents(numbers)) for end, kind in (("pack", "pack"), ("idx", "idx"))]


def found(number):
    """The lines that find an object, and what they print."""
    data, name = blob(number)
    return ["find 0 " + name, "finish 0"], ["applied", "found blob %d %s" % (len(data), data.hex())]


def joined(setup, opened, parts, directory=("mkdir /o/pack",)):
    """A script with its output, of the lines of its setup and of parts that each have their output."""
    steps, output = ["steps", "open 0 /o slots=%d" % opened, "finish 0"], ["applied", "opened %d" % opened]
    for lines, printed in parts:
        steps += lines
        output += printed
    return "\n".join(["mkdir /o", *directory, *setup, *steps]) + "\n", "\n".join(output) + "\n"


def one_pack(count):
    """One pack of so many objects, and one hundred finds that are spread over it."""
    return joined(put("pack-a", range(count), 1), 4, [found(number * (count // 100)) for number in range(100)])


def many_packs(count):
    """So many packs of ten objects, and twenty finds that are spread over them."""
    setup = [line for pack in range(count) for line in put("pack-%05d" % pack, range(10 * pack, 10 * pack + 10), 1)]
    return joined(setup, count, [found(number * (count // 20) * 10 + number % 10) for number in range(20)])


def handles(count):
    """So many handles that are opened and closed, one after the other, and then one find."""
    opened = [(["open %d /o slots=4" % it, "finish %d" % it, "close %d" % it], ["applied", "opened 4", "applied"]) for it in range(1, count + 1)]
    return joined(put("pack-a", range(10), 1), 4, [*opened, found(7)])


def replaced(count):
    """A pack that is replaced so many times, with a find of an object of the new one after each."""
    parts = []
    for it in range(1, count + 1):
        lines = put("pack-%d" % it, [it], it, "do ") + ["do remove /o/pack/pack-%d.%s" % (it - 1, end) for end in ("idx", "pack")]
        looked, printed = found(it)
        parts.append((lines + looked, ["applied"] * 4 + printed))
    return joined(put("pack-0", [0], 0), 4, parts)


def unlisted(count):
    """So many small objects that are written into a store with no pack directory."""
    parts = []
    for it in range(count):
        data, name = blob(it)
        parts.append((["write 0 blob " + data.hex(), "finish 0"], ["applied", "wrote " + name]))
    return joined([], 4, parts, [])


def own_folders(count):
    """So many open stores, each in a folder of its own, and a pack that other programs put into each."""
    opened = [(["open %d /s%d slots=1" % (it, it), "finish %d" % it], ["applied", "opened 1"]) for it in range(1, count + 1)]
    packs = [(put("pack-a", [it], 1, "do ", "/s%d/pack" % it), ["applied"] * 2) for it in range(1, count + 1)]
    directories = [line for it in range(1, count + 1) for line in ("mkdir /s%d" % it, "mkdir /s%d/pack" % it)]
    return joined([*put("pack-a", range(10), 1), *directories], 1, [*opened, *packs, found(7)])


def beside(count):
    """So many links and directories that other programs put and move outside the watched folders, and then one find."""
    changes = [(["do link /q/l-%d /q" % it, "do rename /q/l-%d /q/k-%d" % (it, it), "do mkdir /q/d-%d" % it, "do rename /q/d-%d /q/e-%d" % (it, it)], ["applied"] * 4) for it in range(count)]
    return joined(["mkdir /q", *put("pack-a", range(10), 1)], 4, [*changes, found(7)])


def among_links(count):
    """So many files that other programs put and remove in a pack directory in which one watched name is a link, and put where that link leads, while the tree grows; and then one find."""
    lines = ["do put /q/note-%d 1 68", "do put /o/pack/pack-%d.idx 1 68", "do remove /o/pack/pack-%d.idx"]
    changes = [([line % it for line in lines] + ["do put /q/z 1 68"], ["applied"] * 4) for it in range(count)]
    return joined(["mkdir /q", "link /o/pack/pack-z.idx /q/z", *put("pack-a", range(10), 1)], 4, [*changes, found(7)])


def swapped(count):
    """So many times the link at the pack path of an open store is put over from one directory with two packs to another, while the tree grows; and a find after each 25 of them."""
    parts = []
    for it in range(count):
        parts.append((["do put /x/note-%d 1 68" % it, "do link /o/pack /%s" % "qp"[it % 2]], ["applied"] * 2))
        if it % 25 == 24:
            parts.append(found((20, 0)[it % 2] + it % 20))
    setup = [line for pack in range(4) for line in put("pack-%d" % pack, range(10 * pack, 10 * pack + 10), 1, directory="/" + "ppqq"[pack])]
    return joined(["mkdir /x", "mkdir /p", "mkdir /q", *setup, "link /o/pack /p"], 4, parts, [])


def taken_away(count):
    """So many links of new names to one place that other programs put into the pack directory of an open store and take away, while the place gets other bytes each time; and then one find."""
    lines = ["do link /o/pack/pack-%d.idx /t", "do remove /o/pack/pack-%d.idx", "do put /t 1 %08x"]
    changes = [([line % it for line in lines], ["applied"] * 3) for it in range(count)]
    return joined(["put /t 1 68", *put("pack-a", range(10), 1)], 4, [*changes, found(7)])


def refused(count):
    """So many links of new names to one place that other programs put into the pack directory of an open store and take away, and then as many changes of the place that are refused, since a link that stays there would show a second content; and then one find."""
    gone = [(["do link /o/pack/pack-%d.idx /t" % it, "do remove /o/pack/pack-%d.idx" % it], ["applied"] * 2) for it in range(count)]
    changes = [(["do put /t 1 69"], ["misuse two-contents"])] * count
    return joined(["put /t 1 68", "link /o/pack/pack-z.idx /t", *put("pack-a", range(10), 1)], 4, [*gone, *changes, found(7)])


def moved_away(count):
    """So many links to one place in the pack directory of an open store, which other programs then move away, and as many changes of the place that are refused, since a link in the directory that is made in its place would show a second content; and then one find."""
    links = ["link /o/pack/pack-%d.idx /t" % it for it in range(count)]
    there = [*put("pack-a", range(10), 1, "do "), "do link /o/pack/pack-z.idx /t"]
    moved = (["do rename /o/pack /old", "do mkdir /o/pack", *there], ["applied"] * (2 + len(there)))
    changes = [(["do put /t 1 69"], ["misuse two-contents"])] * count
    return joined(["put /t 1 68", *links], 4, [moved, *changes, found(7)])


def missed(count):
    """So many packs of one object, all of whose indices one find reads that finds nothing."""
    setup = [line for pack in range(count) for line in put("pack-%05d" % pack, [pack], 1)]
    return joined(setup, count, [(["find 0 " + "0" * 39 + "1", "finish 0"], ["applied", "not-found"])])


def each_found(count):
    """So many packs of one object, of which the last in the order of trying is found first: all indices and one pack are read, and then the packs of twenty others."""
    setup = [line for pack in range(count) for line in put("pack-%05d" % pack, [pack], 1)]
    return joined(setup, count, [found(count - 1), *[found(number * (count // 20)) for number in range(20)]])


def of_one_index(count):
    """So many packs of one object and one multi-pack index of them all, and a find in each pack."""
    stems = ["pack-%05d" % pack for pack in range(count)]
    setup = [line for pack, stem in enumerate(stems) for line in put(stem, [pack], 1)]
    packs = ";".join("%s=%s" % (stem, contents([pack])) for pack, stem in enumerate(stems))
    return joined([*setup, "put /o/pack/multi-pack-index 1 @midx:" + packs], count, [found(pack) for pack in range(count)])


def in_slots(count):
    """So many slots, and five hundred packs of one object that are loaded one after the other."""
    setup = [line for pack in range(500) for line in put("pack-%05d" % pack, [pack], 1)]
    return joined(setup, count, [found(pack) for pack in range(500)])


CASES = {
    "objects in one pack": (one_pack, (1000, 4000, 16000)),
    "packs": (many_packs, (20, 80, 320)),
    "indices read by a miss": (missed, (500, 2000, 8000)),
    "indices read by a find": (each_found, (500, 2000, 8000)),
    "packs of one multi-pack index": (of_one_index, (250, 1000, 4000)),
    "slots around 500 loaded packs": (in_slots, (1000, 8000, 32000)),
    "handles": (handles, (2000, 8000, 32000)),
    "replacements": (replaced, (200, 800)),
    "writes without packs": (unlisted, (2000, 8000)),
    "stores in folders of their own": (own_folders, (500, 2000)),
    "links and directories beside": (beside, (2000, 8000)),
    "packs among links": (among_links, (2000, 8000)),
    "pack links swapped": (swapped, (2000, 8000)),
    "links put and taken away": (taken_away, (2000, 8000)),
    "refused changes behind links": (refused, (2000, 8000)),
    "refused changes behind a moved directory": (moved_away, (2000, 8000)),
}


def make(folder, case):
    """Writes the scripts of a case and their outputs."""
    made, sizes = CASES[case]
    for size in sizes:
        for name, text in zip(("script", "output"), made(size)):
            with open(os.path.join(folder, "%d.%s" % (size, name)), "w") as file:
                file.write(text)


def main():
    top = os.path.dirname(os.path.dirname(os.path.realpath(__file__)))
    parser = argparse.ArgumentParser(description=__doc__)
    parser.add_argument("program", nargs="?", default=os.path.join(top, "crates/gitodb/out/gitodb"))
    parser.add_argument("--case", choices=CASES, help="only this one")
    parser.add_argument("--make", metavar="FOLDER", help="only write the scripts of the case and their outputs there")
    words = parser.parse_args()
    if words.make:
        return make(words.make, words.case or parser.error("--make needs --case"))
    if not os.access(words.program, os.X_OK):
        sys.exit("no program at %s: build it with ./gitodb --prove" % words.program)
    missed = []
    for case in [words.case] if words.case else CASES:
        sizes = CASES[case][1]
        with tempfile.TemporaryDirectory() as folder:
            # A process of its own makes them: a child's peak counts what this process has at its start.
            subprocess.run([sys.executable, __file__, "--make", folder, "--case", case], check=True)
            print(case)
            if report(folder, sizes, "size", *rounds(words.program, folder, sizes)):
                missed.append(case)
    if missed:
        sys.exit("a bound was missed: " + ", ".join(missed))


if __name__ == "__main__":
    main()
