"""Proves the crates that a program stands on, and builds it.

No test and no edit is proved. Crates that don't stand on each other are proved side by side, as many as there are
processors; a line says which one begins and which one ends. What is proved is kept in the crate's folder out/, also where
the run is broken off.

Two `rt` commands of one copy of the repository wait for each other, since each keeps all crates below its own to itself.
So each crate is proved in a small copy of its own, out/apart, which has its files and those below by other names for the
same files, with the libraries that are proved by then.
"""

import concurrent.futures
import contextlib
import fcntl
import os
import shutil
import signal
import subprocess
import time

from crates import LIST, PARTS, TOP, closure, folder, is_built, is_newer, lines_of, newest, note_built, program_of, text_sum
from report import NO_KIT, Failed, say

# The memory to have free for each crate that is proved beside others, in bytes, by what was seen.
ROOM = 4_000_000_000
# The prover gains from no more processes for one crate.
MOST_JOBS = 4
# By how much a crate gives way that the others don't wait for longest.
NICE = 10
# What is to be done for any crate, and for a byte of its definitions and proofs, in bytes of code, by what was seen.
EACH = 15_000
OF_PROOF = 0.02


def size(crate, part):
    """How large the files of one part of a crate are."""
    return sum(os.path.getsize(os.path.join(at, name)) for at, _, names in os.walk(folder(crate, part)) for name in names)


def weights(uses, crates):
    """How much is to be done from the start of each crate to the end, by the size of it and of the crates above it."""
    found = {}
    for crate in reversed(crates):
        above = [found[other] for other in found if crate in uses[other]]
        own = EACH + size(crate, "src") + OF_PROOF * (size(crate, "specs") + size(crate, "proofs"))
        found[crate] = own + max(above, default=0)
    return found


# ---- one crate


def link_all(source, target):
    """Gives all files of a folder second names in another one."""
    for at, _, names in os.walk(source):
        to = os.path.join(target, os.path.relpath(at, source))
        os.makedirs(to, exist_ok=True)
        for name in names:
            try:
                os.link(os.path.join(at, name), os.path.join(to, name))
            except OSError:
                shutil.copy2(os.path.join(at, name), os.path.join(to, name))


def put_in_place(source, target):
    if os.path.isdir(source):
        shutil.rmtree(target, ignore_errors=True)
        os.rename(source, target)


def set_apart(uses, crate):
    """Makes the small copy of the repository in which a crate is proved, with what was kept of an earlier run."""
    apart = folder(crate, "out", "apart")
    bring_back(crate)
    os.makedirs(apart)
    for below in closure(uses, crate):
        for part in PARTS:
            link_all(folder(below, part), os.path.join(apart, "crates", below, part))
        link_all(folder(below, "out", "rlib"), os.path.join(apart, "crates", below, "out", "rlib"))
    os.makedirs(os.path.join(apart, "crates", crate, "out"), exist_ok=True)
    put_in_place(folder(crate, "out", "incremental"), os.path.join(apart, "crates", crate, "out", "incremental"))
    shutil.copy2(os.path.join(TOP, "HANDLES"), apart)
    with open(os.path.join(apart, "crates.txt"), "w", encoding="utf-8") as file:
        file.writelines(lines_of(closure(uses, crate)))
    return os.path.join(apart, "crates", crate)


def bring_back(crate):
    """Moves what was proved of a crate from its small copy to where `rt` keeps it, and removes the copy."""
    apart = folder(crate, "out", "apart")
    if os.path.isdir(apart):
        held = os.open(folder(crate), os.O_RDONLY)
        try:
            fcntl.flock(held, fcntl.LOCK_EX)
            for part in ("incremental", "rlib"):
                put_in_place(os.path.join(apart, "crates", crate, "out", part), folder(crate, "out", part))
        finally:
            os.close(held)
        shutil.rmtree(apart)


def give_way(number):
    """Lets others come before a process that leads a session, and before what it starts. Where processors are shared by
    session, as often on Linux, the value of a process counts in its session alone, and the session has one of its own."""
    nice = min(19, os.getpriority(os.PRIO_PROCESS, 0) + NICE)
    with contextlib.suppress(OSError):
        os.setpriority(os.PRIO_PROCESS, number, nice)
        with open("/proc/%d/autogroup" % number, "w", encoding="ascii") as file:
            file.write(str(nice))


class Builder:
    """Proves crates, with one line on standard error as each begins and as it ends."""

    def __init__(self, program, uses):
        self.program, self.uses = program, uses
        self.count = self.begun = 0
        self.running = {}
        self.is_over = False

    def run(self, crate, place, words, gives_way=False):
        """Runs a command in a folder, into a log of the crate's own, and returns its status. It may give way to others."""
        log = folder(crate, "out", "launch.log")
        with open(log, "ab") as out:
            how = {"stdin": subprocess.DEVNULL, "stdout": out, "stderr": out, "start_new_session": True}
            child = subprocess.Popen(words, cwd=place, **how)
            self.running[crate] = child
            if gives_way:
                give_way(child.pid)
            if self.is_over:
                os.killpg(child.pid, signal.SIGTERM)
            status = child.wait()
            del self.running[crate]
        return status, log

    def build(self, crate, number, jobs, is_longest):
        """Proves one crate, and builds its library or the program. It gives way to others where less waits for it."""
        place = "%d of %d: %s" % (number, self.count, crate)
        say(self.program, place)
        begun = time.time()
        os.makedirs(folder(crate, "out"), exist_ok=True)
        if os.path.exists(folder(crate, "out", "launch.log")):
            os.remove(folder(crate, "out", "launch.log"))
        if crate == self.program:
            self.build_program()
        else:
            self.build_library(crate, jobs, is_longest, begun)
        say(self.program, "%s, %d s" % (place, time.time() - begun))

    def build_program(self):
        made, crates = program_of(self.program), closure(self.uses, self.program)
        if os.path.exists(made):
            os.remove(made)
        made_of = text_sum(crates)
        # `rt run` builds the program and runs it without words, and has its status then. So only the program counts.
        status, log = self.run(self.program, folder(self.program), ["rt", "run"])
        if not os.path.isfile(made):
            raise Failed("%s isn't proved and built" % self.program, log, status)
        if text_sum(crates) != made_of:
            os.remove(made)
            raise Failed("files changed while %s was proved" % self.program)
        note_built(self.program, made_of)

    def build_library(self, crate, jobs, is_longest, begun):
        made = folder(crate, "out", "rlib", "stamp")
        try:
            words = ["rt", "lib", "--jobs", str(jobs)]
            status, log = self.run(crate, set_apart(self.uses, crate), words, not is_longest)
        finally:
            bring_back(crate)
        if status != 0 or not os.path.isfile(made):
            raise Failed("%s isn't proved" % crate, log, status)
        # What changes while it is built is newer than what was built.
        os.utime(made, (begun, begun))

    def end(self):
        """Ends all that runs."""
        self.is_over = True
        for child in list(self.running.values()):
            os.killpg(child.pid, signal.SIGTERM)

    def build_all(self, crates):
        """Builds crates, given lowest first, side by side; each once all that it stands on are built."""
        weight, lanes, futures = weights(self.uses, crates), lanes_here(), {}
        left, self.count = sorted(crates, key=lambda it: -weight[it]), len(crates)
        with concurrent.futures.ThreadPoolExecutor(lanes) as pool:
            try:
                while left or futures:
                    waited_for = {*left, *futures.values()}
                    ready = [it for it in left if not waited_for & {*closure(self.uses, it)[:-1]}]
                    for crate in ready[: lanes - len(futures)]:
                        left.remove(crate)
                        self.begun += 1
                        # All wait for the longest chain in the end, so its crates may take each processor. The others
                        # take what those leave, while these read files or wait for their last proof.
                        is_longest = weight[crate] == max(weight[it] for it in waited_for)
                        jobs = min(MOST_JOBS, lanes) if is_longest else max(1, lanes // 2)
                        futures[pool.submit(self.build, crate, self.begun, jobs, is_longest)] = crate
                    ended = concurrent.futures.wait(futures, return_when=concurrent.futures.FIRST_COMPLETED).done
                    for future in ended:
                        del futures[future]
                        future.result()
            except BaseException:
                self.end()
                raise


def lanes_here():
    """How many crates to prove at a time: by the processors, and by the memory that is free."""
    with open("/proc/meminfo", encoding="ascii") as file:
        free = next(int(line.split()[1]) * 1024 for line in file if line.startswith("MemAvailable:"))
    return max(1, min(len(os.sched_getaffinity(0)), free // ROOM))


# ---- the program


def prove(uses, program, long):
    """Proves and builds a program where it isn't built of this text, which takes so long the first time."""
    if not shutil.which("rt"):
        raise Failed(NO_KIT)
    with open(LIST, "rb") as held:
        # Another launcher of this copy may be at work.
        fcntl.flock(held, fcntl.LOCK_EX)
        newest.cache_clear()
        if not is_built(uses, program):
            crates = closure(uses, program)
            stale = [it for it in crates[:-1] if not is_newer(folder(it, "out", "rlib", "stamp"), closure(uses, it))]
            if stale:
                say(program, "proving and building, which takes %s the first time" % long)
            Builder(program, uses).build_all([*stale, program])
    say(program, "proved and built")
