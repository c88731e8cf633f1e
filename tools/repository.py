"""What `from_git` and `to_git` share: which folder is a repository of Git's, and how Git is asked there."""

import os
import subprocess


class Wrong(Exception):
    """What differs, or can't be done, in words."""


def surroundings():
    """The environment without the variables by which Git is led to a repository, and with messages in English."""
    named = subprocess.run(["git", "rev-parse", "--local-env-vars"], stdout=subprocess.PIPE, check=True)
    led = named.stdout.decode().split()
    return {**{name: value for name, value in os.environ.items() if name not in led}, "LC_ALL": "C"}


def asked(repository, *words):
    """What `git` prints in a folder. It is no answer where Git ends with another status than 0."""
    command = ["git", "--no-replace-objects", "-C", repository, *words]
    ran = subprocess.run(command, env=surroundings(), stdout=subprocess.PIPE, stderr=subprocess.PIPE)
    if ran.returncode != 0:
        told = ran.stderr.decode(errors="replace").strip().splitlines() or ["nothing is told"]
        raise Wrong("git %s in %s ended with status %d: %s" % (words[0], repository, ran.returncode, told[0]))
    return ran.stdout.decode(errors="surrogateescape").rstrip("\n")


def hash_of(repository):
    """The hash of a repository, `sha1` or `sha256`. The folder has to be one itself: Git takes each folder inside
    another repository for a part of that one."""
    if not os.path.isdir(repository):
        raise Wrong("%s is no folder" % repository)
    found = os.path.realpath(asked(repository, "rev-parse", "--absolute-git-dir"))
    if found not in (os.path.realpath(repository), os.path.realpath(os.path.join(repository, ".git"))):
        raise Wrong("%s is no repository itself: Git leads from there to %s" % (repository, found))
    return asked(repository, "rev-parse", "--show-object-format")
