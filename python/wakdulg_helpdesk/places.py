"""Looks who else may read or write the files of a site, before the site starts."""
from __future__ import annotations

import os
import re
import stat
from pathlib import Path

from wakdulg_helpdesk.record import files_of

# The bits that a mode may not have, by what it gives: all to the group, reading to the group, reading to everybody, and
# all but writing to everybody.
GROUP_ALL, GROUP_READS, ALL_READ, NO_WRITING = 0o007, 0o037, 0o022, 0o002


class Open(ValueError):
    """A file is open to others. The text says which, why that is wrong, and what to do."""


def words_for(closed: int) -> str:
    """Returns the word of chmod that takes these bits away."""
    group, others = ("".join(letter for bit, letter in ((4, "r"), (2, "w"), (1, "x")) if bits & bit)
                     for bits in (closed >> 3, closed & 7))
    if group == others:
        return "go-" + group
    return ",".join(["g-" + group] * bool(group) + ["o-" + others])


def check_mode(path: str, closed: int, why: str) -> None:
    """Raises `Open` if the mode of a file or a folder has one of these bits."""
    found = stat.S_IMODE(os.stat(path).st_mode) & closed
    if found:
        may = " and ".join(["read"] * bool(found & 0o44) + ["write"] * bool(found & 0o22)) or "enter"
        raise Open("%s: others may %s it, and %s: chmod %s %s" % (path, may, why, words_for(closed), path))


def check_owner(path: str, why: str) -> None:
    """Raises `Open` if a file or a folder is neither this user's nor root's."""
    owner, own = os.stat(path).st_uid, os.geteuid()
    if owner not in (0, own):
        raise Open("%s: user %d may change it, and %s: chown %d %s" % (path, owner, why, own, path))


def check_file(path: str, closed: int, why: str) -> None:
    """Raises `Open` if others may do with a file what they may not, or may put another file in its place."""
    folder = os.path.dirname(os.path.abspath(path))
    for each, bits in (path, closed), (folder, ALL_READ):
        check_mode(each, bits, why)
        check_owner(each, why)


def check_users(path: str) -> None:
    """Raises `Open` if anybody beside the owner and the group of the users file may do anything with it. Several users
    write it by its group."""
    why = "it has the secrets of all users"
    check_mode(path, GROUP_ALL, why)
    check_mode(os.path.dirname(os.path.realpath(path)), NO_WRITING, "others could put a users file there")


def check_cluster(path: str) -> None:
    """Raises `Open` if others may change the cluster file, or if it has the key of the cluster."""
    check_file(path, ALL_READ, "it says which nodes are asked")
    if re.search(r"(?m)^\s*key\s", Path(path).read_text()):
        raise Open("%s: it has the key of the cluster, which a site may not have: in this copy write `key-file key` in "
                   "the place of the line `key`" % path)


def check_places(users: str, cluster: str, staff: str, record: str) -> None:
    """Raises `Open` for the first file of a site that is open to others. `wakdulg.read_private` looks at the keys."""
    check_users(users)
    check_cluster(cluster)
    check_file(staff, GROUP_READS, "it says who is staff")
    for each in files_of(record):
        check_file(each, GROUP_READS, "it is the record of all acts")
