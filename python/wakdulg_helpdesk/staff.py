"""Who is staff: a file with a name, the hash of a password and a role on each line, which `staff-line` makes."""
from __future__ import annotations

import re
from pathlib import Path
from typing import Callable

# The acts of each role. A line without a role has the last one.
LOOK: frozenset[str] = frozenset()
UNLOCK = LOOK | {"unlock", "resync"}
ENROL = UNLOCK | {"enrol", "replace", "retire"}
ROLES = {"look": LOOK, "unlock": UNLOCK, "enrol": ENROL, "all": ENROL | {"import"}}
LINE = re.compile(r"(\S+)[ \t]+(\$argon2id\$\S+)(?:[ \t]+(%s))?" % "|".join(ROLES))


def lines_of(path: str) -> list[tuple[int, str]]:
    """Returns the lines of the file with their numbers. Empty ones and remarks, which begin with #, are left out."""
    lines = [line.strip() for line in Path(path).read_text().splitlines()]
    return [(number, line) for number, line in enumerate(lines, 1) if line and not line.startswith("#")]


def check_staff(path: str, least: int = 0) -> None:
    """Raises a fault if a line has no password, or a role that isn't there, or if fewer than `least` may import."""
    for number, line in lines_of(path):
        if not LINE.fullmatch(line):
            has_password = line.split()[1:2] and line.split()[1].startswith("$argon2id$")
            what = "no role of " + ", ".join(ROLES) if has_password else "no password: make it by staff-line NAME"
            raise ValueError("line %d of %s has %s" % (number, path, what))
    if sum(rights >= ROLES["all"] for rights in rights_of(path).values()) < least:
        raise ValueError("%s has fewer than %d with the role all: nobody could confirm an import" % (path, least))


def names_of(path: str) -> set[str]:
    """Returns the first word of each line."""
    return {line.split()[0] for _, line in lines_of(path)}


def hashes_of(path: str) -> dict[str, str]:
    """Returns the hash of each member of staff by the name. Whoever has none is none."""
    return {match[1]: match[2] for _, line in lines_of(path) if (match := LINE.fullmatch(line))}


def rights_of(path: str) -> dict[str, frozenset[str]]:
    """Returns the acts of each member of staff by the name."""
    return {match[1]: ROLES[match[3] or "all"] for _, line in lines_of(path) if (match := LINE.fullmatch(line))}


def staff_of(path: str) -> Callable[[], set[str]]:
    """Returns a call that gives the names of staff as the file has them now."""
    names_of(path)
    return lambda: names_of(path)
