"""Makes a line of the file of staff: staff-line NAME [ROLE] >> staff

It asks for the password twice, or reads one line of standard input if that is no terminal. A password has twelve
characters or more. The file has its hash by Argon2id, and shows nothing of it. ROLE is look, unlock, enrol or all, and
all without it. Package: python3-argon2.
"""
from __future__ import annotations

import getpass
import sys

from wakdulg_helpdesk.passwords import HASHER, LEAST
from wakdulg_helpdesk.staff import ROLES


def read_password() -> str:
    """Returns the password that somebody types, or the first line of standard input."""
    if not sys.stdin.isatty():
        return sys.stdin.readline().rstrip("\n")
    password = getpass.getpass("Password: ")
    if password != getpass.getpass("Once more: "):
        sys.exit("staff-line: the two differ")
    return password


def main() -> None:
    """Prints the line."""
    name, *role = sys.argv[1:] or [""]
    if name.split() != [name] or name.startswith(("-", "#")) or len(role) > 1 or not ROLES.keys() >= set(role):
        sys.exit(__doc__.split("\n\n")[0])
    password = read_password()
    if len(password) < LEAST:
        sys.exit("staff-line: a password has %d characters or more" % LEAST)
    print(name, HASHER.hash(password), *role)


if __name__ == "__main__":
    main()
