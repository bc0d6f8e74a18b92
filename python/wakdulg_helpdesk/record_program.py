"""Looks whether lines of a record were changed or removed: helpdesk-record check RECORD

Each line has the SHA-256 of the line before it. The files RECORD.1, RECORD.2 .. are followed before RECORD. It prints
the first line that doesn't follow, with status 1, or else how many lines there are and the SHA-256 of the last one.
Whoever can write the file can write all of it again, and lines that are cut off its end leave no gap. So keep the
SHA-256 of a day elsewhere: `helpdesk-record check RECORD SHA256` also looks whether a line has it.
"""
from __future__ import annotations

import os
import sys

from wakdulg_helpdesk.record import check, lines_back, print_of


def main() -> None:
    """Prints what a look at the record found."""
    if len(sys.argv) not in (3, 4) or sys.argv[1] != "check":
        sys.exit(__doc__.split("\n\n")[0])
    path, wanted = sys.argv[2], sys.argv[3:]
    try:
        os.stat(path)
        found = check(path)
        has = not wanted or any(print_of(line) == wanted[0] for line in lines_back(path))
    except OSError as fault:
        sys.exit("helpdesk-record: %s: %s" % (path, fault.strerror))
    for note in found.notes:
        print("note: " + note)
    if found.fault:
        sys.exit(found.fault)
    print("%d lines, the last one %s" % (found.lines, found.last))
    if not has:
        sys.exit("%s: no line has that SHA-256: lines are gone" % path)


if __name__ == "__main__":
    main()
