"""How the members of a cluster know a token: by its name, or by the place of its row in the users file.

What differs between both kinds of cluster is here: where a member lists its rows, whether the users file may change
while the members serve, and what pages say otherwise."""
from __future__ import annotations

import hmac
import re
from typing import Mapping, NamedTuple, Sequence

from wakdulg_helpdesk import words
from wakdulg_onboard import tokens

# Why the users file of a cluster without names stays as it is while the members serve, and what to do.
NO_NAMES = "The members of this cluster know users by their rows, so the users file can't change while they serve." \
           " Whoever runs this site changes it with all members stopped (docs/how-to/enrol-and-retire.md), or gives" \
           " the cluster names (docs/how-to/let-users-come-and-go.md)."


class Row(NamedTuple):
    """A row of a member's store, with the word by which members know its token. The user of a retired token is b""."""
    number: int
    token: bytes
    floor: int
    user: bytes


class Naming:
    """A kind of cluster."""
    # The report in which a member lists its rows, and the number of its lines before the rows.
    report, heads = b"", 0
    # Whether the users file may change while the members serve.
    may_change = False
    # What pages say of a member that has something else in place of a row, and of all members that lack the row.
    another, late = "", ""
    # What the other members are if more than half have the row, and if they don't.
    in_force, not_in_force = "", ""
    # The list of users whose rows members lack, what it says if it is empty, and where a user without a row is.
    astray, nobody_astray, surplus = "", "", ""
    # The sentences for answers of nodes, and for notes about members.
    answers: Mapping[str, str] = words.ANSWERS
    notes: Mapping[str, str] = words.NOTES

    def token_of(self, fields: bytes, place: int) -> bytes:
        """Returns the word by which members know the token of a row. `fields` is what makes the token's name, and
        `place` is that of the row in the users file, from 0."""
        raise NotImplementedError

    def row_of(self, number: int, line: bytes) -> Row:
        """Returns the row of a line of the report. `number` is that of the row.

        # Errors
        Raises `ValueError` if the line has no row.
        """
        raise NotImplementedError

    def check_rows(self, rows: Sequence[tokens.Row]) -> None:
        """Raises `Fault` if pages can't tell the rows of a users file apart."""

    def about(self, token: bytes) -> Mapping[str, str]:
        """Returns what the page of a user says of a token beside its kind."""
        return {}


class ByNames(Naming):
    """A cluster whose cluster file has a line `names WORD`. Users come and go while the members serve."""
    report, heads, may_change = b"ROSTER", 0, True
    another, late = "another token", "pending at %s, where the right code is refused"
    in_force, not_in_force = ": in force, and pending at the others", ": pending"
    astray, surplus = "Pending", "retired, and still at "
    nobody_astray = "Each member that answers has the rows of the users file, and no others."

    def __init__(self, word: bytes) -> None:
        self.word = word

    def token_of(self, fields: bytes, place: int) -> bytes:
        return hmac.digest(self.word, fields + b"\n", "sha256")[:16].hex().encode()

    def row_of(self, number: int, line: bytes) -> Row:
        _, at, token, floor, user = line.split(b" ", 4)
        return Row(int(at), token, int(floor), b"" if user == b"-" else user)


class ByPlaces(Naming):
    """A cluster without names. All members have one users file, with its rows in one order. A member tells the user and
    the floor of each row, and nothing of the secret. Two members with one fingerprint have the same files: the users
    file, the cluster file and the key."""
    report, heads = b"FLOORS", 1
    another, late = "other files", "other files at %s, where nobody gets in"
    in_force = not_in_force = ": the others are silent, or have other files"
    astray, surplus = "In another row, or in none", "only at "
    nobody_astray = "Each member that answers has the users of the users file, in the same rows."
    answers = {
        **words.ANSWERS,
        "UNKNOWN": "The node has no row of this user, so its users file isn't the one of this site: " + words.RUNS,
        "EXHAUSTED": "The token has no codes left. Somebody has to replace it: " + words.RUNS,
    }
    notes = {
        **words.NOTES,
        "fingerprint differs": "It has another key, other settings or another users file than the others. Give it the"
                               " same files",
    }
    # A row of the floors file by names has three fields.
    LINE = re.compile(rb"([^ \t\r\n]+) ([0-9]+)")

    def token_of(self, fields: bytes, place: int) -> bytes:
        return b"%d" % place

    def row_of(self, number: int, line: bytes) -> Row:
        found = self.LINE.fullmatch(line)
        if not found:
            raise ValueError("no row of a cluster without names")
        return Row(number, b"%d" % number, int(found[2]), found[1])

    def check_rows(self, rows: Sequence[tokens.Row]) -> None:
        """Raises `Fault` if two rows have one user. No member takes such a file."""
        lines: dict[bytes, int] = {}
        for row in rows:
            if (first := lines.setdefault(row.user, row.line)) != row.line:
                user = row.user.decode("utf-8", "backslashreplace")
                raise tokens.Fault("line %d of the users file" % row.line, "TwoRows",
                                   "line %d is a row of %s too: %s" % (first, user, words.RUNS))

    def about(self, token: bytes) -> Mapping[str, str]:
        return {"Row": "%s, counted from 0 as by oathd audit" % token.decode()}
