"""What the members say of all users: who is locked now, whose row isn't in place, and who never logged in."""
from __future__ import annotations

import threading
import time
from typing import Any, Callable, Collection, List, Mapping, NamedTuple, Sequence, Tuple

from wakdulg_helpdesk.book import Book, User
from wakdulg_helpdesk.members import Gate, Member, Members
from wakdulg_helpdesk.naming import Naming, Row

MOST = 50
# Users, each with some words.
Names = List[Tuple[bytes, str]]


class Entry(NamedTuple):
    """A user in a list: the name, some words, and the address of the page of the user."""
    text: str
    words: str
    path: str


class Lists(NamedTuple):
    """The lists of one moment. `silent` has the numbers of members that didn't answer. `when` is the second of the
    rosters."""
    locked: list[Entry]
    pending: list[Entry]
    unused: list[Entry]
    silent: list[int]
    members: int
    when: int


def numbered(numbers: Sequence[int]) -> str:
    """Returns "member 2", or "members 1, 3"."""
    return "member%s %s" % ("s" * (len(numbers) > 1), ", ".join(map(str, numbers)))


def entries_of(found: Names, users: Collection[bytes]) -> list[Entry]:
    """Returns the entries of a list. A user without a row has a page of another kind."""
    return [Entry(name.decode("utf-8", "replace"), words, "/users/" + name.hex() + "/retired" * (name not in users))
            for name, words in found]


def locked_now(gates: Mapping[int, Sequence[Gate]], now: int) -> Names:
    """Returns who is locked, with the members, the seconds until the first one opens and the greatest number of
    failures in a row. `gates` has what each member told."""
    found: dict[bytes, list[tuple[int, Gate]]] = {}
    for member, told in gates.items():
        for gate in told:
            if gate.until > now:
                found.setdefault(gate.user, []).append((member, gate))
    return [(user, "%s, opens in %d s, %d failures in a row" % (
        numbered([member for member, _ in each]), min(gate.until for _, gate in each) - now,
        max(gate.failures for _, gate in each))) for user, each in sorted(found.items())]


def not_in_place(users: Mapping[bytes, User], rosters: Mapping[int, Mapping[bytes, Row]], naming: Naming) -> Names:
    """Returns the users whose rows some members lack, and those of whom some have a row that the file hasn't."""
    found: dict[bytes, tuple[list[int], list[int]]] = {}
    for member, rows in rosters.items():
        for name, user in users.items():
            if name not in rows or rows[name].token != user.token:
                found.setdefault(name, ([], []))[0].append(member)
        for name in rows.keys() - users.keys():
            found.setdefault(name, ([], []))[1].append(member)
    words = {name: "not at " + numbered(lack) if lack else naming.surplus + numbered(more)
             for name, (lack, more) in found.items()}
    return sorted(words.items())


def never_used(users: Mapping[bytes, User], rosters: Mapping[int, Mapping[bytes, Row]], members: int) -> Names:
    """Returns the users of event tokens none of whose codes was ever accepted: the floor is the counter of the row at a
    majority of the members, without which none is accepted. The floor of a time token tells nothing of that."""
    found = []
    for name, user in sorted(users.items()):
        rows = [rows[name] for rows in rosters.values() if name in rows and rows[name].token == user.token]
        if user.period() is None and 2 * len(rows) > members and all(row.floor <= user.begin for row in rows):
            found.append((name, user.kind()))
    return found


class Everybody:
    """The lists, as old as some seconds at most. A roster is read again after a minute, or if the member has booted."""
    PAUSE, LONGEST = 4, 60

    def __init__(self, members: Members, book: Book) -> None:
        self.members, self.book, self.lock = members, book, threading.Lock()
        self.rosters: dict[int, tuple[bytes, float, dict[bytes, Row]]] = {}
        self.last: Lists | None = None
        self.asked = 0.0

    def now(self) -> Lists:
        """Returns the lists. One thread asks for all who wait."""
        with self.lock:
            if self.last is None or time.monotonic() > self.asked + self.PAUSE:
                self.last, self.asked = self.look(), time.monotonic()
            return self.last

    def look(self) -> Lists:
        """Asks the members, and returns the lists of this moment."""
        count = len(self.members.all)
        gates = self.told(lambda member: member.gates())
        rosters = self.told(self.roster_of)
        self.book.refresh()
        users, silent = self.book.users, sorted({each.number for each in self.members.all} - set(rosters))
        age = max((time.monotonic() - self.rosters[number][1] for number in rosters), default=0)
        now = time.time()
        locked, pending = locked_now(gates, int(now)), not_in_place(users, rosters, self.book.naming)
        return Lists(entries_of(locked, users), entries_of(pending, users),
                     entries_of(never_used(users, rosters, count), users), silent, count, int(now - age))

    def told(self, call: Callable[[Member], Any]) -> dict[int, Any]:
        """Returns what members told, by their numbers. Silent ones aren't in it."""
        told = zip(self.members.all, self.members.ask_all(call))
        return {member.number: what for member, what in told if not isinstance(what, Exception)}

    def roster_of(self, member: Member) -> dict[bytes, Row]:
        """Returns the rows of a member by their users."""
        boot, kept = member.boot_now(), self.rosters.get(member.number)
        if kept is None or kept[0] != boot or time.monotonic() > kept[1] + self.LONGEST:
            begin = time.monotonic()
            kept = self.rosters[member.number] = boot, begin, member.roster()
        return kept[2]
