"""What the states of the members say of a user, in one sentence."""
from __future__ import annotations

import time
from typing import NamedTuple, Sequence

from wakdulg_helpdesk.book import User
from wakdulg_helpdesk.members import State
from wakdulg_helpdesk.naming import Naming


class Verdict(NamedTuple):
    """A sentence. `word` is "can", "locked", "pending", "retired" or "unseen". `is_settled` is whether no time alone
    changes it."""
    word: str
    text: str
    is_settled: bool = True


def members_of(states: Sequence[State]) -> str:
    """Returns "member 2", or "members 1, 2 and 3"."""
    numbers = [str(state.member) for state in states]
    if len(numbers) == 1:
        return "member " + numbers[0]
    return "members %s and %s" % (", ".join(numbers[:-1]), numbers[-1])


def lasting(seconds: int) -> str:
    """Returns a number of seconds in words: "5 s", "3 min", "2 h"."""
    for size, unit in (3600, "h"), (60, "min"):
        if seconds >= 2 * size:
            return "%d %s" % (seconds // size, unit)
    return "%d s" % seconds


def at_time(second: int) -> str:
    """Returns the time of a second."""
    return time.strftime("%H:%M:%S UTC", time.gmtime(second))


class Look:
    """The states of a user at one moment, by what each member says."""

    def __init__(self, user: User, states: Sequence[State], now: int) -> None:
        self.user, self.now, self.count, self.most = user, now, len(states), len(states) // 2 + 1
        self.silent = [state for state in states if state.says == "silent"]
        self.heard = [state for state in states if state.says != "silent"]
        self.done = [state for state in self.heard if state.is_done]
        self.late = [state for state in self.heard if not state.is_done]
        self.locked = [state for state in self.done if state.until > now]

    def votes(self, states: Sequence[State]) -> bool:
        """Returns whether members and the silent ones may be a majority, without which no code is accepted."""
        return len(states) + len(self.silent) >= self.most

    def rests(self, *parts: str) -> str:
        """Returns what is to be added of members that can't be seen."""
        verb = "is" if len(self.silent) == 1 else "are"
        said = "%s %s silent" % (members_of(self.silent), verb) if self.silent else ""
        return "".join("; " + part for part in (*parts, said) if part) + "."

    def opens(self, states: Sequence[State]) -> str:
        """Returns when the first of these members opens the token."""
        first = min(states, key=lambda state: state.until)
        return "opens in %s" % lasting(first.until - self.now)

    def begin(self) -> int:
        """Returns the second from which a code of a time token counts, or 0 for an event token. A code counts if its
        step is no lower than the floors of a majority of all members."""
        floors = sorted(state.floor for state in self.done)
        return floors[self.most - 1] * (self.user.period() or 0)


def verdict(user: User, states: Sequence[State], now: int, naming: Naming) -> Verdict:
    """Returns whether a user can log in, and why not. `user` is what the users file says now."""
    look = Look(user, states, now)
    if not look.heard:
        return Verdict("unseen", "Can't be seen: no member answers.", False)
    if len(look.heard) < look.most:
        number = "only %d of %d members answer%s" % (len(look.heard), look.count, "s" * (len(look.heard) == 1))
        return Verdict("unseen", "Can't be seen: %s." % number, False)
    if user.token is not None and len(look.done) >= look.most:
        return in_force(look, naming)
    if not naming.may_change:
        return astray(look)
    return retired(look) if user.token is None else pending(look)


def astray(look: Look) -> Verdict:
    """Less than a majority has the row of this site's users file, and no member takes another file while it serves."""
    if look.user.token is None:
        return Verdict("unseen", "Can't be seen: the users file of this site has no row of the user.", False)
    text = "Can't be seen: the files of this site and of %s differ" % members_of(look.late)
    return Verdict("unseen", text + look.rests(), False)


def retired(look: Look) -> Verdict:
    """The users file has no row."""
    if not look.late:
        return Verdict("retired", "Retired, or never enrolled: no member has a row of this user" + look.rests())
    rest = "%s still %s a row" % (members_of(look.late), "has" if len(look.late) == 1 else "have")
    if look.votes(look.late):
        return Verdict("pending", "Retired, but pending: the user may still log in" + look.rests(rest), False)
    return Verdict("retired", "Retired: no code is accepted" + look.rests(rest), False)


def pending(look: Look) -> Verdict:
    """Less than a majority is known to have the row."""
    old = [state for state in look.late if state.says == "another"]
    text = "Pending at %s" % members_of(look.late) if look.late else "Can't be seen"
    if old and look.votes(old):
        return Verdict("pending", text + ": an old phone may still get in" + look.rests(), False)
    if look.done and look.votes(look.done):
        return Verdict("pending", text + ": the row may be in force or not" + look.rests(), False)
    return Verdict("pending", text + ": nobody gets in by this row" + look.rests(), False)


def in_force(look: Look, naming: Naming) -> Verdict:
    """A majority has the row."""
    late = naming.late % members_of(look.late) if look.late else ""
    locked = "locked at %s, %s" % (members_of(look.locked), look.opens(look.locked)) if look.locked else ""
    is_settled = not look.late and not look.locked and not look.silent
    if len(look.locked) == len(look.done):
        return Verdict("locked", locked[:1].upper() + locked[1:] + look.rests(late), False)
    begin = look.begin()
    if begin > look.now:
        text = "Can log in: the first code that counts comes at %s, in %s" % (at_time(begin), lasting(begin - look.now))
        why = ": earlier ones are used up, or the token is new"
        return Verdict("can", text + why + look.rests(locked, late), False)
    return Verdict("can", "Can log in" + look.rests(locked, late), is_settled)
