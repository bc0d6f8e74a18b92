"""Tries what pages say of a user and of all users, by tables of cases."""
from __future__ import annotations

import unittest
from itertools import product
from typing import Callable, Sequence

from wakdulg_helpdesk.book import User
from wakdulg_helpdesk.everybody import locked_now, never_used, not_in_place
from wakdulg_helpdesk.members import Gate, State
from wakdulg_helpdesk.naming import ByNames, ByPlaces, Row
from wakdulg_helpdesk.verdict import lasting, verdict

NOW = 1_800_000_000
NAMES, PLACES = ByNames(b"trial-of-verdicts"), ByPlaces()
EVENT = User(b"ann", "HOTP/E/6", token=b"aa")
TIME = User(b"ann", "HOTP/T30/6", token=b"aa")
GONE = User(b"ann")


def yes(member: int, floor: int = 0, until: int = 0) -> State:
    return State(member, "yes", True, floor, int(until > 0), until)


def other(member: int) -> State:
    """A member with the row of an old phone, or of a user who is retired."""
    return State(member, "another")


def no(member: int, user: User = EVENT) -> State:
    return State(member, "no", user.token is None)


def silent(member: int) -> State:
    return State(member, "silent")


def gone(member: int) -> State:
    return no(member, GONE)


STEP = NOW // 30
# The same for a cluster without names, where it differs.
PLACED = [
    (EVENT, [yes(1), yes(2), yes(3)], "can", "Can log in."),
    (EVENT, [yes(1), yes(2), other(3)], "can", "Can log in; other files at member 3, where nobody gets in."),
    (EVENT, [yes(1, 0, NOW + 9), yes(2, 0, NOW + 5), no(3)], "locked",
     "Locked at members 1 and 2, opens in 5 s; other files at member 3, where nobody gets in."),
    (EVENT, [yes(1), other(2), other(3)], "unseen",
     "Can't be seen: the files of this site and of members 2 and 3 differ."),
    (EVENT, [yes(1), no(2), silent(3)], "unseen",
     "Can't be seen: the files of this site and of member 2 differ; member 3 is silent."),
    (EVENT, [silent(1), silent(2), silent(3)], "unseen", "Can't be seen: no member answers."),
    (EVENT, [yes(1), silent(2), silent(3)], "unseen", "Can't be seen: only 1 of 3 members answers."),
    (GONE, [other(1), other(2), other(3)], "unseen",
     "Can't be seen: the users file of this site has no row of the user."),
    (GONE, [State(member, "no", True) for member in (1, 2, 3)], "unseen",
     "Can't be seen: the users file of this site has no row of the user."),
]
# The user, what the members say, and the verdict.
CASES = [
    (EVENT, [yes(1), yes(2), yes(3)], "can", "Can log in."),
    (EVENT, [yes(1)], "can", "Can log in."),
    (EVENT, [yes(1), yes(2), silent(3)], "can", "Can log in; member 3 is silent."),
    (EVENT, [yes(1), yes(2), other(3)], "can", "Can log in; pending at member 3, where the right code is refused."),
    (EVENT, [yes(1), yes(2), no(3)], "can", "Can log in; pending at member 3, where the right code is refused."),
    (EVENT, [yes(1), yes(2), yes(3), silent(4), silent(5)], "can", "Can log in; members 4 and 5 are silent."),
    # Locked
    (EVENT, [yes(1), yes(2, 0, NOW + 5), yes(3)], "can", "Can log in; locked at member 2, opens in 5 s."),
    (EVENT, [yes(1, 0, NOW + 9), yes(2, 0, NOW + 5), yes(3, 0, NOW + 600)], "locked",
     "Locked at members 1, 2 and 3, opens in 5 s."),
    (EVENT, [yes(1, 0, NOW + 9), yes(2, 0, NOW + 300), silent(3)], "locked",
     "Locked at members 1 and 2, opens in 9 s; member 3 is silent."),
    (EVENT, [yes(1, 0, NOW + 9), yes(2, 0, NOW + 300), other(3)], "locked",
     "Locked at members 1 and 2, opens in 9 s; pending at member 3, where the right code is refused."),
    (EVENT, [yes(1), yes(2, 0, NOW + 7200), other(3)], "can",
     "Can log in; locked at member 2, opens in 2 h; pending at member 3, where the right code is refused."),
    (EVENT, [yes(1, 0, NOW), yes(2, 0, NOW), yes(3, 0, NOW - 9)], "can", "Can log in."),
    # Pending
    (EVENT, [yes(1), other(2), other(3)], "pending", "Pending at members 2 and 3: an old phone may still get in."),
    (EVENT, [yes(1), other(2), silent(3)], "pending",
     "Pending at member 2: an old phone may still get in; member 3 is silent."),
    (EVENT, [yes(1), no(2), no(3)], "pending", "Pending at members 2 and 3: nobody gets in by this row."),
    (EVENT, [yes(1), no(2), silent(3)], "pending",
     "Pending at member 2: the row may be in force or not; member 3 is silent."),
    (EVENT, [no(1), no(2), no(3)], "pending", "Pending at members 1, 2 and 3: nobody gets in by this row."),
    (EVENT, [no(1), other(2), no(3)], "pending", "Pending at members 1, 2 and 3: nobody gets in by this row."),
    (EVENT, [yes(1), yes(2), other(3), other(4)], "pending", "Pending at members 3 and 4: nobody gets in by this row."),
    (EVENT, [yes(1), yes(2), other(3), other(4), silent(5)], "pending",
     "Pending at members 3 and 4: an old phone may still get in; member 5 is silent."),
    (EVENT, [yes(1), yes(2), silent(3), silent(4), no(5)], "pending",
     "Pending at member 5: the row may be in force or not; members 3 and 4 are silent."),
    # Unseen
    (EVENT, [silent(1), silent(2), silent(3)], "unseen", "Can't be seen: no member answers."),
    (EVENT, [yes(1), silent(2), silent(3)], "unseen", "Can't be seen: only 1 of 3 members answers."),
    (EVENT, [yes(1), other(2), silent(3), silent(4), silent(5)], "unseen",
     "Can't be seen: only 2 of 5 members answer."),
    (GONE, [gone(1), silent(2), silent(3)], "unseen", "Can't be seen: only 1 of 3 members answers."),
    # Retired
    (GONE, [gone(1), gone(2), gone(3)], "retired", "Retired, or never enrolled: no member has a row of this user."),
    (GONE, [gone(1), gone(2), silent(3)], "retired",
     "Retired, or never enrolled: no member has a row of this user; member 3 is silent."),
    (GONE, [gone(1), gone(2), other(3)], "retired", "Retired: no code is accepted; member 3 still has a row."),
    (GONE, [gone(1), other(2), other(3)], "pending",
     "Retired, but pending: the user may still log in; members 2 and 3 still have a row."),
    (GONE, [gone(1), other(2), silent(3)], "pending",
     "Retired, but pending: the user may still log in; member 2 still has a row; member 3 is silent."),
    (GONE, [gone(1), gone(2), other(3), other(4)], "retired",
     "Retired: no code is accepted; members 3 and 4 still have a row."),
    # A time token
    (TIME, [yes(1, STEP), yes(2, STEP), yes(3, STEP)], "can", "Can log in."),
    (TIME, [yes(1, STEP + 2), yes(2, STEP + 2), yes(3, STEP + 2)], "can",
     "Can log in: the first code that counts comes at 08:01:00 UTC, in 60 s: earlier ones are used up, or the token is"
     " new."),
    (TIME, [yes(1, STEP), yes(2, STEP), yes(3, STEP + 9)], "can", "Can log in."),
    (TIME, [yes(1, STEP), yes(2, STEP + 10), silent(3)], "can",
     "Can log in: the first code that counts comes at 08:05:00 UTC, in 5 min: earlier ones are used up, or the token is"
     " new; member 3 is silent."),
    (TIME, [yes(1, STEP + 1), yes(2, STEP + 1), yes(3, STEP + 1, NOW + 5)], "can",
     "Can log in: the first code that counts comes at 08:00:30 UTC, in 30 s: earlier ones are used up, or the token is"
     " new; locked at member 3, opens in 5 s."),
    (EVENT, [yes(1, 10 ** 9), yes(2, 10 ** 9), yes(3, 10 ** 9)], "can", "Can log in."),
]


class Verdicts(unittest.TestCase):
    def test_the_table(self) -> None:
        """Each case of the tables."""
        for naming, cases in (NAMES, CASES), (PLACES, PLACED):
            for user, states, word, text in cases:
                found = verdict(user, states, NOW, naming)
                self.assertEqual((found.word, found.text), (word, text), text)

    def test_all_states(self) -> None:
        """No mixture of one to five members raises a fault, and the word is right by what members do."""
        all_forms: Sequence[Callable[[int], State]] = (yes, other, no, silent)
        wrong = count = 0
        for size in range(1, 6):
            for forms in product(all_forms, repeat=size):
                states = [form(number) for number, form in enumerate(forms, 1)]
                most, word = size // 2 + 1, verdict(EVENT, states, NOW, NAMES).word
                heard, done = size - forms.count(silent), forms.count(yes)
                wanted = "unseen" if heard < most else "can" if done >= most else "pending"
                placed = verdict(EVENT, states, NOW, PLACES).word
                wrong += (word != wanted) + (placed != ("can" if wanted == "can" else "unseen"))
                count += 1
        self.assertEqual(wrong, 0, "%d mixtures" % count)
        wrong = 0
        for size in range(1, 6):
            for forms in product((gone, other, silent), repeat=size):
                states = [form(number) for number, form in enumerate(forms, 1)]
                most, word = size // 2 + 1, verdict(GONE, states, NOW, NAMES).word
                may = forms.count(other) > 0 and forms.count(other) + forms.count(silent) >= most
                wanted = "unseen" if size - forms.count(silent) < most else "pending" if may else "retired"
                wrong += word != wanted
        self.assertEqual(wrong, 0, "of a user without a row")

    def test_everybody(self) -> None:
        """Who is locked, whose row isn't in place, and who never logged in, of what three members told."""
        gates = {1: [Gate(b"bob", 2, NOW + 9), Gate(b"ann", 1, NOW)],
                 3: [Gate(b"bob", 1, NOW + 5), Gate(b"cid", 4, NOW + 60)]}
        self.assertEqual(locked_now(gates, NOW), [(b"bob", "members 1, 3, opens in 5 s, 2 failures in a row"),
                                                  (b"cid", "member 3, opens in 60 s, 4 failures in a row")])
        counters = {b"a": 0, b"b": 0, b"c": 7}
        users = {name: User(name, "HOTP/E/6", token=name * 2, begin=begin) for name, begin in counters.items()}
        users[b"t"] = User(b"t", "HOTP/T30/6", token=b"tt")
        here = {name: Row(0, user.token or b"", user.begin, name) for name, user in users.items()}
        self.assertEqual(not_in_place(users, {1: here, 2: here, 3: here}, NAMES), [])
        old, gone = {**here, b"b": Row(1, b"old", 0, b"b")}, {**here, b"z": Row(9, b"zz", 3, b"z")}
        lack = {name: row for name, row in here.items() if name != b"a"}
        rosters = {1: old, 2: gone, 3: {**lack, b"b": Row(1, b"old", 0, b"b")}}
        lacking = [(b"a", "not at member 3"), (b"b", "not at members 1, 3")]
        for naming, where in (NAMES, "retired, and still at member 2"), (PLACES, "only at member 2"):
            self.assertEqual(not_in_place(users, rosters, naming), [*lacking, (b"z", where)])
        used = {**here, b"a": here[b"a"]._replace(floor=1)}
        kind = users[b"a"].kind()
        for rosters, names in (({1: here, 2: here, 3: here}, "abc"), ({1: here, 2: here}, "abc"), ({1: here}, ""),
                               ({1: here, 2: used, 3: here}, "bc"), ({1: here, 2: lack, 3: lack}, "bc"),
                               ({1: old, 2: here, 3: here}, "abc"), ({1: old, 2: old, 3: here}, "ac")):
            self.assertEqual(never_used(users, rosters, 3), [(name.encode(), kind) for name in names])

    def test_how_long(self) -> None:
        """How long something lasts."""
        told = [lasting(seconds) for seconds in (1, 119, 120, 7199, 7200)]
        self.assertEqual(told, ["1 s", "119 s", "2 min", "119 min", "2 h"])
