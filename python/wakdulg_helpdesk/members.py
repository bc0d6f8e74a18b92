"""What the members of a cluster tell an operator, by sealed requests, and what their logs have of a user."""
from __future__ import annotations

import concurrent.futures
import re
import socket
import subprocess
import threading
import time
from collections import Counter
from typing import Any, Callable, Dict, Iterator, Mapping, NamedTuple, Sequence, Tuple, TypeVar

import wakdulg
from wakdulg.operator import BUSY, BUSY_PAUSE, BUSY_TIMES, Operator, Request, Silent, hear, read_operator
from wakdulg_helpdesk.book import User
from wakdulg_helpdesk.cluster_file import ClusterFile
from wakdulg_helpdesk.naming import Naming, Row
from wakdulg_helpdesk.record import tail_of

T = TypeVar("T")
# A member's whole report if it refuses a request. Without names a line of a report may begin with `NO` too.
REFUSAL = re.compile(rb"NO [A-Z]+")
# The lines of STATUS that stay the same as long as a member has the same rows.
OF_ROWS = (b"boot ", b"started ", b"fingerprint ")
# What a page tells of the members: rows, what is said of them, a status and a moment.
Told = Dict[str, Any]
NOTHING: Told = {"rows": [], "said": "", "status": 2, "when": ""}
# An answer to a user: member, moment, word, client, and the factor or reason.
Answer = Tuple[int, str, str, str, str]


class Refusal(Exception):
    """A member refused a request."""


class Gate(NamedTuple):
    """The failures of a user in a row, and the second at which the token opens."""
    user: bytes
    failures: int
    until: int


def gate_of(line: bytes) -> Gate:
    """Returns the gate of a line of GATES."""
    _, user, failures, until = line.split(b" ")
    return Gate(user, int(failures), int(until))


class Member:
    """One member, and where its store has the row of each user. A store never moves a row, and a user's row changes at
    a new boot alone."""

    def __init__(self, number: int, address: wakdulg.Node, key: Operator, pause: float, naming: Naming) -> None:
        self.number, self.address, self.key, self.pause, self.naming = number, address, key, pause, naming
        self.boot, self.count, self.lock = b"", 0, threading.Lock()
        self.places: dict[bytes, int] = {}

    def request(self, text: bytes) -> list[bytes]:
        """Returns the lines of a report. A member that is busy with readers is asked again, a second later."""
        for _ in range(BUSY_TIMES - 1):
            try:
                return self.request_once(text)
            except Refusal as refusal:
                if str(refusal) != BUSY:
                    raise
            time.sleep(BUSY_PAUSE)
        return self.request_once(text)

    def request_once(self, text: bytes) -> list[bytes]:
        """Returns the lines of a report. A request is sent at most three times."""
        asked = Request(text, self.key, self.number)
        with socket.socket(socket.AF_INET, socket.SOCK_DGRAM) as client:
            client.connect(self.address)
            for _ in range(3):
                data = self.hear(client, asked)
                if data is not None:
                    lines = data.split(b"\n")[:-1]
                    if lines and REFUSAL.fullmatch(lines[0]):
                        raise Refusal(lines[0].decode("ascii", "replace"))
                    return lines
        raise Silent("member %d" % self.number)

    def hear(self, client: socket.socket, asked: Request) -> bytes | None:
        """Sends a request, and returns the report that comes within the pause, or None."""
        end = time.monotonic() + self.pause
        try:
            client.send(asked.datagram())
            return hear(client, asked, end)
        except OSError:
            # Nobody is there.
            time.sleep(max(0, min(0.2, end - time.monotonic())))
            return None

    def pages(self, word: bytes, begin: int) -> Iterator[bytes]:
        """Yields the lines of a report from the line `begin` on. It is of one moment, that of its first page."""
        at: int | None = 0
        while at is not None:
            lines = self.request(b"%b %d" % (word, at))
            mark = lines.pop().split()
            yield from lines[max(0, begin - at):]
            at = None if mark[0] == b"end" else max(int(mark[1]), begin)

    def again(self, call: Callable[[], T]) -> T:
        """Returns what a call returns. Another report may begin amid the pages of one: then it is asked for again."""
        for _ in range(4):
            try:
                return call()
            except Refusal as refusal:
                if str(refusal) != "NO REPORT":
                    raise
        raise Silent("member %d" % self.number)

    def report(self, word: bytes, begin: int = 0) -> list[bytes]:
        """Returns the lines of a whole report."""
        return self.again(lambda: list(self.pages(word, begin)))

    def row_of(self, number: int, line: bytes) -> Row:
        """Returns the row of a line. Refuses a line of another kind of cluster."""
        try:
            return self.naming.row_of(number, line)
        except ValueError:
            raise Refusal("the rows of another kind of cluster") from None

    def row_at(self, place: int, user: bytes) -> Row | None:
        """Returns the row at a place, if it is the user's. It takes two pages at most."""
        word, line = self.naming.report, self.naming.heads + place

        def ask() -> Row | None:
            lines, at = self.request(b"%b 0" % word), line
            if at >= len(lines) - 1 and lines[-1] != b"end":
                lines, at = self.request(b"%b %d" % (word, line)), 0
            return self.row_of(place, lines[at]) if at < len(lines) - 1 else None
        row = self.again(ask)
        return row if row and row.user == user else None

    def rows(self, begin: int = 0) -> list[Row]:
        """Returns the rows from a place on."""
        lines = self.report(self.naming.report, self.naming.heads + begin)
        return [self.row_of(number, line) for number, line in enumerate(lines, begin)]

    def learn(self, begin: int) -> dict[bytes, Row]:
        """Returns the rows from a place on by their users, and keeps in mind where they are."""
        rows = self.rows(begin)
        found = {row.user: row for row in rows if row.user}
        self.places = {} if begin == 0 else self.places
        self.places.update({user: row.number for user, row in found.items()})
        self.count = begin + len(rows)
        return found

    def row_of_user(self, user: bytes) -> Row | None:
        """Returns the row of a user, or None. New rows stand at the end. All rows are asked for only if the boot is
        new, and the row is neither there nor in its old place."""
        with self.lock:
            boot = self.boot_now()
            place = self.places.get(user)
            if place is not None and (row := self.row_at(place, user)):
                return row
            if boot == self.boot:
                return None
            if self.boot and (row := self.learn(max(0, self.count - 1)).get(user)):
                return row
            found = self.learn(0)
            self.boot = boot
            return found.get(user)

    def boot_now(self) -> bytes:
        """Returns what STATUS says that changes when the member may have other rows."""
        return b"\n".join(line for line in self.request(b"STATUS 0") if line.startswith(OF_ROWS))

    def fingerprint(self) -> bytes:
        """Returns the fingerprint of the member, which differs if its files do. By names the users file isn't in it."""
        return next(line for line in self.request(b"STATUS 0") if line.startswith(b"fingerprint "))

    def gates(self) -> list[Gate]:
        """Returns the gates of all users who failed."""
        return [gate_of(line) for line in self.report(b"GATES")]

    def roster(self) -> dict[bytes, Row]:
        """Returns the rows by their users. Those of retired tokens have none."""
        return {row.user: row for row in self.rows() if row.user}

    def gate(self, user: bytes) -> tuple[int, int]:
        """Returns the failures of a user in a row and the second at which the token opens, or 0 and 0."""
        return next(((gate.failures, gate.until) for gate in self.gates() if gate.user == user), (0, 0))

    def unlock(self, user: bytes) -> None:
        """Has the member forget the failures of a user. Raises a refusal, or that it is silent."""
        self.request(b"UNLOCK " + user)


class State(NamedTuple):
    """What one member says of a user. `says` is "yes" if it has the token of the users file, "another" if it has one of
    another secret or kind, or other files, "no", or "silent". `is_done` is whether it has what the users file says."""
    member: int
    says: str
    is_done: bool = False
    floor: int = 0
    failures: int = 0
    until: int = 0


def settled(states: Sequence[State], what: str, naming: Naming) -> str:
    """Returns how many members have what the users file says. It is in force if they are more than half: no vote can
    pass by the others alone."""
    done, count = sum(state.is_done for state in states), len(states)
    more = "" if done == count else naming.in_force if 2 * done > count else naming.not_in_force
    return "%d of %d members %s%s." % (done, count, what, more)


def with_prints(states: Sequence[State], prints: Sequence[bytes | Exception]) -> list[State]:
    """Returns the states of members without names, whose rows tell no secret. `prints` are their fingerprints. A member
    whose fingerprint isn't the most frequent one has other files. If several are the most frequent ones, all members
    have other files."""
    told = Counter(each for each in prints if isinstance(each, bytes)).most_common(2)
    right = told[0][0] if told and (len(told) == 1 or told[0][1] > told[1][1]) else b""

    def compared(state: State, each: bytes | Exception) -> State:
        if state.says == "silent" or isinstance(each, Exception):
            return State(state.member, "silent")
        return state if each == right else state._replace(says="another", is_done=False)
    return [compared(*pair) for pair in zip(states, prints)]


class Members:
    """The members of a cluster file, in order."""

    def __init__(self, file: ClusterFile, operator_file: str, oathd: str, patience: float) -> None:
        self.oathd, self.operator_file, self.keyless, self.naming = oathd, operator_file, file.keyless, file.naming
        key = read_operator(operator_file)
        self.all = [Member(number, wakdulg.read_node(node), key, patience / 8, file.naming)
                    for number, node in enumerate(file.nodes.split(","), 1)]
        self.pool = concurrent.futures.ThreadPoolExecutor(4 * len(self.all))

    def ask_all(self, call: Callable[[Member], Any]) -> list[Any]:
        """Returns what a call returns for each member, at once, or the exception that it raises."""
        def one(member: Member) -> Any:
            try:
                return call(member)
            except (Silent, Refusal, OSError) as fault:
                return fault
        return list(self.pool.map(one, self.all))

    @staticmethod
    def state_at(member: Member, user: User) -> State:
        """Returns the state of a user. Tokens are compared, since the row of an old phone has the user's name too."""
        try:
            row = member.row_of_user(user.name)
            failures, until = member.gate(user.name) if row else (0, 0)
        except (Silent, Refusal, OSError):
            return State(member.number, "silent")
        if row is None:
            return State(member.number, "no", user.token is None)
        is_done = row.token == user.token
        return State(member.number, "yes" if is_done else "another", is_done, row.floor, failures, until)

    def states(self, user: User) -> list[State]:
        """Returns what each member says of a user."""
        states = self.ask_all(lambda member: self.state_at(member, user))
        return states if self.naming.may_change else with_prints(states, self.ask_all(Member.fingerprint))

    def unlock(self, user: bytes) -> str:
        """Returns a word for each member: unlocked, or what hinders it."""
        told = self.ask_all(lambda member: member.unlock(user))
        words: dict[type, str] = {type(None): "unlocked", Silent: "silent"}
        return ", ".join("member %d: %s" % (member.number, words.get(type(what), str(what)))
                         for member, what in zip(self.all, told))

    def table(self) -> Told:
        """Returns the rows of `oathd status --cluster`, with its head, or what it said."""
        words = [self.oathd, "status", "--cluster", self.keyless, "--operator", self.operator_file]
        done = subprocess.run(words, capture_output=True, text=True, timeout=120)
        rows = [line.split(None, 6) for line in done.stdout.splitlines()]
        return {"rows": rows[1:], "said": done.stderr.replace("oathd: ", "").strip(), "status": done.returncode,
                "when": time.strftime("%H:%M:%S UTC", time.gmtime())}


class Table:
    """The last table of the members. It is asked for while somebody looks at it, every few seconds."""
    PAUSE, MOST = 4, 16

    def __init__(self, members: Members) -> None:
        self.members, self.ready, self.last, self.number, self.asked = members, threading.Condition(), NOTHING, 0, 0.0
        self.is_asking, self.places = False, threading.BoundedSemaphore(self.MOST)

    def after(self, number: int, patience: float = 150) -> tuple[int, Told]:
        """Returns the number of a table later than `number`, and the table. One thread asks for all who wait."""
        end = time.monotonic() + patience
        with self.ready:
            while self.number <= number and time.monotonic() < end:
                if self.is_asking:
                    self.ready.wait(1)
                    continue
                self.is_asking = True
                self.ready.release()
                try:
                    table = self.ask()
                finally:
                    self.ready.acquire()
                    self.is_asking = False
                    self.ready.notify_all()
                self.last, self.number = table, self.number + 1
            return self.number, self.last

    def ask(self) -> Told:
        """Returns a new table, some seconds after the last one."""
        time.sleep(max(0, self.asked + self.PAUSE - time.monotonic()) if self.number else 0)
        try:
            table = self.members.table()
        except (OSError, subprocess.SubprocessError) as fault:
            said = "oathd status gave no answer: tell whoever runs this site (%s)" % type(fault).__name__
            table = {**NOTHING, "said": said}
        self.asked = time.monotonic()
        return table

    def now(self) -> tuple[int, Told]:
        """Returns a table that is some seconds old at most."""
        with self.ready:
            is_old = time.monotonic() > self.asked + 2 * self.PAUSE
            number, last = self.number, self.last
        return (number, last) if number and not is_old else self.after(number)


class Logs:
    """The logs of members, as far as this host has them: the path of each member's log."""
    LINE = re.compile(rb'(?:(.*?) )?(accepted|refused) from=([^ ]+) (OK|NO) [^ ]+ (.*) user="((?:[^"\\]|\\x..)*)"')

    def __init__(self, paths: Mapping[int, str]) -> None:
        self.paths = paths

    @staticmethod
    def quoted(user: bytes) -> bytes:
        """Returns a name as a log quotes it."""
        return "".join(chr(byte) if 33 <= byte <= 126 and byte not in b'"\\' else "\\x%02x" % byte
                       for byte in user).encode()

    def last(self, user: bytes, count: int) -> list[Answer]:
        """Returns the last answers to a user."""
        found: list[Answer] = []
        name = self.quoted(user)
        for member, path in sorted(self.paths.items()):
            try:
                lines = tail_of(path)
            except OSError:
                continue
            mine = [match.groups() for line in lines if b'user="%b"' % name in line
                    and (match := self.LINE.fullmatch(line)) and match[6] == name]
            for moment, word, client, _, rest, _ in mine[-count:][::-1]:
                when, said, who, why = ((field or b"").decode("ascii", "replace")
                                        for field in (moment, word, client, rest))
                found.append((member, when, said, who, why))
        return sorted(found, key=lambda each: each[1], reverse=True)
