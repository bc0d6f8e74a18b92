"""Tries what the members of a cluster without names tell the helpdesk, by sealed requests to fake nodes."""
from __future__ import annotations

import re
import unittest
from pathlib import Path
from unittest import mock

import wakdulg
from tests.cases import InFolder
from tests.fake_node import FakeNode
from wakdulg.operator import BUSY_TIMES, Operator
from wakdulg_helpdesk.book import User
from wakdulg_helpdesk.cluster_file import ClusterFile
from wakdulg_helpdesk.everybody import not_in_place
from wakdulg_helpdesk.members import Member, Members, Refusal, State, with_prints
from wakdulg_helpdesk.naming import NO_NAMES, ByNames, ByPlaces, Row

TOP = Path(__file__).resolve().parents[2]
KEY = bytes(range(32))
# Names that a page of rows could be misread by, and one that is no text.
USERS = [b"ann", b"NO", b"end", b"next", b"-", b"row", b"floors", "\u00e4b".encode(), b"<i>\xff\x0b\x85", b"zoe"]


class FakeMember(FakeNode):
    """A node that answers operators by pages of some lines. `reports` has the lines of each report. The next `busy`
    requests are refused as busy."""

    busy = 0

    def __init__(self, users: list[bytes], number: int = 1, print: bytes = b"aa", most: int = 3) -> None:
        self.most, self.reports = most, {"GATES": [b"gate NO 2 99"]}
        self.seat(users, print)
        super().__init__([self.answer], key=Operator(900, KEY), number=number, kind=Operator.REQUEST)

    def seat(self, users: list[bytes], print: bytes = b"aa", boot: int = 1) -> None:
        """Gives the node the rows of another users file."""
        self.reports["STATUS"] = [b"node 1 of 3", b"boot %d" % boot, b"started 7", b"fingerprint " + print]
        rows = [b"%b %d" % (user, 10 * at) for at, user in enumerate(users)]
        self.reports["FLOORS"] = [b"floors 1 1 3 1 1800000000 %d" % len(rows), *rows]

    def answer(self, sender: wakdulg.Node, begin: bytes) -> None:
        """Sends a page of a report, or the answer to an unlock."""
        word, lines = self.heard[-1].split()[0], [b"unlocked"]
        if self.busy:
            self.busy, lines = self.busy - 1, [b"NO BUSY"]
        elif word != "UNLOCK":
            most, at = 99 if word == "STATUS" else self.most, int(begin)
            whole = self.reports.get(word)
            lines = [b"NO REPORT"] if whole is None else whole[at:at + most]
            lines += [] if whole is None else [b"next %d" % (at + most) if at + most < len(whole) else b"end"]
        self.port.sendto(self.sealed(b"".join(line + b"\n" for line in lines), self.datagrams[-1]), sender)


class Case(InFolder):
    def fake(self, users: list[bytes] = USERS, number: int = 1, print: bytes = b"aa", most: int = 3) -> FakeMember:
        """Starts a fake node."""
        node = FakeMember(users, number, print, most)
        self.addCleanup(node.stop)
        return node


class OneMember(Case):
    def member(self, node: FakeMember) -> Member:
        return Member(1, node.address, Operator(900, KEY), 30.0, ByPlaces())

    def test_rows(self) -> None:
        """A row is the user of the place with the floor, whatever the name is and wherever a page ends."""
        wanted = {user: Row(at, b"%d" % at, 10 * at, user) for at, user in enumerate(USERS)}
        for most in 1, 2, 3, 99:
            node = self.fake(most=most)
            member = self.member(node)
            self.assertEqual(member.roster(), wanted)
            self.assertEqual({user: member.row_of_user(user) for user in USERS}, wanted)
            self.assertEqual([member.row_of_user(user) for user in (b"zo", b"AA", b"", b"NO 10")], [None] * 4)
            self.assertEqual((member.gate(b"NO"), member.gate(b"ann")), ((2, 99), (0, 0)))
            self.assertEqual({line.split()[0] for line in node.heard}, {"STATUS", "FLOORS", "GATES"})
            node.stop()
        self.assertEqual(self.member(self.fake([])).roster(), {}, "a file without rows")

    def test_another_users_file(self) -> None:
        """A row is looked for again if the member has another users file, also at the same boot."""
        node = self.fake()
        member = self.member(node)
        self.assertIsNotNone(member.row_of_user(b"ann"))
        for boot, print in (2, b"aa"), (2, b"bb"):
            users = [b"new%d" % (boot + print[0]), *USERS[1:], b"ann"]
            node.seat(users, print, boot)
            for at, user in (0, users[0]), (len(users) - 1, b"ann"), (4, USERS[4]):
                row = member.row_of_user(user)
                self.assertEqual(row, Row(at, b"%d" % at, 10 * at, user))
        node.seat(USERS[1:], b"cc", 2)
        self.assertIsNone(member.row_of_user(b"ann"), "a row that vanished")

    @mock.patch("wakdulg_helpdesk.members.BUSY_PAUSE", 0.1)
    def test_a_busy_member_is_asked_again(self) -> None:
        node = self.fake()
        member = self.member(node)
        node.busy = 2
        self.assertEqual(member.gate(b"NO"), (2, 99))
        self.assertEqual(node.heard, ["GATES 0"] * 3)
        node.busy = 99
        with self.assertRaisesRegex(Refusal, "^NO BUSY$"):
            member.gate(b"NO")
        self.assertEqual(len(node.heard), 3 + BUSY_TIMES)

    def test_another_kind_of_cluster(self) -> None:
        """The rows of a cluster with names, and a report that isn't there, are refusals."""
        node = self.fake()
        member = self.member(node)
        name, seed = b"0a" * 16, b"0b" * 16
        node.reports["FLOORS"] = [b"floors 2 1 3 1 1800000000 1 names life", b"%b %b 7" % (name, seed), b"mac 00"]
        with self.assertRaises(Refusal):
            member.roster()
        with self.assertRaises(Refusal):
            member.row_of_user(b"ann")
        for line in b"ann", b"ann ", b" 7", b"ann x", b"ann -1", b"ann 7 7", b"", b"a\rb 7", b"a\tb 7":
            with self.assertRaises(ValueError):
                ByPlaces().row_of(0, line)
        with self.assertRaises(ValueError):
            ByNames(b"a word").row_of(0, b"ann 7")
        self.assertEqual(ByNames(b"a word").row_of(0, b"row 7 0a 5 -"), Row(7, b"0a", 5, b""), "a retired token")


class AllMembers(Case):
    def members(self, *nodes: FakeMember) -> Members:
        """Returns the members of a cluster file that names the nodes."""
        lines = ["member %d %s" % (node.number, node.name) for node in nodes]
        Path("cluster").write_text("\n".join(["life 1", "key-file key", *lines, ""]))
        Path("operator").touch(0o600)
        Path("operator").write_text("operator 900 " + KEY.hex())
        file = ClusterFile("cluster")
        self.addCleanup(file.folder.cleanup)
        members = Members(file, "operator", "oathd", 8.0)
        self.addCleanup(members.pool.shutdown)
        return members

    def says(self, members: Members, name: bytes, place: int) -> list[str]:
        return [state.says for state in members.states(User(name, "HOTP/E/6", token=b"%d" % place))]

    def test_states(self) -> None:
        """A member has the row if the user stands in its place, in the users file that most members have."""
        nodes = [self.fake(number=number) for number in (1, 2, 3)]
        members = self.members(*nodes)
        self.assertEqual(self.says(members, b"NO", 1), ["yes"] * 3)
        self.assertEqual(members.states(User(b"NO", "HOTP/E/6", token=b"1"))[0], State(1, "yes", True, 10, 2, 99))
        self.assertEqual(self.says(members, b"NO", 2), ["another"] * 3, "another place")
        self.assertEqual(self.says(members, b"nobody", 1), ["no"] * 3)
        nodes[1].seat(USERS, b"bb")
        self.assertEqual(self.says(members, b"NO", 1), ["yes", "another", "yes"], "another secret or kind")
        nodes[2].seat(USERS, b"cc")
        self.assertEqual(self.says(members, b"NO", 1), ["another"] * 3, "three files")
        nodes[2].seat(USERS, b"aa")
        nodes[1].stop()
        self.assertEqual(self.says(members, b"NO", 1), ["yes", "silent", "yes"], "a member that is down")

    def test_unlock(self) -> None:
        """All members are asked by the name as it is, and the one that is down is told of."""
        nodes = [self.fake(number=number) for number in (1, 2, 3)]
        members = self.members(*nodes)
        nodes[2].stop()
        for user in b"NO", b"<i>\xff\x0b\x85":
            told = "member 1: unlocked, member 2: unlocked, member 3: silent"
            self.assertEqual(members.unlock(user), told)
            self.assertEqual([node.opened(node.datagrams[-1]) for node in nodes[:2]], [b"UNLOCK " + user] * 2)


class Fingerprints(unittest.TestCase):
    def test_with_prints(self) -> None:
        """The fingerprint that most have is the right one. If no one is, none counts."""
        yes, silent = State(1, "yes", True), State(1, "silent")
        for prints, says in (("aaa", "yes yes yes"), ("aba", "yes another yes"), ("abc", "another another another"),
                             ("ab", "another another"), ("abba", "another another another another"), ("a", "yes"),
                             ("abbc", "another yes yes another"), ("a--", "yes silent silent"),
                             ("---", "silent silent silent"), ("", "")):
            told: list[bytes | Exception] = [OSError() if each == "-" else each.encode() for each in prints]
            found = with_prints([yes] * len(told), told)
            self.assertEqual(" ".join(state.says for state in found), says)
            self.assertEqual([state.is_done for state in found], [word == "yes" for word in says.split()])
        self.assertEqual(with_prints([silent, yes], [b"a", b"a"]), [silent, yes], "silent a moment before")

    def test_places(self) -> None:
        """The list of users whose rows aren't in place has those in another row, and those in none."""
        users = {name: User(name, "HOTP/E/6", token=b"%d" % at) for at, name in enumerate((b"a", b"b", b"c"))}
        here = {name: Row(at, b"%d" % at, 0, name) for at, name in enumerate((b"a", b"b", b"c"))}
        swapped = {name: Row(at, b"%d" % at, 0, name) for at, name in enumerate((b"b", b"a", b"c", b"\xff"))}
        self.assertEqual(not_in_place(users, {1: here, 2: here}, ByPlaces()), [])
        self.assertEqual(not_in_place(users, {1: here, 2: swapped}, ByPlaces()),
                         [(b"a", "not at member 2"), (b"b", "not at member 2"), (b"\xff", "only at member 2")])


class Files(InFolder):
    def test_the_cluster_file(self) -> None:
        """A line `names` tells the kind of a cluster. One without a word is a fault, and no cluster without names."""
        for text, kind in (("names a-word-of-names\nlife 1\n", ByNames), ("life 1\n", ByPlaces),
                           ("# names a-word-of-names\n", ByPlaces), ("  names\ta-word-of-names\r\n", ByNames)):
            Path("cluster").write_text(text + "key " + "0c" * 32 + "\nmember 1 127.0.0.1:9\n")
            file = ClusterFile("cluster")
            self.assertEqual((type(file.naming), file.nodes), (kind, "127.0.0.1:9"))
            self.assertNotIn("0c", Path(file.keyless).read_text())
            if kind is ByPlaces:
                said = "the cluster file gives no names: cluster. --push is for .*let-users-come-and-go.md"
                with self.assertRaisesRegex(ValueError, said):
                    file.want_names("--push")
            else:
                file.want_names("--push")
            file.folder.cleanup()
        for text in "names\n", "life 1\nnames  \n":
            Path("cluster").write_text(text)
            with self.assertRaisesRegex(ValueError, "the line `names` of the cluster file has no word: cluster"):
                ClusterFile("cluster")

    def test_the_pages_of_the_docs(self) -> None:
        """The pages that a refusal names are there."""
        named = re.findall(r"\((docs/\S+)\)", NO_NAMES)
        self.assertEqual([(TOP / each).is_file() for each in named], [True, True])
