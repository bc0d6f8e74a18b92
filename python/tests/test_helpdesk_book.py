"""Tries what a site does with a users file, without nodes: who has which token, the one writer, and its hook.

OATHD is the program, else ./oathd of the checkout.
"""
from __future__ import annotations

import errno
import functools
import os
import shutil
import signal
import subprocess
import sys
import threading
import time
import unittest
from pathlib import Path
from typing import Any
from unittest import mock

from tests.cases import InFolder
from wakdulg_helpdesk.acts import Desk
from wakdulg_helpdesk.book import Book, User, duplicates, user_of, with_row, with_rows
from wakdulg_helpdesk.cluster_file import ClusterFile
from wakdulg_helpdesk.members import State, settled
from wakdulg_helpdesk.naming import ByNames, ByPlaces
from wakdulg_onboard.tokens import Fault, Row, Token, read_rows
from wakdulg_onboard.users_file import UsersFile

TOP = Path(__file__).resolve().parents[2]
OATHD = os.environ.get("OATHD", str(TOP / "oathd"))
NEEDS_QRENCODE = unittest.skipUnless(shutil.which("qrencode"), "needs qrencode")
CLUSTER = "names trial-of-a-book\nlife 1\nkey-file key\nmember 1 127.0.0.1:9\n"
PLACED = CLUSTER.partition("\n")[2]
TYPES = ["HOTP", "HOTP/E", "HOTP/E/8", "HOTP/T30", "HOTP/T60", "HOTP/T60/7", "HOTP/T30/6/SHA256", "HOTP/T60/8/SHA512"]
# A process that changes the file, and is killed by its own hook.
KILLED = """
import sys
sys.path.insert(0, sys.argv[2])
from wakdulg_helpdesk.book import Book, with_rows
from wakdulg_helpdesk.cluster_file import ClusterFile
from wakdulg_onboard.tokens import Token
book = Book("users", sys.argv[1], ClusterFile("cluster"), "sh -c 'kill -9 $PPID'")
book.change(with_rows([Token("a trial", bytes(range(1, 33)), "hotp", user="new")]))
"""


def desk_of(book: Book) -> Desk:
    """Returns a desk that asks no cluster."""
    cluster: Any = None
    return Desk(book, None, cluster, set, "Example Site")


def rows() -> dict[str, Row]:
    return {row.user.decode(): row for row in read_rows(Path("users").read_bytes())}


def user_in(book: Book, name: bytes) -> User:
    """Returns a user who has a row."""
    user = book.find(name)
    assert user, name
    return user


def oathd(*words: str) -> bytes:
    """Returns what oathd prints over the database and the users file of the folder."""
    places = ["db", "users", "--node", "1", "--cluster", "cluster"]
    return subprocess.run([OATHD, words[0], *places, *words[1:]], capture_output=True, check=True).stdout


def token(user: str, secret: bytes) -> Token:
    return Token("the list", secret, "hotp", user=user)


def is_running(number: str) -> bool:
    try:
        return Path("/proc/%s/stat" % number).read_text().split()[2] != "Z"
    except FileNotFoundError:
        return False


class Case(InFolder):
    def setUp(self) -> None:
        super().setUp()
        Path("cluster").write_text(CLUSTER)
        Path("key").write_text("0c" * 32)
        rows = ["%s user%d - %s%02x\n" % (type, n, "AB" * 20, n) for n, type in enumerate(TYPES, 1)]
        Path("users").write_text("# a remark\n" + "".join(rows))
        Path("copy").write_text("")
        hook = Path("hook")
        hook.write_text("#!/bin/sh\n[ -e closed ] && { echo closed; exit 1; }\ncp users copy\n")
        hook.chmod(0o755)
        self.file = ClusterFile("cluster")
        self.addCleanup(self.file.folder.cleanup)

    def book(self, push: str | None = "./hook") -> Book:
        """Returns the users file as a process of its own has it."""
        return Book("users", OATHD, self.file, push)


class Users(Case):
    def test_names_of_tokens(self) -> None:
        """The name of each user's token is the one that a node has."""
        oathd("init", "--begins")
        book = self.book()
        found = [book.naming.row_of(number, line) for number, line in enumerate(oathd("roster").splitlines())]
        self.assertEqual({row.user: row.token for row in found},
                         {name: user.token for name, user in book.users.items()})
        same, kind, secret = (user_of(row, book.naming).token == book.users[b"user1"].token for row in read_rows(
            b"HOTP/E/6 user1 word %b01 7\nHOTP/T30 user1 - %b01\nHOTP user1 - %b02\n" % ((b"ab" * 20,) * 3)))
        self.assertEqual((same, kind, secret), (True, False, False), "a password, another kind, another secret")

    def test_what_is_said_of_the_members(self) -> None:
        yes, no = State(1, "yes", True), State(1, "another")
        for states, told in (([yes] * 3, "."), ([yes, yes, no], ": in force, and pending at the others."),
                             ([yes, no, no], ": pending."), ([yes, no], ": pending."),
                             ([yes] * 3 + [no] * 2, ": in force, and pending at the others.")):
            done = "%d of %d members have the row" % (states.count(yes), len(states))
            self.assertEqual(settled(states, "have the row", ByNames(b"trial")), done + told)

    def test_serial_numbers(self) -> None:
        """The remark above a row is the serial number of its token, and goes with the token."""
        lines = Path("users").read_text().splitlines()
        lines[2:3] = ["# AB-17", lines[2], "# two words"]
        Path("users").write_text("\n".join(["# 0001", *lines, ""]))
        book = self.book()
        self.assertEqual({user.text: user.serial for user in book.users.values() if user.serial}, {"user2": "AB-17"})
        for text, found in ("b-17", ["user2"]), ("AB", ["user2"]), ("0001", []), ("7", ["user2", "user7"]):
            self.assertEqual([user.text for user in book.search(text)], found, text)
        self.assertEqual(len(book.search("")), len(TYPES))
        self.assertRegex(user_in(book, b"user2").described(), "^event token, .*, serial number AB-17$")
        self.assertEqual(user_in(book, b"user1").described(), user_in(book, b"user1").kind())
        before = Path("users").read_text()
        for new in b"", b"HOTP user2 - 31\n":
            book.change(with_row(b"user2", user_in(book, b"user2").mark, new))
            wanted = before.replace("# AB-17\n%s\n" % lines[3], new.decode())
            self.assertEqual(Path("users").read_text(), wanted, "the other remarks stay")
            Path("users").write_text(before)
        book.change(with_rows([Token("the list", bytes(range(20)), "hotp", user="new", serial="<17>")]))
        self.assertEqual(user_in(book, b"new").serial, "<17>")

    @NEEDS_QRENCODE
    def test_kinds(self) -> None:
        """A new secret leaves a row as it is but for the secret."""
        book = self.book()
        desk = desk_of(book)
        for number, type in enumerate(TYPES, 1):
            before, user = rows()["user%d" % number], user_in(book, b"user%d" % number)
            act = desk.replace(user, {})
            self.assertEqual(rows()["user%d" % number], before, "nothing is changed before the act")
            said, shown = act.run(), act.shown
            assert shown
            now, after = user_in(book, user.name), rows()["user%d" % number]
            self.assertEqual(now.token, act.adds.encode(), "its name is the row's")
            _, kind, digits, *hash = user.type.split("/")
            self.assertEqual((now.kind(), after.password, after.secret != before.secret),
                             (user.kind(), before.password, True), "%s stays" % type)
            link = "algorithm=%s&digits=%s&" % ((hash or ["SHA1"])[0], digits)
            link += "counter=0" if kind == "E" else "period=" + kind[1:]
            self.assertTrue(shown.uri.endswith("&" + link), "the link has it")
            self.assertEqual((shown.kind, shown.kind in said), (user.kind(), True), "and is told")
        desk.replace(user_in(book, b"user8"), {"kind": "hotp"}).run()
        self.assertEqual(user_in(book, b"user8").type, "HOTP/E/6", "a form may name another one")

    def test_devices(self) -> None:
        """A secret that another row has is refused."""
        users = UsersFile("users", create=False)
        ann = bytes.fromhex(rows()["user1"].secret.decode())
        for what, secret in ("the same", ann), ("with zero bytes behind it", ann + bytes(2)):
            told = str(duplicates(users, [token("lin", secret)])[0])
            wanted = "the list: DuplicateSecret: lin would have the secret of user1, line 2 of the users file"
            self.assertTrue(told.startswith(wanted), what)
        self.assertEqual(duplicates(users, [token("lin", ann + b"\1"), token("tom", b"\1" + ann)]), [], "another one")
        two = [token("lin", bytes(9) + b"\1"), token("tom", bytes(9) + b"\1\0")]
        wanted = "the list: DuplicateSecret: tom would have the secret of lin, the list: give each user another device"
        self.assertEqual([str(fault) for fault in duplicates(users, two)], [wanted], "in one list")
        with self.assertRaisesRegex(Fault, "DuplicateSecret"):
            self.book().change(with_rows([token("lin", ann)]))
        self.assertNotIn("lin", rows())

    def test_long_imports(self) -> None:
        """The faults of a long list are told in some seconds."""
        desk, begin = desk_of(self.book()), time.monotonic()
        lines = "".join("u%05d,%040x,HOTP\n" % (n, n + 1) for n in range(20_000))
        good, faults = desk.check_import(("user,secret,type\n" + lines).encode(), "hex", None)
        self.assertEqual((len(good), faults), (20_000, ["the file: TooMany: it has 20000 rows, and a users file has"
                                                        " 10000 at most"]))
        self.assertLess(time.monotonic() - begin, 60)


class Places(Case):
    """The users file of a cluster without names."""

    def setUp(self) -> None:
        super().setUp()
        Path("cluster").write_text(PLACED)
        self.file = ClusterFile("cluster")
        self.addCleanup(self.file.folder.cleanup)

    def test_places_of_tokens(self) -> None:
        """The place of each user's row is the one that a node has. Lines without a token have none."""
        lines = Path("users").read_text().splitlines()
        Path("users").write_text("\n".join([*lines[:3], "", "hotp zoe - 31", "# HOTP lou - 31", *lines[3:]]) + "\n")
        words = ["db", "users", "--node", "1"]
        for more in ["init", *words, "--cluster", "cluster"], ["floors", *words, "--cluster", "cluster"]:
            told = subprocess.run([OATHD, *more], capture_output=True, check=True).stdout
        book, found = self.book(), [ByPlaces().row_of(*pair) for pair in enumerate(told.splitlines()[1:])]
        self.assertEqual({row.user: row.token for row in found},
                         {name: user.token for name, user in book.users.items()})
        self.assertEqual([row.token for row in found], [b"%d" % place for place in range(len(TYPES))])

    def test_nothing_is_changed(self) -> None:
        """No change is tried or made, and no file is copied, whatever a former site left beside it."""
        before, book = Path("users").read_bytes(), self.book()
        Path("users.pending").touch()
        user = user_in(book, b"user1")
        for edit in with_row(user.name, user.mark, b""), with_rows([token("new", bytes(range(20)))]):
            for call in book.try_change, book.change:
                with self.assertRaisesRegex(Fault, "^the cluster: NoNames: .*docs/how-to/let-users-come-and-go.md"):
                    call(edit)
        threads = threading.active_count()
        book.keep_copying()
        book.copy_pending()
        self.assertEqual((threading.active_count(), book.pending()), (threads, None))
        self.assertEqual((Path("users").read_bytes(), Path("copy").read_bytes()), (before, b""))
        self.assertEqual(sorted(os.listdir()), ["cluster", "copy", "hook", "key", "users", "users.pending"])

    def test_two_rows_of_a_user(self) -> None:
        """A file that no node takes isn't taken: the users of before stay."""
        book, good = self.book(), Path("users").read_bytes()
        Path("users").write_bytes(good + b"HOTP user2 - %040x\n" % 1)
        self.assertEqual(user_in(book, b"user2").token, b"1")
        fault = "line 10 of the users file: TwoRows: line 3 is a row of user2 too: tell whoever runs this site"
        self.assertEqual(book.fault, fault)
        self.assertEqual(self.book().users, {}, "a site that begins")
        Path("users").write_bytes(good)
        self.assertEqual((len(self.book().users), self.book().fault), (len(TYPES), ""))

    def test_a_file_without_secrets(self) -> None:
        """A site needs no secret: pages say the same of a copy that lacks them."""
        book = self.book()
        whole = [user._replace(mark=b"") for user in book.users.values()]
        lines = (line.split() for line in Path("users").read_text().splitlines() if not line.startswith("#"))
        Path("users").write_text("".join(" ".join([*fields[:3], "00", *fields[4:5]]) + "\n" for fields in lines))
        self.assertEqual([user._replace(mark=b"") for user in self.book().users.values()], whole)


class Copies(Case):
    def has_copy(self) -> bool:
        return Path("copy").read_bytes() == Path("users").read_bytes()

    def test_pending(self) -> None:
        """A copy that failed is made again, and the file is pending until then."""
        book = self.book()
        book.PAUSE = 1
        Path("closed").touch()
        told = book.change(with_row(b"user2", user_in(book, b"user2").mark, b""))
        self.assertEqual((told, book.pending() is not None), ((False, "closed"), True), "a hook that fails")
        since = book.pending()
        book.change(with_row(b"user3", user_in(book, b"user3").mark, b""))
        self.assertEqual(book.pending(), since, "the moment is the first one")
        self.assertEqual(self.book().pending(), since, "another process knows it")
        book.keep_copying()
        time.sleep(3)
        self.assertEqual(book.pending(), since, "it is pending still")
        Path("closed").unlink()
        self.await_that("it is copied again", book.pending, None)
        self.assertTrue(self.has_copy())

    def test_a_killed_process(self) -> None:
        """The next process copies the file of one that was killed amid the copy."""
        done = subprocess.run([sys.executable, "-Bc", KILLED, OATHD, TOP / "python"])
        self.assertEqual((done.returncode, "new" in rows()), (-signal.SIGKILL, True))
        other = self.book()
        self.assertEqual((other.pending() is not None, self.has_copy()), (True, False), "the next one knows")
        other.keep_copying()
        self.await_that("and copies it", other.pending, None)
        self.assertTrue(self.has_copy())

    def test_without_a_hook(self) -> None:
        """Nothing is pending."""
        book = self.book(push=None)
        told = book.change(with_row(b"user1", user_in(book, b"user1").mark, b""))
        self.assertEqual((told, book.pending()), ((False, "no --push copies the file to the members"), None))

    def test_a_copy_by_another_site(self) -> None:
        """A site without a hook marks what it changes, and waits for the site that copies it, without the lock."""
        other = Book("users", OATHD, ClusterFile("cluster"), None, "the helpdesk")
        other.WAIT = 1
        told = other.change(with_row(b"user1", user_in(other, b"user1").mark, b""))
        said = "the helpdesk hasn't copied the file yet"
        self.assertEqual((told, other.pending() is not None), ((False, said), True))
        other.keep_copying()
        book, other.WAIT = self.book(), 60
        book.keep_copying()
        self.await_that("copied at the start of the other one", other.pending, None)
        begin = time.monotonic()
        told = other.change(with_row(b"user2", user_in(other, b"user2").mark, b""))
        self.assertEqual((told, self.has_copy(), b"user2" in Path("copy").read_bytes()), ((True, ""), True, False))
        self.assertLess(time.monotonic() - begin, book.PAUSE, "sooner than a copy that failed is made again")

    def test_a_hook_that_hangs(self) -> None:
        """An act waits for another one as long as for the lock of the folder, and no longer."""
        book = self.book("sh -c 'touch began; while [ ! -e over ]; do sleep 0.1; done'")
        edit = with_row(b"user2", user_in(book, b"user2").mark, b"")
        first = threading.Thread(target=lambda: book.change(with_row(b"user1", user_in(book, b"user1").mark, b"")))
        first.start()
        self.await_that("the hook began", Path("began").exists)
        begin = time.monotonic()
        with mock.patch.object(Book, "lock", functools.partialmethod(Book.lock, patience=1)):
            with self.assertRaisesRegex(Fault, "Locked: another change is being copied"):
                book.change(edit)
        self.assertLess(time.monotonic() - begin, 20, "it doesn't wait for the hook")
        self.assertIn("user2", rows(), "nothing is done")
        Path("over").touch()
        first.join()
        is_done, _ = book.change(edit)
        self.assertEqual((is_done, "user2" in rows()), (True, False), "and the lock is free again")

    def test_several_users_write_the_file(self) -> None:
        """Each user of the group writes a file that the group reads and writes, whoever owns it. Else the owner stays,
        or nothing is written."""
        for mode, is_taken in (0o660, True), (0o640, False), (0o600, False), (0o620, False):
            Path("users").chmod(mode)
            text = Path("users").read_bytes() + b"# mode %o\n" % mode
            for number in errno.EPERM, errno.EINVAL:
                file = UsersFile("users", create=False)
                assert file.before
                fields = list(file.before)
                fields[4] += 1
                file.before = os.stat_result(fields)
                with mock.patch("os.fchown", side_effect=OSError(number, "no")), \
                        mock.patch.object(file, "check_unchanged"):
                    if is_taken:
                        file.replace(text)
                    else:
                        with self.assertRaises(OSError):
                            file.replace(text)
                is_new = Path("users").read_bytes() == text
                self.assertEqual((is_new, os.stat("users").st_mode & 0o777), (is_taken, mode))

    def test_a_file_with_a_fault(self) -> None:
        """A pending file that has a fault by hand isn't copied."""
        book = self.book()
        book.set_mark()
        good, before = Path("users").read_text(), Path("copy").read_bytes()
        Path("users").write_text(good + "HOTP zoe - 30303\n")
        book.copy_pending()
        self.assertEqual((Path("copy").read_bytes() == before, book.pending() is not None), (True, True))
        self.assertIn("refuses the new file", book.said)
        Path("users").write_text(good)
        book.copy_pending()
        self.assertEqual((self.has_copy(), book.pending()), (True, None), "mended by hand")

    def test_a_slow_hook(self) -> None:
        """A hook that takes too long is ended with what it began, also if it takes no hint."""
        # Longer than the test waits for its end.
        for hook in ("sh -c 'sleep 300 & echo $! > began; wait'",
                     "sh -c 'trap \"\" TERM; sleep 300 & echo $! > began; sleep 300'"):
            book, begin = self.book(hook), time.monotonic()
            book.PATIENCE = 1
            is_done, said = book.copy()
            self.assertEqual((is_done, said), (False, "the hook was ended after 1 seconds"))
            self.assertLess(time.monotonic() - begin, 30)
            began = Path("began").read_text().strip()
            self.await_that("nothing of it runs", lambda: is_running(began), False)
