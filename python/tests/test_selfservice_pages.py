"""Tries the pages of the self-service without nodes and without a browser.

OATHD is the program, else ./oathd of the checkout.
"""
from __future__ import annotations

import re
import time
from pathlib import Path
from typing import TYPE_CHECKING, Any
from unittest import mock

from tests.cases import HAS_PACKAGES, OverSite

if TYPE_CHECKING or HAS_PACKAGES:
    from tests.fake_site import Browser, Killed, left, parts_of, secret_of
    from wakdulg_helpdesk.book import Book
    from wakdulg_helpdesk.keeping import Keeper
    from wakdulg_helpdesk.record import Record
    from wakdulg_helpdesk.sessions import Sessions
    from wakdulg_onboard.tokens import Fault, read_rows
    from wakdulg_selfservice import pages

USERS, WORD = ("ann", "bob"), "word-of-a-user"
real_time = time.time


class Site:
    """A self-service whose process may end and start again over the same files."""

    def __init__(self, tell: str | None = None) -> None:
        self.tell = tell
        self.next_codes: Any = None
        self.start()

    def start(self) -> None:
        """Starts the process: what an earlier one had in memory is gone."""
        keeper = Keeper("users", "self-service", 600)
        parts = parts_of(Sessions("self-service", 300, 600), keeper, self.tell)
        self.cluster: Any = parts.desk.cluster
        self.next_codes = self.cluster.next = self.next_codes or self.cluster.next
        self.application = pages.make_application(pages.Site(parts, ["resync", "replace"], 120.0))
        self.application.testing = True

    def log_in(self, name: str = "ann", browser: Browser | None = None) -> Browser:
        """Returns a browser in which somebody has logged in."""
        browser = browser or Browser(self.application)
        browser.application = self.application
        return browser.ask("/login").send("/login", user=name, password=WORD, code=self.cluster.code(name))

    def replace(self, browser: Browser, name: str = "ann", **more: str) -> Browser:
        """Sends the form by which a user replaces the phone."""
        fields = {"password": WORD, "code": self.cluster.code(name), **more}
        return browser.ask("/replace").send("/replace", **fields)


def outcomes(act: str = "replace") -> list[str]:
    """Returns the outcomes of an act in the record, the latest first."""
    return [line["outcome"] for line in Record("record").acts() if line["act"] == act]


class Pages(OverSite):
    def begin(self) -> None:
        super().begin()
        Path("staff").write_text("sam -\n")
        rows = ("HOTP %s %s %040x\n" % (name, WORD, number) for number, name in enumerate(USERS, 1))
        Path("users").write_text("".join(rows))

    def test_a_new_phone(self) -> None:
        """The new secret is shown until a code of the new phone confirms it, whatever goes wrong meanwhile."""
        site = Site()
        ann = site.log_in()
        self.assertEqual((site.replace(ann).place, secret_of("ann") in ann.page), ("/phone", False), "replaced")
        ann.ask("/phone")
        for what, fields in (("a wrong code", {"code": "999999", "password": WORD}),
                             ("a wrong password", {"code": site.cluster.code("ann"), "password": "wrong"})):
            ann.send("/phone", **fields)
            self.assertEqual((ann.status, ann.secret(), "<svg" in ann.page), (403, secret_of("ann"), True), what)
        self.assertEqual([ann.ask("/phone").secret() for _ in range(2)], [secret_of("ann")] * 2, "a reload")
        self.assertIn('href="/phone"', ann.ask("/").page, "the first page leads there")
        self.assertEqual(Browser(site.application).ask("/phone").place, "/login", "another browser")
        self.assertEqual(site.log_in("bob").ask("/phone").place, "/", "another user")
        site.log_in("bob", ann)
        self.assertEqual((ann.ask("/phone").place, 'href="/phone"' in ann.ask("/").page), ("/", False),
                         "in the same browser too")
        site.log_in("ann", ann)
        self.assertEqual(ann.ask("/phone").secret(), secret_of("ann"), "then the first one again")
        ann.ask("/phone").send("/phone", code=site.cluster.code("ann"), password=WORD)
        self.assertEqual((ann.status, "accepted a code of the new phone" in ann.page, left()), (200, True, []),
                         "confirmed")
        self.assertEqual(ann.ask("/phone").place, "/login", "and gone")
        done = [re.sub(r"after \d+ s", "after N s", outcome) for outcome in outcomes()]
        self.assertEqual(done[:2] + [done[-1][:8]],
                         ["the new phone is in use", "not confirmed after N s: PASSWORD", "replaced"], "the record")

    def test_a_session_alone(self) -> None:
        """A session replaces no phone without the password and the next code of the old one."""
        site = Site()
        ann, before = site.log_in(), secret_of("ann")
        for what, fields in (("neither", {"password": "", "code": ""}), ("no password", {"password": ""}),
                             ("a wrong password", {"password": "wrong"}), ("no code", {"code": ""}),
                             ("a wrong code", {"code": "999999"}), ("the code of the login", {"code": "000000"})):
            site.replace(ann, **fields)
            self.assertEqual((ann.status, secret_of("ann"), left()), (403, before, []), what)
        ann.ask("/replace").send("/replace")
        self.assertEqual((ann.status, secret_of("ann")), (403, before), "a form without both fields")
        site.replace(ann)
        self.assertEqual((ann.status, secret_of("ann") != before), (303, True), "else the trial shows nothing")

    def test_the_end_of_a_secret(self) -> None:
        """The secret is gone after a logout, after ten minutes, and when the helpdesk replaces the phone."""
        for what in "logout", "ten minutes", "another row":
            self.begin()
            site = Site()
            ann = site.log_in()
            site.replace(ann)
            if what == "logout":
                ann.ask("/").send("/logout")
            elif what == "another row":
                first = read_rows(Path("users").read_bytes())[0].secret.decode()
                Path("users").write_text(Path("users").read_text().replace(first, "%040x" % 77))
            with mock.patch("time.time", lambda: real_time() + 601 * (what == "ten minutes")):
                site.start()
                ann.application = site.application
                self.assertEqual((ann.ask("/phone").place, ann.secret()), ("/login", ""), what)

    def test_a_killed_replacement(self) -> None:
        """The process is killed in a replacement: the browser gets the secret again if the row has it."""
        site = Site()
        ann = Browser(site.application)
        for point, is_in in ("set_mark", False), ("copy", True):
            before = secret_of("ann")
            site.log_in(browser=ann)
            with mock.patch.object(Book, point, side_effect=Killed), self.assertRaises(Killed):
                site.replace(ann)
            site.start()
            ann.application = site.application
            self.assertEqual(secret_of("ann") != before, is_in, "the row, " + point)
            self.assertEqual(ann.ask("/phone").secret(), secret_of("ann") if is_in else "", "the page")
            self.assertEqual(ann.ask("/").place, "/login", "no session")
            self.assertEqual('href="/phone"' in ann.ask("/login").page, is_in, "the login leads there")
        self.assertEqual(Browser(site.application).ask("/phone").place, "/login", "another browser")
        stranger = Browser(site.application).ask("/login")
        self.assertEqual(stranger.send("/phone", code="0", password=WORD).place, "/login", "nor confirms it")
        ann.ask("/phone").send("/phone", code=site.cluster.code("ann"), password=WORD)
        self.assertEqual((ann.status, left()), (200, []), "confirmed")

    def test_a_full_disk(self) -> None:
        """A secret that can't be kept on the disk: nothing is done."""
        site, before = Site(), secret_of("ann")
        ann = site.log_in()
        with mock.patch("os.fsync", side_effect=OSError("no room")):
            site.replace(ann)
        said = "could not be kept" in ann.alert()
        self.assertEqual((ann.status, said, secret_of("ann"), left()), (503, True, before, []), "nothing")

    def test_words_of_faults(self) -> None:
        """A user learns what to do, and the word that the helpdesk knows."""
        site = Site()
        ann = site.log_in()
        for name, todo in ("Locked", "the site is busy. Try again in a minute"), ("Protected", "ask your helpdesk"):
            with mock.patch("wakdulg_helpdesk.acts.Desk.replace", side_effect=Fault("the file", name, "words")):
                site.replace(ann)
            self.assertEqual((ann.status, ann.alert()), (409, "Nothing was done: %s (%s)" % (todo, name)))

    def test_three_phones_a_day(self) -> None:
        """Three phones a day, also over restarts. What was refused doesn't count, and the fourth costs no code."""
        site = Site()
        ann = site.log_in()
        for _ in range(4):
            site.replace(ann, code="999999")
        for number in range(3):
            site.replace(ann)
            self.assertEqual(ann.place, "/phone", "phone %d" % (number + 1))
            site.start()
            ann = site.log_in()
        asked = site.cluster.asked
        site.replace(ann)
        self.assertEqual((ann.status, "3 times within a day" in ann.alert(), site.cluster.asked), (429, True, asked),
                         "the fourth")
        bob = site.log_in("bob")
        self.assertEqual(site.replace(bob, "bob").place, "/phone", "of another user")
        with mock.patch("time.time", lambda: real_time() + 24 * 3600 + 1):
            self.assertEqual(site.replace(site.log_in()).place, "/phone", "after a day")

    def test_the_hook_that_tells_users(self) -> None:
        """A hook tells the user of the new phone. The record has its failure."""
        Path("hook").write_text("#!/bin/sh\ncat > told\n[ ! -e fail ] || { echo no mail; exit 1; }\n")
        Path("hook").chmod(0o755)
        site = Site(tell="./hook")
        ann = site.log_in()
        site.replace(ann)

        def text() -> str:
            return Path("told").read_text() if Path("told").exists() else ""
        self.await_that("two lines", lambda: text().count("\n"), 2)
        name, what = text().splitlines()
        self.assertEqual(name, "ann")
        self.assertTrue(what.startswith("Your phone was replaced at 20"))
        self.assertTrue(what.endswith(" UTC on the page for users, from the address 192.0.2.9."))
        self.assertNotIn(secret_of("ann"), text(), "no secret")
        Path("fail").touch()
        site.replace(ann)
        self.await_that("the record has the failure", lambda: outcomes("tell"),
                        ["failed: the user isn't told: no mail"])
        self.assertEqual(ann.place, "/phone", "the phone is replaced")

    def test_the_next_login(self) -> None:
        """The next login says that the phone was replaced, once, and by whom."""
        site = Site()
        ann = site.log_in()
        self.assertNotIn("replaced at", ann.ask("/").page, "nothing at first")
        site.replace(ann)
        ann.ask("/phone").send("/phone", code=site.cluster.code("ann"), password=WORD)
        page = site.log_in(browser=ann).ask("/").text()
        self.assertIn("UTC on this page, from the address 192.0.2.9. If that was neither", page, "after one of her own")
        self.assertNotIn("replaced at", ann.ask("/").page + site.log_in().ask("/").page, "once")
        record = Record("record")
        begun = record.write("sam", "replace", "ann", "begins", "192.0.2.1")
        done = "replaced the token (a kind); copied to the members"
        record.write("sam", "replace", "ann", done, "192.0.2.1", of=begun)
        record.write("sam", "replace", "bob", "refused: the second code", "192.0.2.1")
        page = site.log_in().ask("/").text()
        told = "UTC by your helpdesk. If that was" in page, "192.0.2.1" in page
        self.assertEqual(told, (True, False), "after one by the helpdesk")
        self.assertNotIn("replaced at", site.log_in("bob").ask("/").page, "after one that was refused")

    def test_a_record_of_its_own(self) -> None:
        """The next login tells of a phone that the helpdesk gave, of which the record of this site has nothing."""
        site = Site()
        site.log_in()
        text = Path("users").read_text()
        Path("users").write_text(text.replace("%040x" % 1, "%040x" % 77))
        page = site.log_in().ask("/").text()
        told = "Your helpdesk gave you another phone after 20" in page, "replaced at" in page
        self.assertEqual(told, (True, False), "after a login")
        self.assertNotIn("another phone", site.log_in().ask("/").page + site.log_in("bob").ask("/").page, "once")
        ann = site.log_in()
        site.replace(ann)
        ann.ask("/phone").send("/phone", code=site.cluster.code("ann"), password=WORD)
        text = Path("users").read_text()
        Path("users").write_text("HOTP ann %s %040x\n%s\n" % (WORD, 78, text.splitlines()[1]))
        page = site.log_in().ask("/").text()
        self.assertIn("Your helpdesk gave you another phone after 20", page, "after a replacement here")
        with mock.patch.object(Book, "set_mark", side_effect=Killed), self.assertRaises(Killed):
            site.replace(site.log_in())
        site.start()
        self.assertNotIn("helpdesk gave", site.log_in().ask("/").page, "after a replacement that did not come about")
