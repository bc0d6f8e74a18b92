"""Tries the pages of the helpdesk without nodes and without a browser.

OATHD is the program, else ./oathd of the checkout.
"""
from __future__ import annotations

import base64
import csv
import html
import io
import json
import os
import re
import shutil
import subprocess
import time
import unittest
from importlib.util import find_spec
from pathlib import Path
from types import SimpleNamespace
from typing import TYPE_CHECKING, Any, Callable
from unittest import mock
from urllib.parse import urljoin, urlsplit

from tests.cases import HAS_PACKAGES, OverSite

HAS_ARGON2 = find_spec("argon2") is not None
if TYPE_CHECKING or HAS_PACKAGES and HAS_ARGON2:
    import argon2
    import flask

    import wakdulg
    from tests.fake_site import ORIGIN, Browser, Killed, Table, left, parts_of, secret_of
    from wakdulg_helpdesk import pages, web
    from wakdulg_helpdesk.book import Book
    from wakdulg_helpdesk.keeping import Keeper
    from wakdulg_helpdesk.members import Gate, Logs, State
    from wakdulg_helpdesk.naming import Row
    from wakdulg_helpdesk.record import Record, check
    from wakdulg_helpdesk.sessions import Sessions
    from wakdulg_helpdesk.staff import check_staff, hashes_of, names_of

    PASSWORD = "a word of staff"
    # It costs less than one of staff-line: the parameters of a check are those of the hash.
    HASH = argon2.PasswordHasher(time_cost=1, memory_cost=8, parallelism=1).hash(PASSWORD)

STAFF, USERS = ("sam", "kim"), ("ann", "bob", "cid")
# Runs a script of pages over a search that somebody types a text into, and prints what its parts have afterwards.
TYPED = """
const [script, text, answer] = process.argv.slice(1), parts = {};
function made() {
    return {dataset: {}, on: {}, append() {}, replaceChildren(...all) { this.all = all; },
            addEventListener(kind, call) { this.on[kind] = call; }};
}
for (const id of ["q", "count", "results", "pager", "former", "next"]) parts[id] = made();
globalThis.document = {createElement: made, getElementById: (id) => parts[id] ?? null};
let asked;
globalThis.fetch = async (path) => {
    asked = path;
    return {ok: true, status: 200, json: async () => JSON.parse(answer)};
};
require(script);
parts.q.value = text;
parts.q.on.input();
const link = (id) => [parts[id].href, parts[id].hidden];
setTimeout(() => console.log(JSON.stringify({asked, count: parts.count.textContent, results: parts.results.all.length,
    pager: parts.pager.hidden, former: link("former"), next: link("next")})), 300);
"""
# Runs a script of pages over lists of users in a part of a page, and prints where the focus is after each key.
WALKED = """
const [script, part, ...keys] = process.argv.slice(1), called = {}, document = globalThis.document = {};
const made = (name) => ({name, focus() { document.activeElement = this; },
                         addEventListener(kind, call) { called[name + " " + kind] = call; }});
const parts = {[part]: {...made(part), querySelectorAll: () => links}}, links = ["ann", "bob"].map(made);
if (part === "results") parts.q = made("q");
document.getElementById = (id) => parts[id] ?? null;
require(script);
(parts.q ?? links[0]).focus();
for (const key of keys) {
    let isTaken = false;
    const event = {key: key.replace("^", ""), ctrlKey: key.startsWith("^"), preventDefault() { isTaken = true; }};
    called[(document.activeElement === parts.q ? "q" : part) + " keydown"](event);
    console.log(document.activeElement.name, isTaken);
}
"""
WAITING = 'href="(/waiting/[^"]*)"'
real_time = time.time


class Site:
    """A helpdesk whose process may end and start again over the same files."""

    def __init__(self, most_acts: int = 60, is_of_two: bool = False) -> None:
        self.most_acts, self.is_of_two = most_acts, is_of_two
        self.next_codes: Any = None
        self.start()

    def start(self) -> None:
        """Starts the process: what an earlier one had in memory is gone."""
        self.keeper = Keeper("users", "helpdesk", 3600)
        parts = parts_of(Sessions("helpdesk", 900, 14400), self.keeper)
        self.desk: Any = parts.desk
        self.cluster, self.members = self.desk.cluster, self.desk.members
        self.next_codes = self.cluster.next = self.next_codes or self.cluster.next
        table: Any = Table()
        site = pages.Site(parts, self.members, table, Logs({1: "log.1"}), "staff", self.most_acts, self.is_of_two)
        self.application = pages.make_application(site)
        self.application.testing = True

    def log_in(self, name: str = "sam", browser: Browser | None = None) -> Browser:
        """Returns a browser in which somebody has logged in."""
        browser = browser or Browser(self.application)
        browser.application = self.application
        browser.ask("/login")
        return browser.send("/login", user=name, password=PASSWORD, code=self.cluster.code(name))

    def code(self, name: str = "sam") -> str:
        """Returns the next code of a member of staff."""
        code: str = self.cluster.code(name)
        return code

    def act(self, browser: Browser, name: str, act: str, who: str = "sam", **fields: str) -> Browser:
        """Sends the form of an act on a user."""
        browser.ask(place(name, act))
        return browser.send(place(name, act), code=self.code(who), **fields)


def place(name: str, act: str = "") -> str:
    return "/users/" + name.encode().hex() + ("/" + act if act else "")


def rows_of(*names: str) -> str:
    """Returns the text of a users file with a row for each name."""
    return "".join("HOTP %s - %040x\n" % (name, number) for number, name in enumerate(names, 1))


def outcomes() -> list[str]:
    """Returns the outcomes of the record, the latest first."""
    return [line["outcome"] for _, line in Record("record").lines()]


def kill_at(owner: type, name: str, call: Callable[[], object]) -> None:
    """Makes a call in which the process is killed at a method: at the second call of `check`, of which the first one is
    for the try that writes nothing, and at the first call of another one."""
    real, calls = getattr(owner, name), [0]

    def kill(*words: Any, **more: Any) -> Any:
        calls[0] += 1
        if calls[0] > (name == "check"):
            raise Killed
        return real(*words, **more)
    try:
        with mock.patch.object(owner, name, kill):
            call()
    except Killed:
        return
    raise AssertionError("not killed")


def listed(page: str, name: str) -> list[str]:
    """Returns the names of a list of the page Cluster."""
    part = re.search('<ul id="%s">(.*?)</ul>' % name, page, re.DOTALL)
    return re.findall('<a href="[^"]*">([^<]*)', part[1]) if part else []


@unittest.skipUnless(HAS_ARGON2, "needs python3-argon2")
class Case(OverSite):
    def begin(self) -> None:
        super().begin()
        Path("staff").write_text("".join("%s %s\n" % (name, HASH) for name in STAFF))
        Path("users").write_text(rows_of(*STAFF, *USERS))


class Secrets(Case):
    def test_a_new_secret(self) -> None:
        """A new secret is shown until staff say that the phone has it."""
        site = Site()
        sam = site.log_in()
        site.act(sam, "ann", "replace", kind="")
        self.assertEqual(sam.place, place("ann", "secret"), "where it is shown")
        self.assertEqual([sam.ask(place("ann", "secret")).secret() for _ in range(2)], [secret_of("ann")] * 2,
                         "the row's")
        self.assertIn(place("ann", "secret"), sam.ask("/").page, "each page leads there")
        data = b"".join(Path(each).read_bytes() for each in left())
        raw = base64.b32decode(secret_of("ann"))
        self.assertEqual((raw in data, secret_of("ann").encode() in data, len(left())), (False, False, 1),
                         "the file doesn't show it")
        self.assertEqual(os.stat(left()[0]).st_mode & 0o777, 0o600, "its mode")
        kim = site.log_in("kim")
        self.assertEqual(kim.ask(place("ann", "secret")).secret(), "", "another one of staff doesn't see it")
        other = site.log_in()
        self.assertEqual(other.ask(place("ann", "secret")).secret(), "", "nor the same one in another browser")
        sam.ask(place("ann", "secret")).send(place("ann", "seen"))
        self.assertEqual((sam.place, left(), sam.ask(place("ann", "secret")).secret()), (place("ann"), [], ""),
                         "confirmed")
        site.act(sam, "bob", "replace", kind="")
        site.start()
        site.log_in("kim", sam)
        told = sam.ask(place("bob", "secret")).secret(), "The new phone of" in sam.ask("/").page, len(left())
        self.assertEqual(told, ("", False, 1), "another one of staff in the same browser")
        site.log_in("sam", sam)
        self.assertEqual(sam.ask(place("bob", "secret")).secret(), secret_of("bob"), "then the first one again")
        sam.ask("/").send("/logout")
        self.assertEqual(left(), [], "log out")
        site.act(site.log_in(), "cid", "replace", kind="")
        past = time.time() - 3601
        os.utime(left()[0], (past, past))
        site.start()
        site.keeper.remove_old()
        self.assertEqual(left(), [], "after an hour")

    def test_a_killed_act(self) -> None:
        """The process is killed at each point of an act: what holds is told, and a secret that is in force is shown."""
        site = Site()
        points: list[tuple[type, str, bool, str]] = [
            (Record, "write", False, ""), (Book, "check", False, "hasn&#39;t the new row"),
            (Book, "set_mark", False, "hasn&#39;t the new row"), (Book, "copy", True, "has the new row")]
        for owner, point, is_in, words in points:
            for name, act, fields in (("ann", "replace", {"kind": ""}),
                                      ("new", "enrol", {"name": "new", "kind": "hotp"})):
                before, sam = secret_of(name), site.log_in()
                path = "/enrol" if act == "enrol" else place(name, act)
                sam.ask(path)
                kill_at(owner, point, lambda: sam.send(path, code=site.code(), **fields))
                self.assertEqual(secret_of(name) != before, is_in, "%s at %s: the row" % (act, point))
                site.start()
                site.log_in(browser=sam)
                page = sam.ask(place(name)).page
                if words:
                    self.assertIn("its end isn&#39;t known: the users file " + words, sam.ask("/record").page)
                if words and (is_in or act == "replace"):
                    self.assertIn(words, page)
                self.assertEqual(sam.ask(place(name, "secret")).secret(), secret_of(name) if is_in else "",
                                 "the secret")
                if is_in:
                    sam.send(place(name, "seen"))
                    told = ['class="fault unfinished"' in text for text in (page, sam.ask(place(name)).page)]
                    self.assertEqual(told, [True, False], "until the phone has it")
                Path("record").unlink()
                site.start()
                if is_in and act == "enrol":
                    site.log_in(browser=sam)
                    site.act(sam, "new", "retire")

    def test_a_killed_retirement(self) -> None:
        """A retirement that is killed before and after the edit."""
        site = Site()
        for point, words in ("set_mark", "still has the row"), ("copy", "hasn&#39;t the row"):
            sam = site.log_in()
            sam.ask(place("bob", "retire"))
            kill_at(Book, point, lambda: sam.send(place("bob", "retire"), code=site.code()))
            site.start()
            site.log_in(browser=sam)
            page = sam.ask(sam.ask(place("bob", "retired")).place or place("bob", "retired")).page
            self.assertIn("the users file " + words, page, point)

    def test_a_full_disk(self) -> None:
        """If a secret can't be kept on the disk, nothing is begun. It is shown if the record fails later."""
        site = Site()
        sam, before = site.log_in(), secret_of("ann")
        with mock.patch("os.fsync", side_effect=OSError("no room")):
            site.act(sam, "ann", "replace", kind="")
        self.assertEqual((sam.status, "could not be kept" in sam.alert(), secret_of("ann"), left()),
                         (503, True, before, []), "nothing is begun")
        self.assertNotIn("begins", outcomes(), "nor noted")
        real = Record.write

        def write(self: Record, who: str, act: str, user: str, outcome: str, *words: str, **more: str) -> str:
            if outcome.startswith("replaced"):
                raise OSError("no room")
            return real(self, who, act, user, outcome, *words, **more)
        with mock.patch.object(Record, "write", write):
            site.act(sam, "ann", "replace", kind="")
        self.assertEqual(sam.ask(place("ann", "secret")).secret(), secret_of("ann"), "the secret is shown")
        site.start()
        site.log_in(browser=sam)
        self.assertEqual(sam.ask(place("ann", "secret")).secret(), secret_of("ann"), "also after a restart")
        told = "its end isn&#39;t known: the users file has the new row" in sam.ask(place("ann")).page
        self.assertTrue(told, "and the record tells")
        fault = mock.patch("wakdulg_onboard.users_file.sync_folder", side_effect=OSError("a fault"))
        with mock.patch("wakdulg_helpdesk.book.sync_folder"), fault:
            site.act(sam, "bob", "replace", kind="")
        self.assertIn("The users file is changed", sam.alert(), "a fault after the change")
        self.assertEqual(sam.ask(place("bob", "secret")).secret(), secret_of("bob"), "its secret")


class Staff(Case):
    def test_roles(self) -> None:
        """What each role may do. Whoever may not is refused before a code is asked for."""
        Path("staff").write_text("".join("%s %s %s\n" % (name, HASH, role) for name, role in (
            ("sam", "look"), ("kim", "unlock"), ("lou", "enrol"), ("max", "all"), ("old", ""))))
        site, table = Site(), {"unlock": "kim lou max old", "resync": "kim lou max old", "replace": "lou max old",
                               "retire": "lou max old", "enrol": "lou max old", "import": "max old"}
        Path("users").write_text(rows_of("sam", "kim", "lou", "max", "old", "ann"))
        for name in ("sam", "kim", "lou", "max", "old"):
            browser = site.log_in(name)
            page = browser.ask(place("ann")).page
            for act, who in table.items():
                path, may = "/" + act if act in ("enrol", "import") else place("ann", act), name in who.split()
                self.assertEqual(browser.ask(path).status, 200 if may else 403, "%s: the form of %s" % (name, act))
                linked = 'href="%s"' % path in (page if act not in ("enrol", "import") else browser.ask("/").page)
                self.assertEqual(linked, may, "and its link")
                asked = site.cluster.asked
                if not may:
                    browser.ask("/record").send(path, code=site.code(name), seen="0", name="x", kind="hotp")
                    self.assertEqual((browser.status, site.cluster.asked, outcomes()[0]),
                                     (403, asked, "refused: no right"), "a form that is sent")
            self.assertEqual([browser.ask(path).status for path in ("/", "/cluster", "/record", place("ann"))],
                             [200] * 4, "all look")
        site.act(site.log_in("lou"), "ann", "replace", "lou", kind="")
        self.assertTrue(outcomes()[0].startswith("replaced"), "lou replaces")

    def test_the_file_of_staff(self) -> None:
        """The file of staff: roles, and what is refused at the start."""
        Path("staff").write_text("sam %s\nkim %s look\n" % (HASH, HASH))
        check_staff("staff")
        for text, fault in (("sam %s boss\nkim %s\n", "no role of look, unlock, enrol, all"),
                            ("sam\n", "no password: make it by staff-line NAME"), ("sam abc all\n", "no password")):
            Path("staff").write_text(text.replace("%s", HASH))
            with self.assertRaisesRegex(ValueError, fault):
                check_staff("staff")
        Path("staff").write_text("sam %s boss\nkim %s unlock\n" % (HASH, HASH))
        self.assertEqual((hashes_of("staff").keys(), names_of("staff")), ({"kim"}, {"sam", "kim"}),
                         "a wrong role logs nobody in")
        Path("staff").write_text("sam %s\nkim %s enrol\n" % (HASH, HASH))
        with self.assertRaisesRegex(ValueError, "fewer than 2"):
            check_staff("staff", 2)

    def test_two_of_staff(self) -> None:
        """Two of staff replace a phone: one asks, another one confirms, and the first one has the secret."""
        site, before = Site(is_of_two=True), secret_of("ann")
        sam, kim = site.log_in(), site.log_in("kim")
        site.act(sam, "ann", "replace", kind="")
        self.assertEqual((sam.place, secret_of("ann")), ("/waiting", before), "nothing is done")
        self.assertEqual(outcomes()[0], "asks another one of staff", "and the record says so")
        self.assertIn("asked for by sam. It waits for", sam.ask(place("ann")).text())
        self.assertEqual(sam.ask(place("ann", "secret")).secret(), "", "and no secret")
        path = kim.ask("/waiting").find(WAITING)
        self.assertNotIn("<button>Confirm", sam.ask(path).page, "the first one has no form")
        asked = site.cluster.asked
        sam.send(path, code=site.code())
        self.assertEqual((sam.status, site.cluster.asked, secret_of("ann")), (403, asked, before), "and is refused")
        kim.ask(path).send(path, code="999999")
        self.assertEqual((kim.status, secret_of("ann")), (403, before), "a wrong code")
        sam = site.log_in(browser=sam)
        kim.ask(path).send(path, code=site.code("kim"))
        self.assertEqual((kim.status, kim.place, secret_of("ann") != before), (303, place("ann"), True), "confirmed")
        self.assertEqual(kim.ask(place("ann", "secret")).secret(), "", "the second one sees no secret")
        self.assertEqual(sam.ask(place("ann", "secret")).secret(), secret_of("ann"),
                         "the first one does, also after a new login")
        last = next(Record("record").acts())
        self.assertEqual((last["who"], last["asked"], last["outcome"][:8]), ("kim", "sam", "replaced"),
                         "the record has both")
        self.assertEqual(kim.send(path, code=site.code("kim")).status, 404, "a second time")

    def test_a_retired_name_takes_two(self) -> None:
        """To retire a user and to enrol the name again is a replacement: it takes two as well."""
        site = Site(is_of_two=True)
        sam, kim = site.log_in(), site.log_in("kim")
        sam.ask("/enrol").send("/enrol", name="new", kind="hotp", code=site.code())
        self.assertEqual((sam.place, secret_of("new") != ""), (place("new", "secret"), True), "a new name")
        site.act(sam, "ann", "retire")
        sam.ask("/enrol").send("/enrol", name="ann", kind="hotp", code=site.code())
        self.assertEqual((sam.place, secret_of("ann")), ("/waiting", ""), "one who was retired")
        path = kim.ask("/waiting").find(WAITING)
        kim.ask(path).send(path, code=site.code("kim"))
        self.assertEqual((kim.status, sam.ask(place("ann", "secret")).secret()), (303, secret_of("ann")), "confirmed")

    def test_what_waits_ends(self) -> None:
        """What waits ends: after an hour, after a change of the row, with the right or the secret of the first one."""
        for what, status in (("an hour", 404), ("another row", 409), ("no right", 403), ("logged out", 409),
                             ("a restart", 404)):
            self.begin()
            site = Site(is_of_two=True)
            sam, kim, before = site.log_in(), site.log_in("kim"), secret_of("ann")
            site.act(sam, "ann", "replace", kind="")
            path = kim.ask("/waiting").find(WAITING)
            kim.ask(path)
            with mock.patch("time.time", lambda: real_time() + 3601 * (what == "an hour")):
                if what == "another row":
                    Path("users").write_text(Path("users").read_text().replace("%040x" % 3, "%040x" % 33))
                    before = secret_of("ann")
                elif what == "no right":
                    Path("staff").write_text("sam %s unlock\nkim %s\n" % (HASH, HASH))
                elif what == "logged out":
                    sam.ask("/").send("/logout")
                elif what == "a restart":
                    site.start()
                    kim = site.log_in("kim", kim)
                kim.ask("/waiting").send(path, code=site.code("kim"))
            self.assertEqual((kim.status, secret_of("ann")), (status, before), what)

    def test_an_import_of_two(self) -> None:
        """An import of two: the second one sees its rows."""
        site, rows = Site(is_of_two=True), "user,secret,type\nhal,%040x,HOTP\nida,%040x,TOTP\n" % (91, 92)
        sam, kim = site.log_in(), site.log_in("kim")
        sam.ask("/import").send("/import", file=(io.BytesIO(rows.encode()), "list.csv"), secrets="hex")
        path = sam.place
        sam.ask(path).send(path, code=site.code())
        self.assertEqual((sam.place, secret_of("hal")), ("/waiting", ""), "asked for")
        path = kim.ask("/waiting").find(WAITING)
        self.assertEqual(re.findall('scope="row">([^<]*)', kim.ask(path).page), ["hal", "ida"], "its rows")
        kim.send(path, code=site.code("kim"))
        self.assertEqual((kim.place, secret_of("hal") != "", secret_of("ida") != ""), ("/", True, True), "confirmed")

    def test_acts_an_hour(self) -> None:
        """How many acts one of staff begins within an hour. A restart forgets none, and a refusal costs no code."""
        site = Site(most_acts=3)
        sam, kim = site.log_in(), site.log_in("kim")
        for name in USERS:
            site.act(sam, name, "unlock")
        site.act(sam, "ann", "unlock")
        asked = site.cluster.asked
        site.act(sam, "ann", "unlock")
        said = "You began 3 acts within an hour. The next one is" in sam.alert()
        self.assertEqual((sam.status, site.cluster.asked, said), (429, asked, True), "the fourth")
        site.act(kim, "ann", "unlock", "kim")
        self.assertEqual(kim.status, 303, "of another one")
        site.start()
        sam = site.log_in()
        self.assertEqual(site.act(sam, "ann", "unlock").status, 429, "after a restart")
        with mock.patch("time.time", lambda: real_time() + 3601):
            self.assertEqual(site.act(sam, "ann", "unlock").status, 303, "after an hour")


class Logins(Case):
    def test_the_next_code(self) -> None:
        """A form says when the next code of a time token is shown."""
        Path("users").write_text(Path("users").read_text().replace("HOTP sam", "HOTP/T30 sam"))
        site = Site()
        now = 1_800_000_007
        with mock.patch("time.time", lambda: now):
            site.cluster.factors["sam"] = now // 30
            sam = site.log_in()
            self.assertIn("The next one comes in 23 s, at 2027-01-15 08:00:30 UTC.",
                          sam.ask(place("ann", "unlock")).text(), "after a login")
            now += 23
            self.assertNotIn("Your last code", sam.ask(place("ann", "unlock")).page, "later")
            site.cluster.factors["sam"] = now // 30 + 1
            site.act(sam, "ann", "unlock")
            self.assertIn("comes in 60 s", sam.ask("/enrol").text(), "after an act, of a phone that is ahead")
            kim = site.log_in("kim")
            self.assertNotIn("Your last code", kim.ask("/enrol").page, "a device that counts")

    def test_deep_links(self) -> None:
        """A login leads to the page that was asked for, and to no other site."""
        site = Site()
        for path in place("ann"), place("ann", "unlock"), "/record?user=an&act=unlock", "/?q=%C3%A4b":
            browser = Browser(site.application).ask(path)
            self.assertTrue(browser.place.startswith("/login?next="), "from " + path)
            browser.ask(browser.place).send("/login", user="sam", password="wrong", code="0")
            browser.send("/login", user="sam", password=PASSWORD, code=site.code())
            self.assertEqual(browser.place, path, "also after a wrong password")
        self.assertEqual(Browser(site.application).ask("/").place, "/login", "from the start")
        for path in ("//evil.example", "https://evil.example/", "/\\evil.example", "/\t/evil.example", "\\evil",
                     "javascript:alert(1)", "/%0d%0aSet-Cookie:x=y", "/x\r\nSet-Cookie: x=y", "evil.example",
                     "///evil.example", "/.//evil.example", "/@evil", "/" + "a" * 1000, "/users/<b>", "http:evil"):
            browser = Browser(site.application).ask("/login")
            browser.send("/login", user="sam", password=PASSWORD, code=site.code(), next=path)
            where = urlsplit(urljoin(ORIGIN + "/login", browser.place))
            self.assertEqual((browser.status, where.scheme, where.netloc, browser.place in ("/", path)),
                             (303, "https", "helpdesk.example", True), repr(path[:30]))
        told = Browser(site.application).ask("/login?next=//evil.example").page
        self.assertNotIn("evil", told, "no form leads elsewhere")

    def test_refused_logins(self) -> None:
        """Failed logins are in the record: by the names of staff alone."""
        site = Site()
        browser = Browser(site.application)
        for user, password, code in (("sam", "wrong", "000000"), ("sam", PASSWORD, "999999"),
                                     ("my own password", "x", "0")):
            browser.ask("/login").send("/login", user=user, password=password, code=code)
        told = [(line["who"], line["act"], line["outcome"], line["from"]) for line in Record("record").acts()]
        wanted = [("", "not staff"), ("sam", "INVALID"), ("sam", "not a password")]
        self.assertEqual(told, [(who, "log in", "refused: " + why, "192.0.2.9") for who, why in wanted])
        self.assertNotIn("my own", Path("record").read_text(), "no name that may be a password")

    def test_the_log_of_logins(self) -> None:
        """The log has the names of staff alone: another one may be a password in the wrong field."""
        browser = Browser(Site().application)
        with self.assertLogs("trial", "INFO") as log:
            for user in "my own password", "ann", "sam":
                browser.ask("/login").send("/login", user=user, password=PASSWORD, code="999999")
        told = [line.split("from=")[1] for line in log.output]
        wanted = ['not staff user=""', 'not staff user=""', 'INVALID user="sam"']
        self.assertEqual(told, ["192.0.2.9 " + line for line in wanted])


class Pages(Case):
    def test_the_verdict_and_the_lists(self) -> None:
        """The verdict stands first on a user's page, and the page Cluster has three lists."""
        site = Site()
        sam = site.log_in()
        first = r'<h1>[^<]*</h1>\s*<p id="verdict"[^>]*class="verdict (\w+">[^<]*)'
        self.assertEqual(sam.ask(place("ann")).find(first), 'can">Can log in.')
        now = int(time.time())
        site.members.told["ann"] = [State(number, "yes", True, 0, 1, now + 60 * number) for number in (2, 3)]
        self.assertTrue(sam.ask(place("ann")).find(first).startswith('locked">'))
        site.members.told["zoe"] = [State(1, "no", True), State(2, "another"), State(3, "another")]
        self.assertTrue(sam.ask(place("zoe", "retired")).find(first).startswith('pending">'))
        self.assertIn('data-word="locked"', sam.ask(place("ann", "states")).page, "a part of the page has it")
        for member in site.members.all:
            member.rows = {user.name: Row(0, user.token, int(user.name == b"bob"), user.name)
                           for user in site.desk.book.users.values() if (member.number, user.text) != (2, "cid")}
        site.members.all[2].shut = [Gate(b"ann", 3, now + 100), Gate(b"bob", 1, now - 1)]
        for gone in (b"zoe", b"\xff"):
            site.members.all[0].rows[gone] = Row(9, gone, 0, gone)
        page = sam.ask("/cluster").page
        self.assertEqual([listed(page, name) for name in ("locked", "lacking", "unused")],
                         [["ann"], ["cid", "zoe", "\ufffd"], ["ann", "cid", "kim", "sam"]], "the lists")
        self.assertIn('<a href="%s">cid</a>' % place("cid"), page, "with links")
        for path in place("zoe", "retired"), "/users/ff/retired":
            self.assertIn('<a href="%s">' % path, page, "to the page of one without a row")
            self.assertEqual(sam.ask(path).status, 200, "which is there")
        self.assertIn('<span id="moment">00:00:00 UTC</span>', page, "the moment of the table")
        self.assertEqual((sam.ask("/cluster/lists").status, site.members.all[0].read), (200, 1),
                         "they are kept for some seconds")
        self.assertEqual(Browser(site.application).ask("/cluster/lists").status, 401, "without a session")

    def test_the_page_record(self) -> None:
        """The page Record: a filter by user, staff and act, and an export for a spreadsheet."""
        Path("users").write_text(Path("users").read_text() + "HOTP =1+1 - %040x\n" % 77)
        site = Site()
        sam, kim = site.log_in(), site.log_in("kim")
        for browser, who, user, act in ((sam, "sam", "ann", "unlock"), (kim, "kim", "ann", "retire"),
                                        (sam, "sam", "bob", "unlock"), (kim, "kim", "=1+1", "unlock")):
            site.act(browser, user, act, who)
        for query, wanted in (("user=AN", ["kim retire ann", "sam unlock ann"]),
                              ("who=sa&act=unlock", ["sam unlock bob", "sam unlock ann"]),
                              ("act=retire&user=bob", []), ("who=kim&act=log+in", ["kim log in "])):
            row = "<tr><td>[^<]*</td><td>([^<]*)</td><td>([^<]*)</td>\\s*<td>([^<]*)"
            rows = re.findall(row, sam.ask("/record?" + query).page)
            self.assertEqual([" ".join(row) for row in rows], wanted, query)
            lines = list(csv.DictReader(io.StringIO(sam.ask("/record.csv?" + query).page)))
            self.assertEqual([" ".join((line["who"], line["act"], line["user"])) for line in lines], wanted, "exported")
        lines = list(csv.DictReader(io.StringIO(sam.ask("/record.csv?user==1").page)))
        self.assertEqual((lines[0]["user"], lines[0]["from"]), ("'=1+1", "192.0.2.9"), "no formula")
        self.assertEqual(sam.head["Content-Disposition"], "attachment; filename=record.csv", "as a file")
        page = sam.ask("/record?user=an").page
        self.assertIn('href="/record.csv?user=an&amp;who=&amp;act="', page, "the export keeps the filter")
        self.assertEqual(Browser(site.application).ask("/record.csv").status, 303, "without a session")

    def test_faults_that_cost_no_code(self) -> None:
        """What can be refused without the cluster costs no code."""
        site = Site()
        sam = site.log_in()
        asked = site.cluster.asked
        cases: list[tuple[str, dict[str, str], str]] = [
            ("/enrol", {"name": "", "kind": "hotp"}, "NoName"), ("/enrol", {"name": "new"}, "BadType"),
            ("/enrol", {"name": "n ew", "kind": "hotp"}, "a name has no blanks: 'n ew'. Choose another name (BadName)"),
            ("/enrol", {"name": "ann", "kind": "totp"}, "DuplicateUser"),
            ("/enrol", {"name": "kim", "kind": "totp"}, "Protected"),
            ("/enrol", {"name": "x" * 65, "kind": "totp"}, "NameTooLong"),
            (place("kim", "replace"), {"kind": ""}, "Ask whoever runs this site (Protected)"),
            (place("kim", "retire"), {}, "Protected"),
            (place("ann", "replace"), {"kind": "other"}, "BadType"),
            (place("ann", "resync"), {"first": "12", "second": "000002"}, "BadCode"),
            (place("ann", "resync"), {"first": "000001", "second": "000001"}, "SameCode")]
        for path, fields, fault in cases:
            sam.ask(path).send(path, code=site.code(), **fields)
            told = sam.status, fault in html.unescape(sam.alert()), "your code is good still" in sam.alert()
            self.assertEqual(told, (409, True, True), "%s: %s" % (path.rpartition("/")[2], fault))
        Path("users").write_text(Path("users").read_text() + "HOTP bad - 1\n")
        site.act(sam, "ann", "retire")
        self.assertEqual((sam.status, "refuses the new file" in sam.alert()), (409, True), "a users file with a fault")
        self.assertEqual((site.cluster.asked, "begins" in outcomes()), (asked, False),
                         "no code was asked for, and nothing begun")
        sam.ask("/enrol").send("/enrol", name="n ew", kind="hotp")
        kept = 'value="n ew"' in sam.page, 'value="hotp" checked' in sam.page
        self.assertEqual(kept, (True, True), "the form keeps what was typed")

    def test_a_search(self) -> None:
        """Names are in the order of their numbers. A name that nobody has leads to its enrolment, for who may do it."""
        Path("users").write_text(rows_of(*STAFF, "user10", "user2", "User1", "user", "z"))
        Path("staff").write_text("sam %s all\nkim %s look\n" % (HASH, HASH))
        site = Site()
        sam, kim = site.log_in(), site.log_in("kim")
        names = re.findall(r'<li><a href="/users/[^"]*">([^<]*)', sam.ask("/?q=user").page)
        self.assertEqual(names, ["user", "User1", "user2", "user10"])
        shown = 'id="enrol"><a href="/enrol?name=new%20one"'
        self.assertIn(shown, sam.ask("/?q=new+one").page)
        self.assertIn('value="new one"', sam.ask("/enrol?name=new%20one").page)
        for browser, path in (sam, "/?q=user"), (sam, "/"), (kim, "/?q=new+one"):
            self.assertNotIn('id="enrol">', browser.ask(path).page, path)

    def test_serial_numbers(self) -> None:
        """A token is found by its serial number, which its user's page and the search show."""
        Path("users").write_text(rows_of(*STAFF) + "# <b>17\n" + rows_of(*STAFF, *USERS).split("\n")[2] + "\n")
        sam = Site().log_in()
        for path in "/?q=%3Cb%3E1", "/?q=ann", place("ann"):
            self.assertIn("<b>17", html.unescape(sam.ask(path).page))
            self.assertNotIn("<b>", sam.page)
        self.assertIn("<dt>Serial number</dt><dd>&lt;b&gt;17</dd>", sam.page)
        found = json.loads(sam.ask("/search.json?q=17").page)["users"]
        self.assertEqual([each[1:] for each in found], [["ann", "event token, 6 digits, SHA-1, serial number <b>17"]])
        self.assertNotIn("Serial number", sam.ask(place("sam")).page)

    def test_the_pages_of_a_search(self) -> None:
        """Links lead to all users that were found, a page after the other, and back. The address has page and text."""
        Path("users").write_text(rows_of(*STAFF, *("u&%d" % number for number in range(1, 121)), "z"))
        site = Site()
        sam, seen = site.log_in(), []
        link = r'<a id="%s" rel="\w+" href="([^"]*)"( hidden)?>'
        path = "/?q=u%26"
        for said in "120 found, 1 to 50 are shown", "120 found, 51 to 100 are shown", "120 found, 101 to 120 are shown":
            self.assertEqual(sam.ask(path).find('id="count"[^>]*>([^<]*)'), said)
            seen += re.findall(r'<li><a href="/users/[^"]*">([^<]*)', sam.page)
            path = html.unescape(sam.find(link % "next"))
        self.assertEqual(seen, ["u&amp;%d" % number for number in range(1, 121)])
        self.assertEqual((path, re.findall(link % "next", sam.page)), ("", [("", " hidden")]), "the last page")
        sam.ask(html.unescape(sam.find(link % "former")))
        self.assertIn("51 to 100", sam.page)
        self.assertIn('value="u&amp;"', sam.page)
        for page, said in ("0", "1 to 50"), ("-1", "1 to 50"), ("x", "1 to 50"), ("4", "101 to"), ("9" * 9, "101 to"):
            self.assertIn(said, sam.ask("/?q=u%26&page=" + page).page, page)
        self.assertEqual(sam.ask("/?q=z&page=2").find('id="count"[^>]*>([^<]*)'), "1 found")
        self.assertIn('<nav id="pager" aria-label="Pages of the search" hidden>', sam.page)

    @unittest.skipUnless(shutil.which("node"), "needs nodejs")
    def test_the_pages_of_a_search_while_typing(self) -> None:
        """The script has the same words and links as the page without it."""
        Path("users").write_text(rows_of(*STAFF, *("u%d" % number for number in range(120))))
        sam, told = Site().log_in(), []
        for text in "u", "sam":
            answer = sam.ask("/search.json?q=" + text).page
            done = subprocess.run(["node", "-e", TYPED, str(web.FOLDER / "static" / "live.js"), text, answer],
                                  capture_output=True, text=True, check=True, timeout=60)
            told.append(json.loads(done.stdout))
        shown = {"asked": "/search.json?q=u", "count": "120 found, 1 to 50 are shown", "results": 50, "pager": False,
                 "former": ["", True], "next": ["/?q=u&page=2", False]}
        one = {"asked": "/search.json?q=sam", "count": "1 found", "results": 1, "pager": True, "former": ["", True],
               "next": ["", True]}
        self.assertEqual(told, [shown, one])

    @unittest.skipUnless(shutil.which("node"), "needs nodejs")
    def test_arrow_keys(self) -> None:
        """Arrow keys lead through a list, and from the field of the search into it and back. Other keys stay."""
        down, up, taken = "ArrowDown", "ArrowUp", " true"
        for part, keys, focus in (
                ("results", [up, down, "^" + down, down, down, "Enter", up, up, up, "a"],
                 ["q", "ann" + taken, "ann", "bob" + taken, "bob", "bob", "ann" + taken, "q" + taken, "q", "q"]),
                ("lists", [up, down, down, up], ["ann", "bob" + taken, "bob", "ann" + taken])):
            done = subprocess.run(["node", "-e", WALKED, str(web.FOLDER / "static" / "live.js"), part, *keys],
                                  capture_output=True, text=True, check=True, timeout=60)
            told = [line.replace(" false", "") for line in done.stdout.splitlines()]
            self.assertEqual(told, focus, part)

    def test_wrong_addresses(self) -> None:
        """What has no page gets one of ours, with the way back, and tells nothing to a stranger."""
        site = Site()
        sam, stranger = site.log_in(), Browser(site.application)
        none = "No page has this address."
        for path, status, said in (("/nothing", 404, none), (place("ann", "nothing"), 404, none),
                                   ("/logout", 405, "No form of ours goes to this address.")):
            sam.ask(path)
            self.assertEqual((sam.status, sam.alert(), "Log out sam" in sam.page), (status, said, True), path)
            self.assertEqual(sam.head["Cache-Control"], "no-store")
        stranger.ask("/nothing")
        self.assertEqual((stranger.status, stranger.alert(), "Log out" in stranger.page), (404, none, False))
        self.assertEqual(stranger.ask(place("ann", "nothing")).status, 303, "the login")

    def test_a_list_of_a_spreadsheet(self) -> None:
        """A list may have semicolons, as spreadsheets write it in many countries."""
        site = Site()
        text = "secret,user,type\n%s,bob2,hotp\n" % ("31" * 20)
        for data, delimiter in (text, ","), (text.replace(",", ";"), ";"), ("# a, b\n\n" + text.replace(",", ";"), ";"):
            good, faults = site.desk.check_import(data.encode(), "hex", None)
            self.assertEqual(([token.user for token in good], faults), (["bob2"], []), delimiter)

    def test_words_of_refusals(self) -> None:
        """Pages have a sentence with what to do, and the word of the node or the program behind it. The record has the
        word alone."""
        site = Site()
        sam = site.log_in()
        Path("log.1").write_text("".join('refused from=client:7 NO k %s user="ann"\n' % word for word in (
            "UNKNOWN", "THROTTLED 5")) + 'accepted from=client:7 OK k 37 user="ann"\n')
        cells = re.findall("<td>(?:refused|accepted)</td><td>([^<]*)", sam.ask(place("ann")).page)
        self.assertEqual(cells[0], "37", "a factor")
        for cell, word in zip(cells[1:], ("THROTTLED 5", "UNKNOWN")):
            self.assertRegex(html.unescape(cell), r"^The [^(]* \(%s\)$" % word)
        site.cluster.resync = mock.Mock(side_effect=wakdulg.Refused("INVALID"))
        site.act(sam, "ann", "resync", first="000001", second="000002")
        self.assertRegex(sam.alert(), r"the cluster refused it\. The code was wrong.* \(INVALID\)$")
        self.assertEqual(outcomes()[0], "failed: the cluster: refused: INVALID")
        for path in place("ann"), "/record":
            self.assertRegex(sam.ask(path).text(), r"failed: the cluster refused it\. The code was[^<]*\(INVALID\)<")
        site.members.unlock = mock.Mock(return_value="member 1: unlocked, member 2: silent")
        site.act(sam, "ann", "unlock")
        said = sam.ask(place("ann")).find('role="status" class="notice">([^<]*)')
        self.assertIn("member 2: it didn't answer. Do it again when it is up (silent)", html.unescape(said))
        rows = {"rows": [["1/3", "7", "all", "9", "aa", "bb", "silent"]], "said": "", "status": 1, "when": ""}
        with mock.patch.object(Table, "now", lambda _: (1, rows)):
            self.assertIn("Somebody has to look whether it runs (silent)</td>", sam.ask("/cluster").page)
        file = io.BytesIO(b"user,key,type\nbob2,%s,hotp\n" % (b"31" * 20)), "list.csv"
        sam.ask("/import").send("/import", file=file, secrets="hex", kind="")
        self.assertRegex(sam.ask(sam.place).text() if sam.place else sam.alert(), r"the names user, .* \(NoColumn\)")
        self.assertNotIn("--column", sam.page)
        file = io.BytesIO(b"user,secret,type\nbob2,%s,hotp\nkim,zz,hotp\n" % (b"31" * 20)), "list.csv"
        sam.ask("/import").send("/import", file=file, secrets="hex", kind="")
        self.assertRegex(sam.ask(sam.place).text(), r"line 3: [^<]* Choose the form [^<]* \(BadSecret\)</li>")

    def test_a_password_of_a_user(self) -> None:
        """A user with a password is resynchronized too: the line has the password of the row."""
        Path("users").write_text(rows_of(*STAFF, "ann") + "HOTP bob a-word-of-bob %040x\n" % 9)
        site = Site()
        sam = site.log_in()
        site.cluster.resync = mock.Mock(return_value=wakdulg.Accepted(41))
        for name in "ann", "bob":
            site.act(sam, name, "resync", first="000001", second="000002")
            self.assertEqual((sam.status, outcomes()[0]), (303, "resynchronized at factor 41"), name)
        asked = [call.args for call in site.cluster.resync.call_args_list]
        self.assertEqual(asked, [("ann", "000001", "000002", None), ("bob", "000001", "000002", "a-word-of-bob")])
        self.assertNotIn("a-word-of-bob", Path("record").read_text())

    def test_the_record_of_acts(self) -> None:
        """The lines of acts follow each other, and the page has each act once."""
        site = Site()
        sam = site.log_in()
        site.act(sam, "ann", "unlock")
        site.act(sam, "ann", "retire")
        self.assertEqual((check("record").fault, outcomes()[0].startswith("retired")), ("", True), "the record")
        page = sam.ask("/record").page
        self.assertEqual(page.count("<td>retire</td>"), 1, "one row an act")

    def test_uploads(self) -> None:
        """A file of an import stays in memory, however long it is."""
        site: Any = SimpleNamespace(name="trial", templates=[], show_refusal=None)
        application, data = web.make_application(site, []), b"x" * 1_900_000
        with mock.patch.multiple("tempfile", SpooledTemporaryFile=None, TemporaryFile=None, NamedTemporaryFile=None):
            with application.test_request_context(method="POST", data={"file": (io.BytesIO(data), "list.csv")}):
                self.assertTrue(flask.request.files["file"].read() == data)
                flask.request.environ["wsgi.input"].close()
