"""Tries the pages of the helpdesk of a cluster without names, whose users file stays as it is.

OATHD is the program, else ./oathd of the checkout.
"""
from __future__ import annotations

import html
import os
import re
from pathlib import Path
from typing import TYPE_CHECKING
from unittest import mock

from tests.cases import CLUSTER, HAS_PACKAGES
from tests.test_helpdesk_pages import HAS_ARGON2, Case, Site, outcomes, place, rows_of

if TYPE_CHECKING or HAS_PACKAGES and HAS_ARGON2:
    import wakdulg
    from tests.fake_site import Browser, Table
    from tests.test_helpdesk_pages import HASH
    from wakdulg_helpdesk.members import State, with_prints
    from wakdulg_helpdesk.naming import NO_NAMES
    from wakdulg_helpdesk.pages import CHANGING

# Names with markup, with bytes that are no letters, and with words of reports.
ODD = ('<img/src=x/onerror="hacked()">', "a&b'\"", "\u00e4\u202ebc", "\x1b[31m\x07", "NO", "end", "-", "%00%2f", "../x",
       "x\u2028y")


def forms() -> list[tuple[str, str]]:
    """Returns each address that changes the users file, with its act."""
    hex = b"ann".hex()
    return [(path.replace("<name>", hex).replace("<id>", "x"), act) for path, act in CHANGING.items()]


class WithoutNames(Case):
    def begin(self) -> None:
        super().begin()
        Path("cluster").write_text(CLUSTER.partition("\n")[2])
        Path("staff").write_text("sam %s\nkim %s look\n" % (HASH, HASH))

    def test_what_is_shown(self) -> None:
        """The pages have what reads, unlocks and resynchronizes, and nothing that changes the users file."""
        sam, kim = Site().log_in(), Site().log_in("kim")
        places = re.findall(r'<li><a href="(/\w*)"', sam.ask("/cluster").page)
        self.assertEqual(places, ["/", "/cluster", "/record"])
        acts = r'<li><a href="%s/(\w+)"' % place("ann")
        self.assertEqual(re.findall(acts, sam.ask(place("ann")).page), ["unlock", "resync"])
        self.assertIn("<dt>Row</dt><dd>2, counted from 0 as by oathd audit</dd>", sam.page)
        self.assertIn("Can log in.", sam.page)
        self.assertEqual(re.findall(acts, kim.ask(place("ann")).page), [])
        self.assertNotIn("/enrol", sam.ask("/?q=nobody").page)
        self.assertEqual(sam.find('id="count"[^>]*>([^<]*)'), "0 found")
        page = sam.ask("/cluster").page
        self.assertIn("<h2>In another row, or in none</h2>", page)
        for word in "Pending", "retired", "enrol", "Enrol", "Import", "Waiting", "Retire", "Replace":
            for path in "/", "/cluster", "/record", place("ann"), place("ann", "unlock"), place("ann", "states"):
                page = sam.ask(path).page
                page = re.sub('(?s)<select id="act".*?</select>', "", page)
                self.assertNotIn(word, page, path)

    def test_each_change_is_refused(self) -> None:
        """Each form and page of a change is refused by a sentence. It costs no code, and changes the record alone."""
        site = Site()
        for who in "sam", "kim":
            browser = site.log_in(who)
            for path, act in forms():
                self.assertEqual(browser.ask(path).status, 403, path)
                self.assertEqual(html.unescape(browser.alert()), NO_NAMES, path)
                before, asked, files = Path("users").read_bytes(), site.cluster.asked, sorted(os.listdir())
                browser.ask("/record").ask(place("ann", "unlock"))
                told = browser.send(path, code=site.code(who), kind="hotp", name="new", file="x")
                self.assertEqual((told.status, html.unescape(told.alert())), (403, NO_NAMES), path)
                self.assertEqual((Path("users").read_bytes(), site.cluster.asked, sorted(os.listdir())),
                                 (before, asked, files), path)
                self.assertEqual(outcomes()[0], "refused: no names")
        self.assertEqual(site.act(site.log_in(), "ann", "unlock").status, 303, "refusals aren't counted as acts")

    def test_strangers(self) -> None:
        """Whoever isn't logged in, and a form of another site, learn nothing of the cluster."""
        site = Site()
        sam, stranger = site.log_in(), Browser(site.application)
        for path, _ in forms():
            self.assertEqual(stranger.ask(path).place, "/login?next=" + path)
            self.assertEqual((stranger.ask(path, {"name": "new"}).status, "rows" in stranger.page), (403, False))
            told = sam.ask(path, {"name": "new", "token": "wrong"})
            self.assertEqual((told.status, "Use the form of this page" in told.alert()), (403, True))
        self.assertEqual(outcomes(), ["done"], "the login")

    def test_each_layer_refuses(self) -> None:
        """An act whose address led past the refusal has no right, and the users file isn't written."""
        site = Site()
        with mock.patch.dict(CHANGING, clear=True):
            site.start()
        sam, before = site.log_in(), Path("users").read_bytes()
        cases: list[tuple[str, dict[str, str]]] = [
            ("/enrol", {"name": "new", "kind": "hotp"}), (place("ann", "retire"), {}),
            (place("ann", "replace"), {"kind": ""})]
        for path, fields in cases:
            asked = site.cluster.asked
            sam.ask(place("ann", "unlock")).send(path, code=site.code(), **fields)
            self.assertEqual((sam.status, site.cluster.asked, outcomes()[0]), (403, asked, "refused: no right"))
            with mock.patch("wakdulg_helpdesk.pages.CHANGES", frozenset()):
                sam.ask(path).send(path, code=site.code(), **fields)
            self.assertEqual((sam.status, "(NoNames)" in sam.alert(), site.cluster.asked), (409, True, asked))
        self.assertEqual(Path("users").read_bytes(), before)

    def test_acts(self) -> None:
        """What reads no other users file works as in a cluster by names, and the record has it."""
        site = Site()
        sam = site.log_in()
        site.members.unlock = mock.Mock(return_value="member 1: unlocked, member 2: silent, member 3: NO USER")
        site.act(sam, "ann", "unlock")
        self.assertEqual((sam.status, sam.place), (303, place("ann")))
        site.members.unlock.assert_called_once_with(b"ann")
        said = html.unescape(sam.ask(place("ann")).find('role="status" class="notice">([^<]*)'))
        self.assertIn("member 2: it didn't answer. Do it again when it is up (silent), member 3: it has no row", said)
        self.assertEqual(outcomes()[0], "member 1: unlocked, member 2: silent, member 3: NO USER")
        site.act(sam, "ann", "resync", first="000001", second="000002")
        self.assertEqual((sam.status, outcomes()[0]), (303, "resynchronized at factor 41"))
        kim = site.log_in("kim")
        self.assertEqual(kim.ask(place("ann", "unlock")).status, 403, "whose role looks")
        site.members.unlock.reset_mock()
        kim.ask("/record").send(place("ann", "unlock"), code=site.code("kim"), seen="0")
        self.assertEqual((kim.status, outcomes()[0], site.members.unlock.called), (403, "refused: no right", False))

    def test_words(self) -> None:
        """What a node says of a row has another cause here."""
        site = Site()
        sam = site.log_in()
        site.cluster.resync = mock.Mock(side_effect=wakdulg.Refused("UNKNOWN"))
        site.act(sam, "ann", "resync", first="000001", second="000002")
        said = "so its users file isn't the one of this site: tell whoever runs this site (UNKNOWN)"
        self.assertIn(said, html.unescape(sam.alert()))
        Path("log.1").write_text('refused from=client:7 NO k UNKNOWN user="ann"\n')
        self.assertEqual(html.unescape(sam.ask(place("ann")).text()).count(said), 2, "the log and the record")
        rows = {"rows": [["1", "7", "3/3", "9", "aa", "-", "fingerprint differs"]], "said": "", "status": 1, "when": ""}
        with mock.patch.object(Table, "now", lambda _: (1, rows)):
            self.assertIn("or another users file than the others. Give it the same files (fingerprint differs)</td>",
                          sam.ask("/cluster").page)

    def test_odd_names(self) -> None:
        """A user of any name is found and unlocked under that name, and no page takes it for markup."""
        Path("users").write_text(rows_of("sam", "kim", *ODD))
        site = Site()
        sam = site.log_in()
        site.members.unlock = mock.Mock(return_value="member 1: unlocked")
        for at, name in enumerate(ODD, 2):
            found = sam.ask("/search.json?q=" + "".join("%%%02x" % byte for byte in name.encode())).page
            self.assertIn(name.encode().hex(), found)
            page = sam.ask(place(name)).page
            self.assertIn("<dd>%d, counted" % at, page)
            self.assertEqual((name in html.unescape(page), "<img" in page), (True, False))
            site.act(sam, name, "unlock")
            self.assertEqual((sam.status, site.members.unlock.call_args.args), (303, (name.encode(),)))
            for path in place(name), place(name, "unlock"), "/record", "/?q=" + name[0]:
                self.assertNotIn("<img", sam.ask(path).page)
        for hex in "00", "ff", "0", "zz", "61" * 65:
            self.assertEqual(sam.ask("/users/" + hex).status, 404)

    def test_a_row_that_vanished(self) -> None:
        """A user whose row isn't there any more isn't acted on, and an open page says why nothing is seen."""
        site = Site()
        sam = site.log_in()
        site.members.unlock = mock.Mock()
        sam.ask(place("ann", "unlock"))
        Path("users").write_text(Path("users").read_text().replace("HOTP ann", "HOTP lou"))
        asked = site.cluster.asked
        sam.send(place("ann", "unlock"), code=site.code())
        self.assertEqual((sam.status, sam.alert()), (404, "The users file has no such user."))
        self.assertEqual((site.cluster.asked, site.members.unlock.called), (asked, False))
        for path in place("ann", "states"), place("ann", "retired"):
            told = html.unescape(sam.ask(path).page)
            self.assertIn("Can't be seen: the users file of this site has no row of the user.", told)
        sam.ask(place("bob", "unlock"))
        Path("users").write_text(Path("users").read_text().replace("HOTP bob -", "HOTP bob word"))
        sam.send(place("bob", "unlock"), code=site.code())
        self.assertEqual((sam.status, "The row was changed meanwhile" in sam.alert()), (409, True))
        self.assertEqual((site.cluster.asked, site.members.unlock.called), (asked, False))

    def test_two_rows_of_a_user(self) -> None:
        """A users file that no node takes is told of, and shows nobody."""
        Path("users").write_text(rows_of("sam", "kim", "ann", "<b>", "<b>"))
        sam = Site().log_in()
        fault = "line 5 of the users file: line 4 is a row of <b> too: tell whoever runs this site (TwoRows)"
        self.assertEqual(html.unescape(sam.ask("/").alert()), fault)
        self.assertNotIn("<b>", sam.page)
        self.assertEqual((sam.find('id="count"[^>]*>([^<]*)'), sam.ask(place("ann")).status), ("0 found", 404))

    def test_members_that_differ(self) -> None:
        """Members with other files, and members that are down, are told of on the user's page."""
        site = Site()
        sam = site.log_in()
        yes, other = [State(number, "yes", True) for number in (1, 2, 3)], "other files"
        cases: list[tuple[list[bytes | Exception], str, list[str]]] = [
            ([b"a", b"a", b"b"], "Can log in; other files at member 3, where nobody gets in.",
             ["yes", "yes", other]),
            ([b"a", b"b", b"c"], "Can't be seen: the files of this site and of members 1, 2 and 3 differ.",
             [other] * 3),
            ([b"a", OSError(), b"a"], "Can log in; member 2 is silent.", ["yes", "silent", "yes"])]
        for prints, verdict, cells in cases:
            site.members.told["ann"] = with_prints(yes, prints)
            sam.ask(place("ann"))
            self.assertEqual(html.unescape(sam.find('id="verdict"[^>]*>([^<]*)')), verdict)
            said = "%d of 3 members have the row: the others are silent, or have other files."
            self.assertEqual(sam.find('id="settled"[^>]*>([^<]*)'), said % cells.count("yes"))
            self.assertEqual(re.findall(r'<th scope="row">\d</th>\s*<td>([^<]*)', sam.page), cells)
