#!/usr/bin/python3
"""Works at the helpdesk of a cluster without names, as staff do by curl over three nodes: test_without_names.py

It looks at users and members, unlocks and resynchronizes, and sends each form that would change the users file. A
member is down, a member has another users file, and the users file of the helpdesk has faults, and later no secrets. In
the end all logs are searched for secrets. The last line counts. OATHD is the program. run-it looks whether all packages
are there.
"""
import html
import re
import subprocess
import sys
import tempfile
import time

sys.dont_write_bytecode = True
from browsing import Window, files_with
from counting import await_that, expect, last_line
from trial_site import NODES, Site, Token, wakdulg
from otp import code
from wakdulg_helpdesk.naming import NO_NAMES
from wakdulg_helpdesk.pages import CHANGING

MARKUP = '<img/src=x/onerror="window.hacked=1">'
NAMES = ["sam", "NO", "ann", MARKUP, "bob", "end"]
# What docs/how-to/helpdesk.md makes a copy without secrets by.
WITHOUT_SECRETS = """awk '!/^#/ && NF > 3 { print $1, $2, $3, "00", $5 }' users > users.new && mv users.new users"""


def place(name, act=""):
    return "/users/" + name.encode().hex() + ("/" + act if act else "")


class Test:
    """The parts, in their order. Sam is logged in."""

    def __init__(self, site, tokens):
        self.site, self.tokens, self.sam, self.window = site, tokens, tokens["sam"], Window(site)
        self.users = site.read("desk/users")

    def page(self, path):
        return html.unescape(self.window.ask(path)[1])

    def told(self, name, id="verdict"):
        """Returns what the page of a user says."""
        found = re.search('id="%s"[^>]*>([^<]*)' % id, self.page(place(name)))
        return found and found[1]

    def states(self, name):
        """Returns what the members say of a user: whether they have the row, the floor and the failures."""
        cells = re.findall(r'<th scope="row">\d</th>\s*<td>(.*?)</td>\s*<td>(.*?)</td>\s*<td>(.*?)</td>',
                           self.page(place(name)))
        return [" ".join(cell.strip() for cell in row).strip() for row in cells]

    def act(self, name, act, **fields):
        """Sends the form of an act. Returns its status, and what the next page says."""
        self.window.ask(place(name, act))
        status = self.window.post(place(name, act), code=self.sam.code(), seen=self.window.seen, **fields)
        said = re.findall(r'role="(?:status|alert)" class="\w+">([^<]*)', self.window.ask(place(name))[1])
        return status, html.unescape(" ".join(said))

    def fail(self, name, node):
        """Gives a wrong code at a member."""
        try:
            self.site.front([node]).check(name, "000000", None)
        except wakdulg.Refused as refusal:
            return refusal.reason

    def notes(self):
        """Returns the notes of the page Cluster about the members."""
        rows = re.findall(r'<tr><th scope="row">\d.*?</tr>', self.page("/cluster"))
        return [re.sub(".*\\((.*)\\)$", r"\1", re.findall("<td>(.*?)</td>", row)[-1]) for row in rows]

    def changes_nothing(self):
        expect("the users file stays", self.site.read("desk/users"), self.users)

    # ---- The parts

    def looks(self):
        """Log in, find users, and see what the members say of them."""
        expect("log in", self.window.log_in(self.sam), "303")
        page = self.page("/cluster")
        expect("the pages", re.findall(r'<li><a href="(/\w*)"', page), ["/", "/cluster", "/record"])
        await_that("all members are well", self.notes, ["ok"] * 3)
        expect("who is in no row", "Each member that answers has the users of the users file" in page, True)
        expect("a search", MARKUP in self.page("/?q=img") and "<img" not in self.window.ask("/?q=img")[1], True)
        for at, name in enumerate(NAMES):
            expect("the verdict of " + name, self.told(name), "Can log in.")
            expect("its row", "<dd>%d, counted from 0" % at in self.page(place(name)), True)
        expect("a login", str(self.site.front([2]).check("NO", self.tokens["NO"].code(), None)), "OK 0")
        await_that("the floors", lambda: self.states("NO").count("yes 1 0") >= 2)

    def unlocks(self):
        """Unlock at all members, by the name as it is."""
        for name in "ann", MARKUP, "NO":
            for node in NODES:
                expect("a wrong code", self.fail(name, node), "INVALID")
            expect("the failures", [row.split()[2] for row in self.states(name)], ["1"] * 3)
            expect("it is in the list", name in self.page("/cluster"), True)
            status, said = self.act(name, "unlock")
            expect("unlocked", (status, "member 1: unlocked, member 2: unlocked, member 3: unlocked" in said),
                   ("303", True))
            expect("no failures", [row.split()[2] for row in self.states(name)], ["0"] * 3)
        expect("nobody has failures", [self.site.member(node).gates() for node in NODES], [[]] * 3)

    def resynchronizes(self):
        """Two codes in a row go to the cluster, with the password of the row."""
        bob = self.tokens["bob"]
        codes = {"first": code(bob.secret, 20), "second": code(bob.secret, 21)}
        status, said = self.act("bob", "resync", **codes)
        expect("resynchronized", (status, "resynchronized at factor 21" in said), ("303", True))
        status, said = self.act("bob", "resync", **codes)
        expect("not twice", status, "409")
        bob.next = 22

    def refuses(self):
        """Each form of a change is refused, and costs no code."""
        for number, path in enumerate(CHANGING):
            path = path.replace("<name>", b"ann".hex()).replace("<id>", "x")
            # nginx takes some forms of an address alone.
            self.window.address = "127.3.0.%d" % number
            status, body = self.window.ask(path)
            expect("the page %s" % path, (status, NO_NAMES in html.unescape(body)), ("403", True))
            status = self.window.post(path, name="new", kind="hotp", code="000000", file="x", seen=self.window.seen)
            noted = "refused: no names" in self.site.read("desk/record").splitlines()[-1]
            expect("and its form", (status, noted), ("403", True))
        self.changes_nothing()
        expect("sam's code is good still", self.act("ann", "unlock")[0], "303")

    def is_without_a_member(self):
        """A member is down: pages say so, and the others are unlocked."""
        self.site.stop("node 3")
        self.fail("ann", 1)
        status, said = self.act("ann", "unlock")
        told = "member 2: unlocked, member 3: it didn't answer" in said
        expect("unlocked at the others", (status, told), ("303", True))
        expect("the verdict", self.told("ann"), "Can log in; member 3 is silent.")
        await_that("the page Cluster", self.notes, ["hears not all", "hears not all", "silent"])

    def differs(self):
        """A member comes back with another secret in a row, then with the rows in another order."""
        lines = self.users.splitlines(True)
        other = self.users.replace(self.tokens["end"].secret.hex(), "31" * 20)
        for text, who in (other, "a secret"), ("".join(reversed(lines)), "the order"):
            (self.site.folder / "members/3/users").write_text(text)
            for path in (self.site.folder / "members/3").glob("db*"):
                path.unlink()
            self.site.make_databases(3)
            self.site.start_nodes(3)
            expect("another users file: " + who, [row.split(" ")[0] for row in self.states("ann")],
                   ["yes", "yes", "other"])
            expect("the verdict", self.told("ann"), "Can log in; other files at member 3, where nobody gets in.")
            await_that("the page Cluster", lambda: self.notes()[2], "fingerprint differs")
            self.site.stop("node 3")
        self.site.write("members/3/users", self.users)
        for path in (self.site.folder / "members/3").glob("db*"):
            path.unlink()

    def has_faults(self):
        """The users file of the helpdesk has two rows of a user, lacks one, or lacks the secrets."""
        row = self.tokens["ann"].row()
        self.site.by_hand(self.users + row)
        expect("two rows", "is a row of ann too: tell whoever runs this site (TwoRows)" in self.page("/"), True)
        expect("the users of before", self.told("bob"), "Can log in; member 3 is silent.")
        self.site.by_hand(self.users.replace(row, ""))
        expect("a row that vanished", self.window.ask(place("ann"))[0], "404")
        expect("and the rows after it", self.told("bob"),
               "Can't be seen: the files of this site and of members 1 and 2 differ; member 3 is silent.")
        self.site.by_hand(self.users)
        subprocess.run(WITHOUT_SECRETS, shell=True, check=True, cwd=self.site.desk)
        text = self.site.read("desk/users")
        expect("no secret", [name for name, each in self.tokens.items() if each.secret.hex() in text], [])
        expect("a copy without secrets", [self.told(name) for name in NAMES], ["Can log in; member 3 is silent."] * 6)
        bob = self.tokens["bob"]
        codes = {"first": code(bob.secret, 60), "second": code(bob.secret, 61)}
        expect("resynchronizes", "at factor 61" in self.act("bob", "resync", **codes)[1], True)
        expect("unlocks", self.act("ann", "unlock")[0], "303")
        self.site.by_hand(self.users)

    def keeps_quiet(self):
        """No log has a secret, and a word for a change isn't taken."""
        logs = [path for path in self.site.logs() if path.exists()]
        expect("no log and no record has a secret", files_with(self.site.all_secrets() | {"otpauth:"}, logs), [])
        expect("the helpdesk had no fault", self.site.read("faults"), "")
        self.site.stop("desk")
        self.site.start_desk("--push", "true")
        status = self.site.processes.pop("desk").wait(60)
        expect("--push", (status, "the cluster file gives no names" in self.site.read("faults")), (2, True))


PARTS = ["looks", "unlocks", "resynchronizes", "refuses", "is_without_a_member", "differs", "has_faults", "keeps_quiet"]


def main():
    tokens = {name: Token(name, password="a-word-of-bob" if name == "bob" else "-") for name in NAMES}
    with tempfile.TemporaryDirectory() as folder:
        site, begin = Site(folder, tokens.values(), ["sam"], by_names=False), time.monotonic()
        try:
            site.start()
            test = Test(site, tokens)
            for part in PARTS:
                print("%s, after %d s: %s" % (part, time.monotonic() - begin, getattr(test, part).__doc__), flush=True)
                getattr(test, part)()
        finally:
            site.stop_all()
            print(site.read_all("faults", "error.log")[-2000:], end="")
    return last_line()


if __name__ == "__main__":
    sys.exit(main())
