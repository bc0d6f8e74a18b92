#!/usr/bin/python3
"""Works at the helpdesk as staff do: in Chromium without a screen, by the keyboard alone, over three nodes.

    test_browser.py [--pictures FOLDER] [PART..]     all parts, or those that are named

It starts what trial_site.py has, and works by browsing.py. Each page that it sees is looked at: labels, names of
buttons, landmarks, headings, and faults that the browser tells. Pictures of the pages are kept in FOLDER
(trial/helpdesk in the checkout). In the end all logs and the browser's profile are searched for secrets.
The last line counts. OATHD is the program. run-it looks whether all packages are there.
"""
import base64
import os
import re
import socket
import statistics
import subprocess
import sys
import threading
import time
from pathlib import Path

sys.dont_write_bytecode = True
import browsing
from browsing import Window, await_answer, await_that, expect, settle
from trial_site import NODES, OATHTOOL, PLAIN_ADDRESS, TOP, Site, Token, read_rows, wakdulg
from otp import code
from wakdulg_helpdesk.book import user_of
from wakdulg_helpdesk.naming import ByNames
from selenium.webdriver.common.by import By
from selenium.webdriver.common.keys import Keys

MARKUP = '<img/src=x/onerror="window.hacked=1">'
ALL_HAVE_IT, ALL_HAVE_NONE = "3 of 3 members have the row.", "3 of 3 members have no row of the user."
WAITED = """return performance.getEntriesByType("resource").filter((each) => each.name.includes("/search.json"))
    .map((each) => each.duration)"""



def place(name, act=""):
    return "/users/" + name.encode().hex() + ("/" + act if act else "")


def base32_of(row):
    return base64.b32encode(bytes.fromhex(row[3])).decode().rstrip("=")


def listed(seconds):
    return ", ".join("%.1f" % each for each in seconds)


class Phone:
    """The phone of a user whose row comes. Its codes are those of oathtool, and each member gets some."""

    def __init__(self, site, name):
        self.site, self.name, self.next, self.lock = site, name, 0, threading.Lock()
        self.key = wakdulg.read_key("7:%s" % (site.folder / "front.key"))

    def secret(self):
        rows = [line.split() for line in self.site.read("desk/users").splitlines()]
        return next((row[3] for row in rows if row[1] == self.name), None)

    def try_at(self, node, is_sealed, moments):
        """Notes the moment at which a member accepts a code. Members are asked in turn, since a greater counter uses up
        the lesser ones. A member that doesn't know the user uses up none."""
        end = time.monotonic() + 60
        while time.monotonic() < end:
            if secret := self.secret():
                with self.lock:
                    data = self.ask(node, secret, is_sealed)
                    self.next += not data.startswith(b"NO") or b"UNKNOWN" not in data
                if data.startswith(b"OK "):
                    break
            time.sleep(0.05)
        moments[node] = time.monotonic()

    def ask(self, node, secret, is_sealed):
        words = [OATHTOOL, "-c", str(self.next), secret]
        told = subprocess.run(words, capture_output=True, check=True).stdout.strip()
        line = b"CHECK %b %b %b -" % (wakdulg.new_nonce(), self.name.encode(), told)
        asked = wakdulg.Sealed(line, self.key, node) if is_sealed else wakdulg.Plain(line)
        with socket.socket(socket.AF_INET, socket.SOCK_DGRAM) as client:
            client.bind(("127.0.0.1" if is_sealed else PLAIN_ADDRESS, 0))
            client.connect(("127.0.0.1", self.site.ports[node - 1]))
            client.settimeout(0.2)
            for _ in range(20):
                client.send(asked.datagram())
                try:
                    if data := asked.opened(client.recv(512)):
                        return data
                except OSError:
                    continue
        return b""

    def times(self, is_sealed):
        """Returns the moments at which the members accept a code of it."""
        moments = {}
        threads = [threading.Thread(target=self.try_at, args=(node, is_sealed, moments)) for node in NODES]
        for each in threads:
            each.start()
        for each in threads:
            each.join()
        return [moments[node] for node in NODES]


class Test:
    """The parts. Each begins with staff logged in, and leaves the site as it was but for its own users."""

    def __init__(self, site, tokens, browser):
        self.site, self.tokens, self.browser = site, tokens, browser
        self.sam, self.kim = tokens["sam"], tokens["kim"]
        self.front = site.front()

    def prepare(self, parts):
        if "login" not in parts:
            self.browser.log_in(self.sam)

    def answer(self, name, code):
        return await_answer(self.front, name, code)

    def row(self, name):
        lines = self.site.read("desk/users").splitlines()
        return next((line.split() for line in lines if line.split()[1:2] == [name]), None)

    def act(self, name, title, kind=None, **fields):
        """Makes an act on a user by the keyboard, from the page of the user on."""
        self.browser.open(place(name))
        self.browser.press(title)
        if kind:
            self.choose("The same kind: " + self.kind_of(name), kind)
        for label, text in fields.items():
            self.browser.fill(label.replace("_", " ").replace("users", "user's"), text)
        self.browser.fill("Your own next code", self.sam.code())
        self.browser.press(title)

    def kind_of(self, name):
        rows = read_rows(self.site.read("desk/users").encode())
        return user_of(next(row for row in rows if row.user == name.encode()), ByNames(b"")).kind()

    def choose(self, present, wanted):
        """Moves from the present choice down to another one."""
        self.browser.tab_to(present)
        while self.browser.driver.switch_to.active_element.find_element(By.XPATH, "..").text != wanted:
            self.browser.keys(Keys.ARROW_DOWN)

    def fill_enrolment(self, name):
        """Fills the form that enrols a user with a device that counts."""
        self.browser.open("/enrol")
        self.browser.fill("Name of the new user", name)
        self.choose("An app that shows a new code every 30 seconds", "A device that counts presses of a button")
        self.browser.fill("Your own next code", self.sam.code())

    def have_row(self, *members):
        wanted = "2 of 3 members have the row: in force, and pending at the others." if members else ALL_HAVE_IT
        await_that("which members have the row", lambda: self.browser.text("#settled"), wanted)

    # ---- The parts

    def login(self):
        """Log in: a wrong code, a planted cookie, the flags of the cookie."""
        browser = self.browser
        browser.open("/")
        expect("without a session", browser.path(), "/login")
        browser.picture("login")
        browser.expect_narrow("login")
        browser.fill("Name", "sam")
        browser.fill("Password", self.sam.word)
        browser.fill("Code", "000000")
        browser.press("Log in")
        expect("a wrong code", "That was not right" in browser.text("[role=alert]"), True)
        time.sleep(8)
        failed = '"who": "sam", "act": "log in", "user": "", "outcome": "refused: INVALID"'
        await_that("a failed login is in the record", lambda: failed in self.site.read("desk/record"))
        planted = "planted" * 6
        browser.driver.delete_all_cookies()
        browser.driver.execute_cdp_cmd("Network.setCookie", {
            "name": "__Host-helpdesk", "value": planted, "url": self.site.url, "secure": True, "httpOnly": True,
            "path": "/"})
        browser.open(place("ann"))
        expect("a page without a session", browser.path(), "/login?next=" + place("ann"))
        browser.fill_login(self.sam)
        expect("the login leads there", browser.path(), place("ann"))
        cookie = browser.driver.get_cookie("__Host-helpdesk")
        expect("a new id", cookie["value"] != planted and len(cookie["value"]) == 43, True)
        flags = [cookie[flag] for flag in ("httpOnly", "secure", "sameSite", "path")]
        expect("its flags", flags, [True, True, "Strict", "/"])
        status = self.site.curl("/", "-H", "Cookie: __Host-helpdesk=" + planted)[0]
        expect("the planted cookie is no session", status, "303")
        user = Window(self.site)
        expect("a user who isn't staff", user.log_in(self.tokens["gus"]), "403")
        expect("whose code is good still", self.answer("gus", code(self.tokens["gus"].secret, 0)), "OK 0")
        self.without_password()

    def without_password(self):
        """A code alone logs nobody in, and isn't used up."""
        kim, window = self.kim, Window(self.site)
        window.ask("/login")
        told = [window.post("/login", user="kim", password=word, code=code(kim.secret, kim.next))
                for word in ("", "word of sam, which is staff", kim.word + " ")]
        expect("staff without the right password", told, ["403"] * 3)
        expect("whose code is good still, and then a used one", (window.log_in(kim), window.post(
            "/login", user="kim", password=kim.word, code=code(kim.secret, kim.next - 1))), ("303", "403"))

    def search(self):
        """Results while typing, markup in names."""
        browser = self.browser
        browser.open("/")
        browser.fill("A part of the name or of the serial number", "an")
        await_that("found while typing", lambda: browser.text("#count"), "1 found", 60)
        browser.picture("search")
        browser.keys(Keys.BACKSPACE, Keys.BACKSPACE, "<img")
        await_that("a name with markup", lambda: browser.texts("#results a"), [MARKUP], 60)
        browser.press(MARKUP)
        expect("its page", browser.text("h1"), MARKUP)
        browser.open("/")
        browser.fill("A part of the name or of the serial number", "a")
        await_that("who begins with it is first", lambda: browser.texts("#results a")[:1], ["ann"], 60)
        focused, names = lambda: browser.driver.switch_to.active_element.text, browser.texts("#results a")
        browser.keys(Keys.ARROW_DOWN, Keys.ARROW_DOWN)
        expect("arrow keys lead into the list", focused(), names[1])
        browser.keys(Keys.ARROW_UP, Keys.ARROW_UP)
        expect("and back to the field", browser.driver.switch_to.active_element.get_attribute("id"), "q")
        browser.keys(Keys.ARROW_DOWN)
        browser.leave(Keys.ENTER)
        expect("a page by the keyboard", browser.text("h1"), names[0])
        window = Window(self.site)
        window.cookie = browser.cookie()
        status, body = window.ask("/?q=zz")
        expect("without JavaScript", (status, "0 found" in body), ("200", True))
        nodes = browser.driver.execute_cdp_cmd("Accessibility.getFullAXTree", {})["nodes"]
        roles = {node["role"]["value"] for node in nodes if "role" in node}
        wanted = {"main", "navigation", "heading", "table", "link", "button"}
        expect("roles that a reader is given", wanted - roles, set())

    def ten_thousand(self):
        """The search over a users file of 10,000 rows: by curl over TLS, and in the browser while somebody types."""
        users, texts = self.site.desk / "users", ["", "u", "user0", "user0999", "cccccc", "no+such", "9.bbb", "USER05"]
        before = users.read_text()
        rows = ["HOTP/T30 user%05d.%s - %040x\n" % (n, "abcdefgh"[n % 8] * 6, n) for n in range(1, 10001)]
        self.site.by_hand(before + "".join(rows))
        for path in "/search.json?q=", "/?q=":
            expect("the median of %s is below 100 ms" % path, self.median(path, texts) < 100, True)
        self.type_a_search()
        self.site.by_hand(before)

    def median(self, path, texts):
        """Returns the median of the milliseconds of 30 answers."""
        window = ["-H", "Cookie: " + self.browser.cookie(), "-o", "/dev/null", "-w", "%{http_code} %{time_total}"]
        told = [self.site.fetch(path + texts[n % len(texts)], *window).split() for n in range(31)]
        expect("the site answers", {status for status, _ in told}, {"200"})
        # The first one reads the file if it has just changed.
        first, *times = [1000 * float(seconds) for _, seconds in told]
        print("%s over 10,000 users by TLS: median %.0f ms of 30, slowest %.0f ms, one before them %.0f ms" % (
            path, statistics.median(times), max(times), first))
        return statistics.median(times)

    def type_a_search(self):
        browser = self.browser
        browser.open("/")
        browser.tab_to("A part of the name or of the serial number")
        for number in range(30):
            browser.keys(Keys.CONTROL, "a", Keys.NULL, "user%02d.a" % number)
            time.sleep(0.1)
        await_that("found while typing", lambda: browser.text("#count"), "0 found", 60)
        waited = browser.driver.execute_script(WAITED)
        print("the browser waited %d times, a median of %.0f ms, at most %.0f ms" % (
            len(waited), statistics.median(waited), max(waited)))
        expect("the median in the browser is below 100 ms", statistics.median(waited) < 100, True)

    def in_time(self):
        """The codes of an enrolled phone, by oathtool: how soon they get in at each member."""
        browser, phone = self.browser, Phone(self.site, "ivy")
        self.fill_enrolment("ivy")
        browser.tab_to("Enrol")
        begin, clock, told = time.monotonic(), time.time(), {}
        asking = threading.Thread(target=lambda: told.update(plain=phone.times(False), sealed=phone.times(True)))
        asking.start()
        browser.leave(Keys.ENTER)
        asking.join()
        copied = [os.stat(self.site.folder / "members" / str(node) / "users").st_ctime - clock for node in NODES]
        plain, sealed = ([moment - begin for moment in told[form]] for form in ("plain", "sealed"))
        print("seconds from the click until the users file is copied: %.1f; until members 1, 2, 3 accept a plain code: "
              "%s; a sealed one: %s" % (max(copied), listed(plain), listed(sealed)))
        expect("a code gets in at each member within five seconds", max(plain + sealed) <= 5, True)

    def markup(self):
        """Names with markup in each place where a page shows one."""
        browser = self.browser
        self.act(MARKUP, "Unlock")
        expect("in what is said", browser.text("[role=status]").startswith(MARKUP + ": member 1"), True)
        browser.open("/record")
        expect("in the record", MARKUP in browser.texts("tbody tr")[0], True)
        for act in "resync", "replace", "retire":
            browser.open(place(MARKUP, act))
            expect("in the title of %s" % act, browser.text("h1").endswith(MARKUP), True)
        file = self.site.folder / "list.csv"
        file.write_text("user,secret,type\n%s,zz,HOTP\n</td><b>a,%s,HOTP\n%s,%s,HOTP\n" % (
            MARKUP, "aa" * 20, MARKUP.replace('"', "'"), "bb" * 20))
        self.upload(file)
        expect("in a dry run", browser.texts("tbody th"), ["</td><b>a", MARKUP.replace('"', "'")])
        browser.open("/?q=" + "%3Cscript%3Ewindow.hacked=1%3C/script%3E")
        expect("in the field of the search", browser.driver.find_element(By.ID, "q").get_property("value"),
               "<script>window.hacked=1</script>")

    def staff_goes(self):
        """A member of staff who is taken out of the list."""
        window, staff = Window(self.site), self.site.desk / "staff"
        expect("lou logs in", window.log_in(self.tokens["lou"]), "303")
        status, body = window.ask(place("ann", "retire"))
        expect("and sees a form", (status, bool(window.seen)), ("200", True))
        text = staff.read_text()
        staff.write_text(re.sub("(?m)^lou .*\n", "", text))
        expect("no page", [window.ask(path)[0] for path in ("/", place("ann"), "/record")], ["303"] * 3)
        told = window.post(place("ann", "retire"), seen=window.seen, code=self.tokens["lou"].code())
        expect("no act", (told, self.row("ann") is not None), ("403", True))
        expect("nothing live", [window.ask(path)[0] for path in ("/search.json?q=", "/cluster/events",
                                                                 place("ann", "states"))], ["401"] * 3)
        expect("no login", window.log_in(self.tokens["lou"]), "403")
        staff.write_text(text)

    def roles(self):
        """One of staff who may only look."""
        window, staff, row = Window(self.site), self.site.desk / "staff", self.row("ann")
        text = staff.read_text()
        staff.write_text(re.sub("(?m)^(lou .*)$", r"\1 look", text))
        expect("lou logs in", window.log_in(self.tokens["lou"]), "303")
        body = window.ask(place("ann"))[1]
        told = "At the members" in body, place("ann", "retire") in body
        expect("and sees a user without acts", told, (True, False))
        told = [window.ask(path)[0] for path in (place("ann", "retire"), "/enrol", "/import")]
        told += [window.post(path, seen="0", code="000000") for path in (place("ann", "retire"), "/enrol")]
        expect("no act", (told, self.row("ann")), (["403"] * 5, row))
        staff.write_text(text)

    def wait(self):
        """A form says how long it takes until the next code of a time token, and counts down."""
        browser, lou = self.browser, self.tokens["lou"]
        browser.open("/")
        browser.press("Log out sam")
        time.sleep(31 - time.time() % 30)
        browser.log_in(lou)
        browser.open(place("ann", "unlock"))
        seconds = lambda: int((re.findall(r"in (\d+) s", browser.text("#wait")) or ["0"])[0])
        first = seconds()
        expect("less than a step", 0 < first < 30, True)
        browser.picture("wait")
        await_that("it counts down", lambda: 0 < seconds() < first, True, 30)
        await_that("then the next code is good", lambda: "good now" in browser.text("#wait"), True, 60)
        browser.fill("Your own next code", lou.code())
        browser.press("Unlock")
        expect("an act by it", "ann: member 1: unlocked" in browser.text("[role=status]"), True)
        browser.press("Log out lou")
        browser.log_in(self.sam)

    def two(self):
        """Two of staff replace a phone: one asks, another one confirms, and the first one's browser has the secret."""
        browser, kim, old = self.browser, Window(self.site), self.row("zed")
        self.site.restart_desk("--two-of-staff")
        browser.log_in(self.sam)
        self.act("zed", "Replace the phone")
        said = "It waits for another one of staff until" in browser.text("[role=status]")
        expect("it waits", (browser.path(), said, self.row("zed")), ("/waiting", True, old))
        browser.picture("waiting")
        browser.expect_narrow("waiting")
        browser.press("Replace the phone: zed")
        expect("the first one has no form", browser.driver.find_elements(By.CSS_SELECTOR, "main form"), [])
        expect("kim logs in", kim.log_in(self.kim), "303")
        status, body = kim.ask(browser.path())
        expect("and confirms", (status, kim.post(browser.path(), code=self.kim.code())), ("200", "303"))
        browser.open("/")
        browser.press("The new phone of zed")
        expect("the secret", browser.text("#secret").replace(" ", ""), base32_of(self.row("zed")))
        expect("kim doesn't see it", "has no new secret" in kim.ask(place("zed", "secret"))[1], True)
        browser.press("The phone has it")
        settle(self.site)
        expect("the new phone", self.answer("zed", self.code_of("zed", 0)), "OK 0")
        self.site.restart_desk()
        browser.log_in(self.sam)

    def unlock(self):
        """Failures at all members, seen and forgotten."""
        browser = self.browser
        for node in NODES:
            try:
                self.site.front([node]).check("bob", "000000")
            except wakdulg.Refused as refusal:
                expect("a wrong code at member %d" % node, refusal.reason, "INVALID")
        count = lambda: self.site.read_all(*("log.%d" % node for node in NODES)).count("INVALID user=\"bob\"")
        await_that("the refusals in the logs", count, 3)
        browser.open(place("bob"))
        expect("the kind of the token", "time token, steps of 30 s, 6 digits, SHA-1" in browser.text("dl"), True)
        expect("failures at each member", browser.texts("#states tbody td:nth-child(4)"), ["1", "1", "1"])
        expect("the refusals on the page", browser.text().count("INVALID"), 3)
        browser.picture("user")
        self.act("bob", "Unlock")
        expect("what is said", browser.text("[role=status]"),
               "bob: member 1: unlocked, member 2: unlocked, member 3: unlocked.")
        expect("no gate", [self.site.member(node).report(b"GATES") for node in NODES], [[], [], []])
        browser.open("/record")
        first = browser.texts("tbody tr")[0]
        expect("the record", ("sam unlock bob" in first, "unlocked" in first), (True, True))
        browser.picture("record")
        browser.fill("A part of the user's name", "bo")
        browser.press("Show")
        expect("of one user", {row.split(" ")[5] for row in browser.texts("tbody tr")}, {"bob"})
        words = [TOP / "python/wakdulg-helpdesk-record", "check", self.site.desk / "record"]
        done = subprocess.run(words, capture_output=True, text=True)
        expect("its lines follow", (done.returncode, done.stdout.partition(" ")[2][:19]), (0, "lines, the last one"))

    def resync(self):
        """A counter that is far ahead."""
        ann = self.tokens["ann"]
        codes = [code(ann.secret, factor) for factor in (40, 41, 42)]
        expect("too far ahead", self.answer("ann", codes[0]), "INVALID")
        time.sleep(6)
        self.act("ann", "Resynchronize", The_users_code=codes[0], The_users_next_code=codes[1])
        expect("what is said", self.browser.text("[role=status]"), "ann: resynchronized at factor 41.")
        expect("the next code", self.answer("ann", codes[2]), "OK 42")

    def enrol(self):
        """A new user, whose secret is shown until it is confirmed."""
        browser = self.browser
        self.fill_enrolment("eve")
        browser.picture("enrol")
        browser.press("Enrol")
        expect("where the secret is shown", browser.path(), place("eve", "secret"))
        uri, row = browser.text("#uri"), self.row("eve")
        browser.picture("secret")
        browser.expect_narrow("secret")
        secret = uri.partition("secret=")[2].partition("&")[0]
        raw = base64.b32decode(secret + "=" * (-len(secret) % 8))
        expect("the row", row[:2] + [len(raw), row[3] == raw.hex()], ["HOTP/E/6", "eve", 20, True])
        expect("the QR code has a name", browser.driver.find_element(By.CSS_SELECTOR, "svg[role=img]").accessible_name,
               "QR code of the new secret")
        self.have_row()
        expect("eve logs in", self.answer("eve", code(raw, 0)), "OK 0")
        self.confirm_seen("eve", uri, secret)
        self.fill_enrolment("eve")
        browser.press("Enrol")
        expect("a user twice", "DuplicateUser" in browser.text("[role=alert]"), True)
        self.fill_enrolment("kim")
        browser.press("Enrol")
        expect("a name of staff", "Protected" in browser.text("[role=alert]"), True)

    def confirm_seen(self, name, uri, secret):
        """A secret is shown until staff say that the phone has it."""
        browser = self.browser
        browser.open(place(name, "secret"))
        expect("a second look shows it", browser.text("#uri"), uri)
        browser.press("The phone has it")
        said = browser.text("[role=status]")
        expect("confirmed", (browser.path(), said), (place(name), "The phone of %s has the new secret." % name))
        browser.driver.back()
        expect("Back doesn't show it", (secret in browser.driver.page_source, browser.path()),
               (False, place(name, "secret")))
        browser.open(place(name, "secret"))
        told = secret in browser.driver.page_source, "has no new secret" in browser.text()
        expect("then it is shown no more", told, (False, True))

    def replace(self):
        """A new phone: the old one is refused."""
        old = self.row("cid")
        expect("the old phone", self.answer("cid", code(self.tokens["cid"].secret, 0)), "OK 0")
        self.act("cid", "Replace the phone")
        raw = bytes.fromhex(self.row("cid")[3])
        expect("another secret", (raw.hex() == old[3], len(raw)), (False, 20))
        self.have_row()
        settle(self.site)
        expect("the new phone", self.answer("cid", code(raw, 0)), "OK 0")
        expect("the old phone", self.answer("cid", code(self.tokens["cid"].secret, 1)), "INVALID")

    def kinds(self):
        """A new phone has the kind of the old one, if staff choose no other."""
        browser = self.browser
        for name, kind, words in (("tom", "HOTP/T60/8/SHA256", "time token, steps of 60 s, 8 digits, SHA-256"),
                                  ("eli", "HOTP/E/8", "event token, 8 digits, SHA-1")):
            self.act(name, "Replace the phone")
            expect("the row of %s" % name, self.row(name)[0], kind)
            expect("what the page says", browser.text("#kind"), words)
        uri = browser.text("#uri")
        expect("what the link says", re.findall("algorithm=[^&]*|digits=[^&]*", uri), ["algorithm=SHA1", "digits=8"])
        self.act("tom", "Replace the phone", kind="An app that shows a new code every 30 seconds")
        expect("another kind", (self.row("tom")[0], "digits=6&period=30" in browser.text("#uri")), ("HOTP/T30/6", True))

    def retire(self):
        """A user who goes."""
        self.act("dora", "Retire")
        expect("no row", self.row("dora"), None)
        expect("where it is told", self.browser.path(), place("dora", "retired"))
        await_that("who knows the user", lambda: self.browser.text("#settled"), ALL_HAVE_NONE)
        settle(self.site)
        expect("nobody knows the user", self.answer("dora", code(self.tokens["dora"].secret, 0)), "UNKNOWN")

    def pending(self):
        """Members that don't get the file: the pages say so, and the copy is made again, also after a crash."""
        browser, joe, settled = self.browser, self.tokens["joe"], lambda: browser.text("#settled")
        with self.site.closed(2, 3):
            self.act("joe", "Replace the phone")
            expect("what is said", "pending, NOT copied to all members" in browser.text("[role=status]"), True)
            await_that("what one member has", settled, "1 of 3 members have the row: pending.")
            says = browser.texts("#states tbody td:nth-child(2)")
            expect("what each member has", says, ["yes", "another token", "another token"])
            verdict = browser.text("#verdict")
            expect("the verdict", verdict, "Pending at members 2 and 3: an old phone may still get in.")
            browser.picture("pending")
            browser.open("/cluster")
            expect("in the list", browser.texts("#lacking a"), ["joe"])
            expect("the old phone gets in", await_answer(self.site.front([2]), "joe", code(joe.secret, 0)), "OK 0")
            self.act("lea", "Retire")
            await_that("who knows the user", settled, "1 of 3 members have no row of the user: pending.")
            expect("the verdict", browser.text("#verdict"), "Retired, but pending: the user may still log in; "
                                                            "members 2 and 3 still have a row.")
            self.site.crash_desk()
            browser.log_in(self.sam)
            expect("after a crash", browser.text("#warning").startswith("Pending since "), True)
        await_that("it is copied again", lambda: (self.site.desk / "users.pending").exists(), False, 120)
        settle(self.site)
        for name, act, wanted in ("joe", "", ALL_HAVE_IT), ("lea", "retired", ALL_HAVE_NONE):
            browser.open(place(name, act))
            await_that("what the members have of %s" % name, settled, wanted)
        expect("no warning", browser.driver.find_elements(By.ID, "warning"), [])
        expect("the old phone", await_answer(self.site.front([2]), "joe", code(joe.secret, 1)), "INVALID")

    def killed(self):
        """The service is killed amid a replacement: the pages tell what holds, and this browser gets the secret."""
        browser, old, hold = self.browser, self.row("una"), self.site.folder / "hold"
        settle(self.site)
        hold.touch()
        browser.open(place("una", "replace"))
        browser.fill("Your own next code", self.sam.code())
        browser.tab_to("Replace the phone")
        # It returns when the browser has an answer.
        pressing = threading.Thread(target=lambda: browser.keys(Keys.ENTER))
        pressing.start()
        await_that("the row is changed", lambda: self.row("una") != old)
        self.site.crash_desk()
        pressing.join()
        hold.unlink()
        browser.log_in(self.sam)
        browser.open(place("una"))
        told = browser.text(".unfinished")
        expect("what is told", "its end isn't known: the users file has the new row." in told, True)
        browser.picture("killed")
        browser.open("/record")
        expect("also in the record", "its end isn't known: the users file has" in browser.texts("tbody tr")[1], True)
        browser.press("The new phone of una")
        expect("the secret", browser.text("#secret").replace(" ", ""), base32_of(self.row("una")))
        other = Window(self.site)
        expect("another browser", other.log_in(self.sam), "303")
        expect("doesn't see it", "has no new secret" in other.ask(place("una", "secret"))[1], True)
        browser.press("The phone has it")
        await_that("it is copied", lambda: (self.site.desk / "users.pending").exists(), False, 120)
        settle(self.site)
        expect("the new phone", self.answer("una", self.code_of("una", 0)), "OK 0")

    def unrecorded(self):
        """A record that can't be written: nothing is begun. If the act is done already, its secret is shown."""
        browser, old = self.browser, self.row("max")
        with self.site.record_closed_after(""):
            time.sleep(1)
            self.act("max", "Replace the phone")
            told = browser.text("[role=alert]")
            expect("an act isn't begun", ("Nothing was done. The record" in told, self.row("max")), (True, old))
        with self.site.record_closed_after('"act": "replace", "user": "max", "outcome": "begins"'):
            self.act("max", "Replace the phone")
        expect("the record", "replaced the token" in self.site.read("desk/record").splitlines()[-1], False)
        expect("the secret is shown", base32_of(self.row("max")), browser.text("#secret").replace(" ", ""))
        expect("and the fault", "The record could not be written" in browser.text("[role=alert]"), True)

    def imports(self):
        """A CSV with faults, and one without."""
        browser, file = self.browser, self.site.folder / "list.csv"
        secret = {number: ("%02d" % number) * 20 for number in range(10)}
        # The codes of a secret with a zero byte behind it are the same.
        bobs = self.tokens["bob"].secret.hex().upper() + "00"
        file.write_text("user,secret,type,digits\nann,%s,HOTP,6\nhal,zz,HOTP,6\nida,%s,HOTP,9\nken,%s,HOTP,6\n"
                        "k en,%s,HOTP,6\nlin,%s,TOTP,6\n" % (*(secret[number] for number in range(1, 5)), bobs))
        self.upload(file)
        told = browser.texts("#faults li")
        faults = [re.search(r"line (\d+).* \((\w+)\)$", fault).groups() for fault in told]
        expect("each row's fault", faults, [("2", "DuplicateUser"), ("3", "BadSecret"), ("4", "BadDigits"),
                                            ("6", "BadName"), ("7", "DuplicateSecret")])
        expect("whose secret it is", "lin would have the secret of bob, line" in told[-1], True)
        expect("no way to import it", browser.driver.find_elements(By.CSS_SELECTOR, "main form"), [])
        browser.picture("import")
        browser.expect_narrow("dry-run")
        file.write_text("user,secret,type\nhal,%s,HOTP\nida,%s,TOTP\n" % (secret[5], secret[6]))
        self.upload(file)
        expect("no fault", "2 rows can be read, and there are 0 faults" in browser.text("[role=status]"), True)
        browser.fill("Your own next code", self.sam.code())
        browser.press("Import all rows")
        expect("what is said", "added 2 users; copied to the members" in browser.text("[role=status]"), True)
        settle(self.site)
        expect("hal logs in", self.answer("hal", code(bytes.fromhex(secret[5]), 0)), "OK 0")

    def upload(self, file):
        self.browser.open("/import")
        # A dialog of the system has no keys here.
        self.browser.driver.find_element(By.ID, "file").send_keys(str(file))
        self.browser.press("Try without writing")

    def hostile(self):
        """Forms of others, no second code, two staff at once, a file that is changed by hand."""
        window, kim = Window(self.site), Window(self.site)
        expect("kim logs in", kim.log_in(self.kim), "303")
        window.cookie = kim.cookie
        kim.ask(place("fay", "retire"))
        good = {"token": kim.token, "seen": kim.seen}
        form = ["-d", "code=%s" % self.kim.code(), "-d", "seen=" + kim.seen]
        path = place("fay", "retire")
        told = [window.ask(path, *form)[0], window.ask(path, *form, "-d", "token=" + "0" * 64)[0],
                window.ask(path, *form, "-d", "token=" + kim.token, origin="https://evil.example")[0],
                window.ask(path, *form, "-d", "token=" + kim.token, "-H", "Sec-Fetch-Site: cross-site")[0]]
        expect("no token, a wrong one, forms of another site", told, ["403"] * 4)
        expect("no session", Window(self.site).ask(path, *form, "-d", "token=" + kim.token)[0], "403")
        expect("no second code", kim.post(path, seen=good["seen"], code="000000"), "403")
        expect("a used second code", kim.post(path, seen=good["seen"], code=code(self.kim.secret, 0)), "403")
        expect("the row is there", self.row("fay") is not None, True)
        time.sleep(11)
        # Both look at the row, and both replace the phone.
        self.browser.open(place("fay", "replace"))
        kim.ask(place("fay", "replace"))
        self.browser.fill("Your own next code", self.sam.code())
        self.browser.press("Replace the phone")
        first = self.row("fay")[3]
        status = kim.post(place("fay", "replace"), seen=kim.seen, code=self.kim.code())
        expect("two staff at once: the second", status, "409")
        expect("the phone of the first is good", self.row("fay")[3], first)
        settle(self.site)
        self.changed_by_hand(kim)
        kim.ask("/")
        expect("log out", kim.post("/logout"), "303")
        expect("the old cookie", self.site.curl("/", "-H", "Cookie: " + window.cookie)[0], "303")
        both = "Cookie: %s; %s" % (self.browser.cookie(), window.cookie)
        expect("two cookies", self.site.curl("/", "-H", both)[0], "303")

    def changed_by_hand(self, kim):
        """Changes the users file by hand while staff have a form open."""
        kim.ask(place("gus", "retire"))
        users = self.site.desk / "users"
        text = users.read_text()
        self.site.by_hand(text.replace(self.tokens["gus"].secret.hex(), "77" * 20) + "HOTP han - %s\n" % ("88" * 20))
        expect("a row changed by hand", kim.post(place("gus", "retire"), seen=kim.seen, code=self.kim.code()), "409")
        expect("a row added by hand is found", "1 found" in kim.ask("/?q=han")[1], True)
        self.site.by_hand(text + "HOTP bad\n")
        expect("a fault by hand is told", "MissingField" in kim.ask("/?q=ann")[1], True)
        self.site.by_hand(text + "HOTP zoe - 30303\n")
        kim.ask(place("gus", "retire"))
        status = kim.post(place("gus", "retire"), seen=kim.seen, code=self.kim.code())
        expect("a file that oathd refuses isn't written", status, "409")
        self.site.by_hand(text)
        # New secrets that nobody confirmed have files of their own.
        names = [each.name for each in self.site.desk.glob("users*") if ".kept-helpdesk-" not in each.name]
        expect("no file is left", names, ["users"])

    def cluster(self):
        """The table of the cluster, while a member goes down and comes back."""
        browser = self.browser
        browser.open("/cluster")
        notes = lambda: browser.texts("#table tbody td:last-child")
        await_that("all are well", notes, ["ok"] * 3)
        browser.picture("cluster")
        self.site.stop("node 3")
        await_that("the page says that member 3 is silent", lambda: notes()[2].endswith("(silent)"))
        browser.picture("cluster-a-member-down")
        browser.open(place("ann"))
        says = browser.texts("#states tbody td:nth-child(2)")
        expect("on the page of a user", says, ["yes", "yes", "silent"])
        self.act("ann", "Unlock")
        expect("what an unlock says", "member 3: it didn't answer" in browser.text("[role=status]"), True)
        self.enrol_without_a_member()
        browser.open("/cluster")
        self.site.start_nodes(3)
        await_that("the page says that it is back", notes, ["ok"] * 3)
        browser.open(place("pia"))
        expect("it has the new user", browser.texts("#states tbody td:nth-child(2)"), ["yes"] * 3)
        expect("who logs in there", await_answer(self.site.front([3]), "pia", self.code_of("pia", 1)), "OK 1")

    def lists(self):
        """Who is locked, and who never logged in, on the page Cluster. Its moment moves."""
        browser, closed = self.browser, 0
        while closed < 20:
            try:
                self.site.front([2]).check("wes", "000000")
            except wakdulg.Throttled as refusal:
                closed = refusal.seconds
                time.sleep(closed * (closed < 20))
            except wakdulg.Refused:
                pass
        browser.open(place("wes"))
        expect("the verdict", browser.text("#verdict").startswith("Can log in; locked at member 2, opens in "), True)
        browser.picture("locked")
        browser.open("/cluster")
        moment = browser.text("#moment")
        expect("who is locked", browser.texts("#locked a"), ["wes"])
        expect("who never logged in", "wes" in browser.texts("#unused a"), True)
        await_that("the moment moves", lambda: browser.text("#moment") > moment, True, 60)
        browser.picture("cluster-lists")
        browser.expect_narrow("cluster-lists")
        window = Window(self.site)
        window.cookie = browser.cookie()
        found = re.search(r'id="moment">\d\d:\d\d:\d\d UTC<', window.ask("/cluster")[1])
        expect("without JavaScript", found is not None, True)
        self.act("wes", "Unlock")
        expect("the verdict", browser.text("#verdict"), "Can log in.")
        browser.open("/cluster")
        await_that("nobody is locked", lambda: browser.texts("#locked a"), [])

    def enrol_without_a_member(self):
        browser = self.browser
        self.fill_enrolment("pia")
        browser.press("Enrol")
        self.have_row(1, 2)
        expect("a user who is enrolled without a member", self.answer("pia", self.code_of("pia", 0)), "OK 0")

    def code_of(self, name, factor):
        return code(bytes.fromhex(self.row(name)[3]), factor)

    def narrow(self):
        """Each page in 400 px. Those with a secret or a dry run are looked at where they are made."""
        paths = ["/", "/enrol", "/import", "/cluster", "/record", place("ann"), place(MARKUP)]
        for path in paths + [place("ann", act) for act in ("unlock", "resync", "replace", "retire")]:
            self.browser.open(path)
            self.browser.expect_narrow(path.strip("/").replace("/", "-") or "search")

    def logout(self):
        """The end: what the browser and the logs kept."""
        browser = self.browser
        browser.open("/")
        old = self.browser.cookie()
        browser.press("Log out sam")
        expect("logged out", browser.path(), "/login")
        expect("the old cookie", self.site.curl("/", "-H", "Cookie: " + old)[0], "303")
        head = self.site.curl("/login")[1]
        for line in ("Cache-Control: no-store", "Content-Security-Policy: default-src 'none'",
                     "Referrer-Policy: same-origin", "X-Content-Type-Options: nosniff",
                     "Strict-Transport-Security: max-age="):
            expect(line, line in head, True)
        log = self.site.read_all("logins", "faults", "error.log", "desk/record")
        codes = {code(each.secret, factor) for each in self.tokens.values() if each.is_event for factor in range(60)}
        expect("no code stands in a log", codes & set(re.findall(r"\b\d{6}\b", log)), set())
        expect("the helpdesk had no fault", self.site.read("faults"), "")


PARTS = ["login", "search", "ten_thousand", "unlock", "resync", "enrol", "in_time", "replace", "kinds", "retire",
         "imports", "markup", "hostile", "staff_goes", "roles", "wait", "two", "lists", "cluster", "pending", "killed",
         "unrecorded", "narrow", "logout"]


def main():
    names = ("sam", "kim", "lou", "ann", "bob", "cid", "dora", "fay", "gus", "joe", "lea", "max", "una", "wes", "zed",
             MARKUP)
    tokens = {name: Token(name, is_event=name not in ("bob", "lou")) for name in names}
    tokens.update(tom=Token("tom", type="HOTP/T60/8/SHA256"), eli=Token("eli", type="HOTP/E/8"))
    return browsing.run(__doc__, "trial/helpdesk", PARTS, lambda folder: Site(folder, tokens.values(), names[:3]),
                        lambda site, browser: Test(site, tokens, browser))


if __name__ == "__main__":
    sys.exit(main())
