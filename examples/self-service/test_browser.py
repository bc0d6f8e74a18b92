#!/usr/bin/python3
"""Works at the self-service as users and attackers do, over three nodes: in Chromium by the keyboard, and by curl.

    test_browser.py [--pictures FOLDER] [PART..]     all parts, or those that are named

It starts what trial_site.py of the helpdesk has, with the self-service in its place. Pictures of the pages are kept in
FOLDER (trial/self-service in the checkout). The last line counts. OATHD and OATHTOOL are the programs.
"""
import base64
import re
import subprocess
import sys
import threading
import time
from pathlib import Path

sys.dont_write_bytecode = True
sys.path.insert(0, str(Path(__file__).resolve().parents[1] / "helpdesk"))
import browsing
from browsing import Window, await_answer, await_that, expect, settle
from trial_site import OATHTOOL, TOP, Site, Token
from otp import code
from selenium.webdriver.common.by import By

PROGRAM = TOP / "python/wakdulg-self-service"
MARKUP = '<img/src=x/onerror="window.hacked=1">'
LATE = 25


class UsersSite(Site):
    """The site with the self-service, under a name of its own."""
    host = "self-service.example"

    def desk_words(self):
        tell = "sh -c 'cat >> %s/told'" % self.desk
        return [PROGRAM, "--allow", "resync", "--allow", "replace", "--late", LATE, "--tell", tell]


class Client(Window):
    """A browser without JavaScript, in which a user logs in by one call."""

    def log_in(self, token):
        self.user = token
        return super().log_in(token)

    def replace(self, **more):
        """Replaces the phone. Returns the status, and the new secret that the next page shows."""
        self.ask("/replace")
        more = {"password": self.user.password, "code": self.user.code(), **more}
        status = self.post("/replace", seen=self.seen, **more)
        found = re.search('id="secret">([^<]*)', self.ask("/phone")[1]) if status == "303" else None
        return status, secret_of(found[1]) if found else None


def secret_of(base32):
    text = base32.replace(" ", "")
    return base64.b32decode(text + "=" * (-len(text) % 8))


def by_oathtool(*words):
    return subprocess.run([OATHTOOL, *words], capture_output=True, text=True, check=True).stdout.strip()


class Test:
    """The parts. Each has users of its own."""

    def __init__(self, site, tokens, browser):
        self.site, self.tokens, self.browser, self.front = site, tokens, browser, site.front()

    def prepare(self, parts):
        """Nobody is logged in."""

    def answer(self, name, code, **more):
        return await_answer(self.front, name, code, password=self.tokens[name].password, **more)

    def row(self, name):
        lines = self.site.read("desk/users").splitlines()
        return next(line.split() for line in lines if line.split()[1] == name)

    # ---- The parts

    def off(self):
        """Without its own word nothing starts, and only the acts that are named are there."""
        words = [PROGRAM, "--key-file", "7:%s" % (self.site.desk / "front.key"), "--issuer", "Example"]
        for name in "cluster", "users", "staff", "record":
            words += ["--" + name, self.site.desk / name]
        ends, more = [self.site.desk / "other-socket", self.site.url], self.site.as_desk()
        done = subprocess.run(list(map(str, words + ends)), capture_output=True, text=True, timeout=60, **more)
        expect("without --allow", (done.returncode, "required: --allow" in done.stderr), (2, True))
        process = subprocess.Popen(list(map(str, words + ["--allow", "resync"] + ends)), stderr=subprocess.DEVNULL, **more)
        self.site.await_that(ends[0].exists, "it has its socket")
        told = [subprocess.run(["curl", "-s", "-o", "/dev/null", "-w", "%{http_code}", "--unix-socket", ends[0],
                                "http://any" + path], capture_output=True, text=True).stdout
                for path in ("/login", "/resync", "/replace", "/phone")]
        expect("with --allow resync alone", told, ["200", "200", "404", "404"])
        process.terminate()
        process.wait()

    def login(self):
        """Log in: refusals that tell nothing, a planted cookie, the flags of the cookie."""
        browser, fay = self.browser, self.tokens["fay"]
        browser.open("/")
        expect("without a session", browser.path(), "/login")
        browser.picture("login")
        browser.expect_narrow("login")
        self.refusals()
        planted = "planted" * 6
        browser.driver.delete_all_cookies()
        browser.driver.execute_cdp_cmd("Network.setCookie", {
            "name": "__Host-self-service", "value": planted, "url": self.site.url, "secure": True, "httpOnly": True,
            "path": "/"})
        browser.log_in(fay)
        expect("logged in", (browser.path(), browser.text("dd")), ("/", "fay"))
        cookie = browser.driver.get_cookie("__Host-self-service")
        expect("a new id", cookie["value"] != planted and len(cookie["value"]) == 43, True)
        flags = [cookie[flag] for flag in ("httpOnly", "secure", "sameSite", "path")]
        expect("its flags", flags, [True, True, "Strict", "/"])
        told = [self.site.curl("/", "-H", "Cookie: " + each)[0]
                for each in ("__Host-self-service=" + planted, browser.cookie() + "; __Host-self-service=" + planted)]
        expect("the planted cookie, and two cookies", told, ["303", "303"])
        browser.picture("home")
        browser.expect_narrow("home")
        browser.press("Log out fay")
        expect("logged out", browser.path(), "/login")

    def refusals(self):
        """What is refused: a wrong code or password, nobody, and users whose password no node checks."""
        tokens, window, told = self.tokens, Window(self.site), {}
        window.ask("/login")
        tries = [("a wrong code", "gus", tokens["gus"].password, "000000"),
                 ("a wrong password", "hal", "wrong", code(tokens["hal"].secret, 0)),
                 ("nobody", "nobody", "wrong", "000000"),
                 ("no password in the row", "dan", "any", code(tokens["dan"].secret, 0)),
                 ("a password that isn't checked", "eli", "any", code(tokens["eli"].secret, 0)),
                 ("staff", "sam", tokens["sam"].password, code(tokens["sam"].secret, 0)),
                 ("an empty password", "ida", "", code(tokens["ida"].secret, 0)),
                 ("a code that is none", "ida", tokens["ida"].password, "12ab"),
                 ("a password in the field of the name", tokens["ida"].password, "ida", "000000")]
        for what, user, password, number in tries:
            begin = time.monotonic()
            status, body = window.ask("/login", *self.form(window, user=user, password=password, code=number))
            told[what] = status, body, time.monotonic() - begin
        expect("each is refused", {status for status, _, _ in told.values()}, {"403"})
        expect("by one page", len({body for _, body, _ in told.values()}), 1)
        times = [seconds for _, _, seconds in told.values()]
        print("the refusals took %.2f to %.2f s" % (min(times), max(times)))
        expect("after a second", min(times) >= 1, True)
        for name, password in ("dan", None), ("eli", "any"), ("sam", tokens["sam"].password):
            said = await_answer(self.front, name, code(tokens[name].secret, 0), password=password)
            expect("the code of %s isn't used up" % name, said, "OK 0")

    @staticmethod
    def form(window, **fields):
        return [word for name, text in {"token": window.token, **fields}.items()
                for word in ("--data-urlencode", "%s=%s" % (name, text))]

    def resync(self):
        """A counter that is far ahead: no login takes its codes."""
        browser, cid = self.browser, self.tokens["cid"]
        codes = [by_oathtool("-c", str(factor), cid.secret.hex()) for factor in (40, 41, 42)]
        cid.next, begin = 40, time.monotonic()
        browser.log_in(cid)
        expect("a code far ahead", "That was not right" in browser.text("[role=alert]"), True)
        time.sleep(max(0, begin + 8 - time.monotonic()))
        browser.press("resynchronize the token")
        browser.picture("resync")
        browser.expect_narrow("resync")
        for label, text in ("Name", "cid"), ("Password", cid.password), ("Code", codes[0]), ("The next code", codes[1]):
            browser.fill(label, text)
        browser.press("Resynchronize")
        expect("logged in", (browser.path(), browser.text("dd")), ("/", "cid"))
        expect("the next code", self.answer("cid", codes[2]), "OK 42")
        browser.press("Log out cid")
        expect("the record", '"resynchronized at factor 41"' in self.site.read("desk/record"), True)

    def replace(self):
        """A new phone: shown until its first code confirms it, and the old one is refused."""
        browser, ann, old = self.browser, self.tokens["ann"], self.row("ann")
        browser.log_in(ann)
        browser.press("Replace the phone")
        browser.picture("replace")
        browser.expect_narrow("replace")
        self.refuse_to_replace(ann)
        begin = time.monotonic()
        browser.press("Replace the phone")
        expect("where the secret is shown", browser.path(), "/phone")
        browser.picture("phone")
        browser.expect_narrow("phone")
        secret, uri, row = browser.text("#secret"), browser.text("#uri"), self.row("ann")
        raw = secret_of(secret)
        expect("the row", row, ["HOTP/E/6", "ann", ann.password, raw.hex(), "0"])
        expect("another secret of 20 bytes", (len(raw), row[3] == old[3]), (20, False))
        expect("the link", uri.startswith("otpauth://hotp/Example%20Site:ann?secret=" + secret.replace(" ", "")), True)
        expect("the QR code has a name", browser.driver.find_element(By.CSS_SELECTOR, "svg[role=img]").accessible_name,
               "QR code of the new secret")
        self.refuse_and_confirm(ann, raw)
        print("in use %.0f s after the click" % (time.monotonic() - begin))
        expect("the old phone", self.answer("ann", ann.code()), "INVALID")
        expect("the next code of the new phone", self.answer("ann", by_oathtool("-c", "1", raw.hex())), "OK 1")
        await_that("the hook tells her", lambda: (self.site.desk / "told").exists(), True, 60)
        expect("what", self.site.read("desk/told").startswith("ann\nYour phone was replaced at 20"), True)
        window = Window(self.site)
        window.ask("/login")
        form = self.form(window, user="ann", password=ann.password, code=by_oathtool("-c", "2", raw.hex()))
        expect("a login by the new phone", window.ask("/login", *form)[0], "303")
        expect("says so too", "Your phone was replaced at 20" in window.ask("/")[1], True)

    def prove(self, token):
        """Fills what shows that the user has the old phone."""
        self.browser.fill("Password", token.password)
        self.browser.fill("The next code of the old phone", token.code())

    def refuse_to_replace(self, token):
        """A session alone replaces no phone, nor does the code of its login."""
        browser, row = self.browser, self.row(token.name)
        browser.fill("Password", token.password)
        browser.fill("The next code of the old phone", code(token.secret, 0))
        browser.press("Replace the phone")
        expect("the used code", ("was used before" in browser.text("[role=alert]"), self.row(token.name)), (True, row))
        # The refusal has closed the token for some seconds.
        time.sleep(6)
        self.prove(token)

    def refuse_and_confirm(self, token, raw):
        browser = self.browser
        browser.fill("Password", "wrong")
        browser.fill("A code of the new phone", "000000")
        browser.press("Confirm")
        expect("a wrong password", "didn't accept that code" in browser.text("[role=alert]"), True)
        expect("the secret is shown still", secret_of(browser.text("#secret")), raw)
        expect("with its QR code", len(browser.driver.find_elements(By.CSS_SELECTOR, "svg[role=img]")), 1)
        settle(self.site)
        # The wrong password may have closed the token.
        time.sleep(6)
        browser.open("/phone")
        browser.fill("Password", token.password)
        browser.fill("A code of the new phone", by_oathtool("-c", "0", raw.hex()))
        browser.press("Confirm")
        expect("the new phone", browser.text("h1"), "The new phone is in use")
        browser.picture("in-use")
        browser.expect_narrow("in-use")
        self.expect_no_page_with(raw)

    def expect_no_page_with(self, raw):
        """Looks whether a page has the secret after the session."""
        browser = self.browser
        page = browser.driver.page_source.replace(" ", "")
        expect("no secret on the page", raw.hex() in page or base64.b32encode(raw).decode()[:20] in page, False)
        browser.open("/phone")
        expect("nor later", (browser.path(), browser.driver.find_elements(By.ID, "once")), ("/login", []))
        browser.open("/login")

    def time_token(self):
        """A phone with a time token is replaced by one."""
        client, bob = Client(self.site), self.tokens["bob"]
        expect("logged in", client.log_in(bob), "303")
        status, raw = client.replace()
        row = self.row("bob")
        expect("the row", (status, row[0], row[2], row[3]), ("303", "HOTP/T30/6", bob.password, raw.hex()))
        settle(self.site)
        told = client.post("/phone", code=by_oathtool("--totp", raw.hex()), password=bob.password)
        expect("confirmed", (told, client.ask("/")[0]), ("200", "303"))

    def kind(self):
        """A new phone has the digits, the steps and the hash of the old one."""
        client, tom = Client(self.site), self.tokens["tom"]
        expect("logged in", client.log_in(tom), "303")
        status, raw = client.replace(kind="hotp")
        row, page = self.row("tom"), client.ask("/phone")[1].replace("&amp;", "&")
        expect("the row", (status, row[0], row[2], row[3]), ("303", tom.type, tom.password, raw.hex()))
        expect("what the page says", "time token, steps of 60 s, 8 digits, SHA-256" in page, True)
        expect("what the link says", re.findall("algorithm=[^<]*", page), ["algorithm=SHA256&digits=8&period=60"])
        settle(self.site)
        told = client.post("/phone", code=by_oathtool("--totp=sha256", "-d", "8", "-s", "60s", raw.hex()),
                           password=tom.password)
        expect("confirmed", (told, client.ask("/")[0]), ("200", "303"))

    def unrecorded(self):
        """A record that can't be written: nothing is begun. If the act is done already, its secret is shown."""
        client, ole = Client(self.site), self.tokens["ole"]
        expect("logged in", client.log_in(ole), "303")
        with self.site.record_closed_after(""):
            time.sleep(1)
            expect("an act isn't begun", (client.replace()[0], self.row("ole")[3]), ("503", ole.secret.hex()))
            other = Client(self.site)
            expect("nor a session", other.log_in(self.tokens["pam"]), "503")
        with self.site.record_closed_after('"act": "replace", "user": "ole", "outcome": "begins"'):
            client.ask("/replace")
            status = client.post("/replace", seen=client.seen, password=client.user.password, code=client.user.code())
        page = client.ask("/phone")[1]
        shown = re.search('id="secret">([^<]*)', page)
        expect("the secret is shown", (status, shown and secret_of(shown[1]).hex()), ("303", self.row("ole")[3]))
        expect("and the fault", "The record could not be written" in page, True)

    def killed(self):
        """The service is killed amid a replacement: the browser gets the secret again, without a login."""
        client, hold, una = Client(self.site), self.site.folder / "hold", self.tokens["una"]
        settle(self.site)
        expect("logged in", client.log_in(una), "303")
        hold.touch()

        def replace():
            # On a busy machine votes may use up a code. Then the user gives the next one.
            while client.replace()[0] == "403":
                time.sleep(8)
        replacing = threading.Thread(target=replace)
        replacing.start()
        await_that("the row is changed", lambda: self.row("una")[3] != una.secret.hex())
        self.site.crash_desk()
        hold.unlink()
        replacing.join()
        expect("the session is over", client.ask("/")[0], "303")
        expect("the login leads to the secret", "Show the code" in client.ask("/login")[1], True)
        shown = [re.search('id="secret">([^<]*)', client.ask("/phone")[1]) for _ in range(2)]
        raw = bytes.fromhex(self.row("una")[3])
        expect("which is shown until it is confirmed", [each and secret_of(each[1]) for each in shown], [raw] * 2)
        expect("to this browser alone", Window(self.site).ask("/phone")[0], "303")
        await_that("it is copied", lambda: (self.site.desk / "users.pending").exists(), False, 120)
        settle(self.site)
        told = client.post("/phone", code=by_oathtool("-c", "0", raw.hex()), password=una.password)
        expect("confirmed", (told, client.ask("/phone")[0]), ("200", "303"))

    def late(self):
        """No code of the new phone is accepted for a while."""
        browser, joe = self.browser, self.tokens["joe"]
        browser.log_in(joe)
        browser.open("/replace")
        self.prove(joe)
        browser.press("Replace the phone")
        time.sleep(LATE)
        browser.fill("Password", joe.password)
        browser.fill("A code of the new phone", "000000")
        browser.press("Confirm")
        told = browser.text("[role=alert]")
        expect("what is said", ("Replace the phone again, or ask your helpdesk" in told, told.startswith("For ")),
               (True, True))
        browser.picture("late")
        browser.press("replace the phone")
        expect("and can be done", browser.path(), "/replace")
        browser.press("Log out joe")

    def markup(self):
        """A name with markup."""
        browser, token = self.browser, self.tokens[MARKUP]
        browser.log_in(token)
        expect("its page", (browser.path(), browser.text("dd")), ("/", MARKUP))
        browser.open("/replace")
        self.prove(token)
        browser.press("Replace the phone")
        expect("its link", "Example%20Site:%3Cimg%2Fsrc" in browser.text("#uri"), True)
        browser.press("Log out " + MARKUP)

    def hostile(self):
        """Forms of others, a session that outlives its row, two windows at once, too many phones."""
        client, other = Client(self.site), Client(self.site)
        expect("logged in", client.log_in(self.tokens["kim"]), "303")
        client.ask("/replace")
        self.foreign_forms(client)
        expect("the row is there still", self.row("kim")[3], self.tokens["kim"].secret.hex())
        # Both windows look at the row, and both replace the phone.
        expect("a second window", other.log_in(self.tokens["kim"]), "303")
        other.ask("/replace")
        status, raw = client.replace()
        expect("the first", status, "303")
        expect("the second, whose session is over", other.post("/replace", seen=other.seen), "403")
        expect("the phone of the first is good", self.row("kim")[3], raw.hex())
        told = [client.replace()[0] for _ in range(3)]
        expect("three phones a day", told, ["303", "303", "429"])
        self.head_first()
        self.taken_back()
        many = [client.post("/login", user="nobody", code="000000", password="wrong") for _ in range(2)]
        expect("two forms", many, ["403", "403"])
        status = self.site.curl("/login", "-X", "POST", "-d", "x=" + "y" * 20000)[0]
        expect("a large form", status, "413")

    def head_first(self):
        """Asks for the head of the page with the secret: it isn't shown by that."""
        client = Client(self.site)
        expect("logged in", client.log_in(self.tokens["nia"]), "303")
        expect("without a code", (client.ask("/replace")[0], client.post("/replace", seen=client.seen)), ("200", "403"))
        more = {"password": client.user.password, "code": client.user.code()}
        client.ask("/replace")
        expect("replaced", client.post("/replace", seen=client.seen, **more), "303")
        head = self.site.curl("/phone", "-I", "-H", "Cookie: " + client.cookie)
        expect("a head", (head[0], head[2]), ("200", ""))
        expect("then the secret is shown", 'id="secret"' in client.ask("/phone")[1], True)
        client.ask("/replace")
        expect("log out", client.post("/logout"), "303")
        expect("and no more", client.ask("/phone")[0], "303")

    def foreign_forms(self, client):
        good = {"token": client.token, "seen": client.seen}
        for path in "/replace", "/phone", "/resync", "/login", "/logout":
            form = self.form(client, **{**good, "user": "kim", "password": "x", "code": "000000", "next": "000000"})
            bare = [word for word in form if not word.startswith("token=")][1:]
            stranger = Window(self.site)
            told = [client.ask(path, *bare)[0], client.ask(path, *bare, "-d", "token=" + "0" * 64)[0],
                    client.ask(path, *form, origin="https://evil.example")[0],
                    client.ask(path, *form, "-H", "Sec-Fetch-Site: cross-site")[0], stranger.ask(path, *form)[0]]
            expect("%s: no token, a wrong one, two of another site, no session" % path, told, ["403"] * 5)
            client.token, client.seen = good["token"], good["seen"]
            time.sleep(5)

    def taken_back(self):
        """The helpdesk gives a user a new phone, while a thief is logged in by the old one."""
        thief, pia = Client(self.site), self.tokens["pia"]
        settle(self.site)
        expect("a thief is in", thief.log_in(pia), "303")
        thief.ask("/replace")
        text = self.site.read("desk/users")
        self.site.by_hand(text.replace(pia.secret.hex(), "5a" * 20))
        expect("no act by that session", thief.post("/replace", seen=thief.seen), "403")
        expect("no page", [thief.ask(path)[0] for path in ("/", "/replace", "/phone")], ["303"] * 3)
        expect("the row of the helpdesk", self.row("pia")[3], "5a" * 20)
        self.site.by_hand(text)

    def not_copied(self):
        """A member to which the file isn't copied."""
        browser, lea = self.browser, self.tokens["lea"]
        before = self.site.book_of_file(3)
        settle(self.site)
        with self.site.closed(3):
            browser.log_in(lea)
            browser.open("/replace")
            self.prove(lea)
            browser.press("Replace the phone")
            expect("what is said", "isn't known to all members" in browser.text("[role=status]"), True)
            raw = secret_of(browser.text("#secret"))
            settle(self.site, 1, 2)
            expect("member 3 has the old file", self.site.book_of(3), before)
        await_that("it is copied again", lambda: (self.site.desk / "users.pending").exists(), False, 120)
        settle(self.site)
        browser.open("/phone")
        expect("and the page says so", "isn't known to all members" in browser.text(), False)
        browser.fill("Password", lea.password)
        browser.fill("A code of the new phone", by_oathtool("-c", "0", raw.hex()))
        browser.press("Confirm")
        expect("after that", browser.text("h1"), "The new phone is in use")

    def down(self):
        """A member is down, then two."""
        mia, max_ = Client(self.site), Client(self.site)
        self.site.stop("node 3")
        expect("a login", mia.log_in(self.tokens["mia"]), "303")
        status, raw = mia.replace()
        expect("a new phone", status, "303")
        settle(self.site, 1, 2)
        told = mia.post("/phone", code=by_oathtool("-c", "0", raw.hex()), password=self.tokens["mia"].password)
        expect("which is confirmed", told, "200")
        self.site.stop("node 2")
        status, body = max_.ask("/login")
        form = self.form(max_, user="max", password=self.tokens["max"].password, code=self.tokens["max"].code())
        status, body = max_.ask("/login", *form)
        expect("no majority", (status, "decide now" in body), ("503", True))
        self.site.start_nodes(2, 3)
        expect("members that come back know the new phone", self.answer("mia", by_oathtool("-c", "1", raw.hex())),
               "OK 1")

    def end(self):
        """What the site tells browsers and logs."""
        head = self.site.curl("/login")[1]
        for line in ("Cache-Control: no-store", "Content-Security-Policy: default-src 'none'",
                     "Referrer-Policy: same-origin", "X-Content-Type-Options: nosniff",
                     "Strict-Transport-Security: max-age="):
            expect(line, line in head, True)
        log = self.site.read_all("logins", "faults", "error.log", "desk/record", "access.log")
        codes = {code(each.secret, factor) for each in self.tokens.values() if each.is_event for factor in range(60)}
        expect("no code stands in a log", codes & set(re.findall(r"\b\d{6}\b", log)), set())
        expect("the self-service had no fault", self.site.read("faults"), "")


PARTS = ["off", "login", "resync", "replace", "time_token", "kind", "unrecorded", "killed", "late", "markup", "hostile",
         "not_copied", "down", "end"]


def main():
    names = "fay gus hal ida ann bob cid joe kim pia lea mia nia max ole pam una sam".split() + [MARKUP]
    tokens = {name: Token(name, name != "bob", "word-%d-of-a-user" % number) for number, name in enumerate(names)}
    tokens.update(dan=Token("dan"), eli=Token("eli", password="+"))
    tokens.update(tom=Token("tom", password="word-of-tom", type="HOTP/T60/8/SHA256"))
    return browsing.run(__doc__, "trial/self-service", PARTS,
                        lambda folder: UsersSite(folder, tokens.values(), ["sam"]),
                        lambda site, browser: Test(site, tokens, browser))


if __name__ == "__main__":
    sys.exit(main())
