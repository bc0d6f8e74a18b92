"""Works at a site as its users do: in Chromium without a screen, by the keyboard alone, and by curl."""
import argparse
import re
import shutil
import signal
import sys
import tempfile
import time
from pathlib import Path

from counting import PATIENCE, await_that, expect, last_line
from selenium import webdriver
from selenium.webdriver.chrome.options import Options
from selenium.webdriver.chrome.service import Service
from selenium.webdriver.common.action_chains import ActionChains
from selenium.webdriver.common.by import By
from selenium.webdriver.common.keys import Keys
from selenium.webdriver.support.expected_conditions import staleness_of
from selenium.webdriver.support.ui import WebDriverWait
from trial_site import IS_ROOT, NODES, TOP, wakdulg

FOCUSABLE = "a[href], button, input:not([type=hidden]), select, [tabindex='0']"
# What a page has to have, whoever reads it and by whatever.
AUDIT = r"""
const faults = [], all = (what) => [...document.querySelectorAll(what)], one = (what, number) => {
    if (all(what).length !== number) faults.push(all(what).length + " of " + what); };
one("main", 1); one("h1", 1); one("html[lang]", 1);
if (!document.title) faults.push("no title");
for (const each of all("input:not([type=hidden]), select"))
    if (!each.labels.length) faults.push("no label: " + each.name);
for (const each of all("button, a[href], th, legend, caption"))
    if (!each.textContent.trim()) faults.push("no text: " + each.outerHTML);
for (const each of all("nav, [role=img], [role=region]"))
    if (!each.getAttribute("aria-label")) faults.push("no name: " + each.tagName);
for (const each of all("table")) if (!each.caption) faults.push("a table without a caption");
for (const each of all("th")) if (!each.scope) faults.push("a head without a scope");
const ids = all("[id]").map((each) => each.id);
if (new Set(ids).size !== ids.length) faults.push("an id twice");
let last = 0;
for (const each of all("h1, h2, h3")) {
    const level = Number(each.tagName[1]);
    if (level > last + 1) faults.push("a heading is passed over: " + each.textContent);
    last = level;
}
if (all("script:not([src]), [onclick], [style]").length) faults.push("inline script or style");
if (window.hacked) faults.push("markup of a name ran");
return faults;
"""
# How many presses of TAB lead from the focus to the element with a text.
STEPS = r"""
const found = [...document.querySelectorAll(arguments[0])].filter((each) => each.getClientRects().length
    && !(each.type === "radio" && !each.checked));
const name = (each) => ((each.labels && each.labels[0]) || each).textContent.trim();
// A button of the form comes after a link of the navigation that has the same name.
const at = found.findLastIndex((each) => name(each) === arguments[1]);
return at < 0 ? null : at - found.indexOf(document.activeElement);
"""
TEXTS = "return [...document.querySelectorAll(arguments[0])].map((each) => each.innerText)"


class Browser:
    """Chromium without a screen, worked by the keyboard. Its profile is a folder, which is looked at in the end."""

    def __init__(self, site, pictures):
        self.site, self.pictures, self.faults, self.by_mouse = site, Path(pictures), [], []
        self.pictures.mkdir(parents=True, exist_ok=True)
        self.profile = Path(tempfile.mkdtemp())
        options = Options()
        options.binary_location = "/usr/bin/chromium"
        words = ["--headless=new", "--ignore-certificate-errors", "--disable-gpu", "--disable-dev-shm-usage",
                 "--host-resolver-rules=MAP %s 127.0.0.1" % site.host, "--disable-extensions", "--no-first-run",
                 "--disable-background-networking", "--disable-component-update", "--disable-sync",
                 "--window-size=1000,900", "--user-data-dir=%s" % self.profile]
        for word in words + ["--no-sandbox"] * IS_ROOT:
            options.add_argument(word)
        options.set_capability("goog:loggingPrefs", {"browser": "ALL"})
        self.driver = webdriver.Chrome(service=Service("/usr/bin/chromedriver"), options=options)
        self.driver.command_executor.set_timeout(600)
        self.driver.set_page_load_timeout(PATIENCE)
        self.driver.set_script_timeout(PATIENCE)

    def look(self):
        """Looks at the page that is there."""
        found = self.driver.execute_script(AUDIT)
        found += [line["message"] for line in self.driver.get_log("browser")
                  if line["level"] == "SEVERE" and "the server responded with a status of" not in line["message"]]
        self.faults += ["%s: %s" % (self.driver.current_url, fault) for fault in found]

    def open(self, path):
        self.driver.get(self.site.url + path)
        self.look()

    def keys(self, *keys):
        ActionChains(self.driver).send_keys(*keys).perform()

    def tab(self, steps):
        """Presses TAB so often, backwards if `steps` is negative."""
        chain = ActionChains(self.driver)
        if steps < 0:
            chain.key_down(Keys.SHIFT)
        chain.send_keys(*[Keys.TAB] * abs(steps))
        if steps < 0:
            chain.key_up(Keys.SHIFT)
        chain.perform()

    def tab_to(self, text, what=FOCUSABLE):
        """Moves the focus by TAB to what has this text or label."""
        for _ in range(20):
            steps = self.driver.execute_script(STEPS, what, text)
            if steps is None:
                raise LookupError("nothing has the text %r: %s" % (text, self.text()[:300]))
            if steps == 0:
                return
            self.tab(steps)
        self.by_mouse.append(text)

    def leave(self, *keys):
        """Presses keys, and waits for the next page."""
        old = self.driver.find_element(By.TAG_NAME, "html")
        self.keys(*keys)
        WebDriverWait(self.driver, PATIENCE, 0.3).until(staleness_of(old))
        ready = lambda driver: driver.execute_script("return document.readyState") == "complete"
        WebDriverWait(self.driver, PATIENCE, 0.3).until(ready)
        self.look()

    def press(self, text):
        self.tab_to(text)
        self.leave(Keys.ENTER)

    def fill(self, label, text):
        self.tab_to(label)
        self.keys(text)

    def text(self, what="body"):
        return self.driver.find_element(By.CSS_SELECTOR, what).text

    def texts(self, what):
        """Returns the text of each such element, at one moment."""
        return [" ".join(text.split()) for text in self.driver.execute_script(TEXTS, what)]

    def path(self):
        return self.driver.current_url.removeprefix(self.site.url)

    def picture(self, name):
        self.driver.save_screenshot(str(self.pictures / (name + ".png")))

    def cookie(self):
        name = next(each["name"] for each in self.driver.get_cookies() if each["name"].startswith("__Host-"))
        return "%s=%s" % (name, self.driver.get_cookie(name)["value"])

    def is_wider(self):
        """Returns by how many pixels the page is wider than the window."""
        script = "const page = document.documentElement; return page.scrollWidth - page.clientWidth"
        return self.driver.execute_script(script)

    def narrow(self, width):
        self.driver.execute_cdp_cmd("Emulation.setDeviceMetricsOverride", {
            "width": width, "height": 800, "deviceScaleFactor": 1, "mobile": False})

    def expect_narrow(self, name):
        """Looks at the page that is shown in 400 px."""
        self.narrow(400)
        expect("%s in 400 px" % name, self.is_wider(), 0)
        self.picture("narrow-" + name)
        self.driver.execute_cdp_cmd("Emulation.clearDeviceMetricsOverride", {})

    def log_in(self, token):
        self.open("/login")
        self.fill_login(token)

    def fill_login(self, token):
        """Sends the form of the login that is shown."""
        self.fill("Name", token.name)
        if password_of(token):
            self.fill("Password", password_of(token))
        self.fill("Code", token.code())
        self.press("Log in")

    def end(self):
        self.driver.quit()

    def kept(self):
        """Returns the files of the profile."""
        return [path for path in self.profile.rglob("*") if path.is_file()]


def password_of(token):
    """Returns what the user gives as a password, or "" for none."""
    return token.word or (token.password if token.password != "-" else "")


class Window:
    """A browser without JavaScript: curl, and what a form has. Each has an address of its own, by nginx's limit."""
    count = 0

    def __init__(self, site):
        self.site, self.cookie, self.token, self.seen = site, "", "", ""
        Window.count += 1
        self.address = "127.2.%d.%d" % divmod(Window.count, 250)

    def ask(self, path, *words, origin=None):
        head = ["-H", "Origin: " + (origin or self.site.url)] if words else []
        status, head, body = self.site.curl(path, "--interface", self.address, "-H", "Cookie: " + self.cookie, *head,
                                            *words)
        found = re.search("Set-Cookie: ([^;]*)", head)
        self.cookie = found[1] if found else self.cookie
        for name in "token", "seen":
            found = re.search('name="%s" value="([^"]*)"' % name, body)
            setattr(self, name, found[1] if found else getattr(self, name))
        self.head = head
        return status, body

    def post(self, path, **fields):
        words = [word for name, text in {"token": self.token, **fields}.items()
                 for word in ("--data-urlencode", "%s=%s" % (name, text))]
        return self.ask(path, *words)[0]

    def log_in(self, token):
        self.ask("/login")
        return self.post("/login", user=token.name, code=token.code(), password=password_of(token))


def await_answer(front, name, code, **more):
    """Returns what the cluster says of a code, when it has decided."""
    for _ in range(10):
        try:
            return str(front.check(name, code, **more))
        except wakdulg.Undecided:
            time.sleep(3)
        except wakdulg.Throttled as refusal:
            time.sleep(refusal.seconds + 1)
        except wakdulg.Refused as refusal:
            return refusal.reason
    return "undecided"


def settle(site, *nodes):
    """Waits until each of these members, or of all, has taken the users file that lies there."""
    nodes = nodes or NODES
    await_that("members %s have the file" % ", ".join(map(str, nodes)),
               lambda: [site.book_of(node) == site.book_of_file(node) for node in nodes], [True] * len(nodes))


def files_with(texts, paths):
    """Returns the names of the files that have one of these texts."""
    wanted = [text.lower().encode(form) for text in texts for form in ("utf-8", "utf-16-le")]
    found = []
    for path in paths:
        data = path.read_bytes().lower()
        found += [str(path)] * any(text in data for text in wanted)
    return found


def expect_no_secret(site, browser):
    """Looks for each secret in all logs, in the record, and in what the browser kept after its end."""
    texts = site.all_secrets() | {"otpauth:"}
    logs, kept = [path for path in site.logs() if path.exists()], browser.kept()
    expect("each log is there", sorted(path.name for path in site.logs() if path not in logs), [])
    expect("the log of addresses has some", files_with({"/login"}, [site.folder / "access.log"]) != [], True)
    history = [path for path in kept if path.name == "History"]
    expect("the browser's history has the site", files_with({site.url}, history) != [], True)
    expect("no log and no record has one of %d secrets" % len(texts), files_with(texts, logs), [])
    expect("none of %d files of the browser has one" % len(kept), files_with(texts, kept), [])


def run(doc, folder, parts, make_site, make_test):
    """Runs parts of a test over a site. The last line counts."""
    parser = argparse.ArgumentParser(usage=doc.split("\n\n")[1].strip())
    parser.add_argument("--pictures", default=str(TOP / folder))
    parser.add_argument("parts", nargs="*", default=[])
    words, begin = parser.parse_args(), time.monotonic()
    # A test that is ended ends what it started.
    signal.signal(signal.SIGTERM, lambda *_: sys.exit(143))
    with tempfile.TemporaryDirectory() as place:
        site, browser = make_site(place), None
        try:
            site.start()
            browser = Browser(site, words.pictures)
            print("started after %d s" % (time.monotonic() - begin), flush=True)
            run_parts(make_test(site, browser), words.parts or parts, begin)
            expect("all was reached by the keyboard", browser.by_mouse, [])
            expect("what was found on the pages", browser.faults, [])
            browser.end()
            expect_no_secret(site, browser)
        finally:
            for close in ([browser.end] if browser else []) + [site.stop_all]:
                close()
            if browser:
                shutil.rmtree(browser.profile, ignore_errors=True)
            print(site.read_all("faults", "error.log")[-2000:], end="")
    return last_line()


def run_parts(test, parts, begin):
    test.prepare(parts)
    for part in parts:
        print("%s, after %d s: %s" % (part, time.monotonic() - begin, getattr(test, part).__doc__), flush=True)
        try:
            getattr(test, part)()
        except Exception as fault:
            expect(part, "%s: %s" % (type(fault).__name__, str(fault)[:400]), "its end")
            test.browser.picture("fault-" + part)
