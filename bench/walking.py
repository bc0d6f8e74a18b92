"""What bench/year walks with: the commands of pages, a shell, a site of three nodes by names, a client, and a judge."""
import collections
import contextlib
import dataclasses
import hashlib
import hmac
import importlib.machinery
import importlib.util
import os
import re
import select
import shutil
import sqlite3
import subprocess
import sys
import threading
import time
from concurrent.futures import ThreadPoolExecutor
from pathlib import Path
from textwrap import indent

sys.path.insert(1, str(Path(__file__).resolve().parents[1] / "tools"))
from checkout import TOP
import wakdulg
from otp import RFC_KEY, code

# How many logins of the client may be under way, and of users who log in once.
WORKERS, FEW = 64, 4
# For how long the client asks before an act, and how long an act lasts after its last command, in seconds.
BEFORE, REST = 2.0, 3.0
# The word of the page that begins a cluster by names.
NAMES = "trial-of-names-1"
# The secrets of the pages' users, if they have another one than the RFC's.
PAGE_SECRETS = {"bob": b"98765432109876543210".hex(), "dan": "30" * 20}
# The pages have codes of counters below this one.
PAGE_CODES = 30
MARK = b"\x1e"


def load_pages():
    """Returns the module that `tools/pages` is."""
    loader = importlib.machinery.SourceFileLoader("pages", str(TOP / "tools/pages"))
    module = importlib.util.module_from_spec(importlib.util.spec_from_loader("pages", loader))
    sys.modules["pages"] = module
    loader.exec_module(module)
    return module


pages = load_pages()


def secret_of(word):
    """Returns the secret of a user, 20 bytes."""
    return hashlib.sha1(word.encode()).digest()


def page_secret(user):
    """Returns the secret of a user of the pages, as its row has it."""
    return PAGE_SECRETS.get(user, RFC_KEY.hex())


def row_of(user, kind="HOTP", password="-", secret=None):
    return "%s %s %s %s" % (kind, user, password, (secret or secret_of(user)).hex())


# ---- The commands of the pages


def section_of(page, heading):
    """Returns the commands of a page below a heading."""
    text = (TOP / "docs/how-to" / (page + ".md")).read_text()
    headings, inside, last = {}, False, ""
    for number, line in enumerate(text.splitlines(), 1):
        if line.lstrip().startswith("```"):
            inside = not inside
        elif not inside and line.startswith("#"):
            last = line.lstrip("# ")
        headings[number] = last
    found = [command for command in pages.commands_of(text) if headings[command.line] == heading]
    if not found:
        sys.exit("year: %s.md has no commands below %r" % (page, heading))
    return found


def anchor_of(page, heading):
    """Returns the link to a heading of a page, for a page of docs."""
    return "how-to/%s.md#%s" % (page, re.sub("[^a-z0-9 -]", "", heading.lower()).replace(" ", "-"))


def loosened(told):
    """Returns what a page tells without the numbers that differ in a site of more users and former acts."""
    line = re.sub(r"\b(boot|tokens|rows|retired)=\d+", r"\1=...", told)
    return re.sub(r"\b(rows|tokens|tokens HOTP/\w+|row) \d+", r"\1 ...", line)


class Own:
    """The words of a page, with the users, secrets and codes of an act in the place of the page's.

    The suffix is part of each of them. If it is empty, the words stay as they are."""

    def __init__(self, suffix):
        self.suffix = suffix

    def secret(self, digits):
        return secret_of(digits + self.suffix)

    def text(self, text):
        if not self.suffix:
            return text
        text = re.sub(r"\b[0-9]{40}\b", lambda found: self.secret(found[0]).hex(), text)
        text = re.sub(r"\b(?:CHECK|RESYNC) (\w+) [0-9]{6}(?: [0-9]{6})?", self.codes, text)
        return re.sub(r"\b(ann|bob|cid|dan|eve)\b", r"\g<1>" + self.suffix, text)

    def codes(self, found):
        """Returns a line with the codes of the secret that the act has in the place of the page's."""
        secret = page_secret(found[1])
        old, key = bytes.fromhex(secret), self.secret(secret)
        own = {code(old, factor): code(key, factor) for factor in range(PAGE_CODES)}
        return re.sub("[0-9]{6}", lambda digits: own.get(digits[0], digits[0]), found[0])

    def rows(self, *names):
        """Returns the rows of page users with event tokens, and of cid with a time token."""
        return [row_of(name + self.suffix, "HOTP/T30" if name == "cid" else "HOTP",
                       secret=self.secret(page_secret(name))) for name in names]


class Shell:
    """A session of bash in a folder, whose commands end with a mark."""

    def __init__(self, folder, environment, patience):
        self.texts, self.count, self.patience = folder.with_name(folder.name + ".commands"), 0, patience
        self.texts.mkdir()
        self.process = subprocess.Popen(["bash"], cwd=folder, env=environment, stdin=subprocess.PIPE,
                                        stdout=subprocess.PIPE, stderr=subprocess.STDOUT, start_new_session=True)

    def run(self, text):
        """Runs a command. Returns what it printed."""
        path = self.texts / str(self.count)
        self.count += 1
        path.write_text(text + "\n")
        self.process.stdin.write(b". %s < /dev/null\nprintf '%s'\n" % (bytes(path), MARK))
        self.process.stdin.flush()
        printed, end = b"", time.monotonic() + self.patience
        while not printed.endswith(MARK):
            if not select.select([self.process.stdout], [], [], max(0, end - time.monotonic()))[0]:
                sys.exit("year: a command takes longer than --patience: %s\n%s" % (text, printed.decode()))
            more = os.read(self.process.stdout.fileno(), 65536)
            if not more:
                sys.exit("year: the shell ended: %s\n%s" % (text, printed.decode()))
            printed += more
        return printed[:-1].decode(errors="replace")

    def close(self):
        pages.end_group(self.process)


# ---- The client


class User:
    """A user with an event token, and the counter of its next code."""

    def __init__(self, name):
        self.name, self.key, self.counter, self.open_at, self.is_busy = name, secret_of(name), 0, 0.0, False


@dataclasses.dataclass
class Login:
    """A login: when it began and ended, whose it was, and the answer or the factor of an OK."""
    begin: float
    end: float
    user: str
    refusal: str
    factor: int


def log_in(cluster, user):
    """Logs a user in by the next code."""
    begin, refusal, factor = time.monotonic(), "", -1
    try:
        factor = cluster.check(user.name, code(user.key, user.counter)).factor
        user.counter = factor + 1
    except wakdulg.Throttled as told:
        refusal, user.open_at = "THROTTLED", time.monotonic() + told.seconds
    except wakdulg.Refused as told:
        # The code may be used up. A failure closes the token for five seconds.
        refusal, user.counter = told.reason, user.counter + 1
        user.open_at = time.monotonic() + (5.5 if told.reason in ("INVALID", "SPENT") else 0)
    return Login(begin, time.monotonic(), user.name, refusal, factor)


class Client:
    """Begins logins at a rate, by one token after the other."""

    def __init__(self, folder, names, rate):
        self.folder, self.users, self.logins, self.rate = folder, [User(name) for name in names], [], rate
        self.key, self.members, self.cluster, self.seen = None, "", None, {}
        self.is_over, self.pool = False, ThreadPoolExecutor(WORKERS)
        self.thread = threading.Thread(target=self.run, daemon=True)

    def has_changed(self, name):
        """Returns whether a file is another one than at the last look."""
        try:
            status = os.stat(self.folder / name)
        except OSError:
            return False
        before, self.seen[name] = self.seen.get(name), (status.st_ino, status.st_mtime_ns, status.st_size)
        return before != self.seen[name]

    def read_files(self):
        """Reads the members, and the counters of the users file, which a page may have raised."""
        if self.has_changed("cluster"):
            found = re.findall(r"^member \d (\S+)", (self.folder / "cluster").read_text(), re.M)
            if found and ",".join(found) != self.members:
                self.members = ",".join(found)
                self.cluster = wakdulg.Cluster(self.members, key=self.key or wakdulg.PLAIN_LINES)
        if self.has_changed("users"):
            rows = [row.split() for row in (self.folder / "users").read_text().splitlines()]
            raised = {fields[1]: int(fields[4]) for fields in rows if len(fields) > 4}
            for user in self.users:
                user.counter = max(user.counter, raised.get(user.name, 0))

    def use_key(self, key):
        """Asks under a key from now on, or plainly if it is None."""
        self.key, self.cluster = key, wakdulg.Cluster(self.members, key=key)

    def try_one(self, user):
        self.logins.append(log_in(self.cluster, user))
        user.is_busy = False

    def run(self):
        begin, at, turn = time.monotonic(), 0, 0
        while not self.is_over:
            self.read_files()
            free = (self.users[(turn + step) % len(self.users)] for step in range(len(self.users)))
            user = next((user for user in free if not user.is_busy and user.open_at <= time.monotonic()), None)
            if user and self.cluster:
                user.is_busy, turn = True, self.users.index(user) + 1
                self.pool.submit(self.try_one, user)
            at += 1
            time.sleep(max(0, begin + at / self.rate - time.monotonic()))

    def end(self):
        """Begins no more logins, and waits for those under way."""
        self.is_over = True
        if self.thread.ident:
            self.thread.join()
        self.pool.shutdown()

    def log_all_in(self, names):
        """Logs users in once, each by the first code. Returns how often each answer came."""
        with ThreadPoolExecutor(FEW) as pool:
            logins = list(pool.map(lambda name: log_in(self.cluster, User(name)), names))
        self.logins += [login for login in logins if login.factor >= 0]
        return collections.Counter(login.refusal or "OK" for login in logins)


def longest_gap(logins, begin, end):
    """Returns the longest time between two acceptances that overlaps a span of time."""
    times = sorted(login.end for login in logins if login.factor >= 0)
    return max((later - earlier for earlier, later in zip(times, times[1:]) if later > begin and earlier < end),
               default=float("inf"))


# ---- A site


@dataclasses.dataclass
class Row:
    """What an act had in a round: its pages, its span of time, and what it told."""
    pages: list
    begin: float = 0.0
    end: float = 0.0
    has_logins: bool = True
    told: list = dataclasses.field(default_factory=list)
    gap: float = float("nan")
    before: float = float("nan")
    begun: int = 0
    came_in: int = 0
    refused: collections.Counter = dataclasses.field(default_factory=collections.Counter)


class Site:
    """Three members with their files in one folder, as examples/trial-cluster makes them, and a client."""

    def __init__(self, folder, programs, given, rows):
        self.folder, self.kept, self.given, self.rows = folder, folder.with_name(folder.name + ".kept"), given, {}
        folder.mkdir()
        self.kept.mkdir()
        for name, target in [("oathd", programs / "oathd"), ("oathtool", programs / "oathtool"),
                             *((each, TOP / each) for each in ("examples", "python", "tools"))]:
            (folder / name).symlink_to(target)
        environment = dict(os.environ, PATH="%s:%s" % (programs, os.environ["PATH"]), LC_ALL="C",
                           PYTHONDONTWRITEBYTECODE="1")
        self.shell = Shell(folder, environment, given.patience)
        self.client = Client(folder, ["load%03d" % number for number in range(given.tokens)], given.rate)
        self.first_rows = [*(row_of(user.name) for user in self.client.users), *rows]
        self.name = self.row = self.own = None
        # How much was not as told.
        self.wrong = 0

    def __enter__(self):
        return self

    def __exit__(self, *_):
        self.client.is_over = True
        self.shell.close()

    def act(self, name, run, own):
        """Does an act with users of its own, and notes its row."""
        self.name, self.own, self.row = name, own, Row([])
        self.rows[name] = self.row
        run(self)
        print("%s: done" % name, file=sys.stderr, flush=True)

    @contextlib.contextmanager
    def timed(self):
        """The part of an act that counts."""
        self.row.has_logins = self.client.thread.ident is not None
        if self.row.has_logins:
            time.sleep(BEFORE)
        self.row.begin = time.monotonic()
        yield
        self.row.end = time.monotonic() + REST
        if self.row.has_logins:
            time.sleep(REST)

    def run(self, text, told=None, own=None):
        """Runs a command, and compares what it prints with what is told, if anything is. Returns it."""
        own = own or self.own
        # The probes of a look have one secret, which `oathd check` notes.
        printed = re.sub(r"(?m)^oathd: note: .* have one secret: .*\n", "", pages.plain(self.shell.run(own.text(text))))
        pattern = None if told is None else pages.pattern_of([loosened(own.text(line)) for line in told])
        if pattern is not None and not re.fullmatch(pattern, printed):
            lines = "".join("    %s\n" % line for line in told), indent(printed[:1500], "    ")
            self.expect(False, "$ %s\n  told:\n%s  printed:\n%s" % (own.text(text), *lines))
        if self.given.verbose:
            print("$ %s\n%s" % (own.text(text), printed), file=sys.stderr, end="", flush=True)
        if key := re.search(r"^examples/clients/ask.py --key-file (\d+):(\S+) .* 127.0.0.1:7101", text):
            self.client.use_key(wakdulg.read_key("%s:%s" % (key[1], self.folder / key[2])))
        return printed

    def page(self, page, heading, changes=None, own=None):
        """Runs the commands of a page below a heading, and returns what each printed.

        `changes` has by the text of a command what is run in its place and what that is to tell, or None."""
        self.row.pages.append((page, heading))
        changes, printed, commands = changes or {}, [], section_of(page, heading)
        if unknown := set(changes) - {command.text for command in commands}:
            sys.exit("year: %s.md lacks these commands below %r: %s" % (page, heading, unknown))
        for command in commands:
            change = changes.get(command.text, (command.text, command.told))
            if change is not None:
                printed.append(self.run(*change, own=own))
        return printed

    def by(self, page, heading):
        """Notes a page whose act is done by commands of other pages."""
        self.row.pages.append((page, heading))

    def expect(self, holds, text):
        """Notes and prints what is wrong with an act if something doesn't hold."""
        if not holds:
            self.wrong += 1
            print("%s: not as told: %s" % (self.name, text.rstrip()), flush=True)

    def keep(self, *members):
        """Keeps the databases of stopped members aside, which an act removes."""
        for member in members:
            kept = self.kept / ("%d.%d" % (member, len(list(self.kept.iterdir()))))
            kept.mkdir()
            for end in "", "-wal":
                if (self.folder / ("node%d.db%s" % (member, end))).exists():
                    shutil.copy(self.folder / ("node%d.db%s" % (member, end)), kept / ("node.db" + end))

    def wait_for_time_tokens(self):
        """Waits until the time that `oathd init` printed."""
        time.sleep(max(0, self.time_tokens_from + 1 - time.time()))

    def log_lines(self, member):
        return (self.folder / ("log.%d" % member)).read_text(errors="replace").splitlines()

    def judge_rows(self):
        """Fills in the columns of each row."""
        logins = self.client.logins
        for row in self.rows.values():
            if not row.has_logins:
                continue
            row.gap = longest_gap(logins, row.begin, row.end)
            row.before = longest_gap(logins, row.begin - BEFORE, row.begin)
            here = [login for login in logins if row.begin <= login.begin < row.end]
            row.begun, row.came_in = len(here), sum(login.factor >= 0 for login in here)
            row.refused = collections.Counter(login.refusal for login in here if login.factor < 0)

    def say_refused(self):
        """Prints each login that was refused: its act, when it began there, whose it was, and how long it took."""
        for name, row in self.rows.items():
            for login in self.client.logins:
                if login.factor < 0 and row.begin <= login.begin < row.end:
                    print("%s: %.1f s after the first command %s got %s, in %.1f s" % (
                        name, login.begin - row.begin, login.user, login.refusal, login.end - login.begin))


# ---- Whether a factor was accepted twice


def name_of(user):
    """Returns the name of a client's token in the databases."""
    identity = "HOTP/E/6\t%s\t%s\n" % (user, secret_of(user).hex())
    return hmac.digest(NAMES.encode(), identity.encode(), "sha256")[:16]


def passes_of(path, place):
    """Returns the acceptances of a database: member, boot, number of the vote, the token's name, and the factor."""
    copy = place / "copy.db"
    for end in "", "-wal", "-shm":
        Path("%s%s" % (copy, end)).unlink(missing_ok=True)
        if end != "-shm" and Path("%s%s" % (path, end)).exists():
            shutil.copy(Path("%s%s" % (path, end)), "%s%s" % (copy, end))
    with contextlib.closing(sqlite3.connect(copy)) as tables:
        if not tables.execute("SELECT 1 FROM sqlite_master WHERE name = 'roster'").fetchone():
            return set()
        member = tables.execute("SELECT node FROM self").fetchone()[0]
        rows = tables.execute("SELECT boot, seq, name, lo, hi FROM pass JOIN roster USING (token)").fetchall()
    return {(member, boot, seq, bytes(name), factor)
            for boot, seq, name, lo, hi in rows for factor in range(lo, hi + 1)}


def judge_factors(site, place):
    """Returns what is wrong with the accepted factors of a round, and how many there are in how many databases."""
    heard = collections.Counter((login.user, login.factor) for login in site.client.logins if login.factor >= 0)
    wrong = ["the client heard twice that %s is in by %d" % login for login, count in heard.items() if count > 1]
    paths = [*site.folder.glob("*.db"), *site.folder.glob("*/*.db"), *site.kept.glob("*/*.db")]
    # A copy of a database has the same rows.
    passes = set().union(*(passes_of(path, place) for path in paths))
    accepted = collections.Counter((name, factor) for _, _, _, name, factor in passes)
    wrong += ["%s has the factor %d in two passes" % (name.hex(), factor)
              for (name, factor), count in accepted.items() if count > 1]
    lost = [login for login in heard if (name_of(login[0]), login[1]) not in accepted]
    wrong += ["no database has that %s is in by %d" % login for login in lost]
    return wrong, "%d factors heard, %d accepted by %d databases" % (len(heard), len(accepted), len(paths))
