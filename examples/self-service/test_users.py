#!/usr/bin/python3
"""Tries a site whose nodes, helpdesk and self-service run as three system users: test_users.py

It runs the commands of docs/how-to/helpdesk.md and docs/how-to/self-service.md, and starts what the units name. sshd on
loopback takes the copies of the users file, as root of a member does. A login, an enrolment and a replacement are
made. Then each user tries each file of the others. The last line counts. Status 77 if it isn't root, or a program isn't
there.

It has a mount namespace of its own, in which what it changes in /etc, /run, /usr/local/lib and /var/lib is kept in
memory. So the machine has neither its users nor its files. OATHD is the program, else ./oathd. Packages: curl,
openssh-client, openssh-server, passwd, python3-flask, python3-argon2, python3-cryptography, gunicorn, qrencode.
"""
import base64
import grp
import html
import os
import pwd
import re
import secrets
import shlex
import shutil
import socket
import subprocess
import sys
import tempfile
import time
from importlib.util import find_spec
from pathlib import Path

HERE = Path(__file__).resolve().parent
sys.dont_write_bytecode = True
sys.path[1:1] = [str(HERE.parent / "helpdesk"), str(HERE.parents[1] / "tools")]
NEEDS = ("curl", "ssh", "ssh-keygen", "sshd", "unshare", "mount", "useradd", "qrencode")
PATH = os.environ["PATH"] + ":/usr/sbin:/sbin"
ETC, STORES, CREDENTIALS = Path("/etc/wakdulg"), Path("/var/lib/wakdulg"), Path("/run/credentials")
DESK, OWN, BOOK = Path("/var/lib/helpdesk"), Path("/var/lib/self-service"), Path("/var/lib/otp-users")
WORD, STAFF_WORD = "the password of ann", "the password of sam"
# What a user does with files: the errors of reading, of writing, and of a connection to a socket.
TRY = """
import errno, os, socket, sys
def told(call, *words):
    try:
        call(*words)
    except OSError as fault:
        return errno.errorcode[fault.errno]
    return "done"
for path in sys.argv[1:]:
    if path.endswith("socket"):
        found = [told(socket.socket(socket.AF_UNIX).connect, path)]
    else:
        found = [told(os.open, path, os.O_RDONLY), told(os.open, path, os.O_WRONLY)]
    print(path, *found)
"""


def left_out(what):
    print("test_users.py: left out: " + what)
    sys.exit(77)


def mounts_of(process):
    """Returns the mount namespace of a process, or "" if this process may not know it."""
    try:
        return os.readlink("/proc/%s/ns/mnt" % process)
    except OSError:
        return ""


def own_namespace():
    """Goes on in a mount namespace of its own, or ends if that isn't possible."""
    if os.geteuid() != 0:
        left_out("it wants root, since it makes system users")
    lacking = [each for each in NEEDS if shutil.which(each, path=PATH) is None]
    lacking += [each for each in ("argon2", "cryptography", "flask", "gunicorn") if find_spec(each) is None]
    if lacking:
        left_out("it needs " + ", ".join(lacking))
    if mounts_of("self") in (mounts_of(os.getppid()), mounts_of(1)):
        if subprocess.run(["unshare", "--mount", "true"], capture_output=True).returncode:
            left_out("it may make no mount namespace here")
        os.execvp("unshare", ["unshare", "--mount", sys.executable, "-B", __file__])


own_namespace()
from checkout import TOP
import wakdulg
from counting import await_that, expect, last_line
from net import free_ports
from trial_site import OATHD, Token


def run(*words, **more):
    """Returns what a command printed, or raises what it said."""
    done = subprocess.run([str(each) for each in words], capture_output=True, text=True, **more)
    if done.returncode:
        raise RuntimeError("%s: %s" % (words, done.stderr or done.stdout))
    return done.stdout


def program():
    """Returns the program, which users of the site run too: OATHD, else the later one of those that ./oathd makes."""
    if "OATHD" in os.environ:
        return OATHD
    run(OATHD, "export", "--help")
    made = [path for path in (TOP / "crates/oathd/out/oathd", TOP / ".unproved/oathd") if path.exists()]
    return max(made, key=lambda path: path.stat().st_mtime)


def commands(page, number):
    """Returns the commands of a step of a page."""
    steps = re.search(r"## Steps\n(.*?)\n## ", (TOP / "docs/how-to" / page).read_text(), re.DOTALL)[1]
    step = re.search(r"(?m)^%d\. .*\n((?:^(?!\d+\. ).*\n?)*)" % number, steps)[0]
    return re.findall(r"(?m)^ {7}(.*)$", step)


class Unit:
    """A service as its unit starts it. The last line of a word counts. One without a value takes the others away."""

    def __init__(self, *files):
        self.words = {}
        text = "".join(path.read_text() for path in files).replace("\\\n", " ")
        for line in text.splitlines():
            name, mark, value = line.partition("=")
            if mark and name.isalpha():
                self.words[name] = self.words.get(name, []) + [value] if value else []

    def last(self, name):
        return self.words[name][-1]

    def command(self, **more):
        """Returns the words of the command. `more` has variables in the place of those of the unit."""
        values = dict(each.split("=", 1) for line in self.words["Environment"] for each in shlex.split(line))
        values.update(more)
        words = [re.sub(r"\$\{(\w+)\}", lambda found: values[found[1]], each)
                 for each in self.last("ExecStart").split()]
        return [each for word in words for each in (values[word[1:]].split() if word[0] == "$" else [word])], values

    def ids(self):
        """Returns whom a process of the unit runs as, in the words of Popen."""
        return ids_of(self.last("User"), *self.words.get("SupplementaryGroups", []))


def ids_of(user, *groups):
    entry = pwd.getpwnam(user)
    return {"user": entry.pw_uid, "group": entry.pw_gid,
            "extra_groups": [grp.getgrnam(each).gr_gid for each in groups]}


class Window:
    """A browser without JavaScript, behind nginx: curl as its user, at the socket of a site."""

    def __init__(self, socket, origin):
        self.socket, self.origin, self.cookie, self.page, self.status = socket, origin, "", "", ""

    def ask(self, path, fields=None):
        words = ["curl", "-s", "-i", "-m", "200", "--unix-socket", self.socket, "-H", "Cookie: " + self.cookie,
                 "-H", "X-Real-IP: 192.0.2.9", "-H", "Sec-Fetch-Site: same-origin", "http://any" + path]
        for name, text in (fields or {}).items():
            words += ["--data-urlencode", "%s=%s" % (name, text)]
        head, _, self.page = run(*words, **ids_of("www-data")).replace("\r", "").partition("\n\n")
        self.status = (head.split(" ") + [""])[1]
        found = re.search("Set-Cookie: ([^;]*)", head)
        self.cookie = found[1] if found else self.cookie
        return self

    def send(self, path, **fields):
        """Asks for a page, and sends its form with what it hides."""
        hidden = re.findall(r'<input type="hidden" name="(\w+)" value="([^"]*)"', self.ask(path).page)
        return self.ask(path, {**{name: html.unescape(text) for name, text in hidden}, **fields})

    def log_in(self, token, password):
        return self.send("/login", user=token.name, password=password, code=token.code())

    def secret(self):
        text = re.search('id="secret">([^<]*)', self.page)[1].replace(" ", "")
        return base64.b32decode(text + "=" * (-len(text) % 8))

    def text(self):
        return " ".join(html.unescape(self.page).split())


class Site:
    """Three nodes, a helpdesk and a self-service on this host."""

    def __init__(self, work):
        self.work, self.processes = Path(work), []
        self.ports, self.ssh_port = free_ports(3), free_ports(1, socket.SOCK_STREAM)[0]
        self.sam, self.ann = Token("sam"), Token("ann", password=WORD.replace(" ", "-"))
        self.desk_unit = Unit(HERE.parent / "helpdesk/helpdesk.service")
        self.own_unit = Unit(HERE.parent / "helpdesk/helpdesk.service", HERE / "self-service.conf")

    def mount(self):
        """Keeps in memory what is changed."""
        run("mount", "-t", "tmpfs", "-o", "mode=711", "none", self.work)
        for number, place in enumerate(("/etc", "/usr/local/lib", "/var/lib")):
            upper, below = self.work / ("upper%d" % number), self.work / ("below%d" % number)
            upper.mkdir()
            below.mkdir()
            words = "lowerdir=%s,upperdir=%s,workdir=%s" % (place, upper, below)
            run("mount", "-t", "overlay", "overlay", "-o", words, place)
        run("mount", "-t", "tmpfs", "-o", "mode=755", "none", "/run")
        self.oathd = self.work / "oathd"
        shutil.copy(program(), self.oathd)
        self.oathd.chmod(0o755)

    # ---- Files

    def make_nodes(self):
        """Makes the files of three nodes with the modes of the package, and what systemd hands to each of them."""
        run("useradd", "--system", "--shell", "/usr/sbin/nologin", "--home-dir", STORES, "wakdulg")
        for each in ETC, STORES:
            each.mkdir()
        members = ["member %d 127.0.0.1:%d" % pair for pair in enumerate(self.ports, 1)]
        lines = ["names trial-of-three-users", "life 1", "key-file key", "new-tokens fresh", *members]
        self.keys = {number: secrets.token_hex(32) for number in (7, 8, 9, 900)}
        clients = ["client %d %s" % pair for pair in self.keys.items() if pair[0] < 900]
        for name, text in {"cluster": "\n".join([*lines, ""]), "key": secrets.token_hex(32),
                           "clients": "\n".join(["ahead 1", *clients, "operator 900 " + self.keys[900], ""]),
                           "users": self.sam.row() + self.ann.row()}.items():
            (ETC / name).write_text(text)
        for line in (TOP / "examples/systemd/wakdulg.tmpfiles").read_text().splitlines():
            if not line.startswith("#"):
                _, path, mode, user, group = line.split()
                shutil.chown(path, user, group)
                os.chmod(path, int(mode, 8))
        for node in (1, 2, 3):
            place = CREDENTIALS / ("oathd@%d.service" % node)
            place.mkdir(parents=True)
            for name in "key", "clients":
                shutil.copy(ETC / name, place)
                (place / name).chmod(0o400)
                shutil.chown(place / name, "wakdulg", "wakdulg")
            shutil.chown(place, "wakdulg", "wakdulg")
            place.chmod(0o500)
            run(self.oathd, "init", *self.node_words(node), "--begins", cwd=place, **ids_of("wakdulg"))

    def node_words(self, node):
        return [STORES / ("node%d.db" % node), ETC / "users", "--node", str(node), "--cluster", ETC / "cluster"]

    def follow_the_pages(self):
        """Runs the commands of both pages that make users, folders and files. The working folder has what they name."""
        made = self.work / "made"
        made.mkdir()
        shutil.copy(ETC / "users", made)
        shutil.copy(ETC / "cluster", made)
        for number, page, steps in (7, "helpdesk.md", (1, 2, 3)), (8, "self-service.md", (1, 2)):
            (made / "front.key").write_text(self.keys[number] + "\n")
            (made / "operator").write_text("operator 900 %s\n" % self.keys[900])
            text = "\n".join(line for step in steps for line in commands(page, step))
            text = re.sub(r"(?m)(?<= )(python|examples)/", "%s/\\1/" % TOP, text)
            run("sh", "-euc", text, cwd=made, input=STAFF_WORD + "\n")
        self.make_ssh()

    def make_ssh(self):
        """Gives the helpdesk a key, with which it is root at the member `a`."""
        place = DESK / ".ssh"
        place.mkdir(0o700)
        run("ssh-keygen", "-q", "-t", "ed25519", "-N", "", "-f", place / "id_ed25519")
        run("ssh-keygen", "-q", "-t", "ed25519", "-N", "", "-f", self.work / "host")
        lines = ["Host a", "HostName 127.0.0.1", "Port %d" % self.ssh_port, "User root"]
        lines += ["StrictHostKeyChecking accept-new"]
        (place / "config").write_text("\n".join(lines) + "\n")
        shutil.copy(place / "id_ed25519.pub", self.work / "authorized")
        for each in place, *place.iterdir():
            shutil.chown(each, "helpdesk", "helpdesk")
        lines = ["Port %d" % self.ssh_port, "ListenAddress 127.0.0.1", "HostKey %s/host" % self.work, "PidFile none",
                 "UsePAM no", "StrictModes no", "PasswordAuthentication no", "PermitRootLogin prohibit-password",
                 "AuthorizedKeysFile %s/authorized" % self.work]
        (self.work / "sshd_config").write_text("\n".join(lines) + "\n")

    # ---- Processes

    def start(self, words, **more):
        process = subprocess.Popen([str(each) for each in words], **more)
        self.processes.append(process)
        return process

    def start_all(self):
        os.mkdir("/run/sshd", 0o755)
        run("usermod", "-p", "*", "root")
        self.start([shutil.which("sshd", path=PATH), "-D", "-f", self.work / "sshd_config"],
                   stderr=open(self.work / "sshd.log", "wb"))
        for node in (1, 2, 3):
            words = [self.oathd, "serve", *self.node_words(node), "--clients", "clients"]
            self.start([*words, "--forever", "--log", "--reload"], cwd=CREDENTIALS / ("oathd@%d.service" % node),
                       stdout=open(self.work / ("log.%d" % node), "wb"), **ids_of("wakdulg"))
        self.desk = self.start_site(self.desk_unit, "helpdesk", PUSH="/usr/local/lib/wakdulg/push-users "
                                    "/var/lib/otp-users/users a:/etc/wakdulg/users")
        self.own = self.start_site(self.own_unit, "self-service", ALLOW="--allow resync --allow replace")

    def start_site(self, unit, name, **more):
        """Starts a service at a socket that systemd makes, and returns a browser at it."""
        origin = "https://%s.example" % name
        place = Path("/run") / name
        place.mkdir(0o755)
        listener = socket.socket(socket.AF_UNIX)
        listener.bind(str(place / "socket"))
        listener.listen(128)
        shutil.chown(place / "socket", "root", "www-data")
        (place / "socket").chmod(0o660)
        words, values = self.words_of(unit, ORIGIN=origin, **more)
        environment = {**values, "PATH": PATH, "HOME": unit.last("WorkingDirectory"), "LISTEN_FDS": "1"}
        # The socket has the number 3, by which systemd hands it over.
        self.start(["sh", "-c", 'LISTEN_PID=$$ exec "$@"', "sh", *words], cwd=unit.last("WorkingDirectory"),
                   env=environment, umask=int(unit.last("UMask"), 8), close_fds=False,
                   preexec_fn=lambda: os.dup2(listener.fileno(), 3), **unit.ids(),
                   stdout=open(self.work / (name + ".log"), "wb"), stderr=subprocess.STDOUT)
        listener.close()
        window = Window(place / "socket", origin)
        await_that("the %s answers" % name, lambda: window.ask("/login").status, "200")
        return window

    def words_of(self, unit, **more):
        """Returns the words of a service, which waits longer for members on a busy machine, and its variables."""
        words, values = unit.command(OATHD=str(self.oathd), **more)
        return [*words[:-2], "--patience", "60", *words[-2:]], values

    def end(self):
        for each in reversed(self.processes):
            each.terminate()
        for each in self.processes:
            try:
                each.wait(20)
            except subprocess.TimeoutExpired:
                each.kill()

    # ---- What is tried

    def answer(self, name, code, password=None):
        """Returns what the cluster says of a code, when it has decided."""
        nodes = ",".join("%d=127.0.0.1:%d" % pair for pair in enumerate(self.ports, 1))
        key = wakdulg.Key(9, bytes.fromhex(self.keys[9]))
        front = wakdulg.Cluster(nodes, (6.0, 15.0), 60.0, key=key)
        for _ in range(20):
            try:
                return str(front.check(name, code, password))
            except wakdulg.Throttled as refusal:
                time.sleep(refusal.seconds + 1)
            except wakdulg.Refused as refusal:
                if not isinstance(refusal, wakdulg.Undecided) and refusal.reason != "UNKNOWN":
                    return refusal.reason
                time.sleep(3)
        return "undecided"

    def row(self, name):
        return next(line.split() for line in (BOOK / "users").read_text().splitlines() if line.split()[1] == name)

    def is_copied(self):
        return (ETC / "users").read_bytes() == (BOOK / "users").read_bytes() and not (BOOK / "users.pending").exists()


class Test:
    def __init__(self, site):
        self.site = site

    def start(self):
        """The commands of the pages make users, folders and files. The units start what runs."""
        self.site.mount()
        self.site.make_nodes()
        self.site.follow_the_pages()
        self.site.start_all()
        expect("three users", [each.owner() for each in (STORES, DESK, OWN)], ["wakdulg", "helpdesk", "self-service"])

    def works(self):
        """A login, an enrolment, a replacement by the user, and one by the helpdesk."""
        site, sam, ann = self.site, self.site.sam, self.site.ann
        expect("staff log in", site.desk.log_in(sam, STAFF_WORD).status, "303")
        expect("enrolled", site.desk.send("/enrol", name="eve", kind="hotp", code=sam.code()).status, "303")
        await_that("the member has the file", site.is_copied)
        eve = Token("eve")
        eve.secret = bytes.fromhex(site.row("eve")[3])
        await_that("the new user logs in", lambda: site.answer("eve", eve.code())[:3], "OK ")
        expect("a user logs in", site.own.log_in(ann, ann.password).status, "303")
        before = site.row("ann")[3]
        status = site.own.send("/replace", password=ann.password, code=ann.code()).status
        expect("replaced by the user", (status, site.row("ann")[3] != before), ("303", True))
        expect("the file is of who wrote it, and of the group", stat_of(BOOK / "users"), "self-service otp-users 660")
        await_that("the helpdesk has copied it", site.is_copied)
        expect("the member's file is as before", stat_of(ETC / "users"), "root wakdulg 640")
        ann.secret, ann.next = site.own.ask("/phone").secret(), 0
        await_that("confirmed", lambda: site.own.send("/phone", password=ann.password, code=ann.code()).status, "200")
        path = "/users/%s/replace" % b"ann".hex()
        await_that("staff replace it too", lambda: site.desk.send(path, code=sam.code()).status, "303")
        expect("the file is of the helpdesk now", stat_of(BOOK / "users"), "helpdesk otp-users 660")
        await_that("the member has it", site.is_copied)
        ann.secret, ann.next = bytes.fromhex(site.row("ann")[3]), 0
        await_that("the user logs in by it", lambda: site.own.log_in(ann, ann.password).status, "303")
        expect("and learns of it, though the records are apart", "Your helpdesk gave you another phone after " in
               site.own.ask("/").text(), True)
        expect("two records", ['"enrol"' in (each / "record").read_text() for each in (DESK, OWN)], [True, False])

    def apart(self):
        """Each user tries each file of the others."""
        desk, own = files_in(DESK), files_in(OWN)
        stores, etc, given = files_in(STORES), [ETC / "key", ETC / "clients"], files_in(CREDENTIALS)
        names = [each.name for each in desk]
        wanted = ["front.key", "operator", "staff", "record", "id_ed25519"]
        expect("what the helpdesk has", [each for each in wanted if each not in names], [])
        expect("among it a kept secret", any(each.startswith("users.kept-helpdesk-") for each in names), True)
        sockets = [Path("/run/helpdesk/socket"), Path("/run/self-service/socket")]
        closed = {("self-service", "otp-users"): [*desk, *stores, *etc, *given, *sockets],
                  ("helpdesk", "otp-users"): [*own, *stores, *etc, *given, *sockets],
                  ("wakdulg",): [*desk, *own, *etc, *files_in(BOOK), *sockets],
                  ("www-data",): [*desk, *own, *stores, *etc, *given, *files_in(BOOK)]}
        for who, paths in closed.items():
            got = attempts(who, paths)
            expect("%s: each of %d files is closed" % (who[0], len(paths)),
                   {line for line in got if set(line.split()[1:]) != {"EACCES"}}, set())
        members = attempts(("self-service", "otp-users"), [ETC / "users", ETC / "cluster"])
        expect("self-service: the files of the members", [line.split()[1:] for line in members], [["EACCES"] * 2] * 2)
        # Else a fault of the attempts would be taken for a closed file.
        expect("what is its own is open", {" ".join(line.split()[1:]) for line in attempts(
            ("self-service", "otp-users"), [OWN / "front.key", OWN / "record", BOOK / "users"])}, {"done done"})
        reached = [line.split()[1] for line in attempts(("www-data",), sockets)]
        expect("nginx reaches both sockets", reached, ["done"] * 2)

    def refused(self):
        """A site doesn't start while others may read or write one of its files. It says which, why, and what to do."""
        for unit, path, mode, said in (
                (self.site.desk_unit, DESK / "staff", 0o644, "others may read it, and it says who is staff: chmod"),
                (self.site.own_unit, OWN / "front.key", 0o644, "others may read or write it: chmod 600"),
                (self.site.own_unit, OWN / "record", 0o620, "others may write it, and it is the record of all acts:"),
                (self.site.own_unit, BOOK / "users", 0o664, "others may read it, and it has the secrets of all users:"),
                (self.site.desk_unit, DESK, 0o777, "others may write it, and it says which nodes are asked: chmod")):
            before = path.stat().st_mode & 0o7777
            path.chmod(mode)
            words, values = self.site.words_of(unit, ORIGIN="https://other.example", ALLOW="--allow resync")
            done = subprocess.run([*words[:-2], str(self.site.work / "no-socket"), words[-1]], capture_output=True,
                                  env={**values, "PATH": PATH}, cwd=unit.last("WorkingDirectory"), timeout=200,
                                  text=True, **unit.ids())
            path.chmod(before)
            told = " ".join(done.stderr.split())
            expect("%s with mode %o" % (path, mode), (done.returncode, said in told, path.name in told or told),
                   (2, True, True))


def stat_of(path):
    about = path.stat()
    return "%s %s %o" % (path.owner(), path.group(), about.st_mode & 0o777)


def files_in(folder):
    return sorted(each for each in folder.rglob("*") if each.is_file())


def attempts(who, paths):
    """Returns a line for each path: what reading and writing it says to a user with these groups."""
    user, *groups = who
    return run("/usr/bin/python3", "-Ic", TRY, *paths, **ids_of(user, *groups)).splitlines()


def main():
    with tempfile.TemporaryDirectory() as work:
        site = Site(work)
        test = Test(site)
        try:
            for part in test.start, test.works, test.apart, test.refused:
                print("%s: %s" % (part.__name__, part.__doc__), flush=True)
                part()
        except Exception as fault:
            expect("its end", "%s: %s" % (type(fault).__name__, str(fault)[:1000]), "reached")
            for name in "helpdesk.log", "self-service.log", "sshd.log":
                if (site.work / name).exists():
                    print((site.work / name).read_text()[-1500:])
        finally:
            site.end()
            subprocess.run(["umount", "-l", work])
    return last_line()


if __name__ == "__main__":
    sys.exit(main())
