"""A site on this machine: three nodes, nginx with TLS, and the helpdesk, on free ports. The nodes are by names, with
--reload, or without names."""
import base64
import contextlib
import hashlib
import os
import secrets
import shutil
import signal
import socket
import subprocess
import sys
import threading
import time
from pathlib import Path

HERE = Path(__file__).resolve().parent
sys.path.insert(1, str(HERE.parents[1] / "tools"))
from checkout import TOP
import wakdulg
from net import free_ports
from otp import code
from wakdulg.operator import Silent, read_operator
from wakdulg_helpdesk.cluster_file import ClusterFile
from wakdulg_helpdesk.members import Member
from wakdulg_helpdesk.passwords import HASHER
from wakdulg_onboard.tokens import read_rows

OATHD = os.environ.get("OATHD", str(TOP / "oathd"))
OATHTOOL = os.environ.get("OATHTOOL", str(TOP / "oathtool"))
NODES, PATIENCE = (1, 2, 3), 300
# From this address nodes take lines without a seal, and without the second of `ahead` after each boot.
PLAIN_ADDRESS = "127.0.0.9"
IS_ROOT = os.geteuid() == 0
# As journald does, each line of a log gets its moment.
STAMP = """import sys, time
for line in sys.stdin:
    print(time.strftime("%Y-%m-%dT%H:%M:%SZ", time.gmtime()), line, end="", flush=True)"""


def with_children(number):
    """Returns a process, its children, and theirs."""
    try:
        found = Path("/proc/%d/task/%d/children" % (number, number)).read_text().split()
    except FileNotFoundError:
        return [number]
    return [number] + [each for child in found for each in with_children(int(child))]


class Token:
    """A token in the hand of one user. It never gives a code twice."""

    def __init__(self, name, is_event=True, password="-", type=None):
        # The password of the row, and that of staff at the helpdesk.
        self.name, self.password, self.word, self.next = name, password, None, 0
        self.type = type or ("HOTP" if is_event else "HOTP/T30")
        _, kind, digits, hash, *_ = (self.type + "/////").split("/")
        self.is_event, self.period = not kind.startswith("T"), int(kind[1:] or 30)
        self.digits, self.hash = int(digits or 6), hash.lower() or "sha1"
        # A secret of its own, so that a log in which it is found has it from nowhere else.
        self.secret = secrets.token_bytes(20)

    def row(self):
        return "%s %s %s %s\n" % (self.type, self.name, self.password, self.secret.hex())

    def code(self):
        step = lambda: int(time.time()) // self.period
        factor = self.next if self.is_event else max(self.next, step())
        while not self.is_event and step() < factor:
            time.sleep(0.5)
        self.next = factor + 1
        return code(self.secret, factor, self.digits, getattr(hashlib, self.hash))


class Site:
    """All processes and files of the site, in a folder. The folder desk is that of the helpdesk."""
    host = "helpdesk.example"

    def __init__(self, folder, tokens, staff, by_names=True):
        self.folder, self.processes, self.secrets, self.by_names = Path(folder), {}, set(), by_names
        *self.ports, self.port = free_ports(3) + free_ports(1, socket.SOCK_STREAM)
        self.url = "https://%s:%d" % (self.host, self.port)
        self.folder.chmod(0o711)
        self.desk = self.folder / "desk"
        for name in "desk", "made", "members/1", "members/2", "members/3":
            (self.folder / name).mkdir(parents=True)
        self.write_files(tokens, staff)
        self.make_databases(*NODES)

    # ---- Files

    def write_files(self, tokens, staff):
        members = ["member %d 127.0.0.1:%d" % pair for pair in zip(NODES, self.ports)]
        lines = ["life 1", "key-file key", *members]
        lines += ["names trial-of-a-helpdesk", "new-tokens fresh"] if self.by_names else []
        cluster = "\n".join(lines) + "\n"
        key, front, operator, reader = (secrets.token_hex(32) for _ in range(4))
        self.secrets = {key, front, operator, reader}
        self.write("cluster", cluster.replace("key-file key", "key-file %s/key" % self.folder))
        self.write("key", key)
        clients = ["ahead 1", "plain " + PLAIN_ADDRESS, "client 7 " + front, "operator 900 " + operator]
        self.write("clients", "\n".join([*clients, "reader 901 " + reader, ""]))
        # The helpdesk has no key of the cluster.
        self.write("desk/cluster", cluster)
        # The keys of the helpdesk, and of the trial, which may run as another user.
        for folder in "desk/", "":
            self.write(folder + "front.key", front)
            self.write(folder + "operator", "operator 900 %s\n" % operator)
        for token in tokens:
            token.word = "word of %s, which is staff" % token.name if token.name in staff else None
        lines = ["%s %s\n" % (token.name, HASHER.hash(token.word)) for token in tokens if token.word]
        self.write("desk/staff", "".join(lines))
        text = "".join(token.row() for token in tokens)
        self.write("desk/users", text)
        for node in NODES:
            self.write("members/%d/users" % node, text)
        if IS_ROOT:
            for path in [self.folder / "members", self.folder / "made", self.desk, *self.desk.iterdir(),
                         *self.folder.glob("members/*"), *self.folder.glob("members/*/users")]:
                shutil.chown(path, "nobody", "www-data")
        self.desk.chmod(0o750)
        self.make_certificate()
        text = (HERE / "nginx.conf").read_text().replace("FOLDER", str(self.folder))
        text = text.replace("SITE", "127.0.0.1:%d" % self.port).replace("helpdesk.example", self.host)
        # The checks look for secrets in a log of all addresses, which a site doesn't keep.
        text = text.replace("access_log off", "access_log %s/access.log" % self.folder)
        self.write("nginx.conf", text if IS_ROOT else text.replace("user www-data;\n", ""))

    def make_certificate(self):
        words = ["openssl", "req", "-x509", "-newkey", "ec", "-pkeyopt", "ec_paramgen_curve:prime256v1", "-nodes",
                 "-days", "2", "-subj", "/CN=" + self.host, "-addext", "subjectAltName=DNS:" + self.host,
                 "-keyout", self.folder / "certificate-key", "-out", self.folder / "certificate"]
        subprocess.run(words, check=True, capture_output=True)

    def write(self, name, text):
        path = self.folder / name
        path.touch(0o600)
        path.write_text(text)

    def read(self, name):
        return (self.folder / name).read_text()

    def make_databases(self, *nodes):
        more = ["--begins"] if self.by_names else []
        made = [subprocess.Popen([OATHD, "init", *self.words(node), *more], cwd=self.folder, stdout=subprocess.DEVNULL)
                for node in nodes]
        if any(each.wait() for each in made):
            raise RuntimeError("oathd init failed")

    # ---- Processes

    def oathd(self, *words):
        done = subprocess.run([OATHD, *words], cwd=self.folder, capture_output=True, text=True)
        if done.returncode:
            raise RuntimeError("oathd %s: %s" % (words[0], done.stderr))
        return done.stdout

    def words(self, node):
        return ["members/%d/db" % node, "members/%d/users" % node, "--node", str(node), "--cluster", "cluster"]

    def address(self, node):
        return "127.0.0.1:%d" % self.ports[node - 1]

    def front(self, nodes=NODES):
        key = wakdulg.read_key("7:%s" % (self.folder / "front.key"))
        text = ",".join("%d=%s" % (node, self.address(node)) for node in nodes)
        return wakdulg.Cluster(text, (6.0, 15.0), 60.0, key=key)

    def member(self, node, pause=3):
        """Returns what asks a running node, as the helpdesk does."""
        naming = ClusterFile(str(self.folder / "desk/cluster")).naming
        key = read_operator(str(self.folder / "operator"))
        return Member(node, ("127.0.0.1", self.ports[node - 1]), key, pause, naming)

    def book_of(self, node):
        """Returns the print of the users file that a running member has, or None if it is silent."""
        try:
            return next(line for line in self.member(node).request(b"STATUS 0") if line.startswith(b"book"))
        except Silent:
            return None

    def book_of_file(self, node):
        """Returns the print of the users file that lies at a member."""
        return self.oathd("check", "members/%d/users" % node, "--cluster", "cluster").encode().splitlines()[-1]

    def start_nodes(self, *nodes):
        for node in nodes:
            log = open(self.folder / ("log.%d" % node), "ab")
            words = [OATHD, "serve", *self.words(node), "--clients", "clients", "--forever", "--log"]
            words += ["--reload"] if self.by_names else []
            process = subprocess.Popen(words, cwd=self.folder, stdout=subprocess.PIPE)
            subprocess.Popen([sys.executable, "-ISc", STAMP], stdin=process.stdout, stdout=log)
            process.stdout.close()
            self.processes["node %d" % node] = process
        for node in nodes:
            self.await_that(lambda: self.answers(node), "node %d answers" % node)

    def answers(self, node):
        try:
            return bool(self.member(node).request(b"STATUS 0"))
        except Silent:
            return False

    def await_that(self, call, what):
        end = time.monotonic() + PATIENCE
        while not call():
            if time.monotonic() > end or any(each.poll() is not None for each in self.processes.values()):
                raise RuntimeError("not yet: %s: %s" % (what, self.read_all("faults", "error.log")))
            time.sleep(0.5)

    def read_all(self, *names):
        return "".join(self.read(name) for name in names if (self.folder / name).exists())

    def desk_words(self):
        """Returns the words of the service."""
        words = [TOP / "python/wakdulg-helpdesk", "--operator", self.desk / "operator"]
        return words + ["--log=%d=%s" % (node, self.folder / ("log.%d" % node)) for node in NODES]

    def push(self):
        """Returns the hook. It also keeps each file, for the checks that look for secrets, and waits while there is a
        file `hold`."""
        copies = [self.folder / "members" / str(node) / "users" for node in NODES]
        push = " ".join(map(str, [HERE / "push-users", self.desk / "users", *copies]))
        words = self.desk / "users", self.folder / "made", self.folder / "hold", push
        return "sh -c 'cp %s %s/$(date +%%s%%N); while [ -e %s ]; do sleep 0.1; done; exec %s'" % words

    def as_desk(self):
        """Returns whom the service runs as, in the words of subprocess."""
        return {"user": "nobody", "group": "www-data", "extra_groups": []} if IS_ROOT else {}

    def start_desk(self, *more_words):
        words = [*self.desk_words(), *more_words, "--key-file", "7:%s" % (self.desk / "front.key"), "--issuer",
                 "Example Site", "--patience", "60", *(["--push", self.push()] if self.by_names else [])]
        for name in "cluster", "users", "staff", "record":
            words += ["--" + name, self.desk / name]
        out, faults = (open(self.folder / name, "ab") for name in ("logins", "faults"))
        words += [self.desk / "socket", self.url]
        self.processes["desk"] = subprocess.Popen(list(map(str, words)), stdout=out, stderr=faults, cwd="/",
                                                  env={**os.environ, "OATHD": OATHD}, **self.as_desk())

    def start_nginx(self):
        nginx = shutil.which("nginx", path=os.environ["PATH"] + ":/usr/sbin")
        words = [nginx, "-p", self.folder, "-e", self.folder / "error.log", "-c", self.folder / "nginx.conf"]
        self.processes["nginx"] = subprocess.Popen(list(map(str, words)), stderr=subprocess.DEVNULL)

    def start(self):
        self.start_desk()
        self.start_nodes(*NODES)
        self.await_that((self.desk / "socket").exists, "the helpdesk has its socket")
        self.start_nginx()
        self.await_that(lambda: self.curl("/login")[0] == "200", "the site answers")

    def fetch(self, path, *words):
        """Returns what curl prints for a path of the site."""
        done = subprocess.run(["curl", "-s", "-m", "280", "--cacert", self.folder / "certificate", "--resolve",
                               "%s:%d:127.0.0.1" % (self.host, self.port), *words, self.url + path],
                              capture_output=True, text=True)
        return done.stdout

    def curl(self, path, *words):
        """Returns the status of a request, its head and its body."""
        head, _, body = self.fetch(path, "-i", *words).replace("\r", "").partition("\n\n")
        return (head.split(" ") + [""])[1], head, body

    def by_hand(self, text):
        """Changes the users file as an operator does."""
        users = self.desk / "users"
        new = users.with_name("users.byhand")
        new.write_text(text)
        new.chmod(0o600)
        os.chown(new, users.stat().st_uid, users.stat().st_gid)
        new.rename(users)

    @contextlib.contextmanager
    def closed(self, *nodes):
        """Lets nobody put a file at these members meanwhile."""
        places = [self.folder / "members" / str(node) for node in nodes]
        owner = places[0].owner()
        for place in places:
            place.chmod(0o555)
            shutil.chown(place, "root" if IS_ROOT else owner)
        try:
            yield
        finally:
            for place in places:
                shutil.chown(place, owner)
                place.chmod(0o755)

    @contextlib.contextmanager
    def record_closed_after(self, text):
        """Lets nobody write the record after it has a line with a text."""
        record, is_over = self.desk / "record", threading.Event()

        def close():
            while text not in record.read_text() and not is_over.is_set():
                time.sleep(0.01)
            record.chmod(0o400)
        closing = threading.Thread(target=close)
        closing.start()
        try:
            yield
        finally:
            is_over.set()
            closing.join()
            record.chmod(0o600)

    def put_by_hand(self, text):
        """Changes the users file everywhere, as an operator does."""
        self.by_hand(text)
        subprocess.run(self.push(), shell=True, check=True)

    # ---- Secrets

    def all_secrets(self):
        """Returns each text that no log may have: keys, passwords, and the secrets of all files that were pushed."""
        found = set(self.secrets)
        for path in [self.desk / "users", *self.folder.glob("members/*/users"), *self.folder.glob("made/*")]:
            for row in read_rows(path.read_bytes()):
                secret = bytes.fromhex(row.secret.decode())
                base32 = base64.b32encode(secret).decode().rstrip("=")
                found |= {secret.hex(), base32, " ".join(base32[at:at + 4] for at in range(0, len(base32), 4))}
                found |= {row.password.decode()} - {"-", "+"}
        return found

    def logs(self):
        """Returns all logs and records of the site."""
        names = ["logins", "faults", "error.log", "access.log", "desk/record", *("log.%d" % node for node in NODES)]
        return [self.folder / name for name in names]

    def crash_desk(self):
        """Kills the service with all that it began, as a crash does, and starts it again."""
        process = self.processes.pop("desk")
        for number in reversed(with_children(process.pid)):
            with contextlib.suppress(ProcessLookupError):
                os.kill(number, signal.SIGKILL)
        process.wait()
        self.start_again()

    def restart_desk(self, *more_words):
        """Ends the service, and starts it again with other words."""
        self.stop("desk")
        self.start_again(*more_words)

    def start_again(self, *more_words):
        (self.desk / "socket").unlink(missing_ok=True)
        self.start_desk(*more_words)
        self.await_that(lambda: self.curl("/login")[0] == "200", "the site answers again")

    def stop(self, name):
        process = self.processes.pop(name)
        process.terminate()
        try:
            process.wait(20)
        except subprocess.TimeoutExpired:
            process.kill()
            process.wait()

    def stop_all(self):
        for name in list(self.processes):
            self.stop(name)
