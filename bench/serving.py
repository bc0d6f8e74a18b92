"""What the measures and trials over `oathd serve` share: codes, a folder of users and databases, and the processes.

OATHD in the environment is the program, else ./oathd.
"""
import hashlib
import os
import random
import re
import resource
import shutil
import signal
import socket
import subprocess
import sys
import tempfile
import time

TOP = os.path.dirname(os.path.dirname(os.path.abspath(__file__)))
sys.path.insert(1, os.path.join(TOP, "tools"))
import checkout
from net import free_ports
from otp import code  # those that import this module take it from here

PROGRAM = os.environ.get("OATHD", os.path.join(TOP, "oathd"))


def key_of(token):
    return hashlib.sha1(b"token %d" % token).digest()


def client_of(port, seconds):
    """A socket for lines to the node at a port, from an address of its own, since nodes with a clients file take its lines
    plainly. It is told where nobody is there."""
    client = socket.socket(socket.AF_INET, socket.SOCK_DGRAM)
    client.bind(("127.0.0.9", 0))
    client.connect(("127.0.0.1", port))
    client.settimeout(seconds)
    return client


def hear(client, line):
    """The answer to a line, or None where none comes. Answers to other lines are passed over."""
    nonce = line.split()[1]
    try:
        while True:
            answer = client.recv(512).decode("ascii", "replace")
            if answer.split()[1:2] == [nonce]:
                return answer
    except (TimeoutError, ConnectionRefusedError):
        return None


def ask(client, line):
    """Sends a line. The answer to it, or None where none comes."""
    try:
        client.send(line.encode())
    except ConnectionRefusedError:
        return None
    return hear(client, line)


def lost_datagrams():
    """How many datagrams the system has lost so far, since a receiver's buffer was full."""
    with open("/proc/net/snmp") as counts:
        names, values = [line.split() for line in counts if line.startswith("Udp:")]
    return int(dict(zip(names, values))["RcvbufErrors"])


class Limits:
    """Control groups in which each process makes so many writes a second to the disk of a folder at most, as root alone
    may have them. None is no limit."""

    def __init__(self, folder, writes):
        self.folder, self.writes, self.groups = folder, writes, []

    def disk(self):
        """The numbers of the disk, not of its partition."""
        device = os.stat(self.folder).st_dev
        place = os.path.realpath("/sys/dev/block/%d:%d" % (os.major(device), os.minor(device)))
        if os.path.exists(os.path.join(place, "partition")):
            place = os.path.dirname(place)
        with open(os.path.join(place, "dev")) as numbers:
            return numbers.read().strip()

    def next(self):
        """What a new process calls before it becomes the program, so that it has a limit of its own."""
        if self.writes is None:
            return None
        name = "oathd-bench-%d-%d" % (os.getpid(), len(self.groups))
        if os.path.exists("/sys/fs/cgroup/blkio"):
            group, file, text = "/sys/fs/cgroup/blkio/" + name, "blkio.throttle.write_iops_device", "%s %d"
        else:
            group, file, text = "/sys/fs/cgroup/" + name, "io.max", "%s wiops=%d"
        os.mkdir(group)
        self.groups.append(group)
        with open(os.path.join(group, file), "w") as limit:
            limit.write(text % (self.disk(), self.writes))

        def enter():
            with open(os.path.join(group, "cgroup.procs"), "w") as processes:
                processes.write(str(os.getpid()))

        return enter

    def made(self):
        """Returns how many writes the processes of all groups made until now."""
        total = 0
        for group in self.groups:
            for file, number in (("blkio.throttle.io_serviced", r"Write (\d+)"), ("io.stat", r"wios=(\d+)")):
                path = os.path.join(group, file)
                if os.path.exists(path):
                    with open(path) as text:
                        total += sum(map(int, re.findall(number, text.read())))
        return total

    def close(self):
        """Takes the groups away, whose processes have ended."""
        for group in self.groups:
            for _ in range(100):
                try:
                    os.rmdir(group)
                    break
                except OSError:
                    time.sleep(0.02)
        self.groups = []


class Nodes:
    """Nodes of a cluster, each a process over a database of its own, in a folder that goes when they go."""

    def __init__(self, rows, count, options=(), moment=0, limits=None):
        self.limits = limits
        subprocess.run([PROGRAM, "--version"], check=True, stdout=subprocess.DEVNULL)
        self.folder = tempfile.mkdtemp(prefix="oathd-")
        self.users, self.key = self.path("users"), self.path("key")
        with open(self.users, "w") as users:
            users.write("".join(row + "\n" for row in rows))
        with open(self.key, "w") as key:
            key.write(random.randbytes(32).hex())
        self.ports = free_ports(count)
        addresses = ["127.0.0.1:%d" % port for port in self.ports]
        # of each node the addresses by which it knows the members
        self.members = [list(addresses) for _ in self.ports]
        self.options = list(options)
        # that of the nodes' processes; None is that of this one
        self.environment = None
        # Whether they have a clients file, with client 7 and the key of the file client.key.
        self.is_sealed = False
        client_key = random.randbytes(32).hex()
        with open(self.path("client.key"), "w") as key, open(self.path("clients"), "w") as clients:
            key.write(client_key)
            clients.write("client 7 %s\nplain 127.0.0.9\n" % client_key)
        # The clients refuse a key that others may read.
        os.chmod(self.path("client.key"), 0o600)
        # Whether they keep a log. Each process has a file of its own for it, log.NODE.LIFE.
        self.is_logged, self.lives = False, [0] * count
        self.processes = [None] * count
        for node in range(count):
            self.run("init", node, "--node", str(node + 1), "--moment", str(moment))

    def path(self, name):
        return os.path.join(self.folder, name)

    def database(self, node):
        return self.path("node%d.db" % (node + 1))

    def run(self, command, node, *words):
        """What a command over the database of a node prints."""
        words = [PROGRAM, command, self.database(node), self.users, *words]
        return subprocess.run(words, check=True, stdout=subprocess.PIPE, text=True).stdout

    def audit(self, node):
        """The numbers of each pass of a node: its own number, token, lo, hi, boot, seq."""
        lines = self.run("audit", node, "--node", str(node + 1)).splitlines()
        return [tuple(int(number) for number in line.split()[1:]) for line in lines]

    def serving_words(self, node, *words):
        sealed = ["--clients", self.path("clients")] if self.is_sealed else []
        return [PROGRAM, "serve", self.database(node), self.users, "--node", str(node + 1), "--key", self.key,
                "--members", ",".join(self.members[node]), *self.options, *sealed, *words]

    def start(self, node):
        """Starts a node, and waits until it answers."""
        limit = self.limits.next() if self.limits else None
        if self.is_logged:
            self.lives[node] += 1
            with open(self.path("log.%d.%d" % (node + 1, self.lives[node])), "wb") as log:
                self.processes[node] = subprocess.Popen(self.serving_words(node, "--forever", "--log"), stdout=log,
                                                        preexec_fn=limit, env=self.environment)
        else:
            self.processes[node] = subprocess.Popen(self.serving_words(node, "--turns", "4294967295"),
                                                    preexec_fn=limit, env=self.environment)
        if not self.answers(node):
            status = self.processes[node].poll()
            raise RuntimeError("node %d %s" % (node + 1, "does not answer" if status is None else "ended, %d" % status))

    def start_in(self, node, room):
        """Starts a node whose files may not grow past so many bytes, and waits until it answers or has ended."""
        def limit():
            signal.signal(signal.SIGXFSZ, signal.SIG_IGN)
            resource.setrlimit(resource.RLIMIT_FSIZE, (room, room))

        self.processes[node] = subprocess.Popen(self.serving_words(node, "--turns", "4294967295"), preexec_fn=limit,
                                                stderr=subprocess.DEVNULL)
        return self.answers(node)

    def answers(self, node):
        """Whether a node answers, which is waited for as long as it runs."""
        with client_of(self.ports[node], 0.1) as client:
            end = time.monotonic() + 120
            while time.monotonic() < end:
                if ask(client, "CHECK up nobody 000000 -") == "NO up UNKNOWN":
                    return True
                if self.processes[node].poll() is not None:
                    break
                time.sleep(0.02)
        return False

    def kill(self, node):
        """Stops a node as it stands, if it runs. What the system says of what it used."""
        process, self.processes[node] = self.processes[node], None
        if process is None or process.poll() is not None:
            return None
        os.kill(process.pid, signal.SIGKILL)
        usage = os.wait4(process.pid, 0)[2]
        process.returncode = -signal.SIGKILL
        return usage

    def close(self):
        for node in range(len(self.ports)):
            self.kill(node)
        shutil.rmtree(self.folder, ignore_errors=True)

    def __enter__(self):
        # a SIGTERM ends the nodes too, as Ctrl-C does
        signal.signal(signal.SIGTERM, lambda *_: sys.exit(1))
        return self

    def __exit__(self, *_):
        self.close()
