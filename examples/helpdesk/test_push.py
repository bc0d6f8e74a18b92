#!/usr/bin/python3
"""Tries push-users over sshd on loopback, whose connection a proxy cuts or stalls: test_push.py

sshd has a host key and authorized keys of its own, on a free port. The last line counts. Status 77 if a program isn't
there. As root the users file of a member belongs to nobody, as that of the package belongs to wakdulg.
Packages: openssh-client, openssh-server.
"""
import os
import pwd
import shutil
import socket
import stat
import subprocess
import sys
import tempfile
import threading
import time
from pathlib import Path

HERE = Path(__file__).resolve().parent
sys.dont_write_bytecode = True
sys.path.insert(1, str(HERE.parents[1] / "tools"))
import checkout
from counting import await_that, expect, last_line
from net import free_ports

IS_ROOT = os.geteuid() == 0
ROWS = 8000
PUSH = HERE / "push-users"
SSHD = shutil.which("sshd", path=os.environ["PATH"] + ":/usr/sbin")


def text_of(mark, rows=ROWS):
    """Returns a users file. The rows differ by the mark, so no part of one file is a part of another."""
    return "".join("HOTP\tuser%05d\t-\t%s%036x\n" % (number, mark, number) for number in range(rows))


class Proxy:
    """A proxy before sshd, for one connection after the other. After `most` bytes of a client it cuts the connection,
    or holds the rest until `held` is set. After `heard` bytes of a client it passes no answer back."""

    def __init__(self, target):
        self.target, self.held = target, threading.Event()
        self.set()
        self.server = socket.create_server(("127.0.0.1", 0))
        self.port = self.server.getsockname()[1]
        threading.Thread(target=self.serve, daemon=True).start()

    def set(self, most=1 << 40, cuts=True, heard=1 << 40):
        self.most, self.cuts, self.heard, self.passed = most, cuts, heard, 0
        self.held.clear()

    def serve(self):
        while True:
            client, _ = self.server.accept()
            far = socket.create_connection(("127.0.0.1", self.target))
            threading.Thread(target=self.pass_on, args=(client, far), daemon=True).start()
            threading.Thread(target=self.pass_back, args=(far, client), daemon=True).start()

    def pass_on(self, client, far):
        most, cuts = self.most, self.cuts
        try:
            while data := client.recv(min(16384, most) or 16384):
                if most == 0:
                    if cuts:
                        break
                    self.held.wait(100)
                    most = 1 << 40
                far.sendall(data)
                most, self.passed = most - len(data), self.passed + len(data)
        except OSError:
            pass
        for each in (far, client) if cuts else (far,):
            with_shutdown(each)

    def pass_back(self, far, client):
        try:
            while data := far.recv(65536):
                if self.passed < self.heard:
                    client.sendall(data)
        except OSError:
            pass
        with_shutdown(client)


def with_shutdown(each):
    try:
        each.shutdown(socket.SHUT_RDWR)
    except OSError:
        pass


class Hosts:
    """sshd, a proxy before it, and a folder for each of two members. HOST is `direct` or `proxied`."""

    def __init__(self, folder):
        self.folder = Path(folder)
        self.users, self.places = self.folder / "users", [self.folder / "a/users", self.folder / "b/users"]
        self.port, = free_ports(1, socket.SOCK_STREAM)
        for name in "host", "client":
            subprocess.run(["ssh-keygen", "-q", "-t", "ed25519", "-N", "", "-f", self.folder / name], check=True)
        shutil.copy(self.folder / "client.pub", self.folder / "authorized")
        self.proxy = Proxy(self.port)
        self.write_configuration()
        self.made = IS_ROOT and not os.path.exists("/run/sshd")
        if self.made:
            os.mkdir("/run/sshd", 0o755)
        self.sshd = subprocess.Popen([SSHD, "-D", "-e", "-f", self.folder / "sshd_config"],
                                     stderr=open(self.folder / "sshd.log", "wb"))
        for place in self.places:
            place.parent.mkdir()
        self.renew()
        self.environment = {**os.environ, "PATH": "%s:%s" % (self.folder / "bin", os.environ["PATH"])}

    def write_configuration(self):
        lines = ["Port %d" % self.port, "ListenAddress 127.0.0.1", "HostKey %s/host" % self.folder, "PidFile none",
                 "UsePAM no", "StrictModes no", "PasswordAuthentication no", "PermitRootLogin prohibit-password",
                 "AuthorizedKeysFile %s/authorized" % self.folder]
        (self.folder / "sshd_config").write_text("\n".join(lines) + "\n")
        user = pwd.getpwuid(os.geteuid()).pw_name
        lines = []
        for host, port in ("direct", self.port), ("proxied", self.proxy.port):
            lines += ["Host " + host, "HostName 127.0.0.1", "Port %d" % port, "User " + user]
        lines += ["Host *", "IdentityFile %s/client" % self.folder, "IdentitiesOnly yes",
                  "UserKnownHostsFile %s/known" % self.folder, "StrictHostKeyChecking accept-new", "LogLevel ERROR"]
        (self.folder / "ssh_config").write_text("\n".join(lines) + "\n")
        (self.folder / "bin").mkdir()
        ssh = self.folder / "bin/ssh"
        ssh.write_text('#!/bin/sh\nexec %s -F %s/ssh_config "$@"\n' % (shutil.which("ssh"), self.folder))
        ssh.chmod(0o755)

    def renew(self):
        """Puts old files at the members, with the owner, the group and the mode of the package."""
        self.proxy.set()
        for place in self.places:
            for each in place.parent.iterdir():
                each.unlink()
            place.write_text(text_of("aaaa"))
            place.chmod(0o640)
            if IS_ROOT:
                os.chown(place, 0, pwd.getpwnam("nobody").pw_gid)
        time.sleep(0.02)
        self.put("bbbb")

    def put(self, mark):
        """Puts a new users file in place, as the helpdesk does."""
        new = self.folder / "users.made"
        new.write_text(text_of(mark))
        new.rename(self.users)
        time.sleep(0.02)

    def start(self, *places):
        return subprocess.Popen([PUSH, self.users, *places], env=self.environment, stdout=subprocess.PIPE,
                                stderr=subprocess.STDOUT, text=True, start_new_session=True)

    def push(self, *places):
        """Returns the status of a push and what it printed."""
        process = self.start(*places)
        said = process.communicate(timeout=110)[0]
        return process.returncode, said

    def place(self, host, number=0):
        return "%s:%s" % (host, self.places[number])

    def marks(self):
        """Returns by what mark each member's file is whole, or how many bytes it has."""
        texts = [place.read_text() for place in self.places]
        return [text[17:21] if text == text_of(text[17:21]) else len(text) for text in texts]

    def names(self):
        return sorted(each.name for place in self.places for each in place.parent.iterdir())

    def end(self):
        self.sshd.terminate()
        self.sshd.wait()
        if self.made:
            os.rmdir("/run/sshd")


def copies(hosts):
    """A file is copied, and has the owner, the group and the mode of the file that was there."""
    before = [os.stat(place) for place in hosts.places]
    expect("copied", hosts.push(hosts.place("direct"), str(hosts.places[1])), (0, ""))
    expect("both members have it", (hosts.marks(), hosts.names()), (["bbbb"] * 2, ["users"] * 2))
    after = [os.stat(place) for place in hosts.places]
    kept = [(each.st_uid, each.st_gid, stat.S_IMODE(each.st_mode)) for each in before + after]
    expect("owner, group and mode", kept[2:], kept[:2])
    if IS_ROOT:
        nobody = pwd.getpwnam("nobody")
        subprocess.run(["chmod", "711", hosts.folder])
        told = [subprocess.run(["cmp", place, "/dev/null"], user="nobody", group=nobody.pw_gid, extra_groups=[],
                               capture_output=True).returncode for place in hosts.places]
        expect("a node of another user reads it", told, [1, 1])
    expect("once more", hosts.push(hosts.place("direct"), str(hosts.places[1])), (0, ""))
    expect("a file that is the same stays", [os.stat(place).st_ino for place in hosts.places],
           [each.st_ino for each in after])


def cut(hosts):
    """A connection that is cut leaves the old file, wherever it is cut."""
    size = len(text_of("bbbb"))
    for most in 1000, 3000, 5000, 6000, 20_000, 120_000, 300_000, size - 40_000, size - 2000:
        hosts.renew()
        hosts.proxy.set(most)
        status, said = hosts.push(hosts.place("proxied"))
        # The far side works on for a moment.
        time.sleep(0.5)
        await_that("cut after %d of %d bytes" % (most, size), lambda: (status, hosts.marks(), hosts.names()),
                   (1, ["aaaa"] * 2, ["users"] * 2), 30)
    expect("what is said", said.splitlines()[-1], "push-users: not copied to " + hosts.place("proxied"))
    hosts.proxy.set()
    expect("then it is copied", (hosts.push(hosts.place("proxied"))[0], hosts.marks()), (0, ["bbbb", "aaaa"]))


def stalled(hosts):
    """A copy that stalls and is given up never gets into the file of a later one, also if it is whole."""
    for most in 300_000, 20_000:
        hosts.renew()
        hosts.proxy.set(most, cuts=False)
        first = hosts.start(hosts.place("proxied"))
        await_that("the first push stalls", lambda: hosts.proxy.passed >= most, patience=20)
        time.sleep(1)
        end_hook(first)
        hosts.put("cccc")
        expect("a second push", (hosts.push(hosts.place("direct"))[0], hosts.marks()[0]), (0, "cccc"))
        hosts.proxy.held.set()
        time.sleep(3)
        await_that("the first one goes on after %d bytes" % most, lambda: (hosts.marks()[0], hosts.names()),
                   ("cccc", ["users"] * 2), 60)


def end_hook(process):
    from wakdulg_helpdesk.book import end_group
    end_group(process, 2)


def overtaken(hosts):
    """A copy that comes whole after a newer one is refused."""
    hosts.proxy.set(20_000, cuts=False)
    first = hosts.start(hosts.place("proxied"))
    await_that("the first push stalls", lambda: hosts.proxy.passed >= 20_000, patience=20)
    hosts.put("cccc")
    expect("a second push", (hosts.push(hosts.place("direct"))[0], hosts.marks()[0]), (0, "cccc"))
    hosts.proxy.held.set()
    said = first.communicate(timeout=100)[0]
    expect("the first one", (first.returncode, "a newer file is there" in said), (1, True))
    expect("the newer file stays", (hosts.marks()[0], hosts.names()), ("cccc", ["users"] * 2))
    hosts.put("aaaa")
    hosts.push(hosts.place("direct"))
    expect("a file of before, which is put in place again", hosts.marks()[0], "aaaa")


def silent(hosts):
    """A push to a host that says no more ends by itself."""
    hosts.proxy.set(20_000, cuts=False)
    begin = time.monotonic()
    status, said = hosts.push(hosts.place("proxied"), hosts.place("direct", 1))
    expect("status 1", (status, said.splitlines()[-1:]), (1, ["push-users: not copied to " + hosts.place("proxied")]))
    expect("within 60 s", time.monotonic() - begin < 60, True)
    expect("the other member has the file", hosts.marks(), ["aaaa", "bbbb"])
    hosts.renew()
    hosts.proxy.set(heard=len(text_of("bbbb")))
    expect("an answer that is lost", (hosts.push(hosts.place("proxied"))[0], hosts.marks()[0]), (1, "bbbb"))
    hosts.proxy.set()
    expect("once more", hosts.push(hosts.place("proxied")), (0, ""))


def refusals(hosts):
    """What is no place for a file."""
    folder, none = hosts.places[0].parent, hosts.places[0].with_name("other")
    for place in str(folder), "direct:%s" % folder:
        status, said = hosts.push(place)
        expect("a folder", (status, "it is a folder: give the path" in said), (1, True))
    for place in str(none), "direct:%s" % none:
        status, said = hosts.push(place)
        expect("no file", (status, "no file is there: put the first one there yourself" in said), (1, True))
    expect("nothing is left", hosts.names(), ["users"] * 2)
    status, said = hosts.push("nowhere.invalid:/users", str(hosts.places[1]))
    expect("no host", (status, said.splitlines()[-1]), (1, "push-users: not copied to nowhere.invalid:/users"))
    expect("all places are tried", hosts.marks(), ["aaaa", "bbbb"])
    hosts.places[0].rename(hosts.places[0].with_name("real"))
    hosts.places[0].symlink_to("real")
    expect("a link", (hosts.push(hosts.place("direct"))[0], hosts.marks(), hosts.places[0].is_symlink()),
           (0, ["bbbb"] * 2, True))
    hosts.users.write_text("")
    expect("an empty file", (hosts.push(*map(str, hosts.places))[0], hosts.marks()), (2, ["bbbb"] * 2))


def main():
    for program in "ssh", "ssh-keygen", "flock", "sha256sum":
        if not shutil.which(program):
            return "test_push: needs " + program
    if not SSHD:
        return "test_push: needs sshd"
    with tempfile.TemporaryDirectory() as folder:
        hosts = Hosts(folder)
        try:
            for part in copies, cut, stalled, overtaken, silent, refusals:
                print("%s: %s" % (part.__name__, part.__doc__), flush=True)
                hosts.renew()
                part(hosts)
        finally:
            hosts.end()
    return None


if __name__ == "__main__":
    needs = main()
    if needs:
        print(needs, file=sys.stderr)
        sys.exit(77)
    sys.exit(last_line())
