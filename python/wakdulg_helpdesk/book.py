"""The users file of the site: who has which token, and the one writer of it."""
from __future__ import annotations

import contextlib
import functools
import hashlib
import os
import re
import shlex
import signal
import subprocess
import threading
import time
from typing import Callable, Iterator, NamedTuple

from wakdulg_helpdesk.cluster_file import ClusterFile
from wakdulg_helpdesk.naming import NO_NAMES, Naming
from wakdulg_onboard.tokens import Fault, Row, Token, read_rows
from wakdulg_onboard.users_file import UsersFile, ask_oathd, lock_beside, sync_folder

# What makes the text of a new file of an old one.
Edit = Callable[[UsersFile], bytes]
HASHES = {"SHA256": "SHA-256", "SHA512": "SHA-512"}
PASSWORDS = {b"-": "none", b"+": "not checked by the nodes"}


class User(NamedTuple):
    """A row of the users file, without its secret. `mark` differs if the row does. `token` is the word by which members
    know the row's token: a name, which differs if the user, the secret or the type does, or the place of the row. A
    user without a row has none. `begin` is the counter at which an event token begins, and `serial` the serial number
    of the device, or ""."""
    name: bytes
    type: str = ""
    password: str = ""
    mark: bytes = b""
    token: bytes | None = None
    begin: int = 0
    serial: str = ""

    @property
    def text(self) -> str:
        """The name as pages show it."""
        return self.name.decode("utf-8", "backslashreplace")

    @property
    def hex(self) -> str:
        """The name as addresses have it."""
        return self.name.hex()

    @property
    def has_password(self) -> bool:
        """Whether the cluster checks a password of this user."""
        return self.password not in PASSWORDS.values()

    def period(self) -> int | None:
        """Returns the seconds of a step, or None for an event token."""
        return {"T30": 30, "T60": 60}.get((self.type + "/").split("/")[1])

    def digits(self) -> int:
        """Returns how many digits a code has."""
        return int(self.type.split("/")[2])

    def hash(self) -> str:
        """Returns the hash, as the type has it."""
        return (self.type.split("/") + ["SHA1"])[3]

    def kind(self) -> str:
        """Returns the kind of the token in words."""
        period = self.period()
        what = "time token, steps of %d s" % period if period else "event token"
        return "%s, %d digits, %s" % (what, self.digits(), HASHES.get(self.hash(), "SHA-1"))

    def described(self) -> str:
        """Returns the kind of the token and its serial number, as far as it has one."""
        return self.kind() + (", serial number " + self.serial if self.serial else "")


@functools.lru_cache(maxsize=None)
def whole_type(word: bytes) -> bytes:
    """Returns the type of a row with its kind and its digits, as `oathd export` writes it."""
    fields = word.split(b"/")
    return b"/".join(fields + [b"E", b"6"][len(fields) - 1:] if len(fields) < 3 else fields)


def fields_of(row: Row) -> bytes:
    """Returns what makes the name of a row's token: type, user and secret."""
    return b"\t".join([whole_type(row.type), row.user, row.secret.lower()])


def mark_of(row: Row) -> bytes:
    """Returns what differs if a row does."""
    return hashlib.sha256(fields_of(row) + b"\t" + row.password).digest()


def user_of(row: Row, naming: Naming, place: int = 0) -> User:
    """Returns the user of a row. `place` is that of the row in the users file, from 0."""
    password = PASSWORDS.get(row.password, "must be given")
    token = naming.token_of(fields_of(row), place)
    begin = int(row.rest[0]) if row.rest and row.rest[0].isdigit() else 0
    return User(row.user, whole_type(row.type).decode(), password, mark_of(row), token, begin, row.serial)


def order_of(text: str) -> list[tuple[int, str]]:
    """Returns what names are sorted by: user2 comes before user10."""
    return [(len(part) if part.isdecimal() else 0, part) for part in re.split(r"([0-9]+)", text.casefold())]


class Book:
    """The users file. It is read again when it changes, and changed by `change` alone.

    It is pending from a change until the hook says that each member has the file. Then a mark beside the file is there,
    so another process knows that too, and the same one after a restart."""
    # A hook is ended after this number of seconds.
    PATIENCE = 120
    # A pending file is copied again after this number of seconds, and after four times those that the hook took: acts
    # wait for the hook.
    PAUSE = 15
    # How long an act waits for the copy by another site, and how often a site looks for the mark of another one.
    WAIT, LOOK = 20, 0.5

    def __init__(self, path: str, oathd: str, file: ClusterFile, push: str | None, copier: str = "") -> None:
        # The folder of the copy without the key lives as long as the file is kept.
        self.path, self.oathd, self.file, self.push = path, oathd, file, shlex.split(push or "")
        # What else copies the file, if this site has no hook.
        self.copier = "" if self.push else copier
        self.cluster, self.naming = file.keyless, file.naming
        self.mark, self.said = os.path.realpath(path) + ".pending", ""
        self.stamp: tuple[int, int, int] | None = None
        self.users: dict[bytes, User] = {}
        # The name, the serial number and the user of each row. Upper and lower case are the same in both texts.
        self.folded: list[tuple[str, str, User]] = []
        self.fault = ""
        self.reading, self.writing = threading.Lock(), threading.Lock()
        self.refresh()

    def refresh(self) -> None:
        """Reads the file again if it changed. If it can't be read, or has a fault, the users of before stay."""
        with self.reading:
            try:
                now = os.stat(self.path)
                stamp = now.st_ino, now.st_size, now.st_mtime_ns
                if stamp == self.stamp:
                    return
                with open(self.path, "rb") as file:
                    rows = read_rows(file.read())
                self.naming.check_rows(rows)
                users = [user_of(row, self.naming, place) for place, row in enumerate(rows)]
                users.sort(key=lambda user: order_of(user.text))
                self.users = {user.name: user for user in users}
                self.folded = [(user.text.casefold(), user.serial.casefold(), user) for user in users]
                self.stamp, self.fault = stamp, ""
            except (OSError, Fault) as fault:
                self.fault = str(fault)

    def find(self, name: bytes) -> User | None:
        """Returns the user of a name, or None if nobody has it."""
        self.refresh()
        return self.users.get(name)

    def has(self, token: str) -> bool:
        """Returns whether a row has a token, by the name of it."""
        self.refresh()
        return any(user.token == token.encode() for user in self.users.values())

    def name_of(self, token: Token) -> str:
        """Returns the name that a new token gets at the members."""
        return (user_of(read_rows(token.row("-"))[0], self.naming).token or b"").decode()

    def search(self, text: str) -> list[User]:
        """Returns the users whose names or serial numbers have the text, those that begin with it first."""
        self.refresh()
        text = text.strip().casefold()
        found = [each for each in self.folded if text in each[0] or text in each[1]]
        found.sort(key=lambda each: not each[0].startswith(text) and not each[1].startswith(text))
        return [user for _, _, user in found]

    @contextlib.contextmanager
    def lock(self, patience: float = 20) -> Iterator[None]:
        """Holds the lock of the folder, or raises a fault if it isn't free within `patience` seconds. Another writer,
        as `onboard`, may have it for a while, and so may another act, whose hook may hang."""
        end = time.monotonic() + patience
        if not self.writing.acquire(timeout=patience):
            raise Fault("the users file", "Locked", "another change is being copied to the members; try again")
        try:
            while True:
                try:
                    held = lock_beside(self.path)
                    held.__enter__()
                    break
                except Fault:
                    if time.monotonic() > end:
                        raise
                    time.sleep(0.1)
            try:
                yield
            finally:
                held.__exit__(None, None, None)
        finally:
            self.writing.release()

    def check(self, text: bytes) -> None:
        """Raises a fault if oathd doesn't take the text of a users file."""
        ask_oathd(self.oathd, text, self.cluster)

    def want_names(self) -> None:
        """Raises a fault if the cluster has no names: its users file isn't changed here."""
        if not self.naming.may_change:
            raise Fault("the cluster", "NoNames", NO_NAMES)

    def try_change(self, edit: Edit) -> None:
        """Raises the fault that a change would have now. It writes nothing."""
        self.want_names()
        self.check(edit(UsersFile(self.path, create=False)))

    def change(self, edit: Edit) -> tuple[bool, str]:
        """Puts the text that `edit` makes of the file in its place, and has it copied to the members. Returns whether
        that succeeded, and what the hook said. The lock is held meanwhile, unless another site copies the file."""
        self.want_names()
        with self.lock():
            users = UsersFile(self.path, create=False)
            text = edit(users)
            self.check(text)
            if self.push or self.copier:
                self.set_mark()
            users.replace(text)
            self.refresh()
            if not self.copier:
                return self.copy()
        return self.await_copy()

    def await_copy(self) -> tuple[bool, str]:
        """Waits for the site that copies the file. Returns whether it did that, and else what a page says."""
        end = time.monotonic() + self.WAIT
        while self.pending() is not None:
            if time.monotonic() > end:
                return False, "%s hasn't copied the file yet" % self.copier
            time.sleep(0.2)
        return True, ""

    def copy(self) -> tuple[bool, str]:
        """Has the hook copy the file. The file is no longer pending if that succeeded."""
        if not self.push:
            return False, "no --push copies the file to the members"
        is_done, self.said = run_hook(self.push, self.PATIENCE)
        if is_done:
            with contextlib.suppress(OSError):
                os.unlink(self.mark)
        return is_done, self.said

    # ---- What is pending

    def set_mark(self) -> None:
        """Puts the mark on the disk. An earlier one stays, with its moment."""
        with contextlib.suppress(FileExistsError):
            os.close(os.open(self.mark, os.O_WRONLY | os.O_CREAT | os.O_EXCL | os.O_NOFOLLOW, 0o600))
        sync_folder(self.mark)

    def pending(self) -> float | None:
        """Returns the second since which not all members have the file, or None. Without names nothing is copied."""
        if not self.naming.may_change:
            return None
        try:
            return os.lstat(self.mark).st_mtime
        except FileNotFoundError:
            return None

    def copy_pending(self) -> None:
        """Has the hook copy a pending file, if `oathd check` takes it: it may have been changed by hand."""
        if self.pending() is None:
            return
        try:
            with self.lock():
                if self.pending() is not None:
                    self.check(UsersFile(self.path, create=False).text)
                    self.copy()
        except (OSError, Fault) as fault:
            self.said = str(fault)

    def keep_copying(self) -> None:
        """Copies a pending file until all members have it, in a thread that ends with the process. A site without a
        hook leaves that to another one, and without names nothing is copied."""
        def keep() -> None:
            while True:
                begin = time.monotonic()
                self.copy_pending()
                self.await_mark(self.PAUSE + 4 * (time.monotonic() - begin))
        if self.naming.may_change and not self.copier:
            threading.Thread(target=keep, daemon=True).start()

    def await_mark(self, seconds: float) -> None:
        """Waits for some seconds, or until another site sets a mark."""
        end, seen = time.monotonic() + seconds, self.pending()
        while (left := end - time.monotonic()) > 0 and (seen is not None or self.pending() is None):
            time.sleep(min(self.LOOK, left))


def run_hook(words: list[str], patience: float, text: str = "") -> tuple[bool, str]:
    """Returns whether a hook succeeded, and the end of what it said. `text` is its standard input. One that takes too
    long is ended with all that it began, so that none of it works on."""
    try:
        hook = subprocess.Popen(words, stdin=subprocess.PIPE, stdout=subprocess.PIPE, stderr=subprocess.STDOUT,
                                start_new_session=True)
    except OSError as fault:
        return False, "the hook can't be started (%s)" % type(fault).__name__
    try:
        said = hook.communicate(text.encode(), timeout=patience)[0]
    except subprocess.TimeoutExpired:
        end_group(hook)
        return False, "the hook was ended after %d seconds" % patience
    return hook.returncode == 0, said.decode("utf-8", "replace").strip()[-500:]


def end_group(leader: subprocess.Popen[bytes], pause: float = 3) -> None:
    """Ends all processes of a group. They have some seconds to remove their files."""
    for number in signal.SIGTERM, signal.SIGKILL:
        with contextlib.suppress(ProcessLookupError):
            os.killpg(leader.pid, number)
        with contextlib.suppress(subprocess.TimeoutExpired):
            leader.communicate(timeout=pause)


def row_in(users: UsersFile, name: bytes, mark: bytes | None = None) -> Row:
    """Returns the row of a user. If there is a `mark`, the row is to be the one that staff saw."""
    row = next((row for row in users.rows if row.user == name), None)
    if row is None or (mark is not None and mark_of(row) != mark):
        raise Fault("the users file", "Changed", "the row was changed meanwhile; look at the user again")
    return row


def with_row(name: bytes, mark: bytes, new: bytes) -> Edit:
    """Returns an edit that puts `new` in the place of a user's row, or removes the row with b"". The remark with the
    serial number of the old token goes with it."""
    def edit(users: UsersFile) -> bytes:
        return users.text_without(row_in(users, name, mark), new.rstrip(b"\n") or None)[0]
    return edit


def with_rows(tokens: list[Token]) -> Edit:
    """Returns an edit that adds the rows of new tokens. No user and no secret may be there already."""
    def edit(users: UsersFile) -> bytes:
        faults = duplicates(users, tokens)
        if faults:
            raise faults[0]
        return users.text_with([token.row("-") for token in tokens])
    return edit


def device_of(secret: bytes) -> bytes:
    """Returns what the codes of a secret depend on: HMAC fills a key with zero bytes."""
    secret = secret.lower()
    while secret.endswith(b"00") and len(secret) % 2 == 0:
        secret = secret[:-2]
    return secret


def duplicates(users: UsersFile, tokens: list[Token]) -> list[Fault]:
    """Returns a fault for each token whose user or secret the file, or an earlier token, has already. A secret is a
    device: if two users have it, a code of one lets in the other."""
    names: dict[bytes, str] = {}
    devices: dict[bytes, str] = {}
    for row in users.rows:
        place = "line %d of the users file" % row.line
        names[row.user] = place
        devices[device_of(row.secret)] = "%s, %s" % (row.user.decode("utf-8", "backslashreplace"), place)
    faults = []
    for token in tokens:
        name, device = (token.user or "").encode(), device_of(token.secret.hex().encode())
        if name in names:
            faults.append(Fault(token.place, "DuplicateUser", "%s has a token: %s" % (token.user, names[name])))
        elif device in devices:
            detail = "%s would have the secret of %s: give each user another device" % (token.user, devices[device])
            faults.append(Fault(token.place, "DuplicateSecret", detail))
        names.setdefault(name, token.place)
        devices.setdefault(device, "%s, %s" % (token.user, token.place))
    return faults
