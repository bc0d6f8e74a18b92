"""Changes a users file: all of its rows that have to, or none, in a new file that takes the place of the old one."""
from __future__ import annotations

import contextlib
import fcntl
import os
import re
import secrets
import stat
import subprocess
from typing import Iterator, Sequence

from wakdulg_onboard.tokens import Fault, Row, read_rows

# The mode of a file that its group reads and writes.
SHARED = stat.S_IRGRP | stat.S_IWGRP


class UsersFile:
    """A users file that one process at a time may change. Its path is that of the file and not of a link to it."""

    def __init__(self, path: str | os.PathLike[str], create: bool) -> None:
        self.path, self.name = os.path.realpath(path), os.fspath(path)
        self.before: os.stat_result | None = None
        try:
            with open(self.path, "rb") as file:
                self.before, self.text = os.fstat(file.fileno()), file.read()
        except FileNotFoundError:
            if not create:
                raise
            self.text = b""
        self.rows = read_rows(self.text)

    def is_open_to_others(self) -> bool:
        """Returns whether other users of this machine may do anything with the file."""
        return self.before is not None and stat.S_IMODE(self.before.st_mode) & stat.S_IRWXO != 0

    def text_with(self, rows: Sequence[bytes]) -> bytes:
        """Returns the text of the new file: the old bytes, an LF if they lack it, and the rows."""
        gap = b"\n" if self.text and not self.text.endswith(b"\n") else b""
        return self.text + gap + b"".join(rows)

    def row_of(self, user: bytes) -> Row:
        """Returns the one row whose second field is the user, byte for byte.

        # Errors
        Raises `Fault` if there is none or more than one.
        """
        rows = [row for row in self.rows if row.user == user]
        name = user.decode("utf-8", "replace")
        if not rows:
            raise Fault(self.name, "NoRow", "no row is that of %s" % name)
        if len(rows) > 1:
            lines = ", ".join(str(row.line) for row in rows)
            raise Fault(self.name, "DuplicateUser", "lines %s are rows of %s: leave the right one" % (lines, name))
        return rows[0]

    def text_without(self, row: Row, new: bytes | None = None) -> tuple[bytes, str | None]:
        """Returns the text of the new file without a row, or with a new one in its place, and the serial number of the
        remark above it, or None. The remark goes with the token."""
        lines, at = self.text.split(b"\n"), row.line - 1
        lines[at - bool(row.serial):at + 1] = [] if new is None else [new]
        return b"\n".join(lines), row.serial or None

    def remove_left(self) -> None:
        """Removes what processes left that were killed while they wrote: it has all secrets. The lock is held, so none
        writes now."""
        folder, name = os.path.split(self.path)
        for each in os.listdir(folder):
            if re.fullmatch(re.escape(name) + r"\.new-\d+(-[0-9a-f]+)?", each):
                os.unlink(os.path.join(folder, each))

    def replace(self, text: bytes) -> None:
        """Writes the text beside the file, with the mode and the owner of the file, and renames it.

        # Errors
        Raises `Fault` if another program wrote the file meanwhile, and `OSError` if it can't be written.
        """
        self.remove_left()
        beside = "%s.new-%d-%s" % (self.path, os.getpid(), secrets.token_hex(4))
        made = os.open(beside, os.O_WRONLY | os.O_CREAT | os.O_EXCL | os.O_NOFOLLOW, 0o600)
        try:
            with open(made, "wb") as file:
                file.write(text)
                file.flush()
                if self.before:
                    self.take_owner_and_mode(file.fileno(), self.before)
                os.fsync(file.fileno())
            self.check_unchanged()
            os.rename(beside, self.path)
        except BaseException:
            os.unlink(beside)
            raise
        sync_folder(self.path)

    @staticmethod
    def take_owner_and_mode(file: int, before: os.stat_result) -> None:
        """Gives an open file the owner, the group and the mode of the file before.

        # Errors
        Raises `OSError` if this process may not, but for a group that may do nothing with the file, and for the owner
        of a file that its group reads and writes.
        """
        made = os.fstat(file)
        if (made.st_uid, made.st_gid) != (before.st_uid, before.st_gid):
            try:
                os.fchown(file, before.st_uid, before.st_gid)
            except OSError:
                # A group that may do nothing with the file need not be kept, and a service isn't in that of its user.
                # If several users write a file by its group, which their folder gives to new files, any may own it.
                is_unused = made.st_uid == before.st_uid and not before.st_mode & stat.S_IRWXG
                is_shared = made.st_gid == before.st_gid and before.st_mode & SHARED == SHARED
                if not is_unused and not is_shared:
                    raise
        os.fchmod(file, stat.S_IMODE(before.st_mode))

    def check_unchanged(self) -> None:
        """Raises `Fault` if another program wrote the file meanwhile."""
        now: os.stat_result | None = None
        with contextlib.suppress(FileNotFoundError):
            now = os.stat(self.path)
        told = [each and (each.st_dev, each.st_ino, each.st_size, each.st_mtime_ns) for each in (self.before, now)]
        if told[0] != told[1]:
            raise Fault(self.name, "Changed", "another program wrote it meanwhile; nothing is changed")


def sync_folder(path: str) -> None:
    """Writes the folder of a file to the disk, so that a rename in it stays after a crash."""
    folder = os.open(os.path.dirname(path), os.O_RDONLY | os.O_DIRECTORY)
    try:
        os.fsync(folder)
    finally:
        os.close(folder)


@contextlib.contextmanager
def lock_beside(path: str) -> Iterator[None]:
    """Holds the lock of the folder of a file, so that no second `onboard` changes a users file there.

    # Errors
    Raises `Fault` if another process holds it.
    """
    folder = os.open(os.path.dirname(os.path.realpath(path)), os.O_RDONLY | os.O_DIRECTORY)
    try:
        try:
            fcntl.flock(folder, fcntl.LOCK_EX | fcntl.LOCK_NB)
        except BlockingIOError:
            raise Fault(path, "Locked", "another onboard is at work in its folder") from None
        yield
    finally:
        os.close(folder)


def ask_oathd(oathd: str, text: bytes, cluster: str | None) -> tuple[list[str], list[str]]:
    """Has oathd read the text of a users file by standard input. If there is a cluster file, returns the lines by which
    members are compared, and what oathd notes of the text.

    # Errors
    Raises `Fault` if oathd refuses the text.
    """
    words = [oathd, "check", "/dev/stdin", "--cluster", cluster] if cluster else [oathd, "lines"]
    done = subprocess.run(words, input=text, capture_output=True)
    if done.returncode:
        said = done.stderr.decode("utf-8", "replace").strip().replace("\n", "\n  ")
        raise Fault("oathd %s" % words[1], "refuses the new file", said)
    prints = [line for line in done.stdout.decode().splitlines() if line.startswith(("fingerprint ", "book "))]
    notes = done.stderr.decode("utf-8", "replace").replace("/dev/stdin", "the new file").splitlines()
    return (prints, notes) if cluster else ([], [])
