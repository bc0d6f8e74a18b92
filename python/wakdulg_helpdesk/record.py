"""What staff did: a file to which lines are added, and in which no line changes."""
from __future__ import annotations

import calendar
import contextlib
import fcntl
import hashlib
import json
import os
import re
import threading
import time
from collections import Counter
from itertools import islice
from typing import Any, Dict, Iterator, NamedTuple

# A block that is read at once, and the bytes of a file at which the next line begins another file.
BLOCK, MOST_BYTES = 1 << 20, 10_000_000
BEGINS, REFUSED = "begins", "refused"
# What each line begins with. The moment follows.
WHEN = b'{"when": "'
Line = Dict[str, Any]


def print_of(line: bytes) -> str:
    """Returns the SHA-256 of a line without its end."""
    return hashlib.sha256(line).hexdigest()


def at_second(moment: float) -> str:
    """Returns a moment as lines have it. The texts of moments have the order of the moments."""
    return time.strftime("%Y-%m-%dT%H:%M:%SZ", time.gmtime(moment))


def second_of(when: str) -> int:
    """Returns the second of such a text, or 0 if it is none."""
    try:
        return calendar.timegm(time.strptime(when, "%Y-%m-%dT%H:%M:%SZ"))
    except ValueError:
        return 0


def read_back(path: str, block: int = BLOCK) -> Iterator[bytes]:
    """Yields the lines of a file, the last one first. The last one need not have an end."""
    with open(path, "rb") as file:
        size = at = file.seek(0, os.SEEK_END)
        rest = b""
        while at:
            begin = max(0, at - block)
            file.seek(begin)
            data = file.read(at - begin)
            data = data[:-1] if at == size and data.endswith(b"\n") else data
            rest, *lines = (data + rest).split(b"\n")
            yield from reversed(lines)
            at = begin
    if size:
        yield rest


def tail_of(path: str, most: int = BLOCK) -> list[bytes]:
    """Returns the last whole lines of a file."""
    with open(path, "rb") as file:
        size = file.seek(0, os.SEEK_END)
        file.seek(max(0, size - most))
        lines = file.read(most).split(b"\n")
    return lines[1 if size > most else 0:-1]


def files_of(path: str) -> list[str]:
    """Returns the files of a record, the oldest first: record.1, record.2 .. and record."""
    folder, name = os.path.split(os.path.abspath(path))
    found = (re.fullmatch(re.escape(name) + r"\.([1-9][0-9]{0,8})", each) for each in os.listdir(folder))
    numbers = sorted(int(match[1]) for match in found if match)
    return ["%s.%d" % (path, number) for number in numbers] + [path] * os.path.exists(path)


def lines_back(path: str) -> Iterator[bytes]:
    """Yields all lines of a record, the last one first."""
    for each in reversed(files_of(path)):
        yield from read_back(each)


class Record:
    """Each line is a JSON object with `when` and `who`. No code, secret or password is handed to it.

    Each line has the print of the line before it in the field `before`, also over the ends of files. An act that can be
    lost midway has two lines: the outcome of the first one is `begins`, and the second one has its print in the field
    `of`. Several processes may write a record."""

    def __init__(self, path: str, most: int = MOST_BYTES) -> None:
        self.path, self.most, self._lock = path, most, threading.Lock()
        with self._locked():
            pass

    # ---- Write

    @contextlib.contextmanager
    def _locked(self) -> Iterator[int]:
        """Opens the record for one writer at a time. Another process may have begun a new file meanwhile."""
        flags = os.O_RDWR | os.O_APPEND | os.O_CREAT | os.O_NOFOLLOW | os.O_CLOEXEC
        with self._lock:
            while True:
                file = os.open(self.path, flags, 0o600)
                fcntl.flock(file, fcntl.LOCK_EX)
                with contextlib.suppress(FileNotFoundError):
                    if os.stat(self.path).st_ino == os.fstat(file).st_ino:
                        break
                os.close(file)
            try:
                yield file
            finally:
                os.close(file)

    def _last_print(self) -> str:
        last = next(lines_back(self.path), None)
        return "" if last is None else print_of(last)

    def write(self, who: str, act: str, user: str, outcome: str, address: str, **more: str) -> str:
        """Adds a line, and returns its print after the disk has it."""
        told = {"when": at_second(time.time()), "who": who, "act": act, "user": user, "outcome": outcome,
                "from": address, **{name: text for name, text in more.items() if text}}
        self._begin_another_file()
        with self._locked() as file:
            line = json.dumps({**told, "before": self._last_print()}).encode()
            self._add(file, line)
        return print_of(line)

    def _add(self, file: int, line: bytes) -> None:
        """Writes a line, or nothing if the disk hasn't room for all of it."""
        size = os.fstat(file).st_size
        is_torn = size > 0 and os.pread(file, 1, size - 1) != b"\n"
        data = b"\n" * is_torn + line + b"\n"
        try:
            if os.write(file, data) != len(data):
                raise OSError("a short write to " + self.path)
        except OSError:
            with contextlib.suppress(OSError):
                os.ftruncate(file, size)
            raise
        os.fsync(file)

    def _begin_another_file(self) -> None:
        """Gives a file that is long enough the next number. If that fails, the file grows on."""
        with self._locked() as file, contextlib.suppress(OSError):
            if os.fstat(file).st_size >= self.most:
                *_, last = ["0", *(each.rpartition(".")[2] for each in files_of(self.path)[:-1])]
                os.rename(self.path, "%s.%d" % (self.path, int(last) + 1))

    # ---- Read

    def lines(self, since: float = 0, about: str = "") -> Iterator[tuple[str, Line]]:
        """Yields the lines since a moment with their prints, the latest first: all, or those that have a text as the
        whole of a field. What is no line of a record is passed over."""
        begin, wanted = at_second(since).encode(), json.dumps(about).encode() if about else b""
        for line in lines_back(self.path):
            if line.startswith(WHEN) and line[len(WHEN):len(WHEN) + len(begin)] < begin:
                break
            if wanted not in line:
                continue
            with contextlib.suppress(ValueError):
                told = json.loads(line)
                if isinstance(told, dict):
                    yield print_of(line), told

    def acts(self, since: float = 0, about: str = "") -> Iterator[Line]:
        """Yields the acts since a moment, the latest first, each once: by the line of its outcome, or by that of its
        begin if no line has its outcome. `about` is as for `lines`."""
        ended: set[str] = set()
        # Former programs wrote no `before`, and didn't say whose outcome a line is.
        former: Counter[tuple[str, str, str]] = Counter()
        for mark, line in self.lines(since, about):
            key = line.get("who", ""), line.get("act", ""), line.get("user", "")
            if line.get("outcome") != BEGINS:
                ended.add(line.get("of", ""))
                former[key] += "before" not in line and not line.get("outcome", "").startswith(REFUSED)
                yield line
            elif "before" in line:
                yield from [line] * (mark not in ended)
            elif former[key]:
                former[key] -= 1
            else:
                yield line

    def last(self, count: int, user: str) -> list[Line]:
        """Returns the last acts on a user, the latest first."""
        return list(islice((line for line in self.acts(about=user) if line.get("user") == user), count))


# ---- Check

class Checked(NamedTuple):
    """What a look at a record found: its lines, the print of the last one, the fault of the first line that doesn't
    follow the one before it, or "", and what else there is to say."""
    lines: int
    last: str
    fault: str
    notes: list[str]


def before_of(line: bytes) -> str | None:
    """Returns what a line says of the line before it, or None if it says nothing. Raises ValueError if it is torn."""
    told = json.loads(line)
    return told.get("before") if isinstance(told, dict) else None


def follow(line: bytes, before: bytes | None, is_chained: bool) -> tuple[str, str]:
    """Returns the fault of a line and a note, each "" if there is none. `is_chained` is whether an earlier line says
    something of the line before it."""
    try:
        has = before_of(line)
    except ValueError:
        return "", "it is torn: nothing says whether the line before it is whole"
    if has is None:
        return "it says nothing of the line before it" if is_chained else "", ""
    if before is None:
        return "", "it follows a line that isn't here" if has else ""
    return "" if has == print_of(before) else "it doesn't follow the line before it", ""


def check(path: str) -> Checked:
    """Follows the lines of a record over all of its files, up to the first fault."""
    count, before, is_chained = 0, None, False
    notes: list[str] = []
    for each in files_of(path):
        for number, line in enumerate(reversed(list(read_back(each))), 1):
            fault, note = follow(line, before, is_chained)
            place = "%s:%d: " % (each, number)
            if fault:
                return Checked(count, print_of(before or b""), place + fault, notes)
            notes += [place + note] * bool(note)
            count, before, is_chained = count + 1, line, is_chained or b'"before": "' in line
    return Checked(count, print_of(before) if before is not None else "", "", notes)
