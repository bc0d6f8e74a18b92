"""The key of a client: its file, and the datagrams that it seals (docs/reference/formats.md)."""
from __future__ import annotations

import hashlib
import hmac
import os
import re
import struct
import threading
import time
from typing import Union


class Key:
    """A client's number and the key that it shares with the nodes. It shows no byte of the key."""

    LINE, ANSWER, MAX_TEXT, TAG_LEN = 1, 2, 256, 32
    HEAD = struct.Struct(">2sBBHBQ")  # mark, version, kind, client, node, moment in microseconds

    def __init__(self, client: int, key: bytes) -> None:
        if not 0 <= client < 1 << 16:
            raise ValueError("a client number is 0 to 65535")
        if not 16 <= len(key) <= 64:
            raise ValueError("a client's key has 16 to 64 bytes")
        self.client, self._key, self._last, self._lock = client, bytes(key), 0, threading.Lock()

    def __repr__(self) -> str:
        return "Key(%d, ..)" % self.client

    def moment(self) -> int:
        """Returns the time in microseconds since 1970, later than each one before."""
        with self._lock:
            self._last = max(self._last + 1, time.time_ns() // 1000)
            return self._last

    def _tag(self, body: bytes, bound: bytes) -> bytes:
        return hmac.new(self._key, body + bound, hashlib.sha256).digest()

    def seal(self, text: bytes, node: int, kind: int = LINE, moment: int | None = None, bound: bytes = b"") -> bytes:
        """Returns the datagram of a line for a node, or of an answer of a node that is bound to a line's tag."""
        moment = self.moment() if moment is None else moment
        body = self.HEAD.pack(b"OS", 1, kind, self.client, node, moment) + text
        return body + self._tag(body, bound)

    def open(self, data: bytes, node: int, bound: bytes) -> bytes | None:
        """Returns the text of an answer of a node that is bound to a line's tag, or None."""
        if not self.HEAD.size + self.TAG_LEN <= len(data) <= self.HEAD.size + self.MAX_TEXT + self.TAG_LEN:
            return None
        body, tag = data[:-self.TAG_LEN], data[-self.TAG_LEN:]
        if self.HEAD.unpack_from(body)[:5] != (b"OS", 1, self.ANSWER, self.client, node):
            return None
        return body[self.HEAD.size:] if hmac.compare_digest(tag, self._tag(body, bound)) else None


class PlainLines:
    """What stands in the place of a key for lines that are asked plainly."""

    def __repr__(self) -> str:
        return "PLAIN_LINES"


PLAIN_LINES = PlainLines()
KeyOrPlain = Union[Key, PlainLines]


def read_private(path: str) -> str:
    """Returns the text of a small file of this user or of root, which its owner alone writes, and its owner and its
    group read. Any other one is refused, since others may have the secret, or have put theirs there.

    # Errors
    Raises `ValueError` if the file has another owner or mode, and `OSError` if it can't be read.
    """
    with open(path, encoding="ascii", errors="replace") as file:
        about = os.fstat(file.fileno())
        if about.st_uid not in (0, os.geteuid()):
            raise ValueError("it is neither this user's nor root's: chown %d %s" % (os.geteuid(), path))
        if about.st_mode & 0o037:
            raise ValueError("others may read or write it: chmod 600 " + path)
        return file.read(1024)


def read_key(word: str) -> Key:
    """Returns the key of `NUMBER:FILE`. The file has it in hexadecimal, on one line, as `oathd new-key` writes it.

    # Errors
    Raises `ValueError` if the word or the file has another form, or as `read_private` does.
    """
    number, colon, path = word.partition(":")
    if not colon or not re.fullmatch("[0-9]{1,5}", number):
        raise ValueError("not a NUMBER:FILE: " + word)
    text = read_private(path)
    if not re.fullmatch("([0-9A-Fa-f]{2})+\n?", text):
        raise ValueError("not one line of hexadecimal digits: " + path)
    return Key(int(number), bytes.fromhex(text.strip()))


def key_of(word: str | None, is_plain: bool) -> KeyOrPlain:
    """Returns the key of a front end's words: that of `NUMBER:FILE`, or PLAIN_LINES if it is to ask plainly.

    # Errors
    Raises `ValueError` if there are both words or none, or as `read_key` does.
    """
    if word and not is_plain:
        return read_key(word)
    if is_plain and not word:
        return PLAIN_LINES
    raise ValueError("a front end has a key file, or the word for plain lines, and not both")
