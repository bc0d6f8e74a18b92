"""New secrets that nobody has confirmed yet: files beside the users file, each under a key that one browser has.

The key is made of the value of the browser's cookie, which the site doesn't keep. So a file outlives the process, and
tells nothing to whoever has the files alone."""
from __future__ import annotations

import contextlib
import hmac
import json
import os
import secrets
import time
from typing import Iterator, NamedTuple

from cryptography.exceptions import InvalidTag
from cryptography.hazmat.primitives.ciphers.aead import AESGCM

from wakdulg_onboard.users_file import sync_folder

NONCE = 12


class Kept(NamedTuple):
    """A kept secret: its file, the second at which it was made, who made it, whose it is, the name of its token, and
    what a page shows."""
    path: str
    made: float
    owner: str
    user: str
    token: str
    uri: str
    kind: str


def key_of(cookie: str) -> tuple[bytes, str]:
    """Returns the key that the value of a cookie gives, and what the names of its files have in common."""
    data = cookie.encode("latin-1", "replace")
    label = hmac.digest(data, b"the files of kept secrets", "sha256")[:8].hex()
    return hmac.digest(data, b"the key of kept secrets", "sha256"), label


class Keeper:
    """The kept secrets of a site. Each is removed `longest` seconds after its act, or earlier by `forget`."""

    def __init__(self, users: str, site: str, longest: float) -> None:
        self.begin, self.longest = "%s.kept-%s-" % (os.path.realpath(users), site), longest

    def keep(self, cookie: str, kept: Kept) -> str:
        """Puts a secret on the disk, and returns its path. The path that `kept` has isn't looked at."""
        key, label = key_of(cookie)
        path, nonce = "%s%s-%s" % (self.begin, label, kept.token), secrets.token_bytes(NONCE)
        data = AESGCM(key).encrypt(nonce, json.dumps(kept[1:]).encode(), os.path.basename(path).encode())
        with open(os.open(path, os.O_WRONLY | os.O_CREAT | os.O_EXCL | os.O_NOFOLLOW, 0o600), "wb") as file:
            try:
                file.write(nonce + data)
                file.flush()
                os.fsync(file.fileno())
            except OSError:
                os.unlink(path)
                raise
        sync_folder(path)
        return path

    def all_of(self, cookie: str) -> list[Kept]:
        """Returns the secrets that a browser with this cookie may see, the latest first."""
        key, label = key_of(cookie)
        found = (self.read(path, key) for path in self.files(label)) if cookie else ()
        return sorted((kept for kept in found if kept), key=lambda kept: -kept.made)

    @staticmethod
    def read(path: str, key: bytes) -> Kept | None:
        """Returns the secret of a file, or None if the key isn't the one of the file."""
        try:
            with open(path, "rb") as file:
                data = file.read()
            text = AESGCM(key).decrypt(data[:NONCE], data[NONCE:], os.path.basename(path).encode())
        except (OSError, InvalidTag, ValueError):
            return None
        return Kept(path, *json.loads(text))

    def files(self, label: str = "") -> Iterator[str]:
        """Yields the files of a label, or all. Those that are too old are removed."""
        folder, name = os.path.split(self.begin)
        for each in os.listdir(folder):
            path = os.path.join(folder, each)
            if each.startswith(name):
                with contextlib.suppress(FileNotFoundError):
                    if time.time() > os.stat(path).st_mtime + self.longest:
                        os.unlink(path)
                    elif each.startswith(name + label):
                        yield path

    def path_of(self, token: str) -> str:
        """Returns the file that some browser has for a token, or ""."""
        return next((path for path in self.files() if path.endswith("-" + token)), "")

    def remove_old(self) -> None:
        """Removes the files that are too old."""
        for _ in self.files():
            pass

    @staticmethod
    def forget(path: str) -> None:
        """Removes a file. The path "" is that of no secret."""
        with contextlib.suppress(FileNotFoundError):
            os.unlink(path)

    @staticmethod
    def renew(path: str) -> None:
        """Lets the time of a secret begin now. The path "" is that of no secret."""
        with contextlib.suppress(FileNotFoundError):
            os.utime(path)

    def forget_all(self, cookie: str) -> None:
        """Removes the secrets that a browser with this cookie may see."""
        for kept in self.all_of(cookie):
            self.forget(kept.path)

    def move(self, old: str, new: str) -> None:
        """Gives the secrets of a cookie to the one that takes its place in the same browser."""
        for kept in self.all_of(old):
            about = os.stat(kept.path)
            os.utime(self.keep(new, kept), (about.st_atime, about.st_mtime))
            self.forget(kept.path)
