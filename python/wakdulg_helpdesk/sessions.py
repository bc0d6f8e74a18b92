"""Sessions in the memory of the one process, and the tokens of their forms."""
from __future__ import annotations

import hashlib
import hmac
import secrets
import threading
import time
from typing import TYPE_CHECKING

if TYPE_CHECKING:
    from wakdulg_onboard.tokens import Token


class Session:
    """What the process knows of one login: the user, the mark of a row, the last factor that the cluster accepted of
    the user, its ends, and what its pages show."""

    def __init__(self, user: str, row: bytes, factor: int | None, now: float, idle: float, longest: float) -> None:
        self.user, self.row, self.factor = user, row, factor
        self.begun, self.used, self.idle, self.longest = now, now, idle, longest
        self.notice, self.alert = "", ""
        self.imports: dict[str, tuple[list[Token], list[str]]] = {}

    def ends(self) -> float:
        """Returns the second at which the session ends."""
        return min(self.begun + self.longest, self.used + self.idle)

    def take_notice(self) -> tuple[str, str]:
        """Returns the notice and the alert of the next page."""
        told, self.notice, self.alert = (self.notice, self.alert), "", ""
        return told


class Sessions:
    """The sessions that haven't ended: `idle` seconds after their last use, and `longest` after their begin. It keeps a
    digest of each id, so no look-up takes a time by the id."""

    def __init__(self, cookie: str, idle: float, longest: float) -> None:
        self.cookie, self.idle, self.longest = "__Host-" + cookie, idle, longest
        self._secret, self._lock = secrets.token_bytes(32), threading.Lock()
        self._kept: dict[bytes, Session] = {}

    @staticmethod
    def now() -> float:
        """Returns the seconds since this machine's start, also those in which it slept."""
        return time.clock_gettime(time.CLOCK_BOOTTIME)

    @staticmethod
    def _key(name: str) -> bytes:
        return hashlib.sha256(name.encode("latin-1", "replace")).digest()

    @staticmethod
    def new_name() -> str:
        """Returns an id that nobody guesses."""
        return secrets.token_urlsafe(32)

    def begin(self, user: str, row: bytes = b"", factor: int | None = None, notice: str = "") -> str:
        """Returns the id of a new session. Its first page says the notice."""
        name, now = self.new_name(), self.now()
        with self._lock:
            self._kept = {key: kept for key, kept in self._kept.items() if now < kept.ends()}
            session = self._kept[self._key(name)] = Session(user, row, factor, now, self.idle, self.longest)
            session.notice = notice
        return name

    def find(self, name: str, is_used: bool) -> Session | None:
        """Returns the session of an id, or None. With `is_used` its idle time begins again."""
        now, key = self.now(), self._key(name)
        with self._lock:
            kept = self._kept.get(key)
            if kept is None or now >= kept.ends():
                self._kept.pop(key, None)
                return None
            kept.used = now if is_used else kept.used
            return kept

    def end(self, name: str) -> None:
        """Ends the session of an id, if there is one."""
        with self._lock:
            self._kept.pop(self._key(name), None)

    def names_in(self, cookies: str) -> list[str]:
        """Returns what a browser's cookies have under our name. Those of neighbours may have any form."""
        parts, begin = [part.strip() for part in cookies.split(";")], self.cookie + "="
        return [part[len(begin):] for part in parts if part.startswith(begin)]

    def form_token(self, name: str) -> str:
        """Returns the token of the forms that a browser with this cookie sends."""
        return hmac.new(self._secret, b"form" + name.encode("latin-1", "replace"), hashlib.sha256).hexdigest()

    def mark(self, data: bytes) -> str:
        """Returns a mark of some bytes, which tells nothing of them."""
        return hmac.new(self._secret, b"mark" + data, hashlib.sha256).hexdigest()[:32]


def is_same(one: str, other: str) -> bool:
    """Compares two texts in a time that doesn't depend on them."""
    return hmac.compare_digest(one.encode("utf-8", "replace"), other.encode("utf-8", "replace"))
