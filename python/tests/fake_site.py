"""What a test of pages has in the place of a cluster and a browser: no node, no Chromium, the same requests."""
from __future__ import annotations

import base64
import html
import logging
import os
import re
from collections import Counter
from pathlib import Path
from typing import Any, Callable

import wakdulg
from wakdulg_helpdesk.acts import Desk
from wakdulg_helpdesk.book import Book, User
from wakdulg_helpdesk.cluster_file import ClusterFile
from wakdulg_helpdesk.keeping import Keeper
from wakdulg_helpdesk.members import Gate, State
from wakdulg_helpdesk.naming import Row
from wakdulg_helpdesk.record import Record
from wakdulg_helpdesk.sessions import Sessions
from wakdulg_helpdesk.staff import staff_of
from wakdulg_helpdesk.web import Parts
from wakdulg_onboard.tokens import read_rows

OATHD = os.environ.get("OATHD", str(Path(__file__).resolve().parents[2] / "oathd"))
ORIGIN = "https://helpdesk.example"


class Killed(BaseException):
    """In the place of a kill -9: nothing catches it."""


class Cluster:
    """Accepts the codes 000000, 000001 .. of each user once, in their order, with the password of the row."""

    def __init__(self, book: Book) -> None:
        self.book, self.asked = book, 0
        self.next: Counter[str] = Counter()
        self.factors: dict[str, int] = {}

    def code(self, user: str) -> str:
        """Returns the next code of a user's phone."""
        return "%06d" % self.next[user]

    def check(self, user: str, code: str, password: str | None = None) -> wakdulg.Accepted:
        self.asked += 1
        row = next((row for row in read_rows(Path(self.book.path).read_bytes()) if row.user == user.encode()), None)
        if row is None:
            raise wakdulg.Refused("UNKNOWN")
        if row.password not in (b"-", b"+") and row.password != (password or "").encode():
            raise wakdulg.Refused("PASSWORD")
        if code != self.code(user):
            raise wakdulg.Refused("INVALID")
        self.next[user] += 1
        return wakdulg.Accepted(self.factors.get(user, self.next[user] - 1))

    def resync(self, user: str, first: str, second: str, password: str | None = None) -> wakdulg.Accepted:
        self.asked += 1
        return wakdulg.Accepted(41)


class Member:
    """A member that has the rows and the gates that a test gives it."""

    def __init__(self, number: int) -> None:
        self.number, self.boot, self.read = number, b"boot 1", 0
        self.rows: dict[bytes, Row] = {}
        self.shut: list[Gate] = []

    def boot_now(self) -> bytes:
        return self.boot

    def gates(self) -> list[Gate]:
        return self.shut

    def roster(self) -> dict[bytes, Row]:
        self.read += 1
        return self.rows


class Members:
    """Three members that have what a test says, or else the row of the users file."""

    def __init__(self) -> None:
        self.told: dict[str, list[State]] = {}
        self.all = [Member(number) for number in (1, 2, 3)]

    def ask_all(self, call: Callable[[Member], Any]) -> list[Any]:
        return [call(member) for member in self.all]

    def states(self, user: User) -> list[State]:
        says = "yes" if user.token else "no"
        return self.told.get(user.text, [State(number, says, True) for number in (1, 2, 3)])

    def unlock(self, user: bytes) -> str:
        return "member 1: unlocked"


class Table:
    """The table of a cluster that is well."""

    def now(self) -> tuple[int, dict[str, Any]]:
        rows = [["1/3", "7", "all", "9", "aa", "bb", "ok"]]
        return 1, {"rows": rows, "said": "", "status": 0, "when": "00:00:00 UTC"}


def parts_of(sessions: Sessions, keeper: Keeper, tell: str | None = None) -> Parts:
    """Returns what a site is made of over the files of the working directory, as its process has it after a start."""
    book = Book("users", OATHD, ClusterFile("cluster"), "true")
    cluster: Any = Cluster(book)
    members: Any = Members()
    log = logging.getLogger("trial")
    log.setLevel(logging.CRITICAL)
    desk = Desk(book, members, cluster, staff_of("staff"), "Example Site")
    return Parts(ORIGIN, desk, sessions, keeper, Record("record"), log, tell)


class Browser:
    """A browser with one cookie, for which an application answers."""

    def __init__(self, application: Any) -> None:
        self.application, self.cookie, self.page, self.status, self.place = application, "", "", 0, ""
        self.head: Any = {}

    def ask(self, path: str, data: dict[str, Any] | None = None) -> Browser:
        """Asks for a page, or sends a form. Returns itself, with the answer."""
        client = self.application.test_client(use_cookies=False)
        headers = {"Cookie": self.cookie, "Sec-Fetch-Site": "same-origin", "X-Real-IP": "192.0.2.9"}
        answer = client.open(path, method="GET" if data is None else "POST", data=data, headers=headers,
                             base_url=ORIGIN)
        if found := re.match("([^;]*)", answer.headers.get("Set-Cookie", "")):
            self.cookie = found[1] or self.cookie
        self.status, self.page = answer.status_code, answer.get_data(as_text=True)
        self.place, self.head = answer.headers.get("Location", ""), answer.headers
        return self

    def send(self, path: str, **fields: Any) -> Browser:
        """Sends a form of the last page, with the fields that it hides."""
        hidden = re.findall(r'<input type="hidden" name="(\w+)" value="([^"]*)"', self.page)
        return self.ask(path, {**{name: html.unescape(text) for name, text in hidden}, **fields})

    def find(self, pattern: str) -> str:
        """Returns what the group of a pattern has on the page."""
        found = re.search(pattern, self.page)
        assert found, "%s: %s" % (pattern, self.page)
        return found[1]

    def text(self) -> str:
        """Returns the page with one blank in the place of all blanks."""
        return " ".join(self.page.split())

    def alert(self) -> str:
        return " ".join(" ".join(re.findall(r'role="alert" class="fault">([^<]*)', self.page)).split())

    def secret(self) -> str:
        """Returns the secret on the page, without blanks, or ""."""
        found = re.search('id="secret">([^<]*)', self.page)
        return found[1].replace(" ", "") if found else ""


def secret_of(name: str) -> str:
    """Returns the secret of a row in base32, or "" if nobody has the name."""
    row = next((row for row in read_rows(Path("users").read_bytes()) if row.user == name.encode()), None)
    return base64.b32encode(bytes.fromhex(row.secret.decode())).decode().rstrip("=") if row else ""


def left() -> list[str]:
    """Returns the files that have a kept secret."""
    return [each for each in os.listdir(".") if ".kept-" in each]
