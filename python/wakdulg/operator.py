"""Asks running nodes of a cluster for reports, under an operator's or a reader's key.

    key = wakdulg.operator.read_operator("/etc/my/reader")      # a line `reader NUMBER KEY` or `operator NUMBER KEY`
    status = wakdulg.operator.ask(key, ("127.0.0.1", 7101), 1, "STATUS")

`ask` returns the lines of a report, or raises `Silent` or `NoReport`. A request is sealed again each time that it is
sent. Only a report that is sealed for that very datagram counts. docs/reference/formats.md ("A request and its report")
has the requests. A node refuses a reader as busy if the requests of readers used up their time. Then the same page is
asked for again a second later, ten times in all.
"""
from __future__ import annotations

import re
import socket
import time

from wakdulg.client import Sealed
from wakdulg.keys import Key, read_private
from wakdulg.nodes import Node

# How often a request is sent, and how many seconds apart.
TIMES, PAUSE = 3, 1.0
# What a node reports that is busy with readers, how often it is asked for a page, and how many seconds apart.
BUSY, BUSY_TIMES, BUSY_PAUSE = "NO BUSY", 10, 1.0
MAX_DATAGRAM = 2048
# The requests that are answered by pages.
PAGED = ("STATUS", "GATES", "FLOORS", "PASSES", "ROSTER")


class Silent(Exception):
    """The node gave no report: it is down, or it didn't open the request."""


class NoReport(Exception):
    """The node refuses the request, by the words of its report."""


class Operator(Key):
    """The number and the key that an operator or a reader shares with the nodes. Its answers are reports."""

    REQUEST, ANSWER, MAX_TEXT = 3, 4, 1024


class Request(Sealed):
    """A request to a node. A report is on one of its sendings.

    A node makes the text of a report again for each sending of its first page, and has one text. So if more pages
    follow, the first page has to be on the last sending: else they might be pages of two texts."""

    last = 0

    def datagram(self) -> bytes:
        """Returns the bytes of the next sending."""
        self.last = self.key.moment()
        data = self.key.seal(self.line, self.node, Operator.REQUEST, self.last)
        self._tags[self.last] = data[-Operator.TAG_LEN:]
        return data

    def opened(self, data: bytes) -> bytes | None:
        """Returns the text of a report on one of the sendings, or None."""
        text = super().opened(data)
        is_first = text is not None and self.line.endswith(b" 0") and b"\nnext " in text[-20:]
        return None if is_first and Operator.HEAD.unpack_from(data)[5] != self.last else text


def read_operator(path: str) -> Operator:
    """Returns the key of a file that has one line `operator NUMBER KEY` or `reader NUMBER KEY`.

    # Errors
    Raises `ValueError` if the file has another form, or as `wakdulg.read_private` does.
    """
    found = re.fullmatch(r"(?:operator|reader) ([0-9]{1,5}) ((?:[0-9A-Fa-f]{2})+)\n?", read_private(path))
    if not found:
        raise ValueError("not one line `operator NUMBER KEY` or `reader NUMBER KEY`: " + path)
    return Operator(int(found[1]), bytes.fromhex(found[2]))


def hear(client: socket.socket, request: Request, end: float) -> bytes | None:
    """Returns the text of a report that comes until `end`, or None."""
    while (left := end - time.monotonic()) > 0:
        client.settimeout(left)
        try:
            text = request.opened(client.recv(MAX_DATAGRAM))
        except socket.timeout:
            return None
        if text is not None:
            return text
    return None


def ask_page(
    key: Operator,
    address: Node,
    node: int,
    text: str,
    times: int = TIMES,
    pause: float = PAUSE,
    deadline: float = float("inf"),
) -> list[str]:
    """Returns the lines of the report on one request. A busy node is asked again, if there is time until `deadline`.

    # Errors
    Raises `Silent` if there is no report until `deadline`, in seconds of the monotonic clock.
    """
    for _ in range(BUSY_TIMES - 1):
        lines = ask_once(key, address, node, text, times, pause, deadline)
        if lines != [BUSY] or time.monotonic() + BUSY_PAUSE >= deadline:
            return lines
        time.sleep(BUSY_PAUSE)
    return ask_once(key, address, node, text, times, pause, deadline)


def ask_once(
    key: Operator, address: Node, node: int, text: str, times: int, pause: float, deadline: float
) -> list[str]:
    """Returns the lines of the report on one request, also if the node is busy.

    # Errors
    Raises `Silent` if there is no report until `deadline`, in seconds of the monotonic clock.
    """
    request = Request(text.encode(), key, node)
    try:
        with socket.socket(socket.AF_INET, socket.SOCK_DGRAM) as client:
            client.connect(address)
            for _ in range(times):
                if time.monotonic() >= deadline:
                    break
                client.send(request.datagram())
                report = hear(client, request, min(time.monotonic() + pause, deadline))
                if report is not None:
                    return report.decode(errors="replace").splitlines()
    except OSError as fault:
        raise Silent("no answer from %s:%d: %s" % (*address, fault.strerror)) from fault
    raise Silent("no answer from %s:%d" % address)


def ask(
    key: Operator,
    address: Node,
    node: int,
    word: str,
    times: int = TIMES,
    pause: float = PAUSE,
    deadline: float = float("inf"),
) -> list[str]:
    """Returns the lines of the report on a request. Its pages are asked one by one.

    # Errors
    Raises `Silent` if a page lacks, and `NoReport` if the node refuses the request or a page is none.
    """
    if word not in PAGED:
        return checked(ask_page(key, address, node, word, times, pause, deadline))
    lines: list[str] = []
    restarts = 2
    while True:
        page = ask_page(key, address, node, "%s %d" % (word, len(lines)), times, pause, deadline)
        if lines and restarts and page == ["NO REPORT"]:
            # Another operator's report took the place of this text at the node.
            lines, restarts = [], restarts - 1
            continue
        *more, last = checked(page)
        lines += more
        if last == "end":
            return lines
        if not more or last != "next %d" % len(lines):
            raise NoReport("not a page: " + last)


def checked(page: list[str]) -> list[str]:
    """Returns the lines of a page that refuses nothing.

    # Errors
    Raises `NoReport` if it is empty or refuses the request.
    """
    if not page or re.fullmatch("NO [A-Z]+", page[0]):
        raise NoReport("the node refuses: " + (page[0] if page else "an empty report"))
    return page
