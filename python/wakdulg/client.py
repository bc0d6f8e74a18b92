"""Submits codes to a cluster of `oathd serve` nodes, as docs/reference/clients.md says that clients do."""
from __future__ import annotations

import hashlib
import json
import os
import re
import secrets
import socket
import time
from typing import NamedTuple, Sequence, Union

from wakdulg.keys import Key, KeyOrPlain, PlainLines
from wakdulg.nodes import Node, check_distinct, read_list

# When the second datagram is sent, and when the node is left, in seconds from the first on.
PAUSES = (1.0, 2.5)
OF_THE_NODE = ("TIMEOUT", "BUSY", "CLOCK")
OF_THE_LINE = ("UNKNOWN", "PASSWORD", "EXHAUSTED", "INVALID", "SPENT")
SILENT = "SILENT"


class Accepted(NamedTuple):
    """The user is let in, once. A tuple that isn't empty is true, also if the factor is 0."""

    factor: int  # the counter or time step of the code, for the records

    def __str__(self) -> str:
        return "OK %d" % self.factor


class Refused(Exception):
    """Nobody is let in. `reason` is the node's. `in_doubt`: the code may be used up by this very submission or another
    one. Then the user gives the next code, and this was no wrong guess."""

    def __init__(self, reason: str, in_doubt: bool = False) -> None:
        super().__init__(reason)
        self.reason, self.in_doubt = reason, in_doubt

    def __str__(self) -> str:
        return self.reason + (" (in doubt)" if self.in_doubt else "")


class BadField(Refused):
    """A field that no line can have. Nothing was sent. Say the same to the user as of a wrong code."""


class Throttled(Refused):
    """The code was not looked at. The user may try again after `seconds`."""

    def __init__(self, seconds: int) -> None:
        super().__init__("THROTTLED %d" % seconds)
        self.seconds = seconds


class Undecided(Refused):
    """No node has decided: TIMEOUT, BUSY, CLOCK, or SILENT if none said anything. `hint` says what to look at."""

    hint = ""

    def __str__(self) -> str:
        return super().__str__() + self.hint


# Of a client with a key: a node answers nothing that it doesn't open.
SEALED_HINT = ": look at the key, at its number, and at this machine's clock"


class Plain:
    """A line to a node, as it is sent and answered without a key."""

    def __init__(self, line: bytes) -> None:
        self.line = line

    def datagram(self) -> bytes:
        """Returns the bytes of the next sending."""
        return self.line

    def opened(self, data: bytes) -> bytes | None:
        """Returns the text of an answer."""
        return data


class Sealed:
    """A line to a node under a key, sealed anew each time that it is sent. An answer is to one of the sendings."""

    def __init__(self, line: bytes, key: Key, node: int) -> None:
        self.line, self.key, self.node = line, key, node
        self._tags: dict[int, bytes] = {}

    def datagram(self) -> bytes:
        """Returns the bytes of the next sending."""
        moment = self.key.moment()
        data = self.key.seal(self.line, self.node, moment=moment)
        self._tags[moment] = data[-Key.TAG_LEN:]
        return data

    def opened(self, data: bytes) -> bytes | None:
        """Returns the text of an answer to one of the sendings, or None."""
        if len(data) < Key.HEAD.size:
            return None
        tag = self._tags.get(Key.HEAD.unpack_from(data)[5])
        return None if tag is None else self.key.open(data, self.node, tag)


def is_answer(data: bytes, nonce: bytes) -> bool:
    """Returns whether these bytes are a whole answer, and one to the line with this nonce."""
    nonce, reasons = re.escape(nonce), "|".join(OF_THE_LINE + OF_THE_NODE).encode()
    answer = rb"OK %b [0-9]{1,20}|NO %b (%b|THROTTLED [0-9]{1,20})|NO - BADLINE" % (nonce, nonce, reasons)
    return re.fullmatch(answer, data) is not None


def hear(
    node: Node, asked: Union[Plain, Sealed], pauses: Sequence[float] = PAUSES, deadline: float = float("inf")
) -> bytes | None:
    """Returns the answer of a node to a line; None if there is none; b"" if there is none and no node took the line.
    A connected socket hears no other node, and tells if nobody is there.

    # Errors
    Raises `OSError` if there is no socket.
    """
    nonce, begin, sent = (asked.line.split(b" ") + [b""])[1], time.monotonic(), 0
    with socket.socket(socket.AF_INET, socket.SOCK_DGRAM) as client:
        try:
            client.connect(node)
            for pause in pauses:
                end = min(begin + pause, deadline)
                if time.monotonic() >= end:
                    break
                client.send(asked.datagram())
                sent += 1
                while (left := end - time.monotonic()) > 0:
                    client.settimeout(left)
                    try:
                        data = asked.opened(client.recv(512))
                    except socket.timeout:
                        break
                    if data is not None and is_answer(data, nonce):
                        return data
        except ConnectionRefusedError:
            # It is about the first datagram, if no second one went out: so the node has none.
            sent = 0 if sent == 1 else sent
        except OSError:
            pass
    return None if sent else b""


def new_nonce() -> bytes:
    """Returns 20 letters and digits that nobody guesses, and that don't come again."""
    return secrets.token_hex(10).encode()


def log_line(address: str | None, user: str, outcome: Accepted | Refused) -> str:
    """Returns a line for a log of what a call returned or raised. The name is last and quoted, so it forges no line."""
    word = "accepted" if isinstance(outcome, Accepted) else "refused"
    address = re.sub("[^0-9A-Za-z.:_-]", "?", address or "-")
    return "%s from=%s %s user=%s" % (word, address, outcome, json.dumps(user))


def _field(text: str, form: bytes, what: str) -> bytes:
    data = text.encode(errors="replace")
    if not re.fullmatch(form, data) or data.decode() != text:
        raise BadField(what)
    return data


class Silent:
    """The nodes that said nothing, and until when they are asked last, in seconds since this machine's start. In a file
    they are kept for other processes too. What can't be read or written is forgotten: it decides about the order alone.
    """

    def __init__(self, seconds: float, path: str | None = None) -> None:
        self.seconds, self.path = seconds, path
        self._until: dict[Node, float] = {}

    def nodes(self) -> set[Node]:
        """Returns the nodes that are asked last now."""
        now = time.monotonic()
        self._until.update(self._kept())
        return {node for node, until in self._until.items() if now < until <= now + self.seconds}

    def note(self, node: Node, is_silent: bool) -> None:
        """Keeps in mind that a node was silent, or that it answered."""
        if not is_silent and node not in self.nodes():
            return
        self._until[node] = time.monotonic() + self.seconds if is_silent else 0
        if self.path:
            self._keep(self.path)

    def _kept(self) -> dict[Node, float]:
        if not self.path:
            return {}
        try:
            with open(self.path, encoding="ascii") as file:
                return {(host, port): float(until) for host, port, until in json.loads(file.read(4096))}
        except (OSError, ValueError, TypeError, RecursionError):
            return {}

    def _keep(self, path: str) -> None:
        new = "%s.%d" % (path, os.getpid())
        try:
            with open(new, "w", encoding="ascii") as file:
                json.dump([[*node, until] for node, until in self._until.items()], file)
            os.replace(new, path)
        except OSError:
            pass


class Cluster:
    """Nodes as `ADDRESS:PORT,ADDRESS:PORT`. With a key they stand in the order of their numbers, from 1 on, or each has
    its number before it: `2=ADDRESS:PORT`. PLAIN_LINES in the place of the key asks plainly. A call has `total`
    seconds. A silent node is asked last for `avoid` seconds, by each process that has the same file `memory`."""

    def __init__(
        self,
        nodes: str,
        pauses: Sequence[float] = PAUSES,
        total: float = 8.0,
        avoid: float = 30.0,
        key: KeyOrPlain | None = None,
        memory: str | None = None,
    ) -> None:
        if not isinstance(key, (Key, PlainLines)):
            way = 'key=read_key("NUMBER:FILE"), or key=PLAIN_LINES for lines that anybody may forge'
            raise ValueError("no key: " + way)
        numbered = read_list(nodes)
        self.key = key if isinstance(key, Key) else None
        if self.key:
            check_distinct(numbered)
        self.nodes = [node for _, node in numbered]
        self._numbers = {node: number for number, node in numbered}
        self.pauses, self.total, self.silent = pauses, total, Silent(avoid, memory)

    def check(self, user: str, code: str, password: str | None = None) -> Accepted:
        """Submits a code.

        # Errors
        Raises `Refused` or a kind of it if the user isn't let in.
        """
        return self._submit(b"CHECK", user, [code], password)

    def resync(self, user: str, code: str, next_code: str, password: str | None = None) -> Accepted:
        """Submits two codes in a row, for a token that is further ahead than the look-ahead.

        # Errors
        Raises `Refused` or a kind of it if the token isn't resynchronized.
        """
        return self._submit(b"RESYNC", user, [code, next_code], password)

    def answers(self, node: Node) -> bool:
        """Returns whether this node answers. That says nothing of a majority."""
        nonce = new_nonce()
        return bool(hear(node, self._asked(node, b"CHECK %b %b 000000 -" % (nonce, nonce)), self.pauses))

    def _asked(self, node: Node, line: bytes) -> Plain | Sealed:
        return Sealed(line, self.key, self._numbers[node]) if self.key else Plain(line)

    def order(self, user: str) -> list[Node]:
        """Returns the nodes as they are asked: the user's own first, for that one knows the token's drift; silent ones
        last."""
        first, silent = hashlib.sha256(user.encode()).digest()[0] % len(self.nodes), self.silent.nodes()
        return sorted(self.nodes[first:] + self.nodes[:first], key=lambda node: node in silent)

    def _submit(self, word: bytes, user: str, codes: list[str], password: str | None) -> Accepted:
        line, deadline = self._line(word, user, codes, password), time.monotonic() + self.total
        refusal: Refused = self._undecided(SILENT)
        in_doubt = False
        for node in self.order(user):
            if not (data := self._hear(node, line, deadline)):
                in_doubt = in_doubt or data is None
                continue
            said, _, reason, *rest = data.decode().split(" ")
            if said == "OK":
                return Accepted(int(reason))
            in_doubt = in_doubt or reason in ("TIMEOUT", "SPENT")
            refusal = Throttled(int(rest[0])) if rest else (Undecided if reason in OF_THE_NODE else Refused)(reason)
            if not isinstance(refusal, Undecided):
                break
        refusal.in_doubt = in_doubt
        raise refusal

    @staticmethod
    def _line(word: bytes, user: str, codes: list[str], password: str | None) -> bytes:
        """Returns the line of a submission with a new nonce, or raises `BadField`."""
        fields = [_field(user, rb"[^ \t\r\n]{1,64}", "not a user name")]
        fields += [_field(code, rb"[0-9]{6,8}", "not a code") for code in codes]
        # `-` stands for no password, so it can't be one.
        fields += [b"-" if password is None else _field(password, rb"(?!-$)[^ \t\r\n]{1,64}", "not a password")]
        return b" ".join([word, new_nonce(), *fields])

    def _undecided(self, reason: str) -> Undecided:
        refusal = Undecided(reason)
        refusal.hint = SEALED_HINT if self.key else ""
        return refusal

    def _hear(self, node: Node, line: bytes, deadline: float) -> bytes | None:
        """Returns what `hear` does. Keeps in mind who was silent for all of its time."""
        if time.monotonic() >= deadline:
            return b""
        try:
            data = hear(node, self._asked(node, line), self.pauses, deadline)
        except OSError as fault:
            raise Undecided("no socket: %s" % fault, True) from fault
        if data or time.monotonic() < deadline:
            self.silent.note(node, not data)
        return data
