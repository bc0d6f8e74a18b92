"""A node for the trials of clients, which loses, repeats, cuts, forges and refuses as it is told."""
from __future__ import annotations

import socket
import threading
import time
from typing import Any, Callable, Sequence, Union

import wakdulg

# What is no answer to a line with the nonce {}: cut, of another form, or of another line.
NO_ANSWERS = [
    b"", b"OK", b"OK ", b"OK {}", b"OK {} ", b"OK {} x", b"OK {} -1", b"OK {} 1 2", b"OK {} 1 ", b"OK {} 1\n",
    b"OK {} 1\0", b"OK  {} 1", b" OK {} 1", b"ok {} 1", b"OK {}\n1", b"OK {} " + b"9" * 600, b"OK {} \xd9\xa1",
    b"OK {} \xb2", b"\xff\xfe", b"NO", b"NO {}", b"NO {} ", b"NO {} INVALI", b"NO {} INVALID ", b"NO {} OK",
    b"NO {} WHAT", b"NO {} THROTTLED", b"NO {} THROTTLED ", b"NO {} THROTTLED x", b"NO -", b"NO - INVALID",
    b"NO - BADLIN", b"OK - 1", b"OK k2 1", b"OK {}1 1", b"OK K1 1", b"NO k2 INVALID",
]
# An answer, the seconds in which a node does nothing, or what is called with the sender and the nonce.
Reply = Union[str, bytes, float, Callable[[Any, bytes], object]]


class FakeNode(threading.Thread):
    """A node that answers its k-th datagram by the k-th of these lists, the last one for all that follow. Of an answer
    it writes {} as the nonce and [] as the user of the line. A number in a list is the seconds in which it does
    nothing, and a function is called with the sender and the nonce.

    With a key it opens datagrams of the kind as the node with the number, and seals its answers for the datagram. A
    datagram that it can't open has the user and nonce `-`. `datagrams` are those that came, as they came."""

    def __init__(
        self, *replies: Sequence[Reply], key: wakdulg.Key | None = None, number: int = 1, kind: int = wakdulg.Key.LINE
    ) -> None:
        super().__init__(daemon=True)
        self.key, self.number, self.kind = key, number, kind
        self.port = socket.socket(socket.AF_INET, socket.SOCK_DGRAM)
        self.port.bind(("127.0.0.1", 0))
        self.address: wakdulg.Node = self.port.getsockname()
        self.name = "127.0.0.1:%d" % self.address[1]
        self.replies: Sequence[Sequence[Reply]] = replies
        self.datagrams: list[bytes] = []
        self.heard: list[str] = []
        self.senders: list[wakdulg.Node] = []
        self.start()

    def run(self) -> None:
        """Answers until the datagram `stop` comes."""
        while True:
            data, sender = self.port.recvfrom(512)
            if data == b"stop":
                return
            self.datagrams.append(data)
            line = self.opened(data)
            self.heard.append(line.decode(errors="replace"))
            self.senders.append(sender)
            _, nonce, user, *_ = line.split(b" ") + [b"", b""]
            for reply in self.replies[min(len(self.heard), len(self.replies)) - 1]:
                if isinstance(reply, float):
                    time.sleep(reply)
                elif callable(reply):
                    reply(sender, nonce)
                else:
                    text = reply if isinstance(reply, bytes) else reply.encode()
                    self.port.sendto(self.sealed(text.replace(b"{}", nonce).replace(b"[]", user), data), sender)

    def opened(self, data: bytes) -> bytes:
        """Returns the text of a line; `- - -` if it isn't under the key and for this node."""
        if not self.key:
            return data
        moment = int.from_bytes(data[7:15], "big")
        is_sealed = data == self.key.seal(data[15:-32], self.number, self.kind, moment)
        return data[15:-32] if is_sealed else b"- - -"

    def sealed(self, text: bytes, data: bytes) -> bytes:
        """Returns an answer as this node sends it to a datagram."""
        if not self.key:
            return text
        return self.key.seal(text, self.number, self.key.ANSWER, int.from_bytes(data[7:15], "big"), data[-32:])

    def stop(self) -> None:
        """Ends the node. Nobody is there afterwards."""
        if self.is_alive():
            self.port.sendto(b"stop", self.address)
            self.join()
            self.port.close()
