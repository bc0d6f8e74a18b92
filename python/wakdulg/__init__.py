"""A client of a cluster of `oathd serve` nodes, for login services: Python 3.8 or later, its standard library alone.

    cluster = wakdulg.Cluster("127.0.0.1:7101,127.0.0.1:7102,127.0.0.1:7103", key=wakdulg.read_key("7:/etc/my/key"))
    try:
        accepted = cluster.check("ann", "755224", password=None)
    except wakdulg.Refused as refusal:
        ...

Only a call that returns lets a user in. One call is one submission: its line has one random nonce, and is the same at
each node that is asked. A node that says nothing is sent the line again from the same socket, and then the next node is
asked; so it is after TIMEOUT, BUSY and CLOCK, which are about the node. Every other answer decides. A call has sockets
of its own, and may be made by any number of threads at once. docs/reference/clients.md says why.

With a key the line is sealed for each node, anew each time that it is sent, and only an answer that is sealed for that
very datagram counts. With PLAIN_LINES in its place whoever takes a node's port, or sees the traffic, can let in whom he
likes.

`wakdulg.operator` asks running nodes for reports. It is imported by its own name.
"""
from wakdulg.client import (
    OF_THE_LINE,
    OF_THE_NODE,
    PAUSES,
    SEALED_HINT,
    SILENT,
    Accepted,
    BadField,
    Cluster,
    Plain,
    Refused,
    Sealed,
    Silent,
    Throttled,
    Undecided,
    hear,
    is_answer,
    log_line,
    new_nonce,
)
from wakdulg.keys import PLAIN_LINES, Key, PlainLines, key_of, read_key, read_private
from wakdulg.nodes import Node, check_distinct, read_list, read_node, read_numbered

__all__ = [
    "OF_THE_LINE",
    "OF_THE_NODE",
    "PAUSES",
    "PLAIN_LINES",
    "SEALED_HINT",
    "SILENT",
    "Accepted",
    "BadField",
    "Cluster",
    "Key",
    "Node",
    "Plain",
    "PlainLines",
    "Refused",
    "Sealed",
    "Silent",
    "Throttled",
    "Undecided",
    "check_distinct",
    "hear",
    "is_answer",
    "key_of",
    "log_line",
    "new_nonce",
    "read_key",
    "read_list",
    "read_node",
    "read_numbered",
    "read_private",
]
