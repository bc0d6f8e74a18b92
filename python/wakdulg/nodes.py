"""The words by which a front end names the nodes of a cluster."""
from __future__ import annotations

import ipaddress
import re
from typing import List, Tuple

# An IPv4 address and a port, as sockets take them.
Node = Tuple[str, int]


def read_node(text: str) -> Node:
    """Returns the address and the port of `ADDRESS:PORT`. A name isn't taken, since to look it up may take its time.

    # Errors
    Raises `ValueError` if the address is no IPv4 address or the port isn't 1 to 65535.
    """
    host, _, port = text.partition(":")
    try:
        address = str(ipaddress.IPv4Address(host))
    except ValueError:
        address = ""
    if not address or not re.fullmatch("[0-9]{1,5}", port) or not 0 < int(port) < 65536:
        raise ValueError("not an ADDRESS:PORT, as 192.0.2.1:717: " + text)
    return address, int(port)


def read_numbered(text: str, number: int) -> tuple[int, Node]:
    """Returns the number of a node and its address: of `2=ADDRESS:PORT`, or of ADDRESS:PORT for the given number.

    # Errors
    Raises `ValueError` as `read_node` does.
    """
    found = re.fullmatch("([1-9])=(.*)", text)
    return (int(found[1]), read_node(found[2])) if found else (number, read_node(text))


def read_list(text: str) -> List[Tuple[int, Node]]:
    """Returns the numbers and addresses of `ADDRESS:PORT,ADDRESS:PORT`, in their order. Blanks divide them too.

    # Errors
    Raises `ValueError` if there is none, or as `read_node` does.
    """
    numbered = [read_numbered(word, number) for number, word in enumerate(text.replace(",", " ").split(), 1)]
    if not numbered:
        raise ValueError("no ADDRESS:PORT")
    return numbered


def check_distinct(numbered: List[Tuple[int, Node]]) -> None:
    """Raises `ValueError` if a number or an address stands in a list twice."""
    numbers, addresses = zip(*numbered)
    if not len({*numbers}) == len({*addresses}) == len(numbered):
        raise ValueError("a node twice")
