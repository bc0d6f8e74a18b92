#!/usr/bin/env python3
"""Sends one Access-Request with attributes of any bytes, and says what it hears.

    request.py PORT [unsigned] NAME=VALUE..

NAME is User-Name, User-Password or Calling-Station-Id, each as often as it is given. VALUE is text in which `\\xHH` is
a byte. Prints the kind of the reply, and `signed` if a right Message-Authenticator is its first attribute, or
`no reply` after six seconds. The secret is testing123, and the server is on 127.0.0.1.
"""
import hashlib
import hmac
import os
import re
import socket
import sys

SECRET = b"testing123"
KINDS = {2: "Access-Accept", 3: "Access-Reject", 11: "Access-Challenge"}


def hide(password, authenticator):
    """Hides a password as RFC 2865 says (5.2)."""
    hidden, last = b"", authenticator
    password += bytes(-len(password) % 16 or (0 if password else 16))
    for at in range(0, len(password), 16):
        pad = hashlib.md5(SECRET + last).digest()
        last = bytes(each ^ other for each, other in zip(password[at:at + 16], pad))
        hidden += last
    return hidden


def attribute(number, value):
    return bytes([number, len(value) + 2]) + value


def is_signed(reply, authenticator):
    """Returns whether the first attribute is a right Message-Authenticator, and the reply answers this request."""
    blank = reply[:4] + authenticator + reply[20:22] + bytes(16) + reply[38:]
    answers = hashlib.md5(reply[:4] + authenticator + reply[20:] + SECRET).digest() == reply[4:20]
    return answers and reply[20:22] == b"P\x12" and hmac.digest(SECRET, blank, "md5") == reply[22:38]


def main():
    port, *words = sys.argv[1:]
    authenticator, pairs = os.urandom(16), b""
    for word in words:
        if word == "unsigned":
            continue
        name, _, text = word.partition("=")
        value = re.sub(rb"\\x([0-9a-f]{2})", lambda found: bytes.fromhex(found[1].decode()), os.fsencode(text))
        if name == "User-Password":
            pairs += attribute(2, hide(value, authenticator))
        else:
            pairs += attribute({"User-Name": 1, "Calling-Station-Id": 31}[name], value)
    signed = "unsigned" not in words[:1]
    pairs += attribute(80, bytes(16)) if signed else b""
    packet = bytes([1, 7]) + (20 + len(pairs)).to_bytes(2, "big") + authenticator + pairs
    if signed:
        packet = packet[:-16] + hmac.digest(SECRET, packet, "md5")
    with socket.socket(socket.AF_INET, socket.SOCK_DGRAM) as client:
        client.settimeout(6)
        client.connect(("127.0.0.1", int(port)))
        client.send(packet)
        try:
            reply = client.recv(4096)
        except OSError:
            print("no reply")
            return
    print(KINDS.get(reply[0], "kind %d" % reply[0]), "signed" if is_signed(reply, authenticator) else "unsigned")


if __name__ == "__main__":
    main()
