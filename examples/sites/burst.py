#!/usr/bin/env python3
"""Many logins at once, each by a connection of its own: burst.py radius|http ADDRESS:PORT FIRST COUNT CODE.. [FILE]

radius asks a RADIUS server by a process of radclient for each login; http sends the form of oathd-login to the site
login.example by TLS, whose certificate is FILE, and each user has an address of loopback. Users uFIRST and those after
it give the first code. Whoever isn't let in gives the next one after six seconds, when the throttle is over. Prints how
many were accepted, how many of them by the first code, and how long that code took.
"""
import http.client
import socket
import ssl
import subprocess
import sys
import time
import urllib.parse
from concurrent.futures import ThreadPoolExecutor


def by_radius(server, user, code):
    words = ["radclient", "-t", "9", "-r", "1", server, "auth", "testing123"]
    pairs = 'User-Name = "%s"\nUser-Password = "%s"\nMessage-Authenticator = 0x00\n' % (user, code)
    return "Received Access-Accept" in subprocess.run(words, capture_output=True, text=True, input=pairs).stdout


def by_http(server, user, code, certificate):
    host, _, port = server.partition(":")
    context = ssl.create_default_context(cafile=certificate)
    connection = http.client.HTTPSConnection("login.example", int(port), timeout=30)
    way = socket.create_connection((host, int(port)), 30, ("127.3.0." + user[1:], 0))
    connection.sock = context.wrap_socket(way, server_hostname="login.example")
    form = urllib.parse.urlencode({"user": user, "code": code})
    connection.request("POST", "/login", form, {"Content-Type": "application/x-www-form-urlencoded",
                                               "Origin": "https://login.example:" + port})
    status = connection.getresponse().status
    connection.close()
    return status == 303


def login(is_accepted, user, codes):
    """By which code the user came in, or None; and the milliseconds of the first one."""
    begin = time.monotonic()
    if is_accepted(user, codes[0]):
        return 0, 1000 * (time.monotonic() - begin)
    took = 1000 * (time.monotonic() - begin)
    for number, code in enumerate(codes[1:], 1):
        time.sleep(6)
        if is_accepted(user, code):
            return number, took
    return None, took


def main():
    (way, server, *numbers), codes = sys.argv[1:5], sys.argv[5:]
    first, count = map(int, numbers)
    by = by_radius
    if way == "http":
        certificate = codes.pop()
        by = lambda *login: by_http(*login, certificate)
    users = ["u%d" % number for number in range(first, first + count)]
    with ThreadPoolExecutor(count) as threads:
        told = list(threads.map(lambda user: login(lambda *words: by(server, *words), user, codes), users))
    times = sorted(took for _, took in told)
    accepted, at_once = sum(number is not None for number, _ in told), sum(number == 0 for number, _ in told)
    print("%d of %d, %d by the first code; median %d ms, slowest %d ms" % (
        accepted, count, at_once, times[count // 2], times[-1]))


if __name__ == "__main__":
    main()
