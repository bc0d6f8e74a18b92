#!/usr/bin/env python3
"""Right codes while many addresses guess: flood.py ADDRESS:PORT CERTIFICATE GUESSERS SECONDS CODE USER..

From each of GUESSERS addresses of loopback a login of nobody comes once a second to the site login.example. Meanwhile the
users give the code, each from an address of its own, spread over the seconds. Prints how many of them were let in, how
many guesses were refused, and how many answers were others.
"""
import http.client
import socket
import ssl
import sys
import threading
import time
import urllib.parse
from collections import Counter


class Site:
    """The login page, by TLS."""

    def __init__(self, server, certificate):
        self.host, _, self.port = server.partition(":")
        self.context = ssl.create_default_context(cafile=certificate)

    def log_in(self, address, user, code):
        """Returns the status of a login from an address, or what went wrong."""
        try:
            way = socket.create_connection((self.host, int(self.port)), 30, (address, 0))
            connection = http.client.HTTPSConnection("login.example", int(self.port), timeout=30)
            connection.sock = self.context.wrap_socket(way, server_hostname="login.example")
            form = urllib.parse.urlencode({"user": user, "code": code})
            connection.request("POST", "/login", form, {"Content-Type": "application/x-www-form-urlencoded",
                                                       "Origin": "https://login.example:" + self.port})
            return connection.getresponse().status
        except (OSError, http.client.HTTPException) as fault:
            return type(fault).__name__
        finally:
            way.close()


def guess(site, number, end, seen):
    """Guesses once a second from one address, as often as nginx lets an address begin."""
    while (begin := time.monotonic()) < end:
        seen.append(site.log_in("127.4.%d.%d" % (number // 250, number % 250 + 1), "nobody%d" % number, "000000"))
        time.sleep(max(0.0, begin + 1.05 - time.monotonic()))


def main():
    server, certificate, guessers, seconds, code, *users = sys.argv[1:]
    site, seconds, guesses = Site(server, certificate), float(seconds), []
    end = time.monotonic() + seconds
    threads = [threading.Thread(target=guess, args=(site, number, end, guesses)) for number in range(int(guessers))]
    for thread in threads:
        thread.start()
    let_in = []
    for number, user in enumerate(users):
        time.sleep(seconds / (len(users) + 1))
        let_in.append(site.log_in("127.5.0.%d" % (number + 1), user, code))
    for thread in threads:
        thread.join()
    others = Counter(guesses) - Counter({403: len(guesses)}) + (Counter(let_in) - Counter({303: len(let_in)}))
    print("%d of %d right codes, %d guesses refused, others %s" % (
        let_in.count(303), len(let_in), guesses.count(403), dict(others) or "none"))


if __name__ == "__main__":
    main()
