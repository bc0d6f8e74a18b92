"""The passwords of staff. The token of the users file is the other factor: neither of both is enough."""
from __future__ import annotations

import threading
from typing import Callable, Mapping

import argon2

import wakdulg

# RFC 9106, section 4: "SECOND RECOMMENDED option is Argon2id with t=3 iterations, p=4 lanes, m=2^(16) (64 MiB of RAM),
# 128-bit salt, and 256-bit tag size."
HASHER = argon2.PasswordHasher(time_cost=3, memory_cost=65536, parallelism=4, hash_len=32, salt_len=16)
LEAST = 12
# The hash of no password, so that whoever isn't staff is refused as late as a wrong password.
OF_NOBODY = "$argon2id$v=19$m=65536,t=3,p=4$" + "A" * 22 + "$" + "A" * 43


class Passwords:
    """The passwords of staff. One at a time is compared, since each takes 64 MiB, and few wait."""

    def __init__(self, hashes: Callable[[], Mapping[str, str]]) -> None:
        self.hashes, self.turn, self.places = hashes, threading.Lock(), threading.BoundedSemaphore(16)

    def check(self, user: str, password: str) -> None:
        """Raises a refusal if the user isn't staff, or the password is another one."""
        if not self.places.acquire(blocking=False):
            raise wakdulg.Undecided("BUSY")
        try:
            known = self.hashes().get(user)
            with self.turn:
                is_right = self.is_of(password, known or OF_NOBODY)
        finally:
            self.places.release()
        if known is None:
            raise wakdulg.BadField("not staff")
        if not is_right:
            raise wakdulg.BadField("not a password")

    @staticmethod
    def is_of(password: str, known: str) -> bool:
        """Returns whether a hash is the one of a password."""
        try:
            return bool(HASHER.verify(known, password))
        except (argon2.exceptions.VerificationError, argon2.exceptions.InvalidHash):
            return False
