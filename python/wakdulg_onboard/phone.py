"""Gives a new secret to an authenticator app: as an otpauth:// URI (Key Uri Format) and as its QR code by qrencode."""
from __future__ import annotations

import base64
import os
import subprocess
from urllib.parse import quote

from wakdulg_onboard.tokens import Fault, NotThere, Token


def uri_of(token: Token, issuer: str, account: str) -> str:
    """Returns the URI of a token.

    # Errors
    Raises `Fault` if the issuer or the account is empty or has a colon, which divides them.
    """
    for name, text in (("issuer", issuer), ("account", account)):
        if not text or ":" in text:
            raise Fault("--" + name, "BadName", "it is empty or has a colon: %r" % text)
    secret = base64.b32encode(token.secret).decode().rstrip("=")
    told: list[tuple[str, str | int]] = [("secret", secret), ("issuer", quote(issuer, safe=""))]
    told += [("algorithm", token.hash), ("digits", token.digits)]
    told.append(("counter", token.counter) if token.kind == "hotp" else ("period", token.period))
    label = quote(issuer, safe="") + ":" + quote(account, safe="@")
    return "otpauth://%s/%s?" % (token.kind, label) + "&".join("%s=%s" % each for each in told)


def draw(uri: str, form: str) -> bytes:
    """Returns the QR code of a URI in a form of qrencode, which has the URI from standard input, so that `ps` doesn't
    show it.

    # Errors
    Raises `NotThere` if this machine lacks qrencode, and `Fault` if it fails.
    """
    try:
        done = subprocess.run(["qrencode", "-t", form, "-o", "-"], input=uri.encode(), capture_output=True)
    except FileNotFoundError:
        raise NotThere("qrencode", "qrencode") from None
    if done.returncode:
        raise Fault("qrencode", "Failed", done.stderr.decode("utf-8", "replace").strip())
    return done.stdout


class Picture:
    """A file for a QR code that its owner alone may read. It must not be there before."""

    def __init__(self, path: str) -> None:
        self.path = path
        self.file = open(os.open(path, os.O_WRONLY | os.O_CREAT | os.O_EXCL | os.O_NOFOLLOW, 0o600), "wb")

    def write(self, data: bytes) -> None:
        """Writes the picture, and closes the file."""
        with self.file:
            self.file.write(data)

    def remove(self) -> None:
        """Closes and removes the file."""
        self.file.close()
        os.unlink(self.path)
