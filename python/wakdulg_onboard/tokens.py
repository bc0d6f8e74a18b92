"""Tokens, as files of other programs name them, and their rows in a users file (docs/reference/formats.md)."""
from __future__ import annotations

import base64
import binascii
import codecs
import re
from dataclasses import dataclass
from typing import Any, List, Mapping, Union

from wakdulg_onboard.names import fault_of

# What stands in a users file before a field, and the types that its rows have.
BLANKS = re.compile(rb"[ \t\r]+")
TYPE = re.compile(rb"HOTP(?:/E(?:/[678])?)?|HOTP/T(?:30|60)(?:/[678](?:/SHA(?:256|512))?)?")
# The remark above a row, if the token has a serial number.
SERIAL = re.compile(rb"# (\S+)\r?")
KINDS = {"hotp": "hotp", "hmac": "hotp", "event": "hotp", "totp": "totp", "time": "totp", "timebased": "totp"}
HASHES = {"sha1": "SHA1", "sha256": "SHA256", "sha512": "SHA512"}
NO_COUNTER = 2 ** 62
# RFC 4226, section 4, R6: "The length of the shared secret MUST be at least 128 bits. This document RECOMMENDs a shared
# secret length of 160 bits." The longer one has 32 letters to type.
LEAST_BYTES, NEW_BYTES = 16, 20


class Fault(Exception):
    """What is wrong with a line of a file, by a name and some words."""

    def __init__(self, place: str, name: str, detail: str) -> None:
        super().__init__("%s: %s: %s" % (place, name, detail))


class NotThere(Fault):
    """What a command needs, and this machine lacks."""

    def __init__(self, what: str, package: str) -> None:
        super().__init__(what, "NotThere", "install Debian's package " + package)


@dataclass
class Token:
    """A token with the place of the line that names it. Its user is None if no file says whose it is."""

    place: str
    secret: bytes
    kind: str
    serial: str = ""
    user: str | None = None
    digits: int = 6
    period: int = 30
    hash: str = "SHA1"
    counter: int = 0

    def type_word(self) -> str:
        """Returns the type that the row has."""
        if self.kind == "hotp":
            return "HOTP/E/%d" % self.digits
        return "HOTP/T%d/%d" % (self.period, self.digits) + ("" if self.hash == "SHA1" else "/" + self.hash)

    def row(self, password: str) -> bytes:
        """Returns the row, in the form that `oathd export` writes, after a remark with the serial number."""
        fields = [self.type_word(), self.user or "", password, self.secret.hex()]
        fields += [str(self.counter)] if self.kind == "hotp" else []
        remark = "# %s\n" % self.serial if self.serial and self.serial != self.user else ""
        return (remark + "\t".join(fields) + "\n").encode()

    def check(self, takes_short: bool = False) -> None:
        """Compares the token with what a row of a users file may have. A secret that is shorter than RFC 4226 allows is
        taken if `takes_short`.

        # Errors
        Raises the first `Fault` of the token.
        """
        user, name_fault, size = (self.user or "").encode(), fault_of(self.user or ""), len(self.secret)
        is_short = size < LEAST_BYTES and not takes_short
        faults: list[tuple[str, object, str]] = [
            ("NoUser", not self.user, "no file says whose token %s is" % (self.serial or "this")),
            ("BadName", name_fault, "%s: %s" % (name_fault, ascii(self.user))),
            ("NameTooLong", len(user) > 64, "a user's name has at most 64 bytes: %r" % self.user),
            ("BadSerial", not self.serial.isprintable(), "the serial number isn't printable: %r" % self.serial),
            ("BadSecret", not 1 <= size <= 128, "a secret has 1 to 128 bytes: %d" % size),
            ("ShortSecret", is_short, "%d bytes, and RFC 4226 wants %d or more" % (size, LEAST_BYTES)),
            ("BadDigits", self.digits not in (6, 7, 8), "a code has 6 to 8 digits: %d" % self.digits),
            ("BadPeriod", self.kind == "totp" and self.period not in (30, 60), "30 or 60 seconds: %d" % self.period),
            ("BadHash", self.kind == "hotp" and self.hash != "SHA1", "an event token has SHA-1: %s" % self.hash),
            ("BadCounter", not 0 <= self.counter <= NO_COUNTER, "a counter is 0 to 2^62: %d" % self.counter),
        ]
        for name, is_fault, detail in faults:
            if is_fault:
                raise Fault(self.place, name, detail)


# What a file names: tokens, with a fault in place of each that can't be read.
Found = List[Union[Token, Fault]]


def read_type(word: bytes) -> dict[str, Any]:
    """Returns the kind, the digits, the period and the hash of a row's type, as a token has them."""
    fields = word.decode().split("/")[1:]
    first, digits, hash = fields + ["E", "6", "SHA1"][len(fields):]
    kind: dict[str, Any] = {"kind": "hotp"} if first == "E" else {"kind": "totp", "period": int(first[1:])}
    return {**kind, "digits": int(digits), "hash": hash}


def device_of(secret: str) -> str:
    """Returns what all secrets of one device have in common: HMAC fills a key with zeros, so more of them change no
    code. The secret is in hexadecimal."""
    return secret.lower().rstrip("0")


def read_secret(text: str, form: str, place: str) -> bytes:
    """Returns the bytes of a secret in `hex` or `base32`.

    # Errors
    Raises `Fault` if it has another form. No fault repeats the secret.
    """
    text = "".join(text.split())
    try:
        if form == "hex":
            return binascii.unhexlify(text)
        text = text.rstrip("=").upper()
        return base64.b32decode(text + "=" * (-len(text) % 8))
    except (binascii.Error, ValueError):
        hint = ": --secrets base32 reads base32" if form == "hex" and re.fullmatch("[A-Za-z2-7]+=*", text) else ""
        raise Fault(place, "BadSecret", "%d characters that are no %s%s" % (len(text), form, hint)) from None


def read_number(text: str, place: str, what: str) -> int:
    """Returns the number that a field says in decimal digits.

    # Errors
    Raises `Fault` if it says none.
    """
    if not re.fullmatch(r"[0-9]{1,19}", text.strip()):
        raise Fault(place, "BadNumber", "%s is no number: %r" % (what, text.strip()))
    return int(text)


def read_word(words: Mapping[str, str], text: str, place: str, what: str) -> str:
    """Returns what a word stands for, in either case and without its hyphens.

    # Errors
    Raises `Fault` if it stands for nothing.
    """
    word = text.strip().lower().replace("-", "")
    found = words.get(re.sub("^hmac", "", word) if words is HASHES else word)
    if found is None:
        raise Fault(place, "Unknown" + what.capitalize(), "%r" % text.strip())
    return found


@dataclass
class Row:
    """A row of a users file with the number of its line, from 1. `serial` is the serial number that the remark above it
    has, or ""."""

    line: int
    type: bytes
    user: bytes
    password: bytes
    secret: bytes
    rest: list[bytes]
    serial: str = ""


def serial_of(line: bytes) -> str:
    """Returns the serial number that a line has as a remark, or ""."""
    found = SERIAL.fullmatch(line)
    return found[1].decode("utf-8", "replace") if found else ""


def read_rows(text: bytes) -> list[Row]:
    """Returns the rows of a users file as oathd reads it. Lines of other types and remarks are passed over.

    # Errors
    Raises `Fault` if the text isn't UTF-8 or a row lacks a field.
    """
    if text.startswith(codecs.BOM_UTF8):
        raise Fault("line 1 of the users file", "ByteOrderMark", "save the file as UTF-8 without one")
    rows: list[Row] = []
    try:
        text.decode()
    except UnicodeDecodeError as fault:
        raise Fault("line %d of the users file" % (text[:fault.start].count(b"\n") + 1), "NotText",
                    "it is not UTF-8: iconv -f LATIN1 -t UTF-8, if it was written so") from None
    lines = text.split(b"\n")
    for number, (above, line) in enumerate(zip([b"", *lines], lines), 1):
        fields = [field for field in BLANKS.split(line) if field]
        if line.startswith(b"#") or not fields or not TYPE.fullmatch(fields[0]):
            continue
        if len(fields) < 4:
            raise Fault("line %d of the users file" % number, "MissingField", "a row has at least four fields")
        type, user, password, secret, *rest = fields
        rows.append(Row(number, type, user, password, secret, rest, serial_of(above)))
    return rows
