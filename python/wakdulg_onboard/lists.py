"""Reads lists of tokens: a vendor's CSV, and lists that say whose a token is, also those of LinOTP and privacyIDEA."""
from __future__ import annotations

import csv
import io
import json
import re
from dataclasses import dataclass
from typing import Any, Iterator, Mapping, Protocol, Sequence

from wakdulg_onboard.tokens import HASHES, KINDS, Fault, Found, Token, read_number, read_secret, read_word

FIELDS = ("serial", "user", "secret", "type", "digits", "period", "hash", "counter")
# What the programs call these fields. LinOTP has a prefix before its names.
NAMES = {"tokenserialnumber": "serial", "username": "user", "user.username": "user", "count": "counter",
         "isactive": "active"}


class Defaults(Protocol):
    """What a token has if no file says it. Its kind is None if a file has to say it."""

    kind: str | None
    digits: int
    period: int
    hash: str


class Form(Protocol):
    """How a CSV file is written: all columns in order or None, the names that a header has for fields, and secrets."""

    delimiter: str
    columns: Sequence[str] | None
    column: Sequence[tuple[str, str]]
    secrets: str


def text_of(data: bytes, source: str) -> str:
    """Returns the text of a file.

    # Errors
    Raises `Fault` if it isn't UTF-8.
    """
    try:
        return data.decode("utf-8-sig")
    except UnicodeDecodeError as fault:
        line = data[:fault.start].count(b"\n") + 1
        raise Fault("%s line %d" % (source, line), "NotText", "it is not UTF-8") from None


def read_cells(text: str, delimiter: str, source: str) -> Iterator[tuple[int, list[str]]]:
    """Yields each line that isn't empty and is no remark: its number and its cells, without blanks around them.

    # Errors
    Raises `Fault` at a line that is no CSV.
    """
    reader, line = csv.reader(io.StringIO(text, newline=""), delimiter=delimiter, strict=True), 1
    try:
        for cells in reader:
            if any(cells) and not cells[0].startswith("#"):
                yield line, [cell.strip() for cell in cells]
            line = reader.line_num + 1
    except csv.Error as fault:
        raise Fault("%s line %d" % (source, line), "NotCsv", str(fault)) from None


def places_of(header: Sequence[str], named: Mapping[str, str], place: str) -> dict[str, int]:
    """Returns the column of each field: the one whose header has the name given for it, or its own.

    # Errors
    Raises `Fault` if no column has a name that is given, or if one has passwords, which rows would lack.
    """
    header, places = [cell.lower() for cell in header], {}
    if "password" in header:
        raise Fault(place, "Password", "the column password would be lost: take it out, and write each password into "
                                       "its row afterwards")
    for field in FIELDS:
        name = named.get(field, field).lower()
        if name in header:
            places[field] = header.index(name)
        elif field in named:
            raise Fault(place, "NoColumn", "no column %r for %s" % (named[field], field))
    return places


def token_of(cells: Sequence[str], places: Mapping[str, int], place: str, form: str, defaults: Defaults) -> Token:
    """Returns the token of a line, whose secret has the form `hex` or `base32`.

    # Errors
    Raises `Fault` if a field lacks or can't be read.
    """

    def told(field: str) -> str:
        at = places.get(field)
        return cells[at] if at is not None and at < len(cells) else ""

    def number(field: str, default: int) -> int:
        return read_number(told(field), place, field) if told(field) else default

    kind = told("type") or defaults.kind or ""
    for field, known in (("secret", told("secret")), ("type", kind)):
        if not known:
            raise Fault(place, "No" + field.capitalize(), "the line has no %s" % field)
    return Token(
        place, read_secret(told("secret"), form, place), read_word(KINDS, kind, place, "type"),
        serial=told("serial"), user=told("user") or None, digits=number("digits", defaults.digits),
        period=number("period", defaults.period),
        hash=read_word(HASHES, told("hash"), place, "hash") if told("hash") else defaults.hash,
        counter=number("counter", 0))


def read_csv(data: bytes, source: str, words: Form, defaults: Defaults) -> tuple[Found, list[str]]:
    """Returns the tokens of a CSV file, with a fault in place of each line that can't be read, and no notes.

    # Errors
    Raises `Fault` if the file isn't CSV in UTF-8 or no column has the secrets.
    """
    lines = read_cells(text_of(data, source), words.delimiter, source)
    found: Found = []
    if words.columns:
        places = {field: at for at, field in enumerate(words.columns) if field in FIELDS}
    else:
        line, header = next(lines, (1, []))
        places = places_of(header, dict(words.column), "%s line %d" % (source, line))
    if "secret" not in places:
        raise Fault("%s line 1" % source, "NoColumn", "no column is named secret: --column secret=NAME")
    for line, cells in lines:
        try:
            found.append(token_of(cells, places, "%s line %d" % (source, line), words.secrets, defaults))
        except Fault as fault:
            found.append(fault)
    return found, []


@dataclass
class Owner:
    """Who has a token: the user, the next counter, and whether the token may be used."""

    place: str
    user: str
    counter: int
    is_active: bool


def owner_of(entry: Mapping[Any, Any], place: str) -> tuple[str, Owner]:
    """Returns the serial number and the owner that an entry names.

    # Errors
    Raises `Fault` if it names no serial number, or its counter is no number.
    """
    lower = {re.sub("^linotp\\.", "", str(key).lower()): value for key, value in entry.items()}
    told = {NAMES.get(key, key): value for key, value in lower.items()}
    if not told.get("serial"):
        raise Fault(place, "NoSerial", "it names no serial number")
    is_active = str(told.get("active", "true")).lower() in ("true", "1", "") and not told.get("revoked")
    counter = read_number(str(told.get("counter") or "0"), place, "counter")
    return str(told["serial"]), Owner(place, str(told.get("user") or ""), counter, is_active)


def entries_of(text: str, source: str) -> Iterator[tuple[str, dict[Any, Any]]]:
    """Yields the entries of a list with their places: CSV with a header, or JSON as LinOTP and privacyIDEA give it.

    # Errors
    Raises `Fault` if it is neither.
    """
    if not text.lstrip().startswith(("{", "[")):
        header: list[str] = []
        for line, cells in read_cells(text, ";" if ";" in text.split("\n")[0] else ",", source):
            if header:
                yield "%s line %d" % (source, line), dict(zip(header, cells))
            header = header or cells
        return
    try:
        told = json.loads(text)
        if isinstance(told, dict):
            told = told["result"]["value"]
            told = told["data"] if "data" in told else told["tokens"]
        for number, entry in enumerate(told, 1):
            yield "%s entry %d" % (source, number), dict(entry)
    except json.JSONDecodeError as fault:
        raise Fault("%s line %d" % (source, fault.lineno), "NotJson", fault.msg) from None
    except (KeyError, TypeError, ValueError, RecursionError):
        raise Fault(source, "NoTokens", "it has no list at result.value.data or result.value.tokens") from None


def read_owners(data: bytes, source: str) -> dict[str, Owner]:
    """Returns the owner of each serial number that has a user.

    # Errors
    Raises `Fault` if the list can't be read or names a number twice.
    """
    owners: dict[str, Owner] = {}
    for place, entry in entries_of(text_of(data, source), source):
        serial, owner = owner_of(entry, place)
        if owner.user and serial in owners:
            raise Fault(place, "DuplicateSerial", "%s has a user at %s" % (serial, owners[serial].place))
        if owner.user:
            owners[serial] = owner
    return owners
