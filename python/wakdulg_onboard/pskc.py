"""Reads PSKC files (RFC 6030): plain secrets, and secrets under a pre-shared key or a password.

A name counts without its namespace and its case, since programs write both in their own way. A file with a DTD is
refused, so there are no entities but those of XML. Signatures are not checked.
"""
from __future__ import annotations

import base64
import binascii
import contextlib
import hashlib
import hmac
import re
from dataclasses import dataclass, field
from typing import Callable
from xml.parsers import expat

from wakdulg_onboard.aes import decipher_cbc
from wakdulg_onboard.lists import Defaults
from wakdulg_onboard.tokens import HASHES, Fault, Found, NotThere, Token, read_number, read_word

CIPHERS = {"aes128-cbc": 16, "aes192-cbc": 24, "aes256-cbc": 32}
MACS = {"hmac-" + name: name for name in ("sha1", "sha224", "sha256", "sha384", "sha512")}
KINDS = {"hotp": "hotp", "totp": "totp"}
MOST_ROUNDS, DEEPEST = 10_000_000, 64
# The place of a line of a file, as faults name it.
Place = Callable[[int], str]


@dataclass
class Element:
    """An element of the file with the number of its line, from 1."""

    name: str
    attributes: dict[str, str]
    line: int
    text: str = ""
    children: list[Element] = field(default_factory=list)

    def find(self, *path: str) -> Element | None:
        """Returns the first element down this path of names, or None."""
        here: Element | None = self
        for name in path:
            here = next((child for child in here.children if child.name == name), None) if here else None
        return here

    def text_at(self, *path: str) -> str | None:
        """Returns the text of the element down this path, without blanks around it, or None."""
        found = self.find(*path)
        return found.text.strip() if found else None

    def algorithm(self) -> str:
        """Returns the last part of the name of an algorithm."""
        return re.split("[#:]", self.attributes.get("algorithm", ""))[-1].lower()


class Reader:
    """Makes the tree of a file by expat, with the line of each element."""

    def __init__(self, source: str) -> None:
        self.source, self.open = source, [Element("", {}, 1)]
        self.parser = expat.ParserCreate(namespace_separator=" ")
        self.parser.buffer_text = True
        self.parser.StartDoctypeDeclHandler = self.refuse
        self.parser.StartElementHandler = self.start
        self.parser.EndElementHandler = self.end
        self.parser.CharacterDataHandler = self.add_text

    def place(self, line: int) -> str:
        """Returns the place of a line, as faults name it."""
        return "%s line %d" % (self.source, line)

    def refuse(self, *_: object) -> None:
        """Raises `Fault` at the beginning of a DTD."""
        raise Fault(self.place(self.parser.CurrentLineNumber), "Doctype", "a file with a DTD is not read")

    def start(self, name: str, attributes: dict[str, str]) -> None:
        """Opens an element, unless it is too deep."""
        named = {key.split(" ")[-1].lower(): value for key, value in attributes.items()}
        element = Element(name.split(" ")[-1].lower(), named, self.parser.CurrentLineNumber)
        if len(self.open) > DEEPEST:
            raise Fault(self.place(element.line), "TooDeep", "elements in %d others" % DEEPEST)
        self.open[-1].children.append(element)
        self.open.append(element)

    def end(self, _: str) -> None:
        """Closes an element."""
        self.open.pop()

    def add_text(self, text: str) -> None:
        """Adds to the text of the open element."""
        self.open[-1].text += text

    def read(self, data: bytes) -> Element:
        """Returns the outermost element.

        # Errors
        Raises `Fault` if the file isn't XML, has a DTD or is too deep.
        """
        try:
            self.parser.Parse(data, True)
        except expat.ExpatError as fault:
            raise Fault(self.place(fault.lineno), "NotXml", expat.ErrorString(fault.code)) from None
        return self.open[0].children[0]


class Keys:
    """The key of the secrets of a file and that of their MACs, as its container names them."""

    def __init__(self, container: Element, place: Place, key: bytes | None, password: bytes | None) -> None:
        self.place, self.key, self.mac_key = place, key, b""
        self.mac_hash: str | None = None
        told = container.find("encryptionkey")
        if told and told.find("derivedkey"):
            self.key = self.derive(told.find("derivedkey", "keyderivationmethod"), password)
        elif told and any(child.name != "keyname" for child in told.children):
            raise Fault(place(told.line), "UnknownKey", "neither a pre-shared key nor a password")
        method = container.find("macmethod")
        if method:
            self.mac_hash = MACS.get(method.algorithm())
            if not self.mac_hash:
                raise Fault(place(method.line), "UnknownMac", "%r" % method.algorithm())
            own = method.find("mackey")
            self.mac_key = self.decipher(own) if own else self.needed_key(method)

    def derive(self, method: Element | None, password: bytes | None) -> bytes:
        """Returns the key that PBKDF2 makes of the password (RFC 8018, section 5.2).

        # Errors
        Raises `Fault` if the method is another one, a number is out of range, or there is no password.
        """
        numbers = method.find("pbkdf2-params") if method else None
        if not method or not numbers or method.algorithm() != "pbkdf2":
            raise Fault(self.place(method.line if method else 1), "UnknownDerivation", "it isn't PBKDF2")
        place = self.place(numbers.line)
        if password is None:
            raise Fault(place, "NoPassword", "the secrets are under a password: --password-file")
        rounds = read_number(numbers.text_at("iterationcount") or "", place, "IterationCount")
        length = read_number(numbers.text_at("keylength") or "16", place, "KeyLength")
        function = numbers.find("prf")
        name = function.algorithm() or re.split("[#:]", function.text.strip())[-1].lower() if function else ""
        if name and name not in MACS or not 1 <= rounds <= MOST_ROUNDS or length not in CIPHERS.values():
            raise Fault(place, "UnknownDerivation", "%s, %d rounds, %d bytes" % (name or "hmac-sha1", rounds, length))
        salt = self.bytes_of(numbers.find("salt", "specified"), numbers)
        return hashlib.pbkdf2_hmac(MACS[name or "hmac-sha1"], password, salt, rounds, length)

    def bytes_of(self, element: Element | None, around: Element) -> bytes:
        """Returns the bytes of an element in base64.

        # Errors
        Raises `Fault` if the element lacks or has another form.
        """
        with contextlib.suppress(binascii.Error):
            if element:
                return base64.b64decode("".join(element.text.split()), validate=True)
        raise Fault(self.place((element or around).line), "BadBase64", "a value lacks or is no base64")

    def needed_key(self, element: Element) -> bytes:
        """Returns the key, or raises `Fault` if none is given."""
        if self.key is None:
            raise Fault(self.place(element.line), "NoKey", "the secrets are under a pre-shared key: --key-file")
        return self.key

    def decipher(self, value: Element) -> bytes:
        """Returns the plain bytes of an encrypted value.

        # Errors
        Raises `Fault` if the cipher or the key is another one, and `NotThere` if this machine lacks AES.
        """
        key, method = self.needed_key(value), value.find("encryptionmethod")
        length = CIPHERS.get(method.algorithm() if method else "")
        if length is None:
            raise Fault(self.place(value.line), "UnknownCipher", "%r" % (method.algorithm() if method else ""))
        if length != len(key):
            raise Fault(self.place(value.line), "BadKey", "the cipher takes %d bytes, it has %d" % (length, len(key)))
        try:
            return decipher_cbc(key, self.bytes_of(value.find("cipherdata", "ciphervalue"), value))
        except ValueError as fault:
            raise Fault(self.place(value.line), "BadValue", "is it the right key? %s" % fault) from None

    def secret_of(self, secret: Element) -> bytes:
        """Returns the bytes of a secret. Its MAC is checked before it is deciphered.

        # Errors
        Raises `Fault` if its MAC is wrong or lacks, or as `decipher` does.
        """
        value, code = secret.find("encryptedvalue"), secret.find("valuemac")
        if value is None:
            return self.bytes_of(secret.find("plainvalue"), secret)
        if self.mac_hash:
            data = self.bytes_of(value.find("cipherdata", "ciphervalue"), value)
            right = hmac.digest(self.mac_key, data, self.mac_hash)
            if code is None or not hmac.compare_digest(self.bytes_of(code, secret), right):
                raise Fault(self.place(value.line), "BadMac", "is it the right key? The secret's MAC is wrong or lacks")
        return self.decipher(value)


def check_policy(key: Element, place: Place) -> None:
    """Raises `Fault` if the key is for something that a node doesn't keep to (RFC 6030, section 5)."""
    policy = key.find("policy")
    rules = policy.children if policy else []
    usage = {each.text.strip().lower() for each in rules if each.name == "keyusage"}
    for rule in rules:
        local = rule.name == "pinpolicy" and rule.attributes.get("pinusagemode", "").lower() == "local"
        if not local and (rule.name != "keyusage" or "otp" not in usage):
            raise Fault(place(rule.line), "Policy", "no node keeps to %s" % rule.name)


def number_at(key: Element, name: str, place: Place, default: int) -> int:
    """Returns the number of a field of the data, or the default if it lacks.

    # Errors
    Raises `Fault` if it is no plain number.
    """
    found = key.find("data", name)
    if found is None:
        return default
    if not found.find("plainvalue"):
        raise Fault(place(found.line), "Encrypted", "%s is no plain value" % name)
    return read_number(found.text_at("plainvalue") or "", place(found.line), name)


def token_of(package: Element, key: Element, keys: Keys, defaults: Defaults) -> Token:
    """Returns the token of a key.

    # Errors
    Raises `Fault` if a users file has no row for it or something of it can't be read.
    """
    here = keys.place(key.line)
    check_policy(key, keys.place)
    secret = key.find("data", "secret")
    if secret is None:
        raise Fault(here, "NoSecret", "the file has no secret of this key")
    answer, suite = key.find("algorithmparameters", "responseformat"), key.find("algorithmparameters", "suite")
    told, line = (answer.attributes, answer.line) if answer else ({}, key.line)
    if told.get("encoding", "DECIMAL").upper() != "DECIMAL" or told.get("checkdigits", "false") not in ("false", "0"):
        raise Fault(keys.place(line), "BadFormat", "a code is decimal digits with no check digit")
    hash = (suite.attributes.get("hashalgo") or suite.text.strip()) if suite else ""
    return Token(
        here, keys.secret_of(secret), read_word(KINDS, key.algorithm(), here, "algorithm"),
        serial=package.text_at("deviceinfo", "serialno") or key.attributes.get("id") or "", user=key.text_at("userid"),
        digits=read_number(told["length"], here, "Length") if "length" in told else defaults.digits,
        period=number_at(key, "timeinterval", keys.place, defaults.period),
        hash=read_word(HASHES, hash, here, "hash") if hash else defaults.hash,
        counter=number_at(key, "counter", keys.place, 0))


def read_pskc(
    data: bytes, source: str, key: bytes | None, password: bytes | None, defaults: Defaults
) -> tuple[Found, list[str]]:
    """Returns the tokens of a file, with a fault in place of each that can't be read, and notes.

    # Errors
    Raises `Fault` if the whole file can't be read, and `NotThere` if this machine lacks what it needs.
    """
    reader = Reader(source)
    container = reader.read(data)
    if container.name != "keycontainer":
        raise Fault(reader.place(container.line), "NotPskc", "the outermost element is %s" % container.name)
    keys = Keys(container, reader.place, key, password)
    found: Found = []
    notes = []
    if signature := container.find("signature"):
        notes.append("%s: its signature is not checked" % reader.place(signature.line))
    if any(each.name == "encryptionkey" for each in container.children) and not keys.mac_hash:
        notes.append("%s: it has no MACs: nothing shows that its secrets are unchanged" % source)
    for package in container.children:
        for each in package.children if package.name == "keypackage" else []:
            if each.name == "key" and each.algorithm() == "pin":
                notes.append("%s: passed over: a PIN" % reader.place(each.line))
            elif each.name == "key":
                try:
                    found.append(token_of(package, each, keys, defaults))
                except NotThere:
                    raise
                except Fault as fault:
                    found.append(fault)
    return found, notes
