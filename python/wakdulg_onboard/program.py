"""Brings users in: adds rows to a users file, for new phones and for tokens that other programs or vendors list.
Replaces the token of a user, and retires a user.

    onboard phone USERS USER --issuer NAME ..    a new secret, and its QR code for an authenticator app
    onboard csv USERS FILE ..                    the tokens of a CSV file
    onboard pskc USERS FILE ..                   the tokens of a PSKC file (RFC 6030)
    onboard replace USERS USER --issuer NAME ..  a new secret in the user's row, for a token of the same kind
    onboard retire USERS USER ..                 the file without the user's row

Either all rows are changed or none. USER is the whole name, whatever blanks the row has. With --dry-run nothing is
written: each fault has a line, and so has each row that would be changed. No secret is printed but by `phone` and
`replace`. OATHD is the program that reads the new file before it is put in place, else oathd. Status 0: done. 1: a
fault, which standard error names. 2: the words. docs/how-to/onboarding.md shows it.
"""
from __future__ import annotations

import argparse
import os
import re
import secrets
import sys
from typing import Callable, List, NamedTuple, Tuple

from wakdulg_onboard import lists, phone, pskc
from wakdulg_onboard.tokens import NEW_BYTES, Fault, Found, Token, device_of, read_type
from wakdulg_onboard.users_file import UsersFile, ask_oathd, lock_beside

LONGEST = 16 * 2 ** 20
# A new token, the text of the file with its row, and what is told of it.
Phone = Tuple[Token, bytes, str]
Command = argparse.ArgumentParser


def say(text: object) -> None:
    """Writes a line to standard error."""
    print("onboard: %s" % text, file=sys.stderr)


def read_file(path: str) -> bytes:
    """Returns the bytes of a file.

    # Errors
    Raises `Fault` if it is too long, and `OSError` if it can't be read.
    """
    with open(path, "rb") as file:
        data = file.read(LONGEST + 1)
    if len(data) > LONGEST:
        raise Fault(path, "TooLong", "it has more than %d bytes" % LONGEST)
    return data


def oathd() -> str:
    """Returns the program that reads the new file."""
    return os.environ.get("OATHD") or "oathd"


def read_tokens(words: argparse.Namespace) -> tuple[Found, list[str]]:
    """Returns the tokens of the file that the words name, with faults in place of some, and notes.

    # Errors
    Raises `Fault` if a file can't be read.
    """
    data = read_file(words.file)
    if words.command == "csv":
        return lists.read_csv(data, words.file, words, words)
    key = password = None
    if words.key_file:
        try:
            key = bytes.fromhex(read_file(words.key_file).decode().strip())
        except ValueError:
            raise Fault(words.key_file, "BadKey", "it isn't hexadecimal") from None
    if words.password_file:
        password = re.sub(b"\n\\Z", b"", read_file(words.password_file))
    return pskc.read_pskc(data, words.file, key, password, words)


def give_owners(found: Found, words: argparse.Namespace, notes: list[str]) -> Found:
    """Returns the tokens, with the users that a list of owners or their serial numbers give them.

    # Errors
    Raises `Fault` if the list can't be read.
    """
    tokens = [token for token in found if isinstance(token, Token)]
    for token in tokens if words.name_by_serial else []:
        token.user = token.serial
    if not words.owners:
        return found
    owners = lists.read_owners(read_file(words.owners), words.owners)
    owned = []
    for token in tokens:
        owner = owners.get(token.serial)
        if owner is None or not owner.is_active:
            why = "is inactive" if owner else "has no user"
            notes.append("%s: passed over: token %s %s" % (token.place, token.serial, why))
        else:
            token.user, token.counter = owner.user, max(token.counter, owner.counter)
            owned.append(token)
    serials = {token.serial for token in tokens}
    return [*(fault for fault in found if isinstance(fault, Fault)), *owned,
            *(Fault(owner.place, "NoToken", "%s has no token %s that can be read" % (words.file, serial))
              for serial, owner in owners.items() if owner.is_active and serial not in serials)]


def sort_out(found: Found, users: UsersFile, takes_short: bool = False) -> tuple[list[Token], list[Fault]]:
    """Returns the tokens that can be added, and the faults of the others. A secret is a device, and has one row."""
    names: dict[str | None, str] = {}
    known: dict[str, tuple[str | None, str]] = {}
    for row in users.rows:
        user, place = row.user.decode("utf-8", "replace"), "line %d of the users file" % row.line
        names[user], known[device_of(row.secret.decode("ascii", "replace"))] = place, (user, place)
    good: list[Token] = []
    faults: list[Fault] = []
    for token in found:
        try:
            if isinstance(token, Fault):
                raise token
            token.check(takes_short)
            if token.user in names:
                raise Fault(token.place, "DuplicateUser", "%s has a token: %s" % (token.user, names[token.user]))
            device = device_of(token.secret.hex())
            if device in known:
                other = (token.user, *known[device])
                raise Fault(token.place, "DuplicateSecret", "%s has the secret of %s (%s), and each would take the "
                            "other's codes" % other)
            names[token.user], known[device] = token.place, (token.user, token.place)
            good.append(token)
        except Fault as fault:
            faults.append(fault)
    return good, faults


def told_of(user: str | None, token: Token, place: str) -> str:
    """Returns what is told of a row: its user, its kind and its place, and nothing of its secret."""
    return "%s: %s, %d bytes, %s" % (user, token.type_word(), len(token.secret), place)


def put_in(
    users: UsersFile,
    text: bytes,
    told: list[str],
    words: argparse.Namespace,
    last_step: Callable[[], object] = lambda: None,
) -> None:
    """Writes the users file with this text, if oathd takes it, and tells what was or would be done to its rows.

    # Errors
    Raises `Fault` if oathd refuses the text or another program wrote the file meanwhile, and what the last step raises.
    """
    prints, notes = ask_oathd(oathd(), text, words.cluster)
    if not words.dry_run:
        last_step()
        users.replace(text)
    verb = words.verbs[words.dry_run]
    print("".join("%s %s\n" % (verb, each) for each in told) + "".join(line + "\n" for line in prints), end="")
    print("".join(line + "\n" for line in notes), end="", file=sys.stderr)


def tell_mode(users: UsersFile) -> None:
    """Says so if other users of this machine may do anything with the file."""
    if users.is_open_to_others():
        say("%s: other users of this machine may read or write it: chmod 600" % users.name)


def add_tokens(words: argparse.Namespace) -> int:
    """Adds the tokens of a file. Returns the status."""
    with lock_beside(words.users):
        users = UsersFile(words.users, words.create)
        found, notes = read_tokens(words)
        good, faults = sort_out(give_owners(found, words, notes), users, words.short_secrets)
        for text in [*notes, *faults]:
            say(text)
        tell_mode(users)
        if faults and not words.dry_run and not words.part:
            say("nothing is written")
            return 1
        if good:
            put_in(users, users.text_with([token.row(words.password) for token in good]),
                   [told_of(token.user, token, token.place) for token in good], words)
        else:
            say("no token is to be added")
    return 1 if faults and not words.part else 0


def new_phone(words: argparse.Namespace, users: UsersFile) -> Phone:
    """Returns a new token for a user who has none, the text of the file with its row, and what is told of it.

    # Errors
    Raises `Fault` if the user has a row or may not have one.
    """
    token = Token("phone", secrets.token_bytes(NEW_BYTES), words.kind, user=words.user, digits=words.digits,
                  period=words.period, hash=words.hash)
    _, faults = sort_out([token], users)
    if faults:
        raise faults[0]
    return token, users.text_with([token.row(words.password)]), told_of(token.user, token, token.place)


def other_phone(words: argparse.Namespace, users: UsersFile) -> Phone:
    """Returns a new token of the kind that a user has, the text of the file with its secret in the user's row, and what
    is told of it. The row keeps its type and its password.

    # Errors
    Raises `Fault` if the user has no row or more than one.
    """
    row = users.row_of(os.fsencode(words.user))
    token = Token("line %d" % row.line, b"", user=row.user.decode("utf-8", "replace"), **read_type(row.type))
    token.secret = secrets.token_bytes(NEW_BYTES)
    counter = [b"0"] if token.kind == "hotp" else []
    new = b"\t".join([row.type, row.user, row.password, token.secret.hex().encode(), *counter])
    text, serial = users.text_without(row, new)
    return token, text, told_of(token.user, token, token.place) + told_serial(serial)


def give_phone(words: argparse.Namespace) -> int:
    """Gives a user a new secret, and shows its QR code. What can fail comes before the users file is written."""
    with lock_beside(words.users):
        users = UsersFile(words.users, words.create)
        token, text, told = (new_phone if words.command == "phone" else other_phone)(words, users)
        uri = phone.uri_of(token, words.issuer, words.account or token.user or "")
        shown = [phone.draw(uri, "ANSIUTF8")] if words.terminal else []
        drawn = phone.draw(uri, "PNG") if words.png else b""
        picture = phone.Picture(words.png) if words.png and not words.dry_run else None
        tell_mode(users)

        def write_picture() -> None:
            if picture:
                picture.write(drawn)

        try:
            put_in(users, text, [told], words, write_picture)
        except BaseException:
            if picture:
                picture.remove()
            raise
    if not words.dry_run:
        sys.stdout.flush()
        sys.stdout.buffer.write(b"".join(shown + [uri.encode() + b"\n"] * words.uri))
    return 0


def told_serial(serial: str | None) -> str:
    """Returns what is told of a remark that went with a row."""
    return ", without the remark # %s" % serial if serial else ""


def retire(words: argparse.Namespace) -> int:
    """Removes the row of a user."""
    with lock_beside(words.users):
        users = UsersFile(words.users, create=False)
        row = users.row_of(os.fsencode(words.user))
        user = row.user.decode("utf-8", "replace")
        if len(users.rows) == 1:
            raise Fault(words.users, "LastRow", "no running node takes a file without rows, so %s would log in as "
                        "before: stop the nodes" % user)
        text, serial = users.text_without(row)
        tell_mode(users)
        put_in(users, text, ["%s: %s, line %d%s" % (user, row.type.decode(), row.line, told_serial(serial))], words)
    return 0


def add_words_of_files(command: Command) -> None:
    command.add_argument("file", metavar="FILE")
    command.add_argument("--owners", metavar="FILE", help="whose tokens they are: CSV with serial and user, or JSON")
    command.add_argument("--name-by-serial", action="store_true", help="the serial number is the user's name")
    command.add_argument("--part", action="store_true", help="add the rows without a fault, and no others")
    command.add_argument("--short-secrets", action="store_true", help="take secrets of less than 16 bytes")


def add_words_of_phones(command: Command) -> None:
    command.add_argument("--issuer", required=True, metavar="NAME", help="what the app calls this site")
    command.add_argument("--account", metavar="NAME", help="what the app calls the user (USER)")
    command.add_argument("--terminal", action="store_true", help="print the QR code")
    command.add_argument("--png", metavar="FILE", help="write the QR code to a new file, mode 600")
    command.add_argument("--uri", action="store_true", help="print the URI")


def add_words_of_new_rows(command: Command) -> None:
    command.add_argument("--type", dest="kind", choices=("hotp", "totp"), help="if no file says it")
    command.add_argument("--digits", type=int, choices=(6, 7, 8), default=6, help="the same (6)")
    command.add_argument("--period", type=int, choices=(30, 60), default=30, help="the same, of time tokens (30)")
    command.add_argument("--hash", type=str.upper, choices=("SHA1", "SHA256", "SHA512"), default="SHA1",
                         help="the same (SHA1)")
    command.add_argument("--password", choices=("-", "+"), default="-", help="the third column (-)")
    command.add_argument("--create", action="store_true", help="make the users file if it isn't there")


def add_words_of_all(command: Command) -> None:
    command.add_argument("--cluster", metavar="FILE", help="check with it, and print how members are compared")
    command.add_argument("--dry-run", action="store_true", help="write nothing")


def add_words_of_csv(command: Command) -> None:
    command.add_argument("--columns", type=columns, metavar="FIELD,..",
                         help="all columns in order if there is no header, - for others")
    command.add_argument("--column", action="append", default=[], type=column, metavar="FIELD=NAME",
                         help="the name that the header has for a field")
    command.add_argument("--delimiter", type=delimiter, default=",", help="between two cells (,)")
    command.add_argument("--secrets", choices=("hex", "base32"), default="hex", help="how secrets are written (hex)")


def add_words_of_pskc(command: Command) -> None:
    one = command.add_mutually_exclusive_group()
    one.add_argument("--key-file", metavar="FILE", help="the pre-shared key in hexadecimal")
    one.add_argument("--password-file", metavar="FILE", help="the password")


class Act(NamedTuple):
    """A command: its help, what carries it out, what it says that it did or would do, and what adds its words."""

    help: str
    call: Callable[[argparse.Namespace], int]
    verbs: Tuple[str, str]
    additions: List[Callable[[Command], None]]


ADDED = "added", "would add"
OF_LISTS = [add_words_of_files, add_words_of_new_rows]
COMMANDS = {
    "phone": Act("a new secret for an app", give_phone, ADDED, [add_words_of_phones, add_words_of_new_rows]),
    "csv": Act("tokens of a CSV file", add_tokens, ADDED, [*OF_LISTS, add_words_of_csv]),
    "pskc": Act("tokens of a PSKC file", add_tokens, ADDED, [*OF_LISTS, add_words_of_pskc]),
    "replace": Act("a new secret in a user's row", give_phone, ("replaced", "would replace"), [add_words_of_phones]),
    "retire": Act("the file without a user's row", retire, ("retired", "would retire"), []),
}


def read_words(arguments: list[str] | None) -> argparse.Namespace:
    """Returns the words of the command line. Ends the program if they are wrong."""
    what = "Changes the rows of a users file."
    parser = argparse.ArgumentParser(prog="onboard", description=what, allow_abbrev=False)
    commands = parser.add_subparsers(dest="command", required=True)
    for name, act in COMMANDS.items():
        command = commands.add_parser(name, help=act.help, allow_abbrev=False)
        command.add_argument("users", metavar="USERS")
        if add_words_of_files not in act.additions:
            command.add_argument("user", metavar="USER")
        for add in [*act.additions, add_words_of_all]:
            add(command)
        command.set_defaults(act=act.call, verbs=act.verbs)
    commands.choices["phone"].set_defaults(kind="totp")
    commands.choices["replace"].set_defaults(create=False)
    words = parser.parse_args(arguments)
    if words.act is give_phone and not (words.terminal or words.png or words.uri):
        commands.choices[words.command].error("one of --terminal, --png and --uri: else nobody gets the secret")
    return words


def column(text: str) -> tuple[str, str]:
    """Returns the field and the name of FIELD=NAME."""
    field, mark, name = text.partition("=")
    if not mark or field not in lists.FIELDS:
        raise argparse.ArgumentTypeError("FIELD=NAME, with FIELD one of " + ", ".join(lists.FIELDS))
    return field, name


def columns(text: str) -> list[str]:
    """Returns the fields of FIELD,FIELD, in order."""
    fields = text.split(",")
    unknown = [field for field in fields if field not in (*lists.FIELDS, "-")]
    if unknown:
        raise argparse.ArgumentTypeError("%s is none of %s, -" % (unknown[0], ", ".join(lists.FIELDS)))
    return fields


def delimiter(text: str) -> str:
    """Returns the character between two cells."""
    if len(text) != 1 or text in '"\r\n':
        raise argparse.ArgumentTypeError("it is one character")
    return text


def main(arguments: list[str] | None = None) -> int:
    """Does what the words of the command line say, and returns the status."""
    words = read_words(arguments)
    try:
        status: int = words.act(words)
        return status
    except Fault as fault:
        say(fault)
    except OSError as fault:
        say("%s: %s" % (fault.filename or "a file", fault.strerror))
    return 1
