"""A helpdesk in the browser: staff look at users and at a cluster, unlock, resynchronize, enrol and retire.

    helpdesk --key-file NUMBER:FILE --operator FILE --cluster FILE --users FILE --staff FILE --record FILE
             --issuer NAME [--push COMMAND] [--tell COMMAND] [--log I=FILE]... [--patience SECONDS] [--two-of-staff]
             [--acts N] SOCKET ORIGIN

SOCKET is the path of a unix socket, to which only nginx may connect: the service believes its X-Real-IP. ORIGIN is the
site as a browser names it, `https://helpdesk.example`. --key-file is the key of a client of the cluster, and --operator
the file of an operator of it: they are the only keys that the helpdesk has. The line of the key in the cluster file is
not read. --users is the users file, which the self-service and `onboard` write too. --push is a command that copies
it to the members, as push-users does. --tell is a command that tells a user of a new phone: it has the name and
a sentence as two lines of standard input. --staff has a name, the hash of a password and a role on each line, as
staff-line makes them. --record is the file of what staff did. --log names the log of member I on this host.
--two-of-staff: to replace a phone and to import a file wants another one of staff, who confirms. --acts (60) is how
many acts one of staff may begin within an hour. Without names in the cluster file the users file stays as it is: staff
look, unlock and resynchronize alone, and --push, --tell and --two-of-staff are refused. OATHD is the program, else
oathd. docs/how-to/helpdesk.md shows it.

Packages: python3-flask, python3-argon2, python3-cryptography, gunicorn, qrencode. Each answer to a code of staff is a
line of standard output.
"""
from __future__ import annotations

import argparse

from flask import Flask

from wakdulg_helpdesk.cluster_file import ClusterFile
from wakdulg_helpdesk.members import Logs, Members, Table
from wakdulg_helpdesk.pages import Site, make_application
from wakdulg_helpdesk.service import Service, keeper_of, oathd, parser_of, parts_of
from wakdulg_helpdesk.sessions import Sessions
from wakdulg_helpdesk.staff import check_staff


def log_of(text: str) -> tuple[int, str]:
    """Returns the number of a member and the path of its log."""
    member, mark, path = text.partition("=")
    if not mark or not member.isdigit():
        raise argparse.ArgumentTypeError("I=FILE, with the number of a member")
    return int(member), path


def count_of(text: str) -> int:
    """Returns a number of acts."""
    if not text.isdecimal() or not 1 <= int(text) <= 10_000:
        raise argparse.ArgumentTypeError("N is 1 to 10000")
    return int(text)


def main() -> None:
    """Serves the pages until a signal comes."""
    parser = parser_of("helpdesk", __doc__.split("\n\n")[1].strip())
    parser.add_argument("--operator", required=True)
    parser.add_argument("--log", action="append", type=log_of, default=[])
    parser.add_argument("--two-of-staff", action="store_true")
    parser.add_argument("--acts", type=count_of, default=60)
    words = parser.parse_args()
    try:
        check_staff(words.staff, 2 if words.two_of_staff else 0)
        file = ClusterFile(words.cluster)
        for name in "push", "tell", "two_of_staff":
            if getattr(words, name):
                file.want_names("--" + name.replace("_", "-"))
        members = Members(file, words.operator, oathd(), words.patience)
        sessions = Sessions("helpdesk", idle=15 * 60, longest=4 * 3600)
        parts = parts_of(words, file, sessions, keeper_of(words, "helpdesk", longest=3600), members)
    except (ValueError, OSError) as fault:
        parser.error(str(fault))
    table, logs = Table(members), Logs(dict(words.log))

    def application() -> Flask:
        return make_application(Site(parts, members, table, logs, words.staff, words.acts, words.two_of_staff))
    Service(words.socket, parts, application).run()
