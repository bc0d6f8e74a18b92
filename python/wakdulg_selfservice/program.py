"""Self-service in the browser: a user with the password and a code resynchronizes the token, or replaces the phone.

    self-service --allow ACT [--allow ACT] --key-file NUMBER:FILE --cluster FILE --users FILE --staff FILE --record FILE
                 --issuer NAME [--push COMMAND] [--tell COMMAND] [--patience SECONDS] [--late SECONDS] SOCKET ORIGIN

ACT is `resync` or `replace`, and without one nothing starts: whoever has a phone and its password for a minute can take
the token for good by `replace`. Only users with a password in the users file are served, and none of --staff, of which
it reads the first word of each line. All other words are as for `helpdesk`, whose modules it takes. An operator's key
it hasn't. It wants a cluster file with names. It may run beside the helpdesk over the same users file, as another user
with files of its own. Without --push the helpdesk copies the users file: it does so when the mark `users.pending`
appears. --late (120): if no code of a new phone was accepted for this time, the page says that something is wrong.
OATHD is the program, else oathd. docs/how-to/self-service.md shows it.

Packages: python3-flask, python3-cryptography, gunicorn, qrencode. Each answer of the cluster is a line of standard
output.
"""
from __future__ import annotations

from flask import Flask

from wakdulg_helpdesk.cluster_file import ClusterFile
from wakdulg_helpdesk.service import Service, keeper_of, parser_of, parts_of
from wakdulg_helpdesk.sessions import Sessions
from wakdulg_selfservice.pages import Site, make_application


def main() -> None:
    """Serves the pages until a signal comes."""
    parser = parser_of("self-service", __doc__.split("\n\n")[1].strip())
    parser.add_argument("--allow", action="append", choices=("resync", "replace"), required=True)
    parser.add_argument("--late", type=float, default=120.0)
    words = parser.parse_args()
    try:
        file = ClusterFile(words.cluster)
        file.want_names("self-service")
        sessions = Sessions("self-service", idle=5 * 60, longest=10 * 60)
        keeper = keeper_of(words, "self-service", longest=10 * 60)
        parts = parts_of(words, file, sessions, keeper, copier="the helpdesk")
    except (ValueError, OSError) as fault:
        parser.error(str(fault))

    def application() -> Flask:
        return make_application(Site(parts, words.allow, words.late))
    Service(words.socket, parts, application).run()
