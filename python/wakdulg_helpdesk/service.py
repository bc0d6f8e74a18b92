"""How a site runs: the words that all have, the log of logins, and gunicorn with one process."""
from __future__ import annotations

import argparse
import logging
import os
import sys
from typing import Any, Callable

from flask import Flask
from gunicorn.app.base import BaseApplication
from gunicorn.workers.gthread import ThreadWorker

import wakdulg
from wakdulg_helpdesk.acts import Desk
from wakdulg_helpdesk.book import Book
from wakdulg_helpdesk.cluster_file import ClusterFile
from wakdulg_helpdesk.keeping import Keeper
from wakdulg_helpdesk.members import Members
from wakdulg_helpdesk.places import check_places
from wakdulg_helpdesk.record import Record
from wakdulg_helpdesk.sessions import Sessions
from wakdulg_helpdesk.staff import staff_of
from wakdulg_helpdesk.web import Parts

THREADS = 96
LOG = logging.getLogger("logins")


class Worker(ThreadWorker):
    """A process whose threads wait for ten seconds for what a client sends, and no longer."""

    def handle(self, conn: Any) -> Any:
        """Answers a connection."""
        conn.sock.settimeout(10)
        return super().handle(conn)


class Service(BaseApplication):
    """gunicorn with one process at a unix socket, since sessions are in its memory. Each connection has one request."""

    def __init__(self, socket: str, parts: Parts, make_application: Callable[[], Flask]) -> None:
        self.socket, self.parts, self.make_application = socket, parts, make_application
        super().__init__()

    def load_config(self) -> None:
        """Sets what gunicorn runs by."""
        for name, value in {"workers": 1, "worker_class": "wakdulg_helpdesk.service.Worker", "threads": THREADS,
                            "keepalive": 0, "worker_connections": 2 * THREADS, "backlog": 128, "umask": 0o007,
                            "loglevel": "warning", "limit_request_line": 2048, "limit_request_fields": 20,
                            "timeout": 300, "bind": "unix:" + self.socket}.items():
            self.cfg.set(name, value)

    def load(self) -> Flask:
        """Returns the application, after it has begun what runs beside it."""
        # In the process that serves, since a thread isn't in the child of a process.
        self.parts.desk.book.keep_copying()
        self.parts.keeper.remove_old()
        return self.make_application()


def oathd() -> str:
    """Returns the program that reads users files."""
    return os.environ.get("OATHD", "oathd")


def keeper_of(words: argparse.Namespace, site: str, longest: float) -> Keeper:
    """Returns the kept secrets of a site. They lie beside its record, since several sites may have the folder of the
    users file."""
    folder = os.path.dirname(os.path.realpath(words.record))
    return Keeper(os.path.join(folder, os.path.basename(words.users)), site, longest)


def parser_of(program: str, usage: str) -> argparse.ArgumentParser:
    """Returns a parser of the words that each site has."""
    parser = argparse.ArgumentParser(program, usage, allow_abbrev=False)
    for name in "key-file", "cluster", "users", "staff", "record", "issuer":
        parser.add_argument("--" + name, required=True)
    parser.add_argument("--push")
    parser.add_argument("--tell")
    parser.add_argument("--patience", type=float, default=8.0)
    for name in "socket", "origin":
        parser.add_argument(name)
    return parser


def parts_of(words: argparse.Namespace, file: ClusterFile, sessions: Sessions, keeper: Keeper,
             members: Members | None = None, copier: str = "") -> Parts:
    """Returns what the words of a site name, and begins its log. `copier` is the site that copies the users file if the
    words have no hook. Raises ValueError or OSError if a file is wrong, or is open to others."""
    check_places(words.users, words.cluster, words.staff, words.record)
    pauses = words.patience / 8, words.patience * 5 / 16
    cluster = wakdulg.Cluster(file.nodes, pauses, words.patience, key=wakdulg.read_key(words.key_file))
    book = Book(words.users, oathd(), file, words.push, copier)
    desk = Desk(book, members, cluster, staff_of(words.staff), words.issuer)
    record = Record(words.record)
    # A line that can't be written is lost, and holds up no login.
    logging.raiseExceptions = False
    LOG.addHandler(logging.StreamHandler(sys.stdout))
    LOG.setLevel(logging.INFO)
    LOG.propagate = False
    return Parts(words.origin, desk, sessions, keeper, record, LOG, words.tell)
