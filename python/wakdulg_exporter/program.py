"""Serves the states of running nodes of a cluster to Prometheus.

    wakdulg-exporter --operator KEYFILE [--listen ADDRESS:PORT] NODES     serves /metrics, else at 127.0.0.1:9717
    wakdulg-exporter --operator KEYFILE --once NODES                      prints the metrics once

KEYFILE has one line `reader NUMBER KEY` or `operator NUMBER KEY`, as the clients file of the nodes, and mode 600.
NODES are `127.0.0.1:717,127.0.0.1:718,127.0.0.1:719`, the members in the order of their numbers, or each has its
number before it, as `2=127.0.0.1:718`.

A scrape asks all members at once, and takes two seconds at most. A silent member has `wakdulg_up` 0 and no other
metric. Scrapes within a second get the same values. docs/how-to/monitor.md says what to do with it.
"""
from __future__ import annotations

import argparse
import contextlib
import signal
import sys
import threading
import time
from concurrent.futures import ThreadPoolExecutor
from typing import TYPE_CHECKING, Any, Iterable
from wsgiref.simple_server import WSGIRequestHandler, make_server

from prometheus_client import CollectorRegistry, Metric, generate_latest, make_wsgi_app
from prometheus_client.exposition import ThreadingWSGIServer
from prometheus_client.registry import Collector

import wakdulg
from wakdulg.operator import NoReport, Operator, Silent, ask, read_operator
from wakdulg_exporter.metrics import Sample, families, families_of, samples_of

if TYPE_CHECKING:
    from _typeshed.wsgi import StartResponse, WSGIApplication, WSGIEnvironment

# For how many seconds a member is asked, after how many it is asked again, and for how many values are kept.
LONGEST, PAUSE, KEPT = 1.9, 0.6, 1.0


class Exporter(Collector):
    """The members, and the key under which they are asked."""

    def __init__(self, key: Operator, nodes: str) -> None:
        numbered = wakdulg.read_list(nodes)
        wakdulg.check_distinct(numbered)
        self.key, self.members = key, dict(numbered)
        self.lock, self.kept_at = threading.Lock(), -KEPT
        self.kept: dict[int, list[Sample]] = {}
        self.threads = ThreadPoolExecutor(len(self.members))

    def samples(self, node: int) -> list[Sample]:
        """Returns the samples of a node. That of a silent one says that it is silent."""
        deadline = time.monotonic() + LONGEST
        try:
            return samples_of(ask(self.key, self.members[node], node, "STATUS", 10, PAUSE, deadline))
        except (Silent, NoReport, ValueError, IndexError):
            return [Sample("up", {}, 0)]

    def collect(self) -> Iterable[Metric]:
        """Returns all metrics. One scrape at a time asks the members."""
        with self.lock:
            if time.monotonic() >= self.kept_at + KEPT:
                self.kept = dict(zip(self.members, self.threads.map(self.samples, self.members)))
                self.kept_at = time.monotonic()
            return families_of(self.kept)

    def describe(self) -> Iterable[Metric]:
        """Returns all metrics without samples, so that the registry asks no node for their names."""
        return families().values()


class Connection(WSGIRequestHandler):
    """A connection has one answer and ends. The body of a request is never read, so it must not be taken for the next
    request of the connection."""

    timeout = 10

    def handle(self) -> None:
        """Answers one request. One that doesn't come in time, or whose sender is gone, is no fault."""
        with contextlib.suppress(OSError):
            super().handle()

    def log_message(self, format: str, *_: Any) -> None:
        """Logs nothing."""


def page_of(registry: CollectorRegistry) -> WSGIApplication:
    """Returns the page /metrics of a registry."""
    metrics: WSGIApplication = make_wsgi_app(registry)

    def page(environ: WSGIEnvironment, start_response: StartResponse) -> Iterable[bytes]:
        if environ["REQUEST_METHOD"] != "GET":
            start_response("405 Method Not Allowed", [("Allow", "GET"), ("Content-Type", "text/plain")])
            return [b"the page is read by GET\n"]
        if environ["PATH_INFO"] != "/metrics":
            start_response("404 Not Found", [("Content-Type", "text/plain")])
            return [b"the page is /metrics\n"]
        return metrics(environ, start_response)

    return page


def read_words() -> argparse.Namespace:
    """Returns the words of the command line. Ends the program if they are wrong."""
    usage = "wakdulg-exporter --operator KEYFILE [--listen ADDRESS:PORT | --once] NODES"
    words = argparse.ArgumentParser(usage=usage)
    words.add_argument("--operator", required=True)
    words.add_argument("--listen", default="127.0.0.1:9717")
    words.add_argument("--once", action="store_true")
    words.add_argument("nodes")
    return words.parse_args()


def main() -> None:
    """Serves the page until a signal comes, or prints it once."""
    words, registry = read_words(), CollectorRegistry()
    signal.signal(signal.SIGTERM, lambda *_: sys.exit(0))
    try:
        registry.register(Exporter(read_operator(words.operator), words.nodes))
        if words.once:
            print(generate_latest(registry).decode(), end="")
            return
        host, port = wakdulg.read_node(words.listen)
        server = make_server(host, port, page_of(registry), ThreadingWSGIServer, Connection)
    except (ValueError, OSError) as fault:
        sys.exit("wakdulg_exporter: %s" % fault)
    with contextlib.suppress(KeyboardInterrupt):
        server.serve_forever()
