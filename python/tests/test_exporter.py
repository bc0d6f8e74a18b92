"""Tries the exporter beside fake nodes, its metrics, and its page.

Without python3-prometheus-client all but the message about it is left out.
"""
from __future__ import annotations

import itertools
import json
import os
import re
import socket
import subprocess
import sys
import tempfile
import threading
import unittest
from importlib.util import find_spec
from pathlib import Path
from typing import TYPE_CHECKING
from unittest import mock
from wsgiref.simple_server import make_server

from tests.fake_node import FakeNode
from wakdulg.operator import Operator

HAS_LIBRARY = find_spec("prometheus_client") is not None
if TYPE_CHECKING or HAS_LIBRARY:
    from prometheus_client import CollectorRegistry, generate_latest
    from prometheus_client.exposition import ThreadingWSGIServer

    from wakdulg_exporter import metrics, program

TOP = Path(__file__).resolve().parents[2]
SECRET = bytes(range(32))
REPORT = """\
node 2 of 3
version 0.1.0
fingerprint 0123456789abcdef
book fedcba9876543210
boot 5
clock 1796000100
started 1796000000
tokens 4
rows 5 of 65536
pending 1
closed 2
received 70
replied 60
accepted 40
refused INVALID 7
refused BUSY 1
ticks 500
largest-batch 3
commits 50
commit-millis 1 10
commit-millis 2 20
commit-millis 100 15
commit-millis more 5
unopened tag 9
member 1 heard 2
member 3 silent
a line of a later program
end"""
# The samples of the report, but for those of reasons, causes and buckets without an event.
SAMPLES = """\
wakdulg_up{node="2"} 1.0
wakdulg_info{book="fedcba9876543210",fingerprint="0123456789abcdef",node="2",version="0.1.0"} 1.0
wakdulg_members{node="2"} 3.0
wakdulg_boot{node="2"} 5.0
wakdulg_clock_seconds{node="2"} 1.7960001e+09
wakdulg_started_seconds{node="2"} 1.796e+09
wakdulg_tokens{node="2"} 4.0
wakdulg_store_rows{node="2"} 5.0
wakdulg_store_rows_limit{node="2"} 65536.0
wakdulg_pending{node="2"} 1.0
wakdulg_gates_closed{node="2"} 2.0
wakdulg_received_total{node="2"} 70.0
wakdulg_replied_total{node="2"} 60.0
wakdulg_accepted_total{node="2"} 40.0
wakdulg_refused_total{node="2",reason="BUSY"} 1.0
wakdulg_refused_total{node="2",reason="INVALID"} 7.0
wakdulg_ticks_total{node="2"} 500.0
wakdulg_largest_batch{node="2"} 3.0
wakdulg_commit_seconds_bucket{le="0.001",node="2"} 10.0
wakdulg_commit_seconds_bucket{le="0.002",node="2"} 30.0
wakdulg_commit_seconds_bucket{le="0.005",node="2"} 30.0
wakdulg_commit_seconds_bucket{le="0.01",node="2"} 30.0
wakdulg_commit_seconds_bucket{le="0.02",node="2"} 30.0
wakdulg_commit_seconds_bucket{le="0.05",node="2"} 30.0
wakdulg_commit_seconds_bucket{le="0.1",node="2"} 45.0
wakdulg_commit_seconds_bucket{le="+Inf",node="2"} 50.0
wakdulg_commit_seconds_count{node="2"} 50.0
wakdulg_unopened_total{cause="tag",node="2"} 9.0
wakdulg_member_heard{member="1",node="2"} 1.0
wakdulg_member_heard{member="3",node="2"} 0.0
wakdulg_member_age_seconds{member="1",node="2"} 2.0
wakdulg_member_differs{member="1",node="2"} 0.0
wakdulg_member_differs{member="3",node="2"} 0.0
"""


def statuses_of(port: int, request: bytes) -> tuple[list[str], bool]:
    """Returns the statuses of the answers of a connection until its end, and whether it ended in half a minute."""
    got = b""
    with socket.create_connection(("127.0.0.1", port), timeout=30) as connection:
        connection.sendall(request)
        try:
            while more := connection.recv(65536):
                got += more
        except ConnectionResetError:
            pass
        except socket.timeout:
            return re.findall(r"^HTTP/1\.[01] (\d+) ", got.decode(), re.M), False
    return re.findall(r"^HTTP/1\.[01] (\d+) ", got.decode(), re.M), True


@unittest.skipUnless(HAS_LIBRARY, "needs python3-prometheus-client")
class Tests(unittest.TestCase):
    def setUp(self) -> None:
        """A busy machine may take long to answer, and to scrape again."""
        for name, seconds in ("LONGEST", 60.0), ("PAUSE", 30.0), ("KEPT", 60.0):
            self.set(name, seconds)

    def set(self, name: str, seconds: float) -> None:
        """Sets a time of the program until the end of a test."""
        patch = mock.patch.object(program, name, seconds)
        patch.start()
        self.addCleanup(patch.stop)

    def node(self, number: int, *reports: str) -> FakeNode:
        """Starts a node that answers an operator by these reports."""
        key = Operator(901, SECRET)
        node = FakeNode(*([report] for report in reports or [REPORT]), key=key, number=number, kind=Operator.REQUEST)
        self.addCleanup(node.stop)
        return node

    def registry(self, nodes: str) -> CollectorRegistry:
        """Returns the registry of an exporter of nodes."""
        registry, exporter = CollectorRegistry(), program.Exporter(Operator(901, SECRET), nodes)
        self.addCleanup(exporter.threads.shutdown)
        registry.register(exporter)
        return registry

    def serve(self, nodes: str) -> int:
        """Serves the page of an exporter, and returns the port."""
        page = program.page_of(self.registry(nodes))
        server = make_server("127.0.0.1", 0, page, ThreadingWSGIServer, program.Connection)
        thread = threading.Thread(target=server.serve_forever, args=(0.05,))
        thread.start()
        self.addCleanup(server.server_close)
        self.addCleanup(thread.join)
        self.addCleanup(server.shutdown)
        return server.server_port

    def test_the_samples_of_a_report(self) -> None:
        text = generate_latest(self.registry("2=" + self.node(2).name)).decode()
        lines = text.splitlines()
        wanted = SAMPLES.splitlines()
        self.assertEqual([line for line in lines if line in wanted], wanted)
        others = [line for line in lines if line not in wanted and not line.startswith("#")]
        zeros = [line for line in others if re.match(r"wakdulg_(refused|unopened)_total.* 0\.0$", line)]
        self.assertEqual(others, zeros)
        self.assertEqual(len(others), len(metrics.REASONS) + len(metrics.CAUSES) - 3)

    def test_names_types_and_texts(self) -> None:
        text = generate_latest(self.registry("2=" + self.node(2).name)).decode()
        told = re.findall(r"^# HELP wakdulg_(\w+) (.*)\n# TYPE wakdulg_(\w+) (\w+)$", text, re.M)
        self.assertEqual([(name, kind, words) for name, words, _, kind in told], metrics.METRICS)
        self.assertEqual([name for name, *_ in told], [name for *_, name, _ in told])

    def test_what_alerts_and_the_dashboard_read_is_there(self) -> None:
        files = [TOP / "examples/monitoring" / name for name in ("alerts.yml", "dashboard.json", "alerts_test.yml")]
        json.loads(files[1].read_text())
        read = {name for file in files for name in re.findall(r"\bwakdulg_(\w+)", file.read_text())} - {"exporter"}
        known = {name for name, *_ in metrics.METRICS} | {"commit_seconds_bucket", "commit_seconds_count"}
        self.assertEqual(read - known, set())

    def test_a_silent_node_and_one_that_refuses(self) -> None:
        silent, refusing, other = self.node(1, "x"), self.node(2, "NO READER"), self.node(3, "tokens many\nend")
        silent.stop()
        nodes = ",".join(node.name for node in (silent, refusing, other))
        text = generate_latest(self.registry(nodes)).decode()
        samples = [line for line in text.splitlines() if not line.startswith("#")]
        self.assertEqual(samples, ['wakdulg_up{node="%d"} 0.0' % number for number in (1, 2, 3)])

    def test_scrapes_within_some_time_ask_once(self) -> None:
        for kept, asked in (60.0, 1), (0.0, 2):
            self.set("KEPT", kept)
            node = self.node(2)
            registry = self.registry("2=" + node.name)
            self.assertEqual(node.heard, [])
            self.assertEqual(generate_latest(registry), generate_latest(registry))
            self.assertEqual(node.heard, ["STATUS 0"] * asked)

    def test_a_connection_has_one_answer_and_ends(self) -> None:
        """Else a proxy's next client would get the answer to a request in a body."""
        port = self.serve("2=" + self.node(2).name)
        hidden = b"GET /hidden HTTP/1.1\r\nHost: a\r\n\r\n"
        line = b"%s %s HTTP/1.%d\r\nHost: a\r\nConnection: keep-alive\r\n"
        length = b"Content-Length: %d\r\n\r\n%s" % (len(hidden), hidden)
        pieces = b"Transfer-Encoding: chunked\r\n\r\n%x\r\n%s\r\n0\r\n\r\n" % (len(hidden), hidden)
        kinds = [(b"GET", b"/metrics", "200"), (b"GET", b"/", "404"), (b"POST", b"/metrics", "405")]
        bodies = [b"\r\n", b"\r\n" + hidden, length, pieces]
        for (method, path, status), minor, body in itertools.product(kinds, (0, 1), bodies):
            request = line % (method, path, minor) + body
            self.assertEqual(statuses_of(port, request), ([status], True), request)

    def test_the_names_that_a_scrape_wants(self) -> None:
        port = self.serve("2=" + self.node(2).name)
        with socket.create_connection(("127.0.0.1", port), timeout=30) as connection:
            connection.sendall(b"GET /metrics?name[]=wakdulg_up HTTP/1.0\r\n\r\n")
            got = b"".join(iter(lambda: connection.recv(65536), b""))
        self.assertEqual(re.findall(rb"^wakdulg.*$", got, re.M), [b'wakdulg_up{node="2"} 1.0'])

    def test_nodes(self) -> None:
        twice = "127.0.0.1:1,127.0.0.1:1", "2=127.0.0.1:1,127.0.0.1:2"
        for nodes, said in ("", "no ADDRESS"), (twice[0], "twice"), (twice[1], "twice"):
            with self.assertRaisesRegex(ValueError, said):
                program.Exporter(Operator(901, SECRET), nodes)


class Program(unittest.TestCase):
    def setUp(self) -> None:
        folder = tempfile.TemporaryDirectory()
        self.addCleanup(folder.cleanup)
        self.folder = Path(folder.name)
        (self.folder / "reader").write_text("reader 901 %s\n" % SECRET.hex())
        (self.folder / "reader").chmod(0o600)

    def run_it(self, *words: str) -> tuple[int, str, str]:
        """Returns the status of the exporter, what it prints, and what it says. Modules of the folder come first."""
        env = {**os.environ, "PYTHONPATH": "%s:%s" % (self.folder, TOP / "python")}
        command = [sys.executable, "-B", "-m", "wakdulg_exporter", "--operator", "reader", *words]
        done = subprocess.run(command, cwd=self.folder, env=env, capture_output=True, text=True)
        return done.returncode, done.stdout, done.stderr

    @unittest.skipUnless(HAS_LIBRARY, "needs python3-prometheus-client")
    def test_once(self) -> None:
        node = FakeNode([REPORT], key=Operator(901, SECRET), number=2, kind=Operator.REQUEST)
        self.addCleanup(node.stop)
        status, printed, said = self.run_it("--once", "2=" + node.name)
        self.assertEqual((status, said), (0, ""))
        self.assertIn('wakdulg_accepted_total{node="2"} 40.0\n', printed)

    @unittest.skipUnless(HAS_LIBRARY, "needs python3-prometheus-client")
    def test_faults(self) -> None:
        (self.folder / "reader").chmod(0o644)
        said = "wakdulg_exporter: others may read or write it: chmod 600 reader\n"
        self.assertEqual(self.run_it("127.0.0.1:1"), (1, "", said))
        (self.folder / "reader").chmod(0o600)
        for words in ["localhost:1"], ["--listen", "here", "127.0.0.1:1"]:
            status, _, said = self.run_it(*words)
            self.assertEqual(status, 1)
            self.assertRegex(said, "^wakdulg_exporter: not an ADDRESS:PORT, .*\n$")

    def test_a_machine_without_the_library(self) -> None:
        (self.folder / "prometheus_client.py").write_text("raise ModuleNotFoundError(name='prometheus_client')")
        said = "wakdulg_exporter: install Debian's package python3-prometheus-client\n"
        self.assertEqual(self.run_it("127.0.0.1:1"), (1, "", said))
