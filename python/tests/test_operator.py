"""Tries an operator's requests beside fake nodes, and the words that name nodes."""
from __future__ import annotations

import tempfile
import time
import unittest
from pathlib import Path
from typing import Sequence
from unittest import mock

import wakdulg
from tests.fake_node import FakeNode, Reply
from wakdulg import operator
from wakdulg.operator import NoReport, Operator, Silent

KEY, OTHER = Operator(900, bytes(range(32))), Operator(900, bytes(range(1, 33)))


class Requests(unittest.TestCase):
    def node(self, *replies: Sequence[Reply], key: Operator = KEY) -> FakeNode:
        """Starts a node with number 2, which has the key of an operator."""
        node = FakeNode(*replies, key=key, number=2, kind=Operator.REQUEST)
        self.addCleanup(node.stop)
        return node

    def ask(self, node: FakeNode, word: str, times: int = 50, pause: float = 30.0) -> list[str]:
        """Returns the lines of a report. With a short pause it asks often, since a busy machine may take long."""
        return operator.ask(KEY, node.address, 2, word, times, pause)

    def test_a_report_of_one_page(self) -> None:
        node = self.node(["boot 5\ntokens 4\nend"])
        self.assertEqual((self.ask(node, "STATUS"), node.heard), (["boot 5", "tokens 4"], ["STATUS 0"]))

    def test_a_request_without_pages(self) -> None:
        node = self.node(["DONE"])
        self.assertEqual((self.ask(node, "UNLOCK ann"), node.heard), (["DONE"], ["UNLOCK ann"]))

    def test_pages_follow_each_other(self) -> None:
        node = self.node(["a\nb\nnext 2"], ["c\nnext 3"], ["end"])
        self.assertEqual(self.ask(node, "GATES"), ["a", "b", "c"])
        self.assertEqual(node.heard, ["GATES 0", "GATES 2", "GATES 3"])

    def test_pages_of_another_text_begin_again(self) -> None:
        """Another operator's request replaced the text at the node, twice at most."""
        node = self.node(["a\nnext 1"], ["NO REPORT"], ["c\nnext 1"], ["d\nend"])
        self.assertEqual(self.ask(node, "GATES"), ["c", "d"])
        node = self.node(*(["a\nnext 1"], ["NO REPORT"]) * 3)
        with self.assertRaisesRegex(NoReport, "NO REPORT"):
            self.ask(node, "GATES")
        self.assertEqual(len(node.heard), 6)

    def test_a_first_page_has_to_be_on_the_last_sending(self) -> None:
        """The first page on the first sending comes late, when the node has made the text again."""

        def answer(sender: wakdulg.Node, page: bytes) -> None:
            if page == b"0":
                node.port.sendto(node.sealed(b"old\nnext 1", node.datagrams[0]), sender)
            node.port.sendto(node.sealed(b"new\nnext 1" if page == b"0" else b"end", node.datagrams[-1]), sender)

        node = self.node([], [answer])
        self.assertEqual(self.ask(node, "GATES", pause=0.3), ["new"])

    def test_a_whole_report_may_be_on_any_sending(self) -> None:
        node = self.node([0.5, "a\nend"], [])
        self.assertEqual(self.ask(node, "GATES", pause=0.3), ["a"])

    def test_a_lost_request_is_sent_again_under_another_seal(self) -> None:
        node = self.node([], ["a\nend"])
        self.assertEqual(self.ask(node, "GATES", pause=0.3), ["a"])
        node.stop()
        self.assertEqual(({*node.heard}, len({*node.datagrams})), ({"GATES 0"}, len(node.heard)))
        self.assertGreaterEqual(len(node.heard), 2)

    def test_who_is_silent(self) -> None:
        for node in self.node([]), self.node(["end"], key=OTHER):
            with self.assertRaisesRegex(Silent, "^no answer from 127.0.0.1:[0-9]+$"):
                self.ask(node, "STATUS", times=2, pause=0.2)
            with self.assertRaises(Silent):
                operator.ask(KEY, node.address, 2, "STATUS", deadline=0.0)
            node.stop()
            self.assertEqual(len(node.heard), 2)
            with self.assertRaisesRegex(Silent, "refused"):
                self.ask(node, "STATUS")

    def test_what_is_no_report(self) -> None:
        for text in "NO READER", "", "a", "next 1", "a\nnext 7", "a\nnext -1":
            with self.assertRaises(NoReport, msg=text):
                self.ask(self.node([text]), "STATUS")
        with self.assertRaisesRegex(NoReport, "the node refuses: NO USER"):
            self.ask(self.node(["NO USER"]), "UNLOCK bob")

    @mock.patch("wakdulg.operator.BUSY_PAUSE", 0.1)
    def test_a_busy_node_is_asked_for_the_page_again(self) -> None:
        node = self.node(["NO BUSY"], ["a\nnext 1"], ["NO BUSY"], ["NO BUSY"], ["b\nend"])
        self.assertEqual(self.ask(node, "ROSTER"), ["a", "b"])
        self.assertEqual(node.heard, ["ROSTER 0"] * 2 + ["ROSTER 1"] * 3)
        self.assertEqual(len({*node.datagrams}), 5)

    @mock.patch("wakdulg.operator.BUSY_PAUSE", 0.1)
    def test_a_node_that_stays_busy_refuses(self) -> None:
        node = self.node(["NO BUSY"])
        with self.assertRaisesRegex(NoReport, "the node refuses: NO BUSY"):
            self.ask(node, "ROSTER")
        node.stop()
        self.assertEqual(node.heard, ["ROSTER 0"] * operator.BUSY_TIMES)

    def test_a_busy_node_is_not_awaited_behind_the_deadline(self) -> None:
        node = self.node(["NO BUSY"])
        begin = time.monotonic()
        with self.assertRaisesRegex(NoReport, "NO BUSY"):
            operator.ask(KEY, node.address, 2, "STATUS", deadline=begin + 0.9)
        node.stop()
        self.assertEqual(node.heard, ["STATUS 0"])

    def test_files_of_keys(self) -> None:
        with tempfile.TemporaryDirectory() as folder:
            path = Path(folder) / "key"
            path.touch(0o600)
            for text, client in ("operator 900 " + "0a" * 32, 900), ("reader 1 " + "0A" * 16 + "\n", 1):
                path.write_text(text)
                self.assertEqual(operator.read_operator(str(path)).client, client)
            for text in "client 7 " + "0a" * 32, "operator 900", "operator 900 " + "0a" * 32 + "\n\n", "0a" * 32, "", \
                    "operator 65536 " + "0a" * 32, "operator 900 " + "0a" * 15, " operator 900 " + "0a" * 32:
                path.write_text(text)
                with self.assertRaises(ValueError, msg=text):
                    operator.read_operator(str(path))
            path.chmod(0o644)
            with self.assertRaisesRegex(ValueError, "chmod 600"):
                operator.read_operator(str(path))


class Nodes(unittest.TestCase):
    def test_lists(self) -> None:
        first, second = ("127.0.0.1", 1), ("10.0.0.2", 65535)
        self.assertEqual(wakdulg.read_list("127.0.0.1:1, 10.0.0.2:65535"), [(1, first), (2, second)])
        self.assertEqual(wakdulg.read_list("3=127.0.0.1:1 10.0.0.2:65535"), [(3, first), (2, second)])
        for text in "", " , ", "127.0.0.1:1,x", "0=127.0.0.1:1", "10=127.0.0.1:1", "1=1=127.0.0.1:1", "127.0.0.1:1\n=":
            with self.assertRaises(ValueError, msg=text):
                wakdulg.read_list(text)

    def test_a_node_stands_in_a_list_once(self) -> None:
        wakdulg.check_distinct(wakdulg.read_list("3=127.0.0.1:1,127.0.0.1:2"))
        for text in "127.0.0.1:1,127.0.0.1:1", "2=127.0.0.1:1,127.0.0.1:2", "1=127.0.0.1:1,1=127.0.0.1:1":
            with self.assertRaisesRegex(ValueError, "a node twice"):
                wakdulg.check_distinct(wakdulg.read_list(text))
