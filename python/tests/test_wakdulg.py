"""Tries the client beside fake nodes, which lose, repeat, cut, forge and refuse.

It takes some seconds, also on a busy machine: a test that waits for an answer waits long, and only those in which
nobody answers have short pauses. examples/clients/test_wakdulg_c.py tries the library in C by the same tests.
"""
from __future__ import annotations

import hashlib
import os
import socket
import stat
import tempfile
import threading
import time
import unittest
from concurrent.futures import ThreadPoolExecutor
from typing import Any
from unittest import mock

import wakdulg
from tests.fake_node import NO_ANSWERS, FakeNode

PATIENT: dict[str, Any] = {"pauses": (0.2, 30.0), "total": 60.0, "avoid": 300.0, "key": wakdulg.PLAIN_LINES}
KEY, OTHER = wakdulg.Key(7, bytes(range(32))), wakdulg.Key(8, bytes(range(1, 33)))
SHORT = (0.3, 1.5)


class InOrder(wakdulg.Cluster):
    """A client that asks the nodes in the order in which they stand, whoever the user is."""

    def order(self, user: str) -> list[wakdulg.Node]:
        return sorted(self.nodes, key=lambda node: node in self.silent.nodes())


class Tests(unittest.TestCase):
    def cluster(self, *nodes: FakeNode, **settings: Any) -> wakdulg.Cluster:
        """Returns the client of these nodes, which asks them in this order."""
        for node in nodes:
            self.addCleanup(node.stop)
        return self.made(",".join("%s:%d" % node.address for node in nodes), {**PATIENT, **settings})

    def made(self, nodes: str, settings: dict[str, Any]) -> wakdulg.Cluster:
        return InOrder(nodes, **settings)

    def refusal(
        self,
        cluster: wakdulg.Cluster,
        kind: type[wakdulg.Refused] = wakdulg.Refused,
        user: str = "ann",
        code: str = "123456",
        password: str | None = None,
    ) -> wakdulg.Refused:
        """Returns what a check raised, which has to be of this very kind."""
        with self.assertRaises(wakdulg.Refused) as caught:
            cluster.check(user, code, password)
        self.assertIs(type(caught.exception), kind)
        return caught.exception

    def test_the_line_and_the_answers(self) -> None:
        for answer, kind in (("INVALID", wakdulg.Refused), ("PASSWORD", wakdulg.Refused), ("UNKNOWN", wakdulg.Refused),
                             ("EXHAUSTED", wakdulg.Refused), ("THROTTLED 25", wakdulg.Throttled)):
            first, second = FakeNode(["NO {} " + answer]), FakeNode(["OK {} 3"])
            refusal = self.refusal(self.cluster(first, second), kind)
            self.assertEqual((str(refusal), refusal.in_doubt, second.heard), (answer, False, []))
            self.assertRegex(first.heard[0], "^CHECK [0-9a-z]{20} ann 123456 -$")
        throttled = self.refusal(self.cluster(FakeNode(["NO {} THROTTLED 25"])), wakdulg.Throttled)
        self.assertEqual(vars(throttled)["seconds"], 25)
        self.assertEqual(self.refusal(self.cluster(FakeNode(["NO - BADLINE"]))).reason, "BADLINE")
        self.assertEqual(str(self.refusal(self.cluster(FakeNode(["NO {} SPENT"])))), "SPENT (in doubt)")
        node = FakeNode(["OK {} 0"])
        accepted = self.cluster(node).resync("ann", "123456", "234567", "pw")
        self.assertTrue(accepted)
        self.assertEqual((accepted.factor, str(accepted)), (0, "OK 0"))
        self.assertRegex(node.heard[0], "^RESYNC [0-9a-z]{20} ann 123456 234567 pw$")

    def test_a_lost_datagram_is_sent_again_byte_for_byte_from_the_same_port(self) -> None:
        node = FakeNode([], ["OK {} 1"])
        self.assertEqual(self.cluster(node).check("ann", "123456").factor, 1)
        self.assertEqual((len(node.heard), len(set(node.heard)), len(set(node.senders))), (2, 1, 1))

    def test_a_late_answer_is_heard(self) -> None:
        node = FakeNode([0.6, "OK {} 1"], ["OK {} 1"])
        self.assertEqual(self.cluster(node).check("ann", "123456").factor, 1)

    def test_duplicates_and_answers_to_other_lines_are_passed_over(self) -> None:
        node = FakeNode(["OK 00000000000000000000 1", "NO {} INVALID", "NO {} INVALID"], ["OK {} 2", "OK {} 2"])
        cluster = self.cluster(node)
        self.assertEqual(self.refusal(cluster).reason, "INVALID")
        self.assertEqual(cluster.check("ann", "234567").factor, 2)
        self.assertEqual(len({line.split(" ")[1] for line in node.heard}), 2)

    def test_malformed_answers_are_none(self) -> None:
        node = FakeNode(NO_ANSWERS, NO_ANSWERS + ["NO {} SPENT"])
        self.assertEqual(self.refusal(self.cluster(node)).reason, "SPENT")
        for data in NO_ANSWERS:
            self.assertFalse(wakdulg.is_answer(data.replace(b"{}", b"n"), b"n"), data)

    def test_a_foreign_socket_is_not_heard(self) -> None:
        with socket.socket(socket.AF_INET, socket.SOCK_DGRAM) as foreign:

            def forge(sender: Any, nonce: bytes) -> None:
                foreign.sendto(b"OK %b 1" % nonce, sender)
                time.sleep(0.05)

            self.assertEqual(self.refusal(self.cluster(FakeNode([forge, "NO {} INVALID"]))).reason, "INVALID")

    def test_a_silent_node_is_left_and_asked_last_from_then_on(self) -> None:
        silent, good = FakeNode([]), FakeNode(["NO {} INVALID"], ["OK {} 3"])
        cluster = self.cluster(silent, good, pauses=SHORT)
        begin = time.monotonic()
        self.assertEqual(str(self.refusal(cluster)), "INVALID (in doubt)")
        self.assertGreaterEqual(time.monotonic() - begin, SHORT[1])
        self.assertEqual(set(silent.heard), set(good.heard))
        heard = len(silent.heard)
        self.assertEqual(cluster.check("ann", "234567").factor, 3)
        self.assertEqual((len(silent.heard), cluster.order("ann")[-1]), (heard, silent.address))

    def test_where_nobody_is_there_the_next_is_asked_at_once(self) -> None:
        gone, good = FakeNode([]), FakeNode(["OK {} 3"])
        cluster = self.cluster(gone, good)
        gone.stop()
        begin = time.monotonic()
        self.assertEqual(cluster.check("ann", "123456").factor, 3)
        self.assertLess(time.monotonic() - begin, 20)

    def test_who_never_took_the_line_leaves_no_doubt(self) -> None:
        gone, good = FakeNode([]), FakeNode(["NO {} INVALID"])
        gone.stop()
        self.assertEqual(str(self.refusal(self.cluster(gone, good))), "INVALID")
        self.assertEqual(str(self.refusal(self.cluster(gone), wakdulg.Undecided)), "SILENT")

    def test_who_took_the_line_and_then_was_gone_leaves_a_doubt(self) -> None:
        node, good = FakeNode([]), FakeNode(["NO {} INVALID"])
        node.replies = [[lambda sender, nonce: threading.Thread(target=node.stop).start()]]
        self.assertEqual(str(self.refusal(self.cluster(node, good))), "INVALID (in doubt)")
        self.assertEqual(len(node.heard), 1)

    def test_answers_about_the_node_go_on(self) -> None:
        for reason in wakdulg.OF_THE_NODE:
            busy, good = FakeNode(["NO {} " + reason]), FakeNode(["OK {} 3"])
            self.assertEqual(self.cluster(busy, good).check("ann", "123456").factor, 3)
            self.assertEqual(busy.heard[0], good.heard[0])
            refusal = self.refusal(self.cluster(FakeNode(["NO {} " + reason])), wakdulg.Undecided)
            self.assertEqual((refusal.reason, refusal.in_doubt), (reason, reason == "TIMEOUT"))
        busy, gone = FakeNode(["NO {} BUSY"]), FakeNode([])
        cluster = self.cluster(busy, gone)
        gone.stop()
        self.assertEqual(str(self.refusal(cluster, wakdulg.Undecided)), "BUSY")

    def test_silence_of_all_ends_in_time(self) -> None:
        nodes = [FakeNode([]) for _ in range(3)]
        cluster = self.cluster(*nodes, pauses=(0.3, 0.6), total=0.9)
        begin = time.monotonic()
        self.assertEqual(str(self.refusal(cluster, wakdulg.Undecided)), "SILENT (in doubt)")
        self.assertTrue(0.9 <= time.monotonic() - begin < 20)
        # The second had less than its time, and the third was not asked: neither is asked last for it.
        self.assertEqual((cluster.silent.nodes(), nodes[2].heard), ({nodes[0].address}, []))

    def test_garbage_does_not_hold_a_call_beyond_its_time(self) -> None:
        def flood(sender: Any, nonce: bytes) -> None:
            for _ in range(200):
                node.port.sendto(b"x", sender)

        node = FakeNode([flood])
        begin = time.monotonic()
        self.refusal(self.cluster(node, total=0.3), wakdulg.Undecided)
        self.assertTrue(0.3 <= time.monotonic() - begin < 20)

    def test_fields_that_cannot_be_asked_for_are_not_sent(self) -> None:
        node = FakeNode(["OK {} 1"])
        cluster = self.cluster(node)
        for user, code, password in (
                ("", "123456", None), ("a b", "123456", None), ("a\n", "123456", None), ("a\t", "123456", None),
                ("a" * 65, "123456", None), ("\u00e9" * 33, "123456", None), ("\udc80", "123456", None),
                ("ann", "12345", None), ("ann", "123456789", None), ("ann", "12345\uff16", None),
                ("ann", "123456\n", None), ("ann", "123456 -", None), ("ann", "123456", ""), ("ann", "123456", "-"),
                ("ann", "123456", "-\n"), ("ann", "123456", "p w"), ("ann", "123456", "p" * 65)):
            self.refusal(cluster, wakdulg.BadField, user, code, password)
        self.assertEqual(node.heard, [])
        self.assertTrue(cluster.check("\u00e9" * 32, "12345678", "-" + "p" * 63))

    def test_threads_do_not_hear_each_other(self) -> None:
        cluster = self.cluster(FakeNode(["OK {} []"]))
        with ThreadPoolExecutor(64) as threads:
            factors = list(threads.map(lambda k: cluster.check(str(k), "123456").factor, range(256)))
        self.assertEqual(factors, list(range(256)))

    def test_nodes_and_order(self) -> None:
        cluster = wakdulg.Cluster("127.0.0.1:1, 10.0.0.2:65535 127.0.0.1:3", key=wakdulg.PLAIN_LINES)
        self.assertEqual(cluster.nodes, [("127.0.0.1", 1), ("10.0.0.2", 65535), ("127.0.0.1", 3)])
        for text in ("", "127.0.0.1", "localhost:1", "127.0.0.1:0", "127.0.0.1:65536", "[::1]:1", "127.0.0.1:x",
                     "127.1:5"):
            with self.assertRaises(ValueError, msg=text):
                wakdulg.Cluster(text, key=wakdulg.PLAIN_LINES)
        self.assertEqual({cluster.order("u%d" % k)[0] for k in range(20)}, set(cluster.nodes))
        self.assertEqual(cluster.order("ann"), cluster.order("ann"))

    def test_vectors_of_sealed_datagrams(self) -> None:
        key, line, moment = wakdulg.Key(258, bytes(32)), b"CHECK k1 ann 755224 -", 1000000
        data = key.seal(line, 2, moment=moment)
        self.assertEqual(data[:15].hex(), "4f530101010202" "00000000000f4240")
        self.assertEqual(data[-32:].hex(), "1826527d092e827b43da651ce435ffb7e283a810ee64a5cd927555f3b8c2d844")
        answer = key.seal(b"OK k1 0", 2, key.ANSWER, moment, data[-32:])
        self.assertEqual(answer[-32:].hex(), "faf24c1682c6a296996f2e7463fd93930c75e1dd9831f4c21102b1db626e591a")
        self.assertEqual(key.open(answer, 2, data[-32:]), b"OK k1 0")
        for place in range(len(answer)):
            changed = bytearray(answer)
            changed[place] ^= 1
            self.assertIsNone(key.open(bytes(changed), 2, data[-32:]), place)
        for wrong in answer[:-1], answer + b"\0", b"", bytes(400), data:
            self.assertIsNone(key.open(wrong, 2, data[-32:]))
        self.assertIsNone(key.open(answer, 2, bytes(32)))
        self.assertIsNone(key.open(answer, 1, data[-32:]))

    def test_a_line_is_sealed_for_each_node_and_for_each_sending(self) -> None:
        silent, busy = FakeNode([], [], key=KEY), FakeNode(["NO {} BUSY"], key=KEY, number=2)
        good = FakeNode([], ["OK {} 3"], key=KEY, number=3)
        cluster = self.cluster(silent, busy, good, pauses=SHORT, key=KEY)
        self.assertEqual(cluster.check("ann", "123456").factor, 3)
        self.assertEqual(len({*silent.heard, *busy.heard, *good.heard}), 1)
        sent = silent.datagrams + busy.datagrams + good.datagrams
        self.assertEqual((len(sent), len({data[7:15] for data in sent})), (5, 5))
        self.assertTrue(all(cluster.answers(node) for node in (busy.address, good.address)))

    def test_only_an_answer_that_is_sealed_for_the_line_counts(self) -> None:
        last: list[bytes] = []

        def forge(sender: Any, nonce: bytes) -> None:
            data, text = node.datagrams[-1], b"OK %b 1" % nonce
            moment = int.from_bytes(data[7:15], "big")
            forged = [text, OTHER.seal(text, 1, OTHER.ANSWER, moment, data[-32:]),
                      KEY.seal(text, 2, KEY.ANSWER, moment, data[-32:]), KEY.seal(text, 1, KEY.ANSWER, moment),
                      KEY.seal(text, 1, KEY.LINE, moment, data[-32:]),
                      KEY.seal(text, 1, KEY.ANSWER, moment + 1, data[-32:]),
                      wakdulg.Key(7, bytes(32)).seal(text, 1, KEY.ANSWER, moment, data[-32:]), data, b"OS", *last]
            for each in forged:
                node.port.sendto(each, sender)
            last.append(KEY.seal(text, 1, KEY.ANSWER, moment, data[-32:]))

        node = FakeNode([forge, b"NO {} INVALID"], key=KEY)
        cluster = self.cluster(node, key=KEY)
        for _ in range(3):
            self.assertEqual(str(self.refusal(cluster)), "INVALID")
        self.assertEqual(len(last), 3)

    def test_a_node_that_opens_nothing_is_silent_and_the_refusal_says_where_to_look(self) -> None:
        spoofer = FakeNode(["OK {} 1"])
        refusal = self.refusal(self.cluster(spoofer, pauses=(0.2, 0.5), key=KEY), wakdulg.Undecided)
        self.assertEqual(str(refusal), "SILENT (in doubt): look at the key, at its number, and at this machine's clock")

    def test_an_answer_to_an_earlier_sending_counts(self) -> None:
        node = FakeNode([0.5, "OK {} 1"], [], key=KEY)
        self.assertEqual(self.cluster(node, key=KEY).check("ann", "123456").factor, 1)

    def test_keys_and_their_files(self) -> None:
        with tempfile.TemporaryDirectory() as folder:
            path = os.path.join(folder, "key")
            for text, is_good in (("00" * 32 + "\n", True), ("aB" * 16, True), ("00" * 64, True), ("00" * 15, False),
                                  ("00" * 65, False), ("", False), ("0" * 33, False), ("zz" * 16, False),
                                  ("00" * 16 + "\n\n", False), ("00 " * 16, False)):
                with open(path, "w") as file:
                    os.chmod(path, 0o600)
                    file.write(text)
                if is_good:
                    self.assertEqual(repr(wakdulg.read_key("7:" + path)), "Key(7, ..)")
                else:
                    with self.assertRaises(ValueError, msg=text):
                        wakdulg.read_key("7:" + path)
            for mode, is_good in (0o400, True), (0o640, True), (0o604, False), (0o620, False), (0o602, False):
                with open(path, "w") as file:
                    os.chmod(path, mode)
                    file.write("00" * 32 + "\n")
                if is_good:
                    self.assertEqual(wakdulg.read_key("7:" + path).client, 7)
                else:
                    with self.assertRaises(ValueError, msg="%o" % mode):
                        wakdulg.read_key("7:" + path)
                os.chmod(path, 0o600)
            for word in path, ":" + path, "65536:" + path, "-1:" + path, "x:" + path:
                with self.assertRaises(ValueError, msg=word):
                    wakdulg.read_key(word)
            with open(path, "w") as file:
                file.write("00" * 32 + "\n")
            self.assertEqual(repr(wakdulg.key_of("7:" + path, False)), "Key(7, ..)")
            self.assertIs(wakdulg.key_of(None, True), wakdulg.PLAIN_LINES)
            for words in ("7:" + path, True), (None, False), ("", False):
                with self.assertRaises(ValueError, msg=words):
                    wakdulg.key_of(*words)
        for nodes in "127.0.0.1:1,127.0.0.1:1", "2=127.0.0.1:1,127.0.0.1:2", "0=127.0.0.1:1":
            with self.assertRaises(ValueError, msg=nodes):
                wakdulg.Cluster(nodes, key=KEY)
        cluster = wakdulg.Cluster("3=127.0.0.1:1 1=127.0.0.1:2", key=KEY)
        self.assertEqual([cluster._numbers[node] for node in cluster.nodes], [3, 1])

    def test_without_a_key_no_line_is_sent(self) -> None:
        node = FakeNode(["OK {} 1"])
        self.addCleanup(node.stop)
        wrong: list[dict[str, Any]] = [{}, {"key": None}, {"key": ""}, {"key": False}]
        for words in wrong:
            with self.assertRaisesRegex(ValueError, "no key: "):
                wakdulg.Cluster("%s:%d" % node.address, **words)
        self.assertEqual(node.heard, [])

    def test_a_key_file_of_another_user_is_none(self) -> None:
        with tempfile.TemporaryDirectory() as folder:
            path = os.path.join(folder, "key")
            with open(path, "w") as file:
                os.chmod(path, 0o600)
                file.write("00" * 32 + "\n")
            about = os.stat(path)
            for owner, is_good in (about.st_uid, True), (0, True), (65534, False), (about.st_uid + 1, False):
                # Root alone may give a file away, so that the system tells of another owner here.
                told = os.stat_result([owner if place == stat.ST_UID else each for place, each in enumerate(about)])
                with mock.patch("os.fstat", return_value=told):
                    if is_good:
                        self.assertEqual(wakdulg.read_key("7:" + path).client, 7)
                    else:
                        with self.assertRaisesRegex(ValueError, "neither this user's nor root's"):
                            wakdulg.read_key("7:" + path)

    def test_silent_nodes_are_kept_for_other_processes(self) -> None:
        silent, good = FakeNode([]), FakeNode(["OK {} 1"], ["OK {} 2"], ["OK {} 3"])
        for node in silent, good:
            self.addCleanup(node.stop)
        nodes = ",".join("%s:%d" % node.address for node in (silent, good))
        # A user whose own node is the silent one.
        user = next(name for name in map(str, range(99)) if hashlib.sha256(name.encode()).digest()[0] % 2 == 0)
        with tempfile.TemporaryDirectory() as folder:
            path = os.path.join(folder, "silent")

            def each(**more: Any) -> wakdulg.Cluster:
                settings: dict[str, Any] = {**PATIENT, "pauses": SHORT, "memory": path, **more}
                return wakdulg.Cluster(nodes, **settings)

            self.assertEqual(each().check(user, "123456").factor, 1)
            heard = len(silent.heard)
            self.assertEqual(each().check(user, "123456").factor, 2)
            self.assertEqual((len(silent.heard), each().order(user)[-1]), (heard, silent.address))
            # Whoever answers again is forgotten, and so is what no process can have written.
            each().silent.note(silent.address, False)
            self.assertEqual(each().order(user)[0], silent.address)
            forever = '[["127.0.0.1", %d, 1e300]]' % silent.address[1]
            for text in "", "[", "[1]", '[["127.0.0.1", 1]]', '{"a": 1}', forever, "\x00" * 9, "[" * 4096:
                with open(path, "w") as file:
                    file.write(text)
                self.assertEqual(each().silent.nodes(), set(), text)
            self.assertEqual(each(memory="/none/silent", pauses=(0.1,)).check(user, "123456").factor, 3)

    def test_moments_do_not_come_again(self) -> None:
        with ThreadPoolExecutor(16) as threads:
            moments = list(threads.map(lambda _: KEY.moment(), range(2000)))
        self.assertEqual(len({*moments}), 2000)

    def test_a_name_forges_no_line_of_a_log(self) -> None:
        outcomes: list[tuple[wakdulg.Accepted | wakdulg.Refused, str]] = [
            (wakdulg.Accepted(7), "accepted from=192.0.2.9 OK 7"),
            (wakdulg.Refused("INVALID", True), "refused from=192.0.2.9 INVALID (in doubt)")]
        for outcome, said in outcomes:
            self.assertEqual(wakdulg.log_line("192.0.2.9", 'a" b\n\u00e9', outcome), said + r' user="a\" b\n\u00e9"')
        self.assertEqual(wakdulg.log_line("a b\n", "ann", wakdulg.Accepted(7)), 'accepted from=a?b? OK 7 user="ann"')
        self.assertEqual(wakdulg.log_line(None, "ann", wakdulg.Accepted(7)), 'accepted from=- OK 7 user="ann"')
