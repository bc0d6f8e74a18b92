#!/usr/bin/env python3
"""Tries wakdulg.c by the tests of the Python library: test_wakdulg_c.py [TEST..]

It compiles the library with the address and undefined-behaviour sanitizers of CC (cc), with -lcrypto of OpenSSL, and
calls it by ctypes. The address sanitizer has to be loaded before Python, so the script starts itself again under it. If CC
has none to load, as clang, the other one is taken alone.
"""
import ctypes
import os
import socket
import subprocess
import sys
import tempfile
import threading
import unittest
from pathlib import Path
from types import SimpleNamespace

sys.dont_write_bytecode = True
sys.path.insert(1, str(Path(__file__).resolve().parents[2] / "tools"))
import checkout
import wakdulg
from tests import test_wakdulg
from tests.fake_node import FakeNode

HERE = os.path.dirname(os.path.abspath(__file__))
CC = os.environ.get("CC", "cc")
KINDS = [None, wakdulg.Refused, wakdulg.Throttled, wakdulg.Undecided, wakdulg.BadField]


class ClusterFields(ctypes.Structure):
    """`struct wakdulg_cluster`. The address has the alignment of a number of 4 bytes."""
    _fields_ = [("nodes", ctypes.c_uint32 * 45), ("count", ctypes.c_size_t), ("way", ctypes.c_int),
                ("client", ctypes.c_uint16), ("key", ctypes.c_uint8 * 64), ("key_len", ctypes.c_size_t),
                ("again", ctypes.c_double), ("leave", ctypes.c_double), ("total", ctypes.c_double),
                ("avoid", ctypes.c_double), ("in_order", ctypes.c_bool), ("silent_until", ctypes.c_int64 * 9)]


class Answer(ctypes.Structure):
    _fields_ = [("outcome", ctypes.c_int), ("in_doubt", ctypes.c_bool), ("reason", ctypes.c_char * 16),
                ("number", ctypes.c_uint64)]


def address_sanitizer():
    """Returns the path of CC's address sanitizer, or None."""
    said, path = (subprocess.run([CC, word], stdout=subprocess.PIPE, text=True, check=True).stdout.strip()
                  for word in ("--version", "-print-file-name=libasan.so"))
    return path if os.path.isabs(path) and "clang" not in said else None


def is_under_sanitizer():
    """Returns whether this script was started under the address sanitizer."""
    return "libasan" in os.environ.get("LD_PRELOAD", "")


def start_under_sanitizer():
    """Starts this script again under the address sanitizer, if CC has one. Python's own leaks aren't told."""
    path = address_sanitizer()
    if path and not is_under_sanitizer():
        os.environ.update(LD_PRELOAD=path, ASAN_OPTIONS="detect_leaks=0")
        os.execv(sys.executable, [sys.executable, *sys.argv])


def compiled(folder):
    """Returns the library, compiled anew."""
    path = os.path.join(folder, "wakdulg.so")
    sanitizers = "address,undefined" if is_under_sanitizer() else "undefined"
    subprocess.run([CC, "-std=c11", "-Wall", "-Wextra", "-Werror", "-g", "-shared", "-fPIC", "-fsanitize=" + sanitizers,
                    "-fno-sanitize-recover=all", os.path.join(HERE, "wakdulg.c"), "-o", path, "-lcrypto"],
                   check=True, env={name: value for name, value in os.environ.items() if name != "LD_PRELOAD"})
    library = ctypes.CDLL(path)
    library.wakdulg_check.restype = library.wakdulg_resync.restype = Answer
    library.wakdulg_seal.restype = ctypes.c_size_t
    return library


class Cluster:
    """A cluster of the C library, as the tests call one."""

    def __init__(self, library, nodes, pauses=(1.0, 2.5), total=8.0, avoid=30.0, key=None):
        self.library, self.fields = library, ClusterFields()
        if library.wakdulg_set_nodes(ctypes.byref(self.fields), nodes.encode()) < 0:
            raise ValueError(nodes)
        self.fields.again, self.fields.leave = pauses
        self.fields.total, self.fields.avoid, self.fields.in_order = total, avoid, True
        if key is wakdulg.PLAIN_LINES:
            library.wakdulg_set_plain(ctypes.byref(self.fields))
        elif key:
            with tempfile.NamedTemporaryFile("w") as file:
                file.write(key._key.hex() + "\n")
                file.flush()
                self.set_key("%d:%s" % (key.client, file.name))

    def set_key(self, word):
        if self.library.wakdulg_set_key(ctypes.byref(self.fields), word.encode()) < 0:
            raise ValueError(word)

    def nodes(self):
        """The addresses of the nodes, in their order."""
        each = [bytes(self.fields.nodes)[20 * k:20 * k + 20] for k in range(self.fields.count)]
        return [(socket.inet_ntoa(node[8:12]), int.from_bytes(node[6:8], "big")) for node in each]

    @property
    def silent(self):
        """What stands for the memory of the Python library."""
        found = {node for node, until in zip(self.nodes(), self.fields.silent_until) if until}
        return SimpleNamespace(nodes=lambda: found)

    def order(self, _user):
        return sorted(self.nodes(), key=lambda node: node in self.silent.nodes())

    def submitted(self, call, *words):
        try:
            words = [None if word is None else word.encode() for word in words]
        except UnicodeEncodeError:
            # A test of Python's texts: C has bytes alone.
            raise wakdulg.BadField("no bytes") from None
        answer = call(ctypes.byref(self.fields), *words)
        reason = answer.reason.decode()
        if answer.outcome == 0:
            return wakdulg.Accepted(answer.number)
        kind = KINDS[answer.outcome]
        refusal = kind(answer.number) if kind is wakdulg.Throttled else kind(reason)
        refusal.in_doubt = answer.in_doubt
        raise refusal

    def check(self, user, code, password=None):
        return self.submitted(self.library.wakdulg_check, user, code, password)

    def resync(self, user, code, next_code, password=None):
        return self.submitted(self.library.wakdulg_resync, user, code, next_code, password)


class Tests(test_wakdulg.Tests):
    @classmethod
    def setUpClass(cls):
        cls.folder = tempfile.TemporaryDirectory()
        cls.library = compiled(cls.folder.name)

    @classmethod
    def tearDownClass(cls):
        cls.folder.cleanup()

    def made(self, nodes, settings):
        return Cluster(self.library, nodes, **settings)

    def sealed(self, key, kind, node, moment, bound, text):
        cluster, data = Cluster(self.library, "127.0.0.1:1", key=key), ctypes.create_string_buffer(512)
        size = self.library.wakdulg_seal(ctypes.byref(cluster.fields), ctypes.c_uint8(kind), ctypes.c_uint8(node),
                                         ctypes.c_uint64(moment), bound, text, ctypes.c_size_t(len(text)), data)
        return data.raw[:size]

    def test_vectors_of_sealed_datagrams(self):
        key = wakdulg.Key(258, bytes(32))
        line = self.sealed(key, 1, 2, 1000000, None, b"CHECK k1 ann 755224 -")
        self.assertEqual(line, key.seal(b"CHECK k1 ann 755224 -", 2, moment=1000000))
        answer = self.sealed(key, 2, 2, 1000000, line[-32:], b"OK k1 0")
        self.assertEqual(answer, key.seal(b"OK k1 0", 2, 2, 1000000, line[-32:]))

    def test_a_line_is_sealed_for_each_node_and_for_each_sending(self):
        silent, good = FakeNode([], [], key=test_wakdulg.KEY), FakeNode([], ["OK {} 3"], key=test_wakdulg.KEY, number=2)
        cluster = self.cluster(silent, good, pauses=test_wakdulg.SHORT, key=test_wakdulg.KEY)
        self.assertEqual(cluster.check("ann", "123456").factor, 3)
        sent = silent.datagrams + good.datagrams
        self.assertEqual((len({*silent.heard, *good.heard}), len(sent), len({data[7:15] for data in sent})), (1, 4, 4))

    def test_a_node_that_opens_nothing_is_silent_and_the_refusal_says_where_to_look(self):
        cluster = self.cluster(FakeNode(["OK {} 1"]), pauses=(0.2, 0.5), key=test_wakdulg.KEY)
        self.assertEqual(str(self.refusal(cluster, wakdulg.Undecided)), "SILENT (in doubt)")

    def test_keys_and_their_files(self):
        with tempfile.NamedTemporaryFile("w+") as file:
            for text, is_good in (("00" * 32 + "\n", True), ("aB" * 16, True), ("00" * 64 + "\n", True), ("00" * 15, False),
                                  ("00" * 65, False), ("", False), ("0" * 33, False), ("zz" * 16, False),
                                  ("00" * 16 + "\n\n", False), ("00 " * 16, False)):
                file.seek(0)
                file.truncate()
                file.write(text)
                file.flush()
                made = Cluster(self.library, "127.0.0.1:1")
                if is_good:
                    made.set_key("7:" + file.name)
                    self.assertEqual(bytes(made.fields.key[:made.fields.key_len]).hex(), text.strip().lower())
                else:
                    with self.assertRaises(ValueError, msg=text):
                        made.set_key("7:" + file.name)
            file.seek(0)
            file.truncate()
            file.write("00" * 32 + "\n")
            file.flush()
            for mode, is_good in (0o400, True), (0o640, True), (0o604, False), (0o620, False), (0o602, False):
                os.chmod(file.name, mode)
                if is_good:
                    Cluster(self.library, "127.0.0.1:1").set_key("7:" + file.name)
                else:
                    with self.assertRaises(ValueError, msg="%o" % mode):
                        Cluster(self.library, "127.0.0.1:1").set_key("7:" + file.name)
            os.chmod(file.name, 0o600)
            for word in file.name, ":" + file.name, "65536:" + file.name, "-1:" + file.name, "x:" + file.name, "7:/none":
                with self.assertRaises(ValueError, msg=word):
                    Cluster(self.library, "127.0.0.1:1").set_key(word)
        for nodes in "127.0.0.1:1,127.0.0.1:1", "2=127.0.0.1:1,127.0.0.1:2":
            with self.assertRaises(ValueError, msg=nodes):
                Cluster(self.library, nodes, key=test_wakdulg.KEY)

    def test_nodes_and_order(self):
        made = Cluster(self.library, "127.0.0.1:1, 10.0.0.2:65535 3=127.0.0.1:3")
        self.assertEqual([bytes(made.fields.nodes)[20 * k] for k in range(made.fields.count)], [1, 2, 3])
        self.assertEqual(made.nodes(), [("127.0.0.1", 1), ("10.0.0.2", 65535), ("127.0.0.1", 3)])
        for text in ("", "127.0.0.1", "localhost:1", "127.0.0.1:0", "127.0.0.1:65536", "[::1]:1", "127.0.0.1:x",
                     "127.1:5", "0=127.0.0.1:1", ",".join(["127.0.0.1:1"] * 10)):
            with self.assertRaises(ValueError, msg=text):
                Cluster(self.library, text)

    def test_moments_do_not_come_again(self):
        node = FakeNode(["OK {} 1"], key=test_wakdulg.KEY)
        cluster = self.cluster(node, key=test_wakdulg.KEY)
        threads = [threading.Thread(target=cluster.check, args=("ann", "123456")) for _ in range(64)]
        for thread in threads:
            thread.start()
        for thread in threads:
            thread.join()
        self.assertEqual(len({data[7:15] for data in node.datagrams}), len(node.datagrams))

    def test_without_a_key_no_line_is_sent(self):
        node = FakeNode(["OK {} 1"])
        self.addCleanup(node.stop)
        made = Cluster(self.library, "%s:%d" % node.address)
        self.assertEqual(str(self.refusal(made, wakdulg.Undecided)), "NO KEY")
        with self.assertRaises(ValueError):
            made.set_key("7:/none")
        self.assertEqual(str(self.refusal(made, wakdulg.Undecided)), "NO KEY")
        # A key that can't be set takes the former one away.
        made = Cluster(self.library, "%s:%d" % node.address, key=test_wakdulg.KEY)
        with self.assertRaises(ValueError):
            made.set_key("7:/none")
        self.assertEqual((str(self.refusal(made, wakdulg.Undecided)), node.heard), ("NO KEY", []))

    @unittest.skipUnless(os.geteuid() == 0, "root alone gives a file to another user")
    def test_a_key_file_of_another_user_is_none(self):
        with tempfile.NamedTemporaryFile("w") as file:
            file.write("00" * 32 + "\n")
            file.flush()
            os.chown(file.name, 65534, -1)
            with self.assertRaises(ValueError):
                Cluster(self.library, "127.0.0.1:1").set_key("7:" + file.name)
            os.chown(file.name, 0, -1)
            Cluster(self.library, "127.0.0.1:1").set_key("7:" + file.name)

    # They are about what the Python library alone has.
    test_a_name_forges_no_line_of_a_log = test_silent_nodes_are_kept_for_other_processes = None


if __name__ == "__main__":
    start_under_sanitizer()
    unittest.main()
