#!/usr/bin/env python3
"""Tries floors-from-logs over logs of every kind, and over that of a real node: test_floors_from_logs.py [TEST..]

OATHD is the program, else ./oathd. The node serves on 127.0.0.1 and is ended.
"""
import os
import socket
import stat
import subprocess
import sys
import tempfile
import time
import unittest
from pathlib import Path

sys.dont_write_bytecode = True
from checkout import TOP
from net import free_port
from otp import RFC_KEY, rfc_code

OATHD = os.environ.get("OATHD", str(TOP / "oathd"))
FROM = "from=127.0.0.1:40001"
USERS = "# remark\nHOTP ann - 3132 5\nHOTP/T30\tbob\t-\t3133\nHOTP/E/8 c\"\\x + 3134\n"


def start(node, boot, of=2):
    return "start node=%d of=%d at=127.0.0.1:7101 boot=%d tokens=3 fingerprint=0011223344556677\n" % (node, of, boot)


def accepted(user, factor):
    return "accepted %s OK n1 %d user=\"%s\"\n" % (FROM, factor, user)


class Case(unittest.TestCase):
    def setUp(self):
        folder = tempfile.TemporaryDirectory()
        self.addCleanup(folder.cleanup)
        self.folder, self.new = Path(folder.name), Path(folder.name) / "new"

    def put(self, name, text):
        (self.folder / name).write_text(text)
        return self.folder / name

    def run_it(self, *words, users=USERS):
        """What it prints, what it says on standard error, and its status."""
        done = subprocess.run([TOP / "tools/floors-from-logs", self.put("users", users), *words, "--output", self.new],
                              capture_output=True, text=True)
        self.assertNotIn("Traceback", done.stderr)
        return done.stdout, done.stderr, done.returncode

    def counters(self, *words, users=USERS):
        """The fifth field of each event token of the new file."""
        printed, said, status = self.run_it(*words, users=users)
        self.assertEqual((said, status), ("", 0))
        lines = [line.split("\t") for line in self.new.read_text().splitlines()]
        self.assertEqual(stat.S_IMODE(self.new.stat().st_mode), 0o600)
        self.new.unlink()
        return [int(fields[4]) for fields in lines if len(fields) == 5]

    def refused(self, name, *words, users=USERS):
        """What it says of a fault, after which there is no new file."""
        printed, said, status = self.run_it(*words, users=users)
        self.assertEqual((printed, status), ("", 1), said)
        self.assertIn(": %s: " % name, said)
        self.assertFalse(self.new.exists())
        return said

    def logs(self, first, second=None):
        """Two logs: what follows the start of the first node, and that of the second, or what it is."""
        return self.put("log.1", start(1, 1) + first), self.put("log.2", start(2, 1) if second is None else second)


class Counters(Case):
    def test_a_client_of_the_clients_file(self):
        first, second = self.logs(accepted("ann", 7).replace(FROM, "from=client:65535"))
        self.assertEqual(self.counters(first, second), [8, 0])

    def test_lines_of_a_minute_and_of_a_flood(self):
        lines = "unopened form=1 tag=12 late=3\nolder member=2 boot=4711\ndiffers member=3\nroster rows=3 enrolled=0 retired=1 book=4a7512ffe7c9b201\n"
        lines += "fell member=2 name=0123456789abcdef0123456789abcdef\n"
        lines += "reload refused line=7 BadSecret\nreload refused NoTokens\nshared secret rows=3,7\n"
        lines += "refused %s NO - BADLINE\nbadline more=4\n%send received=9 replied=6\n" % (FROM, accepted("ann", 7))
        self.assertEqual(self.counters(*self.logs(lines)), [8, 0])
        self.refused("Lines", *self.logs(lines.replace("more=4", "more=5")))
        self.refused("UnknownLine", *self.logs("unopened\n"))

    def test_rows_with_one_secret_before_the_first_start(self):
        line = "shared secret rows=1,2\n"
        log = self.put("log.1", line + start(1, 1) + accepted("ann", 7) + line + start(1, 2))
        self.assertEqual(self.counters(log, self.put("log.2", line + start(2, 1))), [8, 0])
        self.refused("NoStart", self.put("log.1", line + accepted("ann", 7)), self.put("log.2", start(2, 1)))

    def test_rows_without_room_before_the_first_start(self):
        lines = "enrol refused Full\nenrol left line=3 user=cid\nenrol left line=4 user=d??n x=\n"
        log = self.put("log.1", lines + start(1, 1) + accepted("ann", 7) + lines + start(1, 2))
        self.assertEqual(self.counters(log, self.put("log.2", lines + start(2, 1))), [8, 0])
        self.refused("NoStart", self.put("log.1", lines + accepted("ann", 7)), self.put("log.2", start(2, 1)))
        self.refused("UnknownLine", self.put("log.1", start(1, 1) + "enrol refused Fully\n"), self.put("log.2", start(2, 1)))

    def test_the_greatest_of_all_says(self):
        logs = self.logs(accepted("ann", 9) + accepted("ann", 8), start(2, 1) + accepted("ann", 11) + start(2, 2))
        self.assertEqual(self.counters(*logs), [12, 0])
        self.assertEqual(self.counters(*self.logs(accepted("ann", 3))), [5, 0])
        self.assertEqual(self.counters(*self.logs(accepted("ann", 4))), [5, 0])
        self.assertEqual(self.counters(*self.logs(accepted("ann", 5))), [6, 0])

    def test_names_are_read_as_the_log_writes_them(self):
        self.assertEqual(self.counters(*self.logs(accepted("c\\x22\\x5cx", 0))), [5, 1])

    def test_a_last_password(self):
        users = "HOTP ann - %s 1 %s\nHOTP bob - %s 1 000000\n" % (RFC_KEY.hex(), rfc_code(1), RFC_KEY.hex())
        self.assertEqual(self.counters(*self.logs(""), users=users), [2, 1])

    def test_floors_of_those_that_are_left_and_a_margin(self):
        floors = self.put("floors.1", "floors 1 1 2 3 1780000000 3\nann 40\nbob 59000000\nc\"\\x 2\n")
        logs = self.logs(accepted("ann", 9))
        self.assertEqual(self.counters(*logs, "--floors", floors), [40, 2])
        self.assertEqual(self.counters(*logs, "--margin", "11"), [21, 11])
        self.assertEqual(self.counters(*logs, "--margin", str(2 ** 62)), [2 ** 62, 2 ** 62])
        self.refused("NotFloors", *logs, "--floors", self.put("floors.1", "floors 1 1 2 3 1780000000 3\nann 40\n"))

    def test_other_lines_stay(self):
        self.run_it(*self.logs(accepted("ann", 9)))
        self.assertEqual(self.new.read_text(), "# remark\nHOTP\tann\t-\t3132\t10\nHOTP/T30\tbob\t-\t3133\nHOTP/E/8\tc\"\\x\t+\t3134\t0\n")

    def test_what_is_explained(self):
        logs = self.logs(accepted("ann", 9))
        self.assertEqual(self.run_it(*logs, "--explain", "--margin", "2")[0], """\
node 1: 2 lines from {0} line 1 to boot 1
node 2: 1 lines from {1} line 1 to boot 1
ann: counter 12, by {0} line 2 and 2 more
bob: time token, begins after the step of its import
c"\\x: counter 2, by {2} line 4 and 2 more
""".format(*logs, self.folder / "users"))

    def test_a_syslog(self):
        logs = self.logs(accepted("ann", 9))
        for log in logs:
            log.write_text("".join("Nov 26 13:00:01 host oathd[77]: " + line for line in log.read_text().splitlines(True)))
        self.assertEqual(self.counters(*logs, "--syslog"), [10, 0])
        self.refused("NoStart", *logs)
        self.refused("NotSyslog", *self.logs(""), "--syslog")

    def test_a_file_that_is_there_stays(self):
        self.new.write_text("mine")
        self.assertEqual(self.run_it(*self.logs(""))[2], 1)
        self.assertEqual(self.new.read_text(), "mine")


class Faults(Case):
    def test_lines_that_no_log_has(self):
        for line in ("accepted", accepted("ann", 5)[:-1] + " \n", accepted('a"b', 5), accepted("ann", 5).replace("OK n1 5", "OK n1 05"),
                     "accepted %s OK n1 5 user=ann\n" % FROM, accepted("ann", 5).rstrip("\n") + start(1, 2), "\n"):
            self.assertIn("log.1 line 3: ", self.refused("UnknownLine", *self.logs(accepted("ann", 4) + line.rstrip("\n") + "\n")))

    def test_a_cut_line(self):
        self.assertIn("log.1 line 2: ", self.refused("NoEnd", *self.logs(accepted("ann", 5)[:-1])))

    def test_acceptances_of_nobody(self):
        self.assertIn("log.1 line 2: ", self.refused("NoUser", *self.logs("accepted %s OK n1 5\n" % FROM)))
        logs = self.logs(accepted("dan", 5))
        self.assertIn("log.1 line 2: ", self.refused("NoUser", *logs))
        self.assertEqual(self.counters(*logs, "--gone", "dan"), [5, 0])

    def test_logs_that_lack(self):
        first, second = self.logs("")
        self.refused("Missing", first)
        self.refused("SameNode", first, first)
        self.refused("NoStart", first, self.put("log.2", ""))
        self.refused("NoStart", first, self.put("log.2", "heard member=1\n" + start(2, 1)))
        self.refused("Members", first, self.put("log.2", start(2, 1, of=3)))
        self.refused("OtherNode", *self.logs(start(2, 2), start(2, 1)))

    def test_boots_that_lack(self):
        for boots, is_whole in (([1, 2, 3], True), ([2], False), ([1, 3], False), ([1, 1, 2], True), ([1, 2, 1780000000 * 2 ** 20 + 1], True),
                                ([1780000000 * 2 ** 20 + 2], False), ([1, 2, 2], False)):
            logs = self.logs("", "".join(start(2, boot) for boot in boots))
            if is_whole:
                self.counters(*logs)
            else:
                self.assertIn("log.2 line %d: " % len(boots), self.refused("Gap", *logs))
                self.counters(*logs, "--gaps")

    def test_lines_that_an_end_counts(self):
        answers = accepted("ann", 5) + "refused %s NO n2 THROTTLED 5 user=\"ann\"\nrefused %s NO - BADLINE\n" % (FROM, FROM)
        self.counters(*self.logs("heard member=2\n" + answers + "silent member=2\nend received=9 replied=3\n"))
        self.counters(*self.logs(accepted("ann", 5) + "oathd: store: Disk\n  node1.db\n" + start(1, 2)))
        self.assertIn("log.1 line 5: ", self.refused("Lines", *self.logs(answers + "end received=9 replied=4\n")))

    def test_lines_that_could_not_be_written(self):
        for cut in ("", "accepted fr\n", "accepted %s OK n1 1\n" % FROM, "dropped li\n"):
            logs = self.logs(accepted("ann", 5) + cut + "dropped lines=2\nend received=9 replied=7\n")
            self.assertIn("could not write 2 lines", self.refused("Dropped", *logs))
            self.assertEqual(self.counters(*logs, "--gaps", "--margin", "10"), [16, 10])
        self.refused("UnknownLine", *self.logs("accepted fr\nheard member=2\ndropped lines=2\n"), "--gaps")
        self.refused("UnknownLine", *self.logs("dropped lines=02\n"), "--gaps")
        self.refused("Lines", *self.logs("dropped lines=2\n" + start(1, 2) + "end received=9 replied=7\n"), "--gaps")

    def test_users_files(self):
        self.assertIn("users line 1: ", self.refused("BadCounter", *self.logs(""), users="HOTP ann - 31 x\n"))
        self.refused("MissingField", *self.logs(""), users="HOTP ann -\n")


class RealNode(Case):
    """The log of a node, whose database is gone then, and a new one from the users file that its log makes."""

    def ask(self, line):
        """The answer to a line, which is sent again while none comes."""
        for _ in range(100):
            self.client.sendto(line.encode(), ("127.0.0.1", self.port))
            try:
                return self.client.recv(512).decode()
            except OSError:
                time.sleep(0.2)
        self.fail("no answer")

    def serve(self, life, users):
        """Makes a database and serves it until the test ends it."""
        self.put("cluster", "member 1 127.0.0.1:%d\nkey-file key\nlife %s\n" % (self.port, life))
        subprocess.run([OATHD, "init", life + ".db", users, "--node", "1", "--cluster", "cluster"], cwd=self.folder, check=True,
                       stdout=subprocess.DEVNULL)
        with open(self.folder / ("log." + life), "wb") as log:
            node = subprocess.Popen([OATHD, "serve", life + ".db", users, "--node", "1", "--cluster", "cluster", "--turns", "1500", "--log"],
                                    cwd=self.folder, stdout=log)
        self.addCleanup(node.wait)
        self.addCleanup(node.kill)
        return node

    def test_its_log_outlives_its_disk(self):
        self.port, self.client = free_port(), socket.socket(socket.AF_INET, socket.SOCK_DGRAM)
        self.addCleanup(self.client.close)
        self.client.settimeout(1)
        self.put("key", "00" * 32)
        users = "HOTP ann - {0}\nHOTP x\"\\y - {0}\nHOTP/T30 bob - {0}\n".format(RFC_KEY.hex())
        self.put("users", users)
        node = self.serve("first", "users")
        self.assertEqual(self.ask("CHECK a1 ann %s -" % rfc_code(3)), "OK a1 3")
        self.assertEqual(self.ask('RESYNC a2 x"\\y %s %s -' % (rfc_code(40), rfc_code(41))), "OK a2 41")
        self.assertEqual(self.ask("CHECK a3 ann %s -" % rfc_code(3)), "NO a3 INVALID")
        node.kill()
        node.wait()
        (self.folder / "first.db").unlink()
        printed, said, status = self.run_it(self.folder / "log.first", "--explain", users=users)
        self.assertEqual((said, status), ("", 0))
        self.assertIn("ann: counter 4, by %s/log.first line 2" % self.folder, printed)
        self.assertIn('x"\\y: counter 42, by', printed)
        self.serve("second", "new")
        self.assertEqual(self.ask("CHECK b1 ann %s -" % rfc_code(4)), "OK b1 4")
        self.assertEqual(self.ask('CHECK b2 x"\\y %s -' % rfc_code(41)), "NO b2 INVALID")
        self.assertEqual(self.ask("CHECK b3 ann %s -" % rfc_code(3)), "NO b3 INVALID")


if __name__ == "__main__":
    unittest.main()
