"""Tries what a site says of files that others may read or write, before it starts."""
from __future__ import annotations

import os
import subprocess
import unittest
from pathlib import Path
from typing import Callable
from unittest import mock

from tests.cases import CLUSTER, InFolder
from wakdulg_helpdesk.places import Open, check_cluster, check_file, check_places, check_users, words_for


class Places(InFolder):
    """The files of a site as the pages make them."""

    def setUp(self) -> None:
        super().setUp()
        for folder, mode in ("own", 0o700), ("shared", 0o770):
            Path(folder).mkdir()
            Path(folder).chmod(mode)
        for name, mode in ("shared/users", 0o660), ("own/cluster", 0o600), ("own/staff", 0o640), ("own/record", 0o600):
            Path(name).write_text(CLUSTER)
            Path(name).chmod(mode)

    def check(self) -> str:
        """Returns what is said of the files, or ""."""
        try:
            check_places("shared/users", "own/cluster", "own/staff", "own/record")
        except Open as fault:
            return str(fault)
        return ""

    def test_of_the_pages(self) -> None:
        self.assertEqual(self.check(), "")
        Path("own/record").unlink()
        self.assertEqual(self.check(), "", "no record yet")

    def test_modes(self) -> None:
        """The message names the file, says why, and has the command that mends it."""
        for name, mode, said in (
                ("shared/users", 0o664, "read it, and it has the secrets of all users: chmod o-rwx shared/users"),
                ("shared/users", 0o662, "write it, and it has the secrets of all users: chmod o-rwx shared/users"),
                ("shared", 0o777, "write it, and others could put a users file there: chmod o-w "),
                ("own/cluster", 0o620, "write it, and it says which nodes are asked: chmod go-w own/cluster"),
                ("own/staff", 0o644, "read it, and it says who is staff: chmod g-wx,o-rwx own/staff"),
                ("own/staff", 0o660, "write it, and it says who is staff: chmod g-wx,o-rwx own/staff"),
                ("own/record", 0o604, "read it, and it is the record of all acts: chmod g-wx,o-rwx own/record"),
                ("own", 0o770, "write it, and it says which nodes are asked: chmod go-w ")):
            before = os.stat(name).st_mode & 0o777
            Path(name).chmod(mode)
            told = self.check()
            self.assertIn(": others may " + said, told)
            self.assertIn(name + ": ", told)
            self.mend(told)
            self.assertEqual(self.check(), "", "after the command that it names")
            Path(name).chmod(before)

    @staticmethod
    def mend(told: str) -> None:
        """Runs the command at the end of a message."""
        subprocess.run(told.rpartition(": ")[2].split(), check=True)

    def test_owners(self) -> None:
        """A file of another user is refused, but for the users file, which several users write by its group."""
        real: Callable[..., os.stat_result] = os.stat

        def of_another(path: str) -> os.stat_result:
            fields = list(real(path))
            fields[4] = os.geteuid() + 1
            return os.stat_result(fields)
        with mock.patch("os.stat", of_another):
            with self.assertRaisesRegex(Open, "own/staff: user %d may change it, and x: chown %d own/staff" %
                                        (os.geteuid() + 1, os.geteuid())):
                check_file("own/staff", 0o037, "x")
            check_users("shared/users")

    def test_an_older_file_of_the_record(self) -> None:
        Path("own/record.1").write_text("")
        Path("own/record.1").chmod(0o644)
        self.assertTrue(self.check().startswith("own/record.1: others may read it"), self.check())

    def test_the_key_of_the_cluster(self) -> None:
        """A site has no key of the cluster. A line that names a file is none."""
        for line, is_taken in ("key " + "0c" * 32, False), ("  key\t" + "0c" * 32, False), ("key-file /etc/key", True):
            Path("own/cluster").write_text(CLUSTER.replace("key-file key", line))
            try:
                check_cluster("own/cluster")
                told = ""
            except Open as fault:
                told = str(fault)
            self.assertEqual(told == "", is_taken, told)
            self.assertNotIn("0c0c", told)

    def test_words(self) -> None:
        for bits, words in (0o007, "o-rwx"), (0o037, "g-wx,o-rwx"), (0o022, "go-w"), (0o002, "o-w"):
            self.assertEqual(words_for(bits), words)


if __name__ == "__main__":
    unittest.main()
