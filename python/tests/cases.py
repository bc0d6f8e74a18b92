"""What several tests begin with: a folder of their own, and the files of a site."""
from __future__ import annotations

import os
import shutil
import tempfile
import time
import unittest
import warnings
from importlib.util import find_spec
from pathlib import Path
from typing import Callable
from unittest import mock

HAS_PACKAGES = all(map(find_spec, ("cryptography", "flask"))) and shutil.which("qrencode") is not None
CLUSTER = """names trial-of-pages
life 1
key-file key
new-tokens fresh
member 1 127.0.0.1:9
member 2 127.0.0.1:10
member 3 127.0.0.1:11
"""


class InFolder(unittest.TestCase):
    """A test whose working directory is empty at its start, and is removed after it."""

    def setUp(self) -> None:
        folder = tempfile.TemporaryDirectory()
        self.addCleanup(folder.cleanup)
        self.addCleanup(os.chdir, os.getcwd())
        os.chdir(folder.name)

    def await_that(self, what: str, call: Callable[[], object], wanted: object = True, seconds: float = 60) -> None:
        """Waits until a call returns what is wanted. Fails after some seconds, which a busy machine may need."""
        end = time.monotonic() + seconds
        while (got := call()) != wanted and time.monotonic() < end:
            time.sleep(0.1)
        self.assertEqual(got, wanted, what)


@unittest.skipUnless(HAS_PACKAGES, "needs python3-flask, python3-cryptography and qrencode")
class OverSite(InFolder):
    """A test over the files of a site, whose refusals take no time."""

    def setUp(self) -> None:
        super().setUp()
        without_pauses = mock.patch("wakdulg_helpdesk.web.REFUSAL", 0.0)
        without_pauses.start()
        self.addCleanup(without_pauses.stop)
        # The process of a site ends with the test, and the copy of the cluster file with it.
        warnings.filterwarnings("ignore", "Implicitly cleaning up", ResourceWarning)
        self.begin()

    def begin(self) -> None:
        """Removes the files of the folder, and writes those of a new site."""
        for each in os.listdir("."):
            os.unlink(each)
        Path("cluster").write_text(CLUSTER)
        Path("key").write_text("0c" * 32)
