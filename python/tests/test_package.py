"""Makes the Debian package, and looks whether it has what its pages call.

OATHD and OATHTOOL are built programs.
"""
from __future__ import annotations

import os
import shutil
import subprocess
from pathlib import Path
from unittest import skipUnless

from tests.cases import InFolder

TOP = Path(__file__).resolve().parents[2]
PROGRAMS = [os.environ.get("OATHD", ""), os.environ.get("OATHTOOL", "")]
MAKERS = all(map(shutil.which, ("dpkg-deb", "dpkg-shlibdeps", "strip")))


def is_built(path: str) -> bool:
    """Returns whether a program is built: the one of a checkout is a script."""
    return bool(path) and Path(path).is_file() and Path(path).read_bytes()[:4] == b"\x7fELF"


@skipUnless(MAKERS and all(map(is_built, PROGRAMS)), "needs dpkg-dev, binutils, and OATHD and OATHTOOL that are built")
class Package(InFolder):
    def setUp(self) -> None:
        super().setUp()
        without = shutil.ignore_patterns("__pycache__", ".*", "tests")
        for folder in "docs", "examples", "python", "dist":
            shutil.copytree(TOP / folder, Path("checkout") / folder, ignore=without)
        os.mkdir("checkout/tools")
        shutil.copy2(TOP / "tools/package", "checkout/tools/package")

    def make(self) -> tuple[int, str]:
        """Makes the package, and returns the status and the last line of what is said."""
        done = subprocess.run(["checkout/tools/package", "."], capture_output=True, text=True,
                              env={**os.environ, "SOURCE_DATE_EPOCH": "1796000000"})
        return done.returncode, (done.stdout + done.stderr).strip().rpartition("\n")[2]

    def test_what_pages_call_is_there(self) -> None:
        """A program of the package's pages runs from the folder of documents on, and its pages don't make a package."""
        status, package = self.make()
        self.assertEqual((status, package[-4:]), (0, ".deb"))
        subprocess.run(["dpkg-deb", "-x", package, "root"], check=True)
        documents = Path("root/usr/share/doc/wakdulg")
        for path in "python/wakdulg-helpdesk", "python/wakdulg-self-service", "examples/helpdesk/push-users":
            self.assertTrue(os.access(documents / path, os.X_OK), path)
        # 3 is what a plugin says of help.
        for path, wanted in {"clients/ask.py": 0, "onboarding/onboard": 0, "monitoring/check_oathd": 3}.items():
            path = "examples/" + path
            done = subprocess.run([path, "--help"], cwd=documents, capture_output=True, text=True)
            self.assertEqual((done.returncode, done.stderr), (wanted, ""), path)
        self.assertFalse((documents / "how-to/package.md.gz").exists())

    def test_a_page_that_calls_what_is_not_there(self) -> None:
        """No package is made of a page that calls a program which the package hasn't."""
        page = Path("checkout/docs/how-to/back-up.md")
        before = page.read_text()
        cases = [("\n    examples/cluster/nothing 1\n", "examples/cluster/nothing"),
                 ("\n```console\n$ tools/package FOLDER\n```\n", "tools/package"),
                 ("\n    /usr/local/lib/wakdulg/nothing --help\n", "nothing"),
                 ("\nTake [it](../../examples/helpdesk/nothing.conf).\n", "examples/helpdesk/nothing.conf")]
        for more, path in cases:
            page.write_text(before + more)
            lacks = "calls %s, which the package hasn't: put it in, or leave the page out" % path
            self.assertEqual(self.make(), (1, "package: how-to/back-up.md " + lacks))
        self.assertEqual(list(Path().glob("*.deb")), [])
