"""Tries the programs of the helpdesk and self-service as a site has them: installed beside their packages."""
from __future__ import annotations

import os
import re
import shutil
import subprocess
import unittest
from pathlib import Path

from tests.cases import CLUSTER, InFolder

TOP = Path(__file__).resolve().parents[2]
PYTHON = TOP / "python"
# What the programs are run by, whatever runs the tests.
DEBIANS_PYTHON = "/usr/bin/python3"
# The programs with their modules, and what each says to `--help` first.
PROGRAMS = [
    ("wakdulg-helpdesk", "wakdulg_helpdesk", "usage: helpdesk --key-file NUMBER:FILE --operator FILE "),
    ("wakdulg-self-service", "wakdulg_selfservice", "usage: self-service --allow ACT [--allow ACT] --key-file "),
    ("wakdulg-helpdesk-record", "wakdulg_helpdesk.record_program",
     "Looks whether lines of a record were changed or removed: helpdesk-record check RECORD\n"),
    ("wakdulg-staff-line", "wakdulg_helpdesk.staff_line",
     "Makes a line of the file of staff: staff-line NAME [ROLE] >> staff\n"),
]
# A module of a stranger, under names that the programs import.
HOSTILE = "import os\nos.write(2, b'a module of a stranger\\n')\nos._exit(99)\n"
NAMES = ("wakdulg", "wakdulg_helpdesk", "flask", "argon2", "json", "argparse", "usercustomize", "sitecustomize")


def has(*names: str) -> bool:
    """Returns whether Debian's Python is here with these packages."""
    look = "import sys, importlib.util; sys.exit(not all(map(importlib.util.find_spec, sys.argv[1:])))"
    try:
        return subprocess.run([DEBIANS_PYTHON, "-Ic", look, *names]).returncode == 0
    except FileNotFoundError:
        return False


NEEDS_ARGON2 = unittest.skipUnless(has("argon2"), "needs python3-argon2")
NEEDS_ALL = unittest.skipUnless(has("argon2", "cryptography", "flask", "gunicorn"),
                                "needs python3-argon2, python3-cryptography, python3-flask and gunicorn")


class Programs(InFolder):
    def setUp(self) -> None:
        """Installs what docs/how-to/helpdesk.md does."""
        super().setUp()
        self.lib = Path("lib").resolve()
        self.lib.mkdir()
        for each in PYTHON.glob("wakdulg*"):
            if each.is_file():
                shutil.copy(each, self.lib)
            elif each.suffix == "":
                shutil.copytree(each, self.lib / each.name, ignore=shutil.ignore_patterns("__pycache__"))

    def run_it(self, *words: str | Path, typed: str = "", **environment: str) -> tuple[int, str, str]:
        """Returns the status of a program, what it prints and what it says."""
        environment = {**os.environ, "COLUMNS": "120", **environment}
        done = subprocess.run(list(map(str, words)), input=typed, capture_output=True, text=True, env=environment)
        return done.returncode, done.stdout, done.stderr

    def staff_line(self, *words: str, typed: str = "a long password\n") -> tuple[int, str, str]:
        return self.run_it(self.lib / "wakdulg-staff-line", *words, typed=typed)

    @NEEDS_ALL
    def test_each_program(self) -> None:
        """A program says its words, also as a module."""
        for name, module, said in PROGRAMS:
            status, printed, told = self.run_it(self.lib / name, "--help")
            self.assertTrue((printed + told).startswith(said), printed + told)
            self.assertEqual(status, 0 if printed else 1)
            as_module = self.run_it(DEBIANS_PYTHON, "-B", "-m", module, "--help", PYTHONPATH=str(self.lib))
            self.assertEqual(as_module, (status, printed, told))
        self.assertEqual(list(self.lib.rglob("__pycache__")), [])

    @NEEDS_ALL
    def test_modules_of_a_stranger(self) -> None:
        """A program takes no module from the working directory, from a home, or from where the environment points."""
        environment = {"HOME": str(Path("home").resolve()), "PYTHONPATH": os.getcwd()}
        home = self.run_it(DEBIANS_PYTHON, "-c", "import site; print(site.getusersitepackages())", **environment)[1]
        for folder in Path(), Path(home.strip()):
            folder.mkdir(parents=True, exist_ok=True)
            for name in NAMES:
                (folder / (name + ".py")).write_text(HOSTILE)
        for name, _, said in PROGRAMS:
            _, printed, told = self.run_it(self.lib / name, "--help", **environment)
            self.assertTrue((printed + told).startswith(said), printed + told)
        status, _, told = self.run_it(DEBIANS_PYTHON, "-m", "wakdulg_helpdesk", **environment)
        self.assertEqual((status, told), (99, "a module of a stranger\n"), "else the test shows nothing")

    @NEEDS_ALL
    def test_files_that_others_may_read(self) -> None:
        """A site doesn't start while others may read one of its files. It says which, and what to do."""
        line = self.staff_line("sam")[1]
        for name, text in (("cluster", CLUSTER), ("users", ""), ("staff", line), ("record", ""),
                           ("front.key", "0c" * 32), ("operator", "operator 900 " + "0c" * 32)):
            Path(name).write_text(text)
            Path(name).chmod(0o600)
        words = ["--key-file", "7:front.key", "--cluster", "cluster", "--users", "users", "--staff", "staff",
                 "--record", "record", "--issuer", "Site", "none/socket", "https://site.example"]
        desk, own = ("wakdulg-helpdesk", "--operator", "operator"), ("wakdulg-self-service", "--allow", "resync")
        for (program, *more), name in (desk, "users"), (desk, "operator"), (own, "record"), (own, "front.key"):
            Path(name).chmod(0o604)
            status, _, told = self.run_it(self.lib / program, *more, *words)
            Path(name).chmod(0o600)
            self.assertEqual((status, "others may read" in told, "chmod" in told), (2, True, True), told)
            self.assertIn(name, told.rpartition("chmod")[2])

    @NEEDS_ALL
    def test_a_cluster_without_names(self) -> None:
        """Without names self-service doesn't start, and neither does a helpdesk that has words for a change."""
        for name, text in (("cluster", CLUSTER.partition("\n")[2]), ("users", ""), ("record", ""),
                           ("staff", self.staff_line("sam")[1] + self.staff_line("kim")[1]),
                           ("front.key", "0c" * 32), ("operator", "operator 900 " + "0c" * 32)):
            Path(name).write_text(text)
            Path(name).chmod(0o600)
        words = ["--key-file", "7:front.key", "--cluster", "cluster", "--users", "users", "--staff", "staff",
                 "--record", "record", "--issuer", "Site", "none/socket", "https://site.example"]
        desk, own = ("wakdulg-helpdesk", "--operator", "operator"), ("wakdulg-self-service", "--allow", "resync")
        for (program, *more), name in ((own, "self-service"), ((*desk, "--push", "true"), "--push"),
                                       ((*desk, "--tell", "true"), "--tell"), ((*desk, "--two-of-staff"), "--two-of")):
            status, _, told = self.run_it(self.lib / program, *more, *words)
            said = "error: the cluster file gives no names: cluster. %s" % name
            self.assertEqual((status, said in told, "let-users-come-and-go.md" in told), (2, True, True), told)

    @NEEDS_ARGON2
    def test_a_line_of_staff(self) -> None:
        for role in "look", "unlock", "enrol", "all":
            status, printed, _ = self.staff_line("zoe", role)
            self.assertEqual(status, 0)
            self.assertRegex(printed, r"^zoe \$argon2id\$v=19\$m=65536,t=3,p=4\$\S+ %s\n$" % role)
        status, printed, _ = self.staff_line("zoe")
        self.assertEqual((status, len(printed.split())), (0, 2))
        for words in "zoe boss", "", "-zoe", "#zoe", "zoe look all":
            self.assertEqual(self.staff_line(*words.split())[:2], (1, ""), words)
        self.assertEqual(self.staff_line("z oe")[:2], (1, ""))
        short = self.staff_line("zoe", typed="too short\n")
        self.assertEqual(short, (1, "", "staff-line: a password has 12 characters or more\n"))


class Names(unittest.TestCase):
    """What names the programs."""

    def test_of_scripts(self) -> None:
        """A program calls the same module beside the packages and by pyproject.toml."""
        scripts = dict(re.findall(r'^(wakdulg-\S+) = "([\w.]+):main"$', (PYTHON / "pyproject.toml").read_text(), re.M))
        self.assertEqual({each.name for each in PYTHON.glob("wakdulg-*")}, {name for name, _, _ in PROGRAMS})
        for name, _, _ in PROGRAMS:
            self.assertIn("\nfrom %s import main\n" % scripts[name], (PYTHON / name).read_text())

    def test_of_units(self) -> None:
        """The units start programs that a site installs, and ask the oathd of the package."""
        desk = (TOP / "examples/helpdesk/helpdesk.service").read_text()
        words = (TOP / "examples/self-service/self-service.conf").read_text()
        for unit, name in (desk, "wakdulg-helpdesk"), (words, "wakdulg-self-service"):
            self.assertEqual(re.findall("^ExecStart=(/.*?) ", unit, re.M), ["/usr/local/lib/wakdulg/" + name])
        self.assertEqual(re.findall("PUSH=(.*?) ", desk), ["/usr/local/lib/wakdulg/push-users"])
        self.assertTrue(os.access(TOP / "examples/helpdesk/push-users", os.X_OK))
        package = re.findall(r'"\$root(/\S*/oathd)"', (TOP / "tools/package").read_text())[:1]
        self.assertEqual(re.findall(r"OATHD=(\S*)", desk), package)
