"""Tries the record of a site, its chain, and the program that checks it."""
from __future__ import annotations

import json
import os
import resource
import subprocess
import sys
import time
from pathlib import Path
from unittest import mock

from tests.cases import InFolder
from wakdulg_helpdesk.record import Record, check, files_of, lines_back, print_of, read_back, tail_of

PYTHON = Path(__file__).resolve().parents[1]
# Processes that write one record at once.
WRITER = """
import sys
sys.path.insert(0, sys.argv[1])
from wakdulg_helpdesk.record import Record
record = Record("record", 4000)
for number in range(100):
    record.write("sam", "unlock", "user%d" % number, "done", "-")
"""


def written(user: str, outcome: str) -> str:
    """Writes a line of sam's, and returns its print."""
    return Record("record").write("sam", "retire", user, outcome, "-")


def told(path: str = "record") -> list[str]:
    """Returns the outcomes of a record, the latest first."""
    return [line["outcome"] for _, line in Record(path).lines()]


def program(*words: str) -> tuple[int, str]:
    """Returns the status of helpdesk-record and the last line that it prints."""
    command = [sys.executable, "-I", str(PYTHON / "wakdulg-helpdesk-record"), *words]
    done = subprocess.run(command, capture_output=True, text=True)
    return done.returncode, (done.stdout + done.stderr).strip().rpartition("\n")[2]


class Records(InFolder):
    def test_lines_from_the_end(self) -> None:
        """Lines are read from the end, whatever the size of a block."""
        for text in b"", b"\n", b"a\n", b"a\nbc\n", b"a\nbc", b"a\n\n\nbc\n\n", b"x" * 50 + b"\n" + b"y" * 3:
            Path("text").write_bytes(text)
            lines = text.split(b"\n")
            lines = lines if lines[-1] else lines[:-1]
            got = [list(read_back("text", block)) for block in (1, 2, 3, 7, 100)]
            self.assertEqual(got, [lines[::-1]] * 5, "%d bytes" % len(text))

    def test_the_chain(self) -> None:
        """A line that is changed, removed or put in is told, and one that is torn is noted."""
        prints = [written("ann", "done %d" % number) for number in range(6)]
        lines = Path("record").read_bytes().splitlines()
        self.assertEqual(json.loads(lines[0])["before"], "", "the first line follows none")
        self.assertEqual(program("check", "record"), (0, "6 lines, the last one " + prints[-1]), "whole")
        other = lines[2].replace(b"done 2", b"done 7")
        for what, text, number in (
                ("changed", [*lines[:2], other, *lines[3:]], 4), ("removed", lines[:2] + lines[3:], 3),
                ("put in", [*lines[:2], lines[0], *lines[2:]], 3),
                ("two lines in another order", [*lines[:2], lines[3], lines[2], *lines[4:]], 3),
                ("without the field", [*lines[:3], b'{"who": "sam"}', *lines[3:]], 4)):
            Path("record").write_bytes(b"\n".join(text) + b"\n")
            status, last = program("check", "record")
            self.assertEqual((status, last.split(": ")[0]), (1, "record:%d" % number), what)
        Path("record").write_bytes(b"\n".join(lines[:4]) + b"\n")
        self.assertEqual(program("check", "record"), (0, "4 lines, the last one " + prints[3]), "cut off the end")
        self.assertEqual(program("check", "record", prints[5])[0], 1, "but a print that was kept tells")
        self.assertEqual(program("check", "record", prints[2])[0], 0, "and one that is there doesn't")
        self.assertEqual(program("check", "nowhere"), (1, "helpdesk-record: nowhere: No such file or directory"),
                         "no such file")

    def test_a_torn_line(self) -> None:
        """A line that a power cut tears: the next one follows it."""
        written("ann", "done")
        with open("record", "ab") as file:
            file.write(b'{"when": "2026-')
        written("ann", "done later")
        found = check("record")
        self.assertEqual((found.fault, found.notes),
                         ("", ["record:2: it is torn: nothing says whether the line before it is whole"]))
        self.assertEqual(told(), ["done later", "done"], "and passed over")

    def test_a_full_disk(self) -> None:
        """A disk without room for a line: nothing of it is written."""
        written("ann", "done")
        size, before = os.stat("record").st_size, resource.getrlimit(resource.RLIMIT_FSIZE)
        resource.setrlimit(resource.RLIMIT_FSIZE, (size + 20, before[1]))
        try:
            self.assertRaises(OSError, written, "ann", "done later")
        finally:
            resource.setrlimit(resource.RLIMIT_FSIZE, before)
        self.assertEqual(os.stat("record").st_size, size)
        written("ann", "done later")
        self.assertEqual((check("record").fault, told()), ("", ["done later", "done"]), "then it is whole")

    def test_several_files(self) -> None:
        """A long record begins another file, and the chain goes through all of them."""
        record = Record("record", 300)
        for number in range(30):
            last = record.write("sam", "unlock", "ann", "done %d" % number, "-")
        found = files_of("record")
        self.assertEqual((len(found) > 9, found[0], found[9], found[-1]), (True, "record.1", "record.10", "record"),
                         "files")
        self.assertEqual(told(), ["done %d" % number for number in reversed(range(30))], "all lines in order")
        self.assertEqual(program("check", "record"), (0, "30 lines, the last one " + last), "whole")
        for path, fault, notes in (("record.1", "", ["record.2:1: it follows a line that isn't here"]),
                                   ("record.4", "record.5:1: it doesn't follow the line before it", [])):
            os.rename(path, "aside")
            said = check("record")
            self.assertEqual((said.fault, said.notes), (fault, notes), "without " + path)
            os.rename("aside", path)
        with mock.patch("os.rename", side_effect=PermissionError):
            Record("record", 10).write("sam", "unlock", "ann", "done 30", "-")
        self.assertEqual((told()[0], check("record").fault), ("done 30", ""),
                         "a file that can't get another name grows on")

    def test_several_writers(self) -> None:
        """Several processes write one record."""
        running = [subprocess.Popen([sys.executable, "-Bc", WRITER, PYTHON]) for _ in range(4)]
        self.assertEqual([each.wait() for each in running], [0] * 4, "each ends")
        found = check("record")
        self.assertEqual((found.fault, found.lines, found.notes), ("", 400, []), "each line is there, and follows")
        self.assertTrue(len(files_of("record")) > 5, "in several files")

    def test_acts_with_two_lines(self) -> None:
        """An act with a begin and an outcome is told once, and a begin without an outcome is told."""
        record = Record("record")
        ann, _, bob = (record.write("sam", "replace", name, "begins", "-") for name in ("ann", "ann", "bob"))
        record.write("sam", "replace", "bob", "replaced", "-", of=bob)
        record.write("sam", "replace", "ann", "refused: the second code", "-")
        record.write("sam", "replace", "ann", "replaced", "-", of=ann)
        seen = [(line["user"], line["outcome"]) for line in record.acts()]
        self.assertEqual(seen, [("ann", "replaced"), ("ann", "refused: the second code"), ("bob", "replaced"),
                                ("ann", "begins")], "each once")
        self.assertEqual([line["outcome"] for line in record.last(9, "bob")], ["replaced"], "of one user")
        last = [line["outcome"] for line in record.last(2, "ann")]
        self.assertEqual(last, ["replaced", "refused: the second code"], "the last ones")
        record.write("sam", "log in", "", "done", "-")
        self.assertEqual([line["act"] for line in record.acts(about="sam")].count("log in"), 1,
                         "with a text in a field")
        self.assertEqual(list(record.acts(about="sa")), [], "which is the whole of it")
        self.assertEqual((len(list(record.acts(time.time() - 100))), list(record.acts(time.time() + 100))), (5, []),
                         "since a moment")

    def test_a_record_of_a_former_program(self) -> None:
        """A record of a former program is read on, and its last line is followed."""
        done = (("ann", "begins"), ("ann", "retired"), ("bob", "begins"), ("cid", "refused: the second code"))
        lines = [{"when": "2026-01-01T00:00:0%dZ" % number, "who": "sam", "act": "retire", "user": user,
                  "outcome": outcome} for number, (user, outcome) in enumerate(done)]
        Path("record").write_text("".join(json.dumps(line) + "\n" for line in lines))
        seen = [(line["user"], line["outcome"]) for line in Record("record").acts()]
        self.assertEqual(seen, [("cid", "refused: the second code"), ("bob", "begins"), ("ann", "retired")], "its acts")
        last = written("ann", "done")
        self.assertEqual(program("check", "record"), (0, "5 lines, the last one " + last), "followed")
        before = json.loads(tail_of("record")[-1])["before"]
        self.assertEqual(before, print_of(json.dumps(lines[-1]).encode()), "by its last line")
        text = Path("record").read_text()
        Path("record").write_text(text.replace('"user": "cid"', '"user": "dan"'))
        self.assertEqual(check("record").fault, "record:5: it doesn't follow the line before it", "changed")
        self.assertEqual(len(list(lines_back("record"))), 5, "lines back")
