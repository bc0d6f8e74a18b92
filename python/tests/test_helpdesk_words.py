"""Tries what pages say of the words by which nodes and programs refuse."""
from __future__ import annotations

import errno
import os
import unittest

import wakdulg
from tests.cases import HAS_PACKAGES

if HAS_PACKAGES:
    from wakdulg_helpdesk import words
    from wakdulg_onboard.tokens import Fault


@unittest.skipUnless(HAS_PACKAGES, "needs python3-flask, python3-cryptography and qrencode")
class Words(unittest.TestCase):
    def test_answers(self) -> None:
        """Each answer of a node, and of a client that hears none, is a sentence with the word in brackets."""
        all_words = (*wakdulg.OF_THE_LINE, *wakdulg.OF_THE_NODE, wakdulg.SILENT, "BADLINE", "THROTTLED")
        self.assertEqual(sorted(all_words), sorted(words.ANSWERS))
        for word in all_words:
            told = words.of_answer(word)
            self.assertRegex(told, r"^[A-Z][^(]{20,} \(%s\)$" % word)
            self.assertNotIn("%", told)
        self.assertRegex(words.of_answer("THROTTLED 5"), r"^The token was closed for 5 s more, .* \(THROTTLED 5\)$")
        self.assertRegex(words.of_answer("SPENT (in doubt)"), r"The code may be used up \(SPENT \(in doubt\)\)$")
        silent = "SILENT" + wakdulg.SEALED_HINT
        self.assertEqual(words.of_answer(silent)[-len(silent) - 2:], "(%s)" % silent)
        for text in "37", "not staff", "", "INVALIDATED", "an INVALID one":
            self.assertEqual(words.of_answer(text), text)

    def test_members(self) -> None:
        """Each member that hinders an unlock has its reason, and so has each note of the table."""
        told = words.of_members("member 1: unlocked, member 2: silent, member 3: NO USER")
        self.assertEqual(told, "member 1: unlocked, member 2: it didn't answer. Do it again when it is up (silent), "
                               "member 3: it has no row of this user, and so nothing to unlock (NO USER)")
        self.assertEqual(words.of_note("ok"), "ok")
        for note in "silent", "hears not all", "fingerprint differs", "book differs":
            self.assertRegex(words.of_note(note), r"^It [^(]{20,} \(%s\)$" % note)

    def test_faults(self) -> None:
        """The own words of a fault come first, and then what to do. No option of a command line is named."""
        cases: list[tuple[Exception | str, str]] = [
            (Fault("the form", "BadName", "a name has no blanks: 'n ew'"),
             "the form: a name has no blanks: 'n ew'. Choose another name (BadName)"),
            (Fault("/a/users", "Locked", "another onboard is at work in its folder"),
             "/a/users: somebody else changes it at this moment. Try again in a minute (Locked)"),
            ("file line 1: NoColumn: no column is named secret: --column secret=NAME", "file line 1: no column is named"
             " secret. Give the first line of the file the names user, secret and type (NoColumn)"),
            (Fault("the cluster", "refused", "SPENT"),
             "the cluster refused it. Another login took this code. Give the next code (SPENT)"),
            (Fault("oathd check", "refuses the new file", "oathd: users line 2: BadSecret\n"
                   "  /dev/stdin line 2, user zoe: a secret has 2 to 256 hexadecimal digits"),
             "the new users file would have a fault in line 2, user zoe: a secret has 2 to 256 hexadecimal digits. "
             "Tell whoever runs this site, who mends that line (refuses the new file: users line 2: BadSecret)"),
            (Fault("oathd check", "refuses the new file", "killed"), "the new users file would have a fault in killed. "
             "Tell whoever runs this site, who mends that line (refuses the new file: killed)"),
            (OSError(errno.ENOSPC, os.strerror(errno.ENOSPC)),
             "the disk is full. Tell whoever runs this site (No space left on device)"),
            (OSError(), "the system refused it. Tell whoever runs this site (OSError)"),
            ("the hook said that", "the hook said that"), ("", "")]
        for fault, said in cases:
            self.assertEqual(words.of_fault(fault), said)

    def test_outcomes(self) -> None:
        """Outcomes of the record keep their first words."""
        cases = [("refused: INVALID", r"refused: The code was wrong.* \(INVALID\)"),
                 ("failed: the cluster: refused: BUSY", r"failed: the cluster refused it\. The node had .* \(BUSY\)"),
                 ("not confirmed after 7 s: INVALID", r"not confirmed after 7 s: The code was .* \(INVALID\)"),
                 ("member 1: silent", r"member 1: it didn't answer.* \(silent\)")]
        for text, said in cases:
            self.assertRegex(words.of_outcome(text), "^%s$" % said)
        for text in "begins", "done", "retired; copied to the members", "refused: no right", "refused: not staff":
            self.assertEqual(words.of_outcome(text), text)
