"""Tries the program onboard and its modules.

OATHD and OATHTOOL are the programs, else ./oathd and ./oathtool of the checkout. It takes some seconds.
"""
from __future__ import annotations

import contextlib
import fcntl
import io
import os
import shutil
import stat
import subprocess
import sys
import tempfile
import unittest
from importlib.util import find_spec
from pathlib import Path
from typing import Union
from unittest import mock

from wakdulg_onboard import aes, names, phone, program
from wakdulg_onboard.tokens import Fault, Token, read_rows, read_secret
from wakdulg_onboard.users_file import UsersFile

TOP = Path(__file__).resolve().parents[2]
SAMPLES = TOP / "examples/onboarding/samples"
OATHD, OATHTOOL = os.environ.get("OATHD", str(TOP / "oathd")), os.environ.get("OATHTOOL", str(TOP / "oathtool"))
ONBOARD = [sys.executable, "-B", "-m", "wakdulg_onboard"]
ENVIRONMENT = {**os.environ, "OATHD": OATHD, "PYTHONPATH": str(TOP / "python")}
# A word of a command line.
Word = Union[str, bytes, Path]
NEEDS_AES = unittest.skipUnless(find_spec("cryptography"), "needs python3-cryptography")
NEEDS_QRENCODE = unittest.skipUnless(shutil.which("qrencode"), "needs qrencode")
RFC_SECRET = b"12345678901234567890"
KEY_OF_FIGURE_6 = "12345678901234567890123456789012"


class Case(unittest.TestCase):
    takes_short = True

    def setUp(self) -> None:
        folder = tempfile.TemporaryDirectory()
        self.addCleanup(folder.cleanup)
        environment = mock.patch.dict(os.environ, OATHD=OATHD)
        environment.start()
        self.addCleanup(environment.stop)
        self.folder = Path(folder.name)
        self.users = self.put("users", "# remark\nHOTP\tann\t-\t00ff\t7")
        self.put("key", "00" * 32)
        self.cluster = self.put("cluster", "member 1 127.0.0.1:7101\nkey-file %s/key\nlife 1\n" % self.folder)

    def put(self, name: str, text: str | bytes) -> Path:
        """Makes a file that its owner alone may read, and returns its path."""
        path = self.folder / name
        path.write_bytes(text.encode() if isinstance(text, str) else text)
        path.chmod(0o600)
        return path

    def run_it(self, command: str, *words: Word, users: Path | None = None) -> tuple[str, str, int]:
        """Returns what onboard prints, what it says on standard error, and its status. Most secrets here are short."""
        short = ["--short-secrets"] if command in ("csv", "pskc") and self.takes_short else []
        arguments = [command, str(users or self.users), *short, *map(os.fsdecode, words)]
        printed, said = io.TextIOWrapper(io.BytesIO(), "utf-8"), io.StringIO()
        with contextlib.redirect_stdout(printed), contextlib.redirect_stderr(said):
            try:
                status = program.main(arguments)
            except SystemExit as end:
                status = int(end.code or 0)
        printed.flush()
        printed.seek(0)
        return printed.read(), said.getvalue(), status

    def done(self, command: str, *words: Word) -> str:
        """Returns what onboard prints, which has to succeed."""
        printed, said, status = self.run_it(command, *words)
        self.assertEqual(status, 0, said)
        return printed

    def refused(self, name: str, command: str, *words: Word) -> str:
        """Returns what onboard says of a fault with this name, after which the users file is as it was."""
        before = self.users.read_bytes()
        printed, said, status = self.run_it(command, *words)
        self.assertEqual((printed, status), ("", 1), said)
        self.assertIn(": %s: " % name, said)
        self.assertEqual(self.users.read_bytes(), before)
        self.assertEqual([each.name for each in self.folder.iterdir() if ".new-" in each.name], [])
        return said

    def rows(self) -> dict[str, tuple[str | bytes, ...]]:
        """Returns the rows of the users file by user: type, secret and counter."""
        return {
            row.user.decode(): (
                row.type.decode(), bytes.fromhex(row.secret.decode()), *(each.decode() for each in row.rest))
            for row in read_rows(self.users.read_bytes())}

    def secret_of(self, user: str) -> bytes:
        """Returns the secret of a user's row."""
        secret = self.rows()[user][1]
        assert isinstance(secret, bytes)
        return secret

    def check_mode_owner_and_link(self, command: str, *words: Word) -> None:
        """Does something to the users file by a link. The new file has the mode and the owner of the old one."""
        self.users.chmod(0o640)
        if os.geteuid() == 0:
            os.chown(self.users, 1, 1)
        link = self.folder / "link"
        link.symlink_to(self.users)
        before = self.users.stat()
        self.assertEqual(self.run_it(command, *words, users=link)[2], 0)
        after = self.users.stat()
        self.assertEqual((after.st_mode, after.st_uid, after.st_gid), (before.st_mode, before.st_uid, before.st_gid))
        self.assertNotEqual(after.st_ino, before.st_ino)
        self.assertTrue(link.is_symlink())
        link.unlink()

    def code_of(self, user: str, *words: str) -> str:
        """Returns what oathtool prints of a user's secret."""
        words = (OATHTOOL, *words, self.secret_of(user).hex())
        return subprocess.run(words, capture_output=True, text=True).stdout


class Figures(Case):
    """Files in the form of RFC 6030's figures, not compared with its text, and one that another program wrote."""

    def test_plain_secrets(self) -> None:
        self.done("pskc", SAMPLES / "figure-2.xml", "--name-by-serial")
        self.assertEqual(self.rows()["12345678"], ("HOTP/E/6", b"1234", "0"))
        self.done("pskc", SAMPLES / "figure-3.xml")
        self.assertEqual(self.rows()["UID=jsmith,DC=example-bank,DC=net"], ("HOTP/E/8", RFC_SECRET, "0"))

    def test_a_key_without_a_secret(self) -> None:
        said = self.refused("NoSecret", "pskc", SAMPLES / "figure-4.xml", "--name-by-serial")
        self.assertIn("figure-4.xml line 11", said)

    def test_a_pin_is_passed_over(self) -> None:
        printed, said, status = self.run_it("pskc", SAMPLES / "figure-5.xml", "--name-by-serial")
        self.assertEqual((status, self.rows()["987654321"]), (0, ("HOTP/E/8", RFC_SECRET, "0")))
        self.assertIn("line 39: passed over: a PIN", said)

    @NEEDS_AES
    def test_a_pre_shared_key(self) -> None:
        key = self.put("psk", KEY_OF_FIGURE_6 + "\n")
        self.done("pskc", SAMPLES / "figure-6.xml", "--name-by-serial", "--key-file", key)
        self.assertEqual(self.rows()["987654321"], ("HOTP/E/8", RFC_SECRET, "0"))
        code = subprocess.run([OATHTOOL, "-d8", RFC_SECRET.hex()], capture_output=True, text=True).stdout
        self.assertEqual(code, "84755224\n")

    @NEEDS_AES
    def test_a_wrong_key_and_none(self) -> None:
        file = SAMPLES / "figure-6.xml", "--name-by-serial"
        self.refused("NoKey", "pskc", *file)
        self.refused("BadKey", "pskc", *file, "--key-file", self.put("psk", "12" * 24))
        self.refused("BadKey", "pskc", *file, "--key-file", self.put("psk", "no hex"))
        self.refused("BadValue", "pskc", *file, "--key-file", self.put("psk", KEY_OF_FIGURE_6[:-1] + "3"))
        changed = (SAMPLES / "figure-6.xml").read_text().replace("AAECAwQF", "AAECAwQG")
        key = self.put("psk", KEY_OF_FIGURE_6)
        self.refused("BadMac", "pskc", self.put("f.xml", changed), "--name-by-serial", "--key-file", key)
        cut = changed.replace("<ValueMAC>Su+NvtQfmvfJzF6bmQiJqoLRExc=\n          </ValueMAC>", "")
        self.refused("BadMac", "pskc", self.put("f.xml", cut), "--name-by-serial", "--key-file", key)

    @NEEDS_AES
    def test_a_password(self) -> None:
        password = self.put("password", "qwerty\n")
        self.done("pskc", SAMPLES / "figure-7.xml", "--name-by-serial", "--password-file", password)
        self.assertEqual(self.rows()["987654321"], ("HOTP/E/8", RFC_SECRET, "0"))
        self.refused("NoPassword", "pskc", SAMPLES / "figure-7.xml", "--name-by-serial")

    @NEEDS_AES
    def test_a_file_of_another_program(self) -> None:
        self.done("pskc", SAMPLES / "pbkdf2-sha256.xml", "--password-file", self.put("password", "qwerty"))
        self.assertEqual(self.rows()["erin"], ("HOTP/T30/8/SHA256", RFC_SECRET))
        self.assertEqual(self.rows()["frank"], ("HOTP/E/6", b"12345678901234567891", "7"))


class Pskc(Case):
    """What a PSKC file may not have."""

    def file(self, old: str, new: str, figure: int = 3) -> Path:
        """Makes a PSKC file that differs from a figure, and returns its path."""
        text = (SAMPLES / ("figure-%d.xml" % figure)).read_text()
        self.assertIn(old, text)
        return self.put("f.xml", text.replace(old, new))

    def test_a_dtd_and_its_entities(self) -> None:
        dtd = '<!DOCTYPE a [<!ENTITY b "bbbb">]>\n<KeyContainer'
        self.assertIn("line 2", self.refused("Doctype", "pskc", self.file("<KeyContainer", dtd)))
        self.refused("NotXml", "pskc", self.file("987654321", "&b;"))

    def test_what_is_no_pskc(self) -> None:
        self.refused("NotXml", "pskc", self.put("f.xml", "serial,secret\n"))
        self.refused("NotPskc", "pskc", self.put("f.xml", "<a/>"))
        self.refused("TooDeep", "pskc", self.put("f.xml", "<a>" * 70 + "</a>" * 70))

    def test_what_a_users_file_has_no_row_for(self) -> None:
        self.refused("UnknownAlgorithm", "pskc", self.file("pskc:hotp", "pskc:ocra"))
        self.refused("BadDigits", "pskc", self.file('Length="8"', 'Length="9"'))
        self.refused("BadFormat", "pskc", self.file('"DECIMAL"', '"HEXADECIMAL"'))
        self.refused("BadFormat", "pskc", self.file('"DECIMAL"', '"DECIMAL" CheckDigits="true"'))
        self.refused("BadBase64", "pskc", self.file("MTIz", "MT!z"))
        self.refused("BadNumber", "pskc", self.file("<PlainValue>0<", "<PlainValue>x<"))
        policy = "</Data><Policy><ExpiryDate>2026-12-01T00:00:00Z</ExpiryDate></Policy>"
        self.refused("Policy", "pskc", self.file("</Data>", policy))

    def test_rounds_have_a_bound(self) -> None:
        file = self.file("<IterationCount>1000<", "<IterationCount>99999999999<", 7)
        self.refused("UnknownDerivation", "pskc", file, "--password-file", self.put("password", "qwerty"))


class Csv(Case):
    WORDS = ("--column", "serial=Serial Number", "--column", "secret=Seed", "--column", "type=Algorithm",
             "--column", "digits=OTP Length")

    def test_a_vendors_file(self) -> None:
        printed = self.done("csv", SAMPLES / "vendor.csv", *self.WORDS, "--owners", SAMPLES / "owners.csv",
                            "--cluster", self.cluster)
        told = "(?s)^added bob: HOTP/E/6, 20 bytes, .*vendor.csv line 2\n.*\nfingerprint [0-9a-f]{16}\n$"
        self.assertRegex(printed, told)
        self.assertEqual(self.rows()["bob"], ("HOTP/E/6", b"123456789012345678A0", "0"))
        self.assertEqual(self.rows()["dave"][0], "HOTP/T30/8")
        self.assertTrue(self.users.read_bytes().startswith(b"# remark\nHOTP\tann\t-\t00ff\t7\n# 3000000001\n"))

    def test_codes_of_an_imported_row(self) -> None:
        self.put("v.csv", "serial,secret,type,user\n1,GEZDGNBVGY3TQOJQGEZDGNBVGY3TQOJQ,hotp,bob\n"
                 "2,gezdgnbvgy3tqojqgezdgnbvgy3tqojr,totp,carol\n")
        self.done("csv", self.folder / "v.csv", "--secrets", "base32")
        self.assertEqual(self.code_of("bob", "-w2").split(), ["755224", "287082", "359152"])
        self.assertRegex(self.code_of("carol", "--totp", "-N@59"), "^[0-9]{6}\n$")

    def test_each_fault_has_its_line(self) -> None:
        rows = ["3132,hotp,bob,6", "313,hotp,carol,6", "3133,what,dave,6", "3134,hotp,ann,6", "3135,hotp,bob,6",
                "3132,hotp,erin,6", "3136,hotp,a b,6", "3137,hotp,%s,6" % ("x" * 65), "3138,hotp,,6",
                "3139,hotp,frank,9", ",hotp,grace,6", "3140,,heidi,6", "3141,hotp,ivan,six", "00FF,hotp,judy,6"]
        file = self.put("v.csv", "secret,type,user,digits\n" + "\n".join(rows) + "\n")
        printed, said, status = self.run_it("csv", file, "--dry-run")
        self.assertEqual((printed, status), ("would add bob: HOTP/E/6, 2 bytes, %s line 2\n" % file, 1))
        names = ["BadSecret", "UnknownType", "DuplicateUser", "DuplicateUser", "DuplicateSecret", "BadName",
                 "NameTooLong", "NoUser", "BadDigits", "NoSecret", "NoType", "BadNumber", "DuplicateSecret"]
        self.assertEqual([line.split(": ")[1:3] for line in said.splitlines() if ": note: " not in line],
                         [["%s line %d" % (file, number), name] for number, name in enumerate(names, 3)])
        self.refused("BadSecret", "csv", file)
        self.assertEqual(self.run_it("csv", file, "--part")[2], 0)
        self.assertEqual(sorted(self.rows()), ["ann", "bob"])

    def test_a_column_of_passwords(self) -> None:
        """Passwords aren't lost in silence: the row would have none, and a code alone would let in."""
        file = self.put("v.csv", "User,Password,secret,type\nbob,a-word,%s,hotp\n" % ("31" * 20))
        said = self.refused("Password", "csv", file)
        self.assertIn("v.csv line 1: Password: the column password would be lost", said)

    def test_one_secret_for_two_users(self) -> None:
        """A vendor's file in upper case, and one that fills the secret with zeros, have the same device."""
        words = "--columns", "secret,user", "--type", "hotp"
        self.put("users", "HOTP  ann - 00fF 7\nHOTP\tdan\t-\t31323334\n")
        for secret, user, line in ("00FF", "ann", 1), ("31323334", "dan", 2), ("3132333400", "dan", 2):
            said = self.refused("DuplicateSecret", "csv", self.put("v.csv", "32,bob\n%s,carol\n" % secret), *words)
            told = "v.csv line 2: DuplicateSecret: carol has the secret of %s (line %d of the users file), and each " \
                   "would take the other's codes\nonboard: nothing is written\n"
            self.assertIn(told % (user, line), said)
        file = self.put("v.csv", "3233,bob\n34,carol\n3233,erin\n")
        said = self.refused("DuplicateSecret", "csv", file, *words)
        self.assertIn("%s line 3: DuplicateSecret: erin has the secret of bob (%s line 1), and" % (file, file), said)
        with_zero = (SAMPLES / "figure-2.xml").read_text().replace("MTIzNA==", "MTIzNAA=")
        self.refused("DuplicateSecret", "pskc", self.put("f.xml", with_zero), "--name-by-serial")
        self.done("csv", self.put("v.csv", "0031323334,bob\n"), *words)

    def test_a_short_secret_is_refused(self) -> None:
        self.takes_short = False
        file = self.put("v.csv", "%s,bob\n%s,carol\n" % ("31" * 15, "32" * 16))
        words = file, "--columns", "secret,user", "--type", "hotp"
        said = self.refused("ShortSecret", "csv", *words)
        self.assertIn("v.csv line 1: ShortSecret: 15 bytes, and RFC 4226 wants 16 or more\n", said)
        self.assertEqual(self.run_it("csv", *words, "--part")[2], 0)
        self.assertEqual(sorted(self.rows()), ["ann", "carol"])
        self.users.write_bytes(b"HOTP ann - 30\n")
        self.assertEqual(self.done("csv", *words, "--short-secrets").count("added"), 2)

    def test_names_that_look_like_another(self) -> None:
        """Names of new users. Each that is refused shows nothing, or shows what another name shows."""
        good = ["o'brien", "j.doe@example.org", "jos\u00e9", "\u0131\u011fd\u0131r", "\u0395\u03bb\u03ad\u03bd\u03b7",
                "\u0438\u0432\u0430\u043d", "\u5c71\u7530", "\u7530\u4e2d\u3055\u3093", "\uae40\ucca0\uc218",
                "\u05d1\u05e0\u05d9", "\u0e44\u0e17\u0e22", "-a", "a" * 64]
        bad = {"-": "hyphen", "a b": "blanks", "a\u00a0b": "blanks", "a\u200bnn": "shows nothing",
               "\u202eann": "shows nothing", "ann\ufeff": "shows nothing", "a\u034fnn": "shows nothing",
               "a\u115fb": "shows nothing", "\u0430nn": "different scripts",
               "\u0441\u043e\u0440\u0435": "Latin letters", "\u03a1": "Latin letters", "\uff41nn": "shorter form",
               "a\u0301": "shorter form", "\ufb01n": "shorter form", "ann\u2010x": "sign or a digit",
               "ann\u0661": "sign or a digit", "\u0251nn": "looks like another",
               "\u13aa\u13d2": "different scripts"}
        for name in good:
            self.assertIsNone(names.fault_of(name), ascii(name))
        for name, why in bad.items():
            self.assertIn(why, names.fault_of(name) or "", ascii(name))
            said = self.refused("BadName", "phone", name, "--issuer", "Site", "--uri") if name != "-" else why
            self.assertIn(why, said)
        self.done("phone", good[2], "--issuer", "Site", "--uri")
        self.assertIn(good[2], self.rows())

    def test_columns_without_a_header(self) -> None:
        self.done("csv", SAMPLES / "oath.csv", "--columns", "serial,secret,type,digits,period", "--owners",
                  SAMPLES / "owners.csv", "--period", "30", "--part")
        self.assertEqual(self.rows()["dave"][0], "HOTP/T60/8")
        self.assertEqual(self.rows()["bob"], ("HOTP/E/6", RFC_SECRET, "0"))

    def test_headers_that_lack(self) -> None:
        self.refused("NoColumn", "csv", SAMPLES / "vendor.csv")
        self.refused("NoColumn", "csv", SAMPLES / "vendor.csv", "--column", "secret=Key")
        self.refused("NotText", "csv", self.put("v.csv", b"secret\n\xff\n"))
        self.assertIn("line 2: ", self.refused("NotCsv", "csv", self.put("v.csv", 'secret,user\n"31"x,bob\n')))
        self.refused("NotCsv", "csv", self.put("v.csv", "secret\n%s\n" % ("3" * 200_000)))

    def test_words(self) -> None:
        wrong = ["--columns serial,sceret", "--column secret", "--column key=Seed", "--delimiter --"]
        for words in map(str.split, wrong):
            self.assertEqual(self.run_it("csv", SAMPLES / "vendor.csv", *words)[2], 2)
        file = self.put("v.csv", "31;x;bob;hotp\n")
        printed = self.done("csv", file, "--delimiter", ";", "--columns", "secret,-,user,type")
        self.assertTrue(printed.startswith("added bob: HOTP/E/6, 1 bytes, "))


class Owners(Case):
    """Who has which token: lists of LinOTP and privacyIDEA, in the form in which we know them."""

    def test_linotp(self) -> None:
        columns = "--columns", "serial,secret,type,digits,period"
        owners = "--owners", SAMPLES / "linotp-tokens.json"
        printed, said, status = self.run_it("csv", SAMPLES / "oath.csv", *columns, *owners)
        self.assertEqual(status, 0, said)
        self.assertEqual(self.rows()["grace"], ("HOTP/E/6", RFC_SECRET, "41"))
        self.assertIn("passed over: token 3000000002 is inactive", said)
        self.assertEqual(sorted(self.rows()), ["ann", "grace", "ivan"])

    @NEEDS_AES
    def test_privacyidea(self) -> None:
        self.done("pskc", SAMPLES / "pbkdf2-sha256.xml", "--password-file", self.put("password", "qwerty"),
                  "--owners", SAMPLES / "privacyidea-tokens.json")
        self.assertEqual(self.rows()["frank"], ("HOTP/E/6", b"12345678901234567891", "12"))

    def test_faults(self) -> None:
        words = "csv", SAMPLES / "oath.csv", "--columns", "serial,secret,type,digits,period", "--owners"
        self.refused("NoToken", *words, self.put("o.csv", "serial,user\n3000000009,bob\n"))
        self.refused("DuplicateSerial", *words, self.put("o.csv", "serial;user\n3000000001;bob\n3000000001;carol\n"))
        self.refused("NoSerial", *words, self.put("o.csv", "user\nbob\n"))
        self.refused("NotJson", *words, self.put("o.json", "{"))
        self.refused("NoTokens", *words, self.put("o.json", "{}"))
        self.refused("NoTokens", *words, self.put("o.json", "[" * 100_000 + "]" * 100_000))


class Phone(Case):
    def test_the_uri_of_the_key_uri_format(self) -> None:
        token = Token("", RFC_SECRET, "totp", digits=8, hash="SHA256", period=60)
        self.assertEqual(phone.uri_of(token, "My Site", "ann@example.org"),
                         "otpauth://totp/My%20Site:ann@example.org?secret=GEZDGNBVGY3TQOJQGEZDGNBVGY3TQOJQ"
                         "&issuer=My%20Site&algorithm=SHA256&digits=8&period=60")
        uri = phone.uri_of(Token("", b"1", "hotp", counter=3), "S", "u")
        self.assertTrue(uri.endswith("?secret=GE&issuer=S&algorithm=SHA1&digits=6&counter=3"))
        for issuer, account in ("a:b", "c"), ("a", "b:c"), ("", "c"):
            self.assertRaises(Fault, phone.uri_of, token, issuer, account)

    @NEEDS_QRENCODE
    def test_a_new_phone(self) -> None:
        picture = self.folder / "q.png"
        uri = self.done("phone", "bob", "--issuer", "Site", "--uri", "--png", picture).splitlines()[-1]
        kind, secret = self.rows()["bob"]
        self.assertEqual((kind, len(secret)), ("HOTP/T30/6", 20))
        self.assertEqual(read_secret(uri.split("secret=")[1].split("&")[0], "base32", ""), secret)
        self.assertEqual(stat.S_IMODE(picture.stat().st_mode), 0o600)
        self.assertEqual(picture.read_bytes()[:8], b"\x89PNG\r\n\x1a\n")
        self.done("phone", "carol", "--issuer", "Site", "--terminal", "--type", "hotp", "--digits", "8")
        self.assertEqual(self.rows()["carol"][::2], ("HOTP/E/8", "0"))

    @NEEDS_QRENCODE
    def test_faults_leave_no_picture(self) -> None:
        picture = self.folder / "q.png"
        self.refused("DuplicateUser", "phone", "ann", "--issuer", "Site", "--png", picture)
        self.put("cluster", "life 1\n")
        words = "bob", "--issuer", "Site", "--png", picture, "--cluster", self.cluster
        self.refused("refuses the new file", "phone", *words)
        self.assertFalse(picture.exists())
        self.put("q.png", "mine")
        self.assertEqual(self.run_it("phone", "bob", "--issuer", "Site", "--png", picture)[2], 1)
        self.assertEqual(picture.read_text(), "mine")
        self.assertEqual(self.run_it("phone", "bob", "--issuer", "Site")[2], 2)

    def test_no_secret_is_among_the_words(self) -> None:
        fake = self.folder / "bin"
        fake.mkdir()
        for name in "qrencode", "oathd":
            script = "#!/bin/sh\necho \"$0 $*\" >> %s/words\ncat >> %s/input\n" % (self.folder, self.folder)
            (fake / name).write_text(script)
            (fake / name).chmod(0o755)
        env = dict(ENVIRONMENT, PATH="%s:%s" % (fake, os.environ["PATH"]), OATHD=str(fake / "oathd"))
        command: list[Word] = [*ONBOARD, "phone", self.users, "bob", "--issuer", "Site", "--terminal"]
        subprocess.run(command, env=env, check=True, capture_output=True)
        secret = self.secret_of("bob")
        words = (self.folder / "words").read_text()
        self.assertEqual(len(words.splitlines()), 2)
        self.assertNotIn(secret.hex(), words)
        self.assertNotIn("secret=", words)
        self.assertIn("secret=", (self.folder / "input").read_text())


class Change(Case):
    """Rows that go, and rows that get another secret."""

    ROWS = ("# people of Berlin\nHOTP\tdan\t-\t3031\t5\nHOTP  dan.smith  -  3032\n# 3000000002\n"
            " HOTP/T60/8/SHA256 \teve\tword\t3033\r\nhotp fay - 3034\nHOTP/E/7 daN + 3035 9 1234567 2026-11-29\n"
            "HOTP/T30\tdane\t-\t3036")
    USERS = "dan", "dan.smith", "eve", "daN", "dane"

    def setUp(self) -> None:
        super().setUp()
        self.put("users", self.ROWS)

    def lines(self) -> list[str]:
        """Returns the lines of the users file."""
        return self.users.read_bytes().decode().split("\n")

    def test_a_user_is_retired_whatever_blanks_the_row_has(self) -> None:
        for gone in self.USERS:
            self.put("users", self.ROWS)
            before = self.lines()
            printed = self.done("retire", gone)
            self.assertRegex(printed, "^retired %s: HOTP[/A-Z0-9]*, line [0-9]+[^\n]*\n$" % gone)
            kept = [line for line in before if line.split()[1:2] != [gone]]
            if gone == "eve":
                kept.remove("# 3000000002")
            self.assertEqual(self.lines(), kept)
            self.assertEqual(sorted(self.rows()), sorted({*self.USERS} - {gone}))

    def test_the_serial_number_goes_with_the_token(self) -> None:
        told = "retired eve: HOTP/T60/8/SHA256, line 5, without the remark # 3000000002\n"
        self.assertEqual(self.done("retire", "eve"), told)
        self.assertNotIn("3000000002", self.users.read_text())
        self.put("users", "HOTP ann - 30\n# the phones of Berlin\nHOTP bob - 31\n")
        self.assertEqual(self.done("retire", "bob"), "retired bob: HOTP, line 3\n")
        self.assertEqual(self.lines(), ["HOTP ann - 30", "# the phones of Berlin", ""])

    def test_what_is_enrolled_can_be_retired(self) -> None:
        self.done("phone", "gus", "--issuer", "Site", "--uri")
        file = self.put("v.csv", "3000000009,3040,hal\n")
        self.done("csv", file, "--columns", "serial,secret,user", "--type", "hotp")
        for user in "gus", "hal":
            self.done("retire", user)
        self.assertEqual(self.users.read_bytes().decode(), self.ROWS + "\n")

    def test_no_row_and_two(self) -> None:
        for command in ("retire",), ("replace", "--issuer", "Site", "--uri"):
            for user in "bob", "da", "DAN", "dan ", " dan", "", "dan\t", "HOTP", "-", "fay", "3000000002", "of":
                said = self.refused("NoRow", command[0], *command[1:], "--", user)
                self.assertIn("users: NoRow: no row is that of %s\n" % user, said)
            self.users.write_text(self.ROWS + "\nHOTP dan - 3039\n")
            said = self.refused("DuplicateUser", command[0], *command[1:], "dan")
            self.assertIn("users: DuplicateUser: lines 2, 9 are rows of dan: ", said)
            self.users.write_text(self.ROWS)
        for line in "retire", "retire dan dan", "replace dan --uri", "replace dan --issuer Site":
            self.assertEqual(self.run_it(*line.split())[2], 2)
        self.users.unlink()
        said = "onboard: %s: No such file or directory\n" % self.users
        self.assertEqual(self.run_it("retire", "dan")[1:], (said, 1))

    def test_the_last_row(self) -> None:
        self.put("users", "# phones\nHOTP\tdan\t-\t3031\n")
        self.assertIn("dan would log in as before: stop the nodes", self.refused("LastRow", "retire", "dan"))

    def test_a_token_is_replaced_by_one_of_its_kind(self) -> None:
        kinds = {"dan": (b"0", "hotp", "digits=6&counter=0", 20), "dan.smith": (b"0", "hotp", "digits=6&counter=0", 20),
                 "eve": (None, "totp", "algorithm=SHA256&digits=8&period=60", 20),
                 "daN": (b"0", "hotp", "digits=7&counter=0", 20),
                 "dane": (None, "totp", "algorithm=SHA1&digits=6&period=30", 20)}
        before = {row.user: row for row in read_rows(self.users.read_bytes())}
        secrets = set()
        for user, (counter, kind, told, length) in kinds.items():
            printed, uri = self.done("replace", user, "--issuer", "Site", "--uri").splitlines()
            self.assertRegex(printed, "^replaced %s: HOTP/[/A-Z0-9]+, %d bytes, line [0-9]" % (user, length))
            row = {row.user: row for row in read_rows(self.users.read_bytes())}[user.encode()]
            old = before[user.encode()]
            self.assertEqual((row.type, row.password, row.rest), (old.type, old.password, [counter] if counter else []))
            secret = read_secret(uri.split("secret=")[1].split("&")[0], "base32", "")
            self.assertEqual((row.secret.decode(), len(secret)), (secret.hex(), length))
            self.assertTrue(uri.startswith("otpauth://%s/Site:%s?" % (kind, user)), uri)
            self.assertIn(told, uri)
            secrets.add(secret)
        self.assertEqual([row.user.decode() for row in read_rows(self.users.read_bytes())], list(self.USERS))
        self.assertEqual((len(secrets), self.lines()[4], len(self.lines())), (5, "hotp fay - 3034", 7))
        self.assertNotIn("3000000002", self.users.read_text())

    @NEEDS_QRENCODE
    def test_a_picture_of_the_new_secret(self) -> None:
        picture = self.folder / "q.png"
        self.refused("NoRow", "replace", "bob", "--issuer", "Site", "--png", picture)
        self.assertFalse(picture.exists())
        self.done("replace", "dan", "--issuer", "Site", "--png", picture, "--account", "dan@example.org")
        made = picture.read_bytes()[:8], stat.S_IMODE(picture.stat().st_mode)
        self.assertEqual(made, (b"\x89PNG\r\n\x1a\n", 0o600))
        self.assertIn("\u2580", self.done("replace", "dan", "--issuer", "Site", "--terminal"))

    def test_a_file_that_is_no_utf_8(self) -> None:
        self.users.write_bytes(b"HOTP ann - 30\nHOTP\tren\xe9\t-\t31\n")
        phones = "--issuer", "Site", "--uri"
        commands: list[tuple[str, str | bytes, tuple[str, ...]]] = [
            ("retire", "ann", ()), ("retire", b"ren\xe9", ()), ("replace", "ann", phones), ("phone", "gus", phones)]
        for command, user, words in commands:
            said = self.refused("NotText", command, user, *words)
            self.assertIn("line 2 of the users file: NotText: it is not UTF-8: iconv -f LATIN1", said)

    def test_mode_owner_lock_and_link(self) -> None:
        self.check_mode_owner_and_link("retire", "dan")
        self.check_mode_owner_and_link("replace", "eve", "--issuer", "Site", "--uri")
        folder = os.open(self.folder, os.O_RDONLY)
        self.addCleanup(os.close, folder)
        fcntl.flock(folder, fcntl.LOCK_EX)
        self.refused("Locked", "retire", "eve")
        self.refused("Locked", "replace", "eve", "--issuer", "Site", "--uri")

    def test_a_dry_run_and_a_file_that_oathd_refuses(self) -> None:
        before = self.users.read_bytes()
        self.assertEqual(self.done("retire", "dane", "--dry-run"), "would retire dane: HOTP/T30, line 8\n")
        self.assertEqual(self.done("replace", "dane", "--issuer", "Site", "--uri", "--dry-run"),
                         "would replace dane: HOTP/T30/6, 20 bytes, line 8\n")
        self.assertEqual(self.users.read_bytes(), before)
        self.users.write_bytes(before + b"\nHOTP gus - 30303\n")
        self.assertIn("oathd: users line 8: BadSecret", self.refused("refuses the new file", "retire", "dan"))
        self.done("retire", "gus")

    def test_what_members_compare(self) -> None:
        self.put("cluster", self.cluster.read_text() + "names word-of-a-trial\n")
        for command in ("retire", "dan"), ("replace", "eve", "--issuer", "Site", "--uri"):
            printed = self.done(*command, "--cluster", self.cluster)
            self.assertRegex(printed, "\nfingerprint [0-9a-f]{16}\nbook [0-9a-f]{16}\n")


class File(Case):
    WORDS = ("csv", SAMPLES / "oath.csv", "--columns", "user,secret,type,digits,period")

    def test_what_a_killed_process_left_is_removed(self) -> None:
        left = ["users.new-1", "users.new-77-0a0b0c0d"]
        others = ["users.new-x", "users.new", "other.new-1", "users.new-aB3dE6gH"]
        for name in left + others:
            self.put(name, "HOTP\tann\t-\t00ff\t7\n")
        self.done("phone", "gus", "--issuer", "Site", "--uri")
        names = {each.name for each in self.folder.iterdir()}
        self.assertEqual((names & {*left}, names & {*others}), (set(), {*others}))

    def test_a_group_that_may_do_nothing_need_not_be_kept(self) -> None:
        """As for a service, which isn't in the group of its user: a group with a right has to be kept."""
        for mode, owner, is_kept in (0o600, 0, True), (0o640, 0, False), (0o620, 0, False), (0o600, 1, False):
            self.users.chmod(mode)
            told = list(os.stat(self.users))
            told[stat.ST_UID], told[stat.ST_GID] = told[stat.ST_UID] + owner, told[stat.ST_GID] + 1
            before = os.stat_result(told)
            with mock.patch("os.fchown", side_effect=PermissionError), open(self.users) as file:
                if is_kept:
                    UsersFile.take_owner_and_mode(file.fileno(), before)
                else:
                    self.assertRaises(PermissionError, UsersFile.take_owner_and_mode, file.fileno(), before)
        self.users.chmod(0o600)

    def test_mode_owner_and_link_stay(self) -> None:
        self.check_mode_owner_and_link(*self.WORDS)

    def test_a_second_onboard_is_refused(self) -> None:
        folder = os.open(self.folder, os.O_RDONLY)
        self.addCleanup(os.close, folder)
        fcntl.flock(folder, fcntl.LOCK_EX)
        self.refused("Locked", *self.WORDS)

    def test_a_file_that_is_not_there(self) -> None:
        self.users.unlink()
        self.assertEqual(self.run_it(*self.WORDS)[1:], ("onboard: %s: No such file or directory\n" % self.users, 1))
        self.assertEqual(self.run_it(*self.WORDS, "--create")[2], 0)
        self.assertEqual(stat.S_IMODE(self.users.stat().st_mode), 0o600)

    def test_a_file_that_oathd_refuses(self) -> None:
        self.users.write_text("HOTP ann - 31\nHOTP ann - 32\n")
        self.assertIn("oathd: users line 2: DuplicateUser", self.refused("refuses the new file", *self.WORDS))

    def test_a_byte_order_mark(self) -> None:
        self.put("users", "\ufeffHOTP\tann\t-\t00ff\t7\n")
        self.refused("ByteOrderMark", "phone", "bob", "--issuer", "Site", "--uri")

    def test_what_members_compare_and_what_oathd_notes(self) -> None:
        self.put("users", "hotp\tann\t-\t00ff\t7\n")
        self.put("cluster", self.cluster.read_text() + "names word-of-a-trial\n")
        printed, said, status = self.run_it("phone", "bob", "--issuer", "Site", "--uri", "--cluster", self.cluster)
        self.assertEqual(status, 0, said)
        self.assertRegex(printed, "\nfingerprint [0-9a-f]{16}\nbook [0-9a-f]{16}\n")
        self.assertIn("oathd: note: the new file: ignored 1, first line 1: hotp\n", said)

    def test_others_who_may_read(self) -> None:
        self.users.chmod(0o644)
        self.assertIn("chmod 600", self.run_it(*self.WORDS, "--dry-run")[1])

    def test_a_dry_run_writes_nothing(self) -> None:
        before = self.users.read_bytes(), sorted(self.folder.iterdir())
        self.assertEqual(self.done(*self.WORDS, "--dry-run").count("would add"), 3)
        self.assertEqual((self.users.read_bytes(), sorted(self.folder.iterdir())), before)


class Cipher(unittest.TestCase):
    @NEEDS_AES
    def test_blocks_of_fips_197(self) -> None:
        for length, block in ((16, "69c4e0d86a7b0430d8cdb78070b4c55a"), (24, "dda97ca4864cdfe06eaf70a0ec0d7191"),
                              (32, "8ea2b7ca516745bfeafc49904b496089")):
            plain = aes.decipher_blocks(bytes(range(length)), bytes(16), bytes.fromhex(block))
            self.assertEqual(plain.hex(), "00112233445566778899aabbccddeeff")

    @NEEDS_AES
    def test_blocks_in_a_row_of_sp_800_38a(self) -> None:
        """CBC-AES128.Decrypt, section F.2.2."""
        key, vector = bytes.fromhex("2b7e151628aed2a6abf7158809cf4f3c"), bytes(range(16))
        data = bytes.fromhex("7649abac8119b246cee98e9b12e9197d5086cb9b507219ee95db113a917678b2"
                             "73bed6b8e3c1743b7116e69e222295163ff1caa1681fac09120eca307586e1a7")
        plain = ("6bc1bee22e409f96e93d7e117393172aae2d8a571e03ac9c9eb76fac45af8e51"
                 "30c81c46a35ce411e5fbc1191a0a52eff69f2445df4f9b17ad2b417be66c3710")
        self.assertEqual(aes.decipher_blocks(key, vector, data).hex(), plain)
        # The last byte of this text is that of a whole padding.
        self.assertEqual(aes.decipher_cbc(key, vector + data).hex(), plain[:-32])

    @NEEDS_AES
    def test_lengths_and_padding(self) -> None:
        for key, data in ((15, 32), (16, 16), (16, 33), (16, 0)):
            self.assertRaises(ValueError, aes.decipher_cbc, bytes(key), bytes(data))
        self.assertRaises(ValueError, aes.decipher_cbc, bytes(16), bytes(32))


class Machine(Case):
    """What a machine may lack, and how a checkout calls the program."""

    def test_a_machine_without_aes(self) -> None:
        """Python finds a package there that can't be imported. Plain secrets need none."""
        self.put("cryptography.py", "raise ImportError")
        env = {**ENVIRONMENT, "PYTHONPATH": "%s:%s" % (self.folder, TOP / "python")}
        key = self.put("psk", KEY_OF_FIGURE_6)
        for file, status, said in (
                ("figure-6.xml", 1, "onboard: AES: NotThere: install Debian's package python3-cryptography\n"),
                ("figure-2.xml", 0, "")):
            words: list[Word] = ["pskc", self.users, SAMPLES / file, "--name-by-serial", "--key-file", key]
            done = subprocess.run([*ONBOARD, *words, "--short-secrets"], capture_output=True, text=True, env=env)
            self.assertEqual((done.returncode, done.stderr), (status, said))

    def test_the_program_of_a_checkout(self) -> None:
        onboard = TOP / "examples/onboarding/onboard"
        command: list[Word] = [onboard, "phone", self.users, "bob", "--issuer", "Site", "--uri"]
        done = subprocess.run(command, capture_output=True, text=True, env={**os.environ, "OATHD": OATHD})
        self.assertEqual((done.returncode, done.stderr), (0, ""))
        self.assertIn("bob", self.rows())
