"""The acts of staff. Each outcome is some words, none of them a code or a secret."""
from __future__ import annotations

import re
import secrets
import subprocess
from typing import Any, Callable, Mapping, NamedTuple, Sequence

import wakdulg
from wakdulg_helpdesk.book import Book, Edit, User, duplicates, row_in, with_row, with_rows
from wakdulg_helpdesk.members import Members
from wakdulg_onboard import lists, phone
from wakdulg_onboard.tokens import NEW_BYTES, Fault, Token
from wakdulg_onboard.users_file import UsersFile

# The rows of a users file, and how many faults of `oathd check` are looked for.
MOST_ROWS, MOST_FAULTS = 10_000, 10
# The acts that change the users file.
CHANGES = frozenset({"enrol", "replace", "retire", "import"})
KINDS = {"totp": "An app that shows a new code every 30 seconds", "hotp": "A device that counts presses of a button"}
CODE = re.compile("[0-9]{6,8}")
Form = Mapping[str, str]


class Shown:
    """A new secret as a page shows it, and the kind of its token."""

    def __init__(self, uri: str, kind: str) -> None:
        self.uri, self.kind = uri, kind
        self.secret = uri.split("secret=")[1].split("&")[0]
        # qrencode has the URI from standard input, so `ps` doesn't show it.
        self.squares = Squares(phone.draw(uri, "ASCII").decode().splitlines())

    def spaced(self) -> str:
        """Returns the secret in blocks of four letters, to type."""
        return " ".join(self.secret[at:at + 4] for at in range(0, len(self.secret), 4))


class Act(NamedTuple):
    """An act that is ready: what can be refused without the cluster was looked at. `run` does it, and returns its
    outcome. `adds` is the name of a token whose row the users file has afterwards, and `takes` that of one whose row it
    hasn't any more. `shown` is the new secret. `rows` has the user and the type of each row that is new."""
    name: str
    user: str
    run: Callable[[], str]
    adds: str = ""
    takes: str = ""
    shown: Shown | None = None
    rows: Sequence[tuple[str, str]] = ()


class Squares:
    """A QR code as a path of a picture with squares of one unit."""

    def __init__(self, lines: list[str]) -> None:
        self.height, self.width, runs = len(lines), max(map(len, lines)) // 2, []
        for y, line in enumerate(lines):
            for run in re.finditer("#+", line[::2]):
                long = run.end() - run.start()
                runs.append("M%d %dh%dv1h-%dz" % (run.start(), y, long, long))
        self.path = "".join(runs)


def copied(outcome: tuple[bool, str]) -> str:
    """Returns the words for what the hook did."""
    is_done, said = outcome
    return "copied to the members" if is_done else "pending, NOT copied to all members: %s" % said


def kind_of(token: Token) -> str:
    """Returns the kind of a token in words, as pages have it."""
    return User(b"", token.type_word()).kind()


def new_token(name: str, kind: str, **more: Any) -> Token:
    """Returns a new token with random bytes of the system."""
    if not name:
        raise Fault("the form", "NoName", "give the name of the user")
    if kind not in KINDS:
        raise Fault("the form", "BadType", "choose one of both kinds")
    token = Token("the form", secrets.token_bytes(NEW_BYTES), kind, user=name, **more)
    token.check()
    return token


def token_in_place_of(user: User, kind: str) -> Token:
    """Returns a new token of a user: of a kind that the form names, else with all that the user's token has."""
    if kind:
        return new_token(user.text, kind)
    kind, period = ("totp", user.period()) if user.period() else ("hotp", 30)
    return new_token(user.text, kind, period=period, digits=user.digits(), hash=user.hash())


def read_codes(form: Form) -> tuple[str, str]:
    """Returns the two codes of a form that a cluster may take."""
    first, second = form.get("first", "").strip(), form.get("second", "").strip()
    if not CODE.fullmatch(first) or not CODE.fullmatch(second):
        raise Fault("the form", "BadCode", "each code of the user has 6 to 8 digits")
    if first == second:
        raise Fault("the form", "SameCode", "wait for the user's next code: both are the same")
    return first, second


class Desk:
    """What the acts work on. Each method that is named as an act makes it ready, and changes nothing."""

    def __init__(self, book: Book, members: Members | None, cluster: wakdulg.Cluster, staff: Callable[[], set[str]],
                 issuer: str) -> None:
        # A site without an operator's key has no members, and no act that wants them.
        self.book, self.members, self.cluster, self.staff, self.issuer = book, members, cluster, staff, issuer

    def protect(self, name: str) -> None:
        """Refuses to change the row of a member of staff: who could do that could act in that name."""
        if name in self.staff():
            raise Fault("staff", "Protected", "%s is staff, whose rows are changed on the host alone" % name)

    def unlock(self, user: User, form: Form) -> Act:
        """Has all members forget the failures of the user."""
        return Act("unlock", user.text, lambda: self.unlocked(user.name))

    def unlocked(self, name: bytes) -> str:
        """Unlocks a user, and returns what each member said."""
        if self.members is None:
            raise Fault("the site", "NoOperator", "it has no operator's key")
        return self.members.unlock(name)

    def resync(self, user: User, form: Form) -> Act:
        """Gives the cluster two codes in a row of the user's token."""
        codes = read_codes(form)
        return Act("resync", user.text, lambda: self.resynchronized(user, *codes))

    def resynchronized(self, user: User, first: str, second: str) -> str:
        """Resynchronizes a token, and returns what the cluster said. Nodes want the password that the row has."""
        row = row_in(UsersFile(self.book.path, create=False), user.name)
        password = row.password.decode("utf-8", "surrogateescape") if user.has_password else None
        try:
            return "resynchronized at factor %d" % self.cluster.resync(user.text, first, second, password).factor
        except wakdulg.Refused as refusal:
            raise Fault("the cluster", "refused", str(refusal)) from None

    def edited(self, name: str, user: str, edit: Edit, done: str, **more: Any) -> Act:
        """Returns an act that changes the users file, after a try that writes nothing."""
        self.book.try_change(edit)
        return Act(name, user, lambda: "%s; %s" % (done, copied(self.book.change(edit))), **more)

    def shown_of(self, token: Token) -> Shown:
        """Returns the secret of a new token as a page shows it."""
        return Shown(phone.uri_of(token, self.issuer, token.user or ""), kind_of(token))

    def replace(self, user: User, form: Form) -> Act:
        """Gives the user another secret, of the same kind if the form names none."""
        self.protect(user.text)
        token = token_in_place_of(user, form.get("kind", ""))
        shown = self.shown_of(token)
        return self.edited("replace", user.text, self.replacement(user, token), "replaced the token (%s)" % shown.kind,
                           adds=self.book.name_of(token), shown=shown, rows=[(user.text, token.type_word())])

    @staticmethod
    def replacement(user: User, token: Token) -> Edit:
        """Returns an edit that gives a user another token, and leaves the password."""
        def edit(users: UsersFile) -> bytes:
            fields = token.row("-").split(b"\t")
            fields[2] = row_in(users, user.name).password
            return with_row(user.name, user.mark, b"\t".join(fields))(users)
        return edit

    def retire(self, user: User, form: Form) -> Act:
        """Removes the row of the user."""
        self.protect(user.text)
        return self.edited("retire", user.text, with_row(user.name, user.mark, b""), "retired",
                           takes=(user.token or b"").decode())

    def enrol(self, form: Form) -> Act:
        """Adds a user with a new secret."""
        name = form.get("name", "").strip()
        self.protect(name)
        token = new_token(name, form.get("kind", ""))
        return self.edited("enrol", name, with_rows([token]), "enrolled", adds=self.book.name_of(token),
                           shown=self.shown_of(token), rows=[(name, token.type_word())])

    def import_rows(self, tokens: list[Token]) -> Act:
        """Adds the rows of all tokens, or none."""
        rows = [(token.user or "", token.type_word()) for token in tokens]
        for name, _ in rows:
            self.protect(name)
        names = ", ".join(name for name, _ in rows[:20]) + (" .." if len(rows) > 20 else "")
        done = "added %d user%s" % (len(rows), "s" * (len(rows) > 1))
        return self.edited("import", names, with_rows(tokens), done, adds=self.book.name_of(tokens[0]), rows=rows)

    def check_import(self, data: bytes, secret_form: str, kind: str | None) -> tuple[list[Token], list[str]]:
        """Returns the tokens of a CSV file, and each fault of it. `oathd check` reads the rows that they would have."""
        words = ImportWords(secret_form, kind, delimiter_of(data))
        found, _ = lists.read_csv(data, "file", words, words)
        faults: list[str] = []
        good: list[Token] = []
        for each in found:
            try:
                if isinstance(each, Fault):
                    raise each
                each.check()
                self.protect(each.user or "")
                good.append(each)
            except Fault as fault:
                faults.append(str(fault))
        twice = [str(fault) for fault in duplicates(UsersFile(self.book.path, create=False), good)]
        good = [token for token in good if not any(fault.startswith(token.place + ":") for fault in twice)]
        return good, sorted(faults + twice, key=line_of) + self.oathd_faults(good)

    def oathd_faults(self, tokens: list[Token]) -> list[str]:
        """Returns what `oathd check` says of the rows alone, one fault after the other: not too many, since each costs
        a run over all rows."""
        rows = [(token, token.row("-")) for token in tokens]
        faults: list[str] = []
        if len(rows) > MOST_ROWS:
            return ["the file: TooMany: it has %d rows, and a users file has %d at most" % (len(rows), MOST_ROWS)]
        while rows and len(faults) < MOST_FAULTS:
            done = subprocess.run([self.book.oathd, "check", "/dev/stdin", "--cluster", self.book.cluster],
                                  input=b"".join(row.split(b"\n", row.count(b"\n") - 1)[-1] for _, row in rows),
                                  capture_output=True)
            said = done.stderr.decode("utf-8", "replace").strip()
            if done.returncode == 0:
                break
            number = said.partition("users line ")[2].partition(":")[0]
            if not number.isdigit() or int(number) > len(rows):
                faults.append("oathd check: " + said)
                break
            token, _ = rows.pop(int(number) - 1)
            name, _, own = said.split(": ", 2)[2].partition("\n")
            faults.append("%s: %s: %s" % (token.place, name, own.partition(": ")[2] or own.strip()))
        if len(faults) == MOST_FAULTS:
            faults.append("the file: oathd check: more faults are not looked for")
        return faults


class ImportWords:
    """How `lists.read_csv` reads a file: a header with the names of fields."""
    columns, column, digits, period, hash = None, (), 6, 30, "SHA1"

    def __init__(self, secret_form: str, kind: str | None, delimiter: str = ",") -> None:
        self.secrets, self.kind, self.delimiter = secret_form, kind, delimiter


def delimiter_of(data: bytes) -> str:
    """Returns what parts the names of a header: a comma, or the semicolon that spreadsheets write in many countries."""
    header = next((line for line in data.splitlines() if line.strip() and not line.startswith(b"#")), b"")
    return ";" if header.count(b";") > header.count(b",") else ","


def line_of(fault: str) -> int:
    """Returns the number of the line that a fault names, or 0."""
    number = fault.partition("line ")[2].partition(":")[0]
    return int(number) if number.isdigit() else 0
