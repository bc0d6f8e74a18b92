"""The pages of the helpdesk: what staff see, and what they do."""
from __future__ import annotations

import json
import re
import time
from functools import partial
from itertools import islice, takewhile
from typing import Any, Callable, Iterator, NamedTuple, NoReturn
from urllib.parse import urlencode

from flask import Flask, Response, abort, jsonify, redirect, render_template, request
from flask.typing import ResponseReturnValue as Reply

import wakdulg
from wakdulg_helpdesk import record_view, web, words
from wakdulg_helpdesk.acts import CHANGES, KINDS, Act, Shown
from wakdulg_helpdesk.book import User
from wakdulg_helpdesk.everybody import MOST, Everybody
from wakdulg_helpdesk.keeping import Kept
from wakdulg_helpdesk.members import Logs, Members, Table, settled
from wakdulg_helpdesk.naming import NO_NAMES
from wakdulg_helpdesk.passwords import Passwords
from wakdulg_helpdesk.record import BEGINS, REFUSED, Line, second_of
from wakdulg_helpdesk.sessions import Session, is_same
from wakdulg_helpdesk.staff import ROLES, hashes_of, rights_of
from wakdulg_helpdesk.verdict import verdict
from wakdulg_helpdesk.waiting import Asked, Waiting
from wakdulg_helpdesk.web import NOT_BEGUN, NOT_KEPT, Stop, at_moment, moment_of, to_hex
from wakdulg_onboard.tokens import Fault, Token

MOST_FOUND, MOST_LINES, MOST_ACTS = 50, 10, 200
ACTS = {
    "unlock": ("Unlock", "All members forget the failures of this user. Whoever guesses can guess again."),
    "resync": ("Resynchronize", "Two codes in a row of the user's token set its counter. Both are used up."),
    "replace": ("Replace the phone", "The user gets a new secret. The old phone's codes are refused when more than half"
                                     " of the members have the new row."),
    "retire": ("Retire", "The row is removed. The user logs in no more when more than half of the members know that."),
}
GOOD_STILL = "Nothing was done, and your code is good still: %s"
NO_RIGHT = "Your role has no right to do that. The file of staff says who may."
OWN = "You asked for it. Another one of staff has to confirm it."
ASKED = "It waits for another one of staff until %s."
LOST = "The browser of %s has the new secret no more. Nothing was done. Ask for it again."
# The acts that two of staff make if the site says so, and the acts whose number in an hour is limited.
OF_TWO = frozenset({"replace", "import"})
RETIRED = (BEGINS, "retired", "the users file is changed")
COUNTED, HOUR = ROLES["all"], 3600
# The addresses that a cluster without names refuses, and the act that the record has of a form that was sent there.
CHANGING = {"/enrol": "enrol", "/import": "import", "/import/<name>": "import", "/users/<name>/replace": "replace",
            "/users/<name>/retire": "retire", "/users/<name>/secret": "confirm", "/users/<name>/seen": "confirm",
            "/waiting": "confirm", "/waiting/<id>": "confirm"}
PENDING = "Pending since %s: not all members have the users file. It is copied again by itself. %s"


class Found(NamedTuple):
    """A page of a search: the text, the users of the page, what is said of their number, and the paths of the page
    before it and of the one after it, or "". `total` is the number of all users that were found."""
    text: str
    users: list[User]
    total: int
    said: str
    former: str
    next: str


def found_in(users: list[User], text: str, page: str) -> Found:
    """Returns a page of the users that a search found. A number that no page has leads to the nearest one."""
    pages = max(1, -(-len(users) // MOST_FOUND))
    number = min(max(1, int(page) if re.fullmatch("[0-9]{1,9}", page) else 1), pages)
    begin = (number - 1) * MOST_FOUND
    shown = users[begin:begin + MOST_FOUND]
    said = "%d found" % len(users)
    if pages > 1:
        said += ", %d to %d are shown" % (begin + 1, begin + len(shown))
    former, after = ("/?" + urlencode({"q": text, "page": each}) if 1 <= each <= pages else ""
                     for each in (number - 1, number + 1))
    return Found(text, shown, len(users), said, former, after)


class Site(web.Pages):
    """What the helpdesk answers."""
    name, by = "Helpdesk", "by your helpdesk"
    places = [("/", "Search"), ("/enrol", "Enrol"), ("/import", "Import"), ("/waiting", "Waiting"),
              ("/cluster", "Cluster"), ("/record", "Record")]

    def __init__(self, parts: web.Parts, members: Members, table: Table, logs: Logs, staff: str, most_acts: int,
                 is_of_two: bool) -> None:
        super().__init__(parts)
        self.naming = self.book.naming
        self.members, self.table, self.logs, self.everybody = members, table, logs, Everybody(members, self.book)
        self.staff, self.passwords = staff, Passwords(lambda: hashes_of(staff))
        self.most_acts, self.waiting, self.of_two = most_acts, Waiting(), OF_TWO if is_of_two else frozenset()

    # ---- Who asks

    def is_welcome(self, session: Session) -> bool:
        """Returns whether the user is staff still."""
        return session.user in self.desk.staff()

    def ask(self, user: str, call: Callable[[], wakdulg.Accepted]) -> tuple[Any, tuple[str, int] | None]:
        """Asks the cluster. The log has names of staff alone: another one may be a password in the wrong field."""
        return super().ask(user if user in self.desk.staff() else "", call)

    def check_login(self, user: str) -> wakdulg.Accepted:
        """The password first: a wrong one costs no code, and closes no token."""
        self.passwords.check(user, request.form.get("password", ""))
        return self.check_code(user)

    def check_code(self, user: str) -> wakdulg.Accepted:
        """Returns what the cluster accepts of the code of a form, or raises its refusal."""
        return self.cluster.check(user, request.form.get("code", "").strip())

    def note_refusal(self, user: str, refusal: wakdulg.Refused) -> None:
        """A name that isn't staff may be a password in the wrong field."""
        self.note(user if user in self.desk.staff() else "", "log in", "", "%s: %s" % (REFUSED, refusal))

    # ---- Who may do what

    def rights(self, session: Session) -> frozenset[str]:
        """Returns the acts that the user of a session may make."""
        rights = rights_of(self.staff).get(session.user, frozenset())
        return rights if self.naming.may_change else rights - CHANGES

    def places_of(self, session: Session) -> list[tuple[str, str]]:
        wants = {"/enrol": "enrol", "/import": "import"}
        return [(path, name) for path, name in self.places
                if (self.of_two if path == "/waiting" else wants.get(path, "") in {"", *self.rights(session)})]

    def entitle(self, session: Session, act: str) -> None:
        """Stops whoever has no right to an act."""
        if act not in self.rights(session):
            self.forbid(session, act, "no right", NO_RIGHT)

    def forbid(self, session: Session, act: str, why: str, fault: str) -> NoReturn:
        """Stops an act before anything is asked for. The record has a form that was sent."""
        if request.method == "POST":
            session.alert = self.note(session.user, act, "", "%s: %s" % (REFUSED, why))
        raise Stop((self.page("message.html", "Not allowed", session, fault=fault), 403))

    def refuse_change(self, act: str, **_: str) -> NoReturn:
        """Answers each address of an act that changes the users file, in a cluster without names."""
        session = self.posted() if request.method == "POST" else self.own_session()
        self.forbid(session, act, "no names", NO_NAMES)

    def too_many(self, who: str) -> str:
        """Looks how many acts somebody began within an hour, as the record has it."""
        moments = [line["when"] for line in self.record.acts(time.time() - HOUR, who) if line.get("who") == who
                   and line.get("act") in COUNTED and not line.get("outcome", "").startswith(REFUSED)]
        if len(moments) < self.most_acts:
            return ""
        again = second_of(moments[self.most_acts - 1]) + HOUR
        return "You began %d acts within an hour. The next one is possible at %s." % (len(moments), at_moment(again))

    # ---- Pages

    def warning(self) -> str:
        since = self.book.pending()
        return "" if since is None else PENDING % (at_moment(since), words.of_fault(self.book.said))

    def user_of(self, name: str, is_retired: bool = False) -> User:
        """Returns the user of a path. With `is_retired` it may be one of no row."""
        try:
            raw = bytes.fromhex(name)
            user = self.book.find(raw) or (User(raw) if is_retired else None)
        except ValueError:
            user = None
        if user is None:
            raise Stop((self.page("message.html", "No such user", session=self.session(),
                                  fault="The users file has no such user."), 404))
        return user

    def found(self) -> Found:
        """Returns the page of a search that an address names."""
        text = request.args.get("q", "")
        return found_in(self.book.search(text), text, request.args.get("page", ""))

    def show_search(self) -> Reply:
        session = self.own_session()
        return self.page("search.html", "Search", session, found=self.found(), fault=words.of_fault(self.book.fault),
                         may_enrol="enrol" in self.rights(session))

    def search(self) -> Reply:
        begin = time.thread_time()
        if self.session() is None:
            return jsonify({}), 401
        found = self.found()
        told = {**found._asdict(), "users": [[user.hex, user.text, user.described()] for user in found.users]}
        answer = Response(json.dumps(told), content_type="application/json")
        answer.headers["Server-Timing"] = "search;dur=%.1f" % (1000 * (time.thread_time() - begin))
        return answer

    def states_of(self, user: User) -> dict[str, Any]:
        """Returns what a page tells of the members and a user."""
        states, now = self.members.states(user), int(time.time())
        what = "have the row" if user.token else "have no row of the user"
        return {"user": user, "states": states, "settled": settled(states, what, self.naming), "now": now,
                "naming": self.naming, "verdict": verdict(user, states, now, self.naming)}

    def outcome_of(self, line: Line) -> str:
        """Returns the outcome of an act. One that begins in the record and has no outcome was lost midway, or is being
        done: the users file tells how far it came."""
        if line.get("outcome") != BEGINS:
            return str(line.get("outcome", ""))
        what = "look at the members"
        if line.get("adds"):
            what = "the users file %s the new row" % ("has" if self.book.has(line["adds"]) else "hasn't")
        elif line.get("takes"):
            what = "the users file %s the row" % ("still has" if self.book.has(line["takes"]) else "hasn't")
        return "begun at %s, its end isn't known: %s" % (moment_of(line), what)

    def done_to(self, user: User) -> dict[str, Any]:
        """Returns what a page tells of the acts on a user."""
        done = self.record.last(MOST_LINES, user.text)
        latest = takewhile(lambda line: not is_settling(line), done)
        return {"done": done, "unfinished": [line for line in latest if line.get("outcome") == BEGINS]}

    def show_user(self, name: str) -> Reply:
        session, user = self.own_session(), self.user_of(name)
        acts = {act: texts for act, texts in ACTS.items() if act in self.rights(session)}
        waiting = [asked for asked in self.waiting.all() if asked.act.user == user.text]
        return self.page("user.html", user.text, session, acts=acts, answers=self.logs.last(user.name, MOST_LINES),
                         waiting=waiting, **self.done_to(user), **self.states_of(user))

    def show_retired(self, name: str) -> Reply:
        """Which members have a row of a user still, whom the file has no more."""
        session, user = self.own_session(), self.user_of(name, is_retired=True)
        if user.token:
            return redirect("/users/%s" % user.hex, 303)
        return self.page("retired.html", "%s has no row" % user.text, session, **self.done_to(user),
                         **self.states_of(user))

    def show_states(self, name: str) -> Reply:
        """A part of a page: which members have the row. It doesn't keep the session alive."""
        if self.session(is_used=False) is None:
            return "", 401
        return render_template("states.html", **self.states_of(self.user_of(name, is_retired=True)))

    def told(self, table: dict[str, Any]) -> dict[str, Any]:
        """Returns a table with what the page says of it. Members that all serve an older users file are well, and the
        file isn't in force."""
        pending = "" if self.book.pending() is None else "the members are well, and not all have the users file"
        rows = [[*row[:-1], words.of_note(row[-1], self.naming.notes)] for row in table["rows"] if row]
        return {**table, "rows": rows, "said": table["said"] or pending or "all members are well"}

    def show_cluster(self) -> Reply:
        session = self.own_session()
        return self.page("cluster.html", "The cluster", session, table=self.told(self.table.now()[1]), **self.lists())

    def show_lists(self) -> Reply:
        """A part of the page of the cluster. It doesn't keep the session alive."""
        if self.session(is_used=False) is None:
            return "", 401
        return render_template("lists.html", **self.lists())

    def lists(self) -> dict[str, Any]:
        """Returns what a page tells of all users."""
        return {"lists": self.everybody.now(), "most": MOST, "naming": self.naming}

    def events(self) -> Reply:
        """Sends a table whenever there is a new one, while the session lives. It doesn't keep the session alive."""
        if self.session(is_used=False) is None:
            return "", 401
        # A place is given back when the stream ends, and a HEAD has none.
        if request.method != "GET" or not self.table.places.acquire(blocking=False):
            return "", 503
        name = self.cookie()

        def tell() -> Iterator[str]:
            try:
                number = 0
                while (session := self.sessions.find(name, is_used=False)) and session.user in self.desk.staff():
                    number, table = self.table.after(number)
                    yield "data: %s\n\n" % json.dumps(self.told(table))
                yield "event: over\ndata: over\n\n"
            finally:
                self.table.places.release()
        return Response(tell(), content_type="text/event-stream", headers={"X-Accel-Buffering": "no"})

    def show_record(self) -> Reply:
        session, query = self.own_session(), record_view.query_of(request.args)
        done = list(islice((line for line in self.record.acts() if record_view.takes(query, line)), MOST_ACTS))
        return self.page("record.html", "What staff did", session, done=done, query=query, words=record_view.ACTS,
                         most=MOST_ACTS, export="/record.csv?" + urlencode(query))

    def export_record(self) -> Reply:
        """Sends all acts that the filter takes, the latest first."""
        self.own_session()
        query = record_view.query_of(request.args)
        found = (line for line in self.record.acts() if record_view.takes(query, line))
        return Response(record_view.as_csv(found, self.outcome_of), content_type="text/csv; charset=utf-8",
                        headers={"Content-Disposition": "attachment; filename=record.csv"})

    # ---- Acts

    def words_of(self, fault: Exception) -> str:
        return words.of_fault(fault, self.naming.answers)

    def perform(self, session: Session, act: Act) -> tuple[str, int]:
        """Does an act after the second code of staff, or asks another one of staff for it. Returns "" and 303, or a
        fault and its status."""
        if refusal := self.hindrance(session.user) or self.second_code(session, act):
            return refusal
        return self.ask_another(session, act) if self.wants_two(act) else self.carry_out(session, act)

    def wants_two(self, act: Act) -> bool:
        """Returns whether an act wants another one of staff. A user who was retired and is enrolled again has a new
        phone, as after a replacement."""
        if act.name != "enrol" or not self.of_two:
            return act.name in self.of_two
        done = self.record.last(MOST_ACTS, act.user)
        return any(line.get("act") == "retire" and line.get("outcome", "").startswith(RETIRED) for line in done)

    def second_code(self, session: Session, act: Act) -> tuple[str, int] | None:
        """Returns the text and the status of a refusal of the second code of staff, or None."""
        outcome, refusal = self.ask(session.user, lambda: self.check_code(session.user))
        if refusal:
            session.alert = self.note(session.user, act.name, act.user, REFUSED + ": the second code")
        else:
            session.factor = outcome.factor
        return refusal

    def path_after(self, act: Act) -> str:
        """Returns the page that follows an act."""
        if self.wants_two(act):
            return "/waiting"
        page = "/secret" if act.shown else "/retired" if act.name == "retire" else ""
        return "/" if act.name == "import" else "/users/%s%s" % (to_hex(act.user), page)

    def confirmation(self, session: Session, user: User, act: str, fault: str = "", status: int = 200) -> Reply:
        title, what = ACTS[act]
        seen = self.sessions.mark(user.mark)
        return self.page("confirm.html", "%s: %s" % (title, user.text), session, user=user, act=act, button=title,
                         what=what, seen=seen, kinds=KINDS, fault=fault), status

    def show_act(self, name: str, act: str) -> Reply:
        session, user = self.own_session(), self.user_of(name)
        if act not in ACTS:
            abort(404)
        self.entitle(session, act)
        return self.confirmation(session, user, act)

    def do_act(self, name: str, act: str) -> Reply:
        session, user = self.posted(), self.user_of(name)
        if act not in ACTS:
            abort(404)
        self.entitle(session, act)
        if not is_same(request.form.get("seen", ""), self.sessions.mark(user.mark)):
            return self.confirmation(session, user, act, "The row was changed meanwhile. Nothing was done.", 409)
        try:
            ready = getattr(self.desk, act)(user, request.form)
        except (Fault, OSError) as fault:
            return self.confirmation(session, user, act, GOOD_STILL % words.of_fault(fault), 409)
        told, status = self.perform(session, ready)
        return self.confirmation(session, user, act, told, status) if told else redirect(self.path_after(ready), 303)

    def show_enrol(self, fault: str = "", status: int = 200) -> Reply:
        session = self.own_session()
        self.entitle(session, "enrol")
        return self.page("enrol.html", "Enrol a user", session, kinds=KINDS, fault=fault,
                         kind=request.form.get("kind", "totp"), name=request.values.get("name", "")), status

    def enrol(self) -> Reply:
        session = self.posted()
        self.entitle(session, "enrol")
        try:
            ready = self.desk.enrol(request.form)
        except (Fault, OSError) as fault:
            return self.show_enrol(GOOD_STILL % words.of_fault(fault), 409)
        told, status = self.perform(session, ready)
        return self.show_enrol(told, status) if told else redirect(self.path_after(ready), 303)

    # ---- Acts of two

    def ask_another(self, session: Session, act: Act) -> tuple[str, int]:
        """Lets an act wait for another one of staff. Its secret is kept for the browser of whoever asks."""
        try:
            path = self.keep(session, act)
        except OSError as fault:
            return NOT_KEPT % words.of_system(fault), 503
        if self.note(session.user, act.name, act.user, "asks another one of staff"):
            self.keeper.forget(path)
            return NOT_BEGUN, 503
        asked = self.waiting.add(session.user, act)
        session.notice = "%s. %s" % (self.title_of(asked), ASKED % at_moment(asked.ends))
        return "", 303

    @staticmethod
    def title_of(asked: Asked) -> str:
        """Returns the title of an act that waits."""
        titles = {**{act: texts[0] for act, texts in ACTS.items()}, "import": "Import", "enrol": "Enrol"}
        return "%s: %s" % (titles[asked.act.name], asked.act.user)

    def show_waiting(self) -> Reply:
        session = self.own_session()
        return self.page("waiting.html", "What waits for another one of staff", session, waiting=self.waiting.all())

    def asked_for(self, session: Session, id: str) -> Asked:
        """Returns what waits under an id, or stops if nothing does."""
        asked = self.waiting.find(id)
        if asked is None:
            gone = "It was confirmed, or its hour is over."
            raise Stop((self.page("message.html", "Nothing waits here", session, fault=gone), 404))
        return asked

    def show_asked(self, id: str, fault: str = "", status: int = 200) -> Reply:
        session = self.own_session()
        asked = self.asked_for(session, id)
        return self.page("asked.html", self.title_of(asked), session, asked=asked, fault=fault,
                         is_own=asked.who == session.user), status

    def confirm_asked(self, id: str) -> Reply:
        """Does what another one of staff asked for, after a code of this one."""
        session = self.posted()
        asked = self.asked_for(session, id)
        act = asked.act
        self.entitle(session, act.name)
        if asked.who == session.user:
            session.alert = self.note(session.user, act.name, act.user, REFUSED + ": confirmed by who asked")
            return self.show_asked(id, OWN, 403)
        if refusal := self.hindrance(session.user) or self.second_code(session, act):
            return self.show_asked(id, *refusal)
        try:
            told, status = self.confirmed(session, self.waiting.take(id))
        except Fault as fault:
            told, status = words.of_fault(fault), 409
        if told:
            return self.page("message.html", self.title_of(asked), session, fault=told), status
        return redirect("/" if act.name == "import" else "/users/" + to_hex(act.user), 303)

    def confirmed(self, session: Session, asked: Asked) -> tuple[str, int]:
        """Does the act of who asked for it, if that one has the right still, and a browser has the secret."""
        if asked.act.name not in rights_of(self.staff).get(asked.who, frozenset()):
            return "%s has no right to it any more. Nothing was done." % asked.who, 403
        path = self.keeper.path_of(asked.act.adds) if asked.act.shown else ""
        if asked.act.shown and not path:
            return LOST % asked.who, 409
        return self.carry_out(session, asked.act, path, asked=asked.who)

    # ---- New secrets

    def unconfirmed(self, session: Session) -> list[Kept]:
        """Returns the secrets that this member of staff made in this browser, and hasn't confirmed."""
        return [kept for kept in self.kept() if kept.owner == session.user]

    def kept_of(self, session: Session, user: User) -> Kept | None:
        """Returns the new secret of a user that this browser may see, or None."""
        return next((kept for kept in self.unconfirmed(session) if kept.user == user.text), None)

    def show_secret(self, name: str) -> Reply:
        """Shows a new secret until staff say that the phone has it."""
        session, user = self.own_session(), self.user_of(name)
        kept = self.kept_of(session, user)
        return self.page("secret.html", "The new phone of %s" % user.text, session,
                         shown=Shown(kept.uri, kept.kind) if kept else None, **self.states_of(user))

    def confirm_seen(self, name: str) -> Reply:
        session, user = self.posted(), self.user_of(name)
        kept = self.kept_of(session, user)
        if kept:
            self.keeper.forget(kept.path)
            session.notice = "The phone of %s has the new secret." % user.text
            session.alert = self.note(session.user, "confirm", user.text, "the phone has the new secret")
        return redirect("/users/" + user.hex, 303)

    def show_import(self, fault: str = "", status: int = 200) -> Reply:
        session = self.own_session()
        self.entitle(session, "import")
        return self.page("import.html", "Import users", session, fault=fault), status

    def dry_run(self) -> Reply:
        """Reads a file and keeps its rows in the session, since they have secrets that no page may have."""
        session, file = self.posted(), request.files.get("file")
        self.entitle(session, "import")
        try:
            form, kind = request.form.get("secrets"), request.form.get("kind")
            data = file.read() if file else b""
            form, kind = "base32" if form == "base32" else "hex", kind if kind in KINDS else None
            tokens, faults = self.desk.check_import(data, form, kind)
        except Fault as fault:
            return self.show_import(words.of_fault(fault), 400)
        name = self.sessions.new_name()[:16]
        session.imports = {name: (tokens, faults)}
        return redirect("/import/" + name, 303)

    def kept_import(self, session: Session, name: str) -> tuple[list[Token], list[str]]:
        if name not in session.imports:
            raise Stop((self.page("message.html", "No such import", session, fault="It is done, or is too old."), 404))
        return session.imports[name]

    def show_dry_run(self, name: str, fault: str = "", status: int = 200) -> Reply:
        session = self.own_session()
        tokens, faults = self.kept_import(session, name)
        rows = [(token.user, token.type_word(), token.place) for token in tokens]
        return self.page("dry-run.html", "Import: dry run", session, rows=rows, faults=faults, fault=fault), status

    def do_import(self, name: str) -> Reply:
        session = self.posted()
        self.entitle(session, "import")
        tokens, faults = self.kept_import(session, name)
        if faults or not tokens:
            return self.show_dry_run(name, "A file with a fault isn't imported.", 409)
        try:
            ready = self.desk.import_rows(tokens)
        except (Fault, OSError) as fault:
            return self.show_dry_run(name, GOOD_STILL % words.of_fault(fault), 409)
        told, status = self.perform(session, ready)
        if told:
            return self.show_dry_run(name, told, status)
        session.imports = {}
        return redirect(self.path_after(ready), 303)


def is_settling(line: Line) -> bool:
    """Returns whether an act says what holds of a row, whatever was lost midway before it."""
    is_done = not str(line.get("outcome")).startswith((BEGINS, REFUSED, "failed"))
    return is_done and line.get("act") in ("enrol", "replace", "retire", "confirm")


def make_application(site: Site) -> Flask:
    """Returns the application of a helpdesk."""
    routes: list[web.Route] = [
        ("/", site.show_search, "GET"), ("/search.json", site.search, "GET"), ("/login", site.show_login, "GET"),
        ("/login", site.log_in, "POST"), ("/logout", site.log_out, "POST"), ("/cluster", site.show_cluster, "GET"),
        ("/cluster/events", site.events, "GET"), ("/cluster/lists", site.show_lists, "GET"),
        ("/record", site.show_record, "GET"), ("/record.csv", site.export_record, "GET"),
        ("/enrol", site.show_enrol, "GET"), ("/enrol", site.enrol, "POST"), ("/import", site.show_import, "GET"),
        ("/import", site.dry_run, "POST"), ("/import/<name>", site.show_dry_run, "GET"),
        ("/import/<name>", site.do_import, "POST"), ("/users/<name>", site.show_user, "GET"),
        ("/users/<name>/states", site.show_states, "GET"), ("/users/<name>/secret", site.show_secret, "GET"),
        ("/waiting", site.show_waiting, "GET"), ("/waiting/<id>", site.show_asked, "GET"),
        ("/waiting/<id>", site.confirm_asked, "POST"),
        ("/users/<name>/seen", site.confirm_seen, "POST"), ("/users/<name>/retired", site.show_retired, "GET"),
        ("/users/<name>/<act>", site.show_act, "GET"), ("/users/<name>/<act>", site.do_act, "POST"),
    ]
    if not site.naming.may_change:
        routes = [route for route in routes if route[0] not in CHANGING]
        routes += [(path, partial(site.refuse_change, act), method) for path, act in CHANGING.items()
                   for method in ("GET", "POST")]
    application = web.make_application(site, routes)
    said = (words.of_answer, words.of_fault, words.of_outcome)
    application.jinja_env.filters.update({each.__name__: partial(each, answers=site.naming.answers) for each in said})
    return application
