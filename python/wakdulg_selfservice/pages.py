"""The pages of the self-service: what users see, and what they do."""
from __future__ import annotations

import secrets
import time
from pathlib import Path
from typing import Any, Callable, Sequence

from flask import Flask, Response, redirect, request
from flask.typing import ResponseReturnValue as Reply

import wakdulg
from wakdulg_helpdesk import web, words
from wakdulg_helpdesk.acts import Act, Shown
from wakdulg_helpdesk.book import User
from wakdulg_helpdesk.keeping import Kept
from wakdulg_helpdesk.record import BEGINS, Line
from wakdulg_helpdesk.sessions import Session, is_same
from wakdulg_onboard.tokens import Fault

CHANGED = "The row was changed meanwhile. Nothing was done."
NOT_YET = "The cluster didn't accept that code. It takes a new phone within some seconds: wait for the next code, " \
          "and give it with your password. Each wrong one closes the token for some seconds."
TOO_LATE = "For %d seconds the cluster accepted no code of the new phone. Look whether the phone has the new account," \
           " and whether its clock is right. Replace the phone again, or ask your helpdesk: the old phone is refused."
# A replaced token keeps its row in the members' databases, which have room for 65,536.
MOST_A_DAY, DAY = 3, 24 * 3600
# How far back the record is read for what a user is told at a login.
GREETING = 90 * DAY
# The record of this site has no replacement by the helpdesk, if that has a record of its own: the token tells.
GREETED_SINCE = "Your helpdesk gave you another phone after %s. If you didn't ask for it, tell your helpdesk now."
GREETED = "Your phone was replaced at %s %s. If that was neither you nor asked for by you, tell your helpdesk now."
# The outcomes of replacements that may have changed the row.
REPLACED = (BEGINS, "replaced the token", "the users file is changed")
TOO_MANY = "You replaced the phone %d times within a day. Ask your helpdesk." % MOST_A_DAY


def field(name: str) -> str:
    """Returns a field of the form, or ""."""
    return request.form.get(name, "")


def code(name: str) -> str:
    """Returns a field that has a code."""
    return field(name).strip()


def is_replacement(line: Line, user: str) -> bool:
    """Returns whether an act of the record may have changed the user's phone."""
    of = line.get("user"), line.get("act")
    return of == (user, "replace") and str(line.get("outcome")).startswith(REPLACED)


class Site(web.Pages):
    """What the self-service answers. The cluster checks each code with the password in one line."""
    name, by = "My token", "on the page for users"
    templates = (Path(__file__).resolve().parent / "templates", *web.Pages.templates)

    def __init__(self, parts: web.Parts, acts: Sequence[str], late: float) -> None:
        super().__init__(parts)
        self.acts, self.late = acts, late
        titles = [("resync", "/resync", "Resynchronize"), ("replace", "/replace", "Replace the phone")]
        self.places = [("/", "My token")] + [(path, title) for act, path, title in titles if act in self.acts]

    # ---- Who asks

    def user_of(self, name: str) -> User | None:
        """Returns the user of a name, if the cluster checks a password of that user, and the user isn't staff."""
        user = self.book.find(name.encode("utf-8", "replace"))
        return user if user and user.has_password and name not in self.desk.staff() else None

    def row_of(self, name: str) -> bytes:
        user = self.user_of(name)
        return user.mark if user else b""

    def is_welcome(self, session: Session) -> bool:
        """Returns whether the row is the one of the login: a session ends when the helpdesk replaces a stolen phone."""
        return self.row_of(session.user) == session.row != b""

    def own_user(self, session: Session) -> User:
        """Returns the user of a session, or stops with the way to the login."""
        user = self.user_of(session.user)
        if user is None:
            raise web.Stop(redirect("/login", 303))
        return user

    def asked_as(self, name: str) -> str:
        """Returns the name under which the cluster is asked. For whoever isn't served nobody has it: so the answer and
        its time are those of an unknown user, and no code is used up."""
        return name if self.user_of(name) else secrets.token_hex(16)

    def ask(self, user: str, call: Callable[[], wakdulg.Accepted]) -> tuple[Any, tuple[str, int] | None]:
        """Asks the cluster. The log has no name that nobody has, since it may be a password in the wrong field."""
        return super().ask(user if self.user_of(user) else "", call)

    def check_login(self, user: str) -> wakdulg.Accepted:
        return self.cluster.check(self.asked_as(user), code("code"), field("password"))

    # ---- Pages

    def show_home(self) -> Reply:
        session = self.own_session()
        return self.page("home.html", "Your token", session, user=self.own_user(session))

    def show_resync(self, fault: str = "", status: int = 200) -> Reply:
        return self.open_page("resync.html", "Resynchronize", status, fault=fault)

    def resync(self) -> Reply:
        """Sets the counter of a token that is far ahead, and logs in. It wants no session: no login takes the codes of
        such a token."""
        if not self.is_own_form():
            return self.show_resync(web.FOREIGN, 403)
        user = field("user")
        line = code("code"), code("next"), field("password")
        outcome, told = self.ask(user, lambda: self.cluster.resync(self.asked_as(user), *line))
        if told:
            return self.show_resync(*told)
        self.note(user, "resync", user, "resynchronized at factor %d" % outcome.factor)
        return self.begin_session(user, outcome)

    def kept_phone(self) -> Kept | None:
        """Returns the new secret that this browser may see still, if its user is served, and is the one who is logged
        in here, if somebody is."""
        session = self.session(is_used=False)
        return next((kept for kept in self.kept() if self.user_of(kept.user)
                     and (session is None or session.user == kept.user)), None)

    def show_replace(self, fault: str = "", status: int = 200) -> Reply:
        session = self.own_session()
        seen = self.sessions.mark(self.own_user(session).mark)
        return self.page("replace.html", "Replace the phone", session, seen=seen, fault=fault,
                         is_known=self.kept_phone() is not None), status

    def replace(self) -> Reply:
        """Replaces the phone of whoever gives the password and the next code of the old one. So a browser that was left
        open gives no token away. What this browser was given, and isn't in use, is replaced without them."""
        session = self.posted()
        user = self.own_user(session)
        if not is_same(field("seen"), self.sessions.mark(user.mark)):
            return self.show_replace(CHANGED, 409)
        try:
            # The kind stays: a form that names another one isn't ours.
            act = self.desk.replace(user, {})
        except (Fault, OSError) as fault:
            return self.show_replace("Nothing was done: " + self.words_of(fault), 409)
        told, status = self.perform(session, act)
        if told:
            return self.show_replace(told, status)
        session.row = self.row_of(user.text)
        return redirect("/phone", 303)

    def perform(self, session: Session, act: Act) -> tuple[str, int]:
        """Replaces a phone. Returns "" and 303, or a fault and its status."""
        if fault := self.too_many(session.user):
            return fault, 429
        known = self.kept_phone()
        if known is None:
            outcome, told = self.ask(act.user, lambda: self.check_login(act.user))
            if told:
                self.note_replacement(act.user, "refused: %s" % outcome)
                return told
        fault, status = self.carry_out(session, act, token=act.adds)
        # The page of the new phone says what is to be said.
        session.notice = ""
        if known and not fault:
            self.keeper.forget(known.path)
        return fault, status

    def words_of(self, fault: Exception) -> str:
        name = words.name_of(fault)
        todo = "the site is busy. Try again in a minute" if name in ("Changed", "Locked") else "ask your helpdesk"
        return "%s (%s)" % (todo, name)

    def too_many(self, user: str) -> str:
        """Looks how often a user replaced the phone within a day, as the record has it: a restart forgets nothing."""
        since = time.time() - DAY
        done = [line for line in self.record.acts(since, user)
                if line.get("who") == user and is_replacement(line, user)]
        return TOO_MANY if len(done) >= MOST_A_DAY else ""

    def by_whom(self) -> str:
        return "%s, from the address %s" % (self.by, web.address())

    def greeting(self, user: str) -> str:
        """Tells what happened to the user's phone since the last login here, as far as the record has it."""
        token = self.token_of(user)
        for line in self.record.acts(time.time() - GREETING, user):
            is_login = line.get("who") == user and (line.get("act"), line.get("outcome")) == ("log in", "done")
            if not is_login and not is_replacement(line, user):
                continue
            if line.get("outcome") != BEGINS and line.get("token", token) != token:
                return GREETED_SINCE % web.moment_of(line)
            if is_login:
                break
            here = "on this page, from the address %s" % line.get("from", "")
            return GREETED % (web.moment_of(line), here if line.get("who") == user else "by your helpdesk")
        return ""

    def token_of(self, name: str) -> str:
        """Returns the name of a user's token, or "" for a user who isn't served."""
        user = self.user_of(name)
        return (user.token or b"").decode() if user else ""

    def about_login(self, user: str) -> dict[str, str]:
        return {"token": self.token_of(user)}

    def note_replacement(self, user: str, outcome: str) -> str:
        return self.note(user, "replace", user, outcome)

    def show_phone(self, fault: str = "", status: int = 200) -> Reply:
        """Shows the new secret, and asks for the first code of the new phone. The secret is kept until the cluster has
        accepted that code, the user logs out, or ten minutes are over: without it the user is shut out. So it is shown
        to this browser also if a restart of the site ended the session."""
        session, kept = self.session(), self.kept_phone()
        if kept is None:
            return redirect("/" if session else "/login", 303)
        told: dict[str, Any] = {"shown": Shown(kept.uri, kept.kind), "fault": fault,
                                "is_copied": self.book.pending() is None}
        if session is None:
            return self.open_page("phone.html", "The new phone", status, **told)
        return self.page("phone.html", "The new phone", session, **told), status

    def confirm(self) -> Reply:
        """Asks the cluster once for the first code of the new phone: to ask again by itself would close the token."""
        if not self.is_own_form():
            return self.open_page("message.html", "Refused", 403, fault=web.FOREIGN)
        session, kept = self.session(), self.kept_phone()
        if kept is None:
            return redirect("/" if session else "/login", 303)
        user = kept.user
        outcome, told = self.ask(user, lambda: self.check_login(user))
        if not told:
            self.note_replacement(user, "the new phone is in use")
            self.keeper.forget(kept.path)
            return self.end_session(Response(self.page("in-use.html", "The new phone is in use")))
        late = time.time() - kept.made
        alert = self.note_replacement(user, "not confirmed after %d s: %s" % (late, outcome))
        return self.show_phone(" ".join([NOT_YET if late < self.late else TOO_LATE % late, alert]).strip(), told[1])


def make_application(site: Site) -> Flask:
    """Returns the application of a self-service. It has the pages of its acts alone."""
    routes: list[web.Route] = [("/", site.show_home, "GET"), ("/login", site.show_login, "GET"),
                               ("/login", site.log_in, "POST"), ("/logout", site.log_out, "POST")]
    if "resync" in site.acts:
        routes += [("/resync", site.show_resync, "GET"), ("/resync", site.resync, "POST")]
    if "replace" in site.acts:
        routes += [("/replace", site.show_replace, "GET"), ("/replace", site.replace, "POST"),
                   ("/phone", site.show_phone, "GET"), ("/phone", site.confirm, "POST")]
    return web.make_application(site, routes)
