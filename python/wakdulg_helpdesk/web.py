"""What the pages of a site share: who asks, which forms are ours, how an act is made, and what the browser is told."""
from __future__ import annotations

import contextlib
import io
import logging
import re
import shlex
import threading
import time
from pathlib import Path
from typing import Any, Callable, NamedTuple, Sequence, Tuple
from urllib.parse import quote

import flask
from flask import Flask, Response, redirect, render_template, request
from flask.typing import ResponseReturnValue as Reply
from jinja2 import FileSystemLoader
from werkzeug.exceptions import HTTPException
from werkzeug.wrappers import Response as Answer

import wakdulg
from wakdulg_helpdesk import words
from wakdulg_helpdesk.acts import Act, Desk
from wakdulg_helpdesk.book import run_hook
from wakdulg_helpdesk.keeping import Keeper, Kept
from wakdulg_helpdesk.record import BEGINS, Line, Record
from wakdulg_helpdesk.sessions import Session, Sessions, is_same
from wakdulg_onboard.tokens import Fault

# The folder of the static files, and of the templates that sites share.
FOLDER = Path(__file__).resolve().parent
# A path, a view and a method.
Route = Tuple[str, Callable[..., Reply], str]
# A refusal takes this many seconds, so its time doesn't tell who exists.
REFUSAL = 1.0
# The hook that tells a user something is ended after this number of seconds.
TELLING = 60
NOT_RIGHT = "That was not right, or was used before, or came too soon. Wait for some seconds, and give the next code."
UNDECIDED = "The cluster doesn't decide now. Try again in a minute, with the next code."
FOREIGN = "Use the form of this page. Load it again, and repeat."
OVER = "Your session is over. Log in, and repeat."
UNNOTED = "The record could not be written. Tell whoever runs this site."
NOT_BEGUN, NOT_IN = "Nothing was done. " + UNNOTED, "You are not logged in. " + UNNOTED
NOT_KEPT = "Nothing was done. The new secret could not be kept on the disk: %s. Tell whoever runs this site."
REFUSALS = {404: "No page has this address.", 405: "No form of ours goes to this address.",
            413: "The form or the file is too long.", 500: "A fault came. Tell whoever runs this site: the log has it."}
# A path of the own site, with a query or without one. A browser takes what begins with // for another host.
OWN_PATH = re.compile(r"/(?!/)[A-Za-z0-9_.~%/-]*(?:\?[A-Za-z0-9_.~%=&+/-]*)?")
HEADERS = {
    "Cache-Control": "no-store",
    "Content-Security-Policy": "default-src 'none'; style-src 'self'; script-src 'self'; connect-src 'self'; "
                               "img-src 'self'; base-uri 'none'; form-action 'self'; frame-ancestors 'none'",
    "X-Content-Type-Options": "nosniff",
    "X-Frame-Options": "DENY",
    # With `no-referrer` a browser would send `Origin: null` with a form.
    "Referrer-Policy": "same-origin",
    "Cross-Origin-Opener-Policy": "same-origin",
}


class Stop(Exception):
    """The answer in place of a page."""

    def __init__(self, answer: Reply) -> None:
        super().__init__()
        self.answer = answer


class Request(flask.Request):
    """A request whose files stay in memory, since an import has secrets. MAX_CONTENT_LENGTH limits them."""

    def _get_file_stream(self, *_: Any, **__: Any) -> io.BytesIO:
        return io.BytesIO()


def address() -> str:
    """Returns the address from which a request comes, as nginx says."""
    return request.headers.get("X-Real-IP", "-")


class Parts(NamedTuple):
    """What a site is made of. `origin` is the site as a browser names it. `tell` is a command that tells a user of a
    new phone."""
    origin: str
    desk: Desk
    sessions: Sessions
    keeper: Keeper
    record: Record
    login_log: logging.Logger
    tell: str | None


class Pages:
    """A site. Its name stands in titles, and its places in the navigation of whoever is logged in. `by` is what a user
    is told of who replaced the phone. A template is looked for in the folders of `templates`, in their order."""
    name, by = "", ""
    places: Sequence[tuple[str, str]] = ()
    templates: Sequence[Path] = (FOLDER / "templates",)

    def __init__(self, parts: Parts) -> None:
        self.origin, self.desk, self.sessions, self.keeper, self.record, self.login_log, tell = parts
        self.book, self.cluster = self.desk.book, self.desk.cluster
        self.beginning, self.teller = threading.Lock(), shlex.split(tell or "")

    # ---- Who asks

    def is_welcome(self, session: Session) -> bool:
        """Returns whether a session counts still."""
        raise NotImplementedError

    def row_of(self, user: str) -> bytes:
        """Returns what a session keeps in mind of a user's row."""
        return b""

    def check_login(self, user: str) -> wakdulg.Accepted:
        """Returns what the cluster accepts of the form of a login, or raises its refusal."""
        raise NotImplementedError

    def note_refusal(self, user: str, refusal: wakdulg.Refused) -> None:
        """Notes a login that was refused."""

    def greeting(self, user: str) -> str:
        """Returns what the first page after a login says."""
        return ""

    def about_login(self, user: str) -> dict[str, str]:
        """Returns what the record has of a login beside its fields."""
        return {}

    def cookie(self) -> str:
        """Returns the value of the one cookie of ours that the browser sent, or ""."""
        names = self.sessions.names_in(request.headers.get("Cookie", ""))
        return names[0] if len(names) == 1 else ""

    def session(self, is_used: bool = True) -> Session | None:
        """Returns the session of the browser, or None. Of two cookies one was planted, and neither counts."""
        name = self.cookie()
        session = self.sessions.find(name, is_used) if name else None
        return session if session and self.is_welcome(session) else None

    def own_session(self, is_used: bool = True) -> Session:
        """Returns the session of the browser, or stops with the way to the login."""
        session = self.session(is_used)
        if session is None:
            raise Stop(redirect(login_path(), 303) if request.method == "GET" else
                       (self.page("message.html", "Log in", fault=OVER), 403))
        return session

    def is_own_form(self) -> bool:
        """Returns whether a form comes from a page that this browser got from us."""
        site = request.headers.get("Sec-Fetch-Site")
        is_own = site == "same-origin" if site is not None else request.headers.get("Origin") == self.origin
        name = self.cookie()
        return bool(is_own and name and is_same(request.form.get("token", ""), self.sessions.form_token(name)))

    def posted(self) -> Session:
        """Returns the session of a form that is ours."""
        session = self.own_session()
        if not self.is_own_form():
            raise Stop((self.page("message.html", "Refused", fault=FOREIGN, session=session), 403))
        return session

    def ask(self, user: str, call: Callable[[], wakdulg.Accepted]) -> tuple[Any, tuple[str, int] | None]:
        """Returns what a call of the cluster returned or raised, and None or the text and the status of its refusal.
        The log has the answer."""
        begin, told = time.monotonic(), None
        outcome: Any
        try:
            outcome = call()
        except wakdulg.Refused as refusal:
            outcome = refusal
            told = (UNDECIDED, 503) if isinstance(refusal, wakdulg.Undecided) else (NOT_RIGHT, 403)
        self.login_log.info(wakdulg.log_line(address(), user, outcome))
        if told:
            time.sleep(max(0, begin + REFUSAL - time.monotonic()))
        return outcome, told

    def next_code(self, session: Session) -> int:
        """Returns the second at which a time token of the session's user shows its next code, or 0 if it shows it now,
        or if that isn't known."""
        user = self.book.find(session.user.encode("utf-8", "replace"))
        period = user.period() if user else None
        begin = (session.factor + 1) * period if period and session.factor is not None else 0
        return begin if begin > time.time() else 0

    # ---- The record

    def write_down(self, who: str, act: str, user: str, outcome: str, **more: str) -> str:
        """Adds a line to the record, and returns its print, or "" if the record can't be written."""
        try:
            return self.record.write(who, act, user, outcome, address(), **more)
        except OSError as fault:
            self.login_log.error("the record could not be written: %s", fault)
            return ""

    def note(self, who: str, act: str, user: str, outcome: str, **more: str) -> str:
        """Adds a line to the record. Returns "", or what a page says if the record can't be written."""
        return "" if self.write_down(who, act, user, outcome, **more) else UNNOTED

    # ---- Acts

    def too_many(self, who: str) -> str:
        """Returns why somebody may not begin another act now, or ""."""
        return ""

    def hindrance(self, who: str) -> tuple[str, int] | None:
        """Returns what a page says if somebody may not begin another act now, and its status."""
        try:
            fault = self.too_many(who)
        except OSError:
            return NOT_BEGUN, 503
        return (fault, 429) if fault else None

    def keep(self, session: Session, act: Act) -> str:
        """Keeps the new secret of an act for the browser that asks. Returns its path, or "" if the act has none."""
        if act.shown is None:
            return ""
        kept = Kept("", time.time(), session.user, act.user, act.adds, act.shown.uri, act.shown.kind)
        return self.keeper.keep(self.cookie(), kept)

    def carry_out(self, session: Session, act: Act, path: str | None = None, **more: str) -> tuple[str, int]:
        """Does an act: its new secret is on the disk before the record says that it begins, and that before it is done.
        `path` is that of a secret which is kept already. Returns "" and 303, or a fault and its status."""
        try:
            path = self.keep(session, act) if path is None else path
        except OSError as fault:
            return NOT_KEPT % words.of_system(fault), 503
        begun, refusal = self.begin(session.user, act, **more)
        if refusal:
            self.keeper.forget(path)
            return refusal
        try:
            self.keeper.renew(path)
            outcome = act.run()
        except (Fault, OSError) as fault:
            return self.failed(session, act, path, begun, fault)
        told = words.of_outcome(outcome)
        session.notice = "%s: %s." % (act.user if act.name != "import" else "Import", told)
        session.alert = self.note(session.user, act.name, act.user, outcome, of=begun, **more)
        if act.name == "replace":
            self.tell(act.user, "Your phone was replaced at %s %s." % (at_moment(time.time()), self.by_whom()))
        return "", 303

    def by_whom(self) -> str:
        """Returns who replaced a phone, as its user is told."""
        return self.by

    def tell(self, user: str, what: str) -> None:
        """Has the hook tell a user what happened, in a thread: nobody waits for it. The record has its failure."""
        def run() -> None:
            is_done, said = run_hook(self.teller, TELLING, "%s\n%s\n" % (user, what))
            if not is_done:
                with contextlib.suppress(OSError):
                    self.record.write("", "tell", user, "failed: the user isn't told: " + said, "-")
        if self.teller:
            threading.Thread(target=run, daemon=True).start()

    def begin(self, who: str, act: Act, **more: str) -> tuple[str, tuple[str, int] | None]:
        """Notes that an act begins. Returns the print of the line, and None or a fault and its status. An act that
        can't be noted isn't begun."""
        with self.beginning:
            if hindrance := self.hindrance(who):
                return "", hindrance
            begun = self.write_down(who, act.name, act.user, BEGINS, adds=act.adds, takes=act.takes, **more)
        return begun, None if begun else (NOT_BEGUN, 503)

    def failed(self, session: Session, act: Act, path: str, begun: str, fault: Exception) -> tuple[str, int]:
        """Returns what a page says of an act that raised a fault. Of a fault of the system the users file tells whether
        it came after the change."""
        is_done = isinstance(fault, OSError) and bool(act.adds and self.book.has(act.adds) or
                                                      act.takes and not self.book.has(act.takes))
        if not is_done:
            self.keeper.forget(path)
        outcome = "the users file is changed, and then: %s" if is_done else "failed: %s"
        session.alert = self.note(session.user, act.name, act.user, outcome % fault, of=begun)
        told = "The users file is changed. Then a fault came: " if is_done else "Nothing was done: "
        return told + self.words_of(fault), 409

    def words_of(self, fault: Exception) -> str:
        """Returns what whoever acts is told of a fault."""
        return words.of_fault(fault)

    def kept(self) -> list[Kept]:
        """Returns the secrets that this browser may see still: those whose tokens the users file has."""
        found = ((kept, self.book.find(kept.user.encode())) for kept in self.keeper.all_of(self.cookie()))
        return [kept for kept, user in found if user and user.token == kept.token.encode()]

    # ---- Pages

    def places_of(self, session: Session) -> Sequence[tuple[str, str]]:
        """Returns the places that a session may go to."""
        return self.places

    def warning(self) -> str:
        """Returns what all pages of a session say."""
        return ""

    def unconfirmed(self, session: Session) -> list[Kept]:
        """Returns the secrets to which all pages of a session lead."""
        return []

    def page(self, template: str, title: str, session: Session | None = None, fault: str = "", **told: Any) -> str:
        notice, alert = session.take_notice() if session else ("", "")
        fault = " ".join(text for text in (fault, alert) if text)
        next_code = self.next_code(session) if session else 0
        return render_template(template, title=title, site=self, session=session, notice=notice, path=request.path,
                               token=self.sessions.form_token(self.cookie()), fault=fault, next_code=next_code,
                               wait=max(0, next_code - int(time.time())), **told)

    def show_refusal(self, refusal: HTTPException) -> Reply:
        """Shows a page of ours for a request that has none, as for a wrong address. It has the navigation."""
        fault = REFUSALS.get(refusal.code or 0, "The request can't be read.")
        page = self.page("message.html", "Not possible", self.session(is_used=False), fault=fault)
        return page, refusal.code or 400

    def open_page(self, template: str, title: str, status: int = 200, **told: Any) -> Answer:
        """Returns a page for whoever comes. Its form wants a cookie, so the browser gets one."""
        name = self.cookie() or self.sessions.new_name()
        page = render_template(template, title=title, site=self, session=None, notice="", path=request.path,
                               token=self.sessions.form_token(name), **told)
        answer = Response(page, status)
        if name != self.cookie():
            self.set_cookie(answer, name)
        return answer

    def show_login(self, fault: str = "", status: int = 200) -> Answer:
        """Shows the form of a login, which leads to the page that was asked for."""
        return self.open_page("login.html", "Log in", status, fault=fault, next=own_path(request.values.get("next")))

    def log_in(self) -> Answer:
        """Answers the form of a login."""
        if not self.is_own_form():
            return self.show_login(FOREIGN, 403)
        user = request.form.get("user", "")
        outcome, told = self.ask(user, lambda: self.check_login(user))
        if told:
            self.note_refusal(user, outcome)
            return self.show_login(*told)
        return self.begin_session(user, outcome)

    def begin_session(self, user: str, accepted: wakdulg.Accepted) -> Answer:
        """Begins a session under a new id: one that somebody planted before the login is worth nothing. What this
        browser may see still goes with it."""
        notice = self.greeting(user)
        if self.note(user, "log in", "", "done", **self.about_login(user)):
            return self.show_login(NOT_IN, 503)
        name = self.sessions.begin(user, self.row_of(user), accepted.factor, notice)
        try:
            self.keeper.move(self.cookie(), name)
        except OSError as fault:
            self.sessions.end(name)
            return self.show_login(NOT_KEPT % words.of_system(fault), 503)
        self.sessions.end(self.cookie())
        answer = redirect(own_path(request.form.get("next")) or "/", 303)
        self.set_cookie(answer, name)
        return answer

    def log_out(self) -> Answer:
        """Answers the form of a logout."""
        session = self.posted()
        self.note(session.user, "log out", "", "done")
        return self.end_session(redirect("/login", 303))

    def end_session(self, answer: Answer) -> Answer:
        """Returns the answer with a cookie of no session. Secrets that nobody confirmed are gone."""
        self.keeper.forget_all(self.cookie())
        self.sessions.end(self.cookie())
        self.set_cookie(answer, self.sessions.new_name())
        return answer

    def set_cookie(self, answer: Answer, name: str) -> None:
        """Gives the browser a cookie that no script reads, and that no other site sends."""
        answer.set_cookie(self.sessions.cookie, name, path="/", secure=True, httponly=True, samesite="Strict")


def own_path(text: str | None) -> str:
    """Returns a path of this site, or "" for what is none."""
    return text if text and len(text) < 1000 and OWN_PATH.fullmatch(text) else ""


def login_path() -> str:
    """Returns the path of the login that leads back to the page that was asked for."""
    full = request.full_path
    path = own_path(full[:-1] if full.endswith("?") else full)
    return "/login?next=" + quote(path) if path not in ("", "/") else "/login"


def at_moment(seconds: float) -> str:
    """Returns a moment as pages have it."""
    return time.strftime("%Y-%m-%d %H:%M:%S UTC", time.gmtime(seconds))


def to_hex(name: str) -> str:
    """Returns the name of a user as addresses have it."""
    return name.encode().hex()


def moment_of(line: Line) -> str:
    """Returns the moment of a line of the record, as pages have moments."""
    return str(line.get("when", "")).replace("T", " ").replace("Z", " UTC")


def make_application(site: Pages, routes: Sequence[Route]) -> Flask:
    """Returns the application of a site. Static files are the helpdesk's."""
    application = Flask(site.name, root_path=str(FOLDER))
    application.config["MAX_CONTENT_LENGTH"], application.request_class = 2_000_000, Request
    application.jinja_loader = FileSystemLoader(site.templates)
    application.jinja_env.filters.update(at_moment=at_moment, moment_of=moment_of, to_hex=to_hex,
                                         of_answer=words.of_answer, of_fault=words.of_fault,
                                         of_outcome=words.of_outcome)
    application.jinja_env.trim_blocks = application.jinja_env.lstrip_blocks = True
    for path, view, method in routes:
        application.add_url_rule(path, method + path, view, methods=[method])
    application.register_error_handler(Stop, answer_of)
    application.register_error_handler(HTTPException, site.show_refusal)
    application.after_request(with_headers)
    return application


def answer_of(stop: Stop) -> Reply:
    """Returns the answer that stands in place of a page."""
    return stop.answer


def with_headers(answer: Answer) -> Answer:
    """Returns an answer with what each one has."""
    answer.headers.update(HEADERS)
    return answer
