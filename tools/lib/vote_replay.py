"""A replay of the votes in a script of `oathd sim`: what each datagram is, which the program doesn't print.

The program guides it: its report has the lines that are answered at once, so gates, passwords and kept answers aren't
replayed. For a line inside a `cut` the program is run once more, on the events so far without the cut. In the end the
passes, the answers in their order and the number of datagrams have to be the program's."""
import re
from dataclasses import dataclass, field

from otp import code


class Differs(Exception):
    """The replay comes to something else than the program's report."""


@dataclass
class Token:
    """A token of the users file."""
    name: str
    key: bytes
    period: int
    digits: int
    digest: str

    def code(self, factor):
        return code(self.key, factor, self.digits, self.digest)


@dataclass
class Datagram:
    """A message that a node sent in an event. `lo` of a Deny or a Floor is the sender's floor."""
    event: int
    number: int
    sender: int
    to: int
    kind: str
    token: int
    proposal: tuple = None
    lo: int = 0
    hi: int = 0


@dataclass
class Ballot:
    """A client's line that waits for votes, with the votes that came."""
    event: int
    client: int
    line: str
    token: int
    span: tuple
    votes: dict
    age: int = 0


@dataclass
class Node:
    """A node: the floors and the last grant of each token, and what it keeps in memory."""
    next: list
    grants: list
    boot: int
    is_there: bool = True
    waiting: dict = field(default_factory=dict)
    seq: int = 0
    floor: int = 0

    def restart(self):
        self.boot, self.waiting, self.seq, self.floor = self.boot + 1, {}, 0, 0


@dataclass
class Step:
    """An event of the script, and what came of it. `cut` says what the store kept, if the node stopped in it."""
    text: str
    kind: str
    node: int
    event: int
    cut: str = None
    rest: list = None
    line: str = ""
    client: int = None
    datagram: Datagram = None
    answers: list = None
    note: str = ""
    decided: list = field(default_factory=list)


@dataclass
class Report:
    """What the program prints: passes, answers as (event, node, client, text), and the number of datagrams."""
    text: str
    passes: list
    answers: list
    sent: int


def read_report(text):
    """Returns the report that the program printed."""
    rows = [row.split(" ", 4) for row in text.splitlines()]
    return Report(text=text, sent=int(rows[-1][1]),
                  answers=[(*map(int, row[1:4]), row[4]) for row in rows if row[0] == "answer"],
                  passes=[tuple(map(int, " ".join(row[1:]).split())) for row in rows if row[0] == "pass"])


def read_tokens(users, moment, skew):
    """Returns the tokens of a users file, and the floor with which each begins."""
    tokens, floors = [], []
    for fields in (line.split() for line in users.splitlines()):
        if len(fields) > 3 and re.match(r"HOTP(/|$)", fields[0]):
            kind, digits, digest = fields[0].split("/")[1:] + ["E", "6", "SHA1"][fields[0].count("/"):]
            token = Token(fields[1], bytes.fromhex(fields[3]), int(kind[1:] or 0), int(digits), digest.lower())
            counter = int(fields[4]) if len(fields) > 4 else 0
            counter += len(fields) > 5 and fields[5] == token.code(counter)
            floors.append(moment // token.period + skew + 1 if token.period else counter)
            tokens.append(token)
    return tokens, floors


class Replay:
    """Nodes that vote as the program's do. `ask` runs the program over events and returns its report."""

    def __init__(self, users, words, ask):
        self.words, self.ask, self.majority = words, ask, words["nodes"] // 2 + 1
        self.tokens, floors = read_tokens(users, words["moment"], words["skew"])
        self.nodes = {number: self.opened(floors, 1) for number in range(1, words["nodes"] + 1)}
        self.steps, self.sent, self.passes, self.at_loss = [], [], [], []

    def opened(self, floors, boot):
        """Returns a node that opens with these floors."""
        return Node(list(floors), [None] * len(floors), boot)

    def find_span(self, token, floor, moment, codes):
        """Returns the smallest factors of the window that have the codes, as (lo, hi), or None."""
        low, high = floor, floor + self.words["look-ahead" if len(codes) == 1 else "range"]
        if token.period:
            now, reach = moment // token.period, self.words["skew"] + self.words["drift"]
            low, high = max(floor, now - reach), now + reach
        for lo in range(low, high + 2 - len(codes)):
            if [token.code(lo + place) for place in range(len(codes))] == codes:
                return lo, lo + len(codes) - 1
        return None

    def run(self, lines):
        """Replays the lines of a script. Raises `Differs` if something else comes of it than the program reports."""
        self.report = self.ask(lines)
        live = {int(word) for line in lines if line.startswith("live ") for word in line.split(" ")[1:]}
        for line in (line for line in lines if not line.startswith("live ")):
            place = len(self.sent)
            self.happen(line)
            while line.startswith("round ") and place < len(self.sent):
                datagram, place = self.sent[place], place + 1
                if {datagram.sender, datagram.to} <= live:
                    self.happen(f"deliver {datagram.to} {datagram.number}")
        if (self.passes, self.said(), len(self.sent)) != (self.report.passes, self.report.answers, self.report.sent):
            raise Differs

    def said(self):
        """Returns the answers in their order: those of decisions, and those that the program gave at once."""
        said = []
        for step in self.steps:
            decided = [(step.event, step.node, client, answer) for answer, _, client in step.decided if not step.cut]
            said += decided or [row for row in self.report.answers if row[0] == step.event and step.kind == "client"]
        return said

    def read_step(self, text):
        """Returns the step of a line of the script."""
        cut = re.match(r"(?:cut (\w+) )?", text)[1]
        kind, number, *rest = re.sub(r"^cut \w+ ", "", text).split(" ")
        kind = "client" if kind == "round" else kind
        step = Step(text, kind, int(number), len(self.steps), cut, rest, " ".join(rest[2:]))
        step.answers = [(client, answer) for at, _, client, answer in self.report.answers if at == step.event]
        if step.kind == "client":
            step.client = int(rest[0])
        if kind == "deliver" and int(rest[0]) < len(self.sent):
            step.datagram = self.sent[int(rest[0])]
        step.note = "dropped" if kind == "noise" else ""
        return step

    def happen(self, text):
        """Makes a step of a line of the script."""
        step = self.read_step(text)
        self.steps.append(step)
        node = self.nodes.get(step.node)
        is_for_nobody = node is None or not node.is_there and step.kind != "anew"
        if is_for_nobody or step.kind == "deliver" and step.datagram is None:
            step.note = "nothing happens"
            return
        before, count = (list(node.next), list(node.grants)), len(self.sent)
        getattr(self, "on_" + step.kind, lambda *_: None)(step, node)
        if step.cut:
            del self.sent[count:]
            node.next, node.grants = (node.next, node.grants) if step.cut == "kept" else before
            node.restart()
            step.note = f"stops, write {step.cut}"

    def send(self, step, others, kind, token, proposal=None, lo=0, hi=0):
        for to in sorted(others):
            self.sent.append(Datagram(step.event, len(self.sent), step.node, to, kind, token, proposal, lo, hi))

    def is_answered(self, step):
        """Returns whether the program answers the line of a step at once."""
        report = self.report
        if step.cut:
            report = self.ask([each.text for each in self.steps[:-1]] + [re.sub(r"^cut \w+ ", "", step.text)])
        return (any(row[0] == step.event for row in report.answers)
                and all(row[1] != step.event for row in report.passes))

    def on_client(self, step, node):
        waits = any((each.client, each.line) == (step.client, step.line) for each in node.waiting.values())
        word, _, user, *codes = (step.line + "   ").split(" ")
        token = next((place for place, each in enumerate(self.tokens) if each.name == user), None)
        if token is None or waits or self.is_answered(step):
            return
        span = self.find_span(self.tokens[token], node.next[token], int(step.rest[1]), codes[:1 + (word == "RESYNC")])
        if span:
            proposal = (step.node, node.boot, node.seq)
            node.waiting[node.seq] = Ballot(step.event, step.client, step.line, token, span, {step.node: True})
            node.seq, node.next[token], node.grants[token] = node.seq + 1, span[1] + 1, (proposal, *span)
            self.send(step, self.nodes.keys() - {step.node}, "Ask", token, proposal, *span)
            self.decide(step, node, proposal[2])

    def decide(self, step, node, seq, refusal=""):
        """Decides a line that waits, if its votes are enough, or if it is refused."""
        each, votes = node.waiting[seq], list(node.waiting[seq].votes.values())
        nonce, is_pass = each.line.split(" ")[1], votes.count(True) >= self.majority
        if is_pass and step.cut != "lost":
            self.passes.append((each.event, step.event, step.node, each.token, *each.span))
        if is_pass or refusal or len(self.nodes) - votes.count(False) < self.majority:
            answer = f"OK {nonce} {each.span[1]}" if is_pass else f"NO {nonce} {refusal or 'SPENT'}"
            step.decided.append((answer, each.event, each.client))
            del node.waiting[seq]

    def on_deliver(self, step, node):
        if step.datagram.to != step.node:
            step.note = "not for this node"
        elif step.datagram.kind == "Ask":
            self.on_ask(step, node, step.datagram)
        else:
            self.on_vote(step, node, step.datagram)

    def on_ask(self, step, node, datagram):
        token, granted = datagram.token, (datagram.proposal, datagram.lo, datagram.hi)
        if node.grants[token] == granted or node.next[token] <= datagram.lo:
            node.next[token], node.grants[token] = max(node.next[token], datagram.hi + 1), granted
            self.send(step, {datagram.sender}, "Grant", token, *granted)
        else:
            self.send(step, {datagram.sender}, "Deny", token, datagram.proposal, node.next[token])

    def on_vote(self, step, node, datagram):
        """Takes a Grant, a Deny or a Floor."""
        token, proposal = datagram.token, datagram.proposal
        each = node.waiting.get(proposal[2]) if proposal and proposal[1] == node.boot else None
        counts = each and datagram.sender not in each.votes
        raises = datagram.kind != "Grant" and datagram.lo > node.next[token]
        if not counts and not raises:
            step.note = "ignored" if datagram.kind == "Grant" else "nothing new"
        if raises:
            node.next[token] = datagram.lo
        if counts:
            each.votes[datagram.sender] = datagram.kind == "Grant"
            self.decide(step, node, proposal[2])

    def on_tick(self, step, node):
        others = self.nodes.keys() - {step.node}
        for seq, each in sorted(node.waiting.items()):
            each.age += 1
            if each.age == 8:
                self.decide(step, node, seq, "TIMEOUT")
            else:
                self.send(step, others - each.votes.keys(), "Ask", each.token, (step.node, node.boot, seq), *each.span)
        if self.tokens:
            self.send(step, others, "Floor", node.floor, lo=node.next[node.floor])
            node.floor = (node.floor + 1) % len(self.tokens)

    def on_restart(self, step, node):
        node.restart()
        step.note = f"restart, boot {node.boot}"

    def on_lost(self, step, node):
        node.is_there, step.note = False, "store lost"
        self.at_loss = [list(each.next) for each in self.nodes.values() if each.is_there]

    def on_anew(self, step, node):
        boot, told = int(step.rest[0]), [int(number) for number in step.rest[1:]]
        floors = (told + [0] * len(self.tokens))[:len(self.tokens)]
        may = sum(not each.is_there for each in self.nodes.values()) < self.majority and node.boot < boot < 2 ** 62
        high = all(mine >= theirs for had in self.at_loss for mine, theirs in zip(floors, had))
        step.note = "not replaced"
        if not node.is_there and may and high:
            self.nodes[step.node], step.note = self.opened(floors, boot), f"replaced, boot {boot}"
