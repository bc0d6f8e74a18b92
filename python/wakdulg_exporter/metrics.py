"""The metrics of a cluster, and how they follow from the reports of its nodes."""
from __future__ import annotations

import re
from typing import Dict, NamedTuple

from prometheus_client import Metric

REASONS = ("BADLINE", "CLOCK", "BUSY", "UNKNOWN", "THROTTLED", "PASSWORD", "EXHAUSTED", "INVALID", "SPENT", "TIMEOUT")
CAUSES = ("form", "tag", "early", "late", "again", "limited")
# The longest commits of the buckets in milliseconds. The last bucket has longer ones.
BUCKETS = ("1", "2", "5", "10", "20", "50", "100", "more")
# The metrics in their order: name, type and help.
METRICS = [
    ("up", "gauge", "Whether the node answers."),
    ("info", "gauge", "1, with the version, the fingerprint and the book of the node."),
    ("members", "gauge", "Members of the cluster, by the node's cluster file."),
    ("boot", "gauge", "The boot of the node's database."),
    ("clock_seconds", "gauge", "The node's clock, in seconds since 1970."),
    ("started_seconds", "gauge", "The node's clock at its start, in seconds since 1970."),
    ("tokens", "gauge", "Tokens of the node."),
    ("store_rows", "gauge", "Rows of the node's store, also of retired tokens."),
    ("store_rows_limit", "gauge", "Rows that the node's store has room for."),
    ("pending", "gauge", "Lines that wait for votes at the node."),
    ("gates_closed", "gauge", "Tokens that are closed now at the node, after failures."),
    ("received_total", "counter", "Datagrams that the node took in."),
    ("replied_total", "counter", "Answers that the node sent."),
    ("accepted_total", "counter", "Answers OK."),
    ("refused_total", "counter", "Answers NO, by their reasons."),
    ("ticks_total", "counter", "Ticks of the node, some five a second."),
    ("largest_batch", "gauge", "Datagrams of the largest batch of the node, at most 64."),
    ("commit_seconds", "histogram", "Time from the last datagram of a batch to the first call after its commit."),
    ("unopened_total", "counter", "Sealed datagrams that the node didn't open, by their causes."),
    ("member_heard", "gauge", "Whether the node heard the member in the last five seconds."),
    ("member_age_seconds", "gauge", "Seconds since the node heard the member. A member that is silent has none."),
    ("member_differs", "gauge", "Whether the member's datagrams can't be read: its files or its key differ."),
]
# The metrics whose lines in a report are a word and a number.
NUMBERS = {"boot": "boot", "clock": "clock_seconds", "started": "started_seconds", "tokens": "tokens",
           "pending": "pending", "closed": "gates_closed", "received": "received_total", "replied": "replied_total",
           "accepted": "accepted_total", "ticks": "ticks_total", "largest-batch": "largest_batch"}


class Sample(NamedTuple):
    """A value of a metric, without the label of the node. `name` lacks the prefix `wakdulg_`."""

    name: str
    labels: Dict[str, str]
    value: float


def samples_of(lines: list[str]) -> list[Sample]:
    """Returns the samples of a report. Lines of other words are left out.

    # Errors
    Raises `ValueError` or `IndexError` if a line has another form.
    """
    info: dict[str, str] = {}
    samples = [Sample("up", {}, 1)]
    refused, unopened = dict.fromkeys(REASONS, 0), dict.fromkeys(CAUSES, 0)
    commits, took = -1, dict.fromkeys(BUCKETS, 0)
    for line in lines:
        word, *rest = line.split(" ")
        if word in ("version", "fingerprint", "book"):
            info[word] = rest[0]
        elif word == "node":
            samples.append(Sample("members", {}, int(rest[2])))
        elif word == "rows":
            samples += [Sample("store_rows", {}, int(rest[0])), Sample("store_rows_limit", {}, int(rest[2]))]
        elif word in NUMBERS:
            samples.append(Sample(NUMBERS[word], {}, int(rest[0])))
        elif word == "refused":
            refused[rest[0]] = int(rest[1])
        elif word == "commits":
            commits = int(rest[0])
        elif word == "commit-millis":
            took[rest[0]] = int(rest[1])
        elif word == "unopened":
            unopened[rest[0]] = int(rest[1])
        elif word == "member":
            samples += member_samples(rest[0], rest[1], rest[2:])
    samples.append(Sample("info", info, 1))
    samples += [Sample("refused_total", {"reason": reason}, count) for reason, count in refused.items()]
    samples += [Sample("unopened_total", {"cause": cause}, count) for cause, count in unopened.items()]
    return samples + (commit_samples(commits, took) if commits >= 0 else [])


def commit_samples(commits: int, took: dict[str, int]) -> list[Sample]:
    """Returns the samples of the histogram of commits. Its buckets have all commits up to a time. A report has no sum.
    """
    samples, count = [], 0
    for millis in BUCKETS[:-1]:
        count += took[millis]
        samples.append(Sample("commit_seconds_bucket", {"le": "%g" % (int(millis) / 1000)}, count))
    samples.append(Sample("commit_seconds_bucket", {"le": "+Inf"}, commits))
    return samples + [Sample("commit_seconds_count", {}, commits)]


def member_samples(member: str, seen: str, seconds: list[str]) -> list[Sample]:
    """Returns the samples of what a node sees of a member: in which state, and for how many seconds if it is heard."""
    labels = {"member": member}
    samples = [Sample("member_heard", labels, seen == "heard"), Sample("member_differs", labels, seen == "differs")]
    return samples + ([Sample("member_age_seconds", labels, int(seconds[0]))] if seen == "heard" else [])


def families() -> dict[str, Metric]:
    """Returns all metrics without samples, by their names."""
    return {name: Metric("wakdulg_" + re.sub("_total$", "", name), text, kind) for name, kind, text in METRICS}


def families_of(by_node: dict[int, list[Sample]]) -> list[Metric]:
    """Returns the metrics that have samples, with the samples of each node."""
    found = families()
    for node, samples in sorted(by_node.items()):
        for name, labels, value in samples:
            family = found[re.sub("_(bucket|count)$", "", name)]
            family.add_sample("wakdulg_" + name, {"node": str(node), **labels}, value)
    return [family for family in found.values() if family.samples]
