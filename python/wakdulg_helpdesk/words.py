"""What pages say of the words by which nodes and programs refuse: a sentence with what to do, and the word in brackets.

Logs and records have the words alone."""
from __future__ import annotations

import errno
import re
from typing import Mapping

RUNS = "tell whoever runs this site"
# The answers of nodes to logins, and of a client that hears none.
ANSWERS = {
    "UNKNOWN": "The node has no row of this user. A new row takes some seconds: look at the table of the members",
    "INVALID": "The code was wrong, was used before, or is too far ahead. Give the next code. If that is refused too,"
               " resynchronize the token",
    "PASSWORD": "The password was wrong or missing. Give the right one, with the next code",
    "THROTTLED": "The token was closed for %s more, so nobody looked at the code. Wait, or unlock the user",
    "EXHAUSTED": "The token has no codes left. Replace it",
    "SPENT": "Another login took this code. Give the next code",
    "TIMEOUT": "Not enough nodes answered in time. Give the next code in a minute. If that stays, look at the page"
               " Cluster",
    "BUSY": "The node had too much to do, or was about to end. Give the next code in a minute",
    "CLOCK": "The clock of the node is wrong. Somebody has to set it: " + RUNS,
    "SILENT": "No node answered. Look at the page Cluster, and " + RUNS,
    "BADLINE": "The node couldn't read the login. The service that sent it has a fault: " + RUNS,
}
# What a member says to an operator's request.
REQUESTS = {
    "silent": "it didn't answer. Do it again when it is up",
    "NO USER": "it has no row of this user, and so nothing to unlock",
    "NO RIGHT": "the key of this site may only read: " + RUNS,
    "NO REPORT": "its database or its memory failed: " + RUNS,
    "NO REQUEST": "it runs another version of oathd: " + RUNS,
    "NO BUSY": "keys that may only read asked it too much. Do it again in a minute. If that stays, " + RUNS,
}
# The notes of `oathd status` about a member.
NOTES = {
    "silent": "It doesn't answer. Somebody has to look whether it runs",
    "hears not all": "It doesn't hear all other members. Look which of them is down",
    "fingerprint differs": "It has another key or other settings than the others. Give it the same cluster file",
    "book differs": "It has another users file than the others. If that stays for some minutes, " + RUNS,
}
# What to do about a fault, after its own words.
FAULTS = {
    "BadName": "Choose another name",
    "NameTooLong": "Choose a shorter name",
    "Protected": "Ask whoever runs this site",
    "DuplicateUser": "Choose another name, or open the page of that user to replace the phone",
    "NoOperator": "Tell whoever runs this site",
    "ShortSecret": "Take a device with a longer secret",
    "BadSecret": "Choose the form in which the file has its secrets, or mend the file",
    "NoColumn": "Give the first line of the file the names user, secret and type",
    "NoUser": "Give each line a user, in a column of the name user",
    "NotText": "Save the file as UTF-8",
    "NotCsv": "Save the file as CSV",
}
# What a page says of a fault whose own words are for a command line.
INSTEAD = {
    "Locked": "somebody else changes it at this moment. Try again in a minute",
    "NotText": "it isn't UTF-8",
    "NoUser": "the line has no user",
    "ShortSecret": "the secret has less than 16 bytes, so others could guess it",
    "UnknownType": "the type is unknown: write TOTP or HOTP",
    "UnknownHash": "the hash is unknown: write SHA1, SHA256 or SHA512",
}
OPTION = re.compile(": --[a-z].*", re.DOTALL)
DISK = {errno.ENOSPC: "the disk is full", errno.EDQUOT: "the disk is full", errno.EROFS: "the disk can't be written",
        errno.EACCES: "the service has no right to the file", errno.EPERM: "the service has no right to the file",
        errno.ENOENT: "the file or its folder is gone"}
ANSWER = re.compile(r"(%s)( \d+)?( \(in doubt\))?(: .*)?" % "|".join(ANSWERS))
MEMBER = re.compile(r"(member \d+): (%s)(?=,|$)" % "|".join(REQUESTS))
# A fault as text: a place, a name and some words.
NAMED = re.compile(r"(.{1,200}?): ([A-Z][A-Za-z]+|refused|refuses the new file): (.*)", re.DOTALL)
# An outcome in a record whose rest is a fault or an answer.
OUTCOME = re.compile(r"(refused|failed|the users file is changed, and then|not confirmed after \d+ s): (.*)", re.DOTALL)
REFUSED_FILE = re.compile(r"oathd: (?P<short>[^\n]*)(?:\s+/dev/stdin (?P<long>.*))?", re.DOTALL)


def of_answer(text: str, answers: Mapping[str, str] = ANSWERS) -> str:
    """Returns what a page says of the reason of an answer. Other words stay."""
    found = ANSWER.fullmatch(text)
    if not found:
        return text
    seconds = found[2].strip() + " s" if found[2] else "some seconds"
    words = answers[found[1]].replace("%s", seconds)
    doubt = ". The code may be used up" if found[3] else ""
    return "%s%s (%s)" % (words, doubt, text)


def of_note(text: str, notes: Mapping[str, str] = NOTES) -> str:
    """Returns what a page says of a note of `oathd status`. Other notes stay, as `ok`."""
    return "%s (%s)" % (notes[text], text) if text in notes else text


def of_members(text: str) -> str:
    """Returns what a page says of the answers of members to a request."""
    return MEMBER.sub(lambda found: "%s: %s (%s)" % (found[1], REQUESTS[found[2]], found[2]), text)


def name_of(fault: Exception) -> str:
    """Returns the word by which a fault is known."""
    if isinstance(fault, OSError):
        return fault.strerror or type(fault).__name__
    found = NAMED.fullmatch(str(fault))
    return found[2] if found else type(fault).__name__


def of_system(fault: OSError) -> str:
    """Returns what a page says of a fault of the system."""
    return "%s (%s)" % (DISK.get(fault.errno or 0, "the system refused it"), name_of(fault))


def of_fault(fault: Exception | str, answers: Mapping[str, str] = ANSWERS) -> str:
    """Returns what a page says of a fault, or of the text of one."""
    if isinstance(fault, OSError):
        why = DISK.get(fault.errno or 0, "the system refused it")
        return "%s. Tell whoever runs this site (%s)" % (why, name_of(fault))
    found = NAMED.fullmatch(str(fault))
    if not found:
        return str(fault)
    place, name, own = found.groups()
    if name == "refused":
        return "the cluster refused it. " + of_answer(own, answers)
    if name == "refuses the new file":
        return of_refused_file(own)
    words = INSTEAD.get(name, OPTION.sub("", own))
    todo = ". " + FAULTS[name] if name in FAULTS else ""
    return "%s: %s%s (%s)" % (place, words, todo, name)


def of_refused_file(said: str) -> str:
    """Returns what a page says of a users file that `oathd check` refuses. An old row may have the fault."""
    found = REFUSED_FILE.fullmatch(said)
    short, long = (found["short"], found["long"]) if found else (said, None)
    return "the new users file would have a fault in %s. Tell whoever runs this site, who mends that line (%s)" % (
        long or short, "refuses the new file: " + short)


def of_outcome(text: str, answers: Mapping[str, str] = ANSWERS) -> str:
    """Returns what a page says of the outcome of an act, as the record has it."""
    found = OUTCOME.fullmatch(text)
    if not found:
        return of_members(text)
    rest = found[2]
    told = of_answer(rest, answers) if ANSWER.fullmatch(rest) else of_fault(rest, answers)
    return "%s: %s" % (found[1], told)
