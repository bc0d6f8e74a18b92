"""Access-Requests of FreeRADIUS (its module rlm_python3) as submissions to the nodes of a cluster.

The environment of the RADIUS server has NODES, as `127.0.0.1:717,127.0.0.1:718`, and WAKDULG_KEY_FILE: the number of
this client and its key file, as `7:FILE`, which freerad alone may read. PLAIN_LINES=yes in its place asks without a
key. User-Password is the code: six to eight digits, as the user's token has, or DIGITS digits alone. With PASSWORDS=yes
a password may stand before the code, which the node checks. Then all codes have six digits, or DIGITS, and no row of
the users file may have `+`, at which a node takes any password. The package wakdulg is installed, or its folder
stands in python_path, as that of this file does.
"""
import os
import re

import radiusd
import wakdulg

PASSWORDS = os.environ.get("PASSWORDS", "no") == "yes"
# The length of the code alone tells the end of a password.
DIGITS = os.environ.get("DIGITS") or ("6" if PASSWORDS else "6,8")
if DIGITS not in ("6", "7", "8", "6,8"):
    raise ValueError("DIGITS is 6, 7 or 8")
KEY = wakdulg.key_of(os.environ.get("WAKDULG_KEY_FILE"), os.environ.get("PLAIN_LINES", "no") == "yes")
# A request has to be answered within max_request_time, and the access device asks again after some seconds.
CLUSTER = wakdulg.Cluster(os.environ["NODES"], total=6.0, key=KEY)
NEXT_CODE = (("Reply-Message", "Give the next code."),)


def decide(user, given):
    """Returns what a call returned or raised."""
    parts = re.fullmatch("([!-~]*?)([0-9]{%s})" % DIGITS, given, re.ASCII)
    if not parts:
        return wakdulg.BadField("no code")
    if not re.fullmatch("[!-~]{1,64}", user, re.ASCII):
        return wakdulg.BadField("not a user name")
    if parts[1] and not PASSWORDS:
        return wakdulg.BadField("not a password")
    try:
        return CLUSTER.check(user, parts[2], parts[1] or None)
    except wakdulg.Refused as refusal:
        return refusal


def only(pairs, name):
    """Returns the value of an attribute that a request has once, else an empty text."""
    values = [value for each, value in pairs if each == name]
    return values[0] if len(values) == 1 else ""


def authenticate(pairs):
    """Decides on a request with these attributes. FreeRADIUS takes an exception for RLM_MODULE_FAIL, which refuses."""
    user = only(pairs, "User-Name")
    outcome = decide(user, only(pairs, "User-Password"))
    radiusd.radlog(radiusd.L_AUTH, wakdulg.log_line(only(pairs, "Calling-Station-Id"), user, outcome))
    if isinstance(outcome, wakdulg.Accepted):
        return radiusd.RLM_MODULE_OK
    if isinstance(outcome, wakdulg.Undecided):
        # Then nothing is said to the access device, which asks its other RADIUS server.
        return radiusd.RLM_MODULE_NOTFOUND
    return radiusd.RLM_MODULE_REJECT, NEXT_CODE if outcome.in_doubt else (), ()
