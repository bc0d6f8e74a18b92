"""Counts what a trial sees, and keeps what should be otherwise."""
import time

PATIENCE = 300
told, wrong = [], []


def expect(what, got, wanted):
    told.append(what)
    if got != wanted:
        wrong.append("%s: %r in place of %r" % (what, got, wanted))
    print("%s %s" % ("as told:" if got == wanted else "NOT:", what if got == wanted else wrong[-1]), flush=True)


def await_that(what, call, wanted=True, patience=PATIENCE):
    """Expects that a call returns something after a while."""
    end = time.monotonic() + patience
    while (got := call()) != wanted and time.monotonic() < end:
        time.sleep(1)
    expect(what, got, wanted)


def last_line():
    """Prints what was wrong, and the line that counts. Returns whether something was wrong."""
    for line in wrong:
        print(line)
    print("%d as told, %d not" % (len(told) - len(wrong), len(wrong)))
    return len(wrong) > 0
