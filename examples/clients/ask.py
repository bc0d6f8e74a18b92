#!/usr/bin/env python3
"""Asks the nodes of a cluster one line, a node after the other until one has decided, and prints the last answer.

    ask.py [--key-file NUMBER:FILE] LINE|- ADDRESS:PORT..
                                     status 0 for OK, 1 for NO, 2 where no node answered or the words are wrong

With a key, which WAKDULG_KEY_FILE may name too, the line is sealed for each node: the nodes stand in the order of their
numbers, from 1 on, or each has its number before it, as 2=ADDRESS:PORT.
LINE is `CHECK nonce user code password` or `RESYNC nonce user code next-code password`. Without a nonce, ask.py puts
in a random one. With `-` the line is the first one of standard input, since every user of the machine sees the
words of a command. The line is the same for each node, so that its code is used up once at most.

ask.py sends a node the line, and sends it again if no answer comes within a second. It leaves the node after 2.5
seconds, or at once if the system reports that nobody is there or that no route leads there. After TIMEOUT, BUSY and
CLOCK, which are about the node, it asks the next one. Any other answer decides. It ignores all that is no answer to
this line. It asks by the package wakdulg, which is installed, lies beside it, or is in its checkout.
"""
import os
import re
import sys

FOLDER = os.path.dirname(os.path.realpath(__file__))
sys.path += [FOLDER, os.path.join(FOLDER, "../../python")]
sys.dont_write_bytecode = True
import wakdulg

USAGE = "usage: ask.py [--key-file NUMBER:FILE] LINE|- ADDRESS:PORT.. (ask.py --help says more)"


def with_nonce(line):
    """The line, with a nonce of 20 letters and digits where it has none."""
    if re.fullmatch(b"CHECK( [^ ]+){3}|RESYNC( [^ ]+){4}", line):
        return line.replace(b" ", b" %b " % wakdulg.new_nonce(), 1)
    return line


def read_line(word):
    """Returns the line that a word is, or names."""
    return sys.stdin.buffer.readline(512).rstrip(b"\n") if word == "-" else os.fsencode(word)


def read_words(words):
    """Returns the line, and each node's address with what it is asked."""
    key_word = os.environ.get("WAKDULG_KEY_FILE")
    if words[:1] == ["--key-file"]:
        if len(words) == 1:
            raise ValueError("--key-file without its NUMBER:FILE")
        key_word, *words = words[1:]
    key = wakdulg.read_key(key_word) if key_word else None
    numbered = [wakdulg.read_numbered(word, number) for number, word in enumerate(words[1:], 1)]
    if not numbered:
        raise ValueError("no ADDRESS:PORT")
    line = with_nonce(read_line(words[0]))
    return [(node, wakdulg.Sealed(line, key, number) if key else wakdulg.Plain(line)) for number, node in numbered]


def cause_of(answer, line):
    """Returns why a node may have given no answer, and what to look at. `answer` is None, or b"" if nobody took the line."""
    if answer is not None:
        return "nobody takes lines there: start the node"
    if isinstance(line, wakdulg.Sealed):
        return "silent" + wakdulg.SEALED_HINT
    return "silent: a node with a clients file wants --key-file, and one without it takes lines of its own machine alone"


def main():
    if sys.argv[1:] in (["--help"], ["-h"]):
        print(__doc__, end="")
        return
    try:
        asked = read_words(sys.argv[1:])
    except (ValueError, OSError) as fault:
        print("ask.py: %s\n%s" % (fault, USAGE), file=sys.stderr)
        sys.exit(2)
    last, causes = None, ""
    for node, line in asked:
        answer = wakdulg.hear(node, line)
        causes += "" if answer else "\n  %s:%d: %s" % (*node, cause_of(answer, line))
        last = answer or last
        if last and last.decode().split(" ")[2] not in wakdulg.OF_THE_NODE:
            break
    if not last:
        print("ask.py: no node answers" + causes, file=sys.stderr)
        sys.exit(2)
    print(last.decode())
    sys.exit(0 if last.startswith(b"OK ") else 1)


if __name__ == "__main__":
    main()
