"""What bench/overload, opening and growth share: the clients of bench/load-client.c, and the memory of processes.

OATHD in the environment is the program, else the one that ./oathd --build has made.
"""
import os
import statistics
import subprocess
import sys
import time

TOP = os.path.dirname(os.path.dirname(os.path.abspath(__file__)))
os.environ.setdefault("OATHD", os.path.join(TOP, "crates", "oathd", "out", "oathd"))
import serving

WORDS_OF_MEMORY = {"now": "VmRSS:", "peak": "VmHWM:"}


def begin(folder):
    """Stops if there is no program. Prints what all figures depend on."""
    if not os.path.exists(serving.PROGRAM):
        sys.exit("bench: no %s: run ./oathd --build first" % serving.PROGRAM)
    kind = subprocess.run(["stat", "-f", "-c", "%T", folder], stdout=subprocess.PIPE, text=True).stdout.strip()
    print("files on %s, %d processors, load %.1f" % (kind, os.cpu_count(), os.getloadavg()[0]), flush=True)


def compiled_clients(folder):
    """Compiles the clients into a folder. Returns the path of the program."""
    program, source = os.path.join(folder, "load-client"), os.path.join(TOP, "bench", "load-client.c")
    if subprocess.run(["gcc", "-O2", source, "-o", program]).returncode:
        sys.exit("bench: gcc does not compile the clients")
    return program


def rows_of(count):
    """Returns the rows of a users file with event tokens."""
    return ["HOTP u%d - %s" % (token, serving.key_of(token).hex()) for token in range(count)]


def memory(process, kind):
    """Returns the resident memory of a running process in bytes, `now` or at its `peak`. It is 0 after its end."""
    with open("/proc/%d/status" % process.pid) as status:
        return next((1024 * int(line.split()[1]) for line in status if line.startswith(WORDS_OF_MEMORY[kind])), 0)


def opening(nodes, node=0):
    """Starts a node. Returns the seconds until its first answer, and its peak of memory until then in bytes."""
    start = time.monotonic()
    nodes.start(node)
    return time.monotonic() - start, memory(nodes.processes[node], "peak")


def run_of(words):
    """Runs a program without its output. Returns its seconds, and its peak of memory in bytes.

    The peak is read every 2 ms, since the system's figure for an ended child includes the memory of Python."""
    start, peak = time.monotonic(), 0
    process = subprocess.Popen(words, stdout=subprocess.DEVNULL)
    while process.poll() is None:
        peak = max(peak, memory(process, "peak"))
        time.sleep(0.002)
    if process.returncode:
        sys.exit("bench: status %d of %s" % (process.returncode, " ".join(words)))
    return time.monotonic() - start, peak


class Clients:
    """A process of clients that ask nodes, run by run. Counters continue from one run to the next."""

    def __init__(self, program, count, nodes):
        words = [program, str(count), nodes.users, *map(str, nodes.ports)]
        self.process = subprocess.Popen(words, stdin=subprocess.PIPE, stdout=subprocess.PIPE, text=True)

    def ask(self, seconds, count=1 << 62):
        """Has the clients ask for some seconds, or until `count` lines were accepted. Returns their numbers by name."""
        print(seconds, count, file=self.process.stdin, flush=True)
        words = self.process.stdout.readline().split()
        if not words:
            sys.exit("bench: the clients ended, status %s" % self.process.wait())
        return {name: float(number) for name, number in zip(words[::2], words[1::2])}

    def __enter__(self):
        return self

    def __exit__(self, *_):
        self.process.kill()
        self.process.wait()


def medians(runs):
    """Returns the median of each number of several runs."""
    return {name: statistics.median(run[name] for run in runs) for name in runs[0]}
