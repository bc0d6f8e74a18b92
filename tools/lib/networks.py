"""Networks of nodes on one machine, and a relay between them, for the scripts of examples/.

Members have the same addresses in the cluster file of each node. So each node has a network of its own, in which a
relay has the addresses of the other members. A script needs the rights of root for them, or the right to make
namespaces of users.
"""
import ctypes
import itertools
import os
import random
import selectors
import socket
import subprocess
import threading
import time
from pathlib import Path


def system(name, *words):
    """Makes a system call that changes the namespaces of this thread."""
    if getattr(ctypes.CDLL(None, use_errno=True), name)(*words):
        fault = ctypes.get_errno()
        raise OSError(fault, "%s: %s" % (name, os.strerror(fault)))


class Network:
    """A network that has all of 127.0.0.0/8 for itself. A thread enters it, and opens sockets and starts programs."""
    OF_NETWORKS, OF_USERS = 0x40000000, 0x10000000

    def __init__(self):
        system("unshare", self.OF_NETWORKS)
        self.file = os.open("/proc/thread-self/ns/net", os.O_RDONLY)
        subprocess.run(["ip", "link", "set", "lo", "up"], check=True)

    def enter(self):
        system("setns", self.file, self.OF_NETWORKS)

    @classmethod
    def of_each(cls, nodes):
        """Makes a network for each node. A user who isn't root becomes that in a namespace first."""
        if os.geteuid() != 0:
            maps = {"setgroups": "deny", "uid_map": "0 %d 1" % os.geteuid(), "gid_map": "0 %d 1" % os.getegid()}
            system("unshare", cls.OF_USERS)
            for name, text in maps.items():
                Path("/proc/self", name).write_text(text)
        return {node: cls() for node in nodes}


class Relay(threading.Thread):
    """Hands on what the nodes send to each other, keeps it, and sends it again. `members` has the address of each node.
    In the network of node i the way (i, j) has the address of node j. If the relay repeats, it sends some of what it
    kept again all the time."""
    # How many datagrams are sent again in a hundredth of a second: all the time, and in a burst. After each 64th
    # datagram a node ticks. So a line waits for votes for a shorter time in a burst.
    SOME, MANY = 1, 25

    def __init__(self, networks, members, repeats=True):
        super().__init__(daemon=True)
        self.members, self.repeats = members, repeats
        self.kept, self.again, self.is_over = [], 0, threading.Event()
        self.ways = {(node, other): self.way(networks[node], members[other])
                     for node, other in itertools.permutations(members, 2)}

    @staticmethod
    def way(network, address):
        network.enter()
        each = socket.socket(socket.AF_INET, socket.SOCK_DGRAM)
        each.bind(address)
        each.setblocking(False)
        return each

    def send(self, sender, receiver, datagram):
        try:
            self.ways[receiver, sender].sendto(datagram, self.members[receiver])
        except (BlockingIOError, ConnectionRefusedError):
            pass

    def receive(self, pair):
        try:
            while True:
                datagram, address = self.ways[pair].recvfrom(2048)
                if address == self.members[pair[0]]:
                    self.kept.append((*pair, datagram))
                    self.send(*pair, datagram)
        except (BlockingIOError, ConnectionRefusedError):
            pass

    def run(self):
        if self.repeats:
            threading.Thread(target=self.send_some, daemon=True).start()
        with selectors.DefaultSelector() as selector:
            for pair, way in self.ways.items():
                selector.register(way, selectors.EVENT_READ, pair)
            while True:
                for key, _ in selector.select(1):
                    self.receive(key.data)

    def send_again(self, sent):
        """Sends kept datagrams to each node but their sender, from the address of the sender."""
        for sender, _, datagram in sent:
            for receiver in self.members:
                if receiver != sender:
                    self.send(sender, receiver, datagram)
                    self.again += 1

    def send_some(self):
        """Sends some of the kept datagrams again until it is over."""
        while not self.is_over.wait(0.01):
            self.send_again(random.choices(self.kept, k=self.SOME) if self.kept else [])

    def burst(self, former):
        """Sends what was kept up to a number again, in order and then backwards."""
        for some in self.kept[:former], self.kept[:former][::-1]:
            for begin in range(0, former, self.MANY):
                self.send_again(some[begin:begin + self.MANY])
                time.sleep(0.01)
