"""A cluster of etcd on this machine, as a peer of `oathd serve` in measures: Debian's `etcd-server`, over its JSON gateway."""
import base64
import json
import os
import shutil
import socket
import subprocess
import time
import urllib.request

from serving import free_ports


def is_there():
    return shutil.which("etcd") is not None


def encoded(text):
    return base64.b64encode(text.encode()).decode()


class Etcd:
    """Members of a cluster, each a process with its data in this folder. Whatever they wrote goes when they go."""

    def __init__(self, folder, count, limits):
        self.folder = os.path.join(folder, "etcd")
        os.mkdir(self.folder)
        self.ports, peers = free_ports(count, socket.SOCK_STREAM), free_ports(count, socket.SOCK_STREAM)
        names = ["m%d" % (member + 1) for member in range(count)]
        cluster = ",".join("%s=http://127.0.0.1:%d" % each for each in zip(names, peers))
        self.processes = []
        for name, port, peer, limit in zip(names, self.ports, peers, limits):
            own, to_peers = "http://127.0.0.1:%d" % port, "http://127.0.0.1:%d" % peer
            words = ["etcd", "--name", name, "--data-dir", os.path.join(self.folder, name), "--log-level", "error",
                     "--listen-client-urls", own, "--advertise-client-urls", own, "--listen-peer-urls", to_peers,
                     "--initial-advertise-peer-urls", to_peers, "--initial-cluster", cluster]
            self.processes.append(subprocess.Popen(words, stdout=subprocess.DEVNULL, stderr=subprocess.DEVNULL,
                                                   preexec_fn=limit))

    def asked(self, port, call, body):
        request = urllib.request.Request("http://127.0.0.1:%d/v3/kv/%s" % (port, call), json.dumps(body).encode())
        with urllib.request.urlopen(request, timeout=10) as answer:
            return json.load(answer)

    def begin(self, tokens):
        """Waits until each member answers, and gives each token's key the value of factor 0."""
        end = time.monotonic() + 60
        for port in self.ports:
            while True:
                try:
                    self.asked(port, "range", {"key": encoded("u0")})
                    break
                except OSError:
                    if time.monotonic() > end:
                        raise RuntimeError("etcd does not answer") from None
                    time.sleep(0.1)
        for first in range(0, tokens, 100):
            puts = [{"requestPut": {"key": encoded("u%d" % token), "value": encoded("%020d" % 0)}}
                    for token in range(first, min(first + 100, tokens))]
            self.asked(self.ports[0], "txn", {"success": puts})

    def __enter__(self):
        return self

    def __exit__(self, *_):
        for process in self.processes:
            process.kill()
            process.wait()
        shutil.rmtree(self.folder, ignore_errors=True)
