"""Tries what nginx does by the configurations of the examples, before a service that says one line to everybody."""
from __future__ import annotations

import http.client
import os
import shutil
import socket
import ssl
import subprocess
import threading
import unittest
from pathlib import Path

from tests.cases import InFolder

EXAMPLES = Path(__file__).resolve().parents[2] / "examples"
NGINX = shutil.which("nginx", path=os.environ["PATH"] + ":/usr/sbin")
# The service has the header itself, as all answers of ours.
ANSWER = b"HTTP/1.1 200 OK\r\nContent-Length: 2\r\nConnection: close\r\nX-Frame-Options: DENY\r\n\r\nok"


class Site:
    """nginx by a configuration, and the service behind it."""

    def __init__(self, conf: Path, host: str, at: str) -> None:
        self.host, self.folder = host, Path.cwd()
        self.folder.chmod(0o711)
        with socket.create_server(("127.0.0.1", 0)) as free:
            self.port = free.getsockname()[1]
        words = ["openssl", "req", "-x509", "-newkey", "ec", "-pkeyopt", "ec_paramgen_curve:prime256v1", "-nodes"]
        words += ["-days", "2", "-subj", "/CN=" + host, "-keyout", "certificate-key", "-out", "certificate"]
        subprocess.run(words, check=True, capture_output=True)
        text = conf.read_text().replace("FOLDER", str(self.folder)).replace("SITE", "127.0.0.1:%d" % self.port)
        Path("nginx.conf").write_text(text if os.geteuid() == 0 else text.replace("user www-data;\n", ""))
        Path(at).parent.mkdir(exist_ok=True)
        Path(at).parent.chmod(0o755)
        self.service = socket.socket(socket.AF_UNIX)
        self.service.bind(at)
        Path(at).chmod(0o666)
        self.service.listen(100)
        threading.Thread(target=self.serve, daemon=True).start()
        words = [NGINX or "", "-p", str(self.folder), "-e", str(self.folder / "error.log"), "-c",
                 str(self.folder / "nginx.conf")]
        self.nginx = subprocess.Popen(words, stderr=subprocess.DEVNULL)

    def serve(self) -> None:
        """Says the same to everybody."""
        while True:
            try:
                client, _ = self.service.accept()
            except OSError:
                return
            with client:
                client.recv(4096)
                client.sendall(ANSWER)

    def connect(self, address: str) -> ssl.SSLSocket:
        """Returns a connection from an address of loopback."""
        context = ssl.create_default_context(cafile="certificate")
        context.check_hostname = False
        plain = socket.create_connection(("127.0.0.1", self.port), 60, (address, 0))
        return context.wrap_socket(plain, server_hostname=self.host)

    def ask(self, path: str, body: bytes | None = None, address: str = "127.2.0.1") -> tuple[int, list[str]]:
        """Returns the status of a request, and each header X-Frame-Options."""
        asked = http.client.HTTPConnection(self.host)
        asked.sock = self.connect(address)
        with asked.sock:
            asked.request("GET" if body is None else "POST", path, body)
            answer = asked.getresponse()
            return answer.status, answer.msg.get_all("X-Frame-Options", [])

    def is_up(self) -> bool:
        try:
            return self.ask("/login")[0] == 200
        except OSError:
            return False

    def end(self) -> None:
        self.nginx.terminate()
        self.nginx.wait()
        self.service.close()


@unittest.skipUnless(NGINX and shutil.which("openssl"), "needs nginx and openssl")
class Nginx(InFolder):
    def start(self, example: str, host: str, at: str) -> Site:
        """Starts nginx by the configuration of an example."""
        site = Site(EXAMPLES / example / "nginx.conf", host, at)
        self.addCleanup(site.end)
        self.await_that("nginx answers", site.is_up)
        return site

    def check_frames(self, site: Site, most: int) -> None:
        """Looks at an answer of the service, and at one of nginx itself, to a form that is too long."""
        self.assertEqual(site.ask("/login"), (200, ["DENY"]), "the service's, once")
        status, frames = site.ask("/login", b"x" * most, "127.2.0.2")
        self.assertEqual((status, frames), (413, ["DENY"]), "nginx's own")

    def check_slow_bodies(self, site: Site, addresses: int, each: int) -> None:
        """Holds connections whose bodies never come. Another address is answered meanwhile."""
        # A form would be refused: an address sends one a second.
        head = b"GET /login HTTP/1.1\r\nHost: %s\r\nContent-Length: 1000\r\n\r\nx" % site.host.encode()
        held = []
        for number in range(addresses):
            for _ in range(each):
                held.append(site.connect("127.3.0.%d" % (number + 1)))
                held[-1].sendall(head)
        try:
            self.assertEqual(site.ask("/login", None, "127.2.0.3")[0], 200)
        finally:
            for connection in held:
                connection.close()

    def test_the_helpdesk(self) -> None:
        site = self.start("helpdesk", "helpdesk.example", "desk/socket")
        self.check_frames(site, 17_000)
        self.check_slow_bodies(site, 14, 40)

    def test_the_login_page(self) -> None:
        site = self.start("http", "login.example", "login/socket")
        self.check_frames(site, 3000)
        self.check_slow_bodies(site, 55, 10)


if __name__ == "__main__":
    unittest.main()
