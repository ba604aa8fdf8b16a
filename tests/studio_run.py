"""A studio that runs for a test."""
# SPDX-License-Identifier: Apache-2.0
import json
import os
import socket
import subprocess
import time
from pathlib import Path

TOP = Path(__file__).resolve().parent.parent
# a figure whose relations take long
SLOW = (TOP / "examples" / "simson_line.geo").read_text().replace(
    "prove {", "".join(f"midpoint Q{k} {p} {q}\n" for k, (p, q) in enumerate(["AB", "BC", "CA", "XY", "YZ", "OA", "OB", "OC"])) + "prove {"
)  # fmt: skip


class Studio:
    def __init__(self, binary, *words):
        self.begun = time.monotonic()
        environment = {**os.environ, "GEO_PROGRAM": binary}
        self.run = subprocess.Popen([TOP / "geo", "studio", "--no-open", *map(str, words)], stdout=subprocess.PIPE, text=True, env=environment)
        self.read()

    def read(self):
        self.address = self.run.stdout.readline().split()[-1]
        self.started = time.monotonic() - self.begun
        _, _, self.host, self.token, _ = self.address.split("/")
        self.port = int(self.host.split(":")[1])

    def connect(self):
        return socket.create_connection(("127.0.0.1", self.port), timeout=60)

    def raw(self, data):
        with self.connect() as s:
            out = b""
            try:
                s.sendall(data)
                while part := s.recv(65536):
                    out += part
            except OSError:
                pass
        return out

    def get(self, path, host=None, more=""):
        return self.raw(f"GET {path} HTTP/1.1\r\nHost: {host or self.host}\r\n{more}\r\n".encode())

    def head(self, name, length, origin=None, kind="application/json", more=""):
        origin = f"http://{self.host}" if origin is None else origin
        said = f"Origin: {origin}\r\n" if origin else ""
        return f"POST /{self.token}/{name} HTTP/1.1\r\nHost: {self.host}\r\n{said}Content-Type: {kind}\r\nContent-Length: {length}\r\n{more}\r\n".encode()

    def post(self, name, body, **given):
        body = body.encode() if isinstance(body, str) else json.dumps(body).encode()
        return self.raw(self.head(name, given.pop("length", len(body)), **given) + body)

    def lines(self, name, body):
        """The lines of an answer."""
        return [json.loads(line) for line in self.post(name, body).split(b"\r\n\r\n", 1)[1].splitlines()]

    def children(self):
        said = subprocess.run(["ps", "--ppid", str(self.run.pid), "-o", "pid=,args="], capture_output=True, text=True).stdout
        return [line.split(None, 1) for line in said.splitlines()]

    def searches(self):
        return sum("discover" in words for _, words in self.children())

    def wait(self, condition, seconds=20.0):
        """Whether the condition comes true in time."""
        end = time.monotonic() + seconds
        while not (value := condition()) and time.monotonic() < end:
            time.sleep(0.05)
        return value

    def kill(self):
        """Where a test broke off."""
        if self.run.poll() is None:
            self.run.kill()
            self.run.wait()

    def end(self, number=2):
        """Ends it by a signal: its status, and whether one of its children lives on."""
        alive = [pid for pid, _ in self.children()]
        self.run.send_signal(number)
        status = self.run.wait(30)
        return status, not self.wait(lambda: not any(map(lives, alive)), 10)


def lives(pid):
    """Whether a process runs; one that has ended and waits for its parent does not."""
    try:
        return Path(f"/proc/{pid}/stat").read_text().rpartition(")")[2].split()[0] != "Z"
    except OSError:
        return False
