"""The server: for one browser on this machine, behind a token."""
# SPDX-License-Identifier: Apache-2.0
import hmac
import json
import re
import select
import socket
import threading
from http.server import BaseHTTPRequestHandler, ThreadingHTTPServer
from pathlib import Path

import formulas
from answers import TOOLS
from files import NoFile
from forms import FORMS
from runs import GivenUp

HERE = Path(__file__).parent
EDITOR = Path("/usr/share/javascript/codemirror")
MOST_BODY = (1 << 20) + (1 << 17)
MOST_TEXT = 1 << 20
MOST_CONNECTIONS = 32
KINDS = {".html": "text/html", ".css": "text/css", ".js": "text/javascript"}
SCRIPTS = ("editor.js", "files.js", "panels.js", "proof.js", "studio.js")
QUESTIONS = ("ask", "proof", "saved", "place", "relations", "cites")
# what a question may have, of which type, and what it is without it
KEYS = {"text": "", "number": -1, "numbers": [], "name": "", "as": "", "page": "", "more": False, "anyway": False}
HEADERS = {
    "Content-Security-Policy": "default-src 'none'; script-src 'self'; style-src 'self'; img-src 'self' data:; connect-src 'self'; "
    "form-action 'none'; frame-ancestors 'none'; base-uri 'none'",
    "X-Content-Type-Options": "nosniff",
    "X-Frame-Options": "DENY",
    "Referrer-Policy": "no-referrer",
    "Cross-Origin-Opener-Policy": "same-origin",
    "Cross-Origin-Resource-Policy": "same-origin",
    "Permissions-Policy": "camera=(), microphone=(), geolocation=()",
    "Cache-Control": "no-store",
}


def assets():
    """What the page loads, by name; the editor only where it is installed."""
    found = {"": HERE / "studio.html"}
    for name in ("studio.css", *SCRIPTS):
        found[name] = HERE / name
    for name in ("style.css", "figure.js", "sketch.js", "live.js"):
        found[name] = TOOLS / "page" / name
    editor = {"codemirror.css": "lib/codemirror.css", "codemirror.js": "lib/codemirror.js", "show-hint.css": "addon/hint/show-hint.css"}
    editor |= {"show-hint.js": "addon/hint/show-hint.js", "matchbrackets.js": "addon/edit/matchbrackets.js"}
    if all((EDITOR / path).is_file() for path in editor.values()):
        found |= {name: EDITOR / path for name, path in editor.items()}
    return found


class Server(ThreadingHTTPServer):
    daemon_threads = True
    request_queue_size = 64

    def __init__(self, port, token, files, runs, answers):
        super().__init__(("127.0.0.1", port), Handler)
        self.host = f"127.0.0.1:{self.server_port}"
        self.token = token
        self.address = f"http://{self.host}/{token}/"
        self.files = files
        self.runs = runs
        self.answers = answers
        self.assets = {name: (path.suffix, path.read_bytes()) for name, path in assets().items()}
        self.assets["formulas.js"] = ".js", formulas.script().encode()
        if "codemirror.js" not in self.assets:
            suffix, page = self.assets[""]
            self.assets[""] = suffix, b"".join(line for line in page.splitlines(True) if b"codemirror" not in line)
        self.connections = threading.BoundedSemaphore(MOST_CONNECTIONS)

    def server_bind(self):
        # the name of this machine is not asked for
        socket.socket.setsockopt(self.socket, socket.SOL_SOCKET, socket.SO_REUSEADDR, 1)
        self.socket.bind(self.server_address)
        self.server_address = self.socket.getsockname()
        self.server_name, self.server_port = "127.0.0.1", self.server_address[1]

    def process_request(self, request, client_address):
        if not self.connections.acquire(blocking=False):
            try:
                request.sendall(b"HTTP/1.0 503 Too many connections\r\nContent-Length: 0\r\n\r\n")
            except OSError:
                pass
            self.shutdown_request(request)
            return
        super().process_request(request, client_address)

    def process_request_thread(self, request, client_address):
        try:
            super().process_request_thread(request, client_address)
        finally:
            self.connections.release()

    def handle_error(self, request, client_address):
        """A browser that went away is no news."""


class Refused(Exception):
    """The status and a word."""


class Handler(BaseHTTPRequestHandler):
    timeout = 10
    server_version, sys_version = "studio", ""

    def log_message(self, *args):
        """Says nothing: standard output has the address alone."""

    def send_error(self, code, message=None, explain=None):
        """What the library refuses: in a word, with the same headers."""
        self.close_connection = True
        self.reply(code, "text/plain", f"{code}: refused\n".encode())

    def name(self):
        """The name behind the token; refused without it, or from elsewhere."""
        if self.headers.get_all("Host") != [self.server.host]:
            raise Refused(421, "another host")
        parts = self.path.split("/")
        is_opened = self.command == "GET" and parts[-1] == "" and self.headers.get("Sec-Fetch-Mode") == "navigate"
        if not is_opened and self.headers.get("Sec-Fetch-Site", "none") not in ("none", "same-origin"):
            raise Refused(403, "from another site")
        if len(parts) != 3 or parts[0] or not hmac.compare_digest(parts[1].encode(), self.server.token.encode()):
            raise Refused(403, "without the token")
        return parts[2]

    def do_GET(self):
        self.guarded(self.asset)

    def do_POST(self):
        self.guarded(self.question)

    def guarded(self, work):
        try:
            work()
        except Refused as refused:
            status, words = refused.args
            self.reply(status, "text/plain", f"{status}: {words}\n".encode())
        except (GivenUp, OSError):
            self.close_connection = True

    def asset(self):
        name = self.name()
        if name == "start":
            start = {"files": self.server.files.listed(), "examples": self.server.files.examples, "forms": [form.line for form in FORMS]}
            self.reply(200, "application/json", json.dumps(start).encode())
        elif name in self.server.assets:
            suffix, data = self.server.assets[name]
            self.reply(200, KINDS[suffix], data)
        else:
            raise Refused(404, "no such page")

    def question(self):
        name = self.name()
        body = self.body()
        if name in ("save", "example"):
            self.reply(200, "application/json", json.dumps(getattr(self, name)(body)).encode())
        elif name == "stop":
            self.server.runs.give_up(body["page"], "relations")
            self.reply(200, "application/json", b"{}")
        elif name in QUESTIONS:
            self.stream(name, body)
        else:
            raise Refused(404, "no such question")

    def body(self):
        """The question, as it has to be."""
        if self.headers.get_all("Origin") != [f"http://{self.server.host}"]:
            raise Refused(403, "from another origin")
        if self.headers.get_all("Content-Type") != ["application/json"]:
            raise Refused(415, "application/json is due")
        length = self.headers.get_all("Content-Length") or [""]
        if "Transfer-Encoding" in self.headers or len(length) != 1 or not (length[0].isascii() and length[0].isdigit()):
            raise Refused(411, "a length is due")
        if int(length[0][:12]) > MOST_BODY:
            raise Refused(413, "more than 1 MB")
        try:
            return checked(json.loads(self.rfile.read(int(length[0]))))
        except (ValueError, RecursionError):
            raise Refused(400, "no JSON") from None

    def save(self, body):
        number = body["number"]
        if not 0 <= number < len(self.server.files.paths):
            raise Refused(400, "no such file")
        try:
            return {"saved": self.server.files.save(number, body["text"], body["anyway"])}
        except NoFile as fault:
            return {"note": str(fault)}

    def example(self, body):
        number = body["number"]
        if not 0 <= number < len(self.server.files.examples):
            raise Refused(400, "no such example")
        return self.server.files.example(number)

    def stream(self, name, body):
        """An answer line by line, as it comes."""
        self.head(200, "application/x-ndjson")

        def send(line):
            self.wfile.write(json.dumps(line).encode() + b"\n")

        try:
            with self.server.runs.question(body["page"], name, self.is_gone) as asked:
                for line in getattr(self.server.answers, name)({**body, "send": send}, asked):
                    send(line)
        except (GivenUp, OSError):
            pass
        except Exception as fault:  # the studio goes on
            send({"note": f"The studio has a fault here: {type(fault).__name__}: {fault}", "state": "error", "html": ""})

    def is_gone(self):
        """Whether the browser has given up the question."""
        ready = select.select([self.connection], [], [], 0)[0]
        try:
            return bool(ready) and self.connection.recv(1, socket.MSG_PEEK) == b""
        except OSError:
            return True

    def head(self, status, kind, length=None):
        self.send_response(status)
        self.send_header("Content-Type", f"{kind}; charset=utf-8" if kind.startswith("text") else kind)
        if length is not None:
            self.send_header("Content-Length", str(length))
        for key, value in HEADERS.items():
            self.send_header(key, value)
        self.end_headers()

    def reply(self, status, kind, data):
        self.head(status, kind, len(data))
        self.wfile.write(data)


def checked(body):
    """A question as it has to be, with all keys."""
    if type(body) is not dict or any(key not in KEYS or type(value) is not type(KEYS[key]) for key, value in body.items()):
        raise Refused(400, "no question")
    body = {**KEYS, **body}
    if any(type(number) is not str for number in body["numbers"]) or not re.fullmatch(r"[A-Za-z0-9-]{0,64}", body["page"]):
        raise Refused(400, "no question")
    try:
        size = len(body["text"].encode())
    except UnicodeEncodeError:
        raise Refused(400, "no text") from None
    if size > MOST_TEXT:
        raise Refused(413, "more than 1 MB")
    return body
