"""Requests to the studio by hand. Used by tests/studio."""
# SPDX-License-Identifier: Apache-2.0
import json
import os
import subprocess
import tempfile
import threading
import time
from pathlib import Path

from studio_run import SLOW, TOP, Studio

GOOD = "point A\npoint B\nmidpoint M A B\nprove { collinear A B M }\n"
HEADERS = (b"Content-Security-Policy: default-src 'none'", b"nosniff", b"X-Frame-Options: DENY", b"Referrer-Policy: no-referrer", b"no-store")


def run(binary, want):
    with tempfile.TemporaryDirectory() as room:
        file = Path(room, "a.geo")
        file.write_text(GOOD)
        s = Studio(binary, file)
        try:
            refused(s, want)
            bodies(s, want, file)
            programs(s, want)
            pages(s, want)
            many(s, want)
            left(s, want)
            with s.connect() as browser:
                browser.sendall(question(s, "relations", {"text": SLOW, "page": "c"}))
                want("a search before the end", s.wait(lambda: s.searches() == 1), s.children())
                status, is_left = s.end()
                want("Ctrl-C ends it with 0, and all its runs", status == 0 and not is_left, status)
        finally:
            s.kill()
        killed(binary, want, file)
        saving(binary, want, Path(room))
        building(binary, want, Path(room))
        limited(binary, want)
    words(binary, want)


def status(reply):
    return reply[9:12].decode(errors="replace")


def question(s, name, body):
    data = json.dumps(body).encode()
    return s.head(name, len(data)) + data


def refused(s, want):
    """Without the token, from elsewhere, or of another kind: nothing is done."""
    home = f"/{s.token}/"
    page = s.get(home)
    want("the page", status(page) == "200", page)
    for header in HEADERS:
        want(f"header {header.decode()}", header in page.split(b"\r\n\r\n")[0])
    for path in ("/", f"/{'A' * 32}/", f"/{s.token}", f"/{s.token[:-1]}/", f"{home}../studio.py", f"{home}%2e%2e/x", f"{home}/etc/passwd", f"http://{s.host}{home}"):
        want(f"no page at {path.replace(s.token, 'TOKEN')}", status(s.get(path)) == "403")
    for path in ("studio.py", "..%2f..%2fetc%2fpasswd", "style.css?x"):
        want(f"no page {path}", status(s.get(home + path)) == "404")
    for host in ("evil.example", f"localhost:{s.port}", "127.0.0.1"):
        want(f"host {host}", status(s.get(home, host=host)) == "421")
    want("two hosts", status(s.get(home, more="Host: evil\r\n")) == "421")
    want("another site", status(s.get(home + "start", more="Sec-Fetch-Site: cross-site\r\n")) == "403")
    want("a question", b'"proved"' in s.post("ask", {"text": GOOD}))
    for name, wanted, given in (
        ("no origin", "403", {"origin": ""}),
        ("another origin", "403", {"origin": "http://evil.example"}),
        ("origin null", "403", {"origin": "null"}),
        ("another type", "415", {"kind": "text/plain"}),
        ("a length below 0", "411", {"length": -5}),
        ("a length in words", "411", {"length": "1e3"}),
        ("a length of 10^15", "413", {"length": 10**15}),
        ("chunks", "411", {"more": "Transfer-Encoding: chunked\r\n"}),
    ):
        want(name, status(s.post("ask", {"text": GOOD}, **given)) == wanted)
    for name, data in (("PUT", f"PUT {home} HTTP/1.1\r\nHost: {s.host}\r\n\r\n".encode()), ("no HTTP", b"\0\xff\x16\3\r\n\r\n"), ("a long line", b"GET /" + b"a" * 100_000 + b" HTTP/1.1\r\n\r\n")):
        want(f"{name} is refused", b"refused" in s.raw(data))


def bodies(s, want, file):
    for name, wanted, body in (
        ("2 MB", "413", {"text": "x" * 2_000_000}),
        ("1 MB and more", "413", {"text": "x" * 1_050_000}),
        ("no JSON", "400", "{"),
        ("deep JSON", "400", "[" * 100_000),
        ("a list", "400", []),
        ("a number for the text", "400", {"text": 5}),
        ("half a character", "400", '{"text": "\\ud800"}'),
        ("a path", "400", {"text": "", "path": "/etc/passwd"}),
        ("an odd name of the page", "400", {"text": "", "page": "a b"}),
    ):
        want(name, status(s.post("ask", body)) == wanted)
    for body in ({"number": 5, "text": ""}, {"number": -1, "text": ""}, {"text": "x"}, {"number": True, "text": ""}):
        want(f"save {body}", status(s.post("save", body)) == "400")
        want(f"example {body}", status(s.post("example", {**body, "number": body.get("number", -1) + 10**6})) == "400")
    want("the file is as it was", file.read_text() == GOOD)
    want("numbers that are none", b"Whole numbers" in s.post("place", {"text": GOOD, "numbers": ["1\nprove", "2"]}))


def programs(s, want):
    """Odd programs get a word, and the studio goes on."""
    for name, text, word in (
        ("empty", "", "the text ends without a statement"),
        ("a byte 0", "point A\0", "a character that the language does not have"),
        ("1 MB", "%" + "x" * 1_048_000, "the text ends without a statement"),
        ("513 points", "".join(f"point A{k}\n" for k in range(513)), "more than 512 points"),
    ):
        answer = s.lines("ask", {"text": text})
        want(f"program: {name}", len(answer) == 1 and answer[0]["state"] == "error" and word in answer[0]["words"], answer)
    answer = s.lines("ask", {"text": "point A\npoint B\n% \u00e9\U0001f600\nmidpoint M A b\nprove { collinear A B M }\n"})
    place = {key: answer[0][key] for key in ("line", "column", "length", "hint")}
    want("the place of a mistake", place == {"line": 3, "column": 13, "length": 1, "hint": "declared is B"}, answer)
    many = "".join(f"point A{k}\n" for k in range(512)) + "prove { identical A0 A0 }\n"
    answer = s.lines("ask", {"text": many})
    want("512 points", answer[0]["state"] == "proved" and len(answer) == 2, str(answer)[:200])
    want("no point", s.lines("ask", {"text": "param r\nprove { equal { r } { r } }\n"})[1]["note"] == "No picture: there are no points.")
    want("numbers exactly", s.lines("place", {"text": GOOD, "numbers": ["0", "0", "1", "3"]})[0]["holds"] is True)


def pages(s, want):
    """Two pages of one studio do not take each other's questions away; a page's new question gives up the one before."""
    answers = {}

    def ask(page):
        answers[page] = s.lines("ask", {"text": GOOD, "page": page})

    threads = [threading.Thread(target=ask, args=(f"page-{k}",)) for k in range(8)]
    for thread in threads:
        thread.start()
    for thread in threads:
        thread.join()
    want("eight pages at once", len(answers) == 8 and all(len(answer) == 2 for answer in answers.values()), {page: len(answer) for page, answer in answers.items()})
    one, two = s.connect(), s.connect()
    one.sendall(question(s, "relations", {"text": SLOW, "page": "a"}))
    two.sendall(question(s, "relations", {"text": SLOW, "page": "b"}))
    room = min(2, max(2, os.cpu_count() or 2) - 1)  # of searches there are fewer than processors
    want("two searches of two pages", s.wait(lambda: s.searches() == room), s.children())
    s.post("stop", {"page": "a"})
    want("one is stopped, the other goes on", s.wait(lambda: s.searches() == 1), s.children())
    s.post("stop", {"page": "b"})
    want("and then that one", s.wait(lambda: s.searches() == 0), s.children())
    one.close()
    two.close()


def many(s, want):
    threads = [threading.Thread(target=s.post, args=("relations", {"text": SLOW})) for _ in range(30)]
    for thread in threads:
        thread.start()
    want("30 questions at once of one page: one run", s.wait(lambda: sum(map(threading.Thread.is_alive, threads)) == s.searches() == 1, 60), s.children())
    s.wait(lambda: sum(thread.is_alive() for thread in threads) <= 1)
    s.post("stop", {})
    for thread in threads:
        thread.join()
    want("and none when it is stopped", s.searches() == 0, s.children())
    idle = [s.connect() for _ in range(40)]
    want("40 idle connections: a word for the next one", s.wait(lambda: status(s.get(f"/{s.token}/")) == "503", 8))
    for connection in idle:
        connection.close()
    want("and then the page again", s.wait(lambda: status(s.get(f"/{s.token}/")) == "200", 30))


def left(s, want):
    """A browser that leaves takes its run with it."""
    with s.connect() as browser:
        browser.sendall(question(s, "relations", {"text": SLOW}))
        want("a search", s.wait(lambda: s.searches() == 1), s.children())
    want("ends where the browser leaves", s.wait(lambda: s.searches() == 0), s.children())


def killed(binary, want, file):
    s = Studio(binary, file)
    with s.connect() as browser:
        browser.sendall(question(s, "relations", {"text": SLOW}))
        want("a search before the studio is killed", s.wait(lambda: s.searches() == 1), s.children())
        status, is_left = s.end(9)
        want("nothing is left where it is killed", status == -9 and not is_left, status)


def saving(binary, want, room):
    """A given file is written whole, and not over another program's changes without a question; one that is not there is made at Save."""
    old, new, only = room / "old.geo", room / "new.geo", room / "only.geo"
    old.write_text(GOOD)
    old.chmod(0o640)
    only.write_text(GOOD)
    s = Studio(binary, old, new, only)
    try:
        start = json.loads(s.get(f"/{s.token}/start").split(b"\r\n\r\n", 1)[1])
        want("the files", [(f["name"], f["text"]) for f in start["files"]] == [("old.geo", GOOD), ("new.geo", ""), ("only.geo", GOOD)])
        want("the examples", len(start["examples"]) == len(list((TOP / "examples").glob("*.geo"))))
        want("a new file is not there before Save", not new.exists())
        want("saved", b'{"saved": true}' in s.post("save", {"number": 1, "text": "% é\n"}) and new.read_text() == "% é\n")
        want("saved", b'{"saved": true}' in s.post("save", {"number": 0, "text": "% one\n"}) and old.read_text() == "% one\n" and old.stat().st_mode & 0o777 == 0o640)
        old.write_text("% another\n")
        want("not over another's changes", b'{"saved": false}' in s.post("save", {"number": 0, "text": "% two\n"}) and old.read_text() == "% another\n")
        want("but so wanted", b'{"saved": true}' in s.post("save", {"number": 0, "text": "% two\n", "anyway": True}) and old.read_text() == "% two\n")
        want("nothing else is written", sorted(path.name for path in room.iterdir() if not path.name.startswith("a.")) == ["new.geo", "old.geo", "only.geo"])
        want("an example", json.loads(s.post("example", {"number": 0}).split(b"\r\n\r\n", 1)[1])["text"].startswith("%"))
    finally:
        s.end(15)


def limited(binary, want):
    """The steps of a run are those that are given; more of them are taken where it is asked for; a run ends at its time."""
    s = Studio(binary, "--steps", "10")
    try:
        altitudes = (TOP / "examples" / "altitudes.geo").read_text()
        answer = s.lines("ask", {"text": altitudes})
        want("out of steps", answer[0]["state"] == "undecided" and answer[0]["more"] and "out of steps" in answer[0]["html"], answer)
        answer = s.lines("ask", {"text": altitudes, "more": True})
        want("and with more", answer[0]["state"] == "proved", answer)
        refuted(s, want)
    finally:
        s.end(15)
    s = Studio(binary, "--steps", "1000000000000", "--seconds", "1")
    try:
        answer = s.lines("ask", {"text": (TOP / "examples/stopped/miquel_of_four_lines.geo").read_text()})
        want("a run is stopped at its time", "stopped at its time" in answer[0]["html"] and answer[0]["more"], answer)
        want("and its figure is there", "figure" in answer[-1], answer)
        want("and the studio goes on", s.lines("ask", {"text": GOOD, "more": True})[0]["state"] == "proved")
    finally:
        s.end(15)


def refuted(s, want):
    """Where the steps are spent, a figure that is tried refutes a false statement, as `place` says; the picture is that figure."""
    text = (TOP / "examples" / "varignon_as_a_rectangle.geo").read_text()
    answer = s.lines("ask", {"text": text})
    want("out of steps, and false", answer[0]["state"] == "false" and not answer[0]["more"] and not answer[0]["proof"], answer[0])
    want("with its words", "The prover stopped" not in answer[0]["html"] and "as the word <code>place</code> says" in answer[0]["html"], answer[0])
    numbers = [one["value"] for one in answer[0]["numbers"]]
    placed = s.lines("place", {"text": text, "numbers": numbers})
    want("and with its numbers", len(numbers) == 8 and placed[0]["holds"] is False, placed)
    want("in its picture", answer[1]["caption"].startswith("The figure of the counterexample") or "fails" in answer[1]["caption"], answer[1])
    page = s.lines("saved", {"text": text, "as": "page", "name": "a.geo"})[0]["text"]
    want("in its page", "<b>False.</b>" in page and "as the word <code>place</code> says" in page, page[:300])
    want("no log is false", "verdict" not in s.lines("saved", {"text": text, "as": "log", "name": "a.geo"})[0]["text"])


def building(binary, want, room):
    """Where the program is not built, the studio says that it waits, and then answers."""
    go = room / "go"
    for script, wanted in ((f'until [ -e "{go}" ]; do sleep 0.1; done; echo "{binary}"', "proved"), ("echo 'geo: no compiler' >&2; exit 70", "There is no program: no compiler")):
        build = room / "build"
        build.write_text(f"#!/bin/sh\n{script}\n")
        build.chmod(0o755)
        s = Studio.__new__(Studio)
        s.begun = time.monotonic()
        s.run = subprocess.Popen(["python3", "-SsEB", str(TOP / "tools/studio/studio.py"), "--build", str(build), "--no-open"], stdout=subprocess.PIPE, text=True)
        try:
            s.read()
            with s.connect() as browser, browser.makefile("r") as said:
                browser.sendall(question(s, "ask", {"text": GOOD}))
                lines = (json.loads(line) for line in said if line.startswith("{"))
                first = next(lines)
                want(f"building: {wanted}: waits", wanted != "proved" or first["state"] == "building", first)
                go.touch()
                answer = [first, *lines]
            want(f"building: {wanted}", any(wanted in (line.get("state"), line.get("note")) for line in answer), answer)
            want("building: the end", s.end()[0] == 0)
        finally:
            s.kill()


def words(binary, want):
    """Words that make no sense are refused with 3."""
    for given in (["--port", "x"], ["--port", "70000"], ["/no/such/folder/a.geo"], [str(TOP)], ["--steps", "x"]):
        ended = subprocess.run([TOP / "geo", "studio", "--no-open", *given], capture_output=True, text=True, timeout=60, env={**os.environ, "GEO_PROGRAM": binary})
        want(f"geo studio {given}", ended.returncode == 3 and ended.stderr.startswith("geo: ") and not ended.stdout, ended)
