"""A studio in the browser, for one user of this machine: the text of a program, its figure, its verdict and its proof.

    studio.py (--program PROGRAM [--recorded] | --build GEO) [--port N] [--no-open] [--steps N] [--seconds N] -- [FILE..]

PROGRAM is the prover, of which the gate's record may say that it is proved; where it is not built, `GEO studio` builds it and writes its
path. The prover answers; what stands here carries its answers to the page and back, and nothing is proved of it.
"""
# SPDX-License-Identifier: Apache-2.0
import argparse
import os
import secrets
import shutil
import signal
import subprocess
import sys
import tempfile
import threading
from pathlib import Path

from answers import SECONDS, STEPS, Answers
from files import Files, NoFile
from program import Program
from runs import Runs
from web import Server

REFUSED = 3


def parsed(words):
    parser = argparse.ArgumentParser(prog="studio", add_help=False)
    parser.add_argument("--program", default="")
    parser.add_argument("--recorded", action="store_true")
    parser.add_argument("--build", default="")
    parser.add_argument("--port", default="0")
    parser.add_argument("--steps", type=int, default=STEPS)
    parser.add_argument("--seconds", type=int, default=SECONDS)
    parser.add_argument("--no-open", action="store_true")
    parser.add_argument("files", nargs="*")
    return parser.parse_args(words)


def port_of(text):
    """The number of a port, or nothing."""
    return int(text) if text.isascii() and text.isdigit() and len(text) < 6 and int(text) < 65536 else None


def refuse(words):
    print(f"geo: {words}", file=sys.stderr)
    return REFUSED


def has_browser():
    """Whether there is a display, and something that opens a browser."""
    return bool(os.environ.get("DISPLAY") or os.environ.get("WAYLAND_DISPLAY")) and shutil.which("xdg-open") is not None


def open_browser(address, room):
    """Opens the browser. The words of a process can be read by all users of a machine, and the address has the token: so the browser opens
    a file that only this user can read, and that leads there."""
    page = Path(room) / "studio.html"
    page.write_text(f'<!DOCTYPE html><meta charset="utf-8"><meta http-equiv="refresh" content="0; url={address}"><a href="{address}">The studio</a>')
    subprocess.Popen(["xdg-open", str(page)], stdin=subprocess.DEVNULL, stdout=subprocess.DEVNULL, stderr=subprocess.DEVNULL)


def serve(server, is_opened):
    """Serves until a signal ends it."""
    ended = threading.Event()
    for number in (signal.SIGINT, signal.SIGTERM, signal.SIGHUP):
        signal.signal(number, lambda *_: ended.set())
    threading.Thread(target=server.serve_forever, args=(0.05,), daemon=True).start()
    try:
        print(f"The studio is at {server.address}\nIt ends with Ctrl-C.", flush=True)
    except OSError:
        return
    if not is_opened:
        ended.wait()
    else:
        with tempfile.TemporaryDirectory(prefix="studio-") as room:
            open_browser(server.address, room)
            ended.wait()
    server.shutdown()


def main():
    given = parsed(sys.argv[1:])
    port = port_of(given.port)
    if port is None:
        return refuse("behind --port a number from 0 to 65535 is due")
    try:
        files = Files(given.files)
    except NoFile as fault:
        return refuse(fault)
    runs = Runs()
    program = Program(given.program, given.recorded, [given.build, "studio"])
    try:
        server = Server(port, secrets.token_urlsafe(24), files, runs, Answers(program, runs, given.steps, given.seconds))
    except OSError as fault:
        return refuse(f"port {port} cannot be had: {fault.strerror or fault}")
    else:
        serve(server, not given.no_open and has_browser())
        return 0
    finally:
        runs.close()
        program.close()


if __name__ == "__main__":
    sys.exit(main())
