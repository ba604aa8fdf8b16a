# SPDX-License-Identifier: Apache-2.0
"""Runs the prover and its peers on the listed theorems, each run a process of its own, and keeps each result at once."""
import concurrent.futures
import datetime
import hashlib
import os
import pathlib
import platform
import re
import shutil
import subprocess
import sys
import tempfile
import threading

import limits
import theorems
from provers import PROVERS
from translation import FRAMES, translated

RESULTS = theorems.HERE / "results.tsv"
COLUMNS = ["theorem", "prover", "frame", "result", "seconds", "start", "megabytes"]
MOST = "1000000000000"
VERDICTS = {0: "proved", 1: "false", 2: "impossible", 7: "open", 6: "open", 12: "open"}
SHORT = 1.0
TURNS = 3
STARTS = 3
TRIVIAL = "point A point B midpoint M A B prove { collinear A M B }"


class Table:
    """The file of results: comments about each run, and a row for each theorem, prover and frame. A row that is there is not measured again."""

    def __init__(self, path, seconds, megabytes):
        self.path, self.seconds, self.megabytes = path, seconds, megabytes
        self.known = set()
        self.turn = threading.Lock()
        if path.exists():
            lines = path.read_text().splitlines()
            if f"# limits {seconds} {megabytes}" not in lines:
                sys.exit(f"bench/peers: {path} was measured with other limits than {seconds} seconds and {megabytes} megabytes")
            self.known = {tuple(line.split("\t")[:3]) for line in lines if not line.startswith("#")}
        else:
            path.write_text(f"# limits {seconds} {megabytes}\n" + "\t".join(COLUMNS) + "\n")

    def has(self, *key):
        return key in self.known

    def add(self, *row):
        self.write("\t".join(map(str, row)))
        self.known.add(tuple(row[:3]))

    def note(self, text):
        self.write(f"# {text}")

    def write(self, line):
        with self.turn, self.path.open("a") as file:
            file.write(line + "\n")


def measured(command, folder, table, start, source=os.devnull):
    """A run within the limits, and the least processor seconds of some runs where they are short."""
    bounds = folder, table.seconds + round(start), table.megabytes, source
    run = limits.limited(command, *bounds)
    least = run.seconds
    if run.ended != "time" and run.seconds < SHORT:
        least = min([least, *(limits.limited(command, *bounds).seconds for _ in range(TURNS - 1))])
    return run, max(least - start, 0)


def result(prover, run, count):
    """The word for how a run ended."""
    if run.ended == "time":
        return "time"
    judged = prover.judge(run.ended, run.output, count)
    return "memory" if judged == "error" and re.search(r"memory|alloc|halloc", run.output, re.I) else judged


def ask(prover, theorem, folder, table, start):
    """One theorem and one prover."""
    text = prover.write(theorem)
    path = pathlib.Path(folder) / f"theorem{prover.ending}"
    path.write_text(text)
    run, seconds = measured([*prover.run, path.name], folder, table, start)
    count = sum(len(goal.polynomials) for goal in theorem.goals)
    return result(prover, run, count), seconds, run.megabytes


def own(binary, row, folder, table, start):
    """The proved prover on the program itself, with the most steps."""
    run, seconds = measured([binary, "prove", "--steps", MOST], folder, table, start, row.path)
    return "time" if run.ended == "time" else VERDICTS.get(run.ended, "error"), seconds, run.megabytes


def least_start(command, folder, table):
    return min(limits.limited(command, folder, 60, table.megabytes).seconds for _ in range(STARTS))


def starts(binary, provers, folder, table):
    """What each takes for a theorem that needs no work."""
    theorem = translated(TRIVIAL, "fixed")
    found = {"jarduzki": least_start([binary, "no", "command"], folder, table)}
    for prover in provers:
        path = pathlib.Path(folder) / f"trivial{prover.ending}"
        path.write_text(prover.write(theorem))
        found[prover.key] = least_start([*prover.run, path.name], folder, table)
    return found


def present(keys):
    """The provers that are asked for and installed."""
    if not os.path.exists(limits.TIME):
        sys.exit(f"bench/peers: {limits.TIME} is not found (Debian's time)")
    chosen = [prover for prover in PROVERS if not keys or prover.key in keys]
    for prover in chosen:
        if not shutil.which(prover.program):
            print(f"bench/peers: {prover.title} is not measured: {prover.program} is not found (Debian's {prover.package})", file=sys.stderr)
    return [prover for prover in chosen if shutil.which(prover.program)]


def version(prover):
    """What Debian's list of packages says, or the program."""
    told = subprocess.run(["dpkg-query", "-W", "-f", "${Version}", prover.package], capture_output=True, text=True)
    return told.stdout if told.returncode == 0 else "not a Debian package"


def describe(table, binary, provers, jobs):
    """Notes when, where, and with which versions this run measures which provers."""
    processor = next((line.split(":")[1].strip() for line in open("/proc/cpuinfo") if line.startswith("model name")), platform.machine())
    load = os.getloadavg()[0]
    date = datetime.datetime.now(datetime.timezone.utc).strftime("%Y-%m-%d %H:%M")
    machine = f"{processor}, {os.cpu_count()} processors, load {load:.1f} before it"
    titles = ", ".join(["Jarduzki", *(prover.title for prover in provers)])
    table.note(f"run {date} UTC; {machine}; {titles}; {jobs} at once")
    table.note(f"program {hashlib.sha256(pathlib.Path(binary).read_bytes()).hexdigest()}")
    for prover in provers:
        table.note(f"version {prover.key} {prover.package} {version(prover)}")


def own_row(table, binary, start, row):
    """The program's row on a theorem."""
    with tempfile.TemporaryDirectory() as folder:
        word, used, most = own(binary, row, folder, table, start)
    table.add(row.name, "jarduzki", "full", word, f"{used:.4f}", f"{start:.4f}", f"{most:.1f}")


def peer_row(table, prover, start, row, frame):
    """A prover's row on a theorem in a frame."""
    with tempfile.TemporaryDirectory() as folder:
        word, used, most = ask(prover, translated(row.path.read_text(), frame), folder, table, start)
    table.add(row.name, prover.key, frame, word, f"{used:.3f}", f"{start:.3f}", f"{most:.1f}")


def missing(table, binary, provers, rows, frames):
    """The calls that measure what the table has not; HOL Light's first, which takes longest."""
    sessions = [prover for prover in provers if prover.key == "hol"]
    provers = [prover for prover in provers if prover.key != "hol"]
    with tempfile.TemporaryDirectory() as folder:
        start = starts(binary, provers, folder, table)
    calls = [(hol_session, prover, rows, frames, table) for prover in sessions]
    for row in rows:
        if not table.has(row.name, "jarduzki", "full"):
            calls.append((own_row, table, binary, start["jarduzki"], row))
        wanted = [(prover, frame) for frame in frames for prover in provers if not table.has(row.name, prover.key, frame)]
        calls += [(peer_row, table, prover, start[prover.key], row, frame) for prover, frame in wanted]
    return calls


def measure(binary, keys, limit, rows, frames=FRAMES, jobs=1):
    """All rows that are not there yet, so many at once; the limit is of seconds and megabytes."""
    table = Table(RESULTS, *limit)
    provers = present(keys)
    describe(table, binary, provers, jobs)
    with concurrent.futures.ThreadPoolExecutor(jobs) as lanes:
        runs = [lanes.submit(*call) for call in missing(table, binary, provers, rows, frames)]
        try:
            for run in concurrent.futures.as_completed(runs):
                run.result()
        except BaseException:
            lanes.shutdown(cancel_futures=True)
            raise


def hol_session(prover, rows, frames, table):
    """HOL Light starts in minutes, so one session has all theorems, each in a process of its own."""
    asked = [(row, frame) for row in rows for frame in frames if not table.has(row.name, prover.key, frame)]
    if asked:
        with tempfile.TemporaryDirectory() as folder:
            hol_rows(prover, asked, folder, table)


def hol_rows(prover, asked, folder, table):
    """A row for each theorem in a frame that is asked."""
    found, told = pathlib.Path(folder) / "rows", pathlib.Path(folder) / "told"
    text = f'#use "{theorems.HERE / "hol.ml"}";;\n'
    for k, (row, frame) in enumerate(asked):
        text += prover.write(translated(row.path.read_text(), frame)) + f'peer_theorem "{k}";;\n'
    bounds = {"PEER_SECONDS": str(table.seconds), "PEER_MEGABYTES": str(table.megabytes), "PEER_ROWS": str(found)}
    with told.open("w") as file:
        session = subprocess.run(prover.run, input=text + "exit 0;;\n", text=True, cwd=folder, stdout=file, stderr=file, env={**os.environ, **bounds})
    lines = found.read_text().splitlines() if found.exists() else []
    for line in lines:
        k, seconds, most, word = line.split("\t")
        row, frame = asked[int(k)]
        table.add(row.name, prover.key, frame, word, seconds, "-", "-" if word == "time" else most)
    if session.returncode or len(lines) < len(asked):
        print(f"bench/peers: HOL Light measured {len(lines)} of {len(asked)}, and ended so:\n{told.read_text()[-2000:]}", file=sys.stderr)
