"""Where GeoGebra or Kig is installed: figures are written anew by GeoGebra's own code, and its points at moved places are compared with
ours; figures are saved by Kig, and read again."""
# SPDX-License-Identifier: Apache-2.0
import math
import os
import shutil
import subprocess
import tempfile
from pathlib import Path

from figure import Figure, NoFigure
from judge import HERE, BadFile, Import, Refused, want
from language import read_program
from model import Point
from writers import kig_stock

JAR = Path("/usr/share/geogebra/geogebra.jar")
LIMIT = 100


def geogebra(folder):
    """The figures of theorems.txt as GeoGebra's own code saves them, and the places of their points, moved at random six times."""
    shutil.copytree(HERE / "geogebra", folder, dirs_exist_ok=True)
    (folder / "made").mkdir()
    path = f"{JAR}:."
    java = ["xvfb-run", "-a", "java", "-cp", path]
    calls = [
        ["javac", "-nowarn", "-cp", path, "Write.java", "Move.java"],
        [*java, "Write", "theorems.txt", "made"],
        ["sh", "-c", 'exec "$@" made/*.ggb', "sh", *java, "Move", "moved.txt"],
    ]
    for call in calls:
        run = subprocess.run(call, cwd=folder, capture_output=True, text=True, timeout=LIMIT)
        if run.returncode:
            return run.stderr
    return ""


def rounds_of(text):
    """The places of each round: pairs of a file and the places by label."""
    rounds = []
    for line in text.splitlines():
        if line.startswith("@ "):
            rounds.append((line.split(" ")[1], {}))
        else:
            label, x, y = line.split("\t")
            rounds[-1][1][label] = (float(x), float(y))
    return rounds


def compared(program, labels, places):
    """Of a program's constructed points, those that are where GeoGebra has them, and those that are not."""
    figure, same, other = Figure(), 0, []
    for command in program.commands:
        label = labels.get(command.name)
        try:
            if command.word in ("point", "online", "oncircle"):
                figure.points[command.name] = places[label]
                continue
            figure.add(command, None)
        except (NoFigure, ZeroDivisionError, KeyError):
            break
        there = places.get(label)
        if not command.is_point or there is None or not all(map(math.isfinite, there)):
            continue
        near = math.dist(figure.points[command.name], there) <= 1e-6 * (1 + max(map(abs, there)))
        same += near
        other += [] if near else [label]
    return same, other


def kernel(folder):
    """Our points and those of GeoGebra's kernel, at moved places."""
    total = 0
    figures = {}
    for name, places in rounds_of((folder / "moved.txt").read_text(encoding="utf-8")):
        if name not in figures:
            figure = Import(name, (folder / name).read_bytes())
            text = figure.program(is_idle=True)[0]
            labels = {value.name: label for label, value in figure.reader.objects.items() if isinstance(value, Point)}
            figures[name] = (read_program(text), labels)
        same, other = compared(*figures[name], places)
        total += same
        want(f"{name}: the points of GeoGebra's kernel", not other, str(other))
    want("GeoGebra's kernel: points are compared", total > 300, str(total))


def written(folder):
    """What GeoGebra's code writes here is read as what stands beside this file."""
    names = sorted(path.name for path in (folder / "made").glob("*.ggb"))
    want("GeoGebra's figures", names == sorted(path.name for path in HERE.glob("*.ggb")), str(names))
    for name in names:
        try:
            new, old = (Import(name, (place / name).read_bytes()).program()[0] for place in (folder / "made", HERE))
        except (Refused, BadFile):
            want(f"{name}: only bisectors are refused", name == "incenter_refused.ggb")
            continue
        want(f"{name}: written anew", new.split(" %")[0] == old.split(" %")[0] and new.splitlines()[-1] == old.splitlines()[-1], new)


def kig(folder):
    """A figure is saved by Kig in its own way, and reads as before."""
    figure = kig_stock()
    figure.make("LineLineIntersection a b", "X")
    figure.make("ConicLineOtherIntersection k a A", "Y")
    figure.make("AreCollinear X A Y", "test")
    plain, saved = folder / "plain.kig", folder / "saved.kig"
    plain.write_text(figure.xml(), encoding="utf-8")
    environment = {**os.environ, "QT_QPA_PLATFORM": "offscreen", "HOME": str(folder)}
    call = ["kig", "--convert-to-native", "--outfile", saved, plain]
    run = subprocess.run(call, capture_output=True, text=True, env=environment, timeout=LIMIT)
    if run.returncode or not saved.exists():
        print(f"Kig: not run: {run.stderr.strip()[:200]}")
        return
    want("saved by Kig", saved.read_bytes() != plain.read_bytes())
    commands = [{line.split(" %")[0] for line in body(path)} for path in (plain, saved)]
    want("saved by Kig: the same figure", commands[0] == commands[1], str(commands))
    want("saved by Kig: its test", body(saved)[-1] == "prove { collinear X A Y }", str(body(saved)))


def body(path):
    return [line for line in Import(path.name, path.read_bytes()).program()[0].splitlines() if not line.startswith("%")]


def run():
    has_geogebra = JAR.exists() and all(map(shutil.which, ("java", "javac", "xvfb-run")))
    try:
        with tempfile.TemporaryDirectory() as folder:
            fault = geogebra(Path(folder)) if has_geogebra else ""
            if has_geogebra and not fault:
                written(Path(folder))
                kernel(Path(folder))
            elif fault:
                print(f"GeoGebra: not run: {fault.strip()[:200]}")
        with tempfile.TemporaryDirectory() as folder:
            if shutil.which("kig"):
                kig(Path(folder))
    except subprocess.TimeoutExpired as late:
        print(f"bridges: no answer of {late.cmd[0]} within {LIMIT} seconds, so nothing is said of it")
