"""The module of bindings/python against the program: bindings.py BINARY. tests/bindings runs it."""

import concurrent.futures
import multiprocessing
import os
import pathlib
import pickle
import re
import subprocess
import sys
import threading

here = pathlib.Path(__file__).resolve().parent
sys.path.insert(0, str(here.parent / "bindings" / "python"))
import jarduzki  # noqa: E402

binary = sys.argv[1]
passed = failed = 0


def expect(name, found, wanted):
    global passed, failed
    if found == wanted:
        passed += 1
    else:
        failed += 1
        print(f"{name}: {found!r} in place of {wanted!r}")


def run(word, given, *words):
    """The status and the bytes of a run of the program."""
    ran = subprocess.run([binary, word, *words], input=given, stdout=subprocess.PIPE)
    return ran.returncode, ran.stdout


def answered(call, given, **steps):
    """The status and the bytes that the program would give, from what a call of the module gives."""
    verdicts = {jarduzki.PROVED: 0, jarduzki.FALSE: 1, jarduzki.IMPOSSIBLE: 2}
    try:
        given = call(given, **steps)
    except jarduzki.SyntaxRefused as error:
        return 4, b"syntax %d at %d\n" % (error.refusal, error.place)
    except jarduzki.TooLarge as error:
        return 6, error.log or b"stop too_large %d %s\n" % (error.line, error.limit.encode())
    except jarduzki.Spent as error:
        return 7, error.log or b"stop spent %d\n" % error.line
    except jarduzki.Rejected as error:
        return 11, b"rejected %d %d\n" % (error.line, error.reason)
    except jarduzki.TooLong as error:
        return 12, error.log or b"too long\n"
    if isinstance(given, jarduzki.Proof):
        return verdicts[given.verdict], given.log
    if isinstance(given, jarduzki.Accepted):
        return verdicts[given.verdict], given.told
    return 13, given.encode()


def refused(kind, call, *given, **steps):
    """The error of this kind that a call raises."""
    try:
        call(*given, **steps)
    except kind as error:
        return error
    raise SystemExit(f"{call.__name__} raised no {kind.__name__}")


def gallery():
    """Each program of the gallery, its log, and the log cut short."""
    for path in sorted((here.parent / "examples").glob("*.geo")):
        program = path.read_bytes()
        log = run("prove", program)[1]
        expect(f"prove {path.name}", answered(jarduzki.prove, program), run("prove", program))
        expect(f"check {path.name}", answered(jarduzki.check, log), run("check", log))
        expect(f"text {path.name}", answered(jarduzki.text, log), run("text", log))
        expect(f"check {path.name} cut short", answered(jarduzki.check, log[:-9]), run("check", log[:-9]))
        few = answered(jarduzki.prove, program, steps=1000)
        expect(f"prove {path.name} with few steps", few, run("prove", program, "--steps", "1000"))


def errors():
    """Exceptions, with where and why."""
    error = refused(jarduzki.SyntaxRefused, jarduzki.prove, "point A\npoint é\nprove { collinear A A A }")
    expect("a byte that begins no token", (error.refusal, error.place, error.line, error.column), (1, 14, 2, 7))
    error = refused(jarduzki.SyntaxRefused, jarduzki.prove, "% é\npoint A % é\npoint A")
    expect("a name given twice", (error.refusal, error.place, error.line, error.column), (6, 24, 3, 7))
    expect("its words", str(error), "line 3, column 7: a word that is declared already")
    expect("its hint", error.hint, "A is declared in line 2")
    error = refused(jarduzki.SyntaxRefused, jarduzki.prove, "point A\npoint B\nmidpoint M A b\nprove { collinear A B M }\n")
    expect("a hint that is near", error.hint, "declared is B")
    error = refused(jarduzki.SyntaxRefused, jarduzki.prove, "point A\0")
    expect("a hint on a byte 0", error.hint.startswith("a name has the letters"), True)
    error = refused(jarduzki.SyntaxRefused, jarduzki.prove, b"% \xc3\xa9 point B" + b"\npoint")
    expect("the end of the text", (error.refusal, error.line, error.column), (4, 2, 6))
    error = refused(jarduzki.Rejected, jarduzki.check, "geolog 2\n| point A\n")
    expect("a log without a program", (error.line, error.reason), (3, 32))
    error = refused(jarduzki.Spent, jarduzki.prove, "point A point B midpoint M A B prove { collinear A M B }", steps=23)
    expect("steps that are spent", (error.line, error.log.splitlines()[-1]), (9, b"stop spent 9"))
    error = refused(jarduzki.TooLarge, jarduzki.prove, "param r prove { equal { r } { %d } }" % (2**127 - 1))
    expect("a number past the limit", (error.line, error.limit), (5, "norm"))
    expect("a program past its length", refused(jarduzki.TooLong, jarduzki.prove, " " * 1048577).log, None)
    expect("a log past its length", answered(jarduzki.check, bytes(67108865)), (12, b"too long\n"))
    expect("steps below 0", str(refused(ValueError, jarduzki.prove, "", steps=-1)), "steps are a number from 0 to 2^64 - 1")


def results():
    """What the classes of results have."""
    crossing = "point A point B inter X A B A B prove { collinear A B X }"
    proof = jarduzki.prove(crossing)
    expect("an impossible figure", (proof.verdict, proof.number), (jarduzki.IMPOSSIBLE, 1))
    accepted = jarduzki.check(proof.log)
    expect("its program", accepted.program, "point A\npoint B\ninter X A B A B\nprove { collinear A B X }\n")
    expect("its conditions", accepted.conditions, ("not_parallel A B A B",))
    expect("its verdict", (accepted.verdict, accepted.number), (jarduzki.IMPOSSIBLE, 1))
    expect("a log as a str", jarduzki.check(proof.log.decode()), accepted)
    proof = jarduzki.prove("point A point B point C prove { collinear A B C }")
    expect("a false statement", (proof.verdict, proof.number), (jarduzki.FALSE, 1))


def figures():
    """What a proof has of its log: beside the lines of the log of each program of the gallery."""
    for path in sorted((here.parent / "examples").glob("*.geo")):
        proof = jarduzki.prove(path.read_text())
        log = proof.log.decode().splitlines()
        for kind, found in (("condition", proof.conditions), ("goal", proof.goals)):
            lines = [f"{kind} {k} {text}" for k, text in enumerate(found, 1)]
            expect(f"{path.name}: {kind}s", lines, [line for line in log if line.startswith(kind + " ")])
        sample = [line for line in log if line.startswith("sample ")]
        values = [int(word.partition("=")[2]) for line in sample for word in line.split()[1:]]
        figure = proof.figure
        told = [x for point in figure.points.values() for x in point] + [*figure.numbers.values()] if figure else []
        expect(f"{path.name}: figure", told, values)
    figure = jarduzki.prove("point A point B param r online P A B oncircle C A B prove { collinear A B C }").figure
    expect("names of a figure", (list(figure.points), list(figure.numbers)), (["A", "B"], ["r", "P", "C"]))


def types():
    """What is no text, and what is no number of steps."""
    for wrong in (5, [65], (), {}, None, iter([65]), 1.5):
        error = refused(TypeError, jarduzki.prove, wrong)
        expect(f"{wrong!r} in the place of a text", str(error), f"str or bytes are due, not {type(wrong).__name__}")
    text = "param r prove { equal { r } { r } }"
    for given in (text.encode(), bytearray(text.encode()), memoryview(text.encode())):
        expect(f"a text as {type(given).__name__}", jarduzki.prove(given), jarduzki.prove(text))
    for steps in (1.5, "5", None):
        expect(f"steps {steps!r}", type(refused(TypeError, jarduzki.prove, text, steps=steps)), TypeError)


def raised(text, steps):
    jarduzki.prove(text, steps=steps)


def processes():
    """Errors that are handed over between processes."""
    texts = ["point A\npoint A", " " * 1048577, "param r prove { equal { r } { %d } }" % (2**127 - 1), "point A point B midpoint M A B prove { collinear A M B }"]
    with concurrent.futures.ProcessPoolExecutor(1, mp_context=multiprocessing.get_context("fork")) as pool:
        for text in texts:
            error = pool.submit(raised, text, 5).exception()
            here_too = refused(jarduzki.GeoError, jarduzki.prove, text, steps=5)
            expect(f"{text[:20]}: from a process", (type(error), str(error), vars(error)), (type(here_too), str(here_too), vars(here_too)))
    error = refused(jarduzki.Rejected, jarduzki.check, "geolog 2\n")
    expect("a rejected log, pickled", vars(pickle.loads(pickle.dumps(error))), {"line": 2, "reason": 32})


def versions():
    """The version is told once in VERSION, and where a file has to have it of its own it is the same."""
    version = (here.parent / "VERSION").read_text().strip()
    expect("the version of the library", jarduzki.__version__, version)
    for file, line in (("python/pyproject.toml", f'version = "{version}"'), ("c/geo_c.h", f'#define GEO_VERSION "{version}"')):
        expect(file, line in (here.parent / "bindings" / file).read_text().splitlines(), True)
    wrong = {**os.environ, "JARDUZKI_LIBRARY": "/none/libgeo_c.so"}
    run = subprocess.run([sys.executable, "-c", "import jarduzki"], cwd=here.parent / "bindings/python", env=wrong, stderr=subprocess.PIPE, text=True)
    words = run.stderr.splitlines()[-1]
    expect("no library", bool(re.match("ImportError: .*bindings/build makes the library", words)), True)


def threads():
    """Calls in several threads at once."""
    program = (here.parent / "examples" / "monge.geo").read_bytes()
    wanted = jarduzki.prove(program)
    found = []
    workers = [threading.Thread(target=lambda: found.append(jarduzki.prove(program))) for _ in range(8)]
    for worker in workers:
        worker.start()
    for worker in workers:
        worker.join()
    expect("eight threads", found, [wanted] * 8)


gallery()
errors()
results()
figures()
types()
processes()
versions()
threads()
print(f"{passed} passed, {failed} failed")
sys.exit(failed > 0)
