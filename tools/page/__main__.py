"""Makes a page of a program, or a folder of pages.

    page [--short] [--recorded] -- NAME PROGRAM LOG TEXT AT CITE BINARY    a page on standard output
    page [--short] [--recorded] -- FOLDER LIST BINARY                      a page of each program of the list, and an index

PROGRAM is the file that was proved, NAME what it is called, LOG its log, TEXT the readable proof (empty where there is none), AT a line of
numbers at which `place` says that the statement fails, where the log has no verdict, or nothing; CITE the input of `cite` by which solve
shows the statement, with its answer as LOG and the proof of the formulation as TEXT, or nothing; BINARY the program that made them, or
nothing. LIST has NAME, PROGRAM, LOG, TEXT, AT and CITE of each, with a byte 0 behind every one. With --recorded the gate's record says
that BINARY is proved.
"""
# SPDX-License-Identifier: Apache-2.0
import argparse
import os
import sys
from pathlib import Path

from folder import Refused, write_folder
from page import Page

WRITING_FAILED, FAULT, REFUSED = 9, 70, 3
FIELDS = 6


def read(path):
    return Path(path).read_text(encoding="utf-8", errors="replace")


def page_of(name, source, log, text, at, cite, binary, given):
    lines = read(log).split("\n")[:-1]  # what stands behind the last line feed was cut off
    known = {"at": at, "citation": read(cite) if cite else "", "is_short": given.short, "is_recorded": given.recorded}
    return Page(name, read(source), lines, read(text).splitlines(), binary, **known)


def write_out(text):
    try:
        sys.stdout.buffer.write(text.encode())
        sys.stdout.buffer.flush()
    except OSError:
        os._exit(WRITING_FAILED)


def main():
    parser = argparse.ArgumentParser(prog="page")
    parser.add_argument("--short", action="store_true")
    parser.add_argument("--recorded", action="store_true")
    parser.add_argument("given", nargs="*")
    given = parser.parse_args()
    name = given.given[0]
    try:
        if len(given.given) > 3:
            write_out(page_of(*given.given, given).html())
            return 0
        folder, listed, binary = given.given
        fields = [os.fsdecode(field) for field in Path(listed).read_bytes().split(b"\0")[:-1]]
        records = [fields[k : k + FIELDS] for k in range(0, len(fields), FIELDS)]
        pages = (page_of(*record, binary, given) for record in records)
        write_folder(folder, [record[0] for record in records], pages)
        return 0
    except Refused as fault:
        print(f"geo: {fault}", file=sys.stderr)
        return REFUSED
    except OSError as fault:
        print(f"geo: the pages cannot be written: {fault.strerror}: '{fault.filename}'", file=sys.stderr)
        return WRITING_FAILED
    except Exception as fault:  # no traceback: it helps no user
        print(f"geo: no page of '{name}': a fault of the tool that makes it ({type(fault).__name__}: {fault})", file=sys.stderr)
        return FAULT


if __name__ == "__main__":
    sys.exit(main())
