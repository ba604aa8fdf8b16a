"""The files that the studio was given, and the examples. The page names them by number alone: no path comes from a request."""
# SPDX-License-Identifier: Apache-2.0
import os
import sys
import tempfile
from pathlib import Path

TOOLS = Path(__file__).parent.parent
sys.path.append(str(TOOLS / "page"))

from subjects import read_subjects, shared  # noqa: E402

EXAMPLES = shared("examples")
MOST = 1 << 20


class NoFile(Exception):
    """A file that cannot be read or written, in words."""


class Files:
    """The text of each given file, as it was when it was last read or written here."""

    def __init__(self, names):
        self.paths = [Path(name).resolve() for name in names]
        self.known = [read(path) for path in self.paths]
        self.examples = examples()

    def listed(self):
        return [{"name": path.name, "text": text or ""} for path, text in zip(self.paths, self.known)]

    def save(self, number, text, anyway):
        """Writes a given file, whole or not at all. False: it is another than the one that was read."""
        path = self.paths[number]
        if not anyway and read(path) != self.known[number]:
            return False
        kept = None
        try:
            mode = path.stat().st_mode & 0o777 if path.exists() else 0o644
            handle, kept = tempfile.mkstemp(prefix=".studio-", dir=path.parent)
            with os.fdopen(handle, "w", encoding="utf-8", newline="") as out:
                out.write(text)
                out.flush()
                os.fsync(out.fileno())
            os.chmod(kept, mode)
            os.replace(kept, path)
        except OSError as fault:
            if kept and os.path.exists(kept):
                os.unlink(kept)
            raise NoFile(f"'{path.name}' cannot be written: {fault.strerror}") from None
        self.known[number] = text
        return True

    def example(self, number):
        name = self.examples[number]["file"] + ".geo"
        return {"name": name, "text": (EXAMPLES / name).read_text()}


def read(path):
    """The text of a file; None where there is none yet, which Save makes."""
    try:
        with open(path, "rb") as file:
            data = file.read(MOST + 1)
    except FileNotFoundError:
        if path.parent.is_dir():
            return None
        raise NoFile(f"cannot read '{path}': there is no such folder") from None
    except OSError as fault:
        raise NoFile(f"cannot read '{path}': {fault.strerror}") from None
    if len(data) > MOST:
        raise NoFile(f"cannot read '{path}': a program has at most 1,048,576 bytes")
    try:
        return data.decode()
    except UnicodeDecodeError:
        raise NoFile(f"cannot read '{path}': it is no UTF-8 text") from None


def examples():
    """The gallery, where it is there: subject, title and file of each."""
    if not (EXAMPLES / "subjects").is_file():
        return []
    return [{"subject": subject, "title": title, "file": file} for subject, programs in read_subjects(EXAMPLES) for file, title in programs]
