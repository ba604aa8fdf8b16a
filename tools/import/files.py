"""Which format a file has, by what it holds, and its text; archives are unpacked within limits."""
# SPDX-License-Identifier: Apache-2.0
import bz2
import gzip
import io
import tarfile
import zipfile
import zlib

import gclc
import geogebra
import kig
from reader import BadFile

MOST = 10_000_000
MOST_PARTS = 1000
MOST_RATIO = 200
ZIP = (b"PK\x03\x04", b"PK\x05\x06")
PACKED = (b"\x1f\x8b", b"BZh")
ARCHIVES = ZIP + PACKED
BROKEN = (zipfile.BadZipFile, tarfile.TarError, zlib.error, EOFError, OSError, NotImplementedError, RuntimeError, ValueError, StopIteration, IndexError)


def too_large():
    return BadFile(f"it is larger than {MOST // 1_000_000} MB, unpacked")


def is_foreign(data):
    """Whether a file is no text of our language, and one of the formats by what it holds."""
    return data.startswith(ARCHIVES) or is_markup(data) or b"\0" not in data[:4096] and gclc.is_foreign(data)


def is_markup(data):
    return data.removeprefix(b"\xef\xbb\xbf").lstrip().startswith(b"<")


def reader_of(data):
    """The reader of a file with these bytes."""
    if len(data) > MOST:
        raise too_large()
    if data.startswith(ZIP):
        return geogebra.Reader(*unzipped(data))
    if data.startswith(PACKED):
        data = inflated(data)
    head = data[:4096] if is_markup(data) else b""
    if b"<geogebra" in head:
        return geogebra.Reader(data, "")
    if b"<KigDocument" in head:
        return kig.Reader(data)
    if not head and b"\0" not in data[:4096] and gclc.is_gclc(data):
        return gclc.Reader(data)
    raise BadFile("it is no figure of GeoGebra, GCLC or Kig")


def unzipped(data):
    """The text of a figure of GeoGebra, or of its tools, and the name that it has in the archive."""
    try:
        if data.count(b"PK\x01\x02") > MOST_PARTS:
            raise BadFile(f"its archive has more than {MOST_PARTS:,} files")
        archive = zipfile.ZipFile(io.BytesIO(data))
        for name in (geogebra.FIGURE, geogebra.TOOLS):
            if name in archive.namelist():
                return unpacked(archive, archive.getinfo(name)), name
    except BROKEN as error:
        raise BadFile(f"its archive cannot be read: {error}") from None
    raise BadFile("it is an archive without geogebra.xml")


def unpacked(archive, part):
    if part.file_size > MOST:
        raise too_large()
    if part.file_size > MOST_RATIO * max(part.compress_size, 5000):
        raise BadFile(f"{part.filename} unpacks to more than {MOST_RATIO} times its size")
    with archive.open(part) as file:
        text = file.read(MOST + 1)
    if len(text) > MOST:
        raise too_large()
    return text


def inflated(data):
    """The text in a compressed file, or in the first file of a compressed archive."""
    try:
        opened = gzip.GzipFile(fileobj=io.BytesIO(data)) if data.startswith(b"\x1f\x8b") else bz2.BZ2File(io.BytesIO(data))
        text = opened.read(MOST + 1)
        if len(text) > MOST:
            raise too_large()
        if text[257:262] != b"ustar":
            return text
        with tarfile.open(fileobj=io.BytesIO(text)) as archive:
            return archive.extractfile(next(member for member in archive if member.isfile())).read(MOST)
    except BROKEN as error:
        raise BadFile(f"its archive cannot be read: {error}") from None
