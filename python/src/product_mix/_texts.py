"""The texts of many auctions: in folders, files, and archives."""

import fnmatch
import os
import tarfile
import zipfile
import zlib
from typing import Callable, Iterator, NamedTuple, Sequence, Union

# An archive is known by its name, so that no text is ever taken for one.
TARS = (".tar", ".tar.gz", ".tgz", ".tar.bz2", ".tar.xz")

# What the readers of archives raise where one is broken, besides OSError.
_BROKEN = (tarfile.TarError, zipfile.BadZipFile, zlib.error, EOFError, NotImplementedError, RuntimeError)


class Text(NamedTuple):
    """A text by its name: the path of its file, or that of the archive and then its name in there."""

    name: str
    data: bytes


class Unread(NamedTuple):
    """What couldn't be read, and why."""

    name: str
    why: str


class LeftOut(NamedTuple):
    """A file whose name isn't one of those that are wanted."""

    name: str


Found = Union[Text, Unread, LeftOut]


def texts_in(paths: Sequence[str], pattern: str) -> Iterator[Found]:
    """What is found at the paths, each name once.

    Of a folder, and of those in it, come the files whose own names fit the pattern, and so of an archive; a file that is
    named itself comes whatever its name.
    """
    names = set()
    for found in _all_at(paths, pattern):
        if found.name not in names:
            names.add(found.name)
            yield found


def _all_at(paths: Sequence[str], pattern: str) -> Iterator[Found]:
    for path in paths:
        if os.path.isdir(path):
            yield from _unless_broken(path, _in_folder, pattern)
        elif path.endswith(".zip"):
            yield from _unless_broken(path, _in_zip, pattern)
        elif path.endswith(TARS):
            yield from _unless_broken(path, _in_tar, pattern)
        else:
            yield _read(path)


def _in_folder(folder: str, pattern: str) -> Iterator[Found]:
    for name in sorted(os.listdir(folder)):
        path = os.path.join(folder, name)
        if os.path.isdir(path) and not os.path.islink(path):
            yield from _unless_broken(path, _in_folder, pattern)
        else:
            yield _read(path) if fnmatch.fnmatchcase(name, pattern) else LeftOut(path)


def _read(path: str) -> Found:
    try:
        with open(path, "rb") as file:
            return Text(path, file.read())
    except OSError as error:
        return Unread(path, error.strerror or str(error))


def _unless_broken(path: str, read: "Callable[[str, str], Iterator[Found]]", pattern: str) -> Iterator[Found]:
    try:
        yield from read(path, pattern)
    except OSError as error:
        yield Unread(path, error.strerror or str(error))
    except _BROKEN as error:
        why = str(error).split("\n")[0].rstrip(":") or type(error).__name__
        yield Unread(path, "the archive is broken: %s" % why)


def _in_zip(path: str, pattern: str) -> Iterator[Found]:
    with zipfile.ZipFile(path) as archive:
        for member in archive.infolist():
            if not member.is_dir():
                name = os.path.join(path, member.filename)
                yield Text(name, archive.read(member)) if _fits(member.filename, pattern) else LeftOut(name)


def _in_tar(path: str, pattern: str) -> Iterator[Found]:
    with tarfile.open(path) as archive:
        for member in archive:
            file = archive.extractfile(member) if member.isfile() else None
            if file is not None:
                name = os.path.join(path, member.name)
                yield Text(name, file.read()) if _fits(member.name, pattern) else LeftOut(name)


def _fits(name: str, pattern: str) -> bool:
    return fnmatch.fnmatchcase(name.rsplit("/", 1)[-1], pattern)
