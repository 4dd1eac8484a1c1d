"""Files at URLs that fsspec opens, such as s3, gs, hdfs, http or memory."""

from __future__ import annotations

import contextlib
import functools
import shutil
import tempfile
from pathlib import Path
from typing import TYPE_CHECKING, Any, BinaryIO, Dict, Iterator, List, Tuple

from . import over_http
from .file import File
from .lacking import needs
from .places import places_of
from .ranges import in_blocks

if TYPE_CHECKING:
    from .files import Files

_STAMPS = ("ETag", "etag", "LastModified", "last_modified", "mtime", "updated", "created")
"""What the file systems of fsspec call that which changes with a file."""


def files_at(url: str, files: Files) -> Iterator[File]:
    """The file at a URL, or those in the folder there that are chosen, one folder after another."""
    system, path = _system_of(url)
    if not url.endswith("/"):
        try:
            info = system.info(path)
        except Exception:
            yield File(url)  # reported as unreadable
            return
        if info["type"] != "directory":
            yield _file(system, url, info)
            return
    folders = [path]
    while folders:
        folder = folders.pop().rstrip("/")
        below = []
        for info in _listed(system, folder):
            its = system.unstrip_protocol(info["name"])
            is_folder = info["type"] == "directory"
            if not files.choice.takes(its.rstrip("/"), is_folder):
                continue
            if not is_folder:
                yield _file(system, its, info)
            elif files.recursive:
                below.append(info["name"])
            else:
                files.left_out += 1
        folders += reversed(below)


def _listed(system: Any, folder: str) -> List[Dict[str, Any]]:
    """What is in a folder, in the order of the names; not what is beside it or above it."""
    try:
        found = system.ls(f"{folder}/", detail=True)
    except Exception as error:
        raise OSError(f"{folder} can't be listed: {type(error).__name__}: {error}") from error
    inside = (info for info in found if info["name"].startswith(f"{folder}/"))
    return sorted(inside, key=lambda info: str(info["name"]))


def _file(system: Any, url: str, info: Dict[str, Any]) -> File:
    stamps, other = _stamps(info), places_of(info["name"])
    if other:
        with contextlib.suppress(Exception):  # there is none
            stamps += _stamps(system.info(other))
    return File(url, True, info.get("size") or 0, " ".join(stamps))


def _stamps(info: Dict[str, Any]) -> List[str]:
    return [str(info.get("size") or 0), *(str(info[key]) for key in _STAMPS if info.get(key))]


@contextlib.contextmanager
def opened(url: str) -> Iterator[BinaryIO]:
    """The file at a URL, of which each byte is fetched once, so that all readers get the same. It
    raises OSError where the server gives something else than it has told of.
    """
    system, path = _system_of(url)
    if url.startswith(over_http.SCHEMES):
        with over_http.opened(system, path) as object_there:
            yield object_there
        return
    info = system.info(path)
    with system.open(path, "rb", cache_type="none") as file:
        if info.get("size") is None:
            yield file
            return
        with in_blocks(info["size"], functools.partial(_fetched, system, info, file)) as blocks:
            yield blocks


def _fetched(system: Any, info: Dict[str, Any], file: BinaryIO, start: int, end: int) -> bytes:
    """The bytes from one offset up to another, of a file that is as it was."""
    file.seek(start)
    made = bytearray()
    while len(made) < end - start:
        part = file.read(end - start - len(made))
        if not part:
            break
        made += part
    if start:
        system.invalidate_cache(info["name"])
        if _stamps(system.info(info["name"])) != _stamps(info):
            raise OSError(f"it has changed while it was read, before byte {end:,}")
    return bytes(made)


@contextlib.contextmanager
def held(file: File) -> Iterator[File]:
    """The file with its bytes in a temporary one, for a process that can't open the URL; and with
    the one beside it that has the places of its values.
    """
    other = places_of(file.path)
    with tempfile.TemporaryDirectory(prefix="storklocker-") as folder:
        copy = Path(folder, f"copy{Path(file.path).suffix if other else ''}")
        _copy(file.path, copy)
        if other:
            with contextlib.suppress(FileNotFoundError):
                _copy(other, Path(places_of(str(copy))))
        yield file._replace(held=str(copy))


def _copy(url: str, path: Path) -> None:
    with opened(url) as source, path.open("wb") as copy:
        shutil.copyfileobj(source, copy, 1 << 20)


def _system_of(url: str) -> Tuple[Any, str]:
    try:
        import fsspec.core
    except ImportError:
        raise needs(url, "fsspec") from None
    words = {"get_client": over_http.client} if url.startswith(over_http.SCHEMES) else {}
    try:
        system, path = fsspec.core.url_to_fs(url, **words)
    except ImportError as error:
        raise needs(url, error.name or "", str(error)) from None
    except Exception as error:  # of any library
        raise OSError(f"{url} can't be opened: {error}") from None
    return system, path
