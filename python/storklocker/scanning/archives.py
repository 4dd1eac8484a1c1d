"""Zip files of strangers, unpacked within the bounds of `storklocker scan`."""

from __future__ import annotations

import io
import zipfile
from pickle import UnpicklingError
from typing import Dict

from .budget import MEMBERS, PROBED, RATIO, UNPACKED


class Archive:
    """A zip file in memory, whose members can be read.

    Raises UnpicklingError if it is damaged or encrypted, if two members have the same
    name, or if it unpacks to more than the bounds: 20,000 members; 1 GiB in all, or as much as the
    file has bytes; and above 64 MiB a hundred times the size of the file.
    """

    def __init__(self, data: bytes) -> None:
        try:
            self._archive = zipfile.ZipFile(io.BytesIO(data))
            self.sizes: Dict[str, int] = self._judged(len(data))
        except UnpicklingError:
            raise
        except Exception as error:  # a damaged archive may raise anything
            raise UnpicklingError(f"this is not a zip file: {error}") from error

    def _judged(self, packed: int) -> Dict[str, int]:
        entries = self._archive.infolist()
        sizes = {entry.filename: entry.file_size for entry in entries}
        if len(entries) > MEMBERS:
            raise UnpicklingError(f"the file has more than {MEMBERS:,} members")
        if len(sizes) != len(entries):
            raise UnpicklingError("two members of the file have the same name")
        unpacked = sum(sizes.values())
        if unpacked > max(UNPACKED, packed) or unpacked > max(PROBED, RATIO * packed):
            raise UnpicklingError(
                f"the file unpacks to {unpacked:,} bytes, which is too much for {packed:,} bytes"
            )
        return sizes

    def is_plain(self, data: bytes) -> bool:
        """Whether every reader sees the same members in this zip file: none is packed, and the
        directory lies right before the end record, which ends the file.
        """
        entries = self._archive.infolist()
        if any(it.compress_type != zipfile.ZIP_STORED for it in entries):
            return False
        end = len(data) - 22
        at = int.from_bytes(data[end + 16 : end + 20], "little")
        size = int.from_bytes(data[end + 12 : end + 16], "little")
        is_at_end = data[end : end + 4] == b"PK\x05\x06" and data[-2:] == b"\0\0"
        more = 76 if data[end - 20 : end - 16] == b"PK\x06\x07" else 0
        if at == (1 << 32) - 1 or size == (1 << 32) - 1:
            at = int.from_bytes(data[end - 28 : end - 20], "little")
            size = int.from_bytes(data[end - 36 : end - 28], "little")
        return is_at_end and at + size + more == end

    def read(self, name: str) -> bytes:
        """The bytes of a member."""
        try:
            with self._archive.open(name) as member:
                return member.read(self.sizes[name])
        except Exception as error:  # a damaged or encrypted one may raise anything
            raise UnpicklingError(f"{name!r:.80} can't be read: {error}") from error
