"""Checks a PyTorch checkpoint with pktool, and copies it for torch.load to open.

Readers of zip files disagree about crafted ones: what one takes for the pickle, another may not
see. So torch never opens MODEL. CHECKED is written from scratch, with the pickle that was checked
and every other member once.

Prints the verdict. The status is 0 if CHECKED was written, 1 if MODEL is refused, 2 if a file could
not be read or written. PKTOOL names the program; otherwise it is on the path.
"""

import argparse
import os
import shutil
import subprocess
import sys
import zipfile
from pathlib import Path
from typing import List


class Refused(Exception):
    """Why a checkpoint is refused."""


def pickle_of(members: List[zipfile.ZipInfo], size: int) -> zipfile.ZipInfo:
    """The only pickle of a checkpoint whose file has this size."""
    names = {member.filename.casefold() for member in members}
    pickles = [member for member in members if member.filename.casefold().endswith(".pkl")]
    if len(names) != len(members):
        raise Refused("two members have the same name")
    if len(pickles) != 1:
        raise Refused(f"expected one pickle, found {len(pickles)}")
    if pickles[0].filename != members[0].filename.split("/")[0] + "/data.pkl":
        raise Refused("the pickle is not data.pkl in the checkpoint's folder")
    if any(member.compress_type != zipfile.ZIP_STORED for member in members):
        raise Refused("a member is compressed")
    if sum(member.file_size for member in members) > size:
        raise Refused("members overlap")
    return pickles[0]


def check(allow: Path, data: bytes) -> None:
    """Runs pktool on a pickle, and prints its answer."""
    command = [os.environ.get("PKTOOL", "pktool"), "check", "--allow", str(allow), "/dev/stdin"]
    ended = subprocess.run(command, input=data, stdout=subprocess.PIPE)
    verdict = ended.stdout.decode().rstrip("\n")
    if ended.returncode == 1:
        raise Refused(verdict)
    if ended.returncode != 0 or not verdict.startswith("yes: "):
        raise OSError(f"{command[0]} ended with status {ended.returncode}")
    print(verdict)


def copy_checked(allow: Path, model: Path, checked: Path) -> None:
    """Writes `checked`, which must not exist, if the pickle of `model` is accepted."""
    with model.open("rb") as file, zipfile.ZipFile(file) as source:
        members = source.infolist()
        pickle = pickle_of(members, os.fstat(file.fileno()).st_size)
        data = source.read(pickle)
        check(allow, data)
        with checked.open("xb") as made, zipfile.ZipFile(made, "w") as target:
            for member in members:
                if member is pickle:
                    target.writestr(member.filename, data)
                    continue
                with source.open(member) as opened, target.open(member.filename, "w") as copied:
                    shutil.copyfileobj(opened, copied)


def main() -> int:
    parser = argparse.ArgumentParser(description=(__doc__ or "").splitlines()[0])
    parser.add_argument("--allow", metavar="LIST", type=Path, required=True)
    parser.add_argument("model", metavar="MODEL", type=Path)
    parser.add_argument("checked", metavar="CHECKED", type=Path)
    words = parser.parse_args()
    try:
        copy_checked(words.allow, words.model, words.checked)
    except OSError as error:
        print(f"checkpoint: {error}", file=sys.stderr)
        return 2
    except (Refused, zipfile.BadZipFile, ValueError, RuntimeError, EOFError) as error:
        print(f"refused: {error}")
        return 1
    return 0


if __name__ == "__main__":
    sys.exit(main())
