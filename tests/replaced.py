#!/usr/bin/env python3
"""Gives `optimize` an OUT of each kind: what it replaces stays what it was, and nothing is exposed.

OUT is each kind of file, in folders and with permissions of each kind, and FILE under another name.
Some tests need root, or permission to become another user, and say so when they are skipped. It
prints a line per test, and finally how many passed.
"""
import os
import pathlib
import stat
import subprocess
import sys
import threading
from typing import List, Set

from disturbing import NEW, NOBODY, OLD, SECONDS
from disturbing import as_another, ending, expect, expect_done, expect_form, expect_names
from disturbing import expect_unmade, large, lay, mode_of, names, require_root, run_all, start
from disturbing import test, watch, words_of

# ---- modes and owners


@test
def modes(folder: pathlib.Path) -> None:
    file = lay(folder / "file", NEW)
    for mode in (0o600, 0o640, 0o644, 0o660, 0o666, 0o755, 0o200):
        for mask in (0o000, 0o077):
            out = lay(folder / "out", OLD, mode)
            old = os.umask(mask)
            try:
                expect_done(file, out)
            finally:
                os.umask(old)
            expect(mode_of(out) == mode, f"{mode:o} became {mode_of(out):o}")
            lay(file, NEW, mode | 0o400)
            expect_done(file, file)
            expect(mode_of(file) == mode | 0o400, f"{mode:o} of FILE became {mode_of(file):o}")
            lay(file, NEW)


@test
def modes_of_new_files(folder: pathlib.Path) -> None:
    file = lay(folder / "file", NEW)
    for mask in (0o000, 0o002, 0o022, 0o027, 0o077):
        out = folder / f"out {mask:o}"
        expect_done(file, out, preexec_fn=lambda: os.umask(mask) and None)
        expect(mode_of(out) == 0o666 & ~mask, f"mask {mask:o}: {mode_of(out):o}")


@test
def a_private_file_is_private_all_the_time(folder: pathlib.Path) -> None:
    file = lay(folder / "file", large("left"), 0o600)
    out = lay(folder / "out", OLD, 0o600)
    shown: Set[str] = set()
    looks = [0]

    def look(path: str) -> None:
        looks[0] += 1
        if os.lstat(path).st_mode & 0o077:
            shown.add(os.path.basename(path))

    rounds = 0
    while rounds < 30 or looks[0] < 1000:
        rounds += 1
        for target in (out, lay(file, large("left"), 0o600)):
            ran = start(file, target, preexec_fn=lambda: os.umask(0) and None)
            watch(folder, lambda: ran.poll() is None, look)
            expect(ending(ran) == (0, ""), f"status {ran.returncode}")
    expect(not shown, f"others could read {sorted(shown)}")


@test
def owners(folder: pathlib.Path) -> None:
    require_root()
    file = lay(folder / "file", NEW)
    out = lay(folder / "out", OLD, 0o640)
    os.chown(str(out), 1234, 2345)
    expect_done(file, out)
    found = out.stat()
    expect((found.st_uid, found.st_gid) == (1234, 2345), (found.st_uid, found.st_gid))
    expect(mode_of(out) == 0o640, f"{mode_of(out):o}")


@test
def a_group_that_cannot_be_given_gets_nothing(folder: pathlib.Path) -> None:
    require_root()
    how = as_another(folder)
    file = lay(folder / "file", NEW)
    for mode, wanted in ((0o660, 0o600), (0o664, 0o644), (0o640, 0o600), (0o600, 0o600)):
        out = lay(folder / "out", OLD, mode)
        os.chown(str(out), NOBODY, 0)
        expect_done(file, out, **how)
        found = out.stat()
        expect((found.st_uid, found.st_gid) == (NOBODY, NOBODY), "another owner")
        expect(mode_of(out) == wanted, f"{mode:o} became {mode_of(out):o}")


# ---- what is no plain file


def read_in_thread(path: pathlib.Path, to: List[bytes]) -> threading.Thread:
    thread = threading.Thread(target=lambda: to.append(path.read_bytes()), daemon=True)
    thread.start()
    return thread


@test
def a_pipe(folder: pathlib.Path) -> None:
    file, out = lay(folder / "file", large("left")), folder / "pipe"
    os.mkfifo(str(out))
    (folder / "link").symlink_to("pipe")
    for path in (out, folder / "link"):
        got: List[bytes] = []
        thread = read_in_thread(out, got)
        expect_done(file, path)
        thread.join(SECONDS)
        expect_form(got[0], large("left"))
    expect(stat.S_ISFIFO(out.lstat().st_mode), "the pipe is no pipe")
    expect_names(folder, "file", "pipe", "link")


@test
def a_pipe_that_is_the_input(folder: pathlib.Path) -> None:
    pipe = folder / "pipe"
    os.mkfifo(str(pipe))
    other = folder / "other"
    os.link(str(pipe), str(other))
    for path in (pipe, other):
        ran = start(pipe, path)
        with pipe.open("wb") as file:
            file.write(NEW)
        ended = ending(ran)
        expect(ended == (2, f"cannot write {path}\n"), ended)


@test
def standard_streams(folder: pathlib.Path) -> None:
    words = words_of(pathlib.Path("/dev/stdin"), pathlib.Path("/dev/stdout"))
    ran = subprocess.run(words, input=NEW, stdout=subprocess.PIPE, timeout=SECONDS)
    form, _, line = ran.stdout.partition(b".")
    expect_form(form + b".", NEW)
    expect(line == b"%d bytes to %d bytes\n" % (len(NEW), len(form) + 1), line)


@test
def devices(folder: pathlib.Path) -> None:
    file = lay(folder / "file", NEW)
    full, null = pathlib.Path("/dev/full"), pathlib.Path("/dev/null")
    expect_unmade(file, full)
    expect_done(file, null)
    for device in (full, null):
        expect(stat.S_ISCHR(device.lstat().st_mode), f"{device} is no device")


@test
def links(folder: pathlib.Path) -> None:
    file, target = lay(folder / "file", NEW), folder / "elsewhere" / "target"
    target.parent.mkdir()
    (folder / "near").symlink_to("elsewhere")
    for name, to in (
        ("relative", "elsewhere/target"),
        ("absolute", str(target)),
        ("twice", "relative"),
        ("through", "near/target"),
    ):
        link = folder / name
        link.symlink_to(to)
        for mode in (None, 0o600):
            if mode:
                lay(target, OLD, mode)
            expect_done(file, link)
            expect(os.readlink(str(link)) == to, f"{name} is another link")
            expect_form(target.read_bytes(), NEW)
            expect(mode is None or mode_of(target) == mode, f"{mode_of(target):o}")
            target.unlink()
    for name in ("here", "there"):
        (folder / name).symlink_to({"here": "there", "there": "here"}[name])
    expect_unmade(file, folder / "here")
    expect(not names(target.parent), sorted(names(target.parent)))


@test
def folders(folder: pathlib.Path) -> None:
    file = lay(folder / "file", NEW)
    (folder / "folder").mkdir()
    for out in (folder / "folder", folder / "none" / "out", folder / "file" / "out"):
        expect_unmade(file, out)
    expect_names(folder, "file", "folder")
    expect(not names(folder / "folder"), "something is in the folder")


@test
def a_folder_that_may_not_be_written(folder: pathlib.Path) -> None:
    how = as_another(folder)
    file, closed = lay(folder / "file", NEW), folder / "closed"
    closed.mkdir()
    out = lay(closed / "out", OLD, 0o666)
    closed.chmod(0o555)
    try:
        expect_unmade(file, out, **how)
        expect_unmade(file, closed / "new", **how)
        expect(out.read_bytes() == OLD, "OUT is not as it was")
        expect_names(closed, "out")
    finally:
        closed.chmod(0o755)


@test
def a_folder_that_may_not_be_read(folder: pathlib.Path) -> None:
    how = as_another(folder)
    file, dark = lay(folder / "file", NEW), folder / "dark"
    dark.mkdir()
    dark.chmod(0o333)
    try:
        for _ in range(2):
            expect_done(file, dark / "out", **how)
    finally:
        dark.chmod(0o755)
    expect_form((dark / "out").read_bytes(), NEW)


@test
def a_file_that_may_not_be_written(folder: pathlib.Path) -> None:
    how = as_another(folder)
    file, out = lay(folder / "file", NEW), lay(folder / "out", OLD, 0o444)
    expect_unmade(file, out, **how)
    expect(out.read_bytes() == OLD, "OUT is not as it was")
    expect_names(folder, "file", "out")


# ---- FILE by another name


@test
def other_names_of_the_input(folder: pathlib.Path) -> None:
    file = lay(folder / "file", NEW)
    hard, soft = folder / "hard", folder / "soft"
    os.link(str(file), str(hard))
    expect_done(file, hard)
    expect_form(hard.read_bytes(), NEW)
    expect(file.read_bytes() == NEW, "the input behind its other name is changed")
    soft.symlink_to("file")
    expect_done(soft, file)
    expect_form(file.read_bytes(), NEW)
    lay(file, NEW)
    expect_done(file, soft)
    expect_form(file.read_bytes(), NEW)
    expect(soft.is_symlink(), "the link is no link")
    expect_names(folder, "file", "hard", "soft")


if __name__ == "__main__":
    sys.exit(run_all(__doc__))
