#!/usr/bin/env python3
"""Wrong versions of the code that the prover must refuse: must-fail edits.

An edit names the function whose contract it breaks, and is tried by the proof of that function. The
gate tries those in `crates/NAME/must-fail` each time, and a tenth of those in `crates/NAME/edits`,
chosen by the digest of the sources. Those of bodies are tried together, since the proof of a
function reads the contracts of those that it calls, and not their bodies.

    tests/edits.py                  checks that each edit can still be applied
    tests/edits.py try [NAME ..]    tries those in both folders of these crates, or of all of them
    tests/edits.py prove            runs `rt ci`, which takes what it has proved before
    tests/edits.py gate             does that, and then tries those of the gate

Each ends with a line `N passed, M failed`. Trying needs the Rattle toolchain, and the libraries
that `rt ci` or `rt check` has built here.
"""
import argparse
import concurrent.futures
import contextlib
import hashlib
import os
import pathlib
import re
import shutil
import signal
import subprocess
import sys
import tempfile
from typing import Dict, Iterator, List, Sequence, Tuple

from edit import ROOT, Edit, changed, edits_in, is_body

MOST = 58
SHARE = 10
ACTIONS = ("check", "try", "prove", "gate")
# What a check takes of the memory, in bytes.
CHECK = 5 << 30
# A text that the prover can't read, so that no contract is tried.
UNREAD = re.compile(r"(\./)?(src|specs)/\S+:\d+:\d+: error")
REFUSAL = re.compile(r"(note: )?\S+:\d+:\d+: (error|.*not proved)")
UNPROVED = re.compile(r"fn \S+: (?!proved|no holes)")
# What it says of a function whose own proof it refuses. Of one that calls such a function it says
# so, and that decides nothing.
REFUSED = re.compile(r"fn (\S+): (?:not proved|no proof)(?!.*\bit calls )")
# How `rt ci` says that a crate is done, in this run or in an earlier one.
PROVED = re.compile(r"rt: \w+ (proved|is kept\b.*)")


def check() -> int:
    always, others = edits_in("must-fail"), edits_in("edits")
    faults = [f"{edit.name()}: {edit.fault}" for edit in always + others if edit.fault]
    kept = {(edit.crate, edit.file.name) for edit in always}
    for edit in others:
        if (edit.crate, edit.file.name) in kept:
            faults.append(f"{edit.name()}: it is in must-fail too")
    if len(always) > MOST:
        faults.append(f"{len(always)} edits in must-fail, at most {MOST}: move some to edits")
    for fault in faults:
        print(f"failed: {fault}")
    print(f"{len(always) + len(others) - len(faults)} passed, {len(faults)} failed")
    return 1 if faults else 0


def chosen() -> List[Edit]:
    """A tenth of the edits, others for each state of the sources."""
    ran = subprocess.run([ROOT / "release/sources", "program"], check=True, stdout=subprocess.PIPE)

    def place(edit: Edit) -> bytes:
        return hashlib.sha256(ran.stdout + os.fsencode(edit.crate + edit.file.name)).digest()

    others = sorted(edits_in("edits"), key=place)
    return others[: -(-len(others) // SHARE)]


def lanes() -> int:
    """How many checks run side by side, one job each: as many as the processors and the memory
    carry. Left to itself, `rt ci` gives several processors to a library, whose check uses one.
    """
    memory = os.sysconf("SC_PHYS_PAGES") * os.sysconf("SC_PAGE_SIZE")
    return max(1, min(len(os.sched_getaffinity(0)), memory // CHECK))


def own_libraries() -> Dict[str, List[str]]:
    """The libraries that each crate names, of this repository and of the kit."""
    lines = (ROOT / "crates.txt").read_text(encoding="utf-8").splitlines()
    rows = [line.partition(":") for line in lines if line and not line.startswith("#")]
    return {name.split()[0]: libraries.split() for name, _, libraries in rows}


def below(name: str, libraries: Dict[str, List[str]]) -> List[str]:
    """The crates of this repository that a crate uses, directly or not."""
    found: List[str] = []
    for it in libraries[name]:
        if it in libraries:
            found += [more for more in [it, *below(it, libraries)] if more not in found]
    return found


def words_of(name: str) -> List[str]:
    """The check of a crate over the libraries that `rt ci` has built here: `rattle check --help`.
    `rt check` would prove these libraries anew.
    """
    guide = subprocess.run(["rt", "doc"], check=True, stdout=subprocess.PIPE, encoding="utf-8")
    kit = pathlib.Path(guide.stdout.strip()).parent
    libraries = own_libraries()
    rlibs = {it: ROOT / "crates" / it / "out/rlib" for it in below(name, libraries)}
    words = [str(kit / "bin/rattle"), "check", "--crate-name", name]
    is_program = (ROOT / "crates" / name / "src/main.rt").exists()
    words.append("src/main.rt" if is_program else "src/lib.rt")
    for it in ["std", *libraries[name]]:
        words += ["--extern", f"{it}={rlibs.get(it, kit / 'rlibs') / it}.rlib"]
    for folder in [kit / "rlibs", *rlibs.values()]:
        words += ["-L", f"dependency={folder}"]
    words += ["--antt-project", str(kit / "rattle/logic/antt-project.json")]
    return words + ["--logic-built", str(kit / "logic_built"), "--jobs", "1"]


def checked(words: Sequence[str], crate: pathlib.Path) -> Tuple[int, List[str]]:
    ran = subprocess.run(
        words,
        cwd=crate,
        stdin=subprocess.DEVNULL,
        stdout=subprocess.PIPE,
        stderr=subprocess.STDOUT,
        encoding="utf-8",
        errors="replace",
    )
    return ran.returncode, ran.stdout.splitlines()


def try_edit(edit: Edit, words: Sequence[str], crate: pathlib.Path) -> Tuple[bool, str]:
    """Whether the prover refuses an edit of the crate in this folder, and what it says."""
    if edit.fault:
        return False, edit.fault
    kept = {path: (crate / path).read_text(encoding="utf-8") for path in edit.texts}
    for path, text in edit.texts.items():
        (crate / path).write_text(text, encoding="utf-8")
    status, lines = checked([*words, "--only", edit.function], crate)
    by = ""
    if status == 0 or not any(line.startswith("fn ") for line in lines):
        # The function has another name, or its contract says too little: does any contract break?
        by = f", though not by {edit.function}"
        status, lines = checked(words, crate)
    for path, text in kept.items():
        (crate / path).write_text(text, encoding="utf-8")
    unread = next((line for line in lines if UNREAD.match(line)), "")
    if unread:
        return False, f"the prover can't read it: {unread}"
    if status == 1 and any(UNPROVED.match(line) for line in lines):
        first = next((line for line in lines if REFUSAL.match(line)), "")
        return True, f"refused{by}: {first}"
    return False, "NOT REFUSED" if status == 0 else f"no verdict: {' '.join(lines[-3:])}"


def together(edits: Sequence[Edit]) -> List[Edit]:
    """Those of these edits of bodies that one check can try: of functions that are not the same."""
    functions = {edit.function.rpartition("::")[2]: edit for edit in reversed(edits)}
    return [edit for edit in edits if edit in functions.values()]


def try_together(
    edits: Sequence[Edit], words: Sequence[str], crate: pathlib.Path
) -> Dict[str, str]:
    """Tries edits of bodies by one check, and returns what the prover says of those it refuses."""
    texts: Dict[str, List[str]] = {}
    for edit in edits:
        for path in edit.texts:
            kept = (ROOT / "crates" / edit.crate / path).read_text(encoding="utf-8")
            lines = texts.setdefault(path, kept.splitlines())
            for number, line in changed(edit, path).items():
                lines[number] = line
    before = {path: (crate / path).read_text(encoding="utf-8") for path in texts}
    for path, lines in texts.items():
        (crate / path).write_text("\n".join(lines) + "\n", encoding="utf-8")
    only = [word for edit in edits for word in ("--only", edit.function)]
    status, said = checked([*words, *only], crate)
    for path, text in before.items():
        (crate / path).write_text(text, encoding="utf-8")
    refused = [it[1] for it in map(REFUSED.match, said) if it]
    if status != 1 or any(UNREAD.match(line) for line in said):
        return {}
    return {
        edit.name(): f"refused with {len(edits) - 1} others: {first_of(edit, said)}"
        for edit in edits
        if any(f"::{it}".endswith(f"::{edit.function}") for it in refused)
    }


def first_of(edit: Edit, said: Sequence[str]) -> str:
    """The first refusal that names the file of an edit, or the proofs of its function."""
    places = (*edit.texts, f"/{edit.function.rpartition('::')[2]}/")
    lines = (line for line in said if REFUSAL.match(line))
    return next((line for line in lines if any(it in line for it in places)), "")


def try_in_turn(edits: Sequence[Edit]) -> List[Tuple[bool, str]]:
    """Tries the edits of a crate, each over what the checks of those before it proved: together
    those that can be, and alone those that this doesn't refuse. Returns whether each is refused,
    and its name with what the prover says of it.
    """
    name = edits[0].crate
    words = words_of(name)
    with tempfile.TemporaryDirectory(prefix="edits-") as room:
        crate = pathlib.Path(room) / "crate"
        unread = shutil.ignore_patterns("out", "must-fail", "edits")
        shutil.copytree(ROOT / "crates" / name, crate, ignore=unread)
        words += ["--incremental", str(pathlib.Path(room) / "kept")]
        said: Dict[str, str] = {}
        bodies = [edit for edit in edits if is_body(edit)]
        while len(bodies) > 1:
            found = try_together(together(bodies), words, crate)
            for name, text in found.items():
                print(f"{name}: {text[:300]}", flush=True)
            said.update(found)
            bodies = [edit for edit in bodies if edit.name() not in said] if found else []
        tried = [(True, f"{name}: {text[:300]}") for name, text in said.items()]
        for edit in edits:
            if edit.name() not in said:
                refused, text = try_edit(edit, words, crate)
                tried.append((refused, f"{edit.name()}: {text[:300]}"))
                print(tried[-1][1], flush=True)
        return tried


class Trials:
    """Tries edits, several crates side by side."""

    def __init__(self, edits: Sequence[Edit]) -> None:
        crates = sorted({edit.crate for edit in edits})
        of_crate = [[edit for edit in edits if edit.crate == it] for it in crates]
        self.groups = sorted(of_crate, key=len)
        self.pool = concurrent.futures.ThreadPoolExecutor(lanes())
        self.running: List["concurrent.futures.Future[List[Tuple[bool, str]]]"] = []

    def open(self, count: int) -> None:
        """Opens more lanes, up to this many."""
        for _ in range(count - len(self.running)):
            self.running.append(self.pool.submit(self.try_groups))

    def try_groups(self) -> List[Tuple[bool, str]]:
        """Tries the edits of one crate after the other, until no crate is left."""
        tried: List[Tuple[bool, str]] = []
        while True:
            try:
                edits = self.groups.pop()
            except IndexError:
                return tried
            tried += try_in_turn(edits)

    def end(self) -> int:
        """Waits for all, and returns how many edits aren't refused."""
        self.open(lanes())
        tried = [it for lane in self.running for it in lane.result()]
        self.pool.shutdown()
        faults = [said for refused, said in tried if not refused]
        for said in faults:
            print(f"failed: {said}")
        return len(faults)


@contextlib.contextmanager
def without_edits() -> Iterator[None]:
    """Has the edits out of the folders from which `rt ci` would try them with whole crates."""
    folders = sorted(ROOT.glob("crates/*/must-fail"))
    with tempfile.TemporaryDirectory(prefix="must-fail-") as aside:
        try:
            for folder in folders:
                shutil.move(folder, pathlib.Path(aside) / folder.parent.name)
            yield
        finally:
            for folder in folders:
                if not folder.exists():
                    shutil.move(pathlib.Path(aside) / folder.parent.name, folder)


def prove_all(trials: Trials) -> Tuple[int, int]:
    """Runs `rt ci`, and returns how much passed and how much failed. While it is at its last crate,
    which takes one processor and long, the others try edits.
    """
    last = ""
    proved = 0
    how = {"RT_JOBS": str(lanes()), **os.environ}
    with without_edits(), subprocess.Popen(
        ["rt", "ci"], cwd=ROOT, env=how, stdout=subprocess.PIPE, encoding="utf-8", errors="replace"
    ) as running:
        assert running.stdout
        for line in running.stdout:
            print(line, end="", flush=True)
            last = line
            proved += bool(PROVED.fullmatch(line.rstrip()))
            if proved == len(own_libraries()) - 1:
                trials.open(lanes() - 1)
    counts = re.match(r"(\d+) passed, (\d+) failed", last)
    passed, failed = map(int, counts.groups()) if counts else (0, 1)
    return passed, failed or int(running.returncode != 0)


def tried(edits: Sequence[Edit]) -> int:
    """Proves everything, and then tries these."""
    trials = Trials(edits)
    passed, failed = prove_all(trials)
    if failed:
        print("no more edits are tried: what they edit is not proved")
        trials.groups.clear()
        trials.end()
    else:
        failed = trials.end()
        passed += len(edits) - failed
    print(f"{passed} passed, {failed} failed")
    return 1 if failed else 0


def try_those_of(crates: Sequence[str]) -> int:
    edits = [it for it in edits_in("must-fail") + edits_in("edits") if it.crate in crates]
    failed = Trials(edits).end()
    print(f"{len(edits) - failed} passed, {failed} failed")
    return 1 if failed else 0


def main() -> int:
    crates = sorted({edit.parent.parent.name for edit in ROOT.glob("crates/*/*/*.edit")})
    parser = argparse.ArgumentParser(description=__doc__.partition("\n")[0])
    parser.add_argument("action", nargs="?", default="check", choices=ACTIONS)
    parser.add_argument("names", nargs="*", metavar="NAME", help="a crate, with `try`")
    options = parser.parse_args()
    signal.signal(signal.SIGTERM, lambda *_: sys.exit(1))
    if set(options.names) - set(crates):
        parser.error(f"crates with edits are {', '.join(crates)}")
    if options.action == "gate":
        return tried(edits_in("must-fail") + chosen())
    if options.action == "prove":
        return tried([])
    if options.action == "try":
        return try_those_of(options.names or crates)
    return check()


if __name__ == "__main__":
    sys.exit(main())
