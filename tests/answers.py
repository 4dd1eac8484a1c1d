"""The answers that a command may give if one request to its host fails."""
import dataclasses
import re
from typing import Set

import rows

FILE, LIST, OUT = "file.pickle", "list.toml", "out.pickle"
BEFORE = b"what stood there before"
# A longer line of JSON is written in pieces of so many bytes.
PIECE = 65_536
NO_MEMORY = "no: OutOfMemory\n"


@dataclasses.dataclass(frozen=True)
class Answer:
    """The status, the content of standard output and standard error, and the content of OUT."""

    status: int
    out: str
    err: str
    result: bytes

    def brief(self) -> str:
        """How the command ended, as a line without its numbers."""
        lines = (self.err or self.out).splitlines()
        said = re.sub(r"\b(at|pickle) \d+", r"\1 N", lines[-1]) if lines else "nothing"
        return f"{said[:60]} (status {self.status})"


def is_fault(answer: Answer, words: Set[str]) -> bool:
    """Whether the answer is one of these faults, on standard error alone, with OUT unchanged."""
    told = answer.err[:-1] if answer.err.endswith("\n") else answer.err
    return answer.status == 2 and answer.out == "" and told in words and answer.result == BEFORE


def is_refusal(row: rows.Row, own: Answer, answer: Answer, reason: str) -> bool:
    """Whether the command refused the pickle for this reason, at the offset of an instruction."""
    if answer.status != 1 or answer.err or answer.result != BEFORE:
        return False
    *before, last = answer.out.splitlines(keepends=True) or [""]
    pickle = r"in pickle \d+ " if "--all" in row.options else ""
    place = re.fullmatch(rf"no {pickle}at (\d+): {reason}\n", last)
    if not place or int(place[1]) > len(row.pickle):
        return False
    if row.command != "dis":
        return not before
    # the lines are those of its own listing, and the offset is that of the last one or just after
    # it
    listed = own.out.splitlines(keepends=True)
    places = [int(it) for it in re.findall(r"(?m)^ *(\d+): ", "".join(listed[: len(before) + 1]))]
    ended = re.match(r"no at (\d+): ", listed[len(before)]) if len(before) < len(listed) else None
    places += [int(ended[1])] if ended else []
    return before == listed[: len(before)] and int(place[1]) in places[-2:]


def wants_memory(row: rows.Row, own: Answer, answer: Answer) -> bool:
    """A refused allocation: a reason, a fault, or a file that cannot be opened."""
    words = {"out of memory", f"cannot read {FILE}"}
    if row.command == "check":
        words |= {f"cannot read {LIST}", "list: OutOfMemory"}
    if row.command == "optimize":
        words |= {f"cannot write {OUT}"}
    if row.command == "json":
        told = answer.status, answer.out, answer.err
        is_cut = len(own.out) > PIECE and own.out.startswith(answer.out) and own.out != answer.out
        whole = dataclasses.replace(answer, out="") if is_cut else answer
        return told == (1, NO_MEMORY, "") or is_fault(whole, words)
    return is_fault(answer, words) or is_refusal(row, own, answer, "OutOfMemory")


def is_late_fault(own: Answer, answer: Answer) -> bool:
    """Whether a line of JSON that is one piece lacks memory, and that isn't its answer. Before the
    pickle is read, it is a fault.
    """
    return answer.err == "out of memory\n" and len(own.out) <= PIECE


def failed_read(row: rows.Row, own: Answer, answer: Answer) -> bool:
    """A failed read: a fault for the list and for a file that is read whole, otherwise a reason."""
    words = {f"cannot read {LIST if row.command == 'check' else FILE}"}
    if row.command in ("optimize", "json"):
        return is_fault(answer, words)
    is_of_list = row.command == "check" and is_fault(answer, words)
    return is_of_list or is_refusal(row, own, answer, "Source")


def failed_write(row: rows.Row, own: Answer, answer: Answer) -> bool:
    """A failed write: a fault for standard output or OUT; for standard error nothing is reported.
    """
    told = {"cannot write standard output\n"}
    if row.command == "optimize":
        told.add(f"cannot write {OUT}\n")
    if answer.status != 2 or not own.out.startswith(answer.out):
        return False
    return answer.err in told or own.status == 2 and own.err.startswith(answer.err)


def failed_writes(row: rows.Row, own: Answer, answer: Answer) -> bool:
    """All writes from one on failed: as for one, and nothing is reported."""
    is_untold = answer.status == 2 and own.out.startswith(answer.out) and not answer.err
    return is_untold or failed_write(row, own, answer)
