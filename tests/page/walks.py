"""How the page follows pickles, beside how the package does: the page has no C and no Python, so
these rules are written twice. What accepted pickles call; and what readers import of others.
"""

from __future__ import annotations

import base64
import io
import json
import random
import subprocess
from pathlib import Path
from typing import Any, Callable, Dict, Iterator, List, Tuple

from corpus import called, reaching
from sentences import maker, scripts

PICKLES, FRONTS = 10_000, 20_000
SEED = 1
LONGEST = 40
MARK = "("
NAMES = (
    b"collections\nOrderedDict\n", b"builtins\nset\n", b"shop\nOrder\n",
    b"joblib.numpy_pickle\nNumpyArrayWrapper\n", b"numpy\nndarray\n", b"copyreg\n_reconstructor\n",
    b"sklearn.externals.joblib.numpy_pickle\nNumpyArrayWrapper\n", b"a\nNumpyArrayWrapper\n",
)
PLAIN: Dict[bytes, str] = {
    b"N": "value", b"K\1": "value", b"J\0\0\0\0": "value", b"\x88": "value", b")": "tuple",
    b"]": "list", b"}": "dict", b"\x8f": "set", b"\x8c\1a": "text", b"X\1\0\0\0b": "text",
    b"Va\n": "text", b"I1\n": "value", b"F1.5\n": "value", b"C\1a": "value", b"B\0\0\0\0": "value",
    b"\x8a\1\1": "value", b"G" + bytes(8): "value", b"Pid\n": "made",
    b"\x8c\x11NumpyArrayWrapper": "text", b"\x8c\x13joblib.numpy_pickle": "text",
}
"""What pushes a value, and of which kind that is."""


class Writer:
    """Writes a pickle of instructions chosen by dice, most of which a reader takes."""

    def __init__(self, dice: random.Random) -> None:
        self._dice, self._stack, self.data = dice, [], b""  # type: ignore[var-annotated]
        self._memo: Dict[int, str] = {}
        acts = (self._push,) * 3 + (self._name,) * 3 + (self._call,) * 4
        acts += (self._tuple,) * 3 + (self._keep, self._get, self._other, self._fill, self._mark)
        self._acts: Tuple[Callable[[], None], ...] = acts

    def written(self) -> bytes:
        """A pickle, which the checker may refuse."""
        self.data += self._dice.choice((b"", b"\x80\2", b"\x80\4", b"\x80\4"))
        for _ in range(self._dice.randrange(4, LONGEST)):
            self._dice.choice(self._acts)()
        while MARK in self._stack:
            self._end(b"t", "tuple")
        if not self._stack:
            self._add(b"N", 0, "value")
        while len(self._stack) > 1:
            self._add(*self._dice.choice(((b"\x86", 2, "tuple"), (b"0", 1, ""))))
        return self.data + b"."

    def _add(self, code: bytes, taken: int, *pushed: str) -> None:
        self.data += code
        del self._stack[len(self._stack) - taken :]
        self._stack += filter(None, pushed)

    def _top(self, count: int) -> List[str]:
        """The kinds of so many values; none if a mark is among them."""
        found = self._stack[-count:]
        return found if len(found) == count and MARK not in found else []

    def _push(self) -> None:
        code = self._dice.choice(list(PLAIN))
        self._add(code, 0, PLAIN[code])

    def _name(self) -> None:
        name = self._dice.choice(NAMES)
        if self._dice.random() < 0.6:
            self._add(b"c" + name, 0, "name")
        elif self._dice.random() < 0.2 and MARK in self._stack:
            self._end(b"i" + name, "made")
        else:
            module, word = name.split(b"\n")[:2]
            self.data += b"\x8c%c%b\x8c%c%b\x93" % (len(module), module, len(word), word)
            self._stack.append("name")

    def _call(self) -> None:
        kind = self._dice.random()
        if kind < 0.2 and MARK in self._stack and self._stack[-1] != MARK:
            self._end(b"o", "made")
            return
        if not self._top(1):
            return
        words, count = ((b")", 0), (b"\x85", 1))[len(self._stack) > 1 and kind < 0.6]
        if not self._top(count + 1) or self._stack[-1 - count] not in ("name", "made"):
            return
        self._add(words, count, "tuple")
        if kind < 0.85:
            self._add(self._dice.choice(b"R\x81".decode("latin-1")).encode("latin-1"), 2, "made")
        else:
            self._add(b"}\x92", 2, "made")

    def _tuple(self) -> None:
        count = self._dice.randrange(1, 4)
        if self._top(count):
            self._add(b"%c" % (0x84 + count), count, "tuple")

    def _mark(self) -> None:
        if MARK in self._stack and self._dice.random() < 0.6:
            choices = ((b"t", "tuple"), (b"l", "list"), (b"\x91", "set"), (b"1", ""))
            self._end(*self._dice.choice(choices))
        else:
            self._add(b"(", 0, MARK)

    def _end(self, code: bytes, pushed: str) -> None:
        place = len(self._stack) - self._stack[::-1].index(MARK) - 1
        self._add(code, len(self._stack) - place, pushed)

    def _keep(self) -> None:
        if not self._top(1):
            return
        number = self._dice.choice((len(self._memo), len(self._memo), self._dice.randrange(300)))
        codes = [b"q%c" % (number % 256), b"p%d\n" % (number % 256)]
        codes += [b"\x94"] if number == len(self._memo) else []
        self.data += self._dice.choice(codes)
        self._memo[number % 256] = self._stack[-1]

    def _get(self) -> None:
        if self._memo:
            number = self._dice.choice(list(self._memo))
            code = self._dice.choice((b"h%c" % number, b"g%d\n" % number, b"j%c\0\0\0" % number))
            self._add(code, 0, self._memo[number])

    def _other(self) -> None:
        if not self._top(1):
            return
        top = self._stack[-1]
        choices = [(b"2", 1, top, top), (b"0", 1), (b"Q", 1, "made"), (b"}b", 0)]
        self._add(*self._dice.choice(choices))  # type: ignore[arg-type]

    def _fill(self) -> None:
        """An item or items for a list, a dict or what a call has made."""
        if len(self._top(2)) == 2 and self._stack[-2] in ("list", "made"):
            self._add(b"a", 1)
        elif len(self._top(3)) == 3 and self._stack[-3] in ("dict", "made"):
            self._add(b"s", 2)


def _accepted(dice: random.Random) -> Iterator[bytes]:
    """Pickles that the checker accepts, and which import something."""
    from storklocker.scanning.names import NOTHING, WIDEST, imports_within

    while True:
        data = Writer(dice).written()
        found = imports_within(data, NOTHING, WIDEST)
        if found.verdict and found.names and found.verdict.taken == len(data):
            yield data


def _page(module: Path, accepted: List[bytes], others: List[bytes]) -> Any:
    def packed(pickles: List[bytes]) -> List[str]:
        return [base64.b64encode(it).decode() for it in pickles]

    asked = {"renames": maker().names.renames()}
    with scripts() as its:
        ran = subprocess.run(
            ["node", *map(str, (Path(__file__).with_suffix(".mjs"), its, module))],
            input=json.dumps({**asked, "accepted": packed(accepted), "others": packed(others)}),
            capture_output=True, text=True, check=False,
        )
    if ran.returncode:
        raise AssertionError(ran.stderr)
    return json.loads(ran.stdout)


def _fronts(tests: Any) -> List[bytes]:
    """Pickles that readers take otherwise than the checker does."""
    dice, found = random.Random(SEED), [it + tests.RUNS for it in tests.FRONTS if len(it) < 99_999]
    for _ in range(FRONTS):
        parts = [tests.instruction(dice) for _ in range(dice.randint(1, 8))]
        found.append(b"".join(parts) + dice.choice(tests.ENDS))
    return found


def fault(module: Path) -> str:
    """Where they differ, or nothing. The page may stop later than all readers do."""
    from storklocker.scanning.called import why_of
    from storklocker.scanning.reaching import followed_from
    from storklocker.scanning.names import named_today, pair_of
    from storklocker.scanning.source import in_memory

    made, tests = _accepted(random.Random(SEED)), reaching()
    accepted = [*called(), *(next(made) for _ in range(PICKLES))]
    others, said = _fronts(tests), [why_of(it, 0) for it in accepted]
    found = _page(module, accepted, others)
    differing = [it for it in zip(accepted, found["calls"], said) if it[1] != it[2]]
    for data, (names, is_ended, is_misread) in zip(others, found["names"]):
        scan = followed_from(in_memory(io.BytesIO(data)), 0)
        wanted = {pair_of(it) for it in named_today(scan.names, data)}
        is_less = not wanted <= set(map(tuple, names)) or scan.is_ended > is_ended
        if not is_misread and (is_less or scan.is_misread):
            differing.append((data, str(names), str(scan)))
    if not 0 < said.count("") < len(said):
        return "all say the same"
    return "".join(f"{it!r}: {page}, scan: {scan}\n" for it, page, scan in differing[:9])
