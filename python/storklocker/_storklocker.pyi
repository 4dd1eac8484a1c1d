from types import ModuleType
from typing import Any, Callable, Container, Dict, Iterable, List, Optional, Tuple, Type, TypeVar

from ._answers import RowVerdict, Verdict

_P = TypeVar("_P", bound="Pairs")

version: str

class Pairs:
    _pairs: Tuple[Tuple[bytes, bytes], ...]
    def _refusal(self, data: bytes, /) -> Optional[Verdict]: ...

class Loads:
    def loads(
        self,
        data: Any,
        /,
        *,
        fix_imports: Optional[bool] = None,
        encoding: Optional[str] = None,
        errors: Optional[str] = None,
        buffers: Optional[Iterable[Any]] = None,
    ) -> Any: ...

class AuditHook:
    permitted: Optional[Container[Tuple[str, str]]]
    judge: Optional[Callable[[Tuple[str, str]], None]]
    def audit(self, *event: Any) -> None: ...

def begin_loads(
    guard: Loads,
    new: Optional[Pairs],
    old: Optional[Pairs],
    loads: Callable[..., Any],
    is_judging: bool,
    /,
) -> None: ...
def begin_judging(
    guard: Loads, new: Callable[[bytes, bytes], int], old: Callable[[bytes, bytes], int], /
) -> None: ...
def pairs_of(
    kind: Type[_P], pairs: Tuple[Tuple[bytes, bytes], ...], settings: bytes, /
) -> _P: ...
def stand_in(
    is_loads: bool, function: Callable[..., Any], owner: ModuleType, doc: bytes, /
) -> Callable[..., Any]: ...
def walked(data: bytes, start: int, count: int = 1, /) -> Tuple[int, bool]: ...
def whole(data: bytes, begins: List[int], ends: List[int], /) -> int: ...
def wholes(
    data: bytes, places: List[int], start: int, most: int, walks: int, /
) -> Tuple[List[int], List[int]]: ...
def joined(data: bytes, begins: List[int], ends: List[int], /) -> bytes: ...
def blanked(data: bytes, start: int, begins: List[int], ends: List[int], /) -> bytes: ...
def begun(
    data: bytes, patterns: bytes, begins: List[int], ends: List[int], /
) -> Tuple[List[int], List[int], List[int], List[int]]: ...
def runs(
    data: bytes, letters: bytes, least: int, begins: List[int], ends: List[int], /
) -> Tuple[List[int], List[int]]: ...
def cells(
    page: bytes, quiet: bytes, places: int, count: int, most: int, is_of_table: bool, /
) -> Tuple[List[int], List[int], List[int]]: ...
def holds(data: bytes, texts: Tuple[bytes, ...], /) -> bool: ...
def begin_uses() -> Any: ...
def uses(
    kept: Any, data: bytes, start: int, number_of: Callable[[bytes, bytes], int], takes_any: bool, /
) -> Tuple[List[Tuple[bytes, int, int]], bool, int, int, int]: ...
def unjudged(
    values: List[bytes],
    start: int,
    number_of: Callable[[bytes, bytes], int],
    numbers: Dict[bytes, int],
    takes_any: bool,
    is_judging: bool,
    /,
) -> int: ...
def followed(
    data: bytes,
    start: int,
    stack: List[Any],
    memo: Dict[int, Any],
    other: Any,
    mark: Any,
    dicts: Type[Any],
    /,
) -> Tuple[int, int]: ...
def verdict(data: bytes, allow: Pairs, settings: Optional[bytes]) -> Verdict: ...
def row_verdict(data: bytes, allow: Pairs, settings: Optional[bytes]) -> RowVerdict: ...
def bill(
    data: bytes, allow: Pairs, settings: Optional[bytes]
) -> Optional[Tuple[int, int, int, int, int]]: ...
def imports(
    data: bytes, allow: Pairs, settings: Optional[bytes], size: int
) -> Tuple[Verdict, int, bytes]: ...
def read_list(
    text: bytes, size: int
) -> Tuple[int, Tuple[int, int, int, int, int, int], Tuple[int, ...], int, bytes]: ...
def list_told(text: bytes, size: int) -> Tuple[int, Tuple[int, ...], int, bytes]: ...
