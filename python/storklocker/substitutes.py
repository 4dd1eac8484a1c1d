"""Functions that replace dangerous names during a load, and judge the arguments of each call.

    from storklocker import AllowList, substitutes

    AllowList(
        [("builtins", "getattr"), ("shop.models", "Color"), ("shop.jobs", "Job")],
        substitutes={("builtins", "getattr"): substitutes.getattr({Color: None, Job: ["run"]})},
    )

    getattr            enum members and bound methods
    partial            functools.partial of some functions
    attrgetter         operator.attrgetter of some attributes
    methodcaller       operator.methodcaller of some methods
    load_from_bytes    torch.storage._load_from_bytes, through a guard

A check is about names: it permits the name, and the guard decides which function the name means. A
call with arguments that the substitute doesn't permit raises `Misused`. A substitute can be pickled
if its arguments can.
"""

from __future__ import annotations

import builtins
import contextlib
import enum
import functools
import importlib
import operator
from typing import (
    TYPE_CHECKING,
    Any,
    Callable,
    Dict,
    Iterable,
    Mapping,
    Optional,
    Tuple,
    Union,
    cast,
)

from ._answers import Misused, told
from ._substitute import ANSWERS, Remembering, Substitute

if TYPE_CHECKING:
    from ._guard import Guard

__all__ = ["attrgetter", "getattr", "load_from_bytes", "methodcaller", "partial"]


class _Declared(Substitute):
    """A substitute that is known by how it was made."""

    __slots__ = ("_made",)

    def __init__(self, call: Callable[..., Any], maker: Callable[..., Any], *given: Any) -> None:
        super().__init__(maker.__name__, call, ANSWERS)
        self._made = (maker, given)

    def __reduce__(self) -> Tuple[Any, ...]:
        return self._made

    def __eq__(self, other: object) -> bool:
        return isinstance(other, _Declared) and made_of(self) == made_of(other)

    __hash__ = None  # type: ignore[assignment]


class _DeclaredRemembering(_Declared, Remembering):
    __slots__ = ()


def _real(named: Any) -> Any:
    """An object that may be given by its dotted name."""
    if not isinstance(named, str):
        return named
    words = named.split(".")
    for count in range(len(words) - 1, 0, -1):
        module = ".".join(words[:count])
        try:
            found: Any = importlib.import_module(module)
        except ModuleNotFoundError as error:
            if error.name is None or not f"{module}.".startswith(f"{error.name}."):
                raise
            continue
        return functools.reduce(builtins.getattr, words[count:], found)
    raise ImportError(f"no module is found in {named}")


def made_of(substitute: Any) -> Tuple[Any, Tuple[Any, ...]]:
    """The function of this module that made a substitute, and its arguments, where an object that
    is found under its dotted name stands as that.
    """
    maker, given = substitute._made
    rows = [
        {_name_of(it): words for it, words in row.items()} if isinstance(row, dict) else row
        for row in given
    ]
    return maker, tuple(rows)


def both(one: Any, other: Any) -> Optional[Substitute]:
    """What permits what either of two substitutes does; None if nothing says just that."""
    if one == other:
        return cast(Substitute, one)
    (maker, (given, *more)), (its, (other_given, *other_more)) = made_of(one), made_of(other)
    if maker is not its or maker is load_from_bytes:
        return None
    if not isinstance(given, dict):
        return cast(Substitute, maker(given, *more, other_given, *other_more))
    rows = dict(given)
    for name, words in other_given.items():
        if name in rows and (rows[name] is None) != (words is None):
            return None
        rows[name] = None if words is None else (*rows.get(name, ()), *words)
    return cast(Substitute, maker(rows))


def _name_of(it: Any) -> Any:
    name = it if isinstance(it, str) else f"{it.__module__}.{it.__qualname__}"
    with contextlib.suppress(ImportError, AttributeError):
        return name if isinstance(it, str) or _real(name) is it else it
    return it


def _members_of(kind: type) -> Tuple[str, ...]:
    """The names of the members of an enum; none of another class, whatever that has."""
    return tuple(kind.__members__) if isinstance(kind, enum.EnumMeta) else ()


def getattr(names: Mapping[Union[type, str], Optional[Iterable[str]]]) -> Substitute:
    """For `builtins.getattr`: these attributes of each class and of its instances, but not of
    subclasses. None stands for the members of an enum. A class may be given by its dotted name,
    and is then imported when it is first needed.
    """
    said = {
        kind: None if given is None else tuple(sorted(set(given))) for kind, given in names.items()
    }

    @functools.lru_cache(maxsize=256)
    def words_of(kind: type) -> Tuple[str, ...]:
        words: Tuple[str, ...] = ()
        fault: Optional[Exception] = None  # a class may be absent that isn't asked for
        for named, given in said.items():
            try:
                if _real(named) is kind:
                    words += _members_of(kind) if given is None else given
            except (ImportError, AttributeError) as error:
                fault = error
        if fault is not None and not words:
            raise fault
        return words

    def judged(*given: Any) -> Any:
        if len(given) == 2 and type(given[1]) is str:
            kind = given[0] if isinstance(given[0], type) else type(given[0])
            if given[1] in words_of(kind):
                return builtins.getattr(given[0], given[1])
        raise Misused(f"getattr is called with {told(given)}")

    return _Declared(judged, getattr, said)


def partial(functions: Mapping[Union[Callable[..., Any], str], Iterable[str]]) -> Substitute:
    """For `functools.partial`: of each of these functions, with these keywords. A function may be
    given by its dotted name.
    """
    rows = {function: tuple(sorted(set(words))) for function, words in functions.items()}

    def fits(function: Any, words: Any) -> bool:
        for permitted, keywords in rows.items():
            if function is _real(permitted):
                return words is None or type(words) is dict and set(words) <= set(keywords)
        return False

    def state_of(state: Any) -> Any:
        if type(state) is not tuple or len(state) != 4 or type(state[1]) is not tuple or state[3]:
            raise Misused("the state of a partial has an unexpected form")
        if not fits(state[0], state[2]):
            raise Misused("a partial of another function, or with other keywords")
        return (*state[:2], dict(state[2] or {}), None)

    def judged(reader: Any, *given: Any) -> Any:
        if len(given) != 1 or not fits(given[0], None):
            raise Misused(f"partial is called with {told(given)}")
        made = functools.partial(given[0])
        reader.unbuilt[id(made)], reader.states[id(made)] = made, state_of
        return made

    return _DeclaredRemembering(judged, partial, rows)


def attrgetter(*names: str) -> Substitute:
    """For `operator.attrgetter`: of these attributes."""

    def judged(*given: Any) -> Any:
        if not given or any(type(it) is not str or it not in names for it in given):
            raise Misused(f"attrgetter is called with {told(given)}")
        return operator.attrgetter(*given)

    return _Declared(judged, attrgetter, *sorted(set(names)))


def methodcaller(*names: str) -> Substitute:
    """For `operator.methodcaller`: of these methods, with any arguments."""

    def judged(*given: Any) -> Any:
        if not given or type(given[0]) is not str or given[0] not in names:
            raise Misused(f"methodcaller is called with {told(given)}")
        return operator.methodcaller(*given)

    return _Declared(judged, methodcaller, *sorted(set(names)))


def load_from_bytes(guard: Guard) -> Substitute:
    """For `torch.storage._load_from_bytes`: the storage in the bytes, loaded by the guard."""

    def judged(*given: Any) -> Any:
        from ._checkpoints import loaded  # few lists declare it

        if len(given) != 1 or type(given[0]) is not bytes:
            raise Misused("_load_from_bytes is called with unexpected arguments")
        return loaded(given[0], guard.now(), None)

    return _Declared(judged, load_from_bytes, guard)
