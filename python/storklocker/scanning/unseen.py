"""Names that a guard would import to find out what they are, and states of what they make.

What a guard says of these it finds by the class: whether that says itself how it is called, is an
exception or an enum, or is derived from a class whose states are judged. Here nothing is imported.
What follows from the name alone is judged as a guard does, and all else is put off.
"""

from __future__ import annotations

import builtins
import functools
import sys
from typing import TYPE_CHECKING, Any, Callable, Dict, Tuple

from .. import _of_jobs, lists
from .._answers import Misused
from .._attributes import HARMLESS, JUDGES
from .._calls import takes_row, takes_text
from .._exceptions import judge_error, judged_state, members_of
from .._items import takes_items
from .._library import KNOWN
from .._of_estimators import PREDICTOR, state_of
from .._of_packages import PACKAGES, TOGETHER, judge_signature, judge_together, judge_wrapped
from .._substitute import BECOMES_REAL, IS_JUDGED, Substitute
from .._weighing import CONTAINERS, keys_of, values
from .dangers import is_in_shipped_list
from .stand_ins import Answer, Pair

if TYPE_CHECKING:
    from .foreseeing import Foreseer

PLAIN = ("django", "celery", "kombu", "billiard")
"""Packages whose listed classes have states that are judged by name."""
_BASES: Dict[Pair, Pair] = {
    ("django.http.request", "QueryDict"): ("django.utils.datastructures", "MultiValueDict"),
}
"""Classes of shipped lists that are derived from those whose states are judged."""
_TEXTS = ("__doc__", "__name__", "__qualname__")


def is_error(pair: Pair) -> bool:
    """Whether a name of a shipped list is that of an exception."""
    if pair[0] == "builtins":
        it = vars(builtins).get(pair[1])
        return isinstance(it, type) and issubclass(it, BaseException)
    is_shown = pair[0].rpartition(".")[2] == "exceptions" and is_in_shipped_list(*pair)
    return is_shown or pair in lists.EXCEPTIONS


def is_enum(pair: Pair) -> bool:
    """Whether a name of a shipped list is that of an enum, or of a member."""
    return pair in lists.ENUM and pair[0] not in ("builtins", "__builtin__", "_operator")


def class_of(pair: Pair) -> Any:
    """The class that a name means, if its module is there, and is none of a package."""
    if pair[0].partition(".")[0] in PACKAGES:
        return None
    kind = functools.reduce(
        lambda held, word: getattr(held, word, None), pair[1].split("."), sys.modules.get(pair[0])
    )
    return kind if isinstance(kind, type) else None


_PARTICULAR = (UnicodeError, SyntaxError, ImportError, AttributeError, NameError)
"""Exceptions of which a guard judges what they are made with."""
CALLED: Dict[Pair, Callable[[Any, Any], None]] = {
    **_of_jobs.CALLED,
    TOGETHER: judge_together,
    ("celery.canvas", "signature"): judge_signature,
    ("celery.utils.serialization", "UnpickleableExceptionWrapper"): judge_wrapped,
}
"""What judges a call without the package."""
_NEWS: Dict[Pair, Callable[[Any, str, Tuple[Any, ...]], None]] = {
    ("django.utils.safestring", "SafeString"): takes_text,
    ("django.utils.datastructures", "ImmutableList"): takes_row,
}
"""What judges what NEWOBJ is given beside a class; others are given nothing."""


class Unseen(Substitute):
    """A name of a package, or of an enum, which a guard judges when it has imported it."""

    __slots__ = ("_reader", "_pair")

    def __init__(self, pair: Pair, reader: Foreseer) -> None:
        super().__init__(".".join(pair), self._called, BECOMES_REAL | IS_JUDGED)
        self._reader, self._pair = reader, pair

    def _called(self, *given: Any) -> Any:
        is_known = self._reader.knows(given)
        if self._pair == TOGETHER and not is_known:
            return given[0] if _are_flags(given) else self._put_off()
        if self._pair in CALLED and is_known:
            CALLED[self._pair](self._reader, given)
        elif is_enum(self._pair) and is_known:
            keys_of(self._reader, given)
            values(self._reader, tuple(it for it in given if type(it) in CONTAINERS))
        elif not is_error(self._pair) or not self._is_raised(given, is_known):
            return self._put_off()
        return self._reader.named(self._pair)(None)

    def _is_raised(self, given: Tuple[Any, ...], is_known: bool) -> bool:
        """Whether an exception is one that a guard takes."""
        kind = class_of(self._pair)
        if kind is None:
            if is_known:
                values(self._reader, given)
        elif is_known:
            judge_error({}, kind(*given))
        return is_known or kind is not None and not issubclass(kind, _PARTICULAR)

    def _put_off(self) -> Any:
        return self._reader.put_off(f"{self.name} judges its arguments during the load")

    def new(self, reader: Any, *given: Any) -> Any:
        is_class = self._pair[1].lstrip("_")[:1].isupper() and not is_error(self._pair)
        is_class = is_class and self._pair not in CALLED  # (picklers only call it)
        if self._pair in _NEWS and self._reader.knows(given):
            _NEWS[self._pair](reader, self.name, given)
        elif given or not is_class or is_enum(self._pair) or not is_in_shipped_list(*self._pair):
            return self._put_off()
        kind: Any = self.real()
        return kind.__new__(kind)

    def real(self) -> Any:
        return self._reader.named(self._pair)


def _are_flags(given: Tuple[Any, ...]) -> bool:
    """Whether these are two members of one enum, or one and bits."""
    pairs = [it.pair for it in given if isinstance(it, Answer)]
    others = [it for it in given if not isinstance(it, Answer)]
    is_one = len(given) == 2 and pairs[0] is not None and is_enum(pairs[0])
    return is_one and len(set(pairs)) == 1 and all(type(it) is int for it in others)


def judge_items(made: Any) -> None:
    """Refuses items for what is known to be no container."""
    pair = made.pair
    kind = class_of(pair)
    if is_error(pair) or kind is not None and not takes_items(kind):
        raise Misused(f"items for what {'.'.join(pair)} makes, which isn't a container")


def judge_state(reader: Foreseer, made: Any, state: Any) -> None:
    """Judges the state of what a listed name makes, as far as a guard does so by its name."""
    pair = made.pair
    package = pair[0].partition(".")[0]
    if is_error(pair):
        _judge_error(reader, pair, state)
        return
    for row in state if type(state) is tuple and len(state) == 2 else (state,):
        if type(row) is dict and not all(_is_harmless(key, row[key]) for key in row):
            if row is state and any(map(_is_refused, row)):
                raise Misused("a state sets what has a meaning in Python")
            reader.put_off(f"the state of a {pair[1]} sets what has a meaning in Python")
    judge = KNOWN.get(_BASES.get(pair, pair))
    if judge is not None and not reader.knows(state):
        reader.put_off(f"the state of a {pair[1]} has a part that only a load makes")
    elif judge is not None and not judge(state):
        raise Misused(f"the state of a {pair[1]} has an unexpected form")
    if package == "sklearn":
        _judge_estimator(reader, made, state)
    elif package in PACKAGES and package not in PLAIN:
        reader.put_off(f"a state or items are set on what {'.'.join(pair)} makes")


def _is_refused(key: Any) -> bool:
    """Whether a guard refuses every attribute of this name."""
    return type(key) is str and key[:2] == "__" == key[-2:] and key not in JUDGES


def _is_harmless(key: Any, value: Any) -> bool:
    if type(key) is not str:
        return type(key) in (int, bytes, bool, float, type(None))
    is_text = key in _TEXTS and type(value) in (str, type(None))
    return not key[:2] == "__" == key[-2:] or key in HARMLESS or is_text


def _judge_estimator(reader: Foreseer, made: Any, state: Any) -> None:
    """Judges the state of an estimator made of nothing, where its class doesn't matter."""
    pair = made.pair
    why = f"a state or items are set on what {'.'.join(pair)} makes"
    is_plain = type(state) is dict and not isinstance(state.get("tree_"), Answer)
    if not made.is_bare or not is_plain or ".".join(pair) == PREDICTOR:
        reader.put_off(why)
        return
    try:
        state_of(reader, made, state)
    except (Misused, AttributeError):  # (it may be no estimator)
        reader.put_off(why)


def _judge_error(reader: Foreseer, pair: Pair, state: Any) -> None:
    kind = class_of(pair)
    if kind is not None:
        held = state if type(state) is dict else {}
        members = members_of(kind)
        if not reader.knows(held.get("__notes__")) or any(
            isinstance(held[name], Answer) for name in held if name in members
        ):
            reader.put_off(f"the state of a {pair[1]} has a part that only a load makes")
        else:
            judged_state(kind, state)
    elif state is not None and state != {}:
        reader.put_off(f"a state or items are set on what {'.'.join(pair)} makes")
