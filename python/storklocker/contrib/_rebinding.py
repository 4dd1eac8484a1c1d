"""Subclasses of other libraries' classes, with some global names of their methods replaced."""

from __future__ import annotations

import types
from typing import Any, Dict, Iterator, List, Mapping, Set, Type, TypeVar, cast

T = TypeVar("T")

TRIED = {"cachelib": "0.9", "diskcache": "5.4", "django": "3.2", "rq": "1.13"}
"""The version of each library that its adapter was tried with. Another one may use other names."""


def rebound(cls: Type[T], names: Mapping[str, object]) -> Type[T]:
    """A subclass of `cls` whose methods see these objects under these global names.

    Every method or property of `cls` or of a base class that reads one of the names as a global is
    copied, with a changed copy of its module's globals. Nothing else in the library changes, and
    other users of `cls` are unaffected. Raises TypeError if no method reads one of the names,
    because the library has then changed and nothing would be guarded.
    """
    methods: Dict[str, object] = {}
    read: Set[str] = set()
    for owner in reversed(cls.__mro__[:-1]):
        for word, member in vars(owner).items():
            methods.pop(word, None)
            found = names.keys() & names_read_by(member)
            if found:
                read |= found
                methods[word] = _copied(member, names)
    if read != names.keys():
        missing = ", ".join(sorted(names.keys() - read))
        library = cls.__module__.partition(".")[0]
        tried = f": {library} {TRIED[library]} does" if library in TRIED else ""
        raise TypeError(f"{cls.__module__}.{cls.__qualname__} doesn't use {missing}{tried}")
    made: Dict[str, Any] = {"__module__": __name__, **methods}
    return cast(Type[T], type(cls.__name__, (cls,), made))


def names_read_by(member: object) -> Set[str]:
    """The global names and attributes that a method or a property reads."""
    return {name for function in _functions_of(member) for name in _names_in(function.__code__)}


def _functions_of(member: object) -> Iterator[types.FunctionType]:
    inner: List[object] = [getattr(member, "__func__", member)]
    if isinstance(member, property):
        inner = [member.fget, member.fset, member.fdel]
    return (it for it in inner if isinstance(it, types.FunctionType))


def _names_in(code: types.CodeType) -> Iterator[str]:
    """The names that a function reads, including those of nested functions."""
    yield from code.co_names
    for constant in code.co_consts:
        if isinstance(constant, types.CodeType):
            yield from _names_in(constant)


def _copied(member: Any, names: Mapping[str, object]) -> object:
    if isinstance(member, property):
        get, put, drop = (_over(it, names) for it in (member.fget, member.fset, member.fdel))
        return property(get, put, drop, member.__doc__)
    if isinstance(member, (staticmethod, classmethod)):
        return type(member)(_over(member.__func__, names))
    return _over(member, names)


def _over(function: Any, names: Mapping[str, object]) -> Any:
    """A copy of a function that sees these objects; anything else as it is."""
    if not isinstance(function, types.FunctionType):
        return function
    made = types.FunctionType(
        function.__code__,
        {**function.__globals__, **names},
        function.__name__,
        function.__defaults__,
        function.__closure__,
    )
    made.__kwdefaults__ = function.__kwdefaults__
    made.__dict__.update(function.__dict__)
    made.__doc__ = function.__doc__
    made.__qualname__ = function.__qualname__
    return made
