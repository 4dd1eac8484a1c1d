"""Connections and managers of `multiprocessing` under a guard.

    from storklocker.contrib import multiprocessing as guarded

    listener = guarded.Listener(("localhost", 6000), guard, authkey=key)
    connection = guarded.Client(("localhost", 6000), guard, authkey=key)

    guarded.register(guard, "guarded")
    Manager(address, authkey=key, serializer="guarded").connect()

`recv` raises Refused if the guard refuses a message; the connection stays usable. The context of
a `Refusal` is the address of the other end. A manager sends
its own `multiprocessing.managers.Token`, which must be on the list. It also names the methods of
its objects, which Python compiles in the client: one that isn't an identifier raises
UnpicklingError.
"""

from __future__ import annotations

import keyword
from multiprocessing import connection, managers
from typing import Any, Callable

from .._guard import Guard
from .._answers import told
from .._refusal import loaded_from


class Listener(connection.Listener):
    """`multiprocessing.connection.Listener` with connections that load through the guard."""

    def __init__(self, address: Any, guard: Guard, **named: Any) -> None:
        super().__init__(address, **named)
        self._guard = guard

    def accept(self) -> Any:
        plain = super().accept()
        origin = self.last_accepted or self.address
        return _Connection(plain, self._guard.dumps, _loads_from(origin, self._guard))


def Client(address: Any, guard: Guard, **named: Any) -> Any:
    """`multiprocessing.connection.Client` with a connection that loads through the guard."""
    plain = connection.Client(address, **named)
    return _Connection(plain, guard.dumps, _loads_from(address, guard))


def _loads_from(origin: Any, guard: Guard) -> Callable[[bytes], Any]:
    """The guard's `loads`, whose refusals name the other end of a connection."""

    def loads(data: bytes) -> Any:
        with loaded_from(origin):
            return guard.loads(data)

    return loads


def register(guard: Guard, name: str) -> None:
    """Makes `serializer=name` of a manager load through the guard."""

    def listener(address: Any = None, backlog: int = 1, authkey: Any = None) -> Any:
        return Listener(address, guard, backlog=backlog, authkey=authkey)

    def client(address: Any, authkey: Any = None) -> Any:
        plain = connection.Client(address, authkey=authkey)
        return _ManagerConnection(plain, guard.dumps, _loads_from(address, guard))

    managers.listener_client[name] = (listener, client)  # type: ignore[attr-defined]


_Wrapper: Any = getattr(connection, "ConnectionWrapper")


class _Connection(_Wrapper):  # type: ignore[misc]
    """A connection that loads through the guard, and otherwise behaves like a plain one."""

    def __getattr__(self, name: str) -> Any:
        if name == "_conn":  # a copy under construction
            raise AttributeError(name)
        return getattr(self._conn, name)

    def __enter__(self) -> _Connection:
        return self

    def __exit__(self, *raised: object) -> None:
        self.close()


class _ManagerConnection(_Connection):
    """A client's connection to a manager."""

    _asked: object = None

    def send(self, message: Any) -> None:
        self._asked = message[1] if type(message) is tuple and len(message) > 1 else None
        super().send(message)

    def recv(self) -> Any:
        answer = super().recv()
        if type(answer) is not tuple or len(answer) != 2:
            return answer
        kind, result = answer
        if kind == "#RETURN" and self._asked == "get_methods":
            return (kind, _identifiers(result))
        if kind == "#RETURN" and self._asked == "create":
            name, methods = result
            return (kind, (name, _identifiers(methods)))
        if kind == "#PROXY":
            methods, token = result
            return (kind, (_identifiers(methods), token))
        return answer


def _identifiers(methods: Any) -> Any:
    """The names of methods, which the client compiles."""
    names = tuple(methods)
    for name in names:
        if type(name) is not str or not name.isidentifier() or keyword.iskeyword(name):
            raise Guard.UnpicklingError(f"the manager names a method {told(name)}")
    return names
