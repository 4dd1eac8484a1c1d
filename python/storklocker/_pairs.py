"""Pairs of a module and a name: as arguments have them, and as the library writes them."""

TYPE_CHECKING = False
if TYPE_CHECKING:
    from typing import Any, Callable, Iterator, Optional, Tuple, Union

    Pair = Tuple[str, str]
    Item = Union[Pair, type, Callable[..., Any]]
    Names = Tuple[Optional[bytes], Optional[bytes]]

_MOST = 1 << 30
"""The most bytes for the names in a list or in the imports of a pickle."""
_NO_NAME = (1 << 64) - 1


def bytes_of(text: str) -> bytes:
    """The text in UTF-8. Lone surrogates are encoded too, and no list contains them."""
    return text.encode("utf-8", "surrogatepass")


def bytes_of_pair(pair: "Pair") -> "Tuple[bytes, bytes]":
    return (bytes_of(pair[0]), bytes_of(pair[1]))


def is_pair(pair: "Any") -> bool:
    return (
        isinstance(pair, (tuple, list))
        and len(pair) == 2
        and isinstance(pair[0], str)
        and isinstance(pair[1], str)
    )


def _pairs_in(given: "Any") -> "Iterator[Any]":
    """The items of the argument, each with its description for errors."""
    if not hasattr(given, "keys"):  # how a dict tells mappings from pairs
        for place, pair in enumerate(given):
            yield (f"item {place}", pair)
        return
    for module, names in given.items():
        if isinstance(names, (str, bytes)) or not hasattr(names, "__iter__"):
            raise TypeError(
                f"the names of module {module!r} must be a list of strings, not {names!r:.80}"
            )
        for name in names:
            yield (f"an entry of module {module!r}", (module, name))


def encoded(given: "Any") -> "Iterator[Tuple[bytes, bytes]]":
    if isinstance(given, (str, bytes, type)) or not hasattr(given, "__iter__"):
        raise TypeError(
            f"an AllowList takes pairs, or a mapping of modules to names, not {given!r:.80}"
        )
    for words, pair in _pairs_in(given):
        if not is_pair(pair):
            from ._objects import KINDS, pair_of  # most lists are of names

            if not isinstance(pair, KINDS):
                raise TypeError(
                    f"{words} must be two strings, a module and a name, or a class or a function,"
                    f" not {pair!r:.80}"
                )
            pair = pair_of(pair)
        if not (pair[0] and pair[1]):
            raise ValueError(f"{words} has an empty module or name: {pair!r:.80}")
        yield (pair[0].encode(), pair[1].encode())


def with_room(
    call: "Callable[[int], Tuple[Any, ...]]", most: int = _MOST
) -> "Tuple[Any, bytes]":
    """Calls with growing room until the answer fits. Returns the answer and the bytes in the room.
    Raises MemoryError if it doesn't fit into `most` bytes.
    """
    size = 4096
    while True:
        *said, wanted, room = call(size)
        if wanted <= size:
            return said, room[:wanted]
        if wanted > most:
            raise MemoryError(f"the names take {wanted} bytes, which is more than {most}")
        size = wanted


def records(room: bytes) -> "Iterator[Names]":
    """Decodes the pairs that the library wrote; both names of an unknown import are None."""
    at, end = 0, len(room)
    while at < end:  # (a hostile pickle has very many)
        length = int.from_bytes(room[at : at + 8], "little")
        at += 8
        module = None if length == _NO_NAME else room[at : at + length]
        at += 0 if module is None else length
        length = int.from_bytes(room[at : at + 8], "little")
        at += 8
        name = None if length == _NO_NAME else room[at : at + length]
        at += 0 if name is None else length
        yield (module, name)
