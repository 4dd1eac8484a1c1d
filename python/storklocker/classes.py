"""A base class for enums whose members are pickled without `builtins.getattr`.

    class Color(ByValue, enum.Enum):
        RED = 1

Python 3.11.0 to 3.11.3, which Debian 12 has, pickle a member as `getattr(Color, "RED")`, and a list
with `builtins.getattr` permits everything. Members of this class are pickled as `Color(1)`, so that
a list needs only `Color`. docs/CLASSES.md has more advice for classes.
"""

from __future__ import annotations

from typing import Any, Tuple


class ByValue:
    """The first base of an enum. Its members are pickled as calls of the class with their value."""

    value: Any

    def __reduce_ex__(self, protocol: Any) -> Tuple[Any, ...]:
        return type(self), (self.value,)
