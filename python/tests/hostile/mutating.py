"""Makes hostile pickles from honest ones."""

import random
import struct
import sys
import types

import trees
from storklocker.judge import shapes
from trees import (
    ADDS, AGAIN, CALL, CALLS, FROZEN, ITEMS, NAME, NEW, OBJ, PAIRS, RAW, ROW, STATE, Node
)

SLOW = 2_000
"""A fragment of more bytes is seldom taken."""
_NUMBERS = (0, 1, 2, 3, 7, 64, 127, 255, 256, 65_535, 1 << 31, (1 << 32) - 1, 1 << 40, 1 << 63)


class Mutator:
    """Makes pickles of the trees of honest ones, and of fragments."""

    def __init__(self, pickles, names, fragments):
        self._chance = random.Random()
        self._trees, self._shared, self._like = [], set(), {}
        for data in pickles:
            root = trees.parsed_or_none(data)
            if root is not None:
                self._shared |= trees.shared(root)
                rows = [node for node, _ in trees.nodes(root)]
                self._trees.append((root, rows, data[1]))
                for node in rows:
                    self._like.setdefault(_sort(node), []).append(node)
        self._names = [Node(NAME, trees.import_of(*pair)) for pair in names]
        self._words = _words(names)
        self._quick = [Node(RAW, it) for it in fragments if len(it) < SLOW]
        self._slow = [Node(RAW, it) for it in fragments if len(it) >= SLOW]

    def made(self, seed):
        """The pickle of a seed."""
        chance = self._chance
        chance.seed(seed)
        if not self._trees or chance.random() < 0.1:
            return trees.Writer(self._shared, {}).written(self._new_call(self._any()), 4)
        root, rows, protocol = chance.choice(self._trees)
        instead = {}
        for _ in range(chance.choice((1, 1, 1, 2, 2, 3, 6))):
            node = chance.choice(rows)
            instead[id(node)] = self._changed(instead.get(id(node), node))
        root = self._as_key(root) if chance.random() < 0.15 else root
        return trees.Writer(self._shared, instead).written(root, protocol)

    def _as_key(self, node):
        """A dict, a set or a frozenset with this object, which is hashed."""
        if self._chance.random() < 0.3:
            return Node(FROZEN, parts=[node])
        if self._chance.random() < 0.5:
            return Node(RAW, b"\x8f", acts=[(ADDS, [node])])
        return Node(RAW, b"}", acts=[(PAIRS, [node, Node(RAW, b"N")])])

    def _any(self):
        """Any object: a fragment, a name, or a part of an honest pickle."""
        chance = self._chance
        kind = chance.random()
        if kind < 0.5 or not self._trees:
            return chance.choice(self._slow if chance.random() < 0.02 else self._quick)
        if kind < 0.7:
            return chance.choice(self._names)
        return chance.choice(chance.choice(self._trees)[1])

    def _new_call(self, given):
        parts = [given, *(self._any() for _ in range(self._chance.choice((0, 0, 1, 2, 4))))]
        self._chance.shuffle(parts)
        name, kind = self._chance.choice(self._names), self._chance.choice((CALL, NEW, OBJ))
        made = Node(kind, parts=[name, *parts] if kind == OBJ else [name, Node(ROW, parts=parts)])
        if self._chance.random() < 0.4:
            made.acts.append(self._act())
        return made

    def _act(self):
        if self._chance.random() < 0.4:
            return STATE, [self._state()]
        act = self._chance.choice((STATE, STATE, STATE, AGAIN, ITEMS, PAIRS, ADDS))
        return act, [self._any() for _ in range(2 if act == PAIRS else 1)]

    def _state(self):
        """A state with an attribute that objects of the named classes have."""
        word = Node(RAW, shapes.text(self._chance.choice(self._words)))
        made = Node(RAW, b"}", acts=[(PAIRS, [word, self._any()])])
        is_of_slots = self._chance.random() < 0.5
        return Node(ROW, parts=[Node(RAW, b"N"), made]) if is_of_slots else made

    def _changed(self, node):
        """Another node in the place of one: another object, or the same with a part of another."""
        if self._chance.random() < 0.5:
            return self._chance.choice(self._like.get(_sort(node), [node]))
        kind = self._chance.random()
        if kind < 0.4:
            return self._any()
        if node.kind == RAW and not node.acts:
            return self._near(node) if kind < 0.9 else self._new_call(node)
        made = Node(node.kind, node.data, node.parts, node.acts)
        if kind < 0.65 and made.acts:
            self._change_acts(made)
        elif node.kind in CALLS and kind < 0.75:
            self._change_call(made)
        elif node.kind in (ROW, FROZEN) and not made.data:
            self._change_parts(made.parts)
        elif kind < 0.9:
            made.acts.insert(self._chance.randint(0, len(made.acts)), self._act())
        else:
            return self._new_call(node)
        return made

    def _change_acts(self, node):
        at = self._chance.randrange(len(node.acts))
        how = self._chance.randrange(4)
        if how == 0:
            node.acts.insert(at, node.acts[at])
        elif how == 1:
            del node.acts[at]
        elif how == 2:
            self._chance.shuffle(node.acts)
        else:
            act, given = node.acts[at]
            given = list(given)
            self._change_parts(given)
            if act in (STATE, AGAIN):
                given = given[:1] or [self._any()]
            node.acts[at] = (act, given)

    def _change_call(self, node):
        """Calls the same name in another way."""
        if node.kind == OBJ or node.parts[1].kind != ROW:
            return
        kind = self._chance.choice(CALLS)
        if kind == OBJ:
            node.parts = [node.parts[0], *node.parts[1].parts]
        node.kind = kind

    def _change_parts(self, parts):
        how, at = self._chance.randrange(5), self._chance.randint(0, len(parts))
        if how == 0 or at == len(parts):
            parts.insert(at, self._any())
        elif how == 1:
            del parts[at]
        elif how == 2:
            parts.insert(at, parts[self._chance.randrange(len(parts))])
        elif how == 3:
            self._chance.shuffle(parts)
        else:
            parts[at] = self._any()

    def _near(self, node):
        """A number near a number, or bytes and texts near such."""
        code, chance = node.data[:1], self._chance
        if code in b"KMJ\x8aIL":
            size = {b"K": 1, b"M": 2, b"J": 4}.get(code, 0)
            value = int.from_bytes(node.data[1 : 1 + size], "little", signed=code == b"J")
            near = (value + 1, value - 1, -value, value * 2, chance.choice(_NUMBERS),
                    -chance.choice(_NUMBERS))
            return Node(RAW, shapes.number(chance.choice(near)))
        if code == b"G":
            return Node(RAW, shapes.real(chance.choice((0.0, -1.0, 1e308, 0.5, float("nan")))))
        head = {b"C": 2, b"B": 5, b"U": 2, b"T": 5, b"X": 5, b"\x8c": 2, b"\x96": 9}.get(code)
        return self._any() if head is None else Node(RAW, self._bytes(code, node.data[head:]))

    def _bytes(self, code, held):
        chance = self._chance
        at, other = chance.randint(0, len(held)), chance.choice((b"\xff", b"\0", b"O", b"8", b"<"))
        changed = held[:at] + other + held[at + 1 :]
        made = chance.choice((held[:at], held + other, held + held, changed))
        if code in b"X\x8c":
            made = made.decode("utf-8", "replace").encode()
            return b"X" + struct.pack("<I", len(made)) + made
        if code == b"\x96":
            return code + struct.pack("<Q", len(made)) + made
        return (b"T" if code in b"UT" else b"B") + struct.pack("<I", len(made)) + made


def _words(names):
    """The attributes of the objects of classes, as far as these tell."""
    found = {"data": None, "args": None}
    for module, word in names:
        kind = getattr(sys.modules.get(module), word, None)
        for base in getattr(kind, "__mro__", ()):
            slots = vars(base).get("__slots__", ())
            found.update(dict.fromkeys((slots,) if isinstance(slots, str) else slots))
            found.update(dict.fromkeys(vars(base).get("__annotations__", ())))
            found.update((key, None) for key, it in vars(base).items()
                         if isinstance(it, (property, types.MemberDescriptorType)))
    return sorted(found)


def _sort(node):
    """What objects have in common of which one may stand for another: how they are made, and by
    which name.
    """
    if node.kind in trees.CALLS:
        return node.kind, node.parts[0].data
    if node.kind == RAW:
        return node.kind, _SORTS.get(node.data[:1], node.data[:1])
    return node.kind, min(len(node.parts), 9)


_SORTS = {code: sort for sort in (b"KMJ\x8aIL", b"CBUT", b"X\x8cV", b"\x88\x89N")
          for code in (sort[at : at + 1] for at in range(len(sort)))}
"""Instructions that make much the same."""
