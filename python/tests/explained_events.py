"""Random pickles that readers accept, and what happens in a reader and in their explanations."""

import builtins
import io
import pickle

import explained


class Log:
    """What happens, with what it happens to. A value that something has made is its number."""

    def __init__(self):
        self.events, self.numbers, self.kept = [], {}, []

    def number(self, it):
        self.kept.append(it)
        return self.numbers.setdefault(id(it), len(self.numbers))

    def shown(self, it, around=()):
        if isinstance(it, Thing):
            return f"<{self.number(it)}>"
        if isinstance(it, (list, tuple, dict)):
            if id(it) in around:
                return f"around {len(around) - around.index(id(it))}"
            parts = it.items() if isinstance(it, dict) else it
            inner = ", ".join(self.shown(part, (*around, id(it))) for part in parts)
            return f"{type(it).__name__}({inner})"
        if isinstance(it, (set, frozenset)):
            return f"{type(it).__name__}({sorted(self.shown(part) for part in it)})"
        return repr(it)

    def add(self, what, *values):
        self.events.append(f"{what} {' '.join(map(self.shown, values))}")


class Thing:
    """What is imported, or made. It may be called, and given anything."""

    def __init__(self, log):
        self.log = log
        log.number(self)

    def _made(self, what, *values):
        self.log.add(what, self, *values)
        return Thing(self.log)

    def __call__(self, *given):
        return self._made("call", given)

    def __getattribute__(self, name):
        if name == "__new__":
            return lambda kind, *given, **named: self._made("new", kind, given, named)
        return object.__getattribute__(self, name)

    def __setstate__(self, state):
        self.log.add("setstate", self, state)

    def __setitem__(self, key, value):
        self.log.add("set item", self, key, value)

    def append(self, value):
        self.log.add("append", self, value)

    def extend(self, values):
        self.log.add("extend", self, values)

    def add(self, value):
        self.log.add("add", self, value)


class Recording(pickle._Unpickler):
    """The reader of CPython in Python, which notes what happens."""

    def __init__(self, data, log):
        super().__init__(io.BytesIO(data))
        self.log = log

    def find_class(self, module, name):
        return found(self.log, module, name)

    def persistent_load(self, number):
        return persistent(self.log, number)

    def get_extension(self, code):
        self.append(extended(self.log, code))


def found(log, module, name):
    log.add("import", module, name)
    return Thing(log)


def persistent(log, number):
    log.add("persistent", number)
    return Thing(log)


def extended(log, code):
    log.add("extension", code)
    return Thing(log)


def read(data):
    """What happens in the reader, and what it returns."""
    log = Log()
    answer = Recording(data, log).load()
    return log.events, log.shown(answer)


def explained_events(data):
    """The same of the explanation."""
    log = Log()

    class Module:
        def __init__(self, name):
            self.name = name

        def __getattr__(self, name):
            return found(log, self.name, name)

    names = {
        **explained.helpers(lambda it: persistent(log, it)),
        "find_class": lambda module, name: found(log, module, name),
        "extension": lambda code: extended(log, code),
        "__builtins__": {**vars(builtins), "__import__": lambda name, *_: Module(name)},
    }
    answer = explained.run(explained.statements(data), names)
    return log.events, log.shown(answer)


class Maker:
    """Makes a random pickle that a reader accepts, by the kinds of what is on its stack."""

    def __init__(self, chosen):
        self.chosen, self.made, self.stack, self.memo = chosen, [b"\x80\x04"], [], {}

    def push(self, raw, kind):
        self.made.append(raw)
        self.stack.append(kind)

    def pickle(self):
        for _ in range(self.chosen.randrange(5, 60)):
            self.chosen.choice(STEPS)(self)
        while len(self.stack) > 1:
            self.made.append(b"0")
            self.stack.pop()
        if not self.stack:
            self.push(b"N", "plain")
        return b"".join([*self.made, b"."])

    # ---- instructions

    def plain(self):
        texts = [b"N", b"K\x05", b"\x8c\x02ab", b"C\x01z", b"\x88", b"J\xff\xff\xff\xff", b"I7\n"]
        self.push(self.chosen.choice(texts), "plain")

    def empty(self):
        raw, kind = self.chosen.choice([(b"]", "list"), (b"}", "dict"), (b"\x8f", "set")])
        self.push(raw, kind)

    def imported(self):
        name = self.chosen.choice("abc")
        self.push(b"cm%d\n%s\n" % (self.chosen.randrange(2), name.encode()), "thing")

    def put(self):
        if self.stack:
            number = self.chosen.randrange(6)
            self.made.append(b"q" + bytes([number]))
            self.memo[number] = self.stack[-1]

    def get(self):
        if self.memo:
            number = self.chosen.choice(list(self.memo))
            self.push(b"h" + bytes([number]), self.memo[number])

    def dup(self):
        if self.stack:
            self.push(b"2", self.stack[-1])

    def pop(self):
        if self.stack:
            self.stack.pop()
            self.made.append(b"0")

    def tuple(self):
        count = self.chosen.randrange(4)
        if len(self.stack) >= count:
            kinds = self.stack[len(self.stack) - count :]
            del self.stack[len(self.stack) - count :]
            is_plain = all(kind == "plain" for kind in kinds)
            kind = "plain tuple" if is_plain else "tuple"
            self.push({0: b")", 1: b"\x85", 2: b"\x86", 3: b"\x87"}[count], kind)

    def reduce(self):
        if len(self.stack) > 1 and self.stack[-2] == "thing" and "tuple" in self.stack[-1]:
            del self.stack[-2:]
            self.push(self.chosen.choice([b"R", b"\x81"]), "thing")

    def called(self):
        """A call as picklers write it."""
        self.imported()
        self.plain()
        self.tuple_of_one()
        self.reduce()

    def tuple_of_one(self):
        self.stack[-1] = "tuple"
        self.made.append(b"\x85")

    def new_with_names(self):
        if len(self.stack) > 1 and self.stack[-2] == "thing" and "tuple" in self.stack[-1]:
            del self.stack[-2:]
            self.push(b"}\x8c\x01kK\x01s\x92", "thing")

    def build(self):
        if len(self.stack) > 1 and self.stack[-2] == "thing":
            self.stack.pop()
            self.made.append(b"b")

    def append(self):
        if len(self.stack) > 1 and self.stack[-2] in ("thing", "list"):
            self.stack.pop()
            self.made.append(b"a")

    def set_item(self):
        if len(self.stack) > 2 and self.stack[-3] in ("thing", "dict"):
            if self.stack[-2] in ("plain", "plain tuple", "thing"):
                del self.stack[-2:]
                self.made.append(b"s")

    def marked(self):
        """Several values above a mark."""
        target = self.stack[-1] if self.stack else ""
        before = len(self.stack)
        self.made.append(b"(")
        for _ in range(self.chosen.randrange(4)):
            self.chosen.choice((Maker.plain, Maker.get, Maker.imported, Maker.called))(self)
        kinds = self.stack[before:]
        del self.stack[before:]
        hashed = all(kind in ("plain", "plain tuple", "thing") for kind in kinds)
        ways = [(b"t", "tuple"), (b"l", "list"), (b"1", "")]
        ways += [(b"e", target)] * 3 if target in ("list", "thing") else []
        ways += [(b"\x90", target)] * 3 if target in ("set", "thing") and hashed else []
        ways += [(b"\x91", "frozenset")] if hashed else []
        if len(kinds) % 2 == 0 and hashed:
            ways += [(b"d", "dict")] + [(b"u", target)] * 3 * (target in ("dict", "thing"))
        ways += [(b"im0\ni\n", "thing")]
        ways += [(b"o", "thing")] * 2 if kinds and kinds[0] == "thing" else []
        raw, kind = self.chosen.choice(ways)
        self.made.append(raw)
        if raw in (b"e", b"\x90", b"u"):
            return
        if kind:
            self.stack.append(kind)

    def persistent(self):
        if self.stack:
            self.stack.pop()
            self.push(b"Q", "thing")
        else:
            self.push(b"Pabc\n", "thing")

    def registered(self):
        self.push(b"\x82\x07", "thing")

    def named(self):
        self.push(b"\x8c\x02m9\x8c\x01z\x93", "thing")

    def nested(self):
        """A value in many tuples."""
        if self.stack:
            count = self.chosen.randrange(1, 40)
            is_plain = self.stack[-1] in ("plain", "plain tuple")
            self.stack[-1] = "plain tuple" if is_plain else "tuple"
            self.made.append(b"\x85" * count)


STEPS = [
    Maker.plain, Maker.plain, Maker.empty, Maker.imported, Maker.put, Maker.put, Maker.get,
    Maker.get, Maker.dup, Maker.pop, Maker.tuple, Maker.tuple, Maker.reduce, Maker.reduce,
    Maker.called, Maker.called, Maker.new_with_names, Maker.build, Maker.build, Maker.append,
    Maker.append, Maker.set_item, Maker.set_item, Maker.marked, Maker.marked, Maker.persistent,
    Maker.registered, Maker.named, Maker.nested,
]
