"""A pickle changes what it has made, and nothing that the process shares."""

import argparse
import collections
import copy
import enum
import http
import io
import pickle
import pickletools
import re
import signal
import sys
import types
import unittest

import shop_of_states as shop
import storklocker
from storklocker import AllowList, Guard, Misused, lists, substitutes

HERE = shop.__name__
IS_PYPY = sys.implementation.name == "pypy"


def text(word):
    """The instruction that pushes a text."""
    return b"\x8c" + bytes([len(word)]) + word.encode()


def name(word, module=HERE):
    """The instructions that import a name."""
    return text(module) + text(word) + b"\x93"


def state(**named):
    """The instructions that set a state of texts and names."""
    return b"}(" + b"".join(text(key) + value for key, value in named.items()) + b"ub"


def whole(*instructions):
    """A pickle of these instructions."""
    return b"\x80\x04" + b"".join(instructions) + b"."


EVIL = state(label=text("evil"))
CALL, NEW = b")R", b")\x81"


def of(kind):
    return lambda: kind().label


SHARED = {
    "an enum member": (name("Color") + b"K\1\x85R" + EVIL, lambda: shop.Color.RED.label),
    "its value": (name("Color") + b"K\1\x85R" + state(_value_=b"K\7"),
                  lambda: shop.Color.RED.value),
    "a member of the library": (
        name("HTTPStatus", "http") + b"K\xc8\x85R" + state(phrase=text("evil")),
        lambda: http.HTTPStatus.OK.phrase),
    "a member by OBJ": (b"(" + name("Signals", "signal") + b"K\x0fo" + state(_name_=text("evil")),
                        lambda: signal.SIGTERM.name),
    "a flag": (name("RegexFlag", "re") + b"K\2\x85R" + state(_value_=b"K\0"),
               lambda: re.IGNORECASE.value),
    "flags together": (name("Access") + b"K\3\x85R" + state(_value_=b"K\0"),
                       lambda: (shop.Access.READ | shop.Access.WRITE).value),
    "through the memo": (name("Color") + b"K\1\x85R\x940h\0" + EVIL,
                         lambda: shop.Color.RED.label),
    "a copy on the stack": (name("Color") + b"K\1\x85R2" + EVIL + b"0",
                            lambda: shop.Color.RED.label),
    "in a tuple's place": (b"(" + name("Color") + b"K\1\x85R" + EVIL + b"t",
                           lambda: shop.Color.RED.label),
    "an only object, by its class's call": (name("One") + CALL + EVIL, of(shop.One)),
    "by NEWOBJ": (name("One") + NEW + EVIL, of(shop.One)),
    "by NEWOBJ_EX": (name("One") + b")}\x92" + EVIL, of(shop.One)),
    "by INST": (b"(i" + HERE.encode() + b"\nOne\n" + EVIL, of(shop.One)),
    "by the metaclass": (name("Zone") + text("utc") + b"\x85R" + EVIL,
                         lambda: shop.Zone("utc").label),
    "by a function that remembers": (name("remembered") + CALL + EVIL, of(shop.remembered)),
    "by slots": (name("remembered") + CALL + b"N}" + text("label") + text("evil") + b"s\x86b",
                 of(shop.remembered)),
    "attributes in common": (name("Borg") + NEW + EVIL, lambda: shop.Borg.shared["label"]),
    "attributes of another": (name("Proxy") + NEW + EVIL, lambda: shop.Proxy.target.label),
    "items of a dict": (name("registry") + CALL + text("label") + text("evil") + b"s",
                        lambda: shop.REGISTRY["label"]),
    "many items of a dict": (name("registry") + CALL + b"(" + text("label") + text("evil") + b"u",
                             lambda: shop.REGISTRY["label"]),
    "items of a list": (name("names") + CALL + b"(" + text("evil") + b"e",
                        lambda: list(shop.NAMES)),
    "an item of a list": (name("names") + CALL + text("evil") + b"a", lambda: list(shop.NAMES)),
    "items of an import": (name("REGISTRY") + text("label") + text("evil") + b"s",
                           lambda: shop.REGISTRY["label"]),
    "an item of an import": (name("NAMES") + text("evil") + b"a", lambda: list(shop.NAMES)),
    "items of a set": (name("SET") + b"(" + text("evil") + b"\x90", lambda: set(shop.SET)),
}
"""Pickles, and what they change of the process."""
MADE = name("Job") + NEW
CALLING = {
    "the instance's __setstate__": (
        MADE + state(__setstate__=name("called")) + b"K\7b", lambda: shop.CALLED.copy()),
    "the instance's append": (
        name("Job") + NEW + state(append=name("called")) + b"K\7a", lambda: shop.CALLED.copy()),
    "the instance's extend": (
        name("Job") + NEW + state(extend=name("called")) + b"(K\7e", lambda: shop.CALLED.copy()),
    "the instance's add": (
        name("Job") + NEW + state(add=name("called")) + b"(K\7\x90", lambda: shop.CALLED.copy()),
    "what copying asks for": (
        MADE + state(__deepcopy__=name("called")), lambda: shop.CALLED.copy()),
    "what pickling asks for": (
        MADE + state(__reduce_ex__=name("called")), lambda: shop.CALLED.copy()),
}
"""Pickles, and what tells of a call."""
REFUSED = {
    "a second state": MADE + state(a=b"N") + state(b=b"N"),
    "a second state through the memo": MADE + b"\x94" + state(a=b"N") + b"0h\0" + state(b=b"N"),
    "the state of a list": b"]" + state(a=b"N"),
    "the state of a dict": b"}" + state(a=b"N"),
    "the state of a text": text("a") + state(a=b"N"),
    "another class": MADE + b"N}" + text("__class__") + name("Reduced") + b"s\x86b",
    "another class of attributes": MADE + state(__class__=name("Reduced")),
    "another dict": MADE + b"N}" + text("__dict__") + name("REGISTRY") + b"s\x86b",
    "what is asked for annotations": MADE + state(__annotate__=name("called")),
    "a dict with a class in it": name("Stated") + NEW + state(__class__=name("Reduced")),
}


class Case(unittest.TestCase):
    def setUp(self):
        held = (shop.Color.RED, http.HTTPStatus.OK, signal.SIGTERM, re.IGNORECASE, shop.One(),
                shop.Access.READ | shop.Access.WRITE, shop.Zone("utc"), shop.remembered(),
                shop.Proxy.target)
        for it in held:
            self.addCleanup(vars(it).update, dict(vars(it)))
        for it in (shop.REGISTRY, shop.Borg.shared):
            self.addCleanup(it.update, dict(it))
        for it in (shop.NAMES, shop.SET):
            self.addCleanup(it.__init__, type(it)(it))
        shop.CALLED.clear()
        words = [word for word in vars(shop) if not word.startswith("_")]
        self.allow = AllowList(
            [(HERE, word) for word in words]
            + [("http", "HTTPStatus"), ("signal", "Signals"), ("re", "RegexFlag")]
        )

    def loaders(self, allow=None, is_old=False, **words):
        guard = Guard(allow or self.allow, fix_imports=True, **words)
        new = Guard(allow or self.allow, fix_imports=False, **words)
        yield guard.loads
        yield lambda data: guard.loads(bytearray(data))
        yield lambda data: guard.load(io.BytesIO(data))
        yield lambda data: guard.Unpickler(io.BytesIO(data)).load()
        yield lambda data: type("Own", (guard.Unpickler,), {})(io.BytesIO(data)).load()
        if not is_old:
            yield new.loads
            yield lambda data: new.load(io.BytesIO(data))

    def refused(self, data, shown, **words):
        for load in self.loaders(**words):
            before = shown()
            with self.assertRaises(Misused):
                load(data)
            self.assertEqual(shown(), before)


class Changes(Case):
    def test_without_the_guard_each_changes_something(self):
        for what, (instructions, shown) in SHARED.items():
            with self.subTest(what=what):
                self.setUp()
                before = shown()
                pickle.loads(whole(instructions))
                self.assertNotEqual(shown(), before)
                self.doCleanups()
                self.assertEqual(shown(), before)

    @unittest.skipIf(IS_PYPY, "references aren't counted")
    def test_each_is_refused(self):
        for what, (instructions, shown) in SHARED.items():
            with self.subTest(what=what):
                self.assertTrue(storklocker.check(whole(instructions), self.allow))
                self.refused(whole(instructions), shown)

    @unittest.skipIf(IS_PYPY, "references aren't counted")
    def test_under_a_list_with_substitutes_too(self):
        self.allow |= AllowList([("builtins", "bytes")])
        for what, (instructions, shown) in SHARED.items():
            with self.subTest(what=what):
                self.refused(whole(instructions), shown, build="any")

    @unittest.skipIf(IS_PYPY, "references aren't counted")
    def test_what_a_weak_reference_knows(self):
        held = whole(name("Weak") + text("a") + b"\x85R" + EVIL)
        self.assertEqual(pickle.loads(held).label, "evil")
        for load in self.loaders():
            with self.assertRaises(Misused):
                load(held)
            self.assertEqual(shop.Weak("a").label, "a")

    @unittest.skipIf(IS_PYPY, "references aren't counted")
    def test_what_its_own_attribute_shares(self):
        data = pickle.dumps(shop.Registered("a"))
        self.addCleanup(shop.LISTED.clear)
        self.assertIs(pickle.loads(data), shop.LISTED[-1])
        for load in self.loaders():
            with self.assertRaises(Misused):
                load(data)

    def test_a_member_wherever_references_are_not_counted(self):
        for what, (instructions, shown) in SHARED.items():
            if "member" in what or "flag" in what:
                self.refused(whole(instructions), shown)

    def test_what_would_be_called(self):
        def used(made):
            copy.deepcopy(made)
            pickle.dumps(made)

        for what, (instructions, shown) in CALLING.items():
            with self.subTest(what=what):
                self.setUp()
                data = whole(instructions)
                try:
                    used(pickle.loads(data))
                except Exception:  # what is called is no such function
                    pass
                self.assertNotEqual(shop.CALLED, [])
                shop.CALLED.clear()
                self.refused(data, shown)

    def test_what_no_pickler_writes(self):
        for what, instructions in REFUSED.items():
            with self.subTest(what=what):
                self.refused(whole(name("Job"), b"0", instructions), lambda: None)

    def test_what_an_earlier_pickle_has_made(self):
        for second in (b"h\0" + EVIL, b"h\0" + text("a") + text("b") + b"s"):
            for first in (MADE, name("Ordered") + NEW):
                data = whole(first, b"\x94") + whole(second)
                reader = Guard(self.allow).Unpickler(io.BytesIO(data))
                reader.load()
                with self.assertRaises(Misused):
                    reader.load()

    def test_a_refusal_is_told(self):
        told = []
        guard = Guard(self.allow, on_refusal=told.append)
        with self.assertRaises(Misused):
            guard.loads(whole(SHARED["an enum member"][0]))
        self.assertIn("others", told[0].misused)

    def test_build_any_leaves_it_to_the_pickle(self):
        guard = Guard(self.allow, build="any")
        guard.loads(whole(SHARED["an enum member"][0]))
        self.assertEqual(shop.Color.RED.label, "evil")


def honest():
    """What programs pickle."""
    job, slots, both = shop.Job(), shop.Slots(), shop.Both()
    job.a, job._Job__b, job.self, slots.a, both.a, both.c = 1, "b", job, 2, 3, [job]
    yield from (job, slots, both, [job, job], {"a": slots})
    for kind in (shop.Attributes, shop.Ordered, shop.Numbers):
        made = kind([("a", 1), ("b", [2])])
        if kind is not shop.Attributes:
            made.label = {"a": made}
        yield made
    yield from (collections.deque([1, job], 5), collections.defaultdict(list, a=[1]))
    yield from (collections.Counter("abc"), collections.OrderedDict(a=job))
    stated, reduced = shop.Stated(), shop.Reduced("a")
    stated.taken, reduced.own = 1, {"me": reduced}
    yield from (stated, reduced, [stated, stated])
    job = shop.Job()
    job.color, job.zone, job.one = shop.Color.RED, shop.Zone("utc"), shop.One()
    job.kind, job.function, job.access = shop.Job, shop.called, shop.Access.READ
    yield from (job, shop.Access.READ | shop.Access.WRITE)
    yield from (argparse.Namespace(a=1, b=[2]), types.SimpleNamespace(a=job))
    yield shop.Wrapper(shop.called)
    failure = shop.Failure("why", job)
    failure.label, failure.inner = (1, b"a", None), KeyError("b")
    yield from (failure, [failure, failure], shop.Listing("a"))


class Honest(Case):
    def test_each_loads_as_it_was(self):
        names = {("types", "SimpleNamespace"), ("argparse", "Namespace"), ("copyreg", "__newobj__")}
        names |= {("collections", word) for word in
                  ("deque", "defaultdict", "OrderedDict", "Counter")}
        names |= {("copyreg", "_reconstructor"), ("builtins", "KeyError"), ("builtins", "object"),
                  ("builtins", "list"), ("builtins", "dict"), ("builtins", "getattr"),
                  ("_codecs", "encode"), ("_operator", "or_")}
        own = {("builtins", "getattr"): substitutes.getattr({shop.Color: None, shop.Access: None})}
        allow = self.allow | AllowList(names, substitutes=own)
        for value in honest():
            for protocol in range(6):
                try:
                    data = pickle.dumps(value, protocol)
                except (RecursionError, TypeError, pickle.PicklingError):
                    self.assertLess(protocol, 2)  # (slots, or a dict that is its own state)
                    continue
                for load in self.loaders(allow, protocol < 3):
                    with self.subTest(value=value, protocol=protocol):
                        self.assertEqual(shown(load(data)), shown(pickle.loads(data)))

    def test_an_object_with_the_annotations_of_a_function(self):
        allow = self.allow | AllowList([(HERE, "noted.__annotate__")])
        data = pickle.dumps(shop.Wrapper(shop.noted), 4)
        for load in self.loaders(allow):
            self.assertEqual(shown(load(data)), shown(pickle.loads(data)))

    def test_under_the_lists_of_the_library(self):
        for member in (re.A | re.I, http.HTTPStatus.OK, signal.SIGTERM):
            if isinstance(member, enum.Enum):
                for protocol in (2, 3, 4, 5):
                    data = pickle.dumps(member, protocol)
                    self.assertIs(Guard(lists.ENUM, fix_imports=True).loads(data), member)


def shown(value):
    """What can be compared of a value."""
    out = io.StringIO()
    pickletools.dis(pickle.dumps(value, 4), out)
    return re.sub("0x[0-9a-f]+", "", out.getvalue())


if __name__ == "__main__":
    sys.exit(unittest.main())
