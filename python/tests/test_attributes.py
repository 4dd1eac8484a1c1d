"""The attributes that a state may set, and that Python gives a meaning."""

import copy
import functools
import pickle
import subprocess
import sys
import typing
import unittest

from common import python
from storklocker import AllowList, Guard, Misused

HERE = "test_attributes"
CALLED = []


class Plain:
    pass


class Wrapper:
    """A decorator, which has what `functools` copies from the function."""

    def __init__(self, function):
        # (3.14 adds a function that is pickled by `getattr`)
        copied = set(functools.WRAPPER_ASSIGNMENTS) - {"__annotate__"}
        functools.update_wrapper(self, function, copied)


class Alone:
    """Says itself how it is pickled: by its name."""

    def __reduce__(self):
        return "ALONE"


class Text(str):
    pass


class Own(str):
    def __eq__(self, other):
        return str.__eq__(self, other)

    __hash__ = str.__hash__


def called(*given, **named):
    CALLED.append(given)


def added(one: int, other: "typing.List[int]" = ()) -> None:
    """Adds."""


ALONE = Alone()
WORDS = [word for word, it in list(globals().items())
         if callable(it) and getattr(it, "__module__", "") == __name__]
ALLOW = AllowList([(HERE, word) for word in WORDS]
                  + [("collections", "UserString"), ("builtins", "int")])
GUARD = Guard(ALLOW)


def text(word):
    return b"X" + len(word).to_bytes(4, "little") + word.encode()


def name(word, module=HERE):
    return f"c{module}\n{word}\n".encode()


def key(kind, word):
    """A name that isn't just a text."""
    return name(kind) + text(word) + b"\x85\x81"


def user_text(word):
    return name("UserString", "collections") + b")\x81}" + text("data") + text(word) + b"sb"


def made(kind, *pairs, to_slots=False):
    rows = b"".join(attribute + value for attribute, value in pairs)
    state = b"N}(" + rows + b"u\x86" if to_slots else b"}(" + rows + b"u"
    return b"\x80\x04" + name(kind) + b")\x81" + state + b"b."


def copied(loaded):
    copy.deepcopy(loaded)


HIDDEN = {
    "a class of texts": (made("Plain", (key("Text", "__deepcopy__"), name("called"))), copied),
    "a class of texts that compares": (
        made("Plain", (key("Own", "__deepcopy__"), name("called"))), copied),
    "a text of the library": (
        made("Plain", (user_text("__deepcopy__"), name("called"))), copied),
    "an annotation": (
        made("Plain", (text("__annotations__"),
                       b"}" + text("a") + text(f"__import__({HERE!r}).called()") + b"s")),
        typing.get_type_hints),
}
"""Pickles that call something, and when they do."""
REFUSED = {
    "another class by a class of texts": made(
        "Plain", (key("Text", "__class__"), name("Alone")), to_slots=True),
    "an annotation in a list": made(
        "Plain", (text("__annotations__"), b"}" + text("a") + b"]" + text("a()") + b"as")),
    "annotations that are none": made("Plain", (text("__annotations__"), text("a"))),
    "a great power": made(
        "Plain", (text("__annotations__"), b"}" + text("a") + text("9**9**9") + b"s")),
    "a documentation that is no text": made("Plain", (text("__doc__"), name("called"))),
    "parameters that are no tuple": made("Plain", (text("__type_params__"), name("called"))),
    "annotations that share their parts": made(
        "Plain", (text("__annotations__"), b"}" + text("a") + b")" + b"2\x86" * 60 + b"s")),
}


class Attributes(unittest.TestCase):
    def setUp(self):
        CALLED.clear()

    def test_what_is_called_later(self):
        for what, (data, use) in HIDDEN.items():
            with self.subTest(what=what):
                self.setUp()
                loaded = pickle.loads(data)
                try:
                    use(loaded)
                except Exception:  # (what is called gives nothing of use)
                    pass
                self.assertNotEqual(CALLED, [])  # (the control)
                with self.assertRaises(Misused):
                    GUARD.loads(data)

    def test_what_no_pickler_writes(self):
        for what, data in REFUSED.items():
            with self.subTest(what=what):
                pickle.loads(data)
                with self.assertRaises(Misused):
                    GUARD.loads(data)

    def test_a_circle_of_what_is_wrapped(self):
        one = made("Plain", (text("__wrapped__"), b"h\0")).replace(b")\x81", b")\x81q\0")
        two = (b"\x80\x04" + name("Plain") + b")\x81q\0" + name("Plain") + b")\x81q\x01}"
               + text("__wrapped__") + b"h\0sb0}" + text("__wrapped__") + b"h\x01sb.")
        for data in (one, two):
            self.assertIn("__wrapped__", vars(pickle.loads(data)))
            with self.assertRaises(Misused):
                GUARD.loads(data)
        limit = "resource.setrlimit(resource.RLIMIT_CPU, (1, 1))\n"
        ending = (f"import pickle, resource, typing\n{limit}"
                  f"import {HERE}; typing.get_type_hints(pickle.loads({one!r}))")
        with self.assertRaises((AssertionError, subprocess.CalledProcessError)):
            python(ending)  # (the control: it is followed for ever)

    def test_a_module_that_pickling_again_imports(self):
        data = made("Alone", (text("__module__"), text("this")))
        used = f"import pickle, sys, {HERE}; made = pickle.loads({data!r})\n" + (
            "try: pickle.dumps(made)\nexcept Exception: pass\nprint('this' in sys.modules)")
        self.assertIn("True", python(used))
        with self.assertRaises(Misused):
            GUARD.loads(data)
        GUARD.loads(made("Alone", (text("__module__"), text("sys"))))
        GUARD.loads(made("Plain", (text("__module__"), text("this"))))

    def test_honest_ones(self):
        wrapper = Wrapper(added)
        for protocol in range(2, 6):
            data = pickle.dumps(wrapper, protocol)
            self.assertEqual(vars(GUARD.loads(data)), vars(wrapper))
        plain = Plain()
        setattr(plain, Text("label"), 1)
        vars(plain)[7] = "number"
        self.assertEqual(vars(GUARD.loads(pickle.dumps(plain, 4))), vars(plain))


if __name__ == "__main__":
    unittest.main()
