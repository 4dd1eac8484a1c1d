"""A pickle calls what it imports, and nothing that a call of its own has made: a kernel of
scikit-learn takes the square of what it is given, and a signature of Celery runs a task.
"""

import collections
import functools
import io
import operator
import pickle
import unittest

import storklocker
from common import needs
from storklocker import AllowList, Guard, Misused, lists, substitutes
from storklocker._meant import EVERYTHING
from storklocker.scanning.foreseeing import Fate, Look

HERE = "test_called_answers"
CALLED = []


class Called:
    """Its objects can be called."""

    def __init__(self, *given):
        self.given = given

    def __call__(self, *given):
        CALLED.append(given)
        return Called


class Outer:
    class Inner:
        """Named by `getattr` in protocols 2 and 3."""

        def __eq__(self, other):
            return type(self) is type(other)


class Keywords:
    """Made by a partial function in protocols 2 and 3."""

    def __new__(cls, *, size):
        made = super().__new__(cls)
        made.size = size
        return made

    def __getnewargs_ex__(self):
        return (), {"size": self.size}

    def __eq__(self, other):
        return self.size == other.size


class ByMethod:
    """Made by a method of its class."""

    @classmethod
    def made(cls, text):
        return cls()

    def __reduce__(self):
        return self.made, ("a",)

    def __eq__(self, other):
        return type(self) is type(other)


def maker():
    return Called


def name(word, module=HERE):
    return f"c{module}\n{word}\n".encode()


MADE = name("Called") + b")R"
PICKLES = {
    "by REDUCE": MADE + b"K\1\x85R.",
    "by REDUCE with nothing": MADE + b")R.",
    "by OBJ": b"(" + MADE + b"K\1o.",
    "by OBJ with nothing": b"(" + MADE + b"o.",
    "from the memo": MADE + b"q\0000h\0K\1\x85R.",
    "from the memo, by its text": MADE + b"p3\n0g3\nK\1\x85R.",
    "from the memo, memoized": MADE + b"\x940h\0K\1\x85R.",
    "a copy": MADE + b"2K\1\x85R\x86.",
    "behind a mark": MADE + b"(K\1t" b"R.",
    "after its state": MADE + b"}b" b"K\1\x85R.",
    "made by NEWOBJ": name("Called") + b")\x81K\1\x85R.",
    "made by NEWOBJ_EX": name("Called") + b")}\x92K\1\x85R.",
    "made by OBJ": b"(" + name("Called") + b"oK\1\x85R.",
    "made by INST": b"(i" + f"{HERE}\nCalled\n".encode() + b"K\1\x85R.",
    "made by an answer": MADE + b"K\1\x85R)RK\1\x85R.",
}
NEWS = {
    "NEWOBJ of an answer": name("maker") + b")R)\x81.",
    "NEWOBJ_EX of an answer": name("maker") + b")R)}\x92.",
}
LISTED = [(HERE, it) for it in ("Called", "maker", "Outer", "Outer.Inner", "Keywords", "ByMethod")]
GUARDS = {
    "a plain list": Guard(AllowList(LISTED)),
    "build": Guard(AllowList(LISTED), build="any"),
    "names with substitutes": Guard(AllowList(LISTED) | lists.COLLECTIONS),
    "declared substitutes": Guard(AllowList(
        [*LISTED, ("builtins", "getattr")],
        substitutes={("builtins", "getattr"): substitutes.getattr({Outer: ["Inner"]})},
    )),
}


def ways(guard):
    yield guard.loads
    yield lambda data: guard.load(io.BytesIO(data))
    yield lambda data: guard.Unpickler(io.BytesIO(data)).load()
    yield lambda data: guard.loads(bytearray(data), buffers=iter(()))


class Answers(unittest.TestCase):
    def setUp(self):
        CALLED.clear()

    def test_it_is_not_called(self):
        for front in (b"\x80\x04", b"\x80\x02", b""):
            for what, body in {**PICKLES, **NEWS}.items():
                data = front + body
                pickle.loads(data)  # (the control)
                self.assertEqual(bool(CALLED), what in PICKLES, what)
                for its, guard in GUARDS.items():
                    CALLED.clear()
                    self.assertTrue(guard.check(data), what)
                    for load in ways(guard):
                        with self.subTest(what=what, guard=its), self.assertRaises(Misused):
                            load(data)
                    self.assertEqual(CALLED, [])

    def test_that_of_an_earlier_pickle(self):
        row = io.BytesIO(b"\x80\x04" + MADE + b"q\0." + b"\x80\x04h\0K\1\x85R.")
        for kind in (pickle.Unpickler, GUARDS["a plain list"].Unpickler):
            row.seek(0)
            reader = kind(row)
            self.assertIs(type(reader.load()), Called)
            if kind is pickle.Unpickler:
                self.assertIs(reader.load(), Called)  # (the control)
            else:
                self.assertRaises(Misused, reader.load)
        self.assertEqual(len(CALLED), 1)

    def test_it_is_told(self):
        guard, told = GUARDS["a plain list"], []
        asking = Guard(guard.allow, on_refusal=told.append)
        with self.assertRaises(Misused):
            asking.loads(b"\x80\x04" + PICKLES["by REDUCE"])
        self.assertIn("calls the result of its own call", told[-1].misused)

    def test_a_scan_says_so(self):
        for what, body in {**PICKLES, **NEWS}.items():
            for its, guard in GUARDS.items():
                data = b"\x80\x04" + body
                said = Look(guard.allow).of(data)
                self.assertEqual(said.fate, Fate.REFUSED, (what, its))

    def test_what_a_list_means_to_answer_functions(self):
        """Honest pickles call what `getattr` and `partial` give, where a list has substitutes."""
        of_python = [("builtins", "getattr"), ("functools", "partial")]
        of_python.append(("operator", "methodcaller"))
        said = {
            of_python[0]: substitutes.getattr({
                Outer: ["Inner"], Keywords: ["__new__"], ByMethod: ["made"],
            }),
            of_python[1]: substitutes.partial({
                Keywords.__new__: ["size"], operator.methodcaller: ["sep"],
            }),
            of_python[2]: substitutes.methodcaller("split"),
        }
        of_python += [("copyreg", "_reconstructor"), ("builtins", "object")]
        listed = AllowList([*LISTED, *of_python], substitutes=said)
        meant = AllowList([*LISTED, *of_python], dangerous=of_python[:3])
        for value in (Outer.Inner(), ByMethod(), [ByMethod(), Outer.Inner()]):
            for protocol in range(pickle.HIGHEST_PROTOCOL + 1):
                data = pickle.dumps(value, protocol)
                for allow in (listed, meant):
                    for load in ways(Guard(allow)):
                        self.assertEqual(load(data), value, protocol)
        for protocol in (2, 3):
            data = pickle.dumps(Keywords(size=3), protocol)
            for load in ways(Guard(meant)):
                self.assertEqual(load(data), Keywords(size=3))
            called = pickle.dumps(operator.methodcaller("split", sep="."), protocol)
            self.assertEqual(Guard(meant).loads(called)("a.b"), ["a", "b"])
        inner = pickle.dumps(Outer.Inner(), 2)
        row = io.BytesIO()
        writer = pickle.Pickler(row, 2)
        writer.dump(Outer.Inner())
        writer.dump(Outer.Inner())
        reader = Guard(listed).Unpickler(io.BytesIO(row.getvalue()))
        self.assertEqual([reader.load(), reader.load()], [Outer.Inner(), Outer.Inner()])
        with self.assertRaises(Misused):  # what these functions make is called by nobody
            Guard(listed).loads(inner[:-1] + b")R.")

    def test_a_name_that_is_meant(self):
        allow = AllowList(LISTED, dangerous=[(HERE, "maker")])
        for load in ways(Guard(allow)):
            for body in NEWS.values():
                self.assertIs(type(load(b"\x80\x04" + body)), Called)
            with self.assertRaises(Misused):
                load(b"\x80\x04" + PICKLES["by REDUCE"])

    def test_factories_of_defaults(self):
        """Whoever asks for a key that isn't there calls them."""
        guard = Guard(AllowList([*LISTED, ("collections", "defaultdict"), ("builtins", "list")]))
        data = b"\x80\x04" + name("defaultdict", "collections") + MADE + b"\x85R."
        self.assertIs(pickle.loads(data)["a"], Called)  # (the control)
        self.assertRaises(Misused, guard.loads, data)
        for value in (list, None, maker, Called):
            honest = pickle.dumps(collections.defaultdict(value, a=1), 4)
            self.assertEqual(guard.loads(honest), {"a": 1})
        self.assertRaises(Misused, guard.loads, data)  # (which is judged in fewer steps by now)


class Persistent(unittest.TestCase):
    """What a program hands out by an id is called if it is a class or a function."""

    def load(self, allow, body, given):
        plain = Guard(allow).Unpickler

        class Reader(plain):
            def persistent_load(self, number):
                return given

        CALLED.clear()
        return Reader(io.BytesIO(b"\x80\x04" + body)).load()

    def test_it(self):
        for allow in (AllowList([]), AllowList(LISTED), AllowList(LISTED) | lists.COLLECTIONS):
            for body in (b"NQ)R.", b"NQq\0000h\0K\1\x85R.", b"(NQo.", b"(NQK\1o.", b"P1\n)R."):
                for given in (Called(), functools.partial(maker)):
                    with self.subTest(body=body), self.assertRaises(Misused):
                        self.load(allow, body, given)
                    self.assertEqual(CALLED, [])
                self.assertIs(type(self.load(allow, body, Called)), Called)
            self.assertIs(self.load(allow, b"NQ)R.", maker), Called)
            self.assertIs(type(self.load(allow, b"NQ)\x81.", Called)), Called)

    def test_it_gets_no_state(self):
        """Also under a list without names."""
        for allow in (AllowList([]), AllowList(LISTED)):
            shared = Called()
            with self.assertRaises(Misused):
                self.load(allow, b"NQ}\x8c\5givenK\7sb.", shared)
            self.assertEqual(shared.given, ())


@needs("module:sklearn")
class Kernels(unittest.TestCase):
    def test_a_kernel_is_not_called(self):
        import numpy
        from sklearn.gaussian_process.kernels import RBF

        class Call:
            """Pickled as a call of a kernel."""

            def __reduce__(self):
                return RBF(), (numpy.zeros((300, 1), "f4"),)

        for protocol in range(pickle.HIGHEST_PROTOCOL + 1):
            data = pickle.dumps(Call(), protocol)
            self.assertEqual(pickle.loads(data).shape, (300, 300))  # (the control)
            for load in ways(Guard(lists.SCIKIT_LEARN)):
                self.assertRaises(Misused, load, data)


@needs("module:celery")
class Signatures(unittest.TestCase):
    def setUp(self):
        import celery

        self.ran = []

        def order(*given):
            self.ran.append(given)

        app = celery.Celery("shop", set_as_current=True)
        self.addCleanup(app.close)
        self.task = app.task(order, name="shop.order")

    def test_a_signature_is_not_called(self):
        import celery

        one = self.task.s(2)
        for made in (one, celery.group(one, one), celery.chain(one, one), celery.chord([one], one)):
            for protocol in (2, 3):
                data = pickle.dumps(made, protocol)
                guard = Guard(lists.CELERY, fix_imports=True)
                self.assertRaises(Misused, guard.loads, data[:-1] + b"K\1\x85R.")
                self.assertEqual(self.ran, [])
                loaded, plain = guard.loads(data), pickle.loads(data)
                self.assertEqual((loaded, type(loaded)), (plain, type(made)))
        pickle.loads(pickle.dumps(one, 2)[:-1] + b"K\1\x85R.")  # (the control)
        self.assertEqual(self.ran, [(1, 2)])



class ByValue(unittest.TestCase):
    @needs("module:cloudpickle")
    def test_functions_by_value(self):
        """Whoever lists names of cloudpickle permits what it calls."""
        import cloudpickle

        for value in (lambda number: number + 1, functools.partial(lambda number, more: more, 1)):
            data = cloudpickle.dumps(value)
            pairs = [tuple(it) for it in storklocker.imports(data)]
            meant = [pair for pair in pairs if pair in EVERYTHING]
            allow = AllowList(pairs, dangerous=meant)
            self.assertEqual(Guard(allow).loads(data)(1), pickle.loads(data)(1))
            said = Look(allow).of(data)
            self.assertNotEqual(said.fate, Fate.REFUSED, said.why)


if __name__ == "__main__":
    unittest.main()
