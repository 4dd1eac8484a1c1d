"""What `scan --allow` says of calls, states and items that a guard judges by a class: it imports no
package, and never accepts what a guard refuses.
"""

import pickle
import sys
import unittest

from common import has_hash, needs, python
from storklocker import AllowList, Guard, Misused, lists
from storklocker.scanning.foreseeing import Fate, Look

ROPE = b")" + b"2\x86" * 30
"""A tuple that has itself 2**30 times."""


def text(word):
    return b"\x8c" + bytes([len(word)]) + word.encode()


def name(module, word):
    return f"c{module}\n{word}\n".encode()


def whole(number):
    data = number.to_bytes(number.bit_length() // 8 + 1, "little", signed=True)
    return b"\x8a" + bytes([len(data)]) + data


def state(**given):
    return b"}(" + b"".join(text(key) + value for key, value in given.items()) + b"ub"


UUID, STRING = name("uuid", "UUID") + b")\x81", name("collections", "UserString") + b")\x81"
LIST, VALUE = name("collections", "UserList") + b")\x81", name("builtins", "ValueError") + b")R"
COOKIE, MORSEL = (name("http.cookies", it) + b")\x81" for it in ("SimpleCookie", "Morsel"))
RESPONSE = name("django.http.response", "HttpResponse")
INVALID = name("django.core.exceptions", "ValidationError")
FITTED = name("sklearn.linear_model._base", "LinearRegression")
PICKLES = {
    "a large UUID": ("UUID", UUID + state(int=whole(1 << 300))),
    "a UUID of a rope": ("UUID", UUID + state(int=ROPE)),
    "items of a UUID": ("UUID", UUID + b"(K\1K\2u"),
    "a text of a number": ("COLLECTIONS", STRING + state(data=b"K\1")),
    "a class": ("COLLECTIONS", LIST + state(__class__=b"K\1")),
    "a circle": ("COLLECTIONS", LIST + b"q\0" + state(__wrapped__=b"h\0")),
    "a cause": ("EXCEPTIONS", VALUE + state(__cause__=b"K\1")),
    "a method": ("EXCEPTIONS", VALUE + state(with_traceback=b"K\1")),
    "notes": ("EXCEPTIONS", VALUE + state(__notes__=b"K\1")),
    "slots": ("EXCEPTIONS", VALUE + b"N}" + text("args") + b"K\1s\x86b"),
    "items of an exception": ("EXCEPTIONS", VALUE + b"(K\1e"),
    "places": ("EXCEPTIONS", name("builtins", "UnicodeEncodeError") + b"(" + text("utf-8")
               + text("x") + whole(-(10**15)) + whole(1) + text("why") + b"tR"),
    "the name of a module": ("EXCEPTIONS", name("builtins", "ImportError") + b")R"
                             + state(name=b"]")),
    "a member of a rope": ("ENUM", name("http", "HTTPStatus") + ROPE + b"\x85R"),
    "an item of cookies": ("DJANGO", COOKIE + text("a") + b"K\1s"),
    "an item of a cookie": ("DJANGO", MORSEL + text("a") + ROPE + b"s"),
    "a cookie": ("DJANGO", MORSEL + state(key=ROPE)),
    "a response that is called": ("DJANGO", RESPONSE + b")R"),
    "a response of a length": ("DJANGO", RESPONSE + b"K\1\x85\x81"),
    "a class of a response": ("DJANGO", RESPONSE + b")\x81" + state(__class__=b"K\1")),
    "an error of a rope": ("DJANGO", INVALID + ROPE + b"\x85R"),
    "errors in errors": ("DJANGO", INVALID + b"}NN\x87R" + state(error_dict=b"}" + text("a") + b"]"
                         + INVALID + b"}NN\x87Ras")),
    "a query of numbers": ("DJANGO", name("django.http.request", "QueryDict") + b")\x81"
                           + state(_data=b"}" + text("a") + b"K\1s")),
    "a row of a number": ("DJANGO", name("django.utils.datastructures", "ImmutableList")
                          + b"K\1\x85\x81"),
    "a failure of a rope": ("CELERY", name("celery.exceptions", "Retry") + ROPE + b"\x85R"),
    "a signature of a rope": ("CELERY", name("celery.canvas", "signature") + b"}" + text("args")
                              + ROPE + b"s\x85R"),
    "an estimator that is called": ("SCIKIT_LEARN", FITTED + b")R"),
    "an estimator of a number": ("SCIKIT_LEARN", FITTED + b")\x81K\1b"),
    "a tree of no tree": ("SCIKIT_LEARN", FITTED + b")\x81" + state(X_thresholds_=b"N")),
}
"""What guards refuse, with their lists."""
PACKAGES = {"DJANGO": "django", "CELERY": "celery", "SCIKIT_LEARN": "sklearn"}


def fate(data, allow):
    return Look(allow).of(data).fate


def is_here(module):
    try:
        __import__(module)
    except ImportError:
        return False
    return True


class Hostile(unittest.TestCase):
    def test_what_a_guard_refuses_is_not_accepted(self):
        for what, (word, body) in PICKLES.items():
            data, allow = b"\x80\x04" + body + b".", getattr(lists, word)
            with self.subTest(what=what):
                if is_here(PACKAGES.get(word, "io")) and (what != "errors in errors" or has_hash()):
                    self.assertRaises(Misused, Guard(allow).loads, data)
                if not (word == "SCIKIT_LEARN" and not is_here("numpy")):
                    self.assertIsNot(fate(data, allow), Fate.LOADED)


class Honest(unittest.TestCase):
    def check(self, value, allow, wanted=Fate.LOADED):
        for protocol in (2, 4):
            data = pickle.dumps(value, protocol)
            Guard(allow).loads(data)
            self.assertIs(fate(data, allow), wanted, value)

    def test_exceptions(self):
        noted, missing = ValueError("a"), OSError(2, "why", "file")
        noted.code = 5
        for value in (noted, missing, ImportError("a", name="b"), KeyError(1), ValueError(noted)):
            self.check(value, lists.EXCEPTIONS)

    @needs("module:django")
    def test_django(self):
        from django.conf import settings
        from django.core.exceptions import ValidationError
        from django.http import HttpResponse, HttpResponseRedirect, QueryDict
        from django.utils.safestring import SafeString

        if not settings.configured:
            settings.configure()
        answered = HttpResponse("a")
        answered.set_cookie("a", "b")
        for value in (answered, HttpResponseRedirect("/a"), QueryDict("a=b")):
            self.check(value, lists.DJANGO)
        if SafeString.__name__ == "SafeString":  # (Django 2 has another name for it)
            self.check(SafeString("a"), lists.DJANGO)
        self.check(ValidationError("a"), lists.DJANGO, Fate.UNDECIDED)

    @needs("module:celery")
    def test_celery(self):
        import celery

        app = celery.Celery("shop")
        self.addCleanup(app.close)
        one = app.signature("shop.order", (1, "a"))
        for value in (one, celery.exceptions.Ignore("a")):
            self.check(value, lists.CELERY)

    @needs("module:sklearn")
    def test_estimators(self):
        from sklearn.ensemble import RandomForestClassifier
        from sklearn.linear_model import LinearRegression, LogisticRegression
        from sklearn.pipeline import make_pipeline
        from sklearn.preprocessing import StandardScaler

        rows = [[0.0], [1.0], [2.0]]
        for kind in (LinearRegression, LogisticRegression):
            made = make_pipeline(StandardScaler(), kind()).fit(rows, [0, 1, 1])
            self.check(made, lists.SCIKIT_LEARN)
        trees = RandomForestClassifier(2).fit(rows, [0, 1, 1])
        self.check(trees, lists.SCIKIT_LEARN, Fate.UNDECIDED)

    @needs("module:numpy")
    def test_nothing_is_imported(self):
        rows = {what: (word, body.hex()) for what, (word, body) in PICKLES.items()}
        told = python(
            f"import sys\nsys.path[:0] = {sys.path!r}\nimport test_foreseen_states as it\n"
            "from storklocker import lists\n"
            f"for word, body in {rows!r}.values():\n"
            "    it.fate(b'\\x80\\x04' + bytes.fromhex(body) + b'.', getattr(lists, word))\n"
            "print({'django', 'celery', 'kombu', 'sklearn', 'scipy', 'pandas'} & {*sys.modules})"
        )
        self.assertEqual(told.strip(), "set()")


class Lists(unittest.TestCase):
    def test_a_list_that_takes_any_state(self):
        allow = AllowList([("uuid", "UUID")])
        self.assertIs(fate(b"\x80\x04" + UUID + state(int=ROPE) + b".", allow), Fate.REFUSED)


if __name__ == "__main__":
    unittest.main()
