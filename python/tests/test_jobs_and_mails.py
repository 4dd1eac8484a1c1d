"""What Celery and Django keep of jobs, mails and pages loads under their lists, and what attacks it
under `pickle` is refused, by a guard and in a scan.
"""

import datetime
import gc
import importlib
import pickle
import unittest

import common
from storklocker import AllowList, Guard, Misused, Refused
from storklocker.scanning.foreseeing import Fate, Look

ASKED = []
"""What was called."""


def asked(*given):
    """A function of the program, which a stranger's pickle may name."""
    ASKED.append(given)
    return datetime.datetime(2026, 1, 2, tzinfo=datetime.timezone.utc)


class Asked:
    """An object of the program, whose methods do something."""

    send_messages = remove_pending_result = count = asked


class Made:
    """An object that is pickled as a call, and a state if it has one."""

    def __init__(self, called, given, *state):
        self.row = (called, given, *state)

    def __reduce__(self):
        return self.row


def new(kind, state):
    """A pickle of an object that is made with nothing, and then has this state."""
    named = f"c{kind.__module__}\n{kind.__name__}\n".encode()
    return b"\x80\x04" + named + b")\x81" + pickle.dumps(state, 3)[2:-1] + b"b."


def data_of(it):
    return it if type(it) is bytes else pickle.dumps(it, 4)


def _list(word):
    """A list of a library, with names of the program."""
    own = {__name__: ["Asked", "asked"]}
    return AllowList.shipped(word) | AllowList(own)


class Kept(unittest.TestCase):
    def setUp(self):
        del ASKED[:]

    def honest(self, word, *values):
        for value in values:
            for protocol in range(6):
                data = pickle.dumps(value, protocol)
                with self.subTest(value=repr(value)[:60], protocol=protocol):
                    made = Guard(AllowList.shipped(word)).loads(data)
                    self.assertEqual(pickle.dumps(made, 4), pickle.dumps(pickle.loads(data), 4))

    def hostile(self, word, **pickles):
        """What a guard refuses because of what is given, with the names of the program listed."""
        for what, it in pickles.items():
            data, allow = data_of(it), _list(word)
            with self.subTest(what=what):
                with self.assertRaises((Misused, Refused)) as raised:
                    Guard(allow).loads(data)
                self.assertNotIn("OffList", str(raised.exception))
                self.assertIsNot(Look(allow).of(data).fate, Fate.LOADED)
        self.assertEqual(ASKED, [])


def _held(**attributes):
    return attributes


@common.needs("module:celery")
class OfCelery(Kept):
    def setUp(self):
        super().setUp()
        self.schedules = importlib.import_module("celery.schedules")
        self.entry = importlib.import_module("celery.beat").ScheduleEntry
        self.at = datetime.datetime(2026, 1, 2, tzinfo=datetime.timezone.utc)
        self.result = importlib.import_module("celery.result").EagerResult
        self.worker = importlib.import_module("celery.events.state").Worker
        self.limited = importlib.import_module("celery.utils.collections").LimitedSet

    def test_what_is_kept(self):
        plan = self.schedules.crontab(minute="*/5", hour={1, 2}, day_of_week="mon")
        every = self.schedules.schedule(datetime.timedelta(seconds=30))
        self.honest("celery", plan, every, self.result("id", [1], "SUCCESS"),
                    self.entry("a", "a.add", self.at, 2, plan, (1,), {"b": 2}, {}),
                    self.worker("host", 5, 60, [1.5], 3), self.limited(3, 0, {"a": 1e300}))

    def test_a_clock_is_called(self):
        """The control: under `pickle` a schedule asks what it is given what time it is."""
        crontab, schedule = self.schedules.crontab, self.schedules.schedule
        fives = ("*",) * 5
        clocks = {"called": Made(schedule, (30, False, asked)),
                  "set": Made(schedule, (30, False, None), _held(nowfun=asked)),
                  "of_a_crontab": Made(crontab, fives, _held(nowfun=asked))}
        for it in clocks.values():
            pickle.loads(data_of(it)).now()
        self.assertEqual(len(ASKED), 3)
        del ASKED[:]
        self.hostile("celery", **clocks, new=new(crontab, _held(nowfun=asked)))

    def test_a_backend_is_called(self):
        """The control: a result tells its backend when it is freed."""
        given = ("id", 1, "SUCCESS", None)
        rows = {"set": Made(self.result, given, _held(backend=Asked())),
                "new": new(self.result, _held(backend=Asked()))}
        for it in rows.values():
            pickle.loads(data_of(it))
        gc.collect()  # (a result is in a circle)
        self.assertEqual(len(ASKED), 2)
        del ASKED[:]
        self.hostile("celery", **rows)

    def test_what_no_pickler_gives(self):
        schedule, crontab = self.schedules.schedule, self.schedules.crontab
        rope = ()
        for _ in range(30):
            rope = (rope, rope)
        plan = schedule(30)
        self.hostile(
            "celery",
            digits=Made(crontab, ("9" * 100_000, *"****")),
            places=Made(crontab, ([[1]], *"****")),
            soon=Made(schedule, (-1, False, None)),
            text=Made(schedule, ("30", False, None)),
            no_schedule=Made(self.entry, ("a", "b", self.at, 1, Asked(), (), {}, {})),
            number=Made(self.entry, ("a", "b", self.at, 1, 30, (), {}, {})),
            no_time=Made(self.entry, ("a", "b", None, 1, plan, (), {}, {})),
            rope=Made(self.entry, ("a", "b", self.at, 1, plan, rope, {}, {})),
            a_rope=Made(self.result, ("id", rope, "SUCCESS", None)),
            key=Made(self.result, (rope, 1, "SUCCESS", None)),
            beats=Made(self.worker, ("a", 1, 60, Asked(), *[None] * 7)),
            event=Made(self.worker, ("a", 1, 60, [], *[None] * 7), (None, _held(event=asked))),
            keys=Made(self.limited, (3, 0, {(1,): 1.0}, 0)),
            times=Made(self.limited, (3, 0, {"a": (1.0,)}, 0)),
            limits=Made(self.limited, (Asked(), 0, {}, 0)),
            endless=Made(self.limited, (-1, 0, {"a": 1.0}, 0)))


@common.needs("module:django")
class OfDjango(Kept):
    def setUp(self):
        super().setUp()
        import django
        from django.conf import settings

        if not settings.configured:
            settings.configure(INSTALLED_APPS=["django.contrib.auth",
                                               "django.contrib.contenttypes"])
            django.setup()
        self.mail = importlib.import_module("django.core.mail").EmailMultiAlternatives
        self.pages = importlib.import_module("django.core.paginator")
        self.lazy = importlib.import_module("django.utils.functional")

    def state(self, it, **changed):
        return new(type(it), {**vars(it), **changed})

    def test_what_is_kept(self):
        from django.core import checks
        from django.http.request import HttpHeaders
        from django.utils import datastructures

        mail = self.mail("a", "b", "c@d.example", ["e@f.example"], headers={"X-A": "b"})
        mail.attach_alternative("<b>", "text/html")
        mail.attach("a.txt", "text", "text/plain")
        page = self.pages.Paginator([1, 2, 3], 2).page(1)
        found = Guard(AllowList.shipped("django")).loads(pickle.dumps(mail))
        self.assertEqual(vars(found), vars(mail))
        self.honest("django", mail, page.paginator, page, checks.Error("why", id="a.E1"),
                    HttpHeaders({"HTTP_A": "b"}), datastructures.OrderedSet(["a"]),
                    datastructures.CaseInsensitiveMapping({"A": "b"}))

    def test_a_lazy_object(self):
        from django.contrib.auth.models import AnonymousUser, User
        from django.http import HttpResponse

        for made in ("text", User(username="a"), AnonymousUser()):
            self.honest("django", self.lazy.SimpleLazyObject(lambda made=made: made))
        unwrap, user = self.lazy.unpickle_lazyobject, User(username="a")
        stated = Made(unwrap, (user,), user.__dict__)
        self.assertIsInstance(pickle.loads(pickle.dumps(stated)), User)  # (the control)
        self.hostile("django", function=Made(unwrap, (asked,)), of_own=Made(unwrap, (Asked(),)),
                     state=stated, kind=Made(unwrap, (HttpResponse,)), two=Made(unwrap, (1, 2)))

    def test_what_is_called(self):
        """The control: under `pickle` a mail and pages call attributes of what they hold."""
        mail, pages = self.mail("a", "b", "c@d.example", ["e@f.example"]), self.pages
        sent = self.state(mail, connection=Asked())
        many = self.state(pages.Paginator([1], 2), object_list=Asked())
        pickle.loads(sent).send()
        with self.assertRaises(TypeError):
            pickle.loads(many).num_pages
        self.assertEqual(len(ASKED), 2)
        del ASKED[:]
        own = pages.Page([1], 1, None)
        self.hostile(
            "django", sent=sent, many=many,
            pages=self.state(pages.Paginator([1], 2), num_pages=10**100),
            of_none=self.state(own), of_own=self.state(own, paginator=Asked()),
            coding=self.state(mail, encoding="punycode"), parts=self.state(mail, attachments=asked),
            headers=self.state(mail, extra_headers={"a": Asked()}), more=self.state(mail, a=1))


@common.needs("module:sklearn")
class OfEstimators(Kept):
    def test_columns(self):
        from sklearn.compose import make_column_selector

        self.honest("sklearn", make_column_selector(dtype_include=object),
                    make_column_selector("^price_"))
        self.hostile("sklearn", slow=make_column_selector("(a+)+$"),
                     other=make_column_selector(Asked()))


if __name__ == "__main__":
    unittest.main()
