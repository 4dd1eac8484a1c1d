"""Objects that Django's caches and sessions hold, for the list `DJANGO`."""

import datetime
import io

import django
from django.conf import settings
from storklocker.judge.derived import is_derived

VERSIONS = f"Django {django.__version__}"


def _set_up():
    """A project with the applications that most projects have, and a database in memory."""
    if not settings.configured:
        names = "admin auth contenttypes messages sessions sites".split()
        settings.configure(
            INSTALLED_APPS=[f"django.contrib.{name}" for name in names],
            DATABASES={"default": {"ENGINE": "django.db.backends.sqlite3", "NAME": ":memory:"}},
            TEMPLATES=[{"BACKEND": "django.template.backends.django.DjangoTemplates"}],
            DEFAULT_AUTO_FIELD="django.db.models.AutoField",
            USE_TZ=True,
            SECRET_KEY="lists",
        )
        django.setup()
        from django.core.management import call_command

        call_command("migrate", verbosity=0, stdout=io.StringIO())


def _models():
    from django.contrib.admin.models import LogEntry
    from django.contrib.auth.models import AnonymousUser, Group, Permission, User
    from django.contrib.contenttypes.models import ContentType
    from django.contrib.sessions.models import Session
    from django.contrib.sites.models import Site
    from django.utils import timezone

    user, _ = User.objects.get_or_create(username="name", defaults={"password": "-"})
    yield from (user, User.objects.get(pk=user.pk), User.objects.only("email").get(pk=user.pk))
    yield from (Group(name="name"), Permission.objects.select_related().first(), AnonymousUser())
    yield from (ContentType.objects.first(), Site(domain="a.example", name="a"))
    yield Session(session_key="key", session_data="data", expire_date=timezone.now())
    yield LogEntry(user=user, action_flag=1, action_time=timezone.now())
    yield list(User.objects.values("username", "date_joined"))


def _responses():
    from django import http
    from django.template import engines
    from django.template.response import SimpleTemplateResponse

    response = http.HttpResponse(b"text")
    response["ETag"] = "1"
    response.set_cookie("name", "value", max_age=5)
    response.set_cookie("other", "value", expires=datetime.datetime(2026, 1, 2))
    yield from (response, http.JsonResponse({"a": 1}), http.HttpResponseRedirect("/a"))
    for name in ("NotFound", "BadRequest", "Forbidden", "Gone", "ServerError"):
        yield getattr(http, f"HttpResponse{name}")("why")
    yield from (http.HttpResponsePermanentRedirect("/a"), http.HttpResponseNotModified())
    yield http.HttpResponseNotAllowed(["GET"])
    yield SimpleTemplateResponse(engines["django"].from_string("text")).render()


def _values():
    from django.contrib.messages.storage.base import Message
    from django.core import checks, exceptions
    from django.core.mail import EmailMessage, EmailMultiAlternatives
    from django.core.paginator import Paginator
    from django.http import QueryDict
    from django.http.request import HttpHeaders
    from django.utils import datastructures
    from django.utils.datastructures import ImmutableList, MultiValueDict
    from django.utils.functional import SimpleLazyObject
    from django.utils.safestring import mark_safe

    yield from (mark_safe("<b>"), QueryDict("a=1&a=2"))
    yield from (MultiValueDict({"a": [1]}), Message(10, "a"))
    yield ImmutableList([1])
    yield datastructures.CaseInsensitiveMapping({"a": "b"})
    yield datastructures.OrderedSet(["a"])
    yield from (HttpHeaders({"HTTP_A": "b"}), Paginator([1, 2, 3], 2).page(1))
    yield from (checks.Error("why", id="a.E1"), SimpleLazyObject(lambda: "a"))
    mail = EmailMultiAlternatives("a", "b", "c@d.example", ["e@f.example"], headers={"X-A": "b"})
    mail.attach_alternative("<b>", "text/html")
    mail.attach("a.txt", "text", "text/plain")
    yield from (EmailMessage("a", "b", "c@d.example", ["e@f.example"]), mail)
    yield exceptions.ValidationError("why")


def _errors():
    """Exceptions without code of their own."""
    from django import http
    from django.core import exceptions, paginator, signing
    from django.db import utils

    yield http.Http404("why")
    for module in (exceptions, paginator, signing, utils):
        for kind in vars(module).values():
            is_one = isinstance(kind, type) and issubclass(kind, Exception)
            if is_one and kind.__module__ == module.__name__ and is_derived(kind):
                yield kind("why")


def objects():
    """Responses, model instances, and the values in sessions."""
    _set_up()
    yield from _models()
    yield from _responses()
    yield from _values()
    yield from _errors()
