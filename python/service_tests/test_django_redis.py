"""Django's own Redis cache, which Django has since 4.0, behind the guard."""

import tempfile

import common
from test_django import try_cache

NEEDS = ("django.core.cache.backends.redis", "redis", "$redis-server")


def run():
    """The test."""
    guard = common.guard()
    with tempfile.TemporaryDirectory() as folder, common.redis_server(folder) as port:
        cache = configured(f"redis://127.0.0.1:{port}/4", guard)
        try_cache(cache, writer(cache), guard)
        common.nothing_ran()


def configured(place, guard):
    """The cache, as a project configures it."""
    import django
    from django.conf import settings

    backend = "storklocker.contrib.django.BuiltinRedisCache"
    options = {"GUARD": guard, "FORGET": True}
    settings.configure(
        CACHES={"default": {"BACKEND": backend, "LOCATION": place, "OPTIONS": options}}
    )
    django.setup()
    from django.core.cache import cache

    return cache


def writer(cache):
    """A stranger's way to the bytes of an entry."""

    def write(key, data):
        cache._cache.get_client(write=True).set(cache.make_key(key), data)

    return write
