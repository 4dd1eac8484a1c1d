"""A Celery worker and its client as they are, whose only change is `storklocker.install`: hostile
messages in the queue, hostile results.
"""

import os
import tempfile
from pathlib import Path

import common
import test_celery
import watching

import storklocker

NEEDS = ("celery", "redis", "$redis-server")
BODIES = ((test_celery.second_protocol, 2), (test_celery.first_protocol, 1))


def run():
    """The test."""
    if test_celery.is_refused():
        return
    with tempfile.TemporaryDirectory() as folder, common.redis_server(folder) as port:
        refused = Path(folder, "refused")
        refused.touch()
        os.environ.update(REDIS_PORT=str(port), REFUSED_LOG=str(refused))
        test_celery.control(Path(folder, "plain"))
        os.environ["INSTALLED"] = "1"
        import celery_app

        try_worker(celery_app, Path(folder, "worker"), refused)
        watching.watch(celery_app.LIST, [folder], test_celery.CLIENTS)
        try_results(celery_app.app)
        common.nothing_ran()


def try_worker(celery_app, log, refused):
    """Good tasks around hostile messages, which the worker refuses and passes over."""
    app, table = celery_app.app, test_celery.TABLE
    with common.process(*test_celery.WORDS, log=log, C_FORCE_ROOT="1") as worker:
        results = [celery_app.add.delay(number, 1) for number in range(100)]
        for body, protocol in BODIES:
            for data in table.values():
                test_celery.publish(app, body(data), protocol=protocol)
                test_celery.publish(app, data, protocol=protocol)
        for number in range(common.HOSTILE):
            test_celery.publish(app, common.hostile(number))
        test_celery.tell_everyone(app)
        failed = celery_app.fail.delay("why")
        results += [celery_app.finish.delay(common.good(number)) for number in range(100)]
        values = [result.get(timeout=common.PATIENCE) for result in results]
        assert values == [*range(1, 101), *map(common.good, range(100))]
        assert "KeyError" in test_celery.raised(failed)
        assert worker.poll() is None, log.read_text()
    assert len(refused.read_text().splitlines()) >= 4 * len(table), refused.read_text()[:500]
    results.clear()  # (a result asks Redis when it goes)


def try_results(app):
    """Results that a stranger wrote."""
    for data in [*test_celery.TABLE.values(), *map(common.hostile, range(3))]:
        try:
            test_celery.read_result(app, data)
        except Exception as error:
            assert "refused" not in type(error).__name__.lower() or isinstance(
                error, storklocker.Refused
            )
        else:
            raise AssertionError("a hostile result was read")
