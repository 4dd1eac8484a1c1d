"""A Flask application as it is, whose only change is `storklocker.install`: an upload that a view
unpickles, and what it keeps in a cache of files.
"""

import io
import logging
import pickle
import struct
import tempfile
from pathlib import Path

import common
import poison
import watching

import storklocker

NEEDS = ("flask", "cachelib")
TABLE = poison.shapes(common.MARKS)


def run():
    """The test."""
    logging.disable(logging.CRITICAL)  # (the libraries tell of each refusal)
    with tempfile.TemporaryDirectory() as folder:
        client = application(folder).test_client()
        for post in (uploaded, kept):
            with common.table() as table:
                table.runs_all(lambda data: post(client, folder, data))
        allow = storklocker.AllowList(common.LISTED)
        storklocker.install(storklocker.Guard(allow, fix_imports=True))
        honest = pickle.dumps(common.good(1))
        for post in (uploaded, kept):
            assert post(client, folder, honest).get_json()["rows"] == list(range(20))
        watching.watch(common.LISTED, [folder])
        for post in (uploaded, kept):
            for data in [*TABLE.values(), *(common.hostile(number) for number in range(3))]:
                assert post(client, folder, data).status_code == 500
            assert post(client, folder, honest).get_json()["rows"] == list(range(20))
        common.nothing_ran()


def application(folder):
    """The application, which knows nothing of guards."""
    import cachelib
    import flask

    app = flask.Flask("app")
    cache = cachelib.FileSystemCache(folder)

    @app.route("/upload", methods=["POST"])
    def upload():
        return flask.jsonify(pickle.load(flask.request.files["file"].stream))

    @app.route("/cached")
    def cached():
        value = cache.get("key")
        if value is None:
            flask.abort(500)  # (the cache takes what it can't read for a miss)
        return flask.jsonify(value)

    app.cache = cache
    return app


def uploaded(client, _, data):
    """A stranger's file in a form."""
    return client.post("/upload", data={"file": (io.BytesIO(data), "value.pickle")})


def kept(client, folder, data):
    """An entry of the cache that a stranger wrote."""
    cache = client.application.cache
    cache.set("key", 1)
    path = Path(cache._get_filename("key"))
    expiry = path.read_bytes()[: struct.calcsize("I")]
    path.write_bytes(expiry + data)
    return client.get("/cached")
