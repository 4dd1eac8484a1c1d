"""Values that SQL makes, and values that are packed: programs load them as SQLite gives them."""

import base64
import gzip
import io
import pathlib
import pickle
import sqlite3
import tempfile
import time
import unittest
import zlib

from storklocker import AllowList
from storklocker.scanning.judging import Question, reports_of

RUNS = b"cos\nsystem\n(S'echo a hostile pickle ran'\ntR."
HEX = RUNS.hex()
WORDS = RUNS.decode().replace("\n", "Z").replace("'", "Q")
SECONDS = 20

MADE = {
    "a view": (f"create view Dict as select 'k' as key, x'{HEX}' as value",),
    "a view in parts": (
        "create table parts (a, b)",
        f"insert into parts values (cast(x'{HEX[:18]}' as text), cast(x'{HEX[18:]}' as text))",
        "create view Dict as select 'k' as key, cast(a || b as blob) as value from parts",
    ),
    "a view that replaces": (
        "create table parts (a)",
        f"insert into parts values ('{WORDS.replace('s', '_')}')",
        "create view Dict as select 'k' as key, cast(replace(replace(replace("
        "a, '_', 's'), 'Z', char(10)), 'Q', char(39)) as blob) as value from parts",
    ),
    "a default": (
        "create table Dict (key)",
        "insert into Dict values ('k')",
        f"alter table Dict add column value blob default x'{HEX}'",
    ),
    "a generated column": (
        "create table Dict (key, value generated always as "
        f"(cast(x'{HEX[:18]}' || x'{HEX[18:]}' as blob)) virtual)",
        "insert into Dict (key) values ('k')",
    ),
    "a view with a comment": (
        "create table parts (a)",
        f"insert into parts values (x'{RUNS[::-1].hex()}')",
        "create/**/view Dict as with recursive t(n, v) as (select 1, '' union all select n + 1,"
        f" substr(a, n, 1) || v from t, parts where n <= {len(RUNS)})"
        " select 'k' as key, cast(v as blob) as value from t order by n desc limit 1",
    ),
    "a plain column": (
        "create table Dict (key, value)",
        f"insert into Dict values ('k', x'{HEX}')",
    ),
}
"""The statements that make each database."""

HONEST = {
    "views and defaults": (
        "create table t (id integer primary key, at text default current_timestamp, n default 3)",
        "insert into t (id) values (1)",
        "create view v as select count(*), max(at), upper('text'), date(at) from t",
        "create view w as select unknown_function(id) from t",
        "create view x as select * from missing",
        "create table g (a integer, b integer generated always as (a * 2) virtual)",
        "insert into g (a) values (4)",
    ),
}
HOSTILE = {
    "without end": "with recursive t(n) as (select 1 union all select n + 1 from t)"
    " select n from t",
    "long": "with recursive t(v) as (select 'aaaaaaaa' union all select v || v from t)"
    " select v from t",
    "sorted": "with recursive t(n) as (select 1 union all select n + 1 from t)"
    " select n, hex(zeroblob(1000)) from t order by 2",
    "random": f"select case when abs(random()) % 1000000 = 3 then x'{HEX}' end as value",
    "very long": "select hex(zeroblob(400000000))",
}
FILES = {
    "an extension": "select load_extension('/nowhere/evil.so')",
    "a setting": "select * from pragma_table_info('t')",
}


def database(*statements):
    """The bytes of a database, or None if this SQLite can't make it."""
    with tempfile.TemporaryDirectory() as folder:
        path = pathlib.Path(folder, "made")
        connection = sqlite3.connect(str(path))
        try:
            for it in statements:
                connection.execute(it)
            connection.commit()
        except sqlite3.OperationalError:
            return None
        finally:
            connection.close()
        return path.read_bytes()


class Noting(pickle.Unpickler):
    """A reader that notes what it would import."""

    asked = ()

    def find_class(self, module, name):
        self.asked += ((module, name),)
        raise ImportError


def asked_of(data):
    """What a program asks for that loads the value."""
    with tempfile.TemporaryDirectory() as folder:
        path = pathlib.Path(folder, "made")
        path.write_bytes(data)
        connection = sqlite3.connect(str(path))
        (value,) = connection.execute("select value from Dict").fetchone()
        connection.close()
    value = value.encode() if isinstance(value, str) else value
    reader = Noting(io.BytesIO(value))
    try:
        reader.load()
    except ImportError:
        pass
    return reader.asked


def findings(data, allow=None):
    found = reports_of("file", io.BytesIO(data), Question(allow))
    return [it for report in found for it in report.findings]


class Made(unittest.TestCase):
    def test_values_that_sql_makes(self):
        for name, statements in MADE.items():
            with self.subTest(name):
                data = database(*statements)
                if data is None:
                    self.skipTest("this SQLite has no such statement")
                self.assertEqual(len(asked_of(data)), 1)
                self.assertIn("danger", {it.severity for it in findings(data)})
                self.assertIn("refused", {it.severity for it in findings(data, AllowList([]))})

    def test_honest_ones(self):
        for name, statements in HONEST.items():
            data = database(*statements)
            if data is not None:
                self.assertEqual([], findings(data, AllowList([])), name)

    def test_hostile_views_end(self):
        for name, view in HOSTILE.items():
            with self.subTest(name):
                data = database("create table t (a)", f"create view v as {view}")
                began = time.process_time()
                self.assertTrue(findings(data))
                self.assertLess(time.process_time() - began, SECONDS)

    def test_nothing_but_select(self):
        for name, view in FILES.items():
            with self.subTest(name):
                data = database("create table t (a)", f"create view v as {view}")
                if data is not None:
                    self.assertNotIn("danger", {it.severity for it in findings(data)})

    def test_packed_values(self):
        packed = {
            "Base64, as Django's": base64.b64encode(RUNS).decode(),
            "Base64 in lines": base64.encodebytes(RUNS * 3),
            "zlib, as sqlitedict's": zlib.compress(RUNS),
            "gzip": gzip.compress(RUNS),
            "Base64 of zlib": base64.b64encode(zlib.compress(RUNS)),
            "Base64 for addresses": base64.urlsafe_b64encode(b"S'\\xfb\xff'\n0" + RUNS),
        }
        for name, value in packed.items():
            with self.subTest(name):
                data = self.stored(value)
                self.assertIn("danger", {it.severity for it in findings(data)})
        honest = [base64.b64encode(pickle.dumps({"a": 1})), zlib.compress(b"text" * 99), "a" * 40]
        for value in honest:
            self.assertEqual([], findings(self.stored(value), AllowList([])))

    def stored(self, value):
        with tempfile.TemporaryDirectory() as folder:
            path = pathlib.Path(folder, "made")
            connection = sqlite3.connect(str(path))
            connection.execute("create table cache (key, value)")
            connection.execute("insert into cache values ('k', ?)", (value,))
            connection.commit()
            connection.close()
            return path.read_bytes()


if __name__ == "__main__":
    unittest.main()
