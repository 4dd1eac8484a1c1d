"""Refusals reach OpenTelemetry's API, for which modules stand in, and the log as JSON; and nothing
that fails there reaches the caller.
"""

import io
import json
import logging
import sys
import types
import unittest
from unittest import mock

import storklocker
from common import BY_PAIRS
from storklocker import telemetry
from storklocker.metrics import CountingGuard

HOSTILE = b"cposix\nsystem\n(S'exit 3'\ntR."
LINES = b"ca\\nb\nc\rd\n."


class Api:
    """What stands for the API: the events of the span, and the counts."""

    def __init__(self):
        self.events, self.counts = [], {}
        span = types.SimpleNamespace(add_event=lambda *both: self.events.append(both))
        meter = types.SimpleNamespace(create_counter=self.counter)
        names = ("opentelemetry", "opentelemetry.trace", "opentelemetry.metrics")
        self.modules = {name: types.ModuleType(name) for name in names}
        self.modules["opentelemetry.trace"].get_current_span = lambda: span
        self.modules["opentelemetry.metrics"].get_meter = lambda name: meter

    def counter(self, name, description):
        def add(number, words):
            key = (name, *words.items())
            self.counts[key] = self.counts.get(key, 0) + number

        return types.SimpleNamespace(add=add)


class OpenTelemetry(unittest.TestCase):
    def setUp(self):
        telemetry._counter.cache_clear()

    def test_refusals_and_what_is_accepted(self):
        api, guard = Api(), CountingGuard(BY_PAIRS)
        with mock.patch.dict(sys.modules, api.modules):
            guard.loads(b"N.")
            for data in (HOSTILE, b"N.N.", b"("):
                with self.assertRaises(storklocker.Refused):
                    storklocker.Guard(BY_PAIRS).loads(data)
        wanted = {("storklocker.refused", ("reason", it)): 1 for it in
                  ("ImportOffList", "MoreBytes", "Truncated")}
        self.assertEqual(api.counts, {("storklocker.accepted",): 1, **wanted})
        name, words = api.events[0]
        self.assertEqual(name, "storklocker.refused")
        self.assertEqual(words["storklocker.reason"], "ImportOffList")
        self.assertEqual(words["storklocker.size"], len(HOSTILE))
        self.assertIn('ImportOffList("posix","system")', words["storklocker.verdict"])

    def test_a_misuse_is_told_once(self):
        api = Api()
        guard = storklocker.Guard(storklocker.AllowList({"builtins": ["bytes"]}))
        with mock.patch.dict(sys.modules, api.modules):
            with self.assertRaises(storklocker.Misused):
                guard.loads(b"cbuiltins\nbytes\n(I9\ntR.")
        self.assertEqual(api.counts, {("storklocker.refused", ("reason", "Misused")): 1})

    def test_under_install(self):
        api = Api()
        with mock.patch.dict(sys.modules, api.modules):
            with storklocker.installed(storklocker.Guard(BY_PAIRS)):
                import pickle

                with self.assertRaises(storklocker.Refused):
                    pickle.loads(HOSTILE)
        self.assertEqual(sum(api.counts.values()), 1)

    def test_a_fault_of_it_changes_nothing(self):
        def fail(*_words):
            raise RuntimeError("no exporter")

        api = Api()
        api.modules["opentelemetry.trace"].get_current_span = fail
        api.modules["opentelemetry.metrics"].get_meter = fail
        with mock.patch.dict(sys.modules, api.modules):
            with self.assertRaises(storklocker.Refused):
                CountingGuard(BY_PAIRS).loads(HOSTILE)
            self.assertIsNone(CountingGuard(BY_PAIRS).loads(b"N."))


class Json(unittest.TestCase):
    def setUp(self):
        log = logging.getLogger("storklocker")
        handlers, propagate = log.handlers[:], log.propagate
        self.addCleanup(setattr, telemetry, "_asked", False)
        self.addCleanup(setattr, log, "propagate", propagate)
        self.addCleanup(log.handlers.__setitem__, slice(None), handlers)

    def lines(self, *pickles):
        out = io.StringIO()
        telemetry.log_json(out)
        telemetry.log_json(out)  # (and not each line twice)
        for data in pickles:
            with storklocker.context({"key": "cart"}), self.assertRaises(storklocker.Refused):
                storklocker.Guard(BY_PAIRS).loads(data)
        return [json.loads(line) for line in out.getvalue().splitlines()]

    def test_a_line_for_each_refusal(self):
        first, second = self.lines(HOSTILE, LINES)
        self.assertEqual(first["names"], ["posix.system"])
        self.assertEqual((first["level"], first["reason"], first["at"]), (
            "WARNING", "ImportOffList", 0))
        self.assertEqual(first["context"], {"key": "cart"})
        self.assertEqual(second["names"], ["a\\nb.c\rd"])
        self.assertRegex(first["time"], r"^\d{4}-\d\d-\d\dT\d\d:\d\d:\d\d\.\d{3}Z$")

    def test_what_else_is_logged(self):
        out = io.StringIO()
        telemetry.log_json(out)
        try:
            raise ValueError("text")
        except ValueError:
            logging.getLogger("storklocker").exception("It %s", "failed")
        line = json.loads(out.getvalue())
        self.assertEqual(line["message"], "It failed")
        self.assertIn("ValueError: text", line["exception"])


if __name__ == "__main__":
    sys.exit(unittest.main())
