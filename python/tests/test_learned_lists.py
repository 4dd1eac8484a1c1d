"""A list is made from a log of what pickles asked for, or from trusted pickles."""

import collections
import contextlib
import datetime
import enum
import os
import pickle
import unittest

import storklocker
from storklocker import AllowList, Guard, Limits, _learning, _names
from test_learning import EARLY, NOTHING, UNLISTED, Learning, named


class Order:
    """A class of a program."""

    def __repr__(self):
        return "an order"


class Status(enum.Enum):
    """An enum, whose members are pickled as Python 3.11.0 to 3.11.3 do it."""

    NEW = "new"
    SENT = "sent"

    def __reduce_ex__(self, protocol):
        return (getattr, (type(self), self.name))


class Level(enum.Enum):
    """An enum, whose members are pickled by value, as other Pythons do it."""

    LOW = 1

    def __reduce_ex__(self, protocol):
        return (type(self), (self.value,))


GETATTR = b"cbuiltins\ngetattr\n"
OF_STATUS = f"c{__name__}\nStatus\n".encode()
OF_ORDER = f"c{__name__}\nOrder\n".encode()
HOSTILE = {
    "a private name": OF_ORDER + b"X\x08\0\0\0__init__\x86R.",
    "called": OF_ORDER + b"X\x03\0\0\0mro\x86R)R.",
    "asked for more": GETATTR + OF_ORDER + b"X\x03\0\0\0run\x86RX\x03\0\0\0mro\x86R.",
    "of what objects are made": OF_ORDER + b"X\x03\0\0\0run\x86R0" + OF_ORDER + b")\x81.",
    "a computed name": OF_ORDER + OF_STATUS + b"\x86R.",
    "of a module": b"cos\npath\nX\x02\0\0\0os\x86R.",
    "of what is known to do harm": b"cos\nsystem\nX\x03\0\0\0run\x86R.",
    "of an object": OF_ORDER + b")RX\x03\0\0\0run\x86R.",
}
"""What is asked of `getattr` that no enum needs."""



def gadgets(its):
    """What users trust, and a pickle that runs a command by the names that this needs."""
    import operator

    job = its.name(its.HERE, "Job")
    inner = its.call(its.attribute(its.attribute(its.attribute(job, "run"), "__globals__"),
                                   "get"), its.text("os"))
    module = its.call(its.getter("run.__globals__.get", job), its.text("os"))
    called = its.call(its.name("operator", "methodcaller"), its.text("system"), its.text("true"))
    bound = its.name("functools", "partial") + its.name(its.HERE, "runs") + b"\x85R"
    state = b"(" + its.name(its.HERE, "runs") + b")}" + its.text("command") + its.text("true")
    return (
        ([its.Job().run, its.Color.RED], its.attribute(inner, "system")),
        ([operator.attrgetter("name"), its.Job()], its.getter("system", module)),
        ([operator.methodcaller("run"), operator.attrgetter("name"), its.Job()],
         its.call(called, module)),
        ([its.functools.partial(its.runs), its.runs], bound + state + b"sNtb)R"),
    )


class Lists(Learning):
    def test_a_list_from_a_log(self):
        guard = NOTHING.learning(self.log, enforce=True)
        for data in (UNLISTED, UNLISTED, named("builtins", "eval"), named("shop.models", "Order")):
            with contextlib.suppress(storklocker.Refused), guard.context("key\x1b[2J"):
                guard.loads(data)
        _learning._write_all()
        status, out, _ = self.run_command("learn", "--from-log", self.log)
        self.assertEqual(status, 0)
        allow = AllowList.from_text(out)
        self.assertEqual([*allow], [("collections", "Counter"), ("shop.models", "Order")])
        Guard(allow)
        wanted = r'"Counter",  # requested 2 times, \d{4}-\d\d-\d\d for key\\x1b\[2J to'
        self.assertRegex(out, wanted)
        self.assertRegex(out, r'# "eval",  # requested once, .* Dangerous: ')
        status, out, _ = self.run_command("learn", "--from-log", self.log, "--from-log", self.log)
        self.assertIn("requested 4 times", out)
        self.assertEqual(self.run_command("learn")[0], 2)
        self.assertEqual(self.run_command("learn", "--from-log", self.folder / "none")[0], 2)

    def test_a_list_permits_what_it_was_learned_from(self):
        values = ({1}, KeyError("x"), range(3), bytearray(b"a"), frozenset({1}), [1],
                  collections.OrderedDict(a=1), Order())
        for value in values:
            for protocol in range(6):
                data = pickle.dumps(value, protocol)
                (self.folder / "it").write_bytes(data)
                log = self.folder / f"log-{protocol}-{len(data)}"
                NOTHING.learning(log).loads(data)
                for words in (["it"], ["--from-log", log.name]):
                    words = [self.folder / it if it[0] != "-" else it for it in words]
                    allow = AllowList.from_text(self.run_command("learn", *words)[1])
                    self.assertEqual([*allow], sorted(map(_names.renamed, allow)))
                    self.assertEqual(repr(Guard(allow).loads(data)), repr(value))
                    self.assertTrue(storklocker.check(data, allow))
                    allow.to_file(self.folder / "list.toml")
                    status, out, _ = self.run_command(
                        "check", "--allow", self.folder / "list.toml", self.folder / "it"
                    )
                    self.assertEqual((status, out[:3]), (0, "yes"))

    def test_no_list_permits_everything_by_learning(self):
        from storklocker._meant import EVERYTHING
        from storklocker.scanning.dangers import known

        names = {*EVERYTHING, ("os", "path.os.system"), ("m", "f.__globals__")}
        names |= {tuple(row.rpartition(".")[::2]) for row, it in known().rows.items()
                  if it.severity == "danger" and "*" not in row and "." in row}
        trusted = self.folder / "trusted.pickle"
        trusted.write_bytes(b"\x80\x04" + b"".join(named(*pair)[2:-2] for pair in sorted(names))
                            + named("shop", "Order")[2:])
        status, out, _ = self.run_command("learn", trusted)
        self.assertEqual((status, [*AllowList.from_text(out)]), (0, [("shop", "Order")]))
        self.assertGreater(len(names), 150)
        for module, name in names:
            self.assertIn(f'  # "{name}",  # ', out)
        self.assertIn("storklocker.classes.ByValue", out)

    def test_gadgets_under_the_lists_of_plausible_users(self):
        """Each needs a name that permits everything. A list that was learned lacks it; a guard
        refuses the list that has it without a word; and a substitute refuses the call.
        """
        import test_substitutes as its
        from storklocker._meant import EVERYTHING

        for trusted, gadget in gadgets(its):
            files = []
            for number, value in enumerate(trusted):
                files.append(self.folder / str(number))
                files[-1].write_bytes(pickle.dumps(value, 4))
            data = its.whole(gadget)
            learned = AllowList.from_text(self.run_command("learn", *files)[1])
            with self.assertRaises((storklocker.Refused, storklocker.Misused)):
                Guard(learned).loads(data)
            every = its.learned(*trusted)
            self.assertTrue(storklocker.check(data, every))
            with self.assertRaisesRegex(ValueError, "permits everything"):
                Guard(every)
            said = {pair: its.SAID[pair] for pair in every if pair in EVERYTHING}
            said = {**said, **({("functools", "partial"): its.substitutes.partial({its.runs: []})}
                               if ("functools", "partial") in every else {})}
            allow = AllowList(every, substitutes=said)
            with self.assertRaises(storklocker.Misused):
                Guard(AllowList.from_text(allow.to_text())).loads(data)
            with storklocker.installed(Guard(allow)), self.assertRaises(storklocker.Unlisted):
                EARLY(data)

    def test_a_job_with_enums_needs_no_edits(self):
        made = [
            pickle.dumps({"id": number, "status": status, "more": more}, protocol)
            for number, status in enumerate((*Status, Level.LOW))
            for more in (datetime.date(2026, 1, 2), {1}, collections.deque([Status.NEW]))
            for protocol in range(6)
        ]
        for number, data in enumerate(made):
            (self.folder / f"{number}.pickle").write_bytes(data)
        guard = NOTHING.learning(self.log)
        for data in made:
            guard.loads(data)
        _learning._write_all()
        for words in ([self.folder], ["--from-log", self.log]):
            status, out, _ = self.run_command("learn", *words)
            self.assertIn(f'"builtins.getattr" = "members of {__name__}.Status"', out)
            learned = Guard(AllowList.from_text(out))
            for data in made:
                self.assertEqual(learned.loads(data), pickle.loads(data))
            for word in ("__class__", "mro", "_member_map_"):
                asked = word.encode()
                data = b"\x80\x04" + GETATTR + OF_STATUS + b"\x8c" + bytes([len(asked)]) + asked
                pickle.loads(data + b"\x86R.")
                with self.assertRaises(storklocker.Misused):
                    learned.loads(data + b"\x86R.")

    def test_no_other_getattr_is_learned(self):
        for name, body in HOSTILE.items():
            data = b"\x80\x04" + GETATTR + body
            (self.folder / "it").write_bytes(data)
            status, out, _ = self.run_command("learn", self.folder / "it")
            with self.subTest(name):
                self.assertRegex(out, r'\n  # "getattr",  # .*Dangerous: It reaches any object')
                self.assertNotIn("[substitutes]", out)
                self.assertNotIn(("builtins", "getattr"), AllowList.from_text(out))
        honest = pickle.dumps(Status.NEW, 4)
        (self.folder / "it").write_bytes(honest + b"\x80\x04" + GETATTR + HOSTILE["called"])
        out = self.run_command("learn", self.folder / "it")[1]
        self.assertIn(f'= "members of {__name__}.Status"\n', out)
        self.assertIn(f"# This isn't permitted: builtins.getattr({__name__}.Order", out)

    def test_lint_names_the_base_class(self):
        path = self.folder / "list.toml"
        path.write_text('version = 1\n[imports]\nbuiltins = ["getattr"]\n')
        status, out, _ = self.run_command("lint", path)
        self.assertEqual((status, "storklocker.classes.ByValue" in out), (1, True))
        path.write_text(path.read_text() + '[substitutes]\n"builtins.getattr" = "a of b.C"\n')
        self.assertNotIn("ByValue", self.run_command("lint", path)[1])

    def test_unjudged_names_stand_below_a_comment(self):
        path = self.folder / "a.pickle"
        path.write_bytes(b"\x80\x02cshop\nOrder\nccollections\nUnheard\nccollections\ndeque\n\x87.")
        out = self.run_command("learn", path)[1]
        said = [line.strip().partition(",")[0] for line in out.splitlines()]
        unjudged = [line for line in said if line.startswith("# Nobody has judged")]
        self.assertEqual(len(unjudged), 2)
        wanted = ['"collections" = [', '"deque"', unjudged[0], '"Unheard"', "]",
                  '"shop" = [', unjudged[0], '"Order"', "]"]
        at = said.index(wanted[0])
        self.assertEqual(said[at : at + len(wanted)], wanted)
        self.assertEqual(len(AllowList.from_text(out)), 3)

    def test_diff(self):
        old, new = self.folder / "old.toml", self.folder / "new.toml"
        old.write_text('version = 2\n[imports]\na = ["b", "c"]\n[limits]\nstack = 5\n')
        new.write_text(
            'version = 2\n[imports]\na = ["c"]\nbuiltins = ["getattr", "eval"]\n"x.y" = ["C.d"]\n'
            '[substitutes]\n"builtins.getattr" = "members of x.y.C"\n'
            '"builtins.eval" = "dangerous"\n'
        )
        self.assertEqual(self.run_command("list", "diff", old, old), (0, "", ""))
        status, out, _ = self.run_command("list", "diff", old, new)
        self.assertEqual(status, 1)
        lines = out.splitlines()
        self.assertEqual(lines[0], "- a.b")
        self.assertTrue(lines[1].startswith("+ builtins.eval  Dangerous: "), lines)
        self.assertEqual(lines[3], "+ x.y:C.d")
        self.assertIn("- limit stack = 5", lines)
        self.assertIn("+ substitute builtins.eval = dangerous", lines)
        self.assertIn("+ substitute builtins.getattr = members of x.y.C", lines)
        self.assertEqual(self.run_command("list", "diff", old, self.folder / "none")[0], 2)

    def test_limits_on_costs_and_rules(self):
        old, new = self.folder / "old.toml", self.folder / "new.toml"
        front = 'version = 2\n[imports]\na = ["b"]\n[limits]\n'
        old.write_text(front + "levels = 5\nwork = 1000\n")
        new.write_text(front + 'work = 2000\nclash = 3\n[rules]\nbuild = "any"\n')
        status, out, _ = self.run_command("list", "diff", old, new)
        changes = ["+ limit clash = 3", "- limit levels = 5", "- limit work = 1000",
                   "+ limit work = 2000", "+ rule build = any"]
        self.assertEqual((status, out.splitlines()), (1, changes))
        self.assertEqual(self.run_command("list", "add", new, "a.c", "x.Y"), (0, "", ""))
        made = AllowList.from_file(new)
        wanted = AllowList([("a", "b"), ("a", "c"), ("x", "Y")], build="any",
                           limits=Limits(work=2000, clash=3))
        self.assertEqual(made, wanted)
        made.to_file(new)
        self.assertEqual(AllowList.from_file(new), wanted)
        new.write_text(front + "levels = -5\n")
        status, _, errors = self.run_command("lint", new)
        self.assertEqual(status, 2)
        self.assertIn("line 5", errors)
        said = "levels must be an integer from 0 to 1,022, or 4,294,967,295 for none"
        self.assertIn(said, errors)

    def test_a_shipped_list_is_no_file_to_add_to(self):
        status, _, errors = self.run_command("list", "add", "@uuid", "a.b")
        self.assertEqual(status, 2)
        self.assertIn("@uuid isn't a file", errors)
        self.assertFalse(os.path.exists("@uuid"))

    def test_add_keeps_all_else(self):
        path = self.folder / "list.toml"
        words = "collections.deque", "a.b:C.d"
        self.assertEqual(self.run_command("list", "add", path, *words)[0], 0)
        text = 'version = 1  # of ours\n\n[imports]\n# why\n'
        text += 'collections = [\n    "deque",  # jobs\n]\n'
        path.write_text(text + "datetime = ['date']\n[limits]\n".replace("[limits]\n", ""))
        path.chmod(0o640)
        words = ("list", "add", path, "collections.OrderedDict", "datetime.datetime", "x.Y", "x.Y")
        self.assertEqual(self.run_command(*words), (0, "", ""))
        made = path.read_text()
        for line in text.splitlines():
            self.assertIn(line, made)
        wanted = [("collections", "OrderedDict"), ("collections", "deque"), ("datetime", "date"),
                  ("datetime", "datetime"), ("x", "Y")]
        self.assertEqual([*AllowList.from_file(path)], wanted)
        self.assertEqual(path.stat().st_mode & 0o777, 0o640)
        self.run_command(*words)
        self.assertEqual(path.read_text(), made)

    def test_add_wants_a_word_for_danger(self):
        path = self.folder / "list.toml"
        status, _, errors = self.run_command("list", "add", path, "builtins.eval", "a.b")
        self.assertEqual((status, [*AllowList.from_file(path)]), (1, [("a", "b")]))
        self.assertIn("builtins.eval isn't added. Dangerous: ", errors)
        words = ("list", "add", "--dangerous", path, "builtins.eval", "os.remove")
        self.assertEqual(self.run_command(*words)[0], 0)
        self.assertEqual(len(Guard(AllowList.from_file(path)).allow), 3)
        self.run_command("list", "add", "--dangerous", path, "builtins.exec")
        self.assertEqual(len(Guard(AllowList.from_file(path)).allow), 4)

    def test_add_gives_up_on_an_odd_layout(self):
        path = self.folder / "list.toml"
        for text in ("version = 1\nimports = {a = ['b']}\n", "version = 1\nimports.a = ['b']\n",
                     'version = 1\n[imports]\n"\\u0061" = ["b"]\n'):
            path.write_text(text)
            status, _, errors = self.run_command("list", "add", path, "a.c")
            self.assertEqual((status, path.read_text()), (2, text), errors)
            self.assertIn("by hand", errors)
        self.assertEqual(self.run_command("list", "add", path, "nothing")[0], 2)


if __name__ == "__main__":
    unittest.main()
