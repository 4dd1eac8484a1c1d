"""Limits on what loading costs that lists have, and list files."""

import copy
import io
import pickle
import unittest

import storklocker
from storklocker import AllowList, Guard, Limits, Reason, Refused
from test_costs import ATTACK, FREE, LIMITED, LISTED, MILD, NOTHING

FREE_OF = ("levels", "weight", "work")


class Lists(unittest.TestCase):
    def test_who_wants_no_limit_says_so_once(self):
        some, free = Limits(stack=1000), Limits(stack=1000, **dict.fromkeys(FREE_OF))
        for listed, given, is_free in (
            (None, None, False), (None, some, False), (some, None, False), (some, some, False),
            (None, free, True), (free, None, True), (some, free, True), (free, some, True),
            (free, free, True), (free, Limits(weight=999_999), False),
            (Limits(weight=999_999), free, False),
        ):
            with self.subTest(listed=listed, given=given):
                allow = AllowList([], limits=listed)
                self.assertEqual(allow.limits, listed)
                guard = Guard(allow, limits=given)
                for it in (guard, pickle.loads(pickle.dumps(guard)), copy.deepcopy(guard)):
                    self.assertEqual(it.check(ATTACK).accepted, is_free)
                self.assertEqual(
                    storklocker.check(ATTACK, allow, limits=given).accepted, is_free
                )
                if is_free:
                    self.assertEqual(len(guard.loads(MILD)), 1)
                    self.assertEqual(len(guard.Unpickler(io.BytesIO(MILD)).load()), 1)
        with self.assertRaises(TypeError):
            AllowList([], limits={"levels": None})

    def test_it_can_ask_for_more(self):
        for listed, given in (({}, {"levels": 1_010}), ({"levels": 1_010}, {})):
            allow = AllowList([], limits=Limits(**listed))
            for levels, is_accepted in ((1_009, True), (1_011, False)):
                data = b"})" + b"\x85" * (levels - 1) + b"Ns."
                verdict = storklocker.check(data, allow, limits=Limits(**given))
                self.assertEqual(verdict.accepted, is_accepted)

    def test_what_no_key_exceeds_is_no_limit(self):
        deep = b"})" + b"\x85" * 1_022 + b"Ns."
        listed = "version = 2\n[imports]\n[limits]\n"
        for name, most, data in (("levels", 1_022, deep), ("weight", 1_048_574, ATTACK)):
            kept = Limits(**{**dict.fromkeys(FREE_OF), name: most})
            said = AllowList.from_text(f"{listed}{name} = {most}\n")
            self.assertEqual(getattr(said.limits, name), most)
            self.assertFalse(storklocker.check(data, AllowList([]), limits=kept))
            self.assertTrue(storklocker.check(data, AllowList([]), limits=FREE))
            for number in (most + 1, (1 << 32) - 2, 1 << 32):
                with self.assertRaisesRegex(ValueError, f"{name} must be below {most + 1:,}, or"):
                    Limits(**{name: number})
                with self.assertRaises(storklocker.ListFault) as raised:
                    AllowList.from_text(f"{listed}{name} = {number}\n")
                self.assertEqual(raised.exception.fault, "Shape(Limit)")
            self.assertIsNone(getattr(Limits(**{name: (1 << 32) - 1}), name))
            free = AllowList.from_text(f"{listed}{name} = {(1 << 32) - 1}\n")
            self.assertIsNone(getattr(free.limits, name))

    def test_a_list_file_leaves_it_to_the_guard(self):
        listed = AllowList.from_text(LISTED)
        for allow in (listed, listed | NOTHING, NOTHING | listed, listed | listed):
            self.assertEqual(allow.limits, Limits(stack=1000))
            for it in (allow, pickle.loads(pickle.dumps(allow)), copy.deepcopy(allow)):
                self.assertEqual(it, allow)
                self.assertFalse(storklocker.check(ATTACK, it))
                self.assertFalse(storklocker.check(ATTACK, it, limits=it.limits))
                self.assertTrue(storklocker.check(ATTACK, it, limits=FREE))
                marks = b"(" * 1000 + b"N."
                verdict = storklocker.check(marks, it, limits=FREE)
                self.assertIs(verdict.reason, Reason.TooLarge)

    def test_it_is_written_as_it_was_read(self):
        listed = AllowList.from_text(LISTED)
        self.assertNotIn("levels", listed.to_text())
        self.assertEqual(AllowList.from_text(listed.to_text()), listed)
        made = AllowList([("a", "b")], limits=Limits(stack=9))
        self.assertEqual(AllowList.from_text(made.to_text()), made)
        free = AllowList([], limits=FREE)
        self.assertEqual(AllowList.from_text(free.to_text()), free)

    def test_a_list_file_limits_them(self):
        for name, number, data, reason, at in LIMITED:
            allow = AllowList.from_text(f"version = 2\n[imports]\n[limits]\n{name} = {number}\n")
            self.assertEqual(allow.limits, Limits(**{name: number}))
            for it in (allow, pickle.loads(pickle.dumps(allow)), allow | NOTHING):
                verdict = storklocker.check(data, it)
                self.assertEqual((verdict.reason, verdict.at), (reason, at), name)
                with self.assertRaises(Refused):
                    Guard(it).loads(data)

    def test_of_the_limits_of_a_file_and_a_guard_the_smaller_applies(self):
        data = b"})\x85\x85Ns."
        listed = "version = 2\n[imports]\n[limits]\nlevels = {}\n"
        for levels, given, is_accepted in (
            (3, Limits(), True),
            (2, Limits(), False),
            (3, Limits(levels=2), False),
            (2, Limits(levels=3), False),
            (2, FREE, False),
            (1_022, Limits(levels=2), False),
            (4_294_967_295, Limits(levels=2), False),
        ):
            allow = AllowList.from_text(listed.format(levels))
            self.assertEqual(storklocker.check(data, allow, limits=given).accepted, is_accepted)
            guard = Guard(allow, limits=given)
            self.assertEqual(guard.check(data).accepted, is_accepted)
        rows = ("levels = 4_294_967_295", "weight = 4_294_967_295", f"work = {(1 << 63) - 1}")
        free = AllowList.from_text("version = 2\n[imports]\n[limits]\n" + "\n".join(rows))
        self.assertEqual(free.limits, FREE)
        self.assertTrue(storklocker.check(ATTACK, free))


if __name__ == "__main__":
    unittest.main()
