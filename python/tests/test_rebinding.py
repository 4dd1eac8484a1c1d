"""Classes of other libraries whose methods see other objects under global names."""

import unittest

from storklocker.contrib._rebinding import TRIED, rebound

READER = "theirs"


class Base:
    def inherited(self):
        return READER


class Plain(Base):
    def method(self):
        return [READER for _ in range(1)]

    @property
    def value(self):
        return READER

    @staticmethod
    def static():
        return READER

    def other(self):
        return "other"


class Rebinding(unittest.TestCase):
    def test_every_method_sees_the_other_object(self):
        made = rebound(Plain, {"READER": "ours"})
        self.assertEqual(
            (made().inherited(), made().method(), made().value, made.static()),
            ("ours", ["ours"], "ours", "ours"),
        )
        self.assertIs(made.other, Plain.other)
        self.assertEqual((Plain().inherited(), Plain().value), ("theirs", "theirs"))

    def test_a_library_that_has_changed_is_told_so(self):
        with self.assertRaisesRegex(TypeError, "Plain doesn't use pickle$"):
            rebound(Plain, {"pickle": None})
        for library, version in TRIED.items():
            changed = type("Changed", (), {"__module__": f"{library}.job"})
            said = f"{library}.job.Changed doesn't use pickle: {library} {version} does"
            with self.subTest(library), self.assertRaises(TypeError) as caught:
                rebound(changed, {"pickle": None})
            self.assertEqual(str(caught.exception), said)


if __name__ == "__main__":
    unittest.main()
