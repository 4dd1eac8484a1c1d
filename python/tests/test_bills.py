"""What the keys of worked pickles cost, and the limit that refuses each."""

import unittest

import storklocker
from storklocker import AllowList, Limits, Reason
from storklocker._limits import packed
from storklocker._storklocker import bill

ONE_NAME = AllowList([("m", "f")])
NOTHING = AllowList([])
FREE = Limits(levels=None, weight=None, work=None)
FEW = {"levels": 2, "weight": 4, "work": 6, "clash": 3, "memory": 1_000}
WITHIN = [
    (b"})Ns.", 5),
    (b"})\x85Ns.", 6),
    (b")\x85\x85\x85.", 5),
    (b"}K\x01)\x85\x85s.", 8),
    (b"\x8f(K\x0122\x90.", 8),
    (b"cm\nf\n)R}b.", 10),
    (b"}cm\nf\nNs.", 9),
    (b"}cm\nf\n)\x81Ns.", 11),
]
"""Pickles that keep within these limits, and their lengths."""
ABOVE = [
    (b"})\x85\x85Ns.", 5, Reason.DeepKey),
    (b"}()222tNs.", 8, Reason.HeavyKeys),
    (b"\x8f(\x8c\x01a22222\x8c\x01a\x90.", 13, Reason.HeavyKeys),
    (b"\x8f(K\x01222\x90.", 7, Reason.ManyKeys),
    (b"cm\nf\n}b.", 6, Reason.BuildsImport),
    (b"cm\nf\n\x940h\0}b.", 10, Reason.BuildsImport),
    (b"cm\nf\n2}b0.", 7, Reason.BuildsImport),
    (b"\x8c\x01m\x8c\x01f\x93}b.", 8, Reason.BuildsImport),
    (b"}cm\nf\n)\x85\x81Ns.", 10, Reason.DeepKey),
    (b"}C\xc8" + bytes(200) + b"\x98Ns.", 205, Reason.HeavyKeys),
    (b"])\x85\x85Ns.", 5, Reason.WrongClass),
    (b"})\x85\x85s.", 4, Reason.MissingItem),
    (b")\x85\x85", 3, Reason.Truncated),
]
"""Pickles that exceed one, or that are refused before they do; where, and why."""


def limits(**others):
    return Limits(**{**FEW, **others})


class Rows(unittest.TestCase):
    def check(self, data, *wanted, allow=ONE_NAME, **few):
        """Compares the answer under few limits: a length, or a place and a reason."""
        said = storklocker.check(data, allow, limits=limits(**few))
        found = (said.taken,) if said.accepted else (said.at, said.reason)
        self.assertEqual(found, wanted, data)

    def check_row(self, row, *wanted, kept, **few):
        said = storklocker.check_row(row, ONE_NAME, one_unpickler=kept, limits=limits(**few))
        found = (said.taken, said.pickles) if said.accepted else (said.at, said.reason)
        self.assertEqual(found, wanted, row)

    def test_keys(self):
        for data, *wanted in WITHIN + ABOVE:
            self.check(data, *wanted)
        for data, *_ in WITHIN + ABOVE[:-3]:
            self.assertTrue(storklocker.check(data, ONE_NAME, limits=FREE, build="any"), data)

    def test_the_first_of_a_refusal_and_an_excess(self):
        behind, before = b"})\x85\x85Ns0cm\nf\n.", b"cm\nf\n0})\x85\x85Ns."
        self.assertEqual(storklocker.check(behind, ONE_NAME, limits=FREE).taken, 13)
        refused = storklocker.check(behind, NOTHING, limits=FREE)
        self.assertEqual((refused.at, refused.reason), (7, Reason.ImportOffList))
        for allow in (ONE_NAME, NOTHING):
            self.check(behind, 5, Reason.DeepKey, allow=allow)
        self.check(before, 11, Reason.DeepKey)
        self.check(before, 0, Reason.ImportOffList, allow=NOTHING)

    def test_each_pickle_of_a_row_begins_anew(self):
        self.check_row(b"})\x94Ns.}h\0Ns.", 12, 2, kept=True, work=1)

    def test_the_memo_keeps_what_objects_cost(self):
        row = b")\x85\x85\x94.}h\0Ns."
        self.check_row(row, 9, Reason.DeepKey, kept=True)
        self.check_row(row, 6, Reason.MissingMemo, kept=False)

    def test_a_skipped_payload_weighs_by_its_length(self):
        data = b"}C\xff" + bytes(255) + b"Ns."
        self.check(data, 261)
        self.check(data, 259, Reason.HeavyKeys, weight=3)

    def test_memory(self):
        self.check(b"](\x8f\x8fe.", 6, memory=744)
        self.check(b"](\x8f\x8fe.", 5, Reason.MuchMemory, memory=743)


class Bills(unittest.TestCase):
    def test_a_yes_has_a_bill(self):
        settings = packed(limits(), "unknown", False, "made")
        for data, billed in (
            (b"})\x85Ns.", (2, 2, 2, 2)),
            (b"}K\x01)\x85\x85s.", (0, 1, 1, 1)),
            (b"N.", (0, 0, 0, 0)),
        ):
            self.assertEqual(bill(data, ONE_NAME, settings)[:4], billed)
        self.assertEqual(bill(b"}K\x01)\x85\x85s.", ONE_NAME, settings)[4], 512)
        for data, *_ in ABOVE:
            self.assertIsNone(bill(data, ONE_NAME, settings))


if __name__ == "__main__":
    unittest.main()
