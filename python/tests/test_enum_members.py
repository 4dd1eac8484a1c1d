"""Members of enums that are pickled by `getattr`, as Python 3.11.0 to 3.11.3 do: they are no
danger, and whatever else `getattr` gets is one.
"""

import http
import io
import pickle
import signal
import unittest
import uuid

from storklocker.scanning.dangers import judged, known
from storklocker.scanning.judging import Question, reports_of

GOT, ENUM = b"cbuiltins\ngetattr\n", b"chttp\nHTTPStatus\n"
MEMBER = GOT + b"(" + ENUM + b"VOK\ntR"
OTHERS = {
    "a method is called": b"(" + GOT + b"(" + ENUM + b"Vmro\ntR(tR.",
    "a private name": GOT + b"(" + ENUM + b"V__class__\ntR.",
    "a name with a dot": GOT + b"(" + ENUM + b"VOK.real\ntR.",
    "a class that is no enum": GOT + b"(ccollections\nOrderedDict\nVfromkeys\ntR.",
    "a harmful class": GOT + b"(ccode\nInteractiveInterpreter\nVrunsource\ntR.",
    "an inner name of an enum": GOT + b"(\x8c\4http\x8c\x0eHTTPStatus.name\x93Vfget\ntR.",
    "of what was got": GOT + b"(" + MEMBER + b"Vreal\ntR.",
    "a name that is made": GOT + b"(" + ENUM + b"cbuiltins\nstr\n(VOK\ntRtR.",
    "a default": GOT + b"(" + ENUM + b"VNONE\nI1\ntR.",
    "a state is set": MEMBER + b"}Vx\nI1\nsb.",
    "a member is called": MEMBER + b"(tR.",
    "a member makes an object": b"(" + MEMBER + b"o.",
    "getattr itself": GOT + b".",
    "getattr in a list": b"(" + GOT + b"l.",
    "getattr in a tuple for a call": b"cbuiltins\nlist\n((" + GOT + b"ttR.",
    "getattr from the memo": GOT + b"p0\n0(g0\ng0\nl.",
    "getattr for OBJ": b"(" + GOT + ENUM + b"VOK\no.",
    "getattr for INST": b"(" + ENUM + b"VOK\nibuiltins\ngetattr\n.",
    "getattr for a persistent id": b"\x80\2" + GOT + b"Q.",
    "behind an honest one": MEMBER + b"0" + GOT + b"(" + ENUM + b"V__class__\ntR.",
    "in a second pickle": MEMBER + b"." + GOT + b"(" + ENUM + b"V__class__\ntR.",
    "for one Unpickler": b"\x80\4\x8c\x09__class__\x94." + b"\x80\4\x8c\2OK\x940" + GOT + b"("
    + ENUM + b"h\0tR.",
    "broken behind it": MEMBER + b"0]0(lR.",
}


class Got:
    """Is pickled as a member of an enum, by `getattr`."""

    def __init__(self, member):
        self.member = member

    def __reduce__(self):
        return getattr, (type(self.member), self.member.name)


def findings_of(data):
    """The words of the reports on some bytes, and the names of which they tell."""
    found = list(reports_of("file", io.BytesIO(data), Question()))
    return [it.status.value for it in found], {told.name for it in found for told in it.findings}


class Members(unittest.TestCase):
    def test_honest(self):
        members = [*map(Got, (http.HTTPStatus.OK, signal.SIGINT, http.HTTPStatus.GONE)),
                   Got(uuid.SafeUUID.safe)]
        for protocol in range(pickle.HIGHEST_PROTOCOL + 1):
            for value in (members[0], members, {"a": members, "b": members[2]}, tuple(members)):
                data = pickle.dumps(value, protocol)
                row = pickle.dumps(value, protocol) + pickle.dumps(members[0], protocol)
                for it in (data, row):
                    self.assertEqual(findings_of(it), (["unjudged"], set()), (protocol, it))
        loaded = pickle.loads(pickle.dumps(members))
        self.assertEqual(loaded, [it.member for it in members])

    def test_members_by_their_own_names(self):
        """As Python 3.11.4 and later pickle those of modules with constants."""
        for name in ("socket\nAF_INET", "ssl\nCERT_NONE", "ssl\nOP_ALL", "socket\nMSG_PEEK"):
            self.assertEqual(findings_of(b"c%s\n." % name.encode()), (["unjudged"], set()))
        for name in ("socket\nsocket", "ssl\nSSLContext"):
            self.assertEqual(findings_of(b"c%s\n." % name.encode())[0], ["warning"])

    def test_others(self):
        self.assertEqual(findings_of(MEMBER + b"."), (["unjudged"], set()))  # the control
        for name, data in OTHERS.items():
            with self.subTest(name=name):
                words, names = findings_of(data)
                self.assertIn("dangerous", words)
                self.assertIn("builtins.getattr", names)

    def test_others_get_something_else(self):
        for name in ("a private name", "a class that is no enum", "a default", "getattr itself"):
            self.assertNotIsInstance(pickle.loads(OTHERS[name]), http.HTTPStatus, name)
        reader = pickle.Unpickler(io.BytesIO(OTHERS["for one Unpickler"]))
        reader.load()
        self.assertIs(reader.load(), type(http.HTTPStatus))

    def test_the_enums_are_harmless(self):
        self.assertGreater(len(known().enums), 20)
        for name in known().enums:
            row = judged(*name.rsplit(".", 1))
            self.assertEqual("" if row is None else row.severity, "harmless", name)


if __name__ == "__main__":
    unittest.main()
