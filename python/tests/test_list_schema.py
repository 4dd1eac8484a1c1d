"""The schema of list files says what the checker says."""

import importlib
import json
import unittest
from pathlib import Path

from common import needs
from storklocker import AllowList, ListFault

SCHEMA = Path(__file__).resolve().parents[2] / "docs" / "list.schema.json"
FRONT = 'version = 2\n[imports]\na = ["b"]\n'
GOOD = (
    "version = 1\n[imports]\n",
    FRONT,
    f"{FRONT}[limits]\nlevels = 1022\nweight = 4294967295\nwork = 0\nnumbers = 4294967295\n",
    f"{FRONT}[limits]\nlarge = true\nstack = 4294967295\npassed = 1099511627776\ndepth = 100\n",
    f'{FRONT}[rules]\nbuild = "any"\n[substitutes]\n"a.b" = "dangerous"\n',
)
BAD = (
    "", "version = 2\n", "version = 3\n[imports]\n", "[imports]\n", "version = 2\nimports = []\n",
    f"{FRONT}[more]\n", 'version = 2\n[imports]\n"" = []\n', "version = 2\n[imports]\na = [1]\n",
    'version = 2\n[imports]\na = [""]\n', 'version = 2\n[imports]\na = "b"\n',
    *(f"{FRONT.replace('2', '1')}[{it}]\n" for it in ("limits", "rules", "substitutes")),
    *(
        f"{FRONT}[limits]\n{limit}\n"
        for limit in (
            "heap = 1", "stack = -1", "stack = 1000001", "counted = 16777217", "large = false",
            "levels = 1023", "weight = 1048575", "levels = 4294967294", "depth = 101",
            "large = true\nmemo = 4294967296", "numbers = 4294967296", "memory = '1'",
            "values = 1000001", "passed = 1099511627777",
        )
    ),
    f"{FRONT}[rules]\ncall = 1\n", f"{FRONT}[rules]\nbuild = true\n",
    f"{FRONT}[substitutes]\na.b = 'c'\n", f"{FRONT}[substitutes]\n'' = 'c'\n",
)


@unittest.skipUnless(SCHEMA.exists(), "there are no documents")
class Schema(unittest.TestCase):
    @needs("module:jsonschema", "module:tomllib")
    def test_it_judges_as_the_checker_does(self):
        toml = importlib.import_module("tomllib")
        jsonschema = importlib.import_module("jsonschema")
        judge = jsonschema.Draft202012Validator(json.loads(SCHEMA.read_text(encoding="utf-8")))
        for text in GOOD:
            AllowList.from_text(text)
            judge.validate(toml.loads(text))
        for text in BAD:
            with self.assertRaises(ListFault):
                AllowList.from_text(text)
            self.assertFalse(judge.is_valid(toml.loads(text)), text)


if __name__ == "__main__":
    unittest.main()
