"""SARIF logs against the schema of SARIF 2.1.0: `sarif.json` is its part for these objects, and the
whole one is used where `SARIF_SCHEMA` names it.
"""

import json
import os
import subprocess
import sys
import tempfile
from pathlib import Path

import common

NEEDS = ("jsonschema",)
SCHEMA = os.environ.get("SARIF_SCHEMA", str(Path(__file__).with_name("sarif.json")))
FILES = {
    "bad.pickle": common.hostile(0),
    "cut.pickle": common.hostile(2),
    "[a](b)\u202e.pickle": b"cshop.orders\nOrder\n.",
    "partial.pickle": b"cfunctools\npartial\n.",
    "text": b"A text\n",
}


def run():
    """The test."""
    import jsonschema

    schema = json.loads(Path(SCHEMA).read_text(encoding="utf-8"))
    kind = jsonschema.validators.validator_for(schema)
    with tempfile.TemporaryDirectory() as folder:
        for name, data in FILES.items():
            Path(folder, name).write_bytes(data)
        for more, count in (((), 4), (("--include", "text"), 0)):
            log = scanned(folder, *more)
            kind(schema, format_checker=jsonschema.FormatChecker()).validate(log)
            assert len(log["runs"][0]["results"]) == count, log
            for result in log["runs"][0]["results"]:
                fits(result, log["runs"][0]["tool"]["driver"]["rules"])
    log["runs"][0]["results"] = [{"level": "error"}]
    assert not kind(schema).is_valid(log), "the schema takes a result without a message"


def fits(result, rules):
    """A result has what Code scanning asks for."""
    rule = rules[result["ruleIndex"]]
    assert rule["id"] == result["ruleId"] and rule["help"]["text"], rule
    assert 0 < float(rule["properties"]["security-severity"]) <= 10, rule
    place = result["locations"][0]["physicalLocation"]
    assert place["artifactLocation"]["uriBaseId"] == "%SRCROOT%", place
    assert not place["artifactLocation"]["uri"].startswith(("/", ".")), place
    assert set(place["region"]) == {"startLine", "startColumn", "endLine", "endColumn"}, place
    assert result["partialFingerprints"]["primaryLocationLineHash"], result


def scanned(folder, *more):
    """The log of a folder."""
    words = ["-m", "storklocker", "scan", ".", "--format", "sarif", *more]
    ran = subprocess.run([sys.executable, *words], cwd=folder, capture_output=True, check=False)
    return json.loads(ran.stdout)
