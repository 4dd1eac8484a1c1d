"""What is said of a pickle that a guard refuses for what loading it costs, whatever is listed. The
page takes these words too, and the default limits.
"""

CHANGES = "BUILD would change an imported object, for all who use it"
COSTLY = "costly-keys"
KINDS = {"DeepKey": COSTLY, "HeavyKeys": COSTLY, "BuildsImport": "changed-import"}
"""The kinds of findings, by the name of the reason for which a guard refuses the pickle."""
WHY = {
    "DeepKey": "the key at byte {at:,} has more levels than the limit levels, {levels:,}:"
    " hashing it may overflow the reader's stack",
    "HeavyKeys": "the key at byte {at:,} weighs more than the limit weight, {weight:,}:"
    " hashing it may take days",
    "BuildsImport": CHANGES + ", at byte {at:,}",
}
ALL = "at byte {at:,} all keys weigh more than the limit work, {work:,}: hashing them takes long"
"""Of HeavyKeys, where no key alone is too heavy."""
BILL = "; bill: levels {levels:,}{deeper}, weight {weight:,}{more}, work {work:,}{more}"
