"""Guards and pickles that several tests of guards use."""

from common import BY_PAIRS
from storklocker import AllowList, Guard

GUARD = Guard(BY_PAIRS)
HOSTILE = b"cposix\nsystem\n(S'exit 3'\ntR."
NOTHING = Guard(AllowList([]))
# the second of two pickles names an import by what the first left in the memo
ROW = (
    b"\x80\x04\x8c\x05posix\x94\x8c\x06system\x94\x86.",
    b"\x80\x04\x8c\x0bcollections\x94\x8c\x0bOrderedDict\x9400h\x00h\x01\x93\x8c\x04true\x85R.",
)
