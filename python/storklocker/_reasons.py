"""The reasons for refusals. Imported on first use."""

import enum


class Reason(enum.IntEnum):
    """Why a pickle is refused. Names and numbers match the program's, and never change. The table
    of docs/FORMATS.md has the meaning of each.
    """

    Source = 1
    Truncated = 2
    UnknownOpcode = 3
    BadArgument = 4
    TooLarge = 5
    ExtensionCode = 6
    UnsupportedProtocol = 7
    BrokenFrame = 8
    MissingMark = 9
    MissingItem = 10
    MissingMemo = 11
    OddItems = 12
    WrongClass = 13
    NotText = 14
    UnknownImport = 15
    ImportOffList = 16
    LeftOver = 17
    OutOfMemory = 18
    NotAscii = 19
    DeepKey = 20
    HeavyKeys = 21
    ManyKeys = 22
    MuchMemory = 23
    BuildsImport = 24
