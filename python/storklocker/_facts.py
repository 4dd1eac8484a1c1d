"""What a guard needs to know of names. Made by python/catalogue/make. Don't edit it."""

import sys

EVERYTHING = {
    "numpy": "load",
    "_operator": "attrgetter methodcaller",
    "_pickle": "Unpickler load loads",
    "builtins": "__import__ compile eval exec getattr setattr",
    "functools": "partial",
    "importlib": "__import__ import_module",
    "marshal": "load loads",
    "operator": "attrgetter methodcaller",
    "os": "execv execve popen system",
    "pickle": "Unpickler _load _loads load loads",
    "pkgutil": "resolve_name",
    "posix": "execv execve system",
    "pydoc": "locate",
    "runpy": "run_module run_path",
    "subprocess": "Popen call check_call check_output getoutput getstatusoutput run",
    "types": "CodeType FunctionType",
    "torch": "load",
    "torch.storage": "_load_from_bytes",
}
"""Names that permit everything, or call any listed name as no pickle can."""
VALUES = ("cloudpickle", "dill")
"""Packages that make functions and classes of what a pickle holds."""
SUBSTITUTED = {
    "_codecs": "encode",
    "_operator": "or_",
    "array": "_array_reconstructor array",
    "asyncio.exceptions": "IncompleteReadError LimitOverrunError",
    "builtins":
        "BaseExceptionGroup ExceptionGroup IndentationError SyntaxError TabError"
        " UnicodeDecodeError _IncompleteInputError bytearray bytes complex dict frozenset"
        " int list range set slice tuple",
    "collections": "ChainMap Counter OrderedDict UserDict UserList UserString defaultdict deque",
    "configparser":
        "DuplicateOptionError DuplicateSectionError Error InterpolationDepthError"
        " InterpolationError InterpolationMissingOptionError InterpolationSyntaxError"
        " InvalidWriteError MissingSectionHeaderError MultilineContinuationError"
        " NoOptionError NoSectionError ParsingError UnnamedSectionDisabledError",
    "copyreg": "_reconstructor",
    "datetime": "date datetime time" if sys.version_info < (3, 10) else "",
    "decimal": "Context Decimal DecimalTuple",
    "fractions": "Fraction",
    "http.cookies": "Morsel SimpleCookie",
    "ipaddress": "IPv4Address IPv4Interface IPv4Network IPv6Address IPv6Interface IPv6Network",
    "json.decoder": "JSONDecodeError",
    "pathlib": "Path PosixPath PurePath PurePosixPath PureWindowsPath WindowsPath",
    "pathlib._local": "Path PosixPath PurePath PurePosixPath PureWindowsPath WindowsPath",
    "types": "SimpleNamespace",
    "uuid": "UUID",
    "xml.etree.ElementTree": "ParseError",
}
"""Names that are loaded through substitutes, of modules of which few are."""
PACKAGES = (
    "billiard",
    "celery",
    "dateutil",
    "django",
    "kombu",
    "networkx",
    "numpy",
    "pandas",
    "pytz",
    "requests",
    "rq",
    "scipy",
    "sklearn",
    "sqlalchemy",
    "torch",
)
"""Packages of which any name may be."""
