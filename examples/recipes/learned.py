"""Turns the lines of `pktool imports` on standard input into a list file of the names in them."""

import re
import sys
from typing import Dict, Iterable, Set

LINE = re.compile(rb'"([^"]*)" "([^"]*)"\n')


def text_of(quoted: bytes) -> str:
    """The text that pktool quotes: each `\\x` and two digits stand for a byte of its UTF-8."""
    hexadecimal = re.compile(rb"\\x([0-9a-f]{2})")
    return hexadecimal.sub(lambda found: bytes.fromhex(found[1].decode()), quoted).decode()


def toml_string(text: str) -> str:
    """The text as a TOML string, with the characters escaped that a reader can't see."""
    return '"' + "".join(map(toml_character, text)) + '"'


def toml_character(character: str) -> str:
    if character in '"\\':
        return "\\" + character
    return character if character.isprintable() else f"\\U{ord(character):08X}"


def learn(lines: Iterable[bytes]) -> Dict[str, Set[str]]:
    """The names of each module in the lines."""
    learned: Dict[str, Set[str]] = {}
    for line in lines:
        found = LINE.fullmatch(line)
        if found:
            module, name = map(text_of, found.groups())
            if not module or not name:
                sys.exit(f"a list file can't name an empty module or name: {line!r}")
            learned.setdefault(module, set()).add(name)
        elif not line.startswith(b"yes: "):
            sys.exit(f"not all imports are known: {line!r}")
    return learned


def main() -> None:
    learned = learn(sys.stdin.buffer)
    lines = ["version = 2", "[imports]"]
    for module, names in sorted(learned.items()):
        lines.append(f"{toml_string(module)} = [{', '.join(map(toml_string, sorted(names)))}]")
    sys.stdout.buffer.write("".join(line + "\n" for line in lines).encode())


if __name__ == "__main__":
    main()
