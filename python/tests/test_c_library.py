"""The C library: a C program that calls it, under sanitizers, and what the shared library shows."""

import fnmatch
import os
import re
import subprocess
import tempfile
import unittest
from pathlib import Path

from common import ARCHIVE, COMPILER, PACKAGE, PYTHON, compiled, needs

TESTS = PYTHON / "tests"
SOURCES = [str(PYTHON / "storklocker.c"), str(PYTHON / "heap.c")]
SANITIZED = "-O1 -g -fno-omit-frame-pointer -fsanitize=address,undefined -fno-sanitize-recover=all"
WRAPPED = "-Wl,--wrap=malloc,--wrap=realloc,--wrap=free"
STRICT = "-Wall -Wextra -Wpedantic -Wconversion -Wshadow -Wmissing-prototypes -Werror"
# A comment of the header, and an example in it, which is indented as in Markdown.
COMMENT = re.compile(r"(?ms)^/\* ?(.*?)\*/")
EXAMPLE = re.compile(r"(?m)^ {7}\S.*\n(?:(?: {7}.*)?\n)*")
CALLS = ["check_list", "check_pairs", "check_row", "check_within", "fault_text", "imports",
         "imports_loading", "list_told", "read_list", "reason_text", "version"]


def program_of(header):
    """A program that runs the examples of the header in their order, and what each calls. One that
    begins with `#` or `static` is for those after it.
    """
    parts, calls = [], []
    for comment in COMMENT.findall(header):
        for example in EXAMPLE.findall(comment):
            if not example.lstrip().startswith(("#", "static")):
                calls.append(re.findall(r"storklocker_(\w+)\(", example))
                example = f"static void example_{len(calls)}(void) {{\n{example}}}\n"
            parts.append(example)
    ran = "".join(f"example_{number + 1}();\n" for number in range(len(calls)))
    names = "".join(f"#include <{name}.h>\n" for name in ("assert", "string"))
    lines = [names, '#include "storklocker.h"\n', *parts, f"int main(void) {{\n{ran}}}\n"]
    return "".join(lines), {call for names in calls for call in names}


class Library(unittest.TestCase):
    def setUp(self):
        folder = tempfile.TemporaryDirectory()
        self.addCleanup(folder.cleanup)
        self.folder = Path(folder.name)

    def said(self, *words):
        return subprocess.run(words, check=True, capture_output=True, text=True).stdout

    @needs(COMPILER, ARCHIVE)
    def test_programs_under_sanitizers(self):
        words = [str(TESTS / "refusing.c"), *SANITIZED.split(), WRAPPED, "-pthread", *SOURCES]
        for name in ("c_library.c", "c_costs.c"):
            program = compiled(self.folder, TESTS / name, *words, ARCHIVE)
            ran = subprocess.run([program], capture_output=True, text=True)
            self.assertEqual((ran.returncode, ran.stdout, ran.stderr), (0, "", ""), name)

    @needs(COMPILER, ARCHIVE)
    def test_examples_of_the_header(self):
        text, calls = program_of((PACKAGE / "storklocker.h").read_text())
        self.assertEqual(sorted(calls), CALLS)
        source = self.folder / "examples.c"
        source.write_text(text)
        words = [*STRICT.split(), *SANITIZED.split()]
        program = compiled(self.folder, source, *words, *SOURCES, ARCHIVE)
        ran = subprocess.run([program], capture_output=True, text=True)
        self.assertEqual((ran.returncode, ran.stdout, ran.stderr), (0, "", ""))

    @needs(ARCHIVE, "objdump")
    def test_functions_in_an_order_are_there(self):
        said = self.said("objdump", "-h", ARCHIVE)
        sections = re.findall(r"^ *\d+ \.text\.(\S+)", said, re.M)
        self.assertGreater(len(sections), 100)
        for name in (PYTHON / "order").read_text().splitlines():
            if not name.startswith("#"):
                self.assertTrue(fnmatch.filter(sections, name), name)

    @needs(COMPILER)
    def test_the_arena_under_sanitizers(self):
        words = [str(TESTS / "refusing.c"), *SANITIZED.split(), WRAPPED]
        program = compiled(self.folder, TESTS / "c_arena.c", *words)
        ran = subprocess.run([program], capture_output=True, text=True)
        self.assertEqual((ran.returncode, ran.stdout, ran.stderr), (0, "", ""))

    @needs(COMPILER, ARCHIVE, "nm", "objdump")
    def test_the_shared_library(self):
        library, visible = self.folder / "libstorklocker.so.0", self.folder / "visible"
        visible.write_text("{ global: storklocker_*; local: *; };\n")
        words = "-O2 -fPIC -shared -Wl,-soname,libstorklocker.so.0 -Wl,-z,defs"
        subprocess.run(
            [COMPILER, *words.split(), f"-I{PACKAGE}", *SOURCES, ARCHIVE,
             f"-Wl,--version-script={visible}", "-o", str(library)],
            check=True,
        )
        names = self.said("nm", "-D", "--defined-only", str(library))
        head = self.said("objdump", "-p", str(library))
        self.assertEqual(re.findall(r" T (\w+)", names), [f"storklocker_{call}" for call in CALLS])
        self.assertRegex(head, r"SONAME +libstorklocker\.so\.0\n")

    @needs(COMPILER)
    def test_header_and_code_without_warnings(self):
        for standard in ("c99", "c11", "c17"):
            subprocess.run(
                [COMPILER, f"-std={standard}", *STRICT.split(), f"-I{PACKAGE}", "-c", SOURCES[0],
                 "-o", str(self.folder / "code.o")],
                check=True,
            )
        user = self.folder / "user.cc"
        user.write_text(
            '#include "storklocker.h"\n'
            "static_assert(sizeof(storklocker_settings) == 104, \"\");\n"
            "static_assert(sizeof(storklocker_verdict) == 96, \"\");\n"
            "const storklocker_settings standard = STORKLOCKER_STANDARD;\n"
        )
        words = [COMPILER, "-x", "c++", "-std=c++11", "-c", "-o", str(self.folder / "user.o")]
        if subprocess.run([*words, os.devnull], stderr=subprocess.DEVNULL).returncode != 0:
            self.skipTest("the C compiler compiles no C++")
        strict = ["-Wall", "-Wextra", "-Werror", f"-I{PACKAGE}"]
        subprocess.run([*words, *strict, str(user)], check=True)


if __name__ == "__main__":
    unittest.main()
