"""The manual page and the completions, as `man` and the shells read them."""

import doctest
import importlib
import os
import pickle
import subprocess
import tempfile
import unittest
from pathlib import Path

import storklocker
from common import needs, python
from storklocker import pages
from storklocker.scanning.command import command_parser

COMMAND = pages.command_of(command_parser())
ASKED = "COMP_WORDS=({}); COMP_CWORD=$((${{#COMP_WORDS[@]}} - 1)); _storklocker"


def page(name):
    return "\n".join(pages.PAGES[name](COMMAND)) + "\n"


def said(text, *words, home=None):
    """What a program prints that reads a text, with a folder for its settings."""
    environment = {**os.environ, **({"HOME": home, "XDG_CONFIG_HOME": home} if home else {})}
    ran = subprocess.run(words, input=text, capture_output=True, text=True, env=environment)
    assert (ran.returncode, ran.stderr) == (0, ""), ran
    return ran.stdout


# The modules whose docstrings have examples, and how many at least.
EXAMPLES = {
    "": 4, "._answers": 8, "._checking": 6, "._guard": 4, "._imports": 2, "._limits": 3,
    "._lists": 4, "._loading": 1, "._refusal": 5, ".everywhere.installing": 1,
    ".everywhere.trust": 1, ".metrics": 5,
}


class Help(unittest.TestCase):
    def test_examples(self):
        for name, least in EXAMPLES.items():
            module = importlib.import_module(f"storklocker{name}")
            names = {"storklocker": storklocker, "pickle": pickle}
            found = doctest.testmod(module, globs=names, optionflags=doctest.NORMALIZE_WHITESPACE)
            with self.subTest(module=module.__name__):
                self.assertEqual(found.failed, 0)
                self.assertGreaterEqual(found.attempted, least)


class Pages(unittest.TestCase):
    def test_parsers_are_read(self):
        commands = [it.words for it in pages.all_of(COMMAND)]
        self.assertEqual(commands[:3], ["storklocker", "storklocker scan", "storklocker check"])
        flags = {flag for it in pages.options_of(COMMAND.below[0]) for flag in it.flags}
        self.assertLess({"--allow", "--no-recursive", "--format", "--help"}, flags)

    def test_each_page_has_every_option(self):
        for name in pages.PAGES:
            text = page(name).replace("\\-", "-").replace("-l ", "--")
            for command in pages.all_of(COMMAND):
                self.assertIn(command.words.split()[-1], text)
                for option in pages.options_of(command):
                    for flag in option.flags:
                        self.assertIn(flag if len(flag) > 2 else flag[1:], text, (name, command))

    def test_every_option_says_what_it_is_for(self):
        for command in pages.all_of(COMMAND):
            for option in pages.options_of(command):
                self.assertTrue(option.what, (command.words, option))

    def test_it_runs(self):
        self.assertEqual(python("from storklocker.pages import main; main(['bash'])"), page("bash"))

    def test_the_manual_keeps_the_lines_of_examples_and_statuses(self):
        lines = page("man").replace("\\-", "-").splitlines()
        for line in (*pages.EXAMPLES, "danger   it imports a name that runs code or writes files"):
            self.assertIn(line, [it.strip() for it in lines])
        self.assertEqual(lines.count(".nf"), lines.count(".fi"))

    @needs("groff")
    def test_the_manual_page(self):
        words = ("groff", "-man", "-ww", "-z", "-Tutf8")
        self.assertEqual(said(page("man"), *words), "")

    @needs("/dev/fd", "bash")
    def test_bash(self):
        for words, wanted in (
            ("storklocker s", ["scan", "serve"]),
            ("storklocker scan --for", ["--format"]),
            ("storklocker scan a --format s", ["sarif"]),
            ("storklocker scan --allow li", []),
            ("storklocker scan li", []),
        ):
            asked = ASKED.format(words) + '; printf "%s\\n" "${COMPREPLY[@]}"'
            found = said(page("bash") + asked, "bash", "--norc", "-s")
            self.assertEqual(found.split(), wanted, words)

    @needs("zsh")
    def test_zsh(self):
        with tempfile.TemporaryDirectory() as folder:
            (Path(folder) / "_storklocker").write_text(page("zsh"))
            said(page("zsh"), "zsh", "-n")
            asked = f"fpath+={folder}; autoload compinit; compinit -u -D; echo $_comps[storklocker]"
            self.assertEqual(said("", "zsh", "-fc", asked), "_storklocker\n")

    @needs("fish")
    def test_fish(self):
        home = tempfile.TemporaryDirectory()
        self.addCleanup(home.cleanup)
        for words, wanted in (
            ("storklocker s", "scan"),
            ("storklocker scan --for", "--format"),
            ("storklocker scan a --format s", "sarif"),
        ):
            asked = f"source -; complete -C '{words}'"
            found = said(page("fish"), "fish", "-c", asked, home=home.name)
            self.assertIn(wanted, [line.split()[0] for line in found.splitlines()], words)


if __name__ == "__main__":
    unittest.main()
