"""Tests of the script atnode, with a program that only prints its words in place of the built one:

    python3 gate/test_script.py

What the program itself does with these words is compared by cases/commands.
"""

import os
import re
import shutil
import subprocess
import sys
import tempfile
import unittest
from importlib import machinery, util
from pathlib import Path

TOP = Path(__file__).resolve().parents[1]
sys.dont_write_bytecode = True
# A path without rt, so that nothing can be proved or built.
BARE = "/usr/bin:/bin"
COMMANDS = ("prove", "lib", "install", "uninstall")
NOTING = """#!/bin/sh
printf '<%s>' "$@"
exit 7
"""


def load():
    """The command lines that cases/commands has."""
    loader = machinery.SourceFileLoader("commands", str(TOP / "cases" / "commands"))
    module = util.module_from_spec(util.spec_from_loader("commands", loader))
    loader.exec_module(module)
    return module


CASES = load()


def is_for_program(line):
    """Whether the program reads a command line: it has a command of it, and a word more."""
    words = line.split()
    return len(words) > 1 and words[0] in ("play", "record", "udp", "show", "capture")


class Script(unittest.TestCase):
    def setUp(self):
        """Makes a repository of the script, and of what it reads."""
        self.folder = tempfile.TemporaryDirectory()
        self.addCleanup(self.folder.cleanup)
        self.top = Path(self.folder.name)
        for name in ("atnode", "crates.txt", "cases/usage"):
            (self.top / name).parent.mkdir(exist_ok=True)
            shutil.copy(TOP / name, self.top / name)

    def build(self):
        """Puts a program where the built one is looked for."""
        program = self.top / "crates" / "atnode" / "out" / "atnode"
        program.parent.mkdir(parents=True)
        program.write_text(NOTING)
        program.chmod(0o755)

    def run_script(self, line):
        """What the script prints and tells of a command line, and its status."""
        words = [str(self.top / "atnode"), *line.split()]
        how = {"env": {**os.environ, "PATH": BARE}, "capture_output": True, "check": False}
        run = subprocess.run(words, input="", text=True, **how)
        return run.stdout, run.stderr, run.returncode

    def look_at_usage(self, line):
        """Whether a command line has the program's answer, and then the script's commands."""
        printed, told, status = self.run_script(line)
        wanted, page, code = CASES.USAGE
        self.assertEqual((printed, status), (wanted, code), line)
        self.assertTrue(told.startswith(page), line)
        for name in COMMANDS:
            self.assertRegex(told[len(page) :], rf"(?m)^  \./atnode {name} ")

    def test_a_line_that_asks_for_nothing_is_answered_without_a_program(self):
        useless = [it for it in CASES.USELESS if not is_for_program(it)]
        self.assertGreater(len(useless), 10)
        for line in [*useless, "prove all", "lib x"]:
            with self.subTest(line):
                self.look_at_usage(line)

    def test_the_answer_is_the_same_once_a_program_is_built(self):
        self.build()
        for line in ("", "--help", "--version"):
            self.look_at_usage(line)

    def test_all_other_lines_are_the_programs(self):
        self.build()
        for line in filter(is_for_program, [*CASES.COMMANDS, *CASES.USELESS]):
            words = "".join(f"<{it}>" for it in line.split())
            self.assertEqual(self.run_script(line), (words, "", 7), line)

    def test_without_rt_and_a_program_a_run_says_what_is_missing(self):
        for line in ("play lab", "show 00", "prove", "lib", "install"):
            printed, told, status = self.run_script(line)
            self.assertEqual((printed, status), ("", 127), line)
            self.assertIn("the command rt is missing", told)

    def test_a_failed_write_of_the_usage_gives_status_1(self):
        with open("/dev/full", "w", encoding="utf-8") as full:
            words, told = [str(self.top / "atnode")], subprocess.DEVNULL
            run = subprocess.run(words, stdout=full, stderr=told, check=False)
        self.assertEqual(run.returncode, 1)

    def test_the_head_of_the_script_names_its_commands(self):
        head = re.findall(r"(?m)^#   \./atnode (\w+)", (TOP / "atnode").read_text())
        self.assertEqual(head, ["play", "record", "udp", "show", "capture", *COMMANDS])


if __name__ == "__main__":
    unittest.main()
