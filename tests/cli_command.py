"""The command cartheron as the tests of its files start it, by the words of their own command line."""

import os
import shutil
import subprocess
import sys
import tempfile
import unittest

COMMAND = [os.path.abspath(word) for word in sys.argv[1:]]
NOBODY = 65534
MOST_READ, MOST_PLAN_READ = 11859, 4 << 20
PUMP_HALL, TANK_FARM = os.path.abspath("sites/pump-hall.site"), os.path.abspath("sites/tank-farm.site")
NO_FIT = os.path.abspath("sites/raw-water-no-fit.site")
VENDOR, LATE = os.path.abspath("sites/pump-hall-vendor.plan"), os.path.abspath("sites/pump-hall-vendor-late.plan")
PLAIN = {"PATH": os.environ["PATH"], "TERM": "xterm", "ASAN_OPTIONS": os.environ.get("ASAN_OPTIONS", "")}


def run(*arguments, **how):
    """The command's exit status, standard output and standard error."""
    how = {"stdin": subprocess.DEVNULL, "stdout": subprocess.PIPE, "stderr": subprocess.PIPE, "timeout": 60, "env": PLAIN} | how
    ended = subprocess.run([*COMMAND, *arguments], **how)
    return ended.returncode, ended.stdout, ended.stderr


def contents(path):
    with open(path, "rb") as file:
        return file.read()


class Case(unittest.TestCase):
    def setUp(self):
        self.folder = tempfile.mkdtemp()
        self.addCleanup(shutil.rmtree, self.folder)

    def path(self, name, text=None):
        """A path in the folder, with a file of this text if there is one."""
        path = os.path.join(self.folder, name)
        if text is not None:
            with open(path, "wb") as file:
                file.write(text)
        return path

    def fails(self, answer, words):
        """Status 2, nothing on standard output, and just these words."""
        self.assertEqual(answer, (2, b"", b"cartheron: " + words + b"\n"))
