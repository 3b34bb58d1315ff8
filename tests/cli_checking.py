"""Tries cartheron check on every sort of plan file: endless, huge, odd and none.

    python3 tests/cli_checking.py COMMAND..    the command, and how it is started
"""

import os
import subprocess
import sys
import unittest

from cli_command import LATE, MOST_PLAN_READ, NO_FIT, PUMP_HALL, VENDOR, Case, contents, run

HEADER, LINE = b"81010508\n", b"820000000000000003C000\n"


class Plans(Case):
    def refused(self, answer, words):
        """Status 1, nothing on standard output, and words that begin like this."""
        self.assertEqual(answer[:2], (1, b""))
        self.assertEqual(answer[2][:len(words)], words)

    def fed(self, command):
        """What the command says of a plan that another command prints."""
        with subprocess.Popen(["sh", "-c", command], stdout=subprocess.PIPE, stderr=subprocess.DEVNULL) as feeding:
            return run("check", PUMP_HALL, "-", stdin=feeding.stdout)

    def test_endless_plans_end(self):
        for device in "/dev/zero", "/dev/urandom":
            with open(device, "rb") as endless:
                self.refused(run("check", PUMP_HALL, "-", stdin=endless), b"standard input:1: refused (20): ")
            self.refused(run("check", PUMP_HALL, device), device.encode() + b":1: refused (20): ")
            self.refused(run("check", device, VENDOR), device.encode() + b":1: refused (1): ")
        self.refused(self.fed("echo 81010508; yes"), b"standard input:2: refused (20): not laid out as a plan text: 'y' is no digit")
        self.refused(self.fed(r"echo 81010508; yes 82 | tr -d '\n'"), b"standard input:2: refused (20): not laid out as a plan "
                     b"text: the line has more than 532 digits")
        self.fails(self.fed("echo 81010508; yes " + LINE.decode()), b"cannot read standard input: File too large")

    def test_a_plan_as_long_as_is_read_and_longer_ones(self):
        lines, left = divmod(MOST_PLAN_READ - len(HEADER), len(LINE))
        if left % 2 != 0:  # a tag takes two digits a byte
            lines, left = lines - 1, left + len(LINE)
        tagged = LINE[:-3] + b"%02X" % (left // 2) + b"41" * (left // 2) + b"\n"
        whole = HEADER + LINE * (lines - 1) + tagged
        self.assertEqual(len(whole), MOST_PLAN_READ)
        plan = self.path("plan")
        for text, words in (
            (whole, b":2: refused (22): "),
            (whole[:-1], b":%d: refused (20): " % (lines + 1)),
            (whole[:-2] + b"\n" * 100, b":%d: refused (20): " % (lines + 1)),
            (b"8" * 2 * MOST_PLAN_READ, b":1: refused (20): "),
            (HEADER + b"\0" * MOST_PLAN_READ, b":2: refused (20): "),
        ):
            self.path("plan", text)
            self.refused(run("check", PUMP_HALL, plan), plan.encode() + words)
        self.path("plan", whole + b"8")
        self.fails(run("check", PUMP_HALL, plan), b"cannot read %s: File too large" % plan.encode())
        self.refused(run("check", VENDOR, plan), VENDOR.encode() + b":1: refused (2): ")

    def test_two_pipes(self):
        pipes = self.path("site"), self.path("plan")
        for pipe, file in zip(pipes, (PUMP_HALL, VENDOR)):
            os.mkfifo(pipe)
            self.addCleanup(subprocess.Popen(["cp", file, pipe]).wait)
        answer = run("check", "--json", *pipes)
        self.assertEqual(answer, run("check", "--json", PUMP_HALL, VENDOR))
        self.assertEqual(answer[0], 0)

    def test_what_cannot_be_read(self):
        folder, none = self.folder, self.path("none")
        self.fails(run("check", folder, VENDOR), b"cannot read %s: Is a directory" % folder.encode())
        self.fails(run("check", PUMP_HALL, folder), b"cannot read %s: Is a directory" % folder.encode())
        self.fails(run("check", none, folder), b"cannot read %s: No such file or directory" % none.encode())

    def test_a_file_takes_an_answer_and_no_refusal(self):
        file = self.path("answer", b"old")
        for refused in [PUMP_HALL, LATE], [NO_FIT, VENDOR], [VENDOR, PUMP_HALL]:
            self.assertEqual(run("check", "-o", file, *refused)[:2], (1, b""))
            self.assertEqual(contents(file), b"old")
        self.assertEqual(run("check", PUMP_HALL, VENDOR, "-o", file), (0, b"", b""))
        self.assertEqual(contents(file), run("check", PUMP_HALL, VENDOR)[1])

    def test_names_with_controls(self):
        odd = self.path("a\033[31m\nplan", contents(VENDOR))
        self.assertIn(b"/a?[31m?plan is a plan for ", run("check", PUMP_HALL, odd)[1])
        self.assertIn(b"/a?[31m?plan:1: refused (2): ", run("check", odd, PUMP_HALL)[2])


unittest.main(argv=sys.argv[:1])
