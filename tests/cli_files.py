"""Tries the command cartheron on every sort of input and output.

    python3 tests/cli_files.py COMMAND..    the command, and how it is started
"""

import os
import pty
import resource
import stat
import subprocess
import sys
import time
import unittest

from cli_command import COMMAND, LATE, MOST_READ, NOBODY, NO_FIT, PLAIN, PUMP_HALL, TANK_FARM, VENDOR, Case, contents, run


class Reading(Case):
    def test_endless_inputs_end(self):
        for device in "/dev/zero", "/dev/urandom":
            with open(device, "rb") as endless:
                status, out, words = run("plan", stdin=endless)
            self.assertEqual((status, out), (1, b""))
            self.assertTrue(words.startswith(b"standard input:1: refused (1): "), words)
            self.assertEqual(run("plan", device)[0], 1)

    def test_no_more_is_read_than_the_verdict_needs(self):
        reader, writer = os.pipe()
        text = contents(TANK_FARM)
        os.write(writer, text + b"0" * (60000 - len(text)))
        status, _, words = run("plan", stdin=reader)
        self.assertEqual(status, 1)
        self.assertIn(b"more than 136 digits", words)
        self.assertEqual(len(os.read(reader, 65536)), 60000 - MOST_READ)
        os.close(reader)
        os.close(writer)
        with open(self.path("long", b"0" * 3_000_000), "rb", buffering=0) as file:
            self.assertEqual(run("site", stdin=file)[0], 1)
            self.assertEqual(file.tell(), MOST_READ)

    def test_short_reads(self):
        started = subprocess.Popen([*COMMAND, "rewrite"], stdin=subprocess.PIPE, stdout=subprocess.PIPE, env=PLAIN)
        text = contents(PUMP_HALL)
        for part in text[:5], text[5:300], text[300:]:
            started.stdin.write(part)
            started.stdin.flush()
            time.sleep(0.1)
        self.assertEqual(started.communicate(timeout=60), (text, None))

    def test_a_named_pipe(self):
        pipe = self.path("pipe")
        os.mkfifo(pipe)
        writer = subprocess.Popen(["cp", PUMP_HALL, pipe])
        self.assertEqual(run("rewrite", pipe), (0, contents(PUMP_HALL), b""))
        writer.wait()

    def test_what_cannot_be_read(self):
        self.fails(run("plan", self.folder), b"cannot read %s: Is a directory" % self.folder.encode())
        self.fails(run("plan", PUMP_HALL + "/x"), b"cannot read %s/x: Not a directory" % PUMP_HALL.encode())


class Writing(Case):
    def setUp(self):
        super().setUp()
        self.plan = run("plan", PUMP_HALL)[1]

    def left(self, *names):
        """Just these files are in the folder."""
        self.assertEqual(sorted(os.listdir(self.folder)), sorted(names))

    def test_a_full_disk(self):
        for command in ["plan"], ["show"], ["site"], ["picture"], ["rewrite"], ["check", VENDOR]:
            with open("/dev/full", "wb") as full:
                answer = run(command[0], PUMP_HALL, *command[1:], stdout=full)
            self.assertEqual(answer, (2, None, b"cartheron: cannot write standard output: No space left on device\n"))
        with open("/dev/full", "wb") as full:
            self.assertEqual(run("--help", stdout=full)[0], 2)
            self.assertEqual(run("plan", NO_FIT, stderr=full)[0], 2)
            self.assertEqual(run("check", PUMP_HALL, LATE, stderr=full)[0], 2)

    def test_a_closed_pipe(self):
        reader, writer = os.pipe()
        os.close(reader)
        answer = run("show", TANK_FARM, stdout=writer)
        os.close(writer)
        self.assertEqual(answer, (2, None, b"cartheron: cannot write standard output: Broken pipe\n"))

    @unittest.skipIf(len(COMMAND) > 1, "an emulator takes the places of closed files")
    def test_closed_standard_files(self):
        def closed(*fds):
            return {"preexec_fn": lambda: [os.close(fd) for fd in fds]}
        for command in ["plan"], ["check", "-", VENDOR], ["check", PUMP_HALL, "-"]:
            self.fails(run(*command, **closed(0)), b"cannot read standard input: Bad file descriptor")
        self.assertEqual(run("plan", PUMP_HALL, **closed(0)), (0, self.plan, b""))
        self.assertEqual(run("plan", PUMP_HALL, **closed(1))[0], 2)
        self.assertEqual(run("plan", "-o", self.path("plan"), PUMP_HALL, **closed(0, 1, 2))[0], 0)
        self.assertEqual(contents(self.path("plan")), self.plan)
        self.assertEqual(run("plan", "-o", self.path("plan"), NO_FIT, **closed(1, 2))[0], 2)
        self.assertEqual(contents(self.path("plan")), self.plan)

    def test_a_new_file(self):
        for option in ["-o", self.path("plan")], ["-o" + self.path("plan")]:
            self.assertEqual(run("plan", *option, PUMP_HALL, umask=0o027), (0, b"", b""))
            self.assertEqual(contents(self.path("plan")), self.plan)
            self.assertEqual(stat.S_IMODE(os.stat(self.path("plan")).st_mode), 0o640)
            self.left("plan")
        self.assertEqual(run("plan", "-o", "here", PUMP_HALL, cwd=self.folder)[0], 0)
        self.left("here", "plan")
        self.assertEqual(run("plan", PUMP_HALL, "-o", "-"), (0, self.plan, b""))

    def test_a_file_that_is_there(self):
        old = self.path("plan", b"old")
        os.chmod(old, 0o604)
        with open(old, "rb") as reader:
            self.assertEqual(run("plan", "-o", old, PUMP_HALL), (0, b"", b""))
            self.assertEqual(reader.read(), b"old")
        self.assertEqual(contents(old), self.plan)
        self.assertEqual(stat.S_IMODE(os.stat(old).st_mode), 0o604)
        site = self.path("site", contents(TANK_FARM))
        self.assertEqual(run("rewrite", "-o", site, site), (0, b"", b""))
        self.assertEqual(contents(site), contents(TANK_FARM))
        self.left("plan", "site")

    def test_links_and_pipes_stay(self):
        self.path("plan", b"old")
        os.symlink("plan", self.path("link"))
        os.symlink("none", self.path("loose"))
        self.assertEqual(run("plan", "-o", self.path("link"), PUMP_HALL)[0], 0)
        self.assertEqual((os.readlink(self.path("link")), contents(self.path("plan"))), ("plan", self.plan))
        self.assertEqual(run("plan", "-o", self.path("loose"), PUMP_HALL)[0], 2)
        pipe = self.path("pipe")
        os.mkfifo(pipe)
        reader = subprocess.Popen(["cat", pipe], stdout=subprocess.PIPE)
        self.addCleanup(reader.kill)
        self.assertEqual(run("plan", "-o", pipe, PUMP_HALL), (0, b"", b""))
        self.assertTrue(stat.S_ISFIFO(os.stat(pipe).st_mode))
        self.assertEqual(reader.communicate(timeout=60), (self.plan, None))
        self.left("link", "loose", "pipe", "plan")

    def test_nothing_is_written_for_a_refusal(self):
        old = self.path("plan", b"old")
        self.assertEqual(run("plan", "-o", old, NO_FIT)[:2], (1, b""))
        self.assertEqual(run("plan", "-o", self.path("new"), NO_FIT)[:2], (1, b""))
        self.assertEqual(contents(old), b"old")
        self.left("plan")

    def test_nothing_is_left_where_writing_fails(self):
        old = self.path("plan", b"old")
        little = {"preexec_fn": lambda: resource.setrlimit(resource.RLIMIT_FSIZE, (200, 200))}
        self.fails(run("plan", "-o", old, PUMP_HALL, **little), b"cannot write %s: File too large" % old.encode())
        self.assertEqual(contents(old), b"old")
        self.assertEqual(run("plan", "-o", self.path("new"), PUMP_HALL, **little)[0], 2)
        self.fails(run("plan", "-o", self.folder, PUMP_HALL), b"cannot write %s: Is a directory" % self.folder.encode())
        self.assertEqual(run("plan", "-o", self.path("none/plan"), PUMP_HALL)[0], 2)
        self.assertEqual(run("plan", "-o", old + "/plan", PUMP_HALL)[0], 2)
        self.left("plan")

    def test_two_at_once_leave_one_whole_answer(self):
        shared = self.path("plan", self.plan)
        whole = {self.plan, run("plan", TANK_FARM)[1]}
        for _ in range(10):
            both = [subprocess.Popen([*COMMAND, "plan", "-o", shared, site], env=PLAIN) for site in (PUMP_HALL, TANK_FARM)]
            while any(one.poll() is None for one in both):
                self.assertIn(contents(shared), whole)
            self.assertEqual([one.returncode for one in both], [0, 0])
            self.assertIn(contents(shared), whole)
        self.left("plan")


class Permissions(Case):
    """As a user who is not root. Devices are only written to here: root could lose one to a wrong program, which
    gives a file its name."""

    def setUp(self):
        super().setUp()
        self.user = {"user": NOBODY, "group": NOBODY, "extra_groups": []} if os.geteuid() == 0 else {}
        try:
            run("--version", **self.user)
        except PermissionError:
            self.skipTest("another user cannot start the command")
        self.site = self.path("site", contents(PUMP_HALL))
        if self.user:
            os.chown(self.folder, NOBODY, NOBODY)
            os.chown(self.site, NOBODY, NOBODY)

    def test_devices(self):
        answer = run("plan", "-o", "/dev/full", PUMP_HALL, **self.user)
        self.fails(answer, b"cannot write /dev/full: No space left on device")
        self.assertEqual(run("plan", "-o", "/dev/null", PUMP_HALL, **self.user), (0, b"", b""))

    def test_a_file_that_may_not_be_read(self):
        os.chmod(self.site, 0)
        self.fails(run("plan", self.site, **self.user), b"cannot read %s: Permission denied" % self.site.encode())

    def test_a_file_that_may_not_be_written(self):
        os.chmod(self.site, 0o444)
        answer = run("plan", "-o", self.site, self.site, **self.user)
        self.fails(answer, b"cannot write %s: Permission denied" % self.site.encode())
        self.assertEqual(contents(self.site), contents(PUMP_HALL))

    def test_a_folder_that_may_not_be_written(self):
        os.chmod(self.folder, 0o555)
        answer = run("plan", "-o", self.path("plan"), self.site, **self.user)
        self.fails(answer, b"cannot write %s: Permission denied" % self.path("plan").encode())
        os.chmod(self.folder, 0o755)
        self.assertEqual(os.listdir(self.folder), ["site"])


class Colour(Case):
    def on_terminal(self, *arguments, files=("stdout", "stderr"), **environment):
        """What the command writes to a terminal that is its standard output or standard error."""
        terminal, end = pty.openpty()
        run(*arguments, env=PLAIN | environment, **{file: end for file in files})
        os.close(end)
        written = b""
        try:
            while part := os.read(terminal, 65536):
                written += part
        except OSError:
            pass
        os.close(terminal)
        return written

    def test_colour_on_a_terminal_only(self):
        self.assertIn(b"\033[", self.on_terminal("show", PUMP_HALL))
        self.assertIn(b"\033[", self.on_terminal("site", PUMP_HALL))
        self.assertIn(b"\033[", self.on_terminal("plan", NO_FIT, files=["stderr"]))
        self.assertIn(b"\033[", self.on_terminal("check", PUMP_HALL, LATE, files=["stderr"]))
        self.assertNotIn(b"\033", self.on_terminal("plan", NO_FIT, files=["stdout"]))
        self.assertNotIn(b"\033", run("show", PUMP_HALL)[1] + run("show", NO_FIT)[2])

    def test_never_with_no_color(self):
        for environment in {"NO_COLOR": "1"}, {"NO_COLOR": "0"}, {"TERM": "dumb"}:
            self.assertNotIn(b"\033", self.on_terminal("show", PUMP_HALL, **environment))
            self.assertNotIn(b"\033", self.on_terminal("show", NO_FIT, **environment))

    def test_never_in_what_programs_read(self):
        for arguments in ["plan"], ["rewrite"], ["show", "--json"], ["site", "--json"], ["picture"]:
            self.assertNotIn(b"\033", self.on_terminal(*arguments, PUMP_HALL))
        self.assertNotIn(b"\033", self.on_terminal("check", "--json", PUMP_HALL, VENDOR))
        self.on_terminal("show", "-o", self.path("table"), PUMP_HALL)
        self.assertEqual(contents(self.path("table")), run("show", PUMP_HALL)[1])


unittest.main(argv=sys.argv[:1])
