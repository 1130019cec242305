"""Tests that the program `fstch` and the library keep out of each other's files, and what the program says of a file that the system refuses:
run where the module is found, in a folder of its own.

The variable FSTCH names the program.
"""

import fcntl
import json
import os
import select
import shutil
import subprocess
import tempfile
import unittest
from pathlib import Path

import fstch

FILE = "test.disk"
PROGRAM = os.environ["FSTCH"]
IN_USE = (4, "fault Disk\n", "fstch: the file is in use\n")
# A run that answers more than a pipe and the program's own buffer take.
GETS = 20
PUT = {"op": "put", "key": "key", "hex": "00", "times": 32768}
SCRIPT = "".join(json.dumps(line) + "\n" for line in [PUT] + [{"op": "get", "key": "key"}] * GETS)


def make():
    Path(FILE).unlink(missing_ok=True)
    fstch.make(FILE, index_blocks=1, extents=4)


def run(*arguments, script=""):
    """How the program ends, and what it writes."""
    ended = subprocess.run([PROGRAM, *arguments], input=script, stdout=subprocess.PIPE, stderr=subprocess.PIPE, text=True)
    return ended.returncode, ended.stdout, ended.stderr


class Run:
    """A run that has the file open, and waits for someone to read its answers."""

    def __enter__(self):
        self.process = subprocess.Popen(
            [PROGRAM, "run", FILE], stdin=subprocess.PIPE, stdout=subprocess.PIPE, stderr=subprocess.PIPE, text=True
        )
        self.process.stdin.write(SCRIPT)
        self.process.stdin.close()
        select.select([self.process.stdout], [], [])
        return self

    def end(self):
        """What it has written, and its status, once that is read."""
        answers = self.process.stdout.read()
        return answers, self.process.wait()

    def __exit__(self, *_):
        self.process.kill()
        self.process.wait()
        self.process.stdout.close()
        self.process.stderr.close()


class Locks(unittest.TestCase):
    def test_a_store_that_is_open_is_refused_to_the_program(self):
        make()
        with fstch.open(FILE) as store:
            store[b"key"] = b"value"
            for arguments in (["check", FILE], ["upgrade", FILE], ["run", FILE]):
                self.assertEqual(run(*arguments), IN_USE)
        status, told, errors = run("check", FILE)
        self.assertEqual((status, errors), (0, ""))
        self.assertEqual((told.splitlines()[0], told.splitlines()[-1]), ("entry 6b6579 5", "clean"))

    def test_a_store_that_is_read_is_refused_to_a_run(self):
        make()
        with fstch.open(FILE, "r"):
            for arguments in (["upgrade", FILE], ["run", FILE]):
                self.assertEqual(run(*arguments), IN_USE)

    def test_a_file_that_the_program_runs_on_is_refused_to_the_library(self):
        make()
        with Run() as running:
            for flag in "wr":
                with self.assertRaises(fstch.InUse):
                    fstch.open(FILE, flag)
            self.assertEqual(run("check", FILE), IN_USE)
            answers, status = running.end()
        self.assertEqual((answers, status), ("ok\n" + ("value " + "00" * 32768 + "\n") * GETS, 0))
        with fstch.open(FILE) as store:
            self.assertEqual(store[b"key"], bytes(32768))

    def test_the_lock_is_gone_with_the_program(self):
        make()
        with Run() as running:
            running.process.kill()
            running.process.wait()
            with fstch.open(FILE) as store:
                self.assertEqual(len(store), 0)


class Faults(unittest.TestCase):
    """What standard error says where a command fails."""

    def expect(self, status, told, errors, *arguments, **how):
        self.assertEqual(run(*arguments, **how), (status, told, errors))

    def test_a_file_that_is_missing_or_there_already_is_told(self):
        make()
        self.expect(4, "fault Disk\n", "fstch: missing.disk: there is no such file\n", "check", "missing.disk")
        self.expect(4, "fault Disk\n", "fstch: missing.disk: there is no such file\n", "run", "missing.disk")
        self.expect(4, "fault Disk\n", f"fstch: {FILE}: it is there already\n", "make", FILE, "--index", "1", "--extents", "2")
        self.expect(4, "fault Disk\n", "fstch: .: it is a directory\n", "check", ".")
        os.mkfifo("pipe.disk")
        self.expect(4, "fault Disk\n", "fstch: pipe.disk: it is no regular file\n", "check", "pipe.disk")
        os.unlink("pipe.disk")
        geometry = ("--index", "16", "--extents", "254", "--length", "64")
        self.expect(2, "fault Geometry\n", "fstch: this makes 16274 blocks, 4096 at most\n", "make", "large.disk", *geometry)
        self.assertFalse(os.path.lexists("large.disk"))

    def test_an_unreadable_line_says_where(self):
        make()
        script = '{"op":"get","key":"k"}\n{"op":"get","key":"k"]\n'
        self.expect(3, "bad line 2\n", "fstch: line 2: not JSON at column 22, or nested deeper than 127 levels\n", "run", FILE, script=script)
        marked = "\ufeff" + '{"op":"get","key":"k"}\n'
        self.expect(3, "bad line 1\n", "fstch: line 1: it begins with a byte order mark, which is no JSON\n", "run", FILE, script=marked)

    def test_standard_output_that_is_full_is_told(self):
        make()
        with open("/dev/full", "wb") as full:
            script = json.dumps(PUT).encode()
            ended = subprocess.run([PROGRAM, "run", FILE], input=script, stdout=full, stderr=subprocess.PIPE)
        self.assertEqual(ended.returncode, 4)
        self.assertEqual(ended.stderr.decode(), f"fstch: standard output can't be written\nfstch: {FILE} has all that the script changed\n")
        with fstch.open(FILE) as store:
            self.assertEqual(store[b"key"], bytes(32768))

    def test_a_sync_may_lack_its_group(self):
        make()
        script = json.dumps(PUT) + '\n{"op":"sync"}\n'
        self.expect(0, "ok\nsynced\n", "", "run", FILE, script=script)


class Reading(unittest.TestCase):
    """A check opens the file to be read alone."""

    def test_several_check_a_file_at_one_time(self):
        make()
        with open(FILE, "rb") as reader:
            fcntl.flock(reader, fcntl.LOCK_SH)
            self.assertEqual(run("check", FILE)[0], 0)
            self.assertEqual(run("run", FILE), IN_USE)
            self.assertEqual(run("upgrade", FILE), IN_USE)

    @unittest.skipUnless(os.geteuid() == 0, "who isn't root has no other user")
    def test_a_file_that_may_not_be_written_is_checked(self):
        with tempfile.TemporaryDirectory() as folder:
            os.chmod(folder, 0o755)
            program, disk = shutil.copy(PROGRAM, f"{folder}/fstch"), f"{folder}/{FILE}"
            os.chmod(program, 0o755)
            fstch.make(disk, index_blocks=1, extents=4)
            os.chmod(disk, 0o444)
            nobody = {"user": 65534, "capture_output": True, "text": True}
            ended = subprocess.run([program, "check", disk], **nobody)
            self.assertEqual((ended.returncode, ended.stdout.splitlines()[-1], ended.stderr), (0, "clean", ""))
            ended = subprocess.run([program, "run", disk], input="", **nobody)
            self.assertEqual((ended.returncode, ended.stdout, ended.stderr), (4, "fault Disk\n", f"fstch: {disk}: permission denied\n"))

    def test_a_check_goes_on_behind_a_slot_that_is_wrong(self):
        make()
        with fstch.open(FILE) as store:
            store.update({b"a": b"1", b"b": b"22"})
        with open(FILE, "r+b") as file:
            file.seek(3 * 4096 + 12)  # (the key in the first frame)
            file.write(b"x")
        told = "fstch: slot 0: BadFrame: key 61 can't be read\nfstch: key 62 can be read, length 2\n"
        self.assertEqual(run("check", FILE), (4, "fault BadFrame 0\n", told))


if __name__ == "__main__":
    unittest.main()
