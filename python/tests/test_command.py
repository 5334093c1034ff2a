"""How the command is found, and what its statuses become."""

import os
import tempfile
import unittest
from unittest import mock

from common import HOME, PROGRAM, Told
from hpkebatch import (
    AlreadyRun,
    BadBatch,
    Batch,
    BuildFailed,
    Command,
    CommandNotFound,
    IllegalReply,
    OutOfMemory,
    ReadFault,
    RunFailed,
    UsageError,
    WriteFault,
    find_command,
)
from hpkebatch import command as module
from hpkebatch.command import output_of


def script(folder, name, text):
    path = os.path.join(folder, name)
    with open(path, "w") as file:
        file.write("#!/bin/sh\n" + text)
    os.chmod(path, 0o755)
    return path


class Finding(unittest.TestCase):
    def test_argument_environment_path_and_launcher(self):
        with tempfile.TemporaryDirectory() as folder:
            there = script(folder, "hpkebatch", "exit 0\n")
            with mock.patch.dict(os.environ, {"HPKEBATCH": "/named", "PATH": folder}):
                self.assertEqual(find_command("given"), "given")
                self.assertEqual(find_command(), "/named")
                del os.environ["HPKEBATCH"]
                self.assertEqual(find_command(), there)
                os.environ["PATH"] = "/nowhere"
                self.assertEqual(find_command(), os.path.join(HOME, "hpkebatch"))
                with mock.patch.object(module, "REPOSITORY", "/nowhere"), self.assertRaises(CommandNotFound):
                    find_command()

    def test_the_wheels_program_and_never_this_script_itself(self):
        with tempfile.TemporaryDirectory() as folder, tempfile.TemporaryDirectory() as other:
            own, there = script(folder, "hpkebatch", "exit 0\n"), script(other, "hpkebatch", "exit 0\n")
            with mock.patch.dict(os.environ, {"PATH": f"{folder}:{other}"}), mock.patch("sys.argv", [own]):
                os.environ.pop("HPKEBATCH", None)
                self.assertEqual(find_command(), there)
                with mock.patch.object(module, "HERE", folder):
                    os.mkdir(os.path.join(folder, "program"))
                    packed = script(os.path.join(folder, "program"), "hpkebatch", "exit 0\n")
                    self.assertEqual(find_command(), packed)

    def test_a_command_that_is_not_there(self):
        for path in ("/nowhere/hpkebatch", os.path.dirname(PROGRAM)):
            with self.assertRaises(CommandNotFound):
                Batch().run(runner=Command(path))


class Statuses(unittest.TestCase):
    def test_each_is_an_exception(self):
        for status, kind in ((2, UsageError), (4, ReadFault), (5, WriteFault), (6, OutOfMemory), (125, BuildFailed), (1, RunFailed)):
            with self.assertRaises(kind) as raised:
                Batch().run(runner=Told(b"a front", status, b"hpkebatch: why\n"))
            self.assertEqual((raised.exception.status, raised.exception.said), (status, "hpkebatch: why"))
        with self.assertRaises(BadBatch) as bad:
            Batch().run(runner=Told(b"bad 0 size\n", 3))
        self.assertEqual((bad.exception.line, bad.exception.reason), (0, "size"))
        with self.assertRaises(IllegalReply) as broken:
            Batch().run(runner=Told(b"broken stamps\n", 7))
        self.assertEqual((broken.exception.kind, broken.exception.at), ("stamps", None))

    def test_the_program_has_these_statuses(self):
        with self.assertRaises(UsageError):
            output_of(Command(PROGRAM), ["run", "--workers", "17"], [])
        with tempfile.TemporaryDirectory() as folder:
            killed = Command(script(folder, "killed", "kill -9 $$\n"))
            with self.assertRaises(RunFailed) as raised:
                Batch().run(runner=killed)
            self.assertEqual(raised.exception.status, -9)

    def test_a_reply_that_cannot_be_read_was_written(self):
        batch = Batch()
        context = batch.share("send", 32, b"s" * 32)
        for _ in range(2):
            batch.lane().seal(context, b"text")
        with mock.patch.object(module, "mmap", side_effect=OSError(12, "Cannot allocate memory")):
            with self.assertRaises(RunFailed) as raised:
                batch.run(runner=Command(PROGRAM))
        self.assertIn("its reply can't be read", str(raised.exception))
        with self.assertRaises(AlreadyRun):
            batch.run(runner=Command(PROGRAM))

    def test_pipes_do_as_well(self):
        batch = Batch(version=1)
        with mock.patch.object(module, "_run_in_memory", module._run_by_pipes):
            self.assertEqual(batch.run(runner=Command(PROGRAM)).text(), b"hpkebatch 1\nend\n")


if __name__ == "__main__":
    unittest.main()
