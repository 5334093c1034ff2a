"""What the tests share: the built program, the stored examples, folders to work in, and runners that stand in for the program."""

import atexit
import contextlib
import glob
import importlib.util
import io
import os
import shutil
import subprocess
import sys
import tempfile
import unittest
from collections import namedtuple

from hpkebatch import Command, Finished
from hpkebatch.__main__ import main
from hpkebatch.shared_library import find_library

HERE = os.path.dirname(os.path.abspath(__file__))
HOME = os.path.dirname(os.path.dirname(HERE))
PACKAGE = os.path.dirname(HERE)
PROGRAM = os.path.abspath(os.environ.get("HPKEBATCH", os.path.join(HOME, "crates/hpkebatch/out/hpkebatch")))
# Where processes that tests start keep what they compiled of the package.
CACHE = tempfile.mkdtemp()
atexit.register(shutil.rmtree, CACHE)
ENVIRONMENT = {**os.environ, "PYTHONPATH": PACKAGE, "HPKEBATCH": PROGRAM, "PYTHONPYCACHEPREFIX": CACHE}
ENVIRONMENT.pop("PYTHONDONTWRITEBYTECODE", None)
command = Command(PROGRAM)
# What seal, open, export and generate_key go by in these tests: HPKEBATCH_WAY makes it the library.
runner = None if os.environ.get("HPKEBATCH_WAY") == "library" else command

Example = namedtuple("Example", "name words batch reply")


def needs_second_program():
    """Skips a test, or the rest of one, where tools/reference can't run: it needs a module that isn't Python's own."""
    if importlib.util.find_spec("cryptography") is None:
        raise unittest.SkipTest("the module cryptography is not installed")


def needs_library():
    """The library for C. Where there is none, and none was named, the test is skipped."""
    library = find_library()
    if library is None:
        raise unittest.SkipTest("there is no library for C here")
    return library


def read(path):
    with open(path, "rb") as file:
        return file.read()


def write(path, data):
    with open(path, "wb") as file:
        file.write(data)


def examples():
    """The stored examples whose batch is a good one."""
    for path in sorted(glob.glob(os.path.join(HOME, "examples/*.batch"))):
        front = path[: -len(".batch")]
        words = read(front + ".words").decode().split() if os.path.exists(front + ".words") else ["run"]
        reply = read(front + ".reply")
        if not reply.startswith(b"bad "):
            yield Example(os.path.basename(front), words, read(path), reply)


def example(name):
    return next(it for it in examples() if it.name == name)


def changed(data, at, bit=1):
    """The bytes with a bit of one of them turned."""
    at %= len(data)
    return data[:at] + bytes([data[at] ^ bit]) + data[at + 1 :]


def spoilt(data):
    """The bytes with one of them changed, left out or doubled, and cut after each; with what was done."""
    for at in range(len(data)):
        yield f"changed at {at}", changed(data, at)
        yield f"changed high at {at}", changed(data, at, 0x80)
        yield f"left out at {at}", data[:at] + data[at + 1 :]
        yield f"doubled at {at}", data[: at + 1] + data[at:]
        yield f"cut at {at}", data[:at]
    yield "one byte more", data + b"\0"


class InAFolder(unittest.TestCase):
    """A test in a folder of its own."""

    def setUp(self):
        folder = tempfile.TemporaryDirectory()
        self.addCleanup(folder.cleanup)
        self.addCleanup(os.chdir, os.getcwd())
        os.chdir(folder.name)

    def told(self, *words):
        """Status, standard output and standard error of the command, in this process."""
        out, err = io.StringIO(), io.StringIO()
        with contextlib.redirect_stdout(out), contextlib.redirect_stderr(err):
            status = main(["--program", PROGRAM, *words])
        return status, out.getvalue(), err.getvalue()

    def run_command(self, *words, **given):
        """The same in a process of its own."""
        given.setdefault("env", ENVIRONMENT)
        return subprocess.run([sys.executable, "-m", "hpkebatch", *words], capture_output=True, **given)


class Told:
    """A runner that gives a stored output, and keeps what it was asked."""

    def __init__(self, output=b"", status=0, errors=b""):
        self.finished, self.asked = Finished(status, output, errors), []

    def __call__(self, words, pieces):
        self.asked.append((list(words), b"".join(pieces)))
        return self.finished
