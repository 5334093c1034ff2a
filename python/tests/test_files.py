"""The words `seal` and `open` of the command: what comes back, what is refused, and that nothing half made is left."""

import contextlib
import errno
import io
import os
import pty
import signal
import stat
import subprocess
import sys
import time
import unittest
from unittest import mock

from common import ENVIRONMENT, PROGRAM, InAFolder, changed, read, write
from hpkebatch import FileFault, SecretKey, files, fingerprint, read_public_key, read_secret_key
from hpkebatch.__main__ import main
from hpkebatch.keys import key_text
from hpkebatch.new_file import NewFile

KEYS = {}
# A process that cuts files into small parts, few of which are done in a run; named scratch files where asked for.
SMALL = """
import os, sys
from hpkebatch import Limits, files, sources
files.CHUNK, files.OF_ONE_RUN = 1000, Limits(input=16_384)
sources.MOST_IN_MEMORY = files.MOST_IN_MEMORY = 20_000
if sys.argv[1] == "named":
    del os.O_TMPFILE
from hpkebatch.__main__ import main
sys.exit(main(sys.argv[2:]))
"""


def setUpModule():
    class Keys(InAFolder):
        def runTest(self):
            for name in ("bob", "eve"):
                self.assertEqual(self.told("keygen", name)[0], 0)
            for name in sorted(os.listdir()):
                KEYS[name] = read(name)

    result = unittest.TestResult()
    Keys().run(result)
    assert not result.failures + result.errors, (result.failures, result.errors)


class WithKeys(InAFolder):
    """In a folder that has keys in it, and no other file."""

    def setUp(self):
        super().setUp()
        os.mkdir("keys")
        for name, data in KEYS.items():
            write(f"keys/{name}", data)

    def told(self, *words):
        """Without the line that says which key a file was sealed to."""
        status, out, err = super().told(*words)
        line = f"hpkebatch: sealing to keys/bob.pub, {fingerprint(read_public_key('keys/bob.pub'))}\n"
        return status, out, err.replace(line, "")

    def seal(self, *words):
        return self.told("seal", "--to", "keys/bob.pub", *words)

    def open(self, *words):
        return self.told("open", "--key", "keys/bob.key", *words)

    def sealed(self, **contents):
        for name, data in contents.items():
            write(name, data)
        self.assertEqual(self.seal(*contents), (0, "", ""))
        for name in contents:
            os.remove(name)

    def left(self):
        return sorted(name for name in os.listdir() if name != "keys")

    def small(self, *words, named=False, **given):
        given = {"env": ENVIRONMENT, "capture_output": True, **given}
        return subprocess.run([sys.executable, "-c", SMALL, "named" if named else "unnamed", *words], **given)


SEAL, OPEN = ("seal", "--to", "keys/bob.pub"), ("open", "--key", "keys/bob.key")


def small_chunks(size=1000):
    return mock.patch.object(files, "CHUNK", size)


class ThereAndBack(WithKeys):
    def test_keygen(self):
        status, out, err = self.told("keygen", "ann")
        self.assertEqual((status, err), (0, ""))
        self.assertIn(fingerprint(read_public_key("ann.pub")), out)
        self.assertEqual(stat.S_IMODE(os.stat("ann.key").st_mode), 0o600)
        before = read("ann.key")
        self.assertEqual(self.told("keygen", "ann")[::2], (1, "hpkebatch: ann.key: it is there already, and isn't written over\n"))
        self.assertEqual(read("ann.key"), before)
        self.assertEqual(self.told("keygen", "--kem", "sntrup857", "eve")[0], 0)
        self.assertEqual(read_public_key("eve.pub").kem.name, "sntrup857")

    def test_files_come_back(self):
        contents = {f"file{size}": os.urandom(size) for size in (0, 1, 999, 1000, 1001, 3999, 4000, 4001, 30_000)}
        with small_chunks():
            self.sealed(**contents)
            self.assertEqual(self.open("-d", "there", *(f"{name}.hpke" for name in contents)), (0, "", ""))
        for name, data in contents.items():
            self.assertEqual(read(f"there/{name}"), data)
            chunks = -(-len(data) // 1000)
            parts = max(1, -(-chunks // 4))
            self.assertEqual(len(read(f"{name}.hpke")), 1112 + len(data) + 16 * (chunks + parts))
        self.assertEqual(sorted(os.listdir("there")), sorted(contents))

    def test_a_file_of_several_runs(self):
        data = os.urandom(1 << 20) * 17 + b"end"
        self.sealed(large=data)
        self.assertEqual(self.open("large.hpke"), (0, "", ""))
        self.assertTrue(read("large") == data)
        os.remove("large")
        with open("large.hpke", "r+b") as file:
            file.seek(5_000_000)
            file.write(b"~~")
        self.assertEqual(
            self.open("large.hpke"), (1, "", "hpkebatch: large.hpke: it is spoilt in its MiB number 5; nothing of it was written\n")
        )
        self.assertEqual(self.left(), ["large.hpke"])

    def test_more_files_than_are_done_at_once(self):
        contents = {f"file{number}": b"%d" % number for number in range(150)}
        self.sealed(**contents)
        self.assertEqual(self.open(*(f"{name}.hpke" for name in contents)), (0, "", ""))
        self.assertTrue(all(read(name) == data for name, data in contents.items()))

    def test_psk_and_info(self):
        write("psk", os.urandom(32))
        write("other", os.urandom(32))
        write("text", b"text")
        both = ("--psk", "psk", "--psk-id", "ours", "--info", "order 7 ä")
        self.assertEqual(self.seal(*both, "text"), (0, "", ""))
        self.assertEqual(self.open(*both, "-o", "new", "text.hpke"), (0, "", ""))
        self.assertEqual(read("new"), b"text")
        for wrong in ((), both[:4], both[4:], ("--psk", "other", *both[2:]), (*both[:2], "--psk-id", "x", *both[4:])):
            status, _, err = self.open(*wrong, "-o", "wrong", "text.hpke")
            self.assertEqual((status, err), (1, "hpkebatch: text.hpke: it doesn't open from its first MiB on: it is spoilt, or psk or info aren't the sender's\n"))
        self.assertIn("--psk FILE and --psk-id TEXT belong together", self.seal("--psk", "psk", "text")[2])
        write("empty", b"")
        self.assertIn("empty: a psk has from 1 to 65,535 bytes", self.seal("--psk", "empty", "--psk-id", "x", "text")[2])
        self.assertEqual(self.left(), ["empty", "new", "other", "psk", "text", "text.hpke"])

    def test_names(self):
        write("text", b"text")
        self.assertEqual(self.seal("-o", "new", "text"), (0, "", ""))
        self.assertEqual(self.open("-o", "back", "new"), (0, "", ""))
        self.assertEqual(read("back"), b"text")
        for words, why in (
            (("new",), "new: the name of a sealed file ends with .hpke: name the file to write by -o"),
            ((".hpke",), ".hpke: the name of a sealed file ends with .hpke"),
            (("-o", "x", "new", "new"), "-o and - are for one FILE alone"),
            (("-", "new"), "-o and - are for one FILE alone"),
            (("-d", "x", "-o", "x", "new"), "not allowed with argument"),
            (("-d", "x", "-"), "standard input has no name for -d: name the file to write by -o"),
            (("none.hpke",), "none.hpke: No such file or directory"),
            (("keys",), "keys: the name"),
            (("-o", "x", "keys"), "keys: Is a directory"),
            (("-o", "no/folder", "new"), "new: not written to no/folder: No such file or directory"),
        ):
            status, out, err = self.open(*words)
            self.assertIn(status, (1, 2))
            self.assertEqual((out, err.count("\n")), ("", 1))
            self.assertIn(why, err)
        self.assertEqual(self.left(), ["back", "new", "text"])

    def test_modes(self):
        """A file that is made gives group and others no right that its source didn't give, and none that the umask takes."""
        self.addCleanup(os.umask, os.umask(0o022))
        for mode, want in ((0o600, 0o600), (0o644, 0o644), (0o666, 0o644), (0o440, 0o640), (0o755, 0o644)):
            write("text", b"text")
            os.chmod("text", mode)
            self.assertEqual(self.seal("text"), (0, "", ""))
            os.remove("text")
            self.assertEqual(self.open("text.hpke"), (0, "", ""))
            self.assertEqual([stat.S_IMODE(os.stat(name).st_mode) for name in ("text.hpke", "text")], [want, want])
            os.remove("text")
            os.remove("text.hpke")


class Streams(WithKeys):
    def test_pipes(self):
        """Of a size that memory holds, and of more than that."""
        for size in (0, 19_999, 90_000):
            data = os.urandom(size)
            sealed = self.small(*SEAL, "-", input=data)
            self.assertEqual(sealed.returncode, 0)
            opened = self.small(*OPEN, "-", input=sealed.stdout)
            self.assertEqual((opened.returncode, opened.stdout, opened.stderr), (0, data, b""))
            write(f"sealed{size}", sealed.stdout)
            self.assertEqual(self.small(*OPEN, "-o", "-", f"sealed{size}").stdout, data)
        self.assertEqual(self.left(), ["sealed0", "sealed19999", "sealed90000"])

    def test_a_file_as_standard_input(self):
        """Also one of which a part was read before."""
        data = os.urandom(50_000)
        self.assertEqual(self.small(*SEAL, "-o", "new", "-", input=data).returncode, 0)
        with open("new", "rb") as file:
            self.assertEqual(self.small(*OPEN, "-o", "back", "-", stdin=file).returncode, 0)
        with open("back", "rb") as file:
            file.seek(100)
            sealed = self.small(*SEAL, "-", stdin=file).stdout
        self.assertEqual((read("back"), self.small(*OPEN, "-", input=sealed).stdout), (data, data[100:]))
        write("behind", b"x" * 100 + sealed)
        with open("behind", "rb") as file:
            file.seek(100)
            self.assertEqual(self.small(*OPEN, "-", stdin=file).stdout, data[100:])

    def test_nothing_is_given_out_before_all_was_checked(self):
        """Not of a text that memory holds, and not of one that is gone through twice."""
        for size in (10_000, 90_000):
            sealed = self.small(*SEAL, "-", input=os.urandom(size)).stdout
            for data in (sealed[:-1], sealed[:-20] + b"~" * 20, sealed + b"~"):
                opened = self.small(*OPEN, "-", input=data)
                self.assertEqual((opened.returncode, opened.stdout), (1, b""))
                self.assertIn(b"hpkebatch: standard input: it is ", opened.stderr)

    def test_a_file_that_changes_between_both_times(self):
        """What is written is what was checked, though the changed file is one of the same sender, key and head."""
        checked = []
        with self.assertRaisesRegex(files.FileFault, "the file changed while it was opened"):
            files.Checked(checked).write([b"a", b"b"])
            files.CheckedAgain(checked).write([b"a", b"c"])

    def test_standard_output_that_is_closed_or_full(self):
        write("text", bytes(3_000_000))
        self.assertEqual(self.seal("text"), (0, "", ""))
        for words in ((*SEAL, "-o", "-", "text"), (*OPEN, "-o", "-", "text.hpke"), ("show", "text.hpke"), ("help",)):
            name = f"{words[-1]}: not written to " if words[0] in ("seal", "open") else ""
            with self.subTest(words), open("/dev/full", "wb") as full:
                done = subprocess.run([sys.executable, "-m", "hpkebatch", *words], env=ENVIRONMENT, stdout=full, stderr=subprocess.PIPE)
                self.assertEqual((done.returncode, done.stderr.splitlines()[-1].decode()), (1, f"hpkebatch: {name}standard output: No space left on device"))
            reader, writer = os.pipe()
            os.close(reader)
            done = subprocess.run([sys.executable, "-m", "hpkebatch", *words], env=ENVIRONMENT, stdout=writer, stderr=subprocess.PIPE)
            os.close(writer)
            self.assertEqual((done.returncode, done.stderr.splitlines()[-1].decode()), (1, f"hpkebatch: {name}standard output: Broken pipe"))


class Spoilt(WithKeys):
    def test_each_byte_of_a_sealed_file_counts(self):
        with small_chunks(40):
            self.sealed(one=os.urandom(300))
            data = read("one.hpke")
            for at in range(len(data)):
                write(f"spoilt{at}.hpke", changed(data, at))
            names = [f"spoilt{at}.hpke" for at in range(len(data))]
            status, _, told = self.open("one.hpke", *names)
            self.assertEqual(status, 1)
            self.assertEqual([line.split(": ")[1] for line in told.splitlines()], names)
            self.assertEqual([name for name in self.left() if not name.endswith(".hpke")], ["one"])

    def test_each_length_counts(self):
        """A byte left out, a byte doubled, and a cut after each byte."""
        with small_chunks(40):
            self.sealed(one=os.urandom(100))
            data, key = read("one.hpke"), read_secret_key("keys/bob.key")
            for at in range(len(data)):
                write("left.hpke", data[:at] + data[at + 1 :])
                write("twice.hpke", data[: at + 1] + data[at:])
                write("cut.hpke", data[:at])
                names = ["left.hpke", "twice.hpke", "cut.hpke"]
                with contextlib.redirect_stderr(io.StringIO()) as told:
                    work = files.Opening([files.Job(name, name[:-5]) for name in names], key, lambda more: None, runner=refusing)
                    faults = work.run()
                self.assertEqual(([fault.path for fault in faults], told.getvalue()), (names, ""))
            self.assertEqual(self.left(), ["cut.hpke", "left.hpke", "one.hpke", "twice.hpke"])

    def test_spoilt_files_are_told_by_name(self):
        with small_chunks():
            self.sealed(a=os.urandom(20_000), b=b"text", c=os.urandom(3000), d=b"")
            a, b, c, d = (read(f"{name}.hpke") for name in "abcd")
            write("a.hpke", changed(a, 12_000))
            write("b.hpke", b[:-1])
            write("e.hpke", c + b"~")
            write("f.hpke", b"text")
            write("h.hpke", d[:-1] + bytes([d[-1] ^ 1]))
            write("i.hpke", b"hpkebatch sealed 1\n" + d[19:])
            write("g", b"text")
            names = [f"{name}.hpke" for name in "abcdefhix"]
            status, _, told = self.open(*names)
        self.assertEqual(status, 1)
        self.assertEqual(
            told.splitlines(),
            [
                "hpkebatch: a.hpke: it is spoilt in its MiB number 11; nothing of it was written",
                f"hpkebatch: b.hpke: it is spoilt: cut, {len(b) - 1:,} bytes in place of {len(b):,}",
                f"hpkebatch: e.hpke: it is spoilt: too long, {len(c) + 1:,} bytes in place of {len(c):,}",
                "hpkebatch: f.hpke: it isn't a sealed file of hpkebatch",
                "hpkebatch: h.hpke: it is cut or spliced, or psk or info aren't the sender's: the end mark of its part 0 doesn't open",
                "hpkebatch: i.hpke: it was sealed by hpkebatch 0.2.0, whose form isn't read any more",
                "hpkebatch: x.hpke: No such file or directory",
            ],
        )
        self.assertEqual([name for name in self.left() if "." not in name], ["c", "d", "g"])

    def test_another_key(self):
        self.told("keygen", "--kem", "sntrup857", "ann")
        self.sealed(text=b"text")
        status, _, told = self.told("open", "--key", "keys/eve.key", "text.hpke")
        bob, eve = (fingerprint(read_public_key(f"keys/{name}.pub"))[:19] for name in ("bob", "eve"))
        self.assertEqual((status, told), (1, f"hpkebatch: text.hpke: it was sealed to another key: to {bob} .., and this key is {eve} ..\n"))
        self.assertIn("text.hpke: it was sealed to another key: to", self.told("open", "--key", "ann.key", "text.hpke")[2])
        self.assertIn("keys/bob.pub: it holds a public key, and a secret key is wanted here", self.told("open", "--key", "keys/bob.pub", "text.hpke")[2])
        self.assertIn("keys/bob.key: it holds a secret key, and a public key is wanted here", self.told("seal", "--to", "keys/bob.key", "text.hpke")[2])
        self.assertFalse(os.path.exists("text"))

    def test_a_key_whose_polynomials_are_spoilt_is_named(self):
        self.sealed(text=b"text")
        write("bad.key", key_text(SecretKey(b"\xff" * 382 + read_secret_key("keys/bob.key").data[382:])))
        self.assertEqual(self.told("open", "--key", "bad.key", "text.hpke")[::2], (1, "hpkebatch: bad.key: the secret key is spoilt: its polynomials aren't those of a key\n"))


def refusing(words, pieces):
    raise AssertionError("nothing was to be run")


class NothingIsWrittenOver(WithKeys):
    def test_a_file_that_is_there(self):
        self.sealed(text=b"text")
        write("text", b"newer")
        for words in ((*SEAL, "text"), (*OPEN, "text.hpke")):
            status, _, told = self.told(*words)
            target = words[-1] + ".hpke" if words[0] == "seal" else "text"
            self.assertEqual((status, told), (1, f"hpkebatch: {words[-1]}: not written to {target}: it is there already, and isn't written over\n"))
        self.assertEqual(read("text"), b"newer")
        os.symlink("nowhere", "link")
        self.assertEqual(self.open("-o", "link", "text.hpke")[0], 1)
        self.assertFalse(os.path.exists("nowhere"))
        os.mkdir("other")
        write("other/text", b"other")
        os.mkdir("there")
        status, _, told = self.seal("-d", "there", "text", "other/text")
        self.assertEqual((status, told), (1, "hpkebatch: other/text: not written to there/text.hpke: it is there already, and isn't written over\n"))
        self.assertEqual(os.listdir("there"), ["text.hpke"])

    def test_a_file_that_appears_meanwhile(self):
        """While the second run is under way: the one that seals or opens the parts."""
        self.script("program", f'n=$(ls runs | wc -l); : >runs/$n; [ $n = 0 ] || echo precious >"$TARGET"; exec {PROGRAM} "$@"')
        self.sealed(text=b"text")
        write("other", b"other")
        for words, target in ((SEAL + ("other",), "other.hpke"), (OPEN + ("text.hpke",), "text")):
            for named in (False, True):
                os.makedirs("runs")
                environment = {**ENVIRONMENT, "HPKEBATCH": os.path.abspath("program"), "TARGET": target}
                done = self.small(*words, named=named, env=environment)
                self.assertEqual(done.returncode, 1)
                self.assertIn(f"not written to {target}: it is there already, and isn't written over".encode(), done.stderr)
                self.assertEqual(read(target), b"precious\n")
                os.remove(target)
                for name in os.listdir("runs"):
                    os.remove(f"runs/{name}")
                os.rmdir("runs")
        self.assertEqual(self.left(), ["other", "program", "text.hpke"])

    def script(self, name, text):
        write(name, b"#!/bin/sh\n" + text.encode() + b"\n")
        os.chmod(name, 0o755)

    def test_where_there_are_no_links(self):
        """By a rename that replaces nothing, or a claim of the name: nothing is written over, and nothing is left."""
        refused = OSError(errno.EPERM, "Operation not permitted")
        for renames in (True, False):
            with contextlib.ExitStack() as patches:
                patches.enter_context(mock.patch.object(os, "O_TMPFILE", os.O_RDONLY | os.O_DIRECTORY))  # refused with O_WRONLY
                patches.enter_context(mock.patch.object(os, "link", side_effect=refused))
                if not renames:
                    patches.enter_context(mock.patch("ctypes.CDLL", return_value=object()))
                file = NewFile("new")
                self.assertEqual([stat.S_IMODE(os.stat(name).st_mode) for name in self.left()], [0o600])
                file.write([b"text"])
                file.finish()
                self.assertEqual((read("new"), self.left()), (b"text", ["new"]))
                file, other = NewFile("one"), NewFile("two")
                write("one", b"precious")
                with self.assertRaisesRegex(FileFault, "it is there already"):
                    file.finish()
                file.close()
                other.close()
                self.assertEqual((read("one"), self.left()), (b"precious", ["new", "one"]))
                os.remove("new")
                os.remove("one")


class Ended(WithKeys):
    """By a signal, a full disk, or the program."""

    def test_signals_leave_nothing(self):
        """The program of the third run waits, so that a part of the file is written by then. What runs the tests may ignore the signals."""
        script = f"import signal\nfor it in (signal.SIGTERM, signal.SIGINT, signal.SIGHUP): signal.signal(it, signal.SIG_DFL)\n{SMALL}"
        write("text", os.urandom(30_000))
        self.assertEqual(self.small(*SEAL, "-o", "sealed.hpke", "text").returncode, 0)
        write("program", f'#!/bin/sh\nn=$(ls runs | wc -l); : >runs/$n; [ $n -lt 3 ] || exec sleep 60; exec {PROGRAM} "$@"\n'.encode())
        os.chmod("program", 0o755)
        before = self.left()
        environment = {**ENVIRONMENT, "HPKEBATCH": os.path.abspath("program")}
        for words in ((*SEAL, "text"), (*OPEN, "sealed.hpke")):
            for named in ("named", "unnamed"):
                for number in (signal.SIGTERM, signal.SIGINT, signal.SIGHUP):
                    os.mkdir("runs")
                    process = subprocess.Popen([sys.executable, "-c", script, named, *words], env=environment, stderr=subprocess.PIPE)
                    while len(os.listdir("runs")) < 4:
                        time.sleep(0.01)
                    scratch = [name for name in os.listdir() if name.endswith(".part")]
                    self.assertEqual([stat.S_IMODE(os.stat(name).st_mode) for name in scratch], [0o600] * (named == "named"))
                    process.send_signal(number)
                    errors = process.communicate()[1]
                    with self.subTest(words=words, named=named, number=number):
                        self.assertEqual(process.returncode, -number)
                        self.assertNotIn(b"Traceback", errors)
                        for name in os.listdir("runs"):
                            os.remove(f"runs/{name}")
                        os.rmdir("runs")
                        self.assertEqual(self.left(), before)

    def test_an_ignored_signal_stays_ignored(self):
        """As under nohup."""
        write("text", b"text")
        script = f"import os, signal, sys; signal.signal(signal.SIGHUP, signal.SIG_IGN)\n{SMALL}"
        write("program", f'#!/bin/sh\nkill -HUP $PPID; exec {PROGRAM} "$@"\n'.encode())
        os.chmod("program", 0o755)
        environment = {**ENVIRONMENT, "HPKEBATCH": os.path.abspath("program")}
        done = subprocess.run([sys.executable, "-c", script, "unnamed", *SEAL, "text"], env=environment, capture_output=True)
        self.assertEqual(done.returncode, 0)
        self.assertIn("text.hpke", self.left())

    def limited(self, *words, named):
        """By a process that may write no file of more than 60,000 bytes."""
        script = "import resource; resource.setrlimit(resource.RLIMIT_FSIZE, (60_000, 60_000))\n" + SMALL
        return subprocess.run([sys.executable, "-c", script, "named" if named else "unnamed", *words], env=ENVIRONMENT, capture_output=True)

    def test_a_file_that_gets_too_long_is_named_and_others_go_on(self):
        write("large", os.urandom(100_000))
        write("little", b"little")
        self.assertEqual(self.small(*SEAL, "-d", "sealed", "large", "little").returncode, 0)
        for named in (False, True):
            done = self.limited(*SEAL, "-d", "one", "large", "little", named=named)
            self.assertEqual(done.returncode, 1)
            self.assertEqual(done.stderr.splitlines()[1:], [b"hpkebatch: large: not written to one/large.hpke: File too large"])
            self.assertEqual(os.listdir("one"), ["little.hpke"])
            done = self.limited(*OPEN, "-d", "two", "sealed/large.hpke", "sealed/little.hpke", named=named)
            self.assertEqual((done.returncode, done.stderr), (1, b"hpkebatch: sealed/large.hpke: not written to two/large: File too large\n"))
            self.assertEqual(os.listdir("two"), ["little"])
            for name in ("one/little.hpke", "two/little"):
                os.remove(name)

    def test_a_full_disk(self):
        os.mkdir("disk")
        mounted = subprocess.run(["mount", "-t", "tmpfs", "-o", "size=64k", "tmpfs", "disk"], capture_output=True).returncode == 0
        if not mounted:
            self.skipTest("no file system can be mounted here")
        self.addCleanup(subprocess.run, ["umount", "-l", "disk"], check=True)
        write("large", os.urandom(100_000))
        write("little", b"little")
        self.assertEqual(self.small(*SEAL, "large", "little").returncode, 0)
        for named in (False, True):
            done = self.small(*OPEN, "-d", "disk", "large.hpke", "little.hpke", named=named)
            self.assertEqual((done.returncode, done.stderr), (1, b"hpkebatch: large.hpke: not written to disk/large: No space left on device\n"))
            self.assertEqual(os.listdir("disk"), ["little"])
            os.remove("disk/little")
        write("disk/filled", bytes(os.statvfs("disk").f_bavail * os.statvfs("disk").f_bsize))
        done = self.small("keygen", "disk/ann")
        self.assertEqual((done.returncode, done.stderr), (1, b"hpkebatch: disk/ann.key: No space left on device\n"))
        self.assertEqual(os.listdir("disk"), ["filled"])

    def test_a_fault_of_the_program_is_told_with_the_file(self):
        write("text", b"text")
        write("program", f'#!/bin/sh\n[ -e ran ] && exit 6; : >ran; exec {PROGRAM} "$@"\n'.encode())
        os.chmod("program", 0o755)
        with contextlib.redirect_stderr(io.StringIO()) as told:
            self.assertEqual(main(["--program", "./program", *SEAL, "text"]), 1)
        self.assertIn("hpkebatch: text: hpkebatch ended with status 6", told.getvalue())
        self.assertEqual(self.left(), ["program", "ran", "text"])


class Bar(WithKeys):
    def test_a_bar_is_drawn_on_a_terminal_alone(self):
        write("text", bytes(100_000))
        script = "from hpkebatch import progress; progress.PATIENCE = progress.PAUSE = 0\n" + SMALL
        words = [sys.executable, "-c", script, "unnamed", *SEAL, "text"]
        self.assertNotIn(b"[", subprocess.run(words, env=ENVIRONMENT, capture_output=True).stderr)
        os.remove("text.hpke")
        ours, theirs = pty.openpty()
        subprocess.run(words, env=ENVIRONMENT, stderr=theirs, check=True)
        os.close(theirs)
        self.assertIn(b"\rsealed [##############################] 0 of 0 MiB", os.read(ours, 65_536))
        os.close(ours)


if __name__ == "__main__":
    unittest.main()
