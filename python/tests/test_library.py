"""How the library for C is found, and which way a call goes: by the library or by the command."""

import contextlib
import io
import os
import shutil
import subprocess
import sys
import tempfile
import unittest
import zipfile
from unittest import mock

import hpkebatch
from common import HOME, PACKAGE, PROGRAM, changed, command, needs_library
from hpkebatch import SNTRUP857, Aead, Kdf, KeyRefused, LibraryNotFound, Psk, Recipient, Sender, direct, files, parts
from hpkebatch import shared_library as library
from hpkebatch.contexts import key_pair
from hpkebatch.parts import PartTask, RootAsked
from hpkebatch.sealed import Suite
from hpkebatch.ways import is_direct

NAME = "libhpkebatch.so.0"


class Finding(unittest.TestCase):
    @classmethod
    def setUpClass(cls):
        cls.library = needs_library().path

    def setUp(self):
        environment = mock.patch.dict(os.environ)
        environment.start()
        self.addCleanup(environment.stop)
        known = mock.patch.object(library, "_known", {})
        known.start()
        self.addCleanup(known.stop)
        folder = tempfile.TemporaryDirectory()
        self.addCleanup(folder.cleanup)
        self.folder = folder.name

    def put(self, path):
        whole = os.path.join(self.folder, path)
        os.makedirs(os.path.dirname(whole), exist_ok=True)
        shutil.copy(self.library, whole)
        os.environ.pop("HPKEBATCH_LIBRARY", None)
        return whole

    def at(self, modules):
        """As if the package's modules stood in this folder."""
        here = os.path.join(self.folder, modules)
        home = os.path.dirname(os.path.dirname(here))
        return mock.patch.multiple(library, HERE=here, REPOSITORY=home)

    def test_places(self):
        """The wheel's, that of the archive, and the Debian package's; the variable goes before all."""
        for modules, place in (
            ("site-packages/hpkebatch", "site-packages/hpkebatch/library"),
            ("hpkebatch-1/python/hpkebatch", "hpkebatch-1/lib"),
            ("usr/lib/python3/dist-packages/hpkebatch", "usr/lib/x86_64-linux-gnu"),
        ):
            path = self.put(f"{place}/{NAME}")
            named = self.put(f"{place}/named.so")
            library._known.clear()
            with self.at(modules):
                self.assertEqual(os.path.realpath(library.find_library().path), os.path.realpath(path))
                os.environ["HPKEBATCH_LIBRARY"] = named
                self.assertEqual(library.find_library().path, named)

    def test_another_folder_named_lib_is_not_debians(self):
        self.put(f"usr/lib/x86_64-linux-gnu/{NAME}")
        with self.at("usr/lib/python3.11/site-packages/hpkebatch"):
            self.assertIsNone(library.find_library())

    def test_a_named_library_has_to_load(self):
        text = os.path.join(self.folder, "text.so")
        with open(text, "w") as file:
            file.write("no library")
        with open("/proc/self/maps") as maps:
            another = next(line.split()[-1] for line in maps if "/libc" in line)
        for path, why in ((text, "(invalid ELF header|file too short)"), ("/nowhere.so", "cannot open shared object"), (another, "undefined symbol")):
            os.environ["HPKEBATCH_LIBRARY"] = path
            os.environ.pop("HPKEBATCH_WAY", None)
            for call in (lambda: Sender(bytes(1158)), hpkebatch.generate_key, lambda: hpkebatch.seal([], to=bytes(1158))):
                with self.assertRaisesRegex(LibraryNotFound, f"{why}.*install a package") as told:
                    call()
            self.assertIn(told.exception.why, str(told.exception))

    def test_without_one_all_goes_by_the_command(self):
        os.environ.pop("HPKEBATCH_LIBRARY", None)
        os.environ.pop("HPKEBATCH_WAY", None)
        os.environ["HPKEBATCH"] = PROGRAM
        with self.at("site-packages/hpkebatch"):
            pair = hpkebatch.generate_key()
            sealed = hpkebatch.seal([b"one"], to=pair.public)
            self.assertEqual(hpkebatch.open(sealed, key=pair.secret), [b"one"])
            for call in (lambda: Sender(pair.public), lambda: Recipient(bytes(1039), pair.secret)):
                with self.assertRaisesRegex(LibraryNotFound, f"this package has no {NAME}.*HPKEBATCH_LIBRARY"):
                    call()
            os.environ["HPKEBATCH_WAY"] = "library"
            with self.assertRaises(LibraryNotFound):
                hpkebatch.generate_key()

    def test_a_processor_that_does_not_fit(self):
        self.put(f"p/hpkebatch/library/{NAME}")
        with self.at("p/hpkebatch"):
            for given, why in (({"FLAGS": library.FLAGS | {"none"}}, "x86-64-v2"), ({"platform": mock.Mock(machine=lambda: "aarch64")}, "not for aarch64")):
                library._known.clear()
                with mock.patch.multiple(library, **given), self.assertRaisesRegex(LibraryNotFound, why):
                    library.need_library()

    def test_an_import_builds_and_loads_nothing(self):
        code = "import sys; seen = []; sys.addaudithook(lambda event, given: seen.append((event, given)))\n"
        code += "import hpkebatch\n"
        code += "bad = [it for it in seen if it[0] == 'subprocess.Popen' or it[0] == 'ctypes.dlopen' and it[1][0] is not None]\n"
        code += "sys.exit(f'{bad}' if bad else 0)"
        done = subprocess.run([sys.executable, "-c", code], env={**os.environ, "PYTHONPATH": PACKAGE}, capture_output=True, check=False)
        self.assertEqual((done.returncode, done.stderr), (0, b""))

    def test_it_is_looked_for_once(self):
        os.environ.pop("HPKEBATCH_LIBRARY", None)
        with mock.patch.object(library, "made", return_value=(None, "no such one")) as made, self.at("p/hpkebatch"):
            for _ in range(3):
                self.assertIsNone(library.find_library())
            self.assertEqual(made.call_count, 1)


class Wheel(unittest.TestCase):
    """What `pip install ./python` installs."""

    def wheel(self, folder):
        sys.path.insert(0, PACKAGE)
        self.addCleanup(sys.path.remove, PACKAGE)
        import wheel_of_hpkebatch

        name = wheel_of_hpkebatch.build_wheel(folder)
        with zipfile.ZipFile(os.path.join(folder, name)) as file:
            return name, {it: file.read(it) for it in file.namelist()}

    def test_a_clones_wheel_has_the_library(self):
        with mock.patch.dict(os.environ), tempfile.TemporaryDirectory() as folder:
            os.environ.pop("HPKEBATCH_LIBRARY", None)
            path, why = library.made()
            name, files = self.wheel(folder)
            if path is None:
                self.skipTest(why)
            with open(path, "rb") as file:
                self.assertEqual(files[f"hpkebatch/library/{NAME}"], file.read())
            self.assertIn("linux_x86_64", name)
            self.assertIn(b"Tag: py3-none-linux_x86_64", files[f"hpkebatch-{hpkebatch.__version__}.dist-info/WHEEL"])

    def test_where_none_can_be_made_it_has_the_modules(self):
        told = io.StringIO()
        with mock.patch.dict(os.environ, {"HPKEBATCH_PROVE": "1"}), tempfile.TemporaryDirectory() as folder:
            with contextlib.redirect_stderr(told):
                name, files = self.wheel(folder)
            self.assertIn("no library is made here: HPKEBATCH_PROVE is set", told.getvalue())
            self.assertIn("py3-none-any", name)
            self.assertIn("hpkebatch/contexts.py", files)
            self.assertNotIn(f"hpkebatch/library/{NAME}", files)


class OfTheClone(unittest.TestCase):
    """A clone's library is made of its dist, once, and isn't given where the sources are others."""

    PARTS = ("crates.txt", "HANDLES", "crates", "dist", "include", "tools", "python")

    @classmethod
    def setUpClass(cls):
        for tool in ("cc", "ld", "objcopy", "ar", "flock"):
            if shutil.which(tool) is None:
                raise unittest.SkipTest(f"{tool} is not installed")
        cls.folder = tempfile.TemporaryDirectory()
        cls.addClassCleanup(cls.folder.cleanup)
        cls.clone = os.path.join(cls.folder.name, "clone")
        os.mkdir(cls.clone)
        words = ["tar", "-c", "--exclude=out", "--exclude=must-fail", "--exclude=__pycache__", *cls.PARTS]
        packed = subprocess.run(words, cwd=HOME, stdout=subprocess.PIPE, check=True)
        subprocess.run(["tar", "-x", "-C", cls.clone], input=packed.stdout, check=True)
        first = cls.provide()
        if b"is of other sources" in first.stderr:
            raise unittest.SkipTest("dist is of other sources")
        cls.first = first

    @classmethod
    def provide(cls, **given):
        environment = {name: value for name, value in os.environ.items() if not name.startswith("HPKEBATCH")}
        words = [os.path.join(cls.clone, "python/provide_library")]
        return subprocess.run(words, env={**environment, **given}, capture_output=True, check=False)

    def given(self, **variables):
        done = self.provide(**variables)
        self.assertEqual((done.returncode, done.stderr), (0, b""))
        path = done.stdout.decode().rstrip("\n")
        return os.stat(path).st_ino

    def refused(self, why, **variables):
        done = self.provide(**variables)
        self.assertEqual((done.returncode, done.stdout), (1, b""))
        self.assertRegex(done.stderr.decode(), f"^no library is made here: .*{why}")

    def test_it_is_made_once_and_never_stale(self):
        self.assertEqual(self.first.returncode, 0, self.first.stderr)
        made = self.given()
        self.assertEqual(self.given(), made)
        source = os.path.join(self.clone, "crates/hpkebatch_c/src/contexts.rt")
        self.after(source, b"// another\n", lambda: self.refused("is of other sources"))
        self.assertEqual(self.given(), made)
        text = os.path.join(self.clone, "dist/hpkebatch_c-x86-64-v2.s")
        self.after(text, b"# another\n", lambda: self.refused("isn't as tools/make_dist wrote it"))
        self.assertEqual(self.given(), made)
        self.after(os.path.join(self.clone, "dist/parts.c"), b"// another\n", lambda: self.assertNotEqual(self.given(), made))
        self.refused("HPKEBATCH_PROVE is set", HPKEBATCH_PROVE="1")
        self.assertEqual(os.listdir(os.path.join(self.clone, "crates/hpkebatch_c/out/shared")).count(NAME), 1)

    def after(self, path, more, work):
        """Does it while a file has more at its end."""
        with open(path, "rb") as file:
            before = file.read()
        try:
            with open(path, "ab") as file:
                file.write(more)
            work()
        finally:
            with open(path, "wb") as file:
                file.write(before)

    def test_two_processes_at_once(self):
        shutil.rmtree(os.path.join(self.clone, "crates/hpkebatch_c/out"), ignore_errors=True)
        script = os.path.join(self.clone, "python/provide_library")
        environment = {name: value for name, value in os.environ.items() if not name.startswith("HPKEBATCH")}
        started = [subprocess.Popen([script], env=environment, stdout=subprocess.PIPE, stderr=subprocess.PIPE) for _ in range(3)]
        told = [it.communicate() for it in started]
        self.assertEqual(told, [told[0]] * 3)
        self.assertEqual(told[0][1], b"")
        found = sorted(os.listdir(os.path.join(self.clone, "crates/hpkebatch_c/out/shared")))
        self.assertEqual(found, [NAME, f"{NAME}.seen", f"{NAME}.sources"])

    def test_without_a_compiler_the_reason_is_told(self):
        shutil.rmtree(os.path.join(self.clone, "crates/hpkebatch_c/out"), ignore_errors=True)
        self.refused("no C compiler is on the PATH", CC="none-such")
        self.refused("false failed", CC="false")
        self.given()


class Ways(unittest.TestCase):
    """The library's way and the command's give the same."""

    @classmethod
    def setUpClass(cls):
        needs_library()
        cls.pair = key_pair()

    def way(self, word):
        return mock.patch.dict(os.environ, {"HPKEBATCH_WAY": word, "HPKEBATCH": PROGRAM})

    def test_words(self):
        for word, is_so in (("library", True), ("command", False), ("", True)):
            with self.way(word):
                self.assertEqual((is_direct(None), is_direct(command)), (is_so, False))
        with self.way("both"), self.assertRaisesRegex(ValueError, "HPKEBATCH_WAY is 'both'"):
            hpkebatch.generate_key()

    def test_the_command_starts_nothing_by_the_library_and_the_other_way_round(self):
        with self.way("library"), mock.patch.dict(os.environ, {"HPKEBATCH": "/nowhere"}):
            sealed = hpkebatch.seal([b"one"], to=self.pair.public)
            self.assertEqual(hpkebatch.open(sealed, key=self.pair.secret), [b"one"])
            hpkebatch.generate_key()
            hpkebatch.export(b"", 1, to=self.pair.public)
        with self.way("command"), mock.patch.dict(os.environ, {"HPKEBATCH_LIBRARY": "/nowhere"}):
            self.assertEqual(hpkebatch.open(sealed, key=self.pair.secret), [b"one"])
            hpkebatch.generate_key()

    def tasks(self):
        """Parts of several suites, with and without associated data; one has no message."""
        for place, (kem, kdf, aead) in enumerate((kem, kdf, aead) for kem in (self.pair.public.kem, SNTRUP857) for kdf in Kdf for aead in (1, 2)):
            texts = [b"%d" % n * n for n in range(place)]
            aads = [b"a%d" % n for n in range(place)] if place % 2 else None
            yield PartTask(Suite(kem, kdf, Aead(aead)), b"%032d" % place, b"info %d" % place, texts, aads)

    def test_parts_have_the_same_bytes(self):
        tasks = list(self.tasks())
        sealed = direct.seal_parts(tasks)
        self.assertEqual(sealed, parts.seal_parts(tasks, command))
        to_open = [it._replace(texts=made.ciphertexts, end=made.end) for it, made in zip(tasks, sealed)]
        opened = direct.open_parts(to_open)
        self.assertEqual(opened, parts.open_parts(to_open, command))
        self.assertEqual([it.texts for it in opened], [it.texts for it in tasks])
        self.assertTrue(all(it.is_whole for it in opened))

    def test_spoilt_parts_open_as_far(self):
        task = list(self.tasks())[5]
        (made,) = direct.seal_parts([task])
        cts, spoilt = list(made.ciphertexts), []
        for place, ct in enumerate(cts):
            for wrong in (changed(ct, 0), changed(ct, -1), ct[:-1], ct[:15], b"", ct + b"x", cts[place - 1]):
                spoilt.append(task._replace(texts=[*cts[:place], wrong, *cts[place + 1 :]], end=made.end))
        for end in (changed(made.end, 0), made.end[:15], b"", made.end + b"x", cts[0]):
            spoilt.append(task._replace(texts=cts, end=end))
        spoilt.append(task._replace(texts=cts, end=self.end_with_text(task)))
        spoilt.append(task._replace(texts=cts, end=made.end, secret=bytes(32)))
        spoilt.append(task._replace(texts=cts[:-1], aads=task.aads[:-1], end=made.end))
        opened = direct.open_parts(spoilt)
        self.assertFalse(any(it.is_whole for it in opened))
        self.assertEqual(opened, parts.open_parts(spoilt, command))

    def end_with_text(self, task):
        """What stands for the end mark, and opens, and isn't empty."""
        kem, kdf, aead = task.suite
        sender = Sender.from_shared_secret(task.secret, kem.id, info=task.info, kdf=kdf, aead=aead)
        *_, end = sender.seal_many([*task.texts, b"text"], [*task.aads, parts.END_AAD])
        return end

    def test_roots_are_the_same(self):
        psk = Psk(os.urandom(32), b"name")
        for given in (None, psk):
            asked = [RootAsked(b"%d" % n, kdf) for n, kdf in enumerate(Kdf)]
            asked.append(RootAsked(b"i", Kdf.HKDF_SHA256, b"", Aead.AES_128_GCM, b"label", 77))
            for roots in (direct.sender_roots(self.pair.public, asked, given), parts.sender_roots(self.pair.public, asked, given, command)):
                again = [it._replace(enc=root.enc) for it, root in zip(asked, roots)]
                self.assertEqual(direct.recipient_roots(self.pair.secret, again, given), roots)
                self.assertEqual(parts.recipient_roots(self.pair.secret, again, given, command), roots)

    def test_a_spoilt_key_is_told_the_same(self):
        spoilt = b"\xff" * 382 + bytes(self.pair.secret)[382:]
        for word in ("library", "command"):
            with self.way(word), self.assertRaises(KeyRefused):
                hpkebatch.export(b"", 1, key=spoilt, enc=bytes(1039))

    def test_what_one_way_seals_the_other_opens(self):
        messages = [b"%d" % n for n in range(300)]
        for one, other in (("library", "command"), ("command", "library")):
            with self.way(one):
                pair = hpkebatch.generate_key(SNTRUP857)
                sealed = hpkebatch.seal(messages, to=pair.public, info=b"i")
                alone = hpkebatch.seal(messages[:3], to=pair.public, alone=True)
                sent = hpkebatch.export(b"label", 48, to=pair.public)
            with self.way(other):
                self.assertEqual(hpkebatch.open(sealed, key=pair.secret, info=b"i"), messages)
                self.assertEqual(hpkebatch.open(alone, key=pair.secret), messages[:3])
                self.assertEqual(hpkebatch.export(b"label", 48, key=pair.secret, enc=sent.enc), sent)

    def test_files(self):
        with tempfile.TemporaryDirectory() as folder:
            name = os.path.join(folder, "file")
            with open(name, "wb") as file:
                file.write(os.urandom(5_000_000))
            for one, other in (("library", "command"), ("command", "library")):
                with self.way(one):
                    self.assertEqual(files.Sealing([files.Job(name, name + one)], self.pair.public, lambda more: None).run(), [])
                with self.way(other):
                    back = name + one + other
                    self.assertEqual(files.Opening([files.Job(name + one, back)], self.pair.secret, lambda more: None).run(), [])
                with open(name, "rb") as file, open(back, "rb") as again:
                    self.assertEqual(file.read(), again.read())


if __name__ == "__main__":
    unittest.main()
