"""Keys as objects, and key files: what is read, what is refused, and that each byte counts."""

import base64
import contextlib
import copy
import hashlib
import os
import pickle
import stat
import subprocess

import hpkebatch
from common import InAFolder, changed, read, runner, spoilt, write
from hpkebatch import SNTRUP761, SNTRUP857, FileFault, KeyPair, PublicKey, SecretKey, fingerprint
from hpkebatch.keys import key_text, parse_key, read_key_file

PAIRS = {}


def setUpModule():
    for kem in (SNTRUP761, SNTRUP857):
        PAIRS[kem.name] = hpkebatch.generate_key(kem, runner=runner)


class Objects(InAFolder):
    def test_they_know_their_kem_and_show_no_secret(self):
        for name, pair in PAIRS.items():
            self.assertEqual([pair.public.kem.name, pair.secret.kem.name], [name, name])
            self.assertEqual(pair.secret.public, pair.public)
            self.assertEqual([PublicKey(bytes(pair.public)), SecretKey(bytes(pair.secret))], [pair.public, pair.secret])
            self.assertEqual(len({pair.public, PublicKey(bytes(pair.public)), pair.secret, SecretKey(bytes(pair.secret))}), 2)
            self.assertNotEqual(pair.secret, SecretKey(changed(bytes(pair.secret), -1)))
            for it in (pair, pair.public, pair.secret):
                self.assertIn(fingerprint(pair.public), repr(it))
                self.assertLess(len(repr(it)), 110)

    def test_they_do_not_change_and_secret_ones_are_not_pickled(self):
        pair = PAIRS["sntrup761"]
        for key in (pair.public, pair.secret):
            for change in (lambda: setattr(key, "data", b""), lambda: setattr(key, "kem", SNTRUP857)):
                with self.assertRaises(AttributeError):
                    change()
        self.assertEqual(pickle.loads(pickle.dumps(pair.public)), pair.public)
        for secret in (pair.secret, pair):
            with self.assertRaises(TypeError):
                pickle.dumps(secret)
        self.assertIs(copy.copy(pair.secret), pair.secret)
        self.assertEqual(copy.deepcopy(pair).secret, pair.secret)

    def test_a_pair_is_of_two_halves_that_belong_together(self):
        one, other = PAIRS.values()
        for public, secret in ((one.public, other.secret), (other.public, one.secret), (PublicKey(changed(one.public.data, 0)), one.secret)):
            with self.assertRaises(ValueError):
                KeyPair(public, secret)
        self.assertEqual(KeyPair(one.public, one.secret), one)

    def test_the_fingerprint_is_that_of_the_public_key(self):
        pair = PAIRS["sntrup857"]
        digits = hashlib.sha256(bytes(pair.public)).hexdigest()[:32]
        for key in (pair, pair.public, pair.secret, bytes(pair.public)):
            self.assertEqual(fingerprint(key).replace(" ", ""), digits)


class KeyFiles(InAFolder):
    def test_both_are_written_and_read(self):
        for name, pair in PAIRS.items():
            self.assertEqual(hpkebatch.write_pair(pair, name), (f"{name}.key", f"{name}.pub"))
            self.assertEqual(stat.S_IMODE(os.stat(f"{name}.key").st_mode), 0o600)
            self.assertEqual(hpkebatch.read_public_key(f"{name}.pub"), pair.public)
            self.assertEqual(hpkebatch.read_secret_key(f"{name}.key"), pair.secret)
            for key, path in ((pair.public, f"{name}.pub"), (pair.secret, f"{name}.key")):
                self.assertEqual(read_key_file(path), (key, False))
        self.assertEqual(sorted(os.listdir()), ["sntrup761.key", "sntrup761.pub", "sntrup857.key", "sntrup857.pub"])

    def test_a_shell_checks_and_reads_them(self):
        pair = PAIRS["sntrup761"]
        hpkebatch.write_pair(pair, "bob")
        for path, key in (("bob.pub", pair.public), ("bob.key", pair.secret)):
            script = "head -n -1 $0 | sha256sum | sed 's/ .*//;s/^/sha256 /' && tail -n 1 $0 && sed '1d;$d' $0 | tr -d '\\n'"
            lines = subprocess.run(["sh", "-c", script, path], capture_output=True, check=True).stdout.split(b"\n")
            self.assertEqual(lines[0], lines[1])
            self.assertEqual(lines[2].decode(), bytes(key).hex())

    def test_nothing_is_written_over_and_no_half_is_left(self):
        pair = PAIRS["sntrup761"]
        for there in ("bob.key", "bob.pub"):
            write(there, b"mine")
            with self.assertRaises(FileFault) as fault:
                hpkebatch.write_pair(pair, "bob")
            self.assertEqual((fault.exception.path, fault.exception.why), (there, "it is there already, and isn't written over"))
            self.assertEqual((os.listdir(), read(there)), ([there], b"mine"))
            os.remove(there)
        with self.assertRaises(FileFault):
            hpkebatch.write_pair(pair, "no/folder")

    def test_each_byte_counts(self):
        for key in (PAIRS["sntrup761"].public, PAIRS["sntrup857"].secret):
            taken = []
            for what, data in spoilt(key_text(key)):
                with contextlib.suppress(ValueError):
                    taken.append((what, parse_key(data, type(key))))
            self.assertEqual(taken, [])

    def test_refusals_are_named(self):
        public, secret = (key_text(key) for key in (PAIRS["sntrup761"].public, PAIRS["sntrup761"].secret))
        at = 700
        letter = b"1" if public[at : at + 1] != b"1" else b"2"
        body = public.rpartition(b"sha256 ")[0]

        def summed(text):
            return text + b"sha256 " + hashlib.sha256(text).hexdigest().encode() + b"\n"

        for data, why in (
            (public[:at] + letter + public[at + 1 :], "its checksum doesn't hold"),
            (public[:at], "it is cut"),
            (public[:-1], "it is cut"),
            (public[:-30], "it is cut"),
            (public.replace(b"\n", b"\r\n"), "tr -d '\\r'"),
            (public + b"\n", "bytes stand behind its end"),
            (public + public, "bytes stand behind its end"),
            (secret, "it holds a secret key, and a public key is wanted here"),
            (summed(body.replace(b"761", b"653", 1)), "its KEM, sntrup653, isn't known here"),
            (summed(body.replace(b"761", b"857", 1)), "its key has 1,158 bytes, and should have 1,322"),
            (summed(body.replace(b"key 2", b"key 3", 1)), "a newer form, 3"),
            (summed(body[:-2]), "it is cut"),
            (summed(body[:-2] + b"\n"), "isn't written as key files are"),
            (summed(body.upper().replace(b"HPKEBATCH PUBLIC KEY 2: SNTRUP761", b"hpkebatch public key 2: sntrup761")), "lower case"),
            (summed(body.replace(b"\n", b"").replace(b"761", b"761\n", 1) + b"\n"), "64 on a line"),
            (b"text", "it isn't a key file of hpkebatch"),
            (b"", "it isn't a key file of hpkebatch"),
            (bytes(100_000), "it isn't a key file of hpkebatch"),
        ):
            write("it", data)
            with self.subTest(why), self.assertRaises(FileFault) as fault:
                hpkebatch.read_public_key("it")
            self.assertIn(why, fault.exception.why)
        write("it", public)
        with self.assertRaisesRegex(FileFault, "it holds a public key, and a secret key is wanted here"):
            hpkebatch.read_secret_key("it")
        with self.assertRaises(FileNotFoundError):
            hpkebatch.read_public_key("none")

    def test_files_of_version_0_2_0_are_read(self):
        for name, pair in PAIRS.items():
            for kind, key in (("public", pair.public), ("secret", pair.secret)):
                write("it", f"hpkebatch {kind} key: {name}\n".encode() + base64.encodebytes(bytes(key)))
                self.assertEqual(read_key_file("it"), (key, True))
                write("it", read("it")[:-9])
                with self.assertRaisesRegex(FileFault, "it: its key has|isn't base64"):
                    read_key_file("it")

    def test_show(self):
        pair = PAIRS["sntrup761"]
        hpkebatch.write_pair(pair, "bob")
        for path, kind in (("bob.pub", "public key"), ("bob.key", "secret key")):
            status, out, err = self.told("show", path)
            self.assertEqual((status, err), (0, ""))
            for text in (kind, "sntrup761", fingerprint(pair)):
                self.assertIn(text, out)
        for path in ("-", "/dev/stdin"):
            self.assertEqual(self.run_command("show", path, input=read("bob.pub")).stdout, self.told("show", "bob.pub")[1].encode())
        self.assertEqual(self.told("show", "none"), (1, "", "hpkebatch: none: No such file or directory\n"))
        write("text", b"text")
        self.assertEqual(self.told("show", "text"), (1, "", "hpkebatch: text: it isn't a key file of hpkebatch\n"))
        self.assertEqual(self.told("show", "--public", "bob.key"), (0, read("bob.pub").decode(), ""))
        self.assertEqual(self.told("show", "--public", "-o", "new.pub", "bob.key"), (0, "", ""))
        self.assertEqual(read("new.pub"), read("bob.pub"))
        self.assertEqual(self.told("show", "--hex", "bob.pub"), (0, bytes(pair.public).hex() + "\n", ""))
        self.assertEqual(self.told("show", "-o", "bob.pub", "bob.key")[::2], (1, "hpkebatch: bob.pub: it is there already, and isn't written over\n"))
        write("old.key", b"hpkebatch secret key: sntrup761\n" + base64.encodebytes(bytes(pair.secret)))
        self.assertIn("of hpkebatch 0.2.0, with no checksum", self.told("show", "old.key")[1])
        status, out, err = self.told("show", "-o", "new.key", "old.key")
        self.assertEqual((status, out), (0, ""))
        self.assertIn("old.key: a key file of hpkebatch 0.2.0, which has no checksum", err)
        self.assertEqual((read("new.key"), stat.S_IMODE(os.stat("new.key").st_mode)), (read("bob.key"), 0o600))


class Given(InAFolder):
    def test_a_wrong_one_is_told_in_the_callers_words(self):
        pair = PAIRS["sntrup761"]
        sealed = hpkebatch.seal([b"text"], to=pair.public, runner=runner)
        for key, kind, why in (
            (pair, TypeError, "give its public half, pair.public"),
            (pair.secret, TypeError, "is a secret key"),
            (bytes(pair.secret), ValueError, "has the size of a secret key"),
            (key_text(pair.public), ValueError, "read_public_key reads a key file"),
            ("bob.pub", TypeError, "is text, and a key is wanted; hpkebatch.read_public_key"),
            (None, TypeError, "a NoneType, and a key is wanted"),
            (b"short", ValueError, "a public key has 1,158"),
        ):
            with self.subTest(why), self.assertRaisesRegex(kind, why.replace("(", r"\(")):
                hpkebatch.seal([b"text"], to=key, runner=runner)
        for key, kind, why in (
            (pair, TypeError, "give its secret half, pair.secret"),
            (pair.public, TypeError, "is a public key"),
            (bytes(pair.public), ValueError, "has the size of a public key"),
            ("bob.key", TypeError, "hpkebatch.read_secret_key"),
        ):
            with self.subTest(why), self.assertRaisesRegex(kind, why):
                hpkebatch.open(sealed, key=key, runner=runner)
        self.assertIsInstance(pair, KeyPair)
        for key in (pair.secret, bytes(pair.secret), bytearray(pair.secret.data)):
            self.assertEqual(hpkebatch.open(sealed, key=key, runner=runner), [b"text"])


if __name__ == "__main__":
    import unittest

    unittest.main()
