"""The second reader of key files and of what is sealed (tools/reference/sealed.py) agrees with the package."""

import os
import subprocess
import sys

import hpkebatch
from common import HOME, InAFolder, changed, command, needs_second_program, read, runner, write
from hpkebatch import SNTRUP761, SNTRUP857, Aead, Kdf, Limits, Psk, Sealed, fingerprint

READER = os.path.join(HOME, "tools/reference/sealed.py")
EXAMPLE = os.path.join(HOME, "examples/sealed")


def reader(*words):
    needs_second_program()
    return subprocess.run([sys.executable, READER, *words], capture_output=True)


class TheExample(InAFolder):
    """Stored bytes, with a key that everybody has."""

    def test_keys(self):
        public = hpkebatch.read_public_key(f"{EXAMPLE}/example.pub")
        secret = hpkebatch.read_secret_key(f"{EXAMPLE}/example.key")
        self.assertEqual(secret.public, public)
        digits = fingerprint(public).replace(" ", "")
        told = reader("key", f"{EXAMPLE}/example.key", f"{EXAMPLE}/example.pub").stdout.decode()
        self.assertEqual(told, "".join(f"{EXAMPLE}/example.{end} {kind} sntrup761 {digits}\n" for end, kind in (("key", "secret"), ("pub", "public"))))

    def test_the_file(self):
        words = ("--key", f"{EXAMPLE}/example.key", "--info", "order 7", "-o", "letter", f"{EXAMPLE}/letter.txt.hpke")
        self.assertEqual(self.told("open", *words), (0, "", ""))
        self.assertEqual(read("letter"), read(f"{EXAMPLE}/letter.txt"))
        self.assertEqual(reader("open", f"{EXAMPLE}/example.key", f"{EXAMPLE}/letter.txt.hpke", "order 7").stdout, read("letter"))

    def test_the_messages(self):
        sealed = Sealed.from_bytes(read(f"{EXAMPLE}/letters.messages"))
        key = hpkebatch.read_secret_key(f"{EXAMPLE}/example.key")
        messages = hpkebatch.open(sealed, key=key, info=b"order 7", runner=runner)
        self.assertEqual((messages, sealed.counts), ([b"Meet me at noon.", b"Bring the map."], [1, 1]))
        told = reader("open", f"{EXAMPLE}/example.key", f"{EXAMPLE}/letters.messages", "order 7").stdout
        self.assertEqual(told, b"".join(text.hex().encode() + b"\n" for text in messages))


class WhatIsSealedNow(InAFolder):
    def test_it_is_read_by_the_second_reader(self):
        psk = Psk(os.urandom(32), b"ours")
        write("psk", psk.secret)
        for kem, kdf, aead in ((SNTRUP761, Kdf.HKDF_SHA512, Aead.AES_128_GCM), (SNTRUP857, Kdf.HKDF_SHA384, Aead.AES_256_GCM)):
            pair = hpkebatch.generate_key(kem, runner=runner)
            hpkebatch.write_pair(pair, kem.name)
            messages = [b"%d" % n * n for n in range(5)]
            suite = {"kdf": kdf, "aead": aead, "limits": Limits(items=12), "psk": psk, "info": b"i", "runner": command}
            sealed = hpkebatch.seal(messages, to=pair.public, **suite)
            self.assertEqual(sealed.counts, [2, 2, 1])
            data = sealed.to_bytes()
            write("messages", data)
            given = ("open", f"{kem.name}.key", "messages", "i", "psk", "ours")
            self.assertEqual(reader(*given).stdout, b"".join(text.hex().encode() + b"\n" for text in messages))
            for at in (30, 40, 60, 90, len(data) - 1):
                write("messages", changed(data, at))
                done = reader(*given)
                self.assertEqual((done.returncode, done.stdout), (1, b""))
                self.assertIn(b"refused", done.stderr)
            write("text", os.urandom(4_200_000))  # of two parts
            self.assertEqual(self.told("seal", "--to", f"{kem.name}.pub", "-o", f"{kem.name}.hpke", "text")[0], 0)
            self.assertTrue(reader("open", f"{kem.name}.key", f"{kem.name}.hpke").stdout == read("text"))


if __name__ == "__main__":
    import unittest

    unittest.main()
