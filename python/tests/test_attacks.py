"""What an attacker may try who has the public key and all that was sealed, and neither psk nor secret key.

The moves are those of the game in docs/SECURITY.md. Each was an attack on an earlier form, or is one of its kind.
"""

import itertools
import os
import unittest
from unittest import mock

import hpkebatch
from common import InAFolder, changed, read, runner, write
from hpkebatch import Limits, MessageNotOpened, Part, Psk, Sealed, files, sealed as forms
from hpkebatch.files import Job, Opening, Sealing

PAIR = None
FEW = Limits(items=12)  # two messages and an end mark are a part
PSK = Psk(b"a secret that both ends have ....", b"both")
BOTH_MODES = (None, PSK)


def setUpModule():
    global PAIR
    PAIR = hpkebatch.generate_key(runner=runner)


def seal(name, psk=None, count=5, **given):
    messages = [b"%s %d" % (name, number) for number in range(count)]
    return hpkebatch.seal(messages, to=PAIR.public, info=b"order 7", psk=psk, runner=runner, limits=FEW, **given)


def replaced(sealed, **given):
    return Sealed(**{**vars(sealed), **given})


class Lists(unittest.TestCase):
    """Of messages, sealed twice by one sender with one psk and one info."""

    def refused(self, sealed, psk=None):
        """It isn't opened, and what is given of it by name are messages of A in their places."""
        with self.assertRaises(MessageNotOpened) as fault:
            hpkebatch.open(sealed, key=PAIR.secret, info=b"order 7", psk=psk, runner=runner)
        self.assertEqual(fault.exception.opened, [b"A %d" % number for number in range(fault.exception.index)])
        if all(sealed.counts):
            given = hpkebatch.open(sealed, key=PAIR.secret, info=b"order 7", psk=psk, on_failure="none", runner=runner)
            self.assertTrue(all(text in (None, b"A %d" % number) for number, text in enumerate(given)), given)

    def test_parts_of_two_lists_are_not_mixed(self):
        """Each choice of parts of both, with either's head."""
        for psk in BOTH_MODES:
            a, b = seal(b"A", psk), seal(b"B", psk)
            for parts in itertools.product(*zip(a.parts, b.parts)):
                for head in (a, b):
                    if parts != head.parts:
                        spliced = replaced(head, parts=parts)
                        with self.assertRaises(MessageNotOpened):
                            hpkebatch.open(spliced, key=PAIR.secret, info=b"order 7", psk=psk, runner=runner)

    def test_an_encapsulation_and_an_id_of_another_list(self):
        for psk in BOTH_MODES:
            a, b = seal(b"A", psk), seal(b"B", psk)
            for given in ({"enc": b.enc}, {"id": b.id}, {"enc": b.enc, "id": b.id}, {"parts": b.parts}, {"parts": b.parts, "id": b.id}, {"parts": b.parts, "enc": b.enc}):
                self.refused(replaced(a, **given), psk)

    def test_parts_are_not_missing_moved_doubled_or_emptied(self):
        for psk in BOTH_MODES:
            a = seal(b"A", psk)
            first, second, third = a.parts
            empty = Part((), first.end)
            for parts in (
                (second, first, third),
                (first, second),
                (second, third),
                (first,),
                (first, third),
                (first, first, third),
                (first, second, third, third),
                (first, second, third, empty),
                (empty, second, third),
                (first, empty, third),
                (empty,),
            ):
                self.refused(replaced(a, parts=parts), psk)

    def test_messages_are_not_dropped_moved_or_doubled(self):
        """At the end of any part, in its middle, or of the whole."""
        for psk in BOTH_MODES:
            a = seal(b"A", psk)
            for place, part in enumerate(a.parts):
                texts = part.ciphertexts
                for other in (texts[:-1], texts[1:], texts[::-1], texts + texts[-1:], texts + (part.end,), texts[:1] * len(texts), ()):
                    if other != texts:
                        parts = (*a.parts[:place], Part(other, part.end), *a.parts[place + 1 :])
                        self.refused(replaced(a, parts=parts), psk)

    def test_no_parts_and_no_messages_are_no_list(self):
        """Bytes that anybody can write."""
        for count in (0, 1):
            for counts in ([], [0], [0, 0]):
                parts = b"".join(bytes(16) for _ in counts)
                head = forms.MESSAGES_MAGIC + forms.Suite(PAIR.public.kem, 1, 2).to_bytes() + PAIR.public.hash[:8] + bytes(32)
                data = head + forms.counts_of(counts) + bytes(1039) + parts
                for psk in BOTH_MODES:
                    for on_failure in ("raise", "none"):
                        with self.assertRaises((ValueError, MessageNotOpened)):
                            hpkebatch.open(Sealed.from_bytes(data), key=PAIR.secret, psk=psk, on_failure=on_failure, runner=runner)
        with self.assertRaises(ValueError):
            hpkebatch.open(replaced(seal(b"A"), parts=()), key=PAIR.secret, runner=runner)

    def test_an_attackers_part_before_a_secret_rest(self):
        """In mode base: his own encapsulation, head and parts, in every mixture."""
        alice, mallory = seal(b"A"), seal(b"M")
        for parts in itertools.product(*zip(alice.parts, mallory.parts)):
            for enc, id in itertools.product((alice.enc, mallory.enc), (alice.id, mallory.id)):
                if (parts, enc, id) not in ((alice.parts, alice.enc, alice.id), (mallory.parts, mallory.enc, mallory.id)):
                    with self.assertRaises(MessageNotOpened) as fault:
                        hpkebatch.open(replaced(alice, parts=parts, enc=enc, id=id), key=PAIR.secret, info=b"order 7", runner=runner)
                    owners = {text[:1] for text in fault.exception.opened}
                    self.assertLessEqual(len(owners), 1)

    def test_another_suite_in_the_head(self):
        a = seal(b"A")
        for given in ({"kdf": hpkebatch.Kdf.HKDF_SHA512}, {"aead": hpkebatch.Aead.AES_128_GCM}):
            self.refused(replaced(a, **given))

    def test_each_byte_counts(self):
        """Changed, left out, doubled or cut: no text comes but the right ones, and nothing opens as a whole."""
        for psk in BOTH_MODES:
            messages = [b"one", b"", b"three"]
            whole = hpkebatch.seal(messages, to=PAIR.public, psk=psk, runner=runner, limits=FEW)
            read, marks = [], 0
            data = whole.to_bytes()
            for at in range(len(data)):
                for other in (changed(data, at), data[:at] + data[at + 1 :], data[: at + 1] + data[at:], data[:at]):
                    try:
                        read.append(Sealed.from_bytes(other))
                    except ValueError:
                        pass
            self.assertGreater(len(read), 1000)
            self.assertNotIn(whole, read)
            right = [it for it in read if len(it) == 3 and it.recipient == whole.recipient]
            got = hpkebatch.open([whole, *right], key=PAIR.secret, psk=psk, on_failure="none", runner=runner)
            rows = [got[at : at + 3] for at in range(0, len(got), 3)]
            self.assertEqual(rows[0], messages)
            for row, sealed in zip(rows[1:], right):
                self.assertTrue(all(text in (None, want) for text, want in zip(row, messages)))
                if row == messages:  # an end mark alone is changed
                    marks += 1
                    with self.assertRaises(MessageNotOpened) as fault:
                        hpkebatch.open(sealed, key=PAIR.secret, psk=psk, runner=runner)
                    self.assertTrue(fault.exception.is_end)
            self.assertEqual(marks, 32)
            for sealed in (it for it in read if it not in right):
                with self.assertRaises(hpkebatch.HpkeBatchError):
                    hpkebatch.open(sealed, key=PAIR.secret, psk=psk, runner=runner)


class Files(InAFolder):
    """Cut into parts of few bytes."""

    def setUp(self):
        super().setUp()
        for name, value in (("CHUNK", 10), ("CHUNKS_OF_PART", 2)):
            patch = mock.patch.object(files, name, value)
            patch.start()
            self.addCleanup(patch.stop)

    def seal(self, psk, **contents):
        for name, data in contents.items():
            write(name, data)
        faults = Sealing([Job(name, f"{name}.hpke") for name in contents], PAIR.public, lambda more: None, psk, runner=runner).run()
        self.assertEqual(faults, [])
        return [Pieces(read(f"{name}.hpke")) for name in contents]

    def refused(self, psk, variants):
        """Each of them, in one call; nothing of any is left."""
        names = [f"v{number}" for number in range(len(variants))]
        for name, data in zip(names, variants):
            write(name, data)
        before = os.listdir()
        faults = Opening([Job(name, f"{name}.opened") for name in names], PAIR.secret, lambda more: None, psk, runner=runner).run()
        self.assertEqual([fault.path for fault in faults], names)
        self.assertEqual(sorted(os.listdir()), sorted(before))

    def test_an_attackers_part_before_a_secret_rest(self):
        """Mallory's parts, head and encapsulation in every mixture with Alice's."""
        for psk in BOTH_MODES:
            alice, mallory = self.seal(psk, alice=b"a" * 65, mallory=b"m" * 65)
            variants = []
            for parts in itertools.product(*zip(alice.parts, mallory.parts)):
                for head, enc in itertools.product((alice.head, mallory.head), (alice.enc, mallory.enc)):
                    data = b"".join([head, enc, *parts])
                    if data not in (alice.data, mallory.data):
                        variants.append(data)
            self.assertEqual(len(variants), 62)
            self.refused(psk, variants)
            for name in ("alice", "mallory", "alice.hpke", "mallory.hpke"):
                os.remove(name)

    def test_parts_and_chunks_are_not_missing_moved_or_doubled(self):
        for psk in BOTH_MODES:
            (it,) = self.seal(psk, it=bytes(range(80)))
            p0, p1, p2, p3 = it.parts
            self.assertEqual([len(part) for part in it.parts], [68] * 4)
            chunk, mark = slice(0, 26), slice(26, 52)
            swapped = p1[mark] + p1[chunk] + p1[52:]
            self.refused(psk, [it.head + it.enc + rest for rest in (
                p1 + p0 + p2 + p3, p0 + p1 + p2, p0 + p1 + p2 + p2, p0 + p0 + p2 + p3, p1 + p2 + p3, p0 + p2 + p3 + p1,
                p0 + swapped + p2 + p3, p0 + p1[chunk] * 2 + p1[52:] + p2 + p3, p0 + p1[26:] + p2 + p3, p0 + p1[:52] + p2[52:] + p2 + p3,
                p0 + p1 + p2 + p3[:52] + p0[52:], b"", p0, p0 + p1 + p2 + p3 + p3, p3 + p2 + p1 + p0,
            )])
            os.remove("it")
            os.remove("it.hpke")

    def test_another_size_in_the_head(self):
        """With as many parts as that size has."""
        (it,) = self.seal(None, it=bytes(range(65)))
        variants = []
        for size in (0, 20, 40, 60, 64, 66):
            head = it.head[:-8] + size.to_bytes(8, "big")
            variants += [head + it.enc + b"".join(it.parts[:count]) for count in range(5)]
            variants.append(head + it.enc + b"".join(it.parts) + b"\0" * (size - 65))
            due = files.layout_of(files.Head(b"", files.Suite(PAIR.public.kem, 1, 2), b"", b"", head[-8:], it.enc)).sealed_size(files.Head(b"", None, b"", b"", b"", it.enc))
            variants.append((head + it.enc + b"".join(it.parts))[:due])
        self.refused(None, variants)

    def test_a_list_of_messages_is_no_file(self):
        """Nor the other way, though both have one shape: the magic stands in what is sealed."""
        (it,) = self.seal(None, it=b"0123456789")
        sealed = hpkebatch.seal([b"0123456789"], to=PAIR.public, runner=runner)
        self.refused(None, [it.head[:19].replace(b"sealed", b"messages") + it.data[19:], sealed.to_bytes()])
        part = Part((it.parts[0][:26],), it.parts[0][26:])
        moved = replaced(sealed, enc=it.enc, id=it.head[33:65], parts=(part,))
        with self.assertRaises(MessageNotOpened):
            hpkebatch.open(moved, key=PAIR.secret, runner=runner)

    def test_a_file_may_be_opened_again_and_its_name_is_not_bound(self):
        """What the game doesn't forbid: to give a whole file again, or under another name."""
        (it,) = self.seal(PSK, it=b"text")
        write("other.hpke", it.data)
        self.assertEqual(Opening([Job("other.hpke", "other")], PAIR.secret, lambda more: None, PSK, runner=runner).run(), [])
        self.assertEqual(read("other"), b"text")


class Pieces:
    """A sealed file, taken apart."""

    def __init__(self, data):
        self.data, self.head, self.enc = data, data[: files.HEAD_SIZE], data[files.HEAD_SIZE :][:1039]
        size = int.from_bytes(self.head[-8:], "big")
        rest, self.parts = data[files.HEAD_SIZE + 1039 :], []
        layout = files.Layout(size)
        for part in range(layout.parts):
            end = sum(layout.sizes(part)) + 16 * (len(layout.sizes(part)) + 1)
            self.parts.append(rest[:end])
            rest = rest[end:]


if __name__ == "__main__":
    unittest.main()
