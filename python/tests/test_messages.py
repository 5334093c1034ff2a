"""seal, open, export and generate_key; messages in several parts; executors."""

import os
import pickle
import unittest
from concurrent.futures import ProcessPoolExecutor, ThreadPoolExecutor

import hpkebatch
from common import Told, command, runner
from hpkebatch import SNTRUP857, Aead, Kdf, KeyRefused, Limits, MessageNotOpened, Psk, Sealed, WrongKey
from hpkebatch.parts import MOST_WORKERS

PAIR = None
FEW = Limits(items=12)  # two messages and an end mark are a part


def setUpModule():
    global PAIR
    PAIR = hpkebatch.generate_key(runner=runner)


def seal(messages, **given):
    return hpkebatch.seal(messages, to=PAIR.public, runner=runner, **given)


def opened(sealed, **given):
    return hpkebatch.open(sealed, key=PAIR.secret, runner=runner, **given)


class Counting:
    """Runs the command, and keeps the batches."""

    def __init__(self):
        self.batches = []

    def __call__(self, words, pieces):
        self.batches.append(b"".join(pieces))
        return command(words, [self.batches[-1]])


class OneCall(unittest.TestCase):
    def test_messages_come_back(self):
        psk = Psk(os.urandom(32), b"name")
        for messages in ([b"one"], [], [b""], [b"%d" % n * n for n in range(100)], [bytes(1_048_576)]):
            aads = [b"%d" % len(text) for text in messages]
            for given in ({}, {"info": b"info", "aads": aads, "psk": psk}):
                sealed = seal(messages, kdf=Kdf.HKDF_SHA512, aead=Aead.AES_128_GCM, **given)
                self.assertEqual(opened(sealed, **given), messages)
                self.assertEqual(len(sealed.enc), 1039)
                self.assertEqual([len(it) for it in sealed.ciphertexts], [len(it) + 16 for it in messages])

    def test_what_they_cost(self):
        """As python/README.md and docs/FORMAT.md have it."""
        other = hpkebatch.generate_key(SNTRUP857, runner=runner)
        for pair, more in ((PAIR, 0), (other, 145)):
            for messages in ([], [b"one"], [b"three", b""]):
                sealed = hpkebatch.seal(messages, to=pair.public, runner=runner)
                self.assertEqual(len(sealed.to_bytes()), 1130 + more + sum(20 + len(text) for text in messages))
            alone = hpkebatch.seal([b"one"], to=pair.public, alone=True, runner=runner)
            self.assertEqual(len(alone[0].to_bytes()), 1150 + more + 3)

    def test_bytes_like_messages(self):
        text = bytearray(b"changes")
        self.assertEqual(opened(seal([text, memoryview(text)[:3]])), [b"changes", b"cha"])

    def test_every_suite(self):
        for kem, pair in ((SNTRUP857, hpkebatch.generate_key(SNTRUP857, runner=runner)), (PAIR.public.kem, PAIR)):
            for kdf in Kdf:
                for aead in (Aead.AES_128_GCM, Aead.AES_256_GCM):
                    sealed = hpkebatch.seal([b"one"], to=pair.public, kdf=kdf, aead=aead, runner=runner)
                    self.assertEqual((sealed.kem, sealed.kdf, sealed.aead), (kem, kdf, aead))
                    self.assertEqual(hpkebatch.open(sealed, key=pair.secret, runner=runner), [b"one"])

    def test_each_call_draws_a_fresh_seed(self):
        self.assertEqual(len({seal([b"same"]).enc for _ in range(5)}), 5)
        self.assertEqual(len({hpkebatch.generate_key(runner=runner).secret for _ in range(3)}), 3)

    def test_what_the_ends_have_to_agree_in(self):
        psk = Psk(os.urandom(32), b"name")
        sealed = seal([b"one", b"two"], info=b"i", aads=[b"a", b"b"], psk=psk)
        right = {"info": b"i", "aads": [b"a", b"b"], "psk": psk}
        self.assertEqual(opened(sealed, **right), [b"one", b"two"])
        for index, wrong in ((0, {"info": b"j"}), (1, {"aads": [b"a", b"c"]}), (0, {"psk": None}), (0, {"psk": Psk(psk.secret, b"n")})):
            with self.subTest(wrong=wrong), self.assertRaises(MessageNotOpened) as failed:
                opened(sealed, **{**right, **wrong})
            self.assertEqual((failed.exception.index, failed.exception.part), (index, 0))

    def test_a_wrong_key_is_told_apart(self):
        eve, other = hpkebatch.generate_key(runner=runner), hpkebatch.generate_key(SNTRUP857, runner=runner)
        sealed = seal([b"text"])
        for key in (eve.secret, other.secret):
            for given in ({}, {"on_failure": "none"}):
                with self.assertRaises(WrongKey) as wrong:
                    hpkebatch.open(sealed, key=key, runner=runner, **given)
                self.assertTrue(hpkebatch.fingerprint(PAIR).startswith(wrong.exception.recipient))
                self.assertEqual(str(pickle.loads(pickle.dumps(wrong.exception))), str(wrong.exception))

    def test_a_spoilt_key_is_told(self):
        """Its public key is that of the head, and its polynomials are none."""
        spoilt = b"\xff" * 382 + bytes(PAIR.secret)[382:]
        with self.assertRaises(KeyRefused):
            hpkebatch.open(seal([b""]), key=spoilt, runner=runner)
        with self.assertRaises(KeyRefused):
            hpkebatch.export(b"", 1, key=spoilt, enc=bytes(1039), runner=runner)

    def test_wrong_arguments(self):
        for why, call in (
            ("there are 2 messages and 1 aads", lambda: seal([b"", b""], aads=[b""])),
            ("there are 1 messages and 2 aads", lambda: opened(seal([b""]), aads=[b"", b""])),
            ("message 1 has 1,048,577 bytes, and at most 1,048,576", lambda: seal([b"", bytes(1_048_577)])),
            ("aad 0 has 65,536 bytes", lambda: seal([b""], aads=[bytes(65_536)])),
            ("info has 65,536 bytes, and at most 65,514", lambda: seal([b""], info=bytes(65_536))),
            ("neither is empty", lambda: seal([b""], psk=Psk(b"", b"name"))),
            ("neither is empty", lambda: opened(seal([b""]), psk=Psk(b"secret", b""))),
            ("the secret of a psk has 65,536 bytes", lambda: seal([b""], psk=Psk(bytes(65_536), b"name"))),
            ("EXPORT_ONLY, which seals nothing", lambda: seal([b""], aead=Aead.EXPORT_ONLY)),
            ("aead is 3", lambda: seal([b""], aead=3)),
            ("kdf is 9", lambda: seal([b""], kdf=9)),
            ("on_failure is", lambda: opened(seal([b""]), on_failure="skip")),
            ("size is 8161", lambda: hpkebatch.export(b"", 8161, to=PAIR.public, runner=runner)),
            ("size is -1", lambda: hpkebatch.export(b"", -1, to=PAIR.public, runner=runner)),
            ("enc has 1 bytes, and an encapsulation of sntrup761 has 1,039", lambda: hpkebatch.export(b"", 1, key=PAIR.secret, enc=b"x", runner=runner)),
        ):
            with self.subTest(why), self.assertRaises(ValueError) as told:
                call()
            self.assertIn(why, str(told.exception))
        for why, call in (
            ("messages is a list of byte strings: write [message]", lambda: seal(b"one")),
            ("messages is a list of byte strings", lambda: seal("one")),
            ("message 1 is text", lambda: seal([b"", "one"])),
            ("message 0 is of type int", lambda: seal([1])),
            ("aad 0 is text", lambda: seal([b""], aads=["a"])),
            ("info is text", lambda: seal([b""], info="order 7")),
            ("psk is of type str: give Psk(secret, id)", lambda: seal([b""], psk="secret")),
            ("a psk is bytes, not str", lambda: Psk("secret", b"name")),
            ("Sealed.from_bytes reads it", lambda: opened(seal([b""]).to_bytes())),
            ("isn't Sealed", lambda: opened([b"text"])),
            ("label is text", lambda: hpkebatch.export("label", 1, to=PAIR.public, runner=runner)),
        ):
            with self.subTest(why), self.assertRaises(TypeError) as told:
                call()
            self.assertIn(why, str(told.exception))

    def test_exports(self):
        for given in ({}, {"info": b"i", "psk": Psk(os.urandom(32), b"n"), "kdf": Kdf.HKDF_SHA384}):
            sent = hpkebatch.export(b"label", 48, to=PAIR.public, runner=runner, **given)
            taken = hpkebatch.export(b"label", 48, key=PAIR.secret, enc=sent.enc, runner=runner, **given)
            other = hpkebatch.export(b"other", 48, key=PAIR.secret, enc=sent.enc, runner=runner, **given)
            self.assertEqual(sent, taken)
            self.assertNotEqual(sent.secret, other.secret)
        for wrong in ({}, {"to": PAIR.public, "key": PAIR.secret}, {"key": PAIR.secret}):
            with self.assertRaises(TypeError):
                hpkebatch.export(b"", 1, runner=runner, **wrong)

    def test_nothing_secret_is_printed(self):
        sealed = seal([b"plain"])
        exported = hpkebatch.export(b"", 32, to=PAIR.public, runner=runner)
        for it in (PAIR, sealed, sealed.parts, exported):
            self.assertLess(len(repr(it)), 90)
        self.assertNotIn(bytes(PAIR.secret)[:4].hex(), repr(PAIR))
        self.assertNotIn("plain", repr(MessageNotOpened(1, 0, False, [b"plain"])))

    def test_as_bytes(self):
        sealed = seal([b"%d" % n for n in range(5)], limits=FEW, kdf=Kdf.HKDF_SHA512)
        data = sealed.to_bytes()
        self.assertEqual(Sealed.from_bytes(data), sealed)
        for other in (data + b"\0", b"x" + data, *(data[:at] for at in range(0, len(data), 97)), data[:-1], b""):
            with self.assertRaises(ValueError):
                Sealed.from_bytes(other)
        for other, why in ((b"hpkebatch messages 1\n" + data[21:], "isn't read any more"), (b"hpkebatch sealed 2\n", "a sealed file")):
            with self.assertRaisesRegex(ValueError, why):
                Sealed.from_bytes(other)

    def test_star_leaves_the_builtin_open(self):
        names = {}
        exec("from hpkebatch import *", names)
        self.assertNotIn("open", names)
        self.assertIs(names["unseal"], hpkebatch.open)
        self.assertTrue(all(hasattr(hpkebatch, name) for name in hpkebatch.__all__))


class OnFailure(unittest.TestCase):
    def test_a_spoilt_message_is_told_by_its_index(self):
        messages = [b"%d" % n for n in range(9)]
        sealed = seal(messages, limits=FEW)
        self.assertEqual(sealed.counts, [2, 2, 2, 2, 1])
        for index in range(9):
            part, at = divmod(index, 2)
            texts = list(sealed.parts[part].ciphertexts)
            texts[at] = bytes([texts[at][0] ^ 1]) + texts[at][1:]
            changed = with_part(sealed, part, ciphertexts=tuple(texts))
            with self.assertRaises(MessageNotOpened) as failed:
                opened(changed)
            fault = failed.exception
            self.assertEqual((fault.index, fault.part, fault.is_end, fault.opened), (index, part, False, messages[:index]))
            again = pickle.loads(pickle.dumps(fault))
            self.assertEqual((str(again), again.opened), (str(fault), fault.opened))
            lost = [None if part == at // 2 and at >= index else text for at, text in enumerate(messages)]
            self.assertEqual(opened(changed, on_failure="none"), lost)

    def test_a_spoilt_end_mark(self):
        for messages in ([b"one"], []):
            sealed = seal(messages)
            changed = with_part(sealed, 0, end=bytes(16))
            with self.assertRaisesRegex(MessageNotOpened, "the list was cut or spliced") as failed:
                opened(changed)
            self.assertEqual((failed.exception.is_end, failed.exception.opened), (True, messages))
        self.assertEqual(opened(with_part(seal([b"one"]), 0, end=bytes(16)), on_failure="none"), [b"one"])
        with self.assertRaises(MessageNotOpened):
            opened(changed, on_failure="none")  # no message: nothing but the mark shows that there was a list

    def test_messages_that_open_alone(self):
        messages = [b"%d" % n for n in range(300)]
        aads = [b"a%d" % n for n in range(300)]
        runner = Counting()
        sealed = hpkebatch.seal(messages, to=PAIR.public, aads=aads, alone=True, runner=runner)
        self.assertEqual(len(runner.batches), 4)
        self.assertEqual((len(sealed), len({it.enc for it in sealed}), len({it.id for it in sealed})), (300, 300, 300))
        runner.batches.clear()
        self.assertEqual(hpkebatch.open(sealed, key=PAIR.secret, aads=aads, runner=runner), messages)
        self.assertEqual(len(runner.batches), 4)
        self.assertEqual(opened(sealed[7], aads=aads[7:8]), [b"7"])
        sealed[7], sealed[9] = with_part(sealed[7], 0, ciphertexts=(bytes(17),)), sealed[8]
        got = opened(sealed[:12], aads=aads[:12], on_failure="none")
        self.assertEqual([place for place, text in enumerate(got) if text is None], [7, 9])
        eve = hpkebatch.generate_key(runner=runner)
        sealed[3] = hpkebatch.seal([b"3"], to=eve.public, runner=runner)
        self.assertEqual(opened(sealed[:5], aads=aads[:5], on_failure="none"), [b"0", b"1", b"2", None, b"4"])
        with self.assertRaises(WrongKey):
            opened(sealed[:5], aads=aads[:5])
        self.assertEqual((seal([], alone=True), opened([])), ([], []))


def with_part(sealed, place, **given):
    """With one part changed in this."""
    parts = list(sealed.parts)
    parts[place] = parts[place].__class__(**{**vars(parts[place]), **given})
    return Sealed(**{**vars(sealed), "parts": tuple(parts)})


class Parts(unittest.TestCase):
    def test_messages_are_split_by_count_and_by_size(self):
        for limits in (Limits(items=40), Limits(input=65_536, items=40), Limits(input=72_000)):
            for messages in ([b"x"] * 35, [bytes(n * 40) for n in range(35)]):
                runner = Counting()
                aads = [b"%d" % n for n in range(35)]
                sealed = hpkebatch.seal(messages, to=PAIR.public, aads=aads, runner=runner, limits=limits)
                self.assertEqual(hpkebatch.open(sealed, key=PAIR.secret, aads=aads, runner=runner, limits=limits), messages)
                self.assertTrue(all(len(text) <= limits.input for text in runner.batches))
                self.assertTrue(all(text.count(b"seal ") <= limits.items for text in runner.batches))
                self.assertEqual(sum(b"\nrand " in text for text in runner.batches), 1)

    def test_a_small_list_takes_two_runs(self):
        runner = Counting()
        sealed = hpkebatch.seal([b"%d" % n for n in range(8)], to=PAIR.public, runner=runner, limits=FEW)
        self.assertEqual((len(sealed.parts), len(runner.batches)), (4, 2))
        hpkebatch.open(sealed, key=PAIR.secret, runner=runner, limits=FEW)
        self.assertEqual(len(runner.batches), 4)
        self.assertEqual([text.count(b"\nlane") for text in runner.batches], [1, MOST_WORKERS, 1, MOST_WORKERS])

    def test_the_largest_parts_fit(self):
        """Of each length of message, as many as are cut for the parts of one batch make no batch that is too long."""
        root = b"hpkebatch 2\nkey 0 peer\ncontext 0 sender ab\nlane 0\nexported " + b"ab" * 32 + b"\njournal 0\nend\n"
        for size in (0, 1, 1_000_000):
            asked = []

            def told(words, pieces):
                asked.append(b"".join(pieces))
                return Told(root if len(asked) == 1 else b"")(words, [])

            with self.assertRaises(ValueError):
                hpkebatch.seal([bytes(size)] * (65_540 if size < 2 else 40), to=PAIR.public, runner=told)
            self.assertEqual(len(asked), 2)
            self.assertLessEqual(len(asked[1]) + 34 * asked[1].count(b"\nseal"), 67_108_864)
            self.assertGreater(asked[1].count(b"\nlane"), 2)

    def test_a_part_that_no_batch_holds_is_refused(self):
        sealed = seal([b"%d" % n for n in range(9)])
        with self.assertRaisesRegex(ValueError, "more than hpkebatch puts into one"):
            opened(sealed, limits=Limits(items=9))
        with self.assertRaisesRegex(ValueError, "more than hpkebatch puts into one"):
            opened(with_part(sealed, 0, ciphertexts=(bytes(1_048_593),)))

    def test_executors(self):
        messages = [b"%d" % n for n in range(50)]
        for kind in (ThreadPoolExecutor, ProcessPoolExecutor):
            with kind(2) as executor:
                done = []
                sealed = seal(messages, executor=executor, limits=Limits(items=40), progress=lambda *now: done.append(now))
                self.assertEqual(done, [(9, 50), (18, 50), (27, 50), (36, 50), (45, 50), (50, 50)])
                self.assertEqual(opened(sealed, executor=executor), messages)
                spoilt = Sealed(**{**vars(sealed), "parts": (*sealed.parts[:2], sealed.parts[0], *sealed.parts[3:])})
                with self.assertRaises(MessageNotOpened) as failed:
                    opened(spoilt, executor=executor)
                self.assertEqual(failed.exception.index, 18)

    def test_an_executor_is_given_no_key_and_may_run_a_task_twice(self):
        """What it is given is the messages and the parts' own secret; the second time gives the same bytes."""
        given, secret = [], bytes(PAIR.secret)

        class Twice(ThreadPoolExecutor):
            def submit(self, task):
                given.append(pickle.dumps(task.given))
                self.same = pickle.dumps(task().made) == pickle.dumps(task().made)
                return super().submit(task)

        with Twice(1) as executor:
            sealed = seal([b"one"], executor=executor)
            self.assertTrue(executor.same)
            self.assertEqual(opened(sealed, executor=executor), [b"one"])
        for data in given:
            self.assertNotIn(secret[:100], data)
            self.assertNotIn(bytes(PAIR.public)[:100], data)
        self.assertEqual(len(given), 2)


if __name__ == "__main__":
    unittest.main()
