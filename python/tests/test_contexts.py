"""Contexts in this process: the cases that all languages share, what they refuse, and that no number is used twice."""

import copy
import ctypes
import gc
import os
import pickle
import signal
import subprocess
import sys
import threading
import unittest
import warnings
from collections import Counter

import hpkebatch
from common import HOME, PACKAGE, InAFolder, changed, command, needs_library, write
from hpkebatch import (
    SNTRUP857,
    Aead,
    ContextEnded,
    Kdf,
    KeyRefused,
    LimitReached,
    OpenFailed,
    OutOfMemory,
    Psk,
    PublicKey,
    Recipient,
    Refused,
    SecretKey,
    Sender,
)
from hpkebatch.contexts import fault_of, key_pair, key_pair_of, parameters, sender_of_seed
from hpkebatch.shared_library import Context, Parameters, Status, fresh_seed, room
from hpkebatch.suites import KEMS, TAG_SIZE

CASES = os.path.join(HOME, "tools/cases/in_process.cases")
SEED = bytes(range(32))
PAIR = LIBRARY = None


def setUpModule():
    global PAIR, LIBRARY
    LIBRARY = needs_library()
    PAIR = key_pair()


def ends(**given):
    sender = Sender(PAIR.public, **given)
    return sender, Recipient(sender.enc, PAIR.secret, **given)


def same_sender(**given):
    """The same context each time."""
    given = {"info": b"", "psk": None, "kdf": Kdf.HKDF_SHA256, "aead": Aead.AES_128_GCM, "limit": 1 << 40, **given}
    return sender_of_seed(PAIR.public, SEED, 1, parameters(**given))


# ---- the cases


def octets(field):
    return b"" if field == "-" else bytes.fromhex(field)


def kem_of(number):
    return next(kem for kem in KEMS if kem.id == int(number))


def cases():
    """The words of each line, with its number."""
    with open(CASES) as file:
        for number, line in enumerate(file, 1):
            if line.strip() and not line.startswith("#"):
                yield number, line.split()


class ByTheLibrary:
    """Does a line by the calls of the header. Each method gives the status and what was made."""

    context = None

    def _begun(self, status, context, *more):
        self.context = context if status == Status.DONE else None
        return (status, *more)

    def _parameters(self, mode, kdf, aead, limit, info, psk, psk_id):
        return Parameters(*map(int, (mode, kdf, aead, limit)), *map(octets, (info, psk, psk_id)))

    def keygen(self, kem, seed, stream):
        return LIBRARY.keygen(kem_of(kem), octets(seed), int(stream))

    def sender(self, kem, seed, stream, public, *given):
        made = LIBRARY.sender(kem_of(kem), octets(seed), int(stream), octets(public), self._parameters(*given))
        return self._begun(*made)

    def recipient(self, kem, enc, secret, *given):
        return self._begun(*LIBRARY.recipient(kem_of(kem), octets(enc), octets(secret), self._parameters(*given)))

    def shared(self, role, kem, mode, kdf, aead, limit, secret, *texts):
        given = self._parameters(mode, kdf, aead, limit, *texts)
        return self._begun(*LIBRARY.shared(int(role), int(kem), octets(secret), given))

    def seal(self, aad, text):
        return LIBRARY.seal(self.context, octets(aad), octets(text))

    def open(self, aad, ct):
        return LIBRARY.open(self.context, octets(aad), octets(ct))

    def export(self, exporter_context, size):
        return LIBRARY.export(self.context, octets(exporter_context), int(size))

    def answer(self, word, fields):
        status, *made = getattr(self, word)(*fields)
        return Status(status).name.lower(), made

    def state(self):
        return None if self.context is None else bytes(self.context)


class ByTheClasses(ByTheLibrary):
    """Does a line by what users call. Of the faults of psk inputs they can't say all."""

    def keygen(self, kem, seed, stream):
        status, pair = key_pair_of(kem_of(kem), octets(seed), int(stream))
        return bytes(pair.public), bytes(pair.secret)

    def _given(self, mode, kdf, aead, limit, info, psk, psk_id):
        given = None if mode == "0" else Psk(octets(psk), octets(psk_id))
        return {"info": octets(info), "psk": given, "kdf": int(kdf), "aead": int(aead), "limit": int(limit)}

    def sender(self, kem, seed, stream, public, *given):
        self.context = None
        key = PublicKey(octets(public))
        self.context = sender_of_seed(key, octets(seed), int(stream), parameters(**self._given(*given)))
        return (self.context.enc,)

    def recipient(self, kem, enc, secret, *given):
        self.context = None
        self.context = Recipient(octets(enc), octets(secret), **self._given(*given))
        return ()

    def shared(self, role, kem, mode, kdf, aead, limit, secret, *texts):
        self.context = None
        kind = (Sender, Recipient)[int(role)]
        self.context = kind.from_shared_secret(octets(secret), int(kem), **self._given(mode, kdf, aead, limit, *texts))
        return ()

    def seal(self, aad, text):
        return (self.context.seal(octets(text), octets(aad)),)

    def open(self, aad, ct):
        return (self.context.open(octets(ct), octets(aad)),)

    def export(self, exporter_context, size):
        return (self.context.export(octets(exporter_context), int(size)),)

    def answer(self, word, fields):
        try:
            return "done", list(getattr(self, word)(*fields))
        except OpenFailed as fault:
            assert fault.number == self.context.number
            return "failed", []
        except LimitReached:
            return "limit", []
        except KeyRefused:
            return "form", []
        except AttributeError as fault:
            assert "the way back is another context" in str(fault), fault
            return "role", []
        except Refused as fault:
            return fault.word, []
        except ValueError:
            return "wrong_usage", []

    def state(self):
        return None if self.context is None else bytes(self.context._context)


# What users' calls tell as a ValueError, before the library is asked.
BEFORE = {"exportsize": "wrong_usage", "pskpair": "wrong_usage"}
PLACES = {"keygen": 3, "sender": 11, "recipient": 10, "shared": 10}  # of the status in a line; of the others 2


def is_sayable(word, fields):
    """Whether users' calls can say the mode and the psk of this line."""
    if word not in ("sender", "recipient", "shared"):
        return True
    mode = fields[2 if word == "shared" else len(fields) - 7]
    is_without = fields[-2:] == ["-", "-"]
    return mode in "01" and (mode == "0") == is_without


class Cases(unittest.TestCase):
    def replay(self, by, sayable, wanted_of):
        counts, left_out = Counter(), 0
        for number, (word, *fields) in cases():
            at = PLACES.get(word, 2)
            given, wanted, due = fields[:at], fields[at], fields[at + 1 :]
            if not sayable(word, given):
                left_out += 1
                continue
            before = by.state()
            with self.subTest(line=number, word=word):
                status, made = by.answer(word, given)
                self.assertEqual(status, wanted_of(word, given, wanted))
                if wanted == "done":
                    self.assertEqual([it.hex() or "-" for it in made], due)
                elif word in ("seal", "open", "export"):
                    self.assertEqual(by.state(), before)
            counts[wanted] += 1
        return counts, left_out

    def test_by_the_library(self):
        counts, _ = self.replay(ByTheLibrary(), lambda word, given: True, lambda word, given, wanted: wanted)
        self.assertGreater(counts["done"], 150)
        for status in ("failed", "form", "limit", "nocipher", "pskextra", "pskmissing", "pskpair", "role", "exportsize"):
            self.assertGreater(counts[status], 0, status)

    def test_by_the_classes(self):
        def wanted_of(word, given, wanted):
            is_short = word == "open" and len(octets(given[1])) < TAG_SIZE
            return "failed" if is_short and wanted == "wrong_usage" else BEFORE.get(wanted, wanted)

        counts, left_out = self.replay(ByTheClasses(), is_sayable, wanted_of)
        self.assertGreater(counts["done"], 150)
        self.assertLess(left_out, 16)
        self.assertEqual(counts["pskextra"] + counts["pskmissing"], 0)


# ---- use


class Messages(unittest.TestCase):
    def test_both_ends(self):
        psk = Psk(os.urandom(32), b"name")
        other = key_pair(SNTRUP857)
        for pair in (PAIR, other):
            for given in ({}, {"info": b"i", "psk": psk, "kdf": Kdf.HKDF_SHA512, "aead": Aead.AES_128_GCM}):
                with Sender(pair.public, **given) as sender, Recipient(sender.enc, pair.secret, **given) as recipient:
                    self.assertEqual(len(sender.enc), pair.public.kem.enc_size)
                    for number, text in enumerate((b"one", b"", b"x" * 1_048_577, bytearray(b"two"), memoryview(b"three"))):
                        self.assertEqual((sender.number, recipient.number), (number, number))
                        ct = sender.seal(text, aad=b"%d" % number)
                        self.assertEqual(len(ct), len(text) + TAG_SIZE)
                        self.assertEqual(recipient.open(ct, b"%d" % number), bytes(text))
                    self.assertEqual(sender.export(b"label", 40), recipient.export(b"label", 40))
                    self.assertNotEqual(sender.export(b"label", 40), sender.export(b"other", 40))

    def test_many_are_as_one_by_one(self):
        texts = [b"%d" % n * n for n in range(40)]
        aads = [b"a%d" % n for n in range(40)]
        many, single, without = same_sender(), same_sender(), same_sender()
        cts = many.seal_many(iter(texts), iter(aads))
        self.assertEqual(cts, [single.seal(text, aad) for text, aad in zip(texts, aads)])
        self.assertEqual(without.seal_many(texts), [same.seal(it) for same in [same_sender()] for it in texts])
        recipient = Recipient(many.enc, PAIR.secret, aead=Aead.AES_128_GCM)
        self.assertEqual(recipient.open_many(cts, aads), texts)
        self.assertEqual((many.number, recipient.number), (40, 40))
        self.assertEqual((many.seal_many([]), recipient.open_many([]), many.number), ([], [], 40))

    def test_what_does_not_open_leaves_the_context(self):
        sender, recipient = ends()
        cts = [sender.seal(b"%d" % n) for n in range(5)]
        for wrong in (cts[1], changed(cts[0], 0), changed(cts[0], -1), cts[0][:-1], cts[0][:15], b""):
            with self.assertRaises(OpenFailed) as failed:
                recipient.open(wrong)
            self.assertEqual((failed.exception.number, recipient.number), (0, 0))
        with self.assertRaises(OpenFailed):
            recipient.open(cts[0], b"aad")
        for place, spoilt in ((0, b"short"), (3, changed(cts[3], 0)), (4, b"")):
            with self.assertRaisesRegex(OpenFailed, f"message {place} of the list doesn't open as message {place} ") as failed:
                recipient.open_many([*cts[:place], spoilt, *cts[place + 1 :]])
            self.assertEqual((failed.exception.number, recipient.number), (place, 0))
        self.assertEqual(recipient.open_many(cts), [b"%d" % n for n in range(5)])
        other = Recipient(changed(sender.enc, 5), PAIR.secret)
        with self.assertRaises(OpenFailed):
            other.open(cts[0])

    def test_what_both_have_to_agree_in(self):
        psk = Psk(b"p" * 32, b"name")
        right = {"info": b"i", "psk": psk, "kdf": Kdf.HKDF_SHA256, "aead": Aead.AES_256_GCM}
        sender = Sender(PAIR.public, **right)
        ct = sender.seal(b"text")
        for wrong in ({"info": b"j"}, {"psk": None}, {"psk": Psk(psk.secret, b"n")}, {"kdf": Kdf.HKDF_SHA512}, {"aead": Aead.AES_128_GCM}):
            with self.subTest(wrong=list(wrong)), self.assertRaises(OpenFailed):
                Recipient(sender.enc, PAIR.secret, **{**right, **wrong}).open(ct)
        self.assertEqual(Recipient(sender.enc, PAIR.secret, **right).open(ct), b"text")

    def test_each_sender_draws_its_own_seed(self):
        self.assertEqual(len({Sender(PAIR.public).enc for _ in range(20)}), 20)
        self.assertEqual(len({key_pair().secret for _ in range(5)}), 5)
        with fresh_seed() as seed, fresh_seed() as other:
            self.assertNotIn(seed.raw, (bytes(32), other.raw))
        self.assertEqual((seed.raw, other.raw), (bytes(32), bytes(32)))

    def test_the_command_and_the_library_are_one_context(self):
        """Batches of the command open what a context sealed, and the other way round."""
        sender, batch = Sender(PAIR.public, info=b"i"), hpkebatch.Batch()
        cts = sender.seal_many([b"0", b"1"])
        context = batch.recv(batch.secret(PAIR.secret.data), sender.enc, b"i", aead=Aead.AES_256_GCM)
        calls = batch.lane().unseal_each(context, cts)
        reply = batch.run(runner=command)
        self.assertEqual([reply[it].plaintext for it in calls], [b"0", b"1"])
        batch = hpkebatch.Batch()
        context = batch.send(batch.peer(PAIR.public.data), b"i", aead=Aead.AES_256_GCM)
        calls = batch.lane().seal_each(context, [b"2", b"3"])
        reply = batch.run(runner=command)
        recipient = Recipient(reply[context].enc, PAIR.secret, info=b"i")
        self.assertEqual(recipient.open_many([reply[it].ciphertext for it in calls]), [b"2", b"3"])

    def test_a_small_stack(self):
        """A thread with 256 KiB, of which Python takes its own part."""
        done, before = [], threading.stack_size(262_144)
        try:
            thread = threading.Thread(target=lambda: done.append(self.round_trip()))
            thread.start()
        finally:
            threading.stack_size(before)
        thread.join()
        self.assertEqual(done, [[b"one"] * 50])

    def round_trip(self):
        pair = key_pair(SNTRUP857)
        sender = Sender(pair.public)
        return Recipient(sender.enc, pair.secret).open_many(sender.seal_many([b"one"] * 50))


# ---- misuse


class Misuse(unittest.TestCase):
    def refused(self, kind, *rows):
        for why, call in rows:
            with self.subTest(why), self.assertRaises(kind) as told:
                call()
            self.assertIn(why, str(told.exception))

    def test_wrong_keys(self):
        enc = Sender(PAIR.public).enc
        self.refused(
            TypeError,
            ("`to` is a secret key, and a public one is wanted", lambda: Sender(PAIR.secret)),
            ("`to` is a pair of keys: give its public half", lambda: Sender(PAIR)),
            ("`to` is text", lambda: Sender("bob.pub")),
            ("`key` is a public key, and the secret one is wanted", lambda: Recipient(enc, PAIR.public)),
            ("`key` is a pair of keys", lambda: Recipient(enc, PAIR)),
        )
        self.refused(
            ValueError,
            ("`to` has the size of a secret key", lambda: Sender(bytes(PAIR.secret))),
            ("`key` has the size of a public key", lambda: Recipient(enc, bytes(PAIR.public))),
            ("a public key has 1,158 (sntrup761) or 1,322", lambda: Sender(b"short")),
            ("enc has 3 bytes, and an encapsulation of sntrup761 has 1,039", lambda: Recipient(b"enc", PAIR.secret)),
        )
        with self.assertRaises(KeyRefused):
            Recipient(enc, SecretKey(b"\xff" * 382 + bytes(PAIR.secret)[382:]))

    def test_text_in_place_of_bytes(self):
        sender, recipient = ends()
        self.refused(
            TypeError,
            ("text is text, and bytes are wanted: encode it first", lambda: sender.seal("one")),
            ("text is of type int", lambda: sender.seal(1)),
            ("aad is text", lambda: sender.seal(b"one", "aad")),
            ("ct is text", lambda: recipient.open("one")),
            ("texts is a list of byte strings: write [text]", lambda: sender.seal_many(b"one")),
            ("text 1 is text", lambda: sender.seal_many([b"", "one"])),
            ("aads is a list of byte strings", lambda: sender.seal_many([b""], "a")),
            ("cts is a list of byte strings", lambda: recipient.open_many(b"one")),
            ("exporter_context is text", lambda: sender.export("label", 1)),
            ("info is text", lambda: Sender(PAIR.public, info="order 7")),
            ("psk is of type str: give Psk(secret, id)", lambda: Sender(PAIR.public, psk="secret")),
            ("enc is text", lambda: Recipient("enc", PAIR.secret)),
            ("shared_secret is text", lambda: Sender.from_shared_secret("secret", 32)),
        )
        self.assertEqual((sender.number, recipient.number), (0, 0))

    def test_numbers_that_name_nothing(self):
        sender, recipient = ends()
        self.refused(
            ValueError,
            ("kdf is 9", lambda: Sender(PAIR.public, kdf=9)),
            ("aead is 3", lambda: Sender(PAIR.public, aead=3)),
            ("limit is 0, and has to be from 1", lambda: Sender(PAIR.public, limit=0)),
            ("limit is 18446744073709551616", lambda: Sender(PAIR.public, limit=1 << 64)),
            ("limit is 1.5", lambda: Sender(PAIR.public, limit=1.5)),
            ("kem is -1", lambda: Sender.from_shared_secret(b"s", -1)),
            ("kem is 65536", lambda: Recipient.from_shared_secret(b"s", 65_536)),
            ("neither is empty", lambda: Sender(PAIR.public, psk=Psk(b"", b"name"))),
            ("size is 8161", lambda: sender.export(b"", 8_161)),
            ("size is -1", lambda: recipient.export(b"", -1)),
            ("there are 2 messages and 1 aads", lambda: sender.seal_many([b"", b""], [b""])),
            ("a seed has 32 bytes", lambda: sender_of_seed(PAIR.public, b"", 0, parameters(b"", None, 1, 1, 1))),
        )

    def test_limits(self):
        sender, recipient = ends(limit=3)
        cts = [sender.seal(b"0")]
        with self.assertRaises(LimitReached):
            sender.seal_many([b"1", b"2", b"3"])
        self.assertEqual(sender.number, 1)
        cts += sender.seal_many([b"1", b"2"])
        for again in (lambda: sender.seal(b"3"), lambda: sender.seal_many([b"3"])):
            with self.assertRaisesRegex(LimitReached, "past the LIMIT of its context"):
                again()
        self.assertEqual(sender.number, 3)
        self.assertEqual(recipient.open_many(cts), [b"0", b"1", b"2"])
        with self.assertRaises(LimitReached):
            Recipient(sender.enc, PAIR.secret, limit=2).open_many(cts)

    def test_an_export_only_context(self):
        sender, recipient = ends(aead=Aead.EXPORT_ONLY)
        self.assertEqual(sender.export(b"l", 32), recipient.export(b"l", 32))
        for call in (lambda: sender.seal(b""), lambda: sender.seal_many([b""]), lambda: recipient.open(bytes(16)), lambda: recipient.open_many([bytes(16)])):
            with self.assertRaisesRegex(Refused, "export-only context, was refused: nocipher"):
                call()

    def test_the_other_role(self):
        sender, recipient = ends()
        self.refused(
            AttributeError,
            ("a Recipient opens, and doesn't seal", lambda: recipient.seal(b"")),
            ("a Recipient opens, and doesn't seal", lambda: recipient.seal_many([])),
            ("a Sender seals, and doesn't open", lambda: sender.open(b"")),
            ("a Sender seals, and doesn't open", lambda: sender.open_many([])),
            ("a Sender has no attribute 'sael'", lambda: sender.sael),
        )

    def test_copies(self):
        for end in ends():
            rows = [lambda: copy.copy(end), lambda: copy.deepcopy(end), lambda: copy.deepcopy([end])]
            rows += [lambda protocol=it: pickle.dumps(end, protocol) for it in range(pickle.HIGHEST_PROTOCOL + 1)]
            for call in rows:
                with self.assertRaisesRegex(TypeError, "isn't copied or pickled: two copies would .* nonce"):
                    call()

    def test_after_the_end(self):
        for end in ends():
            held = end._context
            self.assertNotEqual(bytes(held), bytes(136))
            end.close()
            self.assertEqual(bytes(held), bytes(136))
            end.close()
            calls = [lambda: end.export(b"", 1), lambda: end.number]
            if isinstance(end, Sender):
                calls += [lambda: end.seal(b""), lambda: end.seal_many([])]
            else:
                calls += [lambda: end.open(b""), lambda: end.open_many([])]
            for call in calls:
                with self.assertRaisesRegex(ContextEnded, "was closed"):
                    call()
            self.assertEqual(repr(end), f"<{type(end).__name__}: closed>")
        with self.assertRaises(ZeroDivisionError):
            with Sender(PAIR.public) as sender:
                1 / 0
        with self.assertRaises(ContextEnded):
            sender.seal(b"")

    def test_what_is_dropped_is_wiped(self):
        end = Sender(PAIR.public)
        held = end._context
        del end
        gc.collect()
        self.assertEqual(bytes(held), bytes(136))

    def test_what_is_left_at_the_end_of_python_is_wiped(self):
        """As a wipe comes before what was told to atexit earlier, that sees zero bytes."""
        code = "import atexit, os, hpkebatch; from hpkebatch.contexts import key_pair\n"
        code += "held = []; atexit.register(lambda: os._exit(0 if bytes(held[0]) == bytes(136) else 1))\n"
        code += "sender = hpkebatch.Sender(key_pair().public); held.append(sender._context)\n"
        environment = {**os.environ, "PYTHONPATH": PACKAGE}
        self.assertEqual(subprocess.run([sys.executable, "-c", code], env=environment, check=False).returncode, 0)

    def test_a_wiped_context_does_nothing(self):
        """Also where a call of the library got it while it was being closed."""
        wiped = Context()
        self.assertEqual(LIBRARY.seal(wiped, b"", b"text")[0], Status.WRONG_USAGE)
        self.assertEqual(LIBRARY.open(wiped, b"", bytes(20))[0], Status.WRONG_USAGE)
        self.assertEqual(LIBRARY.export(wiped, b"", 1)[0], Status.WRONG_USAGE)
        self.assertEqual(LIBRARY.seal_all(wiped, [b""], [b""])[0], Status.WRONG_USAGE)
        self.assertEqual(bytes(wiped), bytes(136))

    def test_statuses_without_an_occasion(self):
        for status, kind in ((Status.NO_MEMORY, OutOfMemory), (Status.WRONG_USAGE, ValueError), (Status.EXHAUSTED, Refused), (99, Refused)):
            self.assertIs(type(fault_of(status, "a text")), kind)

    def test_nothing_secret_is_printed(self):
        sender, recipient = ends(psk=Psk(b"very secret", b"name"))
        for end in (sender, recipient):
            self.assertEqual(repr(end), f"<{type(end).__name__}: message 0 is next>")
            self.assertNotIn("0x", repr(end))
        self.assertEqual(repr(Parameters(1, 1, 1, 1, b"", b"very secret", b"name")), "<Parameters>")


# ---- one number for one message


class Once(unittest.TestCase):
    TEXT = b"the same text each time"

    def due(self, count):
        return set(same_sender().seal_many([self.TEXT] * count))

    def test_threads_share_a_sender(self):
        sender, found, count = same_sender(), [], 8 * 150

        def work():
            mine = [sender.seal(self.TEXT) for _ in range(50)]
            for _ in range(10):
                mine += sender.seal_many([self.TEXT] * 10)
            found.append(mine)

        threads = [threading.Thread(target=work) for _ in range(8)]
        for it in threads:
            it.start()
        for it in threads:
            it.join()
        sealed = [ct for mine in found for ct in mine]
        self.assertEqual((len(sealed), sender.number), (count, count))
        self.assertEqual(set(sealed), self.due(count))

    def test_threads_share_a_recipient(self):
        """Each message opens once: whoever comes second is refused."""
        sender, recipient = ends()
        ct, found = sender.seal(b"pay 1"), []

        def work():
            try:
                found.append(recipient.open(ct))
            except OpenFailed:
                found.append(None)

        threads = [threading.Thread(target=work) for _ in range(8)]
        for it in threads:
            it.start()
        for it in threads:
            it.join()
        self.assertEqual(sorted(found, key=bool), [None] * 7 + [b"pay 1"])

    def test_a_call_waits_for_the_one_that_goes_on(self):
        sender = same_sender()
        sender._lock.acquire()
        done = []
        thread = threading.Thread(target=lambda: done.append(sender.seal(self.TEXT)))
        thread.start()
        thread.join(0.1)
        self.assertEqual((done, sender._context.number), ([], 0))
        sender._lock.release()
        thread.join()
        self.assertEqual(set(done), self.due(1))

    def test_a_signal_handler_seals_too(self):
        sender, sealed = same_sender(), []
        before = signal.signal(signal.SIGALRM, lambda *_: sealed.append(sender.seal(self.TEXT)))
        try:
            signal.setitimer(signal.ITIMER_REAL, 0.0005, 0.0005)
            for _ in range(3000):
                sealed.append(sender.seal(self.TEXT))
        finally:
            signal.setitimer(signal.ITIMER_REAL, 0)
            signal.signal(signal.SIGALRM, before)
        self.assertGreater(len(sealed), 3000)
        self.assertEqual((len(set(sealed)), sender.number), (len(sealed), len(sealed)))
        self.assertEqual(set(sealed), self.due(len(sealed)))

    def child(self, fork, work):
        """The exit status of a forked child that does this."""
        process = fork()
        if process == 0:
            try:
                os._exit(work())
            except BaseException:
                os._exit(99)
        return os.waitstatus_to_exitcode(os.waitpid(process, 0)[1])

    def refusals(self, sender, recipient, ct):
        """How many calls a forked child is refused, by a sentence."""
        count = 0
        for call in (
            lambda: sender.seal(b""),
            lambda: sender.seal_many([b""]),
            lambda: recipient.open(ct),
            lambda: recipient.open_many([ct]),
            lambda: sender.export(b"", 1),
            lambda: sender.number,
        ):
            try:
                call()
            except ContextEnded as fault:
                count += "of the process that this one was forked from" in str(fault)
        return count

    def test_forks(self):
        sender, recipient = ends()
        ct = sender.seal(b"one")
        for fork in (os.fork, ctypes.CDLL(None).fork):
            self.assertEqual(self.child(fork, lambda: self.refusals(sender, recipient, ct)), 6)
        self.assertEqual(recipient.open(ct), b"one")
        self.assertEqual((sender.number, recipient.number), (1, 1))

    def test_a_fork_while_a_call_goes_on(self):
        """The child waits for no lock, which nobody would let go of. It may wipe what it got."""
        sender, recipient = ends()
        ct, held, go_on = sender.seal(b"one"), threading.Event(), threading.Event()

        def hold():
            with sender._lock, recipient._lock:
                held.set()
                go_on.wait()

        def work():
            signal.alarm(20)
            count = self.refusals(sender, recipient, ct)
            sender.close()
            return count if bytes(sender._context) == bytes(136) else 98

        thread = threading.Thread(target=hold)
        thread.start()
        held.wait()
        try:
            with warnings.catch_warnings():  # of a fork beside threads
                warnings.simplefilter("ignore", DeprecationWarning)
                self.assertEqual(self.child(os.fork, work), 6)
        finally:
            go_on.set()
            thread.join()
        self.assertEqual(recipient.open(ct), b"one")

    def test_a_child_makes_its_own(self):
        self.assertEqual(self.child(os.fork, lambda: len(self.round_trip())), 3)

    def round_trip(self):
        sender, recipient = ends()
        return recipient.open(sender.seal(b"one"))


class Pair(InAFolder):
    """The small program that every language has."""

    def pair(self, *words, given=b""):
        done = subprocess.run([sys.executable, os.path.join(PACKAGE, "pair.py"), *words], input=given, capture_output=True, check=False)
        return done.returncode, done.stdout, done.stderr

    def test_it_seals_and_opens(self):
        status, keys, _ = self.pair("keygen")
        self.assertEqual((status, [len(line) for line in keys.split()]), (0, [2 * 1158, 2 * 1763]))
        for name, line in zip(("public", "secret"), keys.split()):
            write(name, line + b"\n")
        for text in (b"a text\n\0\xff", b""):
            status, sealed, _ = self.pair("seal", "public", given=text)
            self.assertEqual((status, [len(line) for line in sealed.split()]), (0, [2 * 1039, 2 * (len(text) + 16)]))
            self.assertEqual(self.pair("open", "secret", given=sealed), (0, text, b""))
        for words, given in (
            (("open", "secret"), sealed[:-2] + (b"0" if sealed[-2:-1] != b"0" else b"1") + b"\n"),
            (("open", "secret"), b"00\n"),
            (("open", "public"), sealed),
            (("seal", "secret"), b""),
            (("seal", "none"), b""),
            (("seal",), b""),
            ((), b""),
        ):
            with self.subTest(words=words):
                status, out, errors = self.pair(*words, given=given)
                self.assertEqual((status, out), (1, b""))
                self.assertRegex(errors, rb"^pair: [^\n]+\n$")


class Room(unittest.TestCase):
    def test_the_struct_is_the_headers(self):
        self.assertEqual((ctypes.sizeof(Context), Context.exporter_secret.offset), (136, 68))
        self.assertEqual(room(5).raw, bytes(5))


if __name__ == "__main__":
    unittest.main()
