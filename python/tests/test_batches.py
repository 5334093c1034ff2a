"""Batches: what the builder refuses, what runs once, and which call a bad line belongs to."""

import copy
import os
import pickle
import signal
import threading
import unittest
from concurrent.futures import ProcessPoolExecutor
from multiprocessing import get_context

from common import Told, command, example
from hpkebatch import (
    SNTRUP761,
    SNTRUP857,
    AlreadyRun,
    BadBatch,
    Batch,
    CapsuleBatch,
    IllegalReply,
    Limits,
    LimitReached,
    OpenFailed,
    OutOfMemory,
    OverLimit,
    Psk,
    Refused,
    Reply,
    ReplyError,
    read_batch,
)

SECRET = b"s" * 32
BATCH = None


def run_batch_of_module():
    try:
        BATCH.run(runner=command)
    except AlreadyRun as fault:
        return type(fault).__name__
    return "it ran"


def two_ends():
    batch = Batch(for_tests=True)
    key = batch.keygen()
    sender = batch.send(key, b"info")
    recipient = batch.recv(key, sender, b"info")
    return batch, key, sender, recipient


class Building(unittest.TestCase):
    def test_a_whole_exchange(self):
        batch, key, sender, recipient = two_ends()
        first, other = batch.lane(), batch.lane()
        sealed = [first.seal(sender, b"one", b"a"), first.seal(sender, b"")]
        label = other.export(recipient, b"label", 32)
        reply = batch.run(runner=command).check(runner=command)
        self.assertEqual([len(reply[key].public), len(reply[key].secret)], [SNTRUP761.public_size, SNTRUP761.secret_size])
        self.assertEqual(len(reply[sender].enc), SNTRUP761.enc_size)
        self.assertEqual([reply[it].number for it in sealed], [0, 1])
        self.assertEqual(len(reply[label].secret), 32)
        self.assertEqual([place.call for place in reply.journal(sender).places], [0, 1])
        self.assertEqual([it.stamp for it in reply.history()], [0, 1])

        back = Batch()
        own = back.secret(reply[key].secret)
        again = back.recv(own, reply[sender].enc, b"info")
        lane = back.lane()
        opened = lane.unsealall(again, [(b"a", reply[sealed[0]].ciphertext), (b"", reply[sealed[1]].ciphertext)])
        wrong = lane.unseal(again, b"\0" * 20)
        seals = lane.seal(again, b"no")
        answers = back.run(runner=command).check(runner=command)
        self.assertEqual(answers[opened].plaintexts, [b"one", b""])
        self.assertEqual(answers[opened].guess, 0)
        with self.assertRaises(OpenFailed) as failed:
            answers[wrong]
        self.assertEqual((failed.exception.number, failed.exception.asked), (2, wrong))
        with self.assertRaises(Refused) as refused:
            answers[seals]
        self.assertEqual((refused.exception.word, refused.exception.asked), ("role", seals))
        self.assertEqual(answers.answer(seals).word, "role")

    def test_a_spoilt_item_of_an_opening_raises_where_it_is_asked_for(self):
        it = example("opening")
        reply = Reply(read_batch(it.batch), it.reply)
        opened = reply[reply.batch.lanes[0].calls[0]]
        self.assertEqual(len(opened), 3)
        self.assertEqual([type(item).__name__ for item in opened.items].count("FailedAnswer"), 1)
        with self.assertRaises(OpenFailed):
            opened.plaintexts
        it = example("limits")
        reply = Reply(read_batch(it.batch), it.reply)
        ends = [reply.answer(call) for lane in reply.batch.lanes for call in lane.calls]
        at = [type(answer).__name__ for answer in ends].index("LimitAnswer")
        with self.assertRaises(LimitReached):
            reply[reply.batch.lanes[0].calls[at]]

    def test_seeds_are_drawn_where_they_are_needed(self):
        plain = Batch()
        plain.share("recv", 32, SECRET)
        self.assertNotIn(b"rand", plain.text())
        texts = {two_ends()[0].text() for _ in range(3)}
        self.assertEqual(len(texts), 3)
        self.assertTrue(all(text.split(b"\n")[1].startswith(b"rand ") for text in texts))

    def test_adds_are_numbered_in_the_order_of_the_text(self):
        batch = Batch(for_tests=True)
        first, second = batch.lane(), batch.lane()
        late = second.add("send", 32, b"b" * 32)
        second.seal(late, b"two")
        early = first.add("send", 32, b"a" * 32)
        sealed = first.seal(early, b"one")
        first.retire(early)
        gone = first.seal(early, b"one")
        text = batch.text().split(b"\n")
        self.assertEqual([line[:9] for line in text if line.startswith((b"seal", b"reti"))], [b"seal +0 -", b"retire +0", b"seal +0 -", b"seal +1 -"])
        reply = batch.live(runner=command)
        self.assertEqual(reply[sealed].number, 0)
        with self.assertRaises(Refused):
            reply[gone]
        self.assertEqual(len(reply.table), 6)
        self.assertEqual([journal.name for journal in reply.journals], ["+0", "+1"])
        self.assertEqual(reply.journal(late).places[0].lane, 1)
        self.assertEqual([it.stamp for it in reply.history()], list(range(8)))
        with self.assertRaises(ValueError):
            batch.run(runner=command)

    def test_limits_are_those_of_the_format(self):
        batch = Batch(limits=Limits(keys=1, contexts=1, lanes=1, items=2, opening=2, exported=10, message=4, field=3, input=300))
        batch.peer(b"abc")
        context = batch.share("recv", 32, b"abc")
        lane = batch.lane()
        for call in (
            lambda: batch.peer(b"a"),
            lambda: batch.share("recv", 32, b"a"),
            lambda: batch.lane(),
            lambda: lane.unseal(context, b"x" * 21),
            lambda: lane.unseal(context, b"", b"1234"),
            lambda: lane.unsealall(context, [(b"", b"")] * 3),
            lambda: lane.unsealall(context, []),
            lambda: lane.export(context, b"", 11),
            lambda: lane.export(context, b"", 65_536),
            lambda: lane.export(context, b"1234", 1),
            lambda: batch.share("send", 32, b"", limit=0),
        ):
            with self.assertRaises(OverLimit):
                call()
        lane.unseal(context, b"x" * 20)
        lane.unseal(context, b"x" * 20)
        with self.assertRaises(OverLimit):
            lane.unseal(context, b"")
        self.assertLess(len(batch.text()), 300)
        self.assertEqual(batch.text().count(b"unseal"), 2)

    def test_wrong_fields(self):
        batch = Batch()
        for call in (
            lambda: Batch(version=3),
            lambda: Batch(seed=b"short"),
            lambda: Batch(version=1).keygen(SNTRUP857),
            lambda: batch.share("both", 32, b""),
            lambda: batch.share("recv", 32, b"", aead=3),
            lambda: batch.share("recv", 32, b"", kdf=4),
            lambda: batch.send(batch.peer(b"a"), kdf=9),
            lambda: batch.send(batch.peer(b"a"), aead=3),
            lambda: batch.recv(batch.peer(b"a"), b"", kdf=0),
            lambda: batch.recv(batch.peer(b"a"), b"", aead=9),
            lambda: batch.lane().add("recv", 32, b"", aead=3),
            lambda: CapsuleBatch().ask(CapsuleBatch().keygen(), 1, b"", kdf=4),
            lambda: Batch().run(workers=0, runner=command),
            lambda: Batch().live(workers=17, runner=command),
            lambda: Batch().run(mult="fast", runner=command),
            lambda: batch.share("recv", 32, b"", mode="auth"),
            lambda: batch.recv(Batch().peer(b"a"), b""),
            lambda: CapsuleBatch().ask(CapsuleBatch().peer(b""), 1, b""),
            lambda: Batch(version=1).lane().add("send", 32, b""),
        ):
            with self.assertRaises(ValueError):
                call()
        lane, context = batch.lane(), batch.share("recv", 32, b"")
        for why, call in (
            ("a message is of type str", lambda: lane.seal(context, "text")),
            ("associated data is of type str", lambda: lane.seal(context, b"", "text")),
            ("info is of type str", lambda: batch.share("recv", 32, b"", "text")),
            ("not bytes", lambda: batch.send(bytes(1158))),
            ("not bytes", lambda: batch.recv(batch.peer(b""), b"", b"").batch._own(b"")),
            ("not int", lambda: lane.seal(0, b"")),
        ):
            with self.assertRaisesRegex(TypeError, why):
                call()

    def test_names_of_lines_that_are_not_there(self):
        batch = Batch()
        lane = batch.lane()
        call = lane.export(batch.context(7), b"", 1)
        reply = batch.run(runner=command)
        with self.assertRaises(Refused) as refused:
            reply[call]
        self.assertEqual(refused.exception.word, "nocontext")
        for asked in (batch.context(7), batch.key(0)):
            with self.assertRaises(LookupError):
                reply[asked]
        with self.assertRaises(ValueError):
            reply[two_ends()[1]]


class Once(unittest.TestCase):
    def sealing(self):
        batch = Batch()
        context = batch.share("send", 32, SECRET)
        batch.lane().seal(context, b"one")
        batch.lane().seal(context, b"two")
        return batch

    def test_a_batch_that_seals_runs_once(self):
        batch = self.sealing()
        batch.run(runner=command)
        for again in (batch.run, batch.live, batch.rehearse):
            with self.assertRaises(AlreadyRun) as told:
                again(runner=command)
            self.assertIn("one key and nonce", str(told.exception))

    def test_lanes_that_share_no_context_that_one_seals_on(self):
        """Then every run answers each seal alike: the batch may run again."""

        def rows():
            for name, may, calls in (
                ("one lane, two contexts", True, lambda a, b, x, y: (a.seal(x, b""), a.seal(y, b""))),
                ("each lane its own", True, lambda a, b, x, y: (a.seal(x, b""), b.seal_each(y, [b"", b""]))),
                ("both on one", False, lambda a, b, x, y: (a.seal(x, b""), b.seal(x, b""))),
                ("both on one, by seal_each", False, lambda a, b, x, y: (a.seal_each(x, [b""]), b.seal(x, b""))),
                ("one seals and another exports", True, lambda a, b, x, y: (a.seal(x, b""), b.export(x, b"", 1))),
            ):
                batch = Batch()
                contexts = [batch.share("send", 32, SECRET, info) for info in (b"x", b"y")]
                calls(batch.lane(), batch.lane(), *contexts)
                yield name, may, batch, batch.run
            for name, may, calls in (
                ("its own added context", True, lambda a, b, x: (a.seal(x, b""), a.retire(x))),
                ("another adds it", False, lambda a, b, x: b.seal(x, b"")),
                ("another retires it", False, lambda a, b, x: (a.seal(x, b""), b.retire(x))),
                ("another retires it by its number", False, lambda a, b, x: (a.seal(x, b""), b.retire(b.batch.added(0)))),
                ("another exports", True, lambda a, b, x: (a.seal(x, b""), b.export(x, b"", 1))),
            ):
                batch = Batch()
                first, other = batch.lane(), batch.lane()
                calls(first, other, first.add("send", 32, SECRET))
                yield name, may, batch, batch.live

        for name, may, batch, run in rows():
            with self.subTest(name):
                self.assertEqual(batch.may_run_again, may)
                sealed = [line for line in run(runner=command).text().split(b"\n") if line.startswith(b"sealed")]
                if may:
                    self.assertEqual(sealed, [it for it in run(runner=command).text().split(b"\n") if it.startswith(b"sealed")])
                else:
                    with self.assertRaises(AlreadyRun):
                        run(runner=command)

    def test_what_ran_by_live_runs_by_nothing_else(self):
        batch = Batch()
        batch.lane().seal(batch.share("send", 32, SECRET), b"one")
        batch.live(runner=command)
        with self.assertRaises(AlreadyRun):
            batch.run(runner=command)
        batch.live(runner=command)

    def test_a_forked_process_runs_no_batch_that_seals(self):
        """Not even one whose lanes share nothing: its parent may add to it."""
        batch = Batch()
        batch.lane().seal(batch.share("send", 32, SECRET), b"one")
        child = os.fork()
        if child == 0:
            try:
                batch.run(runner=command)
            except AlreadyRun as fault:
                os._exit(7 if "which may run it too" in str(fault) else 1)
            os._exit(0)
        self.assertEqual(os.waitstatus_to_exitcode(os.waitpid(child, 0)[1]), 7)

    def test_nothing_is_added_to_a_batch_that_ran(self):
        batch = self.sealing()
        lane = batch.lanes[0]
        batch.run(runner=command)
        for call in (batch.keygen, batch.lane, lambda: batch.share("recv", 32, b""), lambda: lane.seal(batch.contexts[0], b"x")):
            with self.assertRaises(AlreadyRun):
                call()

    def test_a_rehearsal_repeats_one_schedule(self):
        batch = self.sealing()
        first, second = (batch.rehearse([1, 0], runner=command) for _ in range(2))
        self.assertEqual(first.text(), second.text())
        for other in (lambda: batch.rehearse([0, 1], runner=command), lambda: batch.run(runner=command)):
            with self.assertRaises(AlreadyRun):
                other()

    def test_openings_and_tests_may_repeat(self):
        batch = Batch()
        batch.lane().export(batch.share("recv", 32, SECRET), b"", 1)
        batch.run(runner=command)
        batch.run(runner=command)
        batch, _, sender, _ = two_ends()
        batch.lane().seal(sender, b"")
        for schedule in ([], [0], [0, 0]):
            batch.rehearse(schedule, runner=command)

    def test_a_run_that_wrote_nothing_may_be_tried_again(self):
        batch = self.sealing()
        with self.assertRaises(OutOfMemory):
            batch.run(runner=Told(status=6, errors=b"hpkebatch: out of memory\n"))
        batch.run(runner=command)
        batch = self.sealing()
        with self.assertRaises(Exception):
            batch.run(runner=Told(b"hpkebatch 2\n", status=5))
        with self.assertRaises(AlreadyRun):
            batch.run(runner=command)

    def test_two_threads_run_it_once(self):
        batch, refused = self.sealing(), []

        def run():
            try:
                batch.run(runner=command)
            except AlreadyRun:
                refused.append(1)

        threads = [threading.Thread(target=run) for _ in range(8)]
        for thread in threads:
            thread.start()
        for thread in threads:
            thread.join()
        self.assertEqual(len(refused), 7)

    def test_a_failed_run_does_not_open_what_another_closed(self):
        """Two threads rehearse, and one of them runs out of memory: the batch was run all the same."""
        batch = self.sealing()
        begun, failed = threading.Event(), threading.Event()
        self.addCleanup(failed.set)

        def slow(words, pieces):
            begun.set()
            failed.wait()
            return command(words, pieces)

        thread = threading.Thread(target=batch.rehearse, kwargs={"runner": slow})
        thread.start()
        begun.wait()
        for _ in range(2):  # while that run is under way, and when it is done
            with self.assertRaises(OutOfMemory):
                batch.rehearse(runner=Told(status=6))
            with self.assertRaises(AlreadyRun):
                batch.run(runner=command)
            with self.assertRaises(AlreadyRun):
                batch.lanes[0].seal(batch.contexts[0], b"another")
            failed.set()
            thread.join()

    def test_a_run_that_is_interrupted_counts(self):
        def interrupted(words, pieces):
            raise KeyboardInterrupt

        batch = self.sealing()
        with self.assertRaises(KeyboardInterrupt):
            batch.run(runner=interrupted)
        with self.assertRaises(AlreadyRun):
            batch.run(runner=command)

    def test_a_forked_process_does_not_run_it(self):
        """Whether it was run before the fork or not; its parent still may."""
        for runs_before in (False, True):
            batch = self.sealing()
            if runs_before:
                batch.rehearse(runner=command)
            child = os.fork()
            if child == 0:
                told = 0
                for call in (batch.run, batch.live, batch.rehearse, batch.lane, batch.keygen):
                    try:
                        call()
                    except AlreadyRun as fault:
                        told += "of the process that this one was forked from" in str(fault)
                os._exit(told)
            self.assertEqual(os.waitstatus_to_exitcode(os.waitpid(child, 0)[1]), 5)
            batch.rehearse(runner=command)

    def test_workers_of_a_pool_do_not_run_a_batch_of_the_module(self):
        global BATCH
        BATCH = self.sealing()
        with ProcessPoolExecutor(2, mp_context=get_context("fork")) as executor:
            self.assertEqual({future.result() for future in [executor.submit(run_batch_of_module) for _ in range(4)]}, {"AlreadyRun"})
        BATCH.run(runner=command)

    def test_a_fork_while_another_thread_begins_a_run(self):
        """The lock that it holds is another one in the forked process."""
        from hpkebatch.once import Here

        with Here.lock:
            child = os.fork()
            if child == 0:
                signal.alarm(20)
                batch = self.sealing()
                os._exit(len(batch.rehearse(runner=command).journals))
            self.assertEqual(os.waitstatus_to_exitcode(os.waitpid(child, 0)[1]), 1)

    def test_openings_and_capsules_may_run_in_a_forked_process(self):
        batch = Batch()
        batch.lane().export(batch.share("recv", 32, SECRET), b"", 1)
        capsules = CapsuleBatch()
        key = capsules.keygen()
        child = os.fork()
        if child == 0:
            batch.run(runner=command)
            capsules.run(runner=command)
            try:
                capsules.ask(key, 7, b"other")  # by the same seed as what the parent asks
            except AlreadyRun:
                os._exit(7)
            os._exit(0)
        self.assertEqual(os.waitstatus_to_exitcode(os.waitpid(child, 0)[1]), 7)
        capsules.ask(key, 7, b"text")

    def test_a_batch_is_not_copied(self):
        for copied in (copy.copy, copy.deepcopy, pickle.dumps):
            for batch in (self.sealing(), CapsuleBatch()):
                with self.assertRaises(TypeError):
                    copied(batch)

    def test_nothing_secret_is_printed(self):
        batch, key, sender, recipient = two_ends()
        call = batch.lane().seal(sender, b"plain text")
        psk = Psk(b"pre-shared", b"name")
        reply = batch.run(runner=command)
        seed = batch.text().split(b"\n")[1][5:].decode()
        texts = [repr(it) for it in (batch, key, sender, call, reply, reply[key], psk, batch.lanes)]
        for secret in (seed, reply[key].secret.hex()[:16], repr(reply[key].secret)[2:20], "pre-shared", "plain text"):
            self.assertFalse([text for text in texts if secret in text])


class Faults(unittest.TestCase):
    def test_a_bad_line_is_told_with_its_call(self):
        """By limits above the program's, so that the program finds what the builder lets pass."""
        batch = Batch(limits=Limits(lanes=99, field=99_999))
        batch.keygen()
        context = batch.share("recv", 32, SECRET)
        batch.lane().export(context, b"", 1)
        lane = batch.lane()
        lane.export(context, b"", 1)
        wrong = lane.export(context, b"x" * 65_536, 1)
        with self.assertRaises(BadBatch) as bad:
            batch.run(runner=command)
        self.assertEqual((bad.exception.line, bad.exception.reason, bad.exception.asked), (9, "size", wrong))
        self.assertIn("call 1 (export) of lane 1", str(bad.exception))
        for asked, line in ((batch.keys[0], 3), (context, 4), (lane.calls[0], 8)):
            self.assertIs(batch.asked_at(line), asked)
        for line in (0, 1, 2, 5, 7, 10, 99):
            self.assertIsNone(batch.asked_at(line))

    def test_a_bad_line_of_capsules(self):
        batch = CapsuleBatch(limits=Limits(field=99_999))
        key = batch.keygen()
        ask = batch.ask(key, 7, b"text")
        wrong = batch.answer(key, 7, ask, b"text", nonce=b"n" * 65_536)
        with self.assertRaises(BadBatch) as bad:
            batch.run(runner=command)
        self.assertIs(bad.exception.asked, wrong)

    def test_a_spoilt_reply_is_told_with_its_call(self):
        it = example("two_ends")
        batch = read_batch(it.batch)
        lines = it.reply.split(b"\n")
        for call in batch.lanes[0].calls:
            at = next(n for n in range(len(lines)) if Reply(batch, it.reply).asked_at(n + 1) is call)
            changed = b"\n".join([*lines[:at], lines[at][:-1] + (b"0" if lines[at][-1:] != b"0" else b"1"), *lines[at + 1 :]])
            with self.assertRaises(IllegalReply) as told:
                Reply(batch, changed).check(runner=command)
            self.assertEqual((told.exception.kind, told.exception.at, told.exception.asked), ("reply", at + 1, call))

    def test_a_journal_that_is_spoilt(self):
        it = example("seal")
        batch = read_batch(it.batch)
        changed = it.reply.replace(b"0 0 0\n0 1 0\n", b"0 1 0\n0 0 0\n")
        with self.assertRaises(IllegalReply) as told:
            Reply(batch, changed).check(runner=command)
        self.assertEqual((told.exception.kind, told.exception.asked), ("journal", batch.contexts[0]))

    def test_a_reply_of_live_that_is_spoilt(self):
        it = example("live")
        batch = read_batch(it.batch)
        added = batch.lanes[0].calls[1]
        for old, new, wrong in (
            (b"0 2 0 3\n", b"0 2 1 3\n", ("journal", "+0", added)),
            (b"0 3 1 4\n", b"0 3 0 4\n", ("table", None, None)),
            (b"0 3 1 4\n", b"0 3 1 5\n", ("table", None, None)),
            (b"0 4 0 5\n", b"0 4 0 6\n", ("stamps", None, None)),
        ):
            with self.assertRaises(IllegalReply) as told:
                Reply(batch, it.reply.replace(old, new), is_live=True).check(runner=command)
            self.assertEqual((told.exception.kind, told.exception.at, told.exception.asked), wrong)

    def test_a_reply_to_another_batch(self):
        batch = read_batch(example("open").batch)
        with self.assertRaises(ReplyError) as told:
            Reply(batch, example("seal").reply)[batch.lanes[0].calls[0]]
        self.assertEqual((told.exception.line, told.exception.why), (4, "this doesn't answer call 0 (unseal) of lane 0"))

    def test_exceptions_get_to_other_processes(self):
        batch, _, sender, _ = two_ends()
        call = batch.lane().seal(sender, b"")
        for fault in (BadBatch(3, "hex", call), IllegalReply("reply", 4, call), Refused("role", call), OpenFailed(call, 2), LimitReached(call), ReplyError(2, "why")):
            self.assertEqual(str(pickle.loads(pickle.dumps(fault))), str(fault))


class Capsules(unittest.TestCase):
    def test_a_whole_exchange(self):
        for kem in (SNTRUP761, SNTRUP857):
            batch = CapsuleBatch()
            key = batch.keygen(kem)
            ask = batch.ask(key, 7, b"question")
            answer = batch.answer(key, 7, ask, b"answer")
            take = batch.take(ask, answer)
            other = batch.answer(key, 8, ask, b"answer")
            reply = batch.run(runner=command)
            self.assertEqual((reply[answer].text, reply[take].text), (b"question", b"answer"))
            with self.assertRaises(Refused) as refused:
                reply[other]
            self.assertEqual(refused.exception.word, "header")
            gateway = CapsuleBatch()
            own = gateway.secret(reply[key].secret, kem)
            there = gateway.answer(own, 7, reply[ask].request, b"again")
            self.assertEqual(gateway.run(runner=command)[there].text, b"question")
            self.assertEqual(batch.run(runner=command).text(), reply.text())
            with self.assertRaises(AlreadyRun):
                batch.ask(key, 7, b"")


if __name__ == "__main__":
    unittest.main()
