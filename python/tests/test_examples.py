"""The stored examples and random batches: rebuilt, run, read, and printed back byte for byte."""

import json
import os
import subprocess
import sys
import unittest

from common import HERE, command, example, examples, needs_second_program
from hpkebatch import CapsuleReply, Reply, read_batch, read_capsules

RANDOM = 24


def asked(words, text):
    """The batch of a text, rebuilt call by call."""
    return read_capsules(text) if words[0] == "capsules" else read_batch(text)


def answered(batch, words, reply):
    return CapsuleReply(batch, reply) if words[0] == "capsules" else Reply(batch, reply, is_live=words[0] == "live")


def run(batch, words):
    """The program's reply, by the call that has these words."""
    if words[0] == "rehearse":
        return batch.rehearse([] if words[1] == "-" else map(int, words[1].split(",")), runner=command)
    if words[0] == "capsules":
        return batch.run(runner=command)
    return (batch.live if words[0] == "live" else batch.run)(workers=1, runner=command)


class Examples(unittest.TestCase):
    def test_batches_are_rebuilt_byte_for_byte(self):
        names = []
        for it in examples():
            with self.subTest(it.name):
                self.assertEqual(asked(it.words, it.batch).text(), it.batch)
                names.append(it.name)
        self.assertGreaterEqual(len(names), 24)

    def test_replies_are_printed_back_byte_for_byte(self):
        for it in examples():
            with self.subTest(it.name):
                self.assertEqual(answered(asked(it.words, it.batch), it.words, it.reply).text(), it.reply)

    def test_the_program_gives_the_stored_replies(self):
        for it in examples():
            with self.subTest(it.name):
                self.assertEqual(run(asked(it.words, it.batch), it.words).text(), it.reply)

    def test_stored_replies_are_legal(self):
        for it in examples():
            if it.words[0] in ("run", "rehearse", "live"):
                with self.subTest(it.name):
                    answered(asked(it.words, it.batch), it.words, it.reply).check(runner=command)

    def test_a_reply_of_a_line_less_or_more_is_refused(self):
        """But for a row of a journal or a table: that is for `check` to judge."""
        for it in examples():
            lines = it.reply.splitlines(keepends=True)
            for at, line in enumerate(lines):
                for other in (lines[:at] + lines[at + 1 :], lines[: at + 1] + lines[at:]):
                    with self.subTest(it.name, line=at + 1):
                        try:
                            printed = answered(asked(it.words, it.batch), it.words, b"".join(other)).text()
                        except ValueError:
                            continue
                        self.assertRegex(line, rb"^\d+ \d+ \d+")
                        self.assertEqual(printed, b"".join(other))

    def test_each_byte_of_a_reply_counts(self):
        """A changed byte is told, or stands in the text that is printed back."""
        for name in ("seal", "opening", "live", "refused"):
            it = example(name)
            for at in range(len(it.reply)):
                text = it.reply[:at] + b"~" + it.reply[at + 1 :]
                with self.subTest(name, at=at):
                    try:
                        self.assertEqual(answered(asked(it.words, it.batch), it.words, text).text(), text)
                    except ValueError:
                        pass


class RandomBatches(unittest.TestCase):
    def test_batches_of_the_second_program(self):
        """They are rebuilt, its replies are printed back, and the program gives the same."""
        needs_second_program()
        seed = os.environ.get("SEED", "43")
        script = os.path.join(HERE, "made_by_reference.py")
        made = subprocess.run([sys.executable, script, str(RANDOM), seed], capture_output=True, check=True).stdout
        cases = [json.loads(line) for line in made.splitlines()]
        self.assertEqual(len(cases), RANDOM)
        for number, it in enumerate(cases):
            batch, reply = it["batch"].encode("latin-1"), it["reply"].encode("latin-1")
            with self.subTest(number=number, seed=seed, words=it["words"]):
                self.assertEqual(it["status"], 0)
                rebuilt = asked(it["words"], batch)
                self.assertEqual(rebuilt.text(), batch)
                self.assertEqual(answered(rebuilt, it["words"], reply).text(), reply)
                self.assertEqual(run(rebuilt, it["words"]).text(), reply)


if __name__ == "__main__":
    unittest.main()
