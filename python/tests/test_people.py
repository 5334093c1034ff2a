"""The other words of the command: judgements, pictures, help, wrong words, and the program's own."""

import os
import re
import subprocess
import unittest
from xml.etree import ElementTree

from common import ENVIRONMENT, HOME, PROGRAM, InAFolder, example, examples, write
from hpkebatch import ReplyError, __version__
from hpkebatch.helps import HELPS
from hpkebatch.history import draw, read_history


class Judgements(InAFolder):
    def put(self, name):
        it = example(name)
        write("batch", it.batch)
        write("reply", it.reply)
        return it

    def test_legal_and_not(self):
        it = self.put("seal")
        write("other", it.reply.replace(b"sealed 1 a", b"sealed 1 b"))
        self.assertEqual(self.told("judge", "batch", "reply"), (0, "legal\n", ""))
        status, out, err = self.told("judge", "batch", "other")
        self.assertEqual((status, out), (7, "broken reply 5\n"))
        self.assertTrue(err.startswith("hpkebatch: other: it isn't a reply to batch: line 5: sealed 1 bf2d7e9a"))
        self.put("live")
        self.assertEqual(self.told("judge", "--live", "batch", "reply"), (0, "legal\n", ""))

    def test_the_likely_cause(self):
        self.put("seal")
        write("text", b"text")
        self.assertEqual(self.told("judge", "reply", "batch"), (1, "", "hpkebatch: reply: its line 2 is none of a batch (word): the two files are exchanged: the batch comes first\n"))
        self.assertIn("batch: it isn't a reply to batch: REPLY is a batch", self.told("judge", "batch", "batch")[2])
        self.assertIn("reply: its line 2 is none of a batch (word): BATCH is a reply", self.told("judge", "reply", "reply")[2])
        self.assertIn("text: its line 1 is none of a batch (header)", self.told("judge", "text", "reply")[2])
        self.assertEqual(self.told("judge", "none", "reply"), (1, "", "hpkebatch: none: No such file or directory\n"))
        status, _, err = self.told("judge", "--live", "batch", "reply")
        self.assertIn("leave --live out", err)
        self.put("live")
        status, out, err = self.told("judge", "batch", "reply")
        self.assertEqual(out, "")
        self.assertIn(": they are of `live`: say --live", err)
        self.put("capsules")
        self.assertIn("the batch is one of capsules", self.told("judge", "batch", "reply")[2])


class Pictures(InAFolder):
    def test_pictures(self):
        for it in examples():
            if it.words[0] == "capsules":
                continue
            with self.subTest(it.name):
                write("reply", it.reply)
                status, out, err = self.told("history", "reply")
                self.assertEqual((status, err), (0, ""))
                root = ElementTree.fromstring(out)
                hovers = [title.text for title in root.iter("{http://www.w3.org/2000/svg}title")]
                steps = len(read_history(it.reply).steps)
                self.assertEqual(len(hovers), steps)
                failed = it.reply.count(b"\nfailed ")
                self.assertEqual(sum(": failed" in text for text in hovers), failed)
                missed = sum(map(int, re.findall(rb"^batch \d+ (\d+)$", it.reply, re.M)))
                self.assertEqual(sum("stale" in text for text in hovers), missed)
        self.assertIn("its guess was stale", draw(example("stale_guess").reply, "it"))
        self.assertIn("step 0: lane 0, call 0, item 0, context 0: sealed at number 0", draw(example("stamps").reply, "it"))

    def test_what_has_no_picture(self):
        write("reply", example("capsules").reply)
        write("batch", example("seal").batch)
        write("cut", example("seal").reply[:-9])
        for name, why in (
            ("reply", "it is a reply of capsules, which has no journals to draw"),
            ("batch", "it is a batch: give its reply"),
            ("cut", "it isn't a whole reply: line"),
        ):
            status, out, err = self.told("history", name)
            self.assertEqual((status, out), (1, ""))
            self.assertIn(f"hpkebatch: {name}: {why}", err)

    def test_a_part_of_a_long_history(self):
        places = b"".join(b"0 %d 0 %d\n" % (n, n) for n in range(1000))
        answers = b"".join(b"sealed %d ab\n" % n for n in range(1000))
        text = b"hpkebatch 2\ncontext 0 shared\nlane 0\n" + answers + b"journal 0\n" + places + b"end\n"
        picture = draw(text, "it", 500, 30)
        self.assertEqual(picture.count("<title>"), 30)
        self.assertIn("steps 500 to 529 of 1,000", picture)
        self.assertLess(draw(text, "it").count("<title>"), 201)

    def test_texts_that_are_no_reply(self):
        for text in (b"", b"hpkebatch 1\n", b"hpkebatch 3\nend\n", b"hpkebatch 1\njournal 0\n0 0 0\nend\n", b"hpkebatch 1\nx\nend\n"):
            with self.assertRaises(ReplyError):
                draw(text, "it")
        # Two journals that turn the lanes' orders round: no order fits.
        lanes = b"lane 0\nsealed 0 ab\nsealed 1 ab\nlane 1\nsealed 0 ab\nsealed 1 ab\n"
        journals = b"journal 0\n1 1 0\n0 0 0\njournal 1\n0 1 0\n1 0 0\n"
        with self.assertRaises(ReplyError):
            draw(b"hpkebatch 1\ncontext 0 shared\ncontext 1 shared\n" + lanes + journals + b"end\n", "it")


class Words(InAFolder):
    def test_help_and_version(self):
        for words in (("help",), ("--help",), ("-h",)):
            status, out, err = self.told(*words)
            self.assertEqual((status, err), (0, ""))
            self.assertIn("hpkebatch seal --to bob.pub report.pdf", out)
        self.assertEqual(self.told("--version"), (0, f"hpkebatch {__version__}\n", ""))
        for word in ("keygen", "show", "seal", "open", "judge", "history", "help"):
            self.assertEqual(self.told("help", word), self.told(word, "--help"))
            self.assertIn(f"\n  hpkebatch {word}", self.told("help", word)[1])
        for word, text in HELPS.items():
            self.assertEqual(self.told("help", word), (0, text, ""))
            self.assertLessEqual(len(text.splitlines()), 10)

    def test_wrong_words_are_one_line(self):
        for words, says in (
            (("sealx",), "there is no word 'sealx'; see `hpkebatch help`"),
            (("help", "sealx"), "there is no word sealx; see `hpkebatch help`"),
            (("seal", "text"), "seal: the following arguments are required: --to; see `hpkebatch help seal`"),
            (("keygen", "--kem", "kyber", "bob"), "keygen: argument --kem: invalid choice: 'kyber'"),
            (("--nothing", "keygen", "bob"), "unrecognized arguments: --nothing"),
        ):
            status, out, err = self.told(*words)
            self.assertEqual((out, err.count("\n")), ("", 1))
            self.assertIn(f"hpkebatch: {says}", err)
            self.assertIn(status, (1, 2))

    def test_no_words(self):
        done = self.run_command()
        self.assertEqual((done.returncode, done.stdout, done.stderr), (2, b"", b"hpkebatch: give a word, as in `hpkebatch help`\n"))

    def test_the_programs_own_words_are_handed_on(self):
        """Its streams, its status and what it says of wrong words are its own."""
        for it in examples():
            if it.words[0] in ("run", "rehearse", "live", "capsules") and it.name in ("seal", "rehearsal", "live", "capsules"):
                done = self.run_command(*it.words, input=it.batch)
                self.assertEqual((done.returncode, done.stdout, done.stderr), (0, it.reply, b""))
        it = example("seal")
        self.assertEqual(self.run_command("check", input=it.batch + it.reply).stdout, b"legal\n")
        for words in (("run", "--workers", "17"), ("demo",), ("check", "--help"), ("rehearse",), ("live", "x"), ("capsules", "--live")):
            done = self.run_command(*words)
            own = subprocess.run([PROGRAM, *words], capture_output=True, input=b"")
            self.assertEqual((done.returncode, done.stdout, done.stderr), (own.returncode, own.stdout, own.stderr))

    def test_a_program_that_is_not_there(self):
        environment = {**ENVIRONMENT, "HPKEBATCH": "/nowhere/hpkebatch"}
        for words in (("run",), ("keygen", "bob")):
            done = self.run_command(*words, env=environment)
            self.assertEqual(done.returncode, 1)
            self.assertIn(b"/nowhere/hpkebatch", done.stderr)
            self.assertEqual(done.stderr.count(b"\n"), 1)
        self.assertEqual(os.listdir(), [])

    def test_it_runs_as_a_module(self):
        self.assertEqual(self.run_command("keygen", "a").returncode, 0)
        picture = self.run_command("history", os.path.join(HOME, "examples/stamps.reply"))
        self.assertTrue(picture.stdout.startswith(b"<svg "))


if __name__ == "__main__":
    unittest.main()
