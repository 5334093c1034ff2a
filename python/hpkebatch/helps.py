"""What `hpkebatch help` says first, and what it says of the program's own words; of the others their parsers tell."""

FRONT = """Seals files and messages to a public key (HPKE, RFC 9180, over Streamlined NTRU Prime), and opens them.

  hpkebatch keygen bob                       bob.key, for Bob alone, and bob.pub, to give away
  hpkebatch seal --to bob.pub report.pdf     report.pdf.hpke
  hpkebatch open --key bob.key report.pdf.hpke

For scripts there are `run`, `rehearse`, `live`, `check`, `capsules` and `demo`, which read batches from standard input:
see `hpkebatch help run`."""

HELPS = {
    "run": """hpkebatch run [--workers W] [--mult plain|karatsuba|lanes] < BATCH > REPLY

Reads a batch from standard input, answers it, and writes its reply to standard output. A batch is text: keys, contexts,
and lanes of calls, all bytes in hex. `W` threads, from 1 to 16, serve the lanes side by side. Never run a batch twice in
which two lanes seal on one context: `rehearse -` repeats a run.

    $ hpkebatch run < examples/seal.batch

Status 0 says that the reply is whole: look for `failed`, `refused` and `limit` in its lines. Status 3: standard output
names the first bad line. docs/FORMAT.md has the lines of a batch and of a reply.
""",
    "rehearse": """hpkebatch rehearse SCHEDULE < BATCH > REPLY

Answers a batch as `run` does, where the lanes take their steps in the order of SCHEDULE: numbers of lanes with commas
between, or `-` for one lane after another. The same batch and schedule always get the same reply.

    $ hpkebatch rehearse - < examples/seal.batch
    $ hpkebatch rehearse 0,1,1,0 < examples/two_ends.batch
""",
    "live": """hpkebatch live [--workers W] [--mult plain|karatsuba|lanes] < BATCH > REPLY

Answers a batch as `run` does. Lanes of this one may also add contexts and retire them, by lines `add` and `retire`.

    $ hpkebatch live < examples/live.batch
""",
    "check": """hpkebatch check [--live] [--mult plain|karatsuba|lanes] < BATCH-AND-REPLY

Reads a batch and a reply behind it, and says whether `run` may have written that reply; with `--live`, whether `live`
may. It prints `legal`, or `broken ..` with status 7. `hpkebatch judge BATCH REPLY` does it with two files.

    $ cat examples/seal.batch examples/seal.reply | hpkebatch check
""",
    "capsules": """hpkebatch capsules [--mult plain|karatsuba|lanes] < BATCH > REPLY

Makes, answers and reads messages of Oblivious HTTP (RFC 9458): lines `ask`, `answer` and `take`.

    $ hpkebatch capsules < examples/capsules.batch
""",
    "demo": """hpkebatch demo SEED MESSAGES LANES

Makes a batch from the number SEED, seals and opens so many messages by so many lanes, and prints two lines.

    $ hpkebatch demo 7 1000 4
""",
}
