"""The command hpkebatch: keys, sealed files, and replies of batches."""

from __future__ import annotations

import argparse
import os
import re
import sys
import threading
from contextlib import nullcontext
from typing import Callable, List, NoReturn, Optional, Sequence

from . import __version__
from .command import Command, find_command
from .errors import BadBatch, FileFault, HpkeBatchError, IllegalReply, KeyRefused
from .files import SUFFIX, Job, Opening, Sealing, Work
from .helps import FRONT, HELPS
from .history import draw
from .judging import is_batch, is_of_capsules, likely_cause
from .keys import AnyKey, PublicKey, SecretKey, fingerprint, key_text, read_key_file, write_pair
from .messages import generate_key
from .new_file import NewFile
from .progress import Progress
from .reply import check
from .showing import describe
from .signals import Ended, end_by, raised
from .sources import MOST_IN_MEMORY, STANDARD, naming
from .suites import KEMS, Psk

FAILED, WRONG_WORDS, NOT_LEGAL = 1, 2, 7
MOST_PSK = 65_535


def main(words: Optional[List[str]] = None) -> int:
    """Does what the words say; the result is the status."""
    given = list(sys.argv[1:] if words is None else words)
    is_main_thread = threading.current_thread() is threading.main_thread()
    try:
        with raised() if is_main_thread else nullcontext():
            return _done(given)
    except Ended as ended:
        return end_by(ended.number)


def _done(words: List[str]) -> int:
    try:
        if words and words[0] in HELPS:
            return _program(words)
        if not words:
            _error("give a word, as in `hpkebatch help`")
            return WRONG_WORDS
        given = parser().parse_args(words)
        status: int = given.do(given)
        return status
    except SystemExit as left:
        return int(left.code or 0)
    except (HpkeBatchError, ValueError) as fault:
        _error(str(fault))
    except OSError as fault:
        _error(": ".join(str(it) for it in (fault.filename, fault.strerror) if it))
    return FAILED


def _error(line: str) -> None:
    print(f"hpkebatch: {line}", file=sys.stderr)


def _say(text: str) -> None:
    """Writes to standard output, whose faults are told here and not when Python ends."""
    if sys.stdout is None:
        raise FileFault("standard output", "it is closed")
    try:
        sys.stdout.write(text)
        sys.stdout.flush()
    except OSError as fault:
        os.dup2(os.open(os.devnull, os.O_WRONLY), 1)
        raise FileFault("standard output", fault.strerror or str(fault)) from fault


def _program(words: List[str]) -> int:
    """The program itself, with its streams and its status."""
    path = find_command()
    with naming(path):
        os.execv(path, [path, *words])


# ---- keys


def keygen(given: argparse.Namespace) -> int:
    kem = {kem.name: kem for kem in KEMS}[given.kem]
    pair = generate_key(kem, runner=Command(given.program))
    secret, public = write_pair(pair, given.name)
    _say(
        f"{secret}: the secret key; keep it, and show it to nobody\n"
        f"{public}: the public key; give it to whoever seals files for you\n"
        f"fingerprint of the public key: {fingerprint(pair)}\n"
    )
    return 0


def show(given: argparse.Namespace) -> int:
    if not (given.public or given.hex or given.output):
        _say(describe(given.file))
        return 0
    key = _read_key(given.file, None)
    if given.public and isinstance(key, SecretKey):
        key = key.public
    if given.hex:
        _say(f"{bytes(key).hex()}\n")
    elif given.output in (None, STANDARD):
        _say(key_text(key).decode())
    else:
        _write_key(key, given.output)
    return 0


def _write_key(key: AnyKey, path: str) -> None:
    file = NewFile(path)
    try:
        file.write([key_text(key)])
        file.finish(0o600 if isinstance(key, SecretKey) else 0o666)
    finally:
        file.close()


def _read_key(path: str, wanted: Optional[type]) -> AnyKey:
    key, is_old = read_key_file(path, wanted)
    if is_old:
        _error(
            f"{path}: a key file of hpkebatch 0.2.0, which has no checksum: compare {fingerprint(key)}, then write it "
            f"anew by `hpkebatch show -o NEW {path}`"
        )
    return key


# ---- files


def seal(given: argparse.Namespace) -> int:
    to = _read_key(given.to, PublicKey)
    assert isinstance(to, PublicKey)
    jobs = [Job(path, _target(given, path, os.path.basename(path) + SUFFIX)) for path in given.files]
    if any(job.target == STANDARD for job in jobs) and os.isatty(1):
        raise FileFault("standard output", "it is a terminal: name a file by -o, or write to a pipe")
    _error(f"sealing to {given.to}, {fingerprint(to)}")
    progress = Progress("sealed", _size(given.files))
    return _work(Sealing(jobs, to, progress, _psk(given), os.fsencode(given.info), Command(given.program)), progress)


def open_files(given: argparse.Namespace) -> int:
    key = _read_key(given.key, SecretKey)
    assert isinstance(key, SecretKey)
    jobs = [Job(path, _target(given, path, _without_suffix(given, path))) for path in given.files]
    progress = Progress("opened", _size(given.files))
    try:
        return _work(Opening(jobs, key, progress, _psk(given), os.fsencode(given.info), Command(given.program)), progress)
    except KeyRefused as fault:
        raise FileFault(given.key, str(fault)) from None


def _without_suffix(given: argparse.Namespace, path: str) -> str:
    name = os.path.basename(path)
    if given.output is None and path != STANDARD and not (name.endswith(SUFFIX) and name != SUFFIX):
        raise FileFault(path, f"the name of a sealed file ends with {SUFFIX}: name the file to write by -o")
    return name[: -len(SUFFIX)]


def _target(given: argparse.Namespace, path: str, name: str) -> str:
    if given.output is not None or path == STANDARD:
        if len(given.files) > 1:
            raise ValueError(f"-o and {STANDARD} are for one FILE alone")
        if given.directory is not None:
            raise ValueError("standard input has no name for -d: name the file to write by -o")
        return STANDARD if given.output is None else str(given.output)
    if given.directory is not None:
        os.makedirs(given.directory, exist_ok=True)
        return os.path.join(given.directory, name)
    return os.path.join(os.path.dirname(path), name)


def _psk(given: argparse.Namespace) -> Optional[Psk]:
    if (given.psk is None) != (given.psk_id is None):
        raise ValueError("--psk FILE and --psk-id TEXT belong together")
    if given.psk is None:
        return None
    with open(given.psk, "rb") as file:
        secret = file.read(MOST_PSK + 1)
    if not 0 < len(secret) <= MOST_PSK:
        raise FileFault(given.psk, f"a psk has from 1 to {MOST_PSK:,} bytes")
    return Psk(secret, os.fsencode(given.psk_id))


def _size(paths: Sequence[str]) -> int:
    return sum(os.path.getsize(path) for path in paths if os.path.isfile(path))


def _work(work: Work, progress: Progress) -> int:
    try:
        faults = work.run()
    finally:
        progress.end()
    for fault in faults:
        _error(str(fault))
    return FAILED if faults else 0


# ---- replies


def judge(given: argparse.Namespace) -> int:
    batch, reply = _read(given.batch), _read(given.reply)
    cause = likely_cause(batch, reply, given.live)
    because = "" if cause is None else f": {cause}"
    try:
        check(batch, reply, is_live=given.live, runner=Command(given.program))
    except BadBatch as fault:
        raise FileFault(given.batch, f"its line {fault.line} is none of a batch ({fault.reason}){because}") from None
    except IllegalReply as fault:
        _say(f"{fault.said}\n")
        _error(f"{given.reply}: it isn't a reply to {given.batch}{because or _line_of(reply, fault)}")
        return NOT_LEGAL
    _say("legal\n")
    return 0


def _line_of(reply: bytes, fault: IllegalReply) -> str:
    lines = reply.split(b"\n")
    if not isinstance(fault.at, int) or fault.kind == "journal" or fault.at > len(lines):
        return ""
    return f": line {fault.at}: {lines[fault.at - 1][:100].decode('ascii', 'replace')}"


def history(given: argparse.Namespace) -> int:
    text = _read(given.reply)
    if is_batch(text):
        raise FileFault(given.reply, "it is a batch: give its reply")
    if is_of_capsules(text):
        raise FileFault(given.reply, "it is a reply of capsules, which has no journals to draw")
    try:
        picture = draw(text, os.path.basename(given.reply), given.first, given.count)
    except ValueError as fault:
        raise FileFault(given.reply, f"it isn't a whole reply: {fault}") from None
    _say(picture)
    return 0


def _read(path: str) -> bytes:
    with open(path, "rb") as file:
        return file.read()


# ---- words


class Parser(argparse.ArgumentParser):
    """Wrong words are one line on standard error, and status 2."""

    def error(self, message: str) -> NoReturn:
        word = self.prog.partition(" ")[2]
        message = re.sub(r"argument WORD: invalid choice: ('.*?').*", r"there is no word \1", message)
        _error(f"{word + ': ' if word else ''}{message}; see `hpkebatch help{word and ' ' + word}`")
        sys.exit(WRONG_WORDS)

    def print_help(self, file: object = None) -> None:
        _say(self.format_help())


class Version(argparse.Action):
    def __call__(self, parser: argparse.ArgumentParser, *rest: object) -> NoReturn:
        _say(f"hpkebatch {__version__}\n")
        sys.exit(0)


def help_of(given: argparse.Namespace) -> int:
    if given.word is None:
        _say(parser().format_help())
    elif given.word in HELPS:
        _say(HELPS[given.word])
    elif given.word in given.words:
        _say(given.words[given.word].format_help())
    else:
        raise ValueError(f"there is no word {given.word}; see `hpkebatch help`")
    return 0


def parser() -> argparse.ArgumentParser:
    form = argparse.RawDescriptionHelpFormatter
    made = Parser(prog="hpkebatch", usage="hpkebatch WORD ..", description=FRONT, formatter_class=form, allow_abbrev=False)
    made.add_argument("--version", nargs=0, action=Version, help="the version")
    made.add_argument("--program", help=argparse.SUPPRESS)  # for tests: another program
    words = made.add_subparsers(title="words", metavar="WORD", required=True, parser_class=Parser, prog="hpkebatch")

    def word(name: str, do: Callable[[argparse.Namespace], int], says: str, example: str) -> argparse.ArgumentParser:
        whole = f"{says[0].upper()}{says[1:]}."
        it = words.add_parser(name, help=says, description=whole, epilog=example, formatter_class=form, allow_abbrev=False)
        it.set_defaults(do=do, words=words.choices)
        return it

    _add_key_words(word)
    _add_file_words(word)
    _add_reply_words(word)
    it = word("help", help_of, "says more of a word", "  hpkebatch help seal\n  hpkebatch help run")
    it.add_argument("word", metavar="WORD", nargs="?")
    return made


Word = Callable[[str, Callable[[argparse.Namespace], int], str, str], argparse.ArgumentParser]


def _add_key_words(word: Word) -> None:
    says = "makes NAME.key, for yourself alone, and NAME.pub, for those who seal files for you"
    it = word("keygen", keygen, says, "  hpkebatch keygen bob")
    it.add_argument("name", metavar="NAME")
    it.add_argument("--kem", choices=[kem.name for kem in KEMS], default=KEMS[0].name)
    it = word(
        "show",
        show,
        "says what FILE is: a key with its fingerprint, or what is sealed, and to whom",
        "  hpkebatch show bob.pub\n  hpkebatch show --public bob.key > bob.pub\n  hpkebatch show --hex bob.pub",
    )
    it.add_argument("file", metavar="FILE")
    it.add_argument("--public", action="store_true", help="writes the public key of a secret one, as a key file")
    it.add_argument("--hex", action="store_true", help="writes the digits of the key alone, as a batch has them")
    it.add_argument("-o", "--output", metavar="NEW", help="writes the key to this new file, in the form of today")


def _add_file_words(word: Word) -> None:
    memory = MOST_IN_MEMORY >> 20
    it = word(
        "seal",
        seal,
        f"seals each FILE to FILE{SUFFIX}",
        f"  hpkebatch seal --to bob.pub report.pdf\n  tar -c letters | hpkebatch seal --to bob.pub -o letters.tar{SUFFIX} -\n\n"
        f"What comes from a pipe is kept until it ends: up to {memory} MiB in memory, more in a file with no name, in the\n"
        "folder that TMPDIR names. Without --psk whoever has the public key can seal, so a file that opens may be anybody's.",
    )
    it.add_argument("--to", metavar="NAME.pub", required=True, help="the recipient's public key")
    _add_file_options(it)
    it = word(
        "open",
        open_files,
        f"opens each FILE{SUFFIX} to FILE",
        f"  hpkebatch open --key bob.key report.pdf{SUFFIX}\n  hpkebatch open --key bob.key -o - letters.tar{SUFFIX} | tar -x\n\n"
        "Nothing is given out before all of a file was opened and found whole. To standard output, a file of more than\n"
        f"{memory} MiB is opened twice: to check it, and to write it. Each file that doesn't open is named, and the others are\n"
        "opened; the status is then 1.",
    )
    it.add_argument("--key", metavar="NAME.key", required=True, help="your secret key")
    _add_file_options(it)


def _add_file_options(it: argparse.ArgumentParser) -> None:
    where = it.add_mutually_exclusive_group()
    where.add_argument("-o", "--output", metavar="NEW", help="the file to write; - is standard output")
    where.add_argument("-d", "--directory", metavar="DIR", help="the folder to write to; it is made where it isn't there")
    it.add_argument("--psk", metavar="FILE", help="a secret that both ends have: the bytes of a file, 32 random ones or more")
    it.add_argument("--psk-id", metavar="TEXT", help="the name of that secret, the same at both ends")
    it.add_argument("--info", metavar="TEXT", default="", help="what both ends have to agree in; it isn't sent")
    it.add_argument("files", metavar="FILE", nargs="+", help="- is standard input")


def _add_reply_words(word: Word) -> None:
    it = word(
        "judge",
        judge,
        "says whether REPLY may be the reply to BATCH: `legal`, or what is wrong first, with status 7",
        "  hpkebatch judge examples/seal.batch examples/seal.reply",
    )
    it.add_argument("--live", action="store_true", help="they are of live")
    it.add_argument("batch", metavar="BATCH")
    it.add_argument("reply", metavar="REPLY")
    says = "draws the journals of REPLY as a picture, in SVG, on standard output"
    it = word("history", history, says, "  hpkebatch history reply > reply.svg")
    it.add_argument("reply", metavar="REPLY")
    it.add_argument("--first", type=int, default=0, help="the first step to draw")
    it.add_argument("--count", type=int, default=200, help="how many steps to draw at the most")


if __name__ == "__main__":
    sys.exit(main())
