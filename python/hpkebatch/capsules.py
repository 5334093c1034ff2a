"""Batches of capsules: requests and responses of Oblivious HTTP (RFC 9458), as docs/FORMAT.md has them."""

from __future__ import annotations

import secrets
from typing import Dict, Iterator, List, Optional, TypeVar, Union, cast

from .answers import LineAnswer, printed
from .asked import Answer, AnyAsked, Ask, Asked, Key, Take
from .batch import SeededBatch, number, octets, options, suite
from .command import Runner, Text, output_of
from .errors import OverLimit, ReplyError
from .lines import Lines
from .reply import Answered, answer_at, fitting, given
from .suites import LIMITS, TAG_SIZE, Aead, Kdf, Limits

HEADER_SIZE = 7
MOST_ENC = 1184
LONGEST_NONCE = 32
A = TypeVar("A")
L = TypeVar("L", bound=Union[Ask, Answer, Take])


def nonce_size(aead: int) -> int:
    """How long a response's nonce is: as the longer of the cipher's key and nonce."""
    return 16 if aead == Aead.AES_128_GCM else 32


class CapsuleBatch(SeededBatch):
    """A batch of `hpkebatch capsules`. It draws a fresh seed where an `ask` or a `keygen` needs one.

    Its reply is an exact function of its text, so it may be run again; nothing can be added to it then.
    """

    def __init__(self, *, seed: Optional[bytes] = None, limits: Limits = LIMITS) -> None:
        super().__init__(seed=seed, version=2, limits=limits)
        self.capsules: List[Union[Ask, Answer, Take]] = []
        self._capsule_lines: List[bytes] = []
        self._counts: Dict[bytes, int] = {b"ask": 0, b"answer": 0, b"take": 0}

    def __repr__(self) -> str:
        return f"<CapsuleBatch: {len(self.keys)} keys, {len(self.capsules)} capsules>"

    def ask(
        self, key: Key, id: int, text: bytes, *, kdf: int = Kdf.HKDF_SHA256, aead: int = Aead.AES_256_GCM
    ) -> Ask:
        """A client's request to a public key (RFC 9458, 4.3); `id` is the key's identifier, from 0 to 255."""
        self._own(key)
        self._need_seed()
        fields = b"%d %b %b" % (key.number, number(id, 0, 255, "a key identifier"), suite(kdf, _cipher(aead)))
        place = self._put(b"ask", b"%b %b" % (fields, octets(text, self.limits.message, "a text")))
        return self._keep(Ask(self, place, aead))

    def answer(
        self, key: Key, id: int, request: Union[bytes, Ask], text: bytes, *, nonce: Optional[bytes] = None
    ) -> Answer:
        """A gateway opens a request and makes the response (RFC 9458, 4.3, 4.4). Its nonce is fresh, unless given.

        Two answers to one request with one nonce seal two texts under one key and nonce.
        """
        self._own(key)
        given = self._message(request, HEADER_SIZE + MOST_ENC, "a request")
        if nonce is None:
            nonce = secrets.token_bytes(nonce_size(_aead_of(request)))
        fields = b"%d %b" % (key.number, number(id, 0, 255, "a key identifier"))
        texts = octets(nonce, self.limits.field, "a nonce"), octets(text, self.limits.message, "a text")
        place = self._put(b"answer", b"%b %b %b %b" % (fields, given, *texts))
        return self._keep(Answer(self, place))

    def take(self, ask: Union[Ask, int], response: Union[bytes, Answer]) -> Take:
        """The client of an ask opens a response (RFC 9458, 4.4)."""
        if isinstance(ask, Ask):
            self._own(ask)
            ask = ask.number
        given = self._message(response, LONGEST_NONCE, "a response")
        return self._keep(Take(self, self._put(b"take", b"%b %b" % (number(ask, 0, 65_535, "an ask"), given))))

    def named_ask(self, number: int) -> Ask:
        """The ask of this number, whether there is such a line or not."""
        return Ask(self, number, Aead.AES_256_GCM)

    def named_answer(self, number: int) -> Answer:
        """The answer of this number, whether there is such a line or not."""
        return Answer(self, number)

    def _message(self, message: Union[bytes, Ask, Answer], more: int, what: str) -> bytes:
        if isinstance(message, (Ask, Answer)):
            self._own(message)
            return b"@%d" % message.number
        return octets(message, self.limits.message + more + TAG_SIZE, what)

    def _put(self, word: bytes, fields: bytes) -> int:
        self._runs.need_open()
        count = self._counts[word]
        if count == self.limits.contexts:
            raise OverLimit(f"a batch has at most {count} lines `{word.decode()}`")
        self._capsule_lines.append(word + b" " + fields)
        self._counts[word] = count + 1
        return count

    def _keep(self, capsule: L) -> L:
        self.capsules.append(capsule)
        return capsule

    def pieces(self) -> Iterator[bytes]:
        yield b"\n".join([*self._head(), *self._capsule_lines, b"end", b""])

    def asked_at(self, line: int) -> Optional[AnyAsked]:
        """What a line of the text was made for; None for a line that asks for nothing."""
        place = line - self._first_key_line()
        asked: List[AnyAsked] = [*self.keys, *self.capsules]
        return asked[place] if 0 <= place < len(asked) else None

    def run(self, *, mult: Optional[str] = None, runner: Optional[Runner] = None) -> CapsuleReply:
        words = ["capsules", *options(None, mult)]
        with self._runs.run(" ".join(words), lambda first: True):
            output = output_of(runner, words, self._within(), self.asked_at)
        return CapsuleReply(self, output)


class CapsuleReply:
    """The reply to a batch of capsules: `reply[asked]`, and `reply.answer(asked)`, as of other batches."""

    def __init__(self, batch: CapsuleBatch, text: Text) -> None:
        self.batch = batch
        self._lines = Lines(text)
        self._places: Dict[int, int] = {id(it): at for at, it in enumerate((*batch.keys, *batch.capsules), 1)}
        if self._lines[0] != b"hpkebatch 2":
            raise ReplyError(1, "a line `hpkebatch 2` should stand here")
        if len(self._lines) != len(self._places) + 2:
            raise ReplyError(len(self._lines), "`end` stands where the batch has fewer or more lines")

    def __repr__(self) -> str:
        return f"<CapsuleReply to {self.batch!r}>"

    def __getitem__(self, asked: Asked[A]) -> A:
        return given(asked, self._answer(asked))

    def answer(self, asked: Asked[A]) -> Answered[A]:
        """What the reply says of a key or a capsule line, refused or not."""
        return cast(Answered[A], self._answer(asked))

    def _answer(self, asked: AnyAsked) -> LineAnswer:
        at = self._places.get(id(asked))
        if at is None:
            raise LookupError(f"the batch has no such line: {asked}")
        front = b"key %d " % asked.number if at <= len(self.batch.keys) else b""
        return fitting(asked, answer_at(self._lines, at, front), at)

    def text(self) -> bytes:
        """The reply, printed from what was read of it."""
        keys = [b"key %d %b" % (key.number, printed(self.answer(key))[0]) for key in self.batch.keys]
        capsules = [printed(self.answer(it))[0] for it in self.batch.capsules]
        return b"\n".join([b"hpkebatch 2", *keys, *capsules, b"end", b""])


def _cipher(aead: int) -> int:
    if aead not in (Aead.AES_128_GCM, Aead.AES_256_GCM):
        raise ValueError("a capsule's cipher is AES_128_GCM or AES_256_GCM")
    return aead


def _aead_of(request: Union[bytes, Ask]) -> int:
    """The cipher that a request names in its header."""
    return request.aead if isinstance(request, Ask) else int.from_bytes(request[5:HEADER_SIZE], "big")
