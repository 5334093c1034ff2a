"""Seals, opens and exports under HPKE (RFC 9180) over Streamlined NTRU Prime.

    import hpkebatch
    pair = hpkebatch.generate_key()
    sealed = hpkebatch.seal([b"one", b"two"], to=pair.public)
    hpkebatch.open(sealed, key=pair.secret)          # [b"one", b"two"]

`seal`, `open`, `export` and `generate_key` are one call each, and `write_pair`, `read_public_key` and `read_secret_key`
keep keys in files. A `Sender` seals message by message, and a `Recipient` opens them: these go by the library for C, in
this process. `Batch` and `CapsuleBatch` have a method for each line of docs/FORMAT.md, and go by the command; `Command` says
how it is found. `python -m hpkebatch` seals and opens files.
"""

from .answers import (
    AddedAnswer,
    AnsweredAnswer,
    AskedAnswer,
    ContextAnswer,
    ExportedAnswer,
    FailedAnswer,
    KeyAnswer,
    LimitAnswer,
    OpenedAllAnswer,
    OpenedAnswer,
    Refusal,
    RetiredAnswer,
    SealedAnswer,
    TookAnswer,
)
from .asked import Asked, Call, Context, Key
from .batch import Batch, Lane
from .capsules import CapsuleBatch, CapsuleReply
from .command import Command, Finished, Runner, find_command
from .contexts import Recipient, Sender
from .errors import (
    AlreadyRun,
    BadBatch,
    BuildFailed,
    CallError,
    CommandNotFound,
    ContextEnded,
    FileFault,
    HpkeBatchError,
    IllegalReply,
    KeyRefused,
    LibraryNotFound,
    LimitReached,
    MessageNotOpened,
    OpenFailed,
    OutOfMemory,
    OverLimit,
    ReadFault,
    Refused,
    ReplyError,
    RunFailed,
    UsageError,
    WriteFault,
    WrongKey,
)
from .keys import (
    KeyPair,
    PublicKey,
    SecretKey,
    fingerprint,
    read_public_key,
    read_secret_key,
    write_pair,
)
from .messages import (
    Exported,
    export,
    generate_key,
    open as open,
    seal,
    unseal,
)
from .reading import read_batch, read_capsules
from .reply import Journal, Note, Place, Reply, check
from .sealed import Part, Sealed
from .suites import (
    LIMITS,
    SNTRUP761,
    SNTRUP857,
    Aead,
    Kdf,
    Kem,
    Limits,
    Psk,
)

__version__ = "0.4.0"

# All but `open`, which would take the place of Python's own: `unseal` is the same call.
__all__ = [
    "AddedAnswer", "Aead", "AlreadyRun", "AnsweredAnswer", "Asked", "AskedAnswer", "BadBatch", "Batch", "BuildFailed",
    "Call", "CallError", "CapsuleBatch", "CapsuleReply", "Command", "CommandNotFound", "Context", "ContextAnswer",
    "ContextEnded", "Exported", "ExportedAnswer", "FailedAnswer", "FileFault", "Finished", "HpkeBatchError",
    "IllegalReply", "Journal", "Kdf", "Kem", "Key", "KeyAnswer", "KeyPair", "KeyRefused", "LIMITS", "Lane",
    "LibraryNotFound", "LimitAnswer", "LimitReached", "Limits", "MessageNotOpened", "Note", "OpenFailed",
    "OpenedAllAnswer", "OpenedAnswer", "OutOfMemory", "OverLimit", "Part", "Place", "Psk", "PublicKey", "ReadFault",
    "Recipient", "Refusal", "Refused", "Reply", "ReplyError", "RetiredAnswer", "RunFailed", "Runner", "SNTRUP761",
    "SNTRUP857", "Sealed", "SealedAnswer", "SecretKey", "Sender", "TookAnswer", "UsageError", "WriteFault",
    "WrongKey", "check", "export", "find_command", "fingerprint", "generate_key", "read_batch", "read_capsules",
    "read_public_key", "read_secret_key", "seal", "unseal", "write_pair",
]
