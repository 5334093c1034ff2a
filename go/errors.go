//go:build linux && amd64 && cgo

package hpkebatch

import (
	"errors"
	"fmt"
)

// What a call may answer. Test for them by [errors.Is], since some come with more words around them.
var (
	// ErrOpen says that a message doesn't open: it was changed or cut, it isn't the next one, or it was sealed with
	// another key, info, psk or additional data. The recipient still waits for the message with this number.
	ErrOpen = errors.New("hpkebatch: the message doesn't open")
	// ErrLimit says that the context has used all of its numbers.
	ErrLimit = errors.New("hpkebatch: the context has reached its limit of messages")
	// ErrExportOnly says that a context of [ExportOnly] neither seals nor opens.
	ErrExportOnly = errors.New("hpkebatch: the context is export-only")
	// ErrExportSize says that an export has fewer than 0 bytes, or more than 255 times the size of the KDF's hash.
	ErrExportSize = errors.New("hpkebatch: one export doesn't give so many bytes")
	// ErrKey says that some bytes encode no key.
	ErrKey = errors.New("hpkebatch: the bytes encode no key of this KEM")
	// ErrPSK says that [WithPSK] was given no psk, or no identifier.
	ErrPSK = errors.New("hpkebatch: mode psk needs a psk and its identifier")
	// ErrUsage says that a length doesn't fit, or that a KEM, KDF, AEAD or limit is none.
	ErrUsage = errors.New("hpkebatch: a length doesn't fit, or a KEM, KDF, AEAD or limit is none")
	// ErrClosed says that the context or the key was closed before.
	ErrClosed = errors.New("hpkebatch: the context or the key was closed")
	// ErrCopied says that a Sender or Recipient is a copy of another, or was made by no function of this package.
	ErrCopied = errors.New("hpkebatch: a Sender or Recipient was copied, or was made by no function of this package")
	// ErrNoMemory says that malloc has no memory.
	ErrNoMemory = errors.New("hpkebatch: there is no memory")
	// ErrProcessor says that this processor lacks x86-64-v2 (SSE4.2).
	ErrProcessor = errors.New("hpkebatch: the processor isn't x86-64-v2: it lacks SSE4.2")
)

// What only a test of this package sees, and the two cases of ErrPSK.
var (
	errRole       = errors.New("hpkebatch: a recipient doesn't seal, and a sender doesn't open")
	errExhausted  = errors.New("hpkebatch: the seed's stream ends before it gives a key")
	errNoInverse  = errors.New("hpkebatch: the seed's stream gives a g that has no inverse")
	errPSKExtra   = errors.New("hpkebatch: mode base takes no psk")
	errPSKPair    = fmt.Errorf("%w: one of the two is empty", ErrPSK)
	errPSKMissing = fmt.Errorf("%w: both are empty", ErrPSK)
)
