//go:build linux && amd64 && cgo

package hpkebatch

import (
	"fmt"
	"runtime"
	"sync"
	"unsafe"
)

// A Sender seals messages to one recipient. Several goroutines may use it: each message gets a number of its own, and
// the recipient opens them in the order of the numbers. Close it at the end.
type Sender struct{ context context }

// NewSender makes a sender for whoever has the private key of pk. It gives enc, which the recipient needs.
func NewSender(pk *PublicKey, kdf KDF, aead AEAD, info []byte, options ...Option) (enc []byte, s *Sender, err error) {
	enc = make([]byte, pk.kem.encSize)
	s, err = senderInto(enc, pk, newParameters(kdf, aead, info, options))
	if err != nil {
		return nil, nil, err
	}
	return enc, s, nil
}

// NewSenderFromShared makes a sender from a shared secret, which a KEM with this id gave. Use a shared secret for one
// sender, and once: a second sender uses its keys and nonces for other messages, which gives both away.
func NewSenderFromShared(kemID uint16, sharedSecret []byte, kdf KDF, aead AEAD, info []byte, options ...Option) (*Sender, error) {
	s := new(Sender)
	err := s.context.setUp(func(c *contextBytes) error {
		return setUpShared(c, roleSender, kemID, sharedSecret, newParameters(kdf, aead, info, options))
	})
	return orNil(s, err)
}

// senderInto draws a seed, and fills enc.
func senderInto(enc []byte, pk *PublicKey, p *parameters) (*Sender, error) {
	var s *Sender
	err := withSeed(func(from *seed) (err error) {
		s, err = senderOf(from, 0, enc, pk, p)
		return err
	})
	return s, err
}

// senderOf makes the sender of a seed's stream, and fills enc.
func senderOf(from *seed, stream uint64, enc []byte, pk *PublicKey, p *parameters) (*Sender, error) {
	if pk.kem.id == 0 {
		return nil, errZeroKey
	}
	s := new(Sender)
	err := s.context.setUp(func(c *contextBytes) error {
		return setUpSender(c, enc, from, stream, pk, p)
	})
	return orNil(s, err)
}

// Seal encrypts the next message, and authenticates aad with it. The ciphertext has [TagSize] bytes more than plaintext.
func (s *Sender) Seal(aad, plaintext []byte) ([]byte, error) {
	return s.AppendSeal(nil, aad, plaintext)
}

// AppendSeal is [Sender.Seal] behind the bytes of dst, and makes no new slice where dst has room. The room may be the
// plaintext's own: AppendSeal(text[:0], aad, text).
func (s *Sender) AppendSeal(dst, aad, plaintext []byte) ([]byte, error) {
	return s.context.seal(dst, aad, plaintext)
}

// SealAll seals a list of messages in one call, all or none: for short ones several times as fast as one by one. aads has
// additional data for each message, or is nil. What it gives, [Recipient.Open] and [Recipient.OpenAll] open.
func (s *Sender) SealAll(aads, plaintexts [][]byte) ([][]byte, error) {
	return s.context.all(false, aads, plaintexts)
}

// Export gives a secret of length bytes, which the recipient has too. Each exporterContext gives another one.
func (s *Sender) Export(exporterContext string, length int) ([]byte, error) {
	return s.context.export(exporterContext, length)
}

// Close overwrites the context with zeros. It waits for calls that use it; later ones answer [ErrClosed].
func (s *Sender) Close() error { return s.context.close() }

// A Recipient opens the messages of one sender, in the order in which they were sealed. Several goroutines may use it,
// but the order is theirs to keep. Close it at the end.
type Recipient struct{ context context }

// NewRecipient makes a recipient of what a sender gave as enc. KDF, AEAD, info and psk must be the sender's. Where they
// aren't, or where enc was changed, the recipient is another one, and each Open answers [ErrOpen].
func NewRecipient(enc []byte, k *PrivateKey, kdf KDF, aead AEAD, info []byte, options ...Option) (*Recipient, error) {
	return recipientOf(enc, k, newParameters(kdf, aead, info, options))
}

func recipientOf(enc []byte, k *PrivateKey, p *parameters) (*Recipient, error) {
	kem := k.KEM()
	if len(enc) != kem.encSize {
		return nil, fmt.Errorf("%w: an encapsulation of %s has %d bytes, and this one has %d", ErrUsage, kem, kem.encSize, len(enc))
	}
	r := new(Recipient)
	err := k.lend(func(secret []byte) error {
		return r.context.setUp(func(c *contextBytes) error { return setUpRecipient(c, enc, kem, secret, p) })
	})
	return orNil(r, err)
}

// NewRecipientFromShared makes a recipient from a shared secret, which a KEM with this id gave.
func NewRecipientFromShared(kemID uint16, sharedSecret []byte, kdf KDF, aead AEAD, info []byte, options ...Option) (*Recipient, error) {
	r := new(Recipient)
	err := r.context.setUp(func(c *contextBytes) error {
		return setUpShared(c, roleRecipient, kemID, sharedSecret, newParameters(kdf, aead, info, options))
	})
	return orNil(r, err)
}

// Open decrypts the next message, if it and aad are what the sender sealed. Else it answers [ErrOpen], and the same
// message may come again.
func (r *Recipient) Open(aad, ciphertext []byte) ([]byte, error) {
	return r.AppendOpen(nil, aad, ciphertext)
}

// AppendOpen is [Recipient.Open] behind the bytes of dst, and makes no new slice where dst has room. The room may be the
// ciphertext's own: AppendOpen(ciphertext[:0], aad, ciphertext). Where the message doesn't open, nothing is written.
func (r *Recipient) AppendOpen(dst, aad, ciphertext []byte) ([]byte, error) {
	plaintext, err := r.context.open(dst, aad, ciphertext)
	return plaintext, tooShort(err, ciphertext)
}

// OpenAll opens a list of messages in one call, all or none: if one of them doesn't open, it answers [ErrOpen], and the
// first is still the next. aads has additional data for each message, or is nil.
func (r *Recipient) OpenAll(aads, ciphertexts [][]byte) ([][]byte, error) {
	plaintexts, err := r.context.all(true, aads, ciphertexts)
	return plaintexts, tooShort(err, ciphertexts...)
}

// tooShort gives ErrOpen in place of the library's status of wrong usage, where a ciphertext has no room for a tag: who
// sends such a one isn't the caller.
func tooShort(err error, ciphertexts ...[]byte) error {
	for _, ciphertext := range ciphertexts {
		if err == ErrUsage && len(ciphertext) < TagSize {
			return ErrOpen
		}
	}
	return err
}

// Export gives a secret of length bytes, which the sender has too. Each exporterContext gives another one.
func (r *Recipient) Export(exporterContext string, length int) ([]byte, error) {
	return r.context.export(exporterContext, length)
}

// Close overwrites the context with zeros. It waits for calls that use it; later ones answer [ErrClosed].
func (r *Recipient) Close() error { return r.context.close() }

// Seal makes a sender and seals one message. It gives enc and behind it the ciphertext.
func Seal(pk *PublicKey, kdf KDF, aead AEAD, info, plaintext []byte, options ...Option) ([]byte, error) {
	size := pk.kem.encSize
	enc := make([]byte, size, size+len(plaintext)+TagSize)
	s, err := senderInto(enc, pk, newParameters(kdf, aead, info, options))
	if err != nil {
		return nil, err
	}
	defer s.Close()
	return s.AppendSeal(enc, nil, plaintext)
}

// Open opens what [Seal] sealed.
func Open(k *PrivateKey, kdf KDF, aead AEAD, info, ciphertext []byte, options ...Option) ([]byte, error) {
	size := k.KEM().encSize
	if len(ciphertext) < size {
		return nil, ErrOpen
	}
	r, err := NewRecipient(ciphertext[:size], k, kdf, aead, info, options...)
	if err != nil {
		return nil, err
	}
	defer r.Close()
	return r.Open(nil, ciphertext[size:])
}

// A context is what Sender and Recipient have in common. It may not be copied: `go vet` tells of a copy, and a copy
// answers ErrCopied.
type context struct {
	_    noCopy
	self *context
	held hidden[heldContext]
}

// What a context holds, in memory of its own, with no pointer in it.
type heldContext struct {
	mutex  sync.Mutex
	isOpen bool
	bytes  contextBytes
}

// go vet's copylocks looks for these two methods.
type noCopy struct{}

func (*noCopy) Lock()   {}
func (*noCopy) Unlock() {}

func (c *context) setUp(fill func(*contextBytes) error) error {
	held := new(heldContext)
	if err := fill(&held.bytes); err != nil {
		return err
	}
	held.isOpen = true
	runtime.SetFinalizer(held, (*heldContext).close)
	c.self, c.held = c, hide(held)
	return nil
}

// lend gives the context's bytes to one call at a time.
func (c *context) lend(call func(*contextBytes) error) error {
	if c.self != c {
		return ErrCopied
	}
	held := c.held()
	held.mutex.Lock()
	defer held.mutex.Unlock()
	if !held.isOpen {
		return ErrClosed
	}
	return call(&held.bytes)
}

func (c *context) seal(dst, aad, plaintext []byte) ([]byte, error) {
	return c.appendTo(dst, len(plaintext)+TagSize, aad, plaintext, contextSeal)
}

func (c *context) open(dst, aad, ciphertext []byte) ([]byte, error) {
	room := len(ciphertext) - TagSize
	if room < 0 {
		room = 0
	}
	return c.appendTo(dst, room, aad, ciphertext, contextOpen)
}

// appendTo writes what a call makes of a text behind dst. The library wants its memory apart from what it reads.
func (c *context) appendTo(dst []byte, size int, aad, text []byte, call func(bytes *contextBytes, aad, text, out []byte) error) ([]byte, error) {
	whole := dst
	if cap(dst)-len(dst) < size {
		whole = make([]byte, len(dst), len(dst)+size)
		copy(whole, dst)
	}
	whole = whole[:len(dst)+size]
	tail := whole[len(dst):]
	out := tail
	if overlap(out, text) || overlap(out, aad) {
		out = make([]byte, size)
		defer wipe(out)
	}
	if err := c.lend(func(bytes *contextBytes) error { return call(bytes, aad, text, out) }); err != nil {
		return nil, err
	}
	copy(tail, out)
	return whole, nil
}

// overlap tells whether a byte of memory is in both.
func overlap(a, b []byte) bool {
	return len(a) > 0 && len(b) > 0 &&
		uintptr(unsafe.Pointer(&a[0])) <= uintptr(unsafe.Pointer(&b[len(b)-1])) &&
		uintptr(unsafe.Pointer(&b[0])) <= uintptr(unsafe.Pointer(&a[len(a)-1]))
}

// all seals or opens a list. What it gives stands in one piece of memory.
func (c *context) all(opens bool, aads, texts [][]byte) ([][]byte, error) {
	if aads == nil {
		aads = make([][]byte, len(texts))
	}
	if len(aads) != len(texts) {
		return nil, fmt.Errorf("%w: there are %d additional data for %d messages", ErrUsage, len(aads), len(texts))
	}
	step := TagSize
	if opens {
		step = -TagSize
	}
	total := 0
	for _, text := range texts {
		total += len(text) + step
	}
	if total < 0 {
		total = 0
	}
	out := make([]byte, total)
	if err := c.lend(func(bytes *contextBytes) error { return contextAll(opens, bytes, aads, texts, out) }); err != nil {
		return nil, err
	}
	results := make([][]byte, len(texts))
	for i, text := range texts {
		size := len(text) + step
		results[i], out = out[:size:size], out[size:]
	}
	return results, nil
}

// 255 times the size of SHA-512, which no export passes. The library knows the limit of each KDF.
const mostExported = 255 * 64

func (c *context) export(exporterContext string, length int) ([]byte, error) {
	if length < 0 || length > mostExported {
		return nil, ErrExportSize
	}
	out := make([]byte, length)
	if err := c.lend(func(bytes *contextBytes) error { return contextExport(bytes, []byte(exporterContext), out) }); err != nil {
		return nil, err
	}
	return out, nil
}

func (c *context) close() error {
	if c.self != c {
		return ErrCopied
	}
	runtime.SetFinalizer(c.held(), nil)
	c.held().close()
	return nil
}

func (h *heldContext) close() {
	h.mutex.Lock()
	defer h.mutex.Unlock()
	h.bytes, h.isOpen = contextBytes{}, false
}

// orNil gives a new Sender or Recipient, or nil where there is an error.
func orNil[End Sender | Recipient](end *End, err error) (*End, error) {
	if err != nil {
		return nil, err
	}
	return end, nil
}
