//go:build linux && amd64 && cgo

package hpkebatch

import (
	"bytes"
	"crypto"
	"crypto/rand"
	"crypto/subtle"
	"errors"
	"fmt"
	"io"
	"runtime"
	"sync"
)

// A KEM is a parameter set of Streamlined NTRU Prime (round 3). The zero KEM is none.
type KEM struct {
	id                               uint16
	name                             string
	publicSize, privateSize, encSize int
}

// SNTRUP761 is sntrup761, the usual choice. NTRU Prime claims category 2 of NIST's five for it.
func SNTRUP761() KEM { return KEM{63329, "sntrup761", 1158, 1763, 1039} }

// SNTRUP857 is sntrup857, the larger set.
func SNTRUP857() KEM { return KEM{63575, "sntrup857", 1322, 1999, 1184} }

// NewKEM gives the KEM with an id: 63329 or 63575, which are hpkebatch's own.
func NewKEM(id uint16) (KEM, error) {
	for _, kem := range []KEM{SNTRUP761(), SNTRUP857()} {
		if kem.id == id {
			return kem, nil
		}
	}
	return KEM{}, fmt.Errorf("%w: no KEM has the id %d", ErrUsage, id)
}

// ID gives the KEM's id.
func (k KEM) ID() uint16 { return k.id }

// String gives the KEM's name.
func (k KEM) String() string { return k.name }

// PublicKeySize gives the size of a public key in bytes.
func (k KEM) PublicKeySize() int { return k.publicSize }

// PrivateKeySize gives the size of a private key in bytes.
func (k KEM) PrivateKeySize() int { return k.privateSize }

// EncSize gives the size of an encapsulation in bytes.
func (k KEM) EncSize() int { return k.encSize }

// GenerateKey draws a new key at random.
func (k KEM) GenerateKey() (*PrivateKey, error) {
	if k.id == 0 {
		return nil, fmt.Errorf("%w: the zero KEM", ErrUsage)
	}
	var key *PrivateKey
	err := withSeed(func(s *seed) (err error) {
		key, err = k.keyOf(s, 0)
		return err
	})
	return key, err
}

// keyOf makes the key of a seed's stream.
func (k KEM) keyOf(s *seed, stream uint64) (*PrivateKey, error) {
	public, private := make([]byte, k.publicSize), make([]byte, k.privateSize)
	if err := keygen(k, s, stream, public, private); err != nil {
		return nil, err
	}
	return newPrivateKey(k, private), nil
}

// NewPublicKey reads a public key. It copies data.
func (k KEM) NewPublicKey(data []byte) (*PublicKey, error) {
	if k.id == 0 || len(data) != k.publicSize {
		return nil, fmt.Errorf("%w: a public key of %s has %d bytes, and this one has %d", ErrKey, k, k.publicSize, len(data))
	}
	return &PublicKey{k, clone(data)}, nil
}

// NewPrivateKey reads a private key. It copies data. It takes the time of one decapsulation, in which the library tests
// the two small polynomials of the key. Nothing else of the bytes is tested.
func (k KEM) NewPrivateKey(data []byte) (*PrivateKey, error) {
	if k.id == 0 || len(data) != k.privateSize {
		return nil, fmt.Errorf("%w: a private key of %s has %d bytes, and this one has %d", ErrKey, k, k.privateSize, len(data))
	}
	if err := isPrivateKey(k, data); err != nil {
		return nil, err
	}
	return newPrivateKey(k, clone(data)), nil
}

// A PublicKey is a key to seal to.
type PublicKey struct {
	kem   KEM
	bytes []byte
}

// KEM gives the key's KEM.
func (k *PublicKey) KEM() KEM { return k.kem }

// Bytes gives a copy of the key's bytes.
func (k *PublicKey) Bytes() []byte { return clone(k.bytes) }

// Equal tells whether x is the same *PublicKey.
func (k *PublicKey) Equal(x crypto.PublicKey) bool {
	other, ok := x.(*PublicKey)
	return ok && k.kem == other.kem && bytes.Equal(k.bytes, other.bytes)
}

// A PrivateKey is a key to open with. It may be used by several goroutines. What prints values shows none of its bytes.
type PrivateKey struct{ held hidden[heldKey] }

// What a private key holds, in memory of its own.
type heldKey struct {
	mutex  sync.RWMutex
	bytes  []byte // none once the key is closed
	public *PublicKey
}

// A private key has its public key behind f and 1/g, and before rho, which is as long as these two, and 32 bytes of hash.
const confirmSize = 32

// newPrivateKey takes data for its own.
func newPrivateKey(kem KEM, data []byte) *PrivateKey {
	start := 2 * (kem.privateSize - kem.publicSize - confirmSize) / 3
	public := clone(data[start : start+kem.publicSize])
	held := &heldKey{bytes: data, public: &PublicKey{kem, public}}
	runtime.SetFinalizer(held, (*heldKey).close)
	return &PrivateKey{hide(held)}
}

// KEM gives the key's KEM.
func (k *PrivateKey) KEM() KEM { return k.PublicKey().kem }

// PublicKey gives the public half.
func (k *PrivateKey) PublicKey() *PublicKey {
	if k.held == nil {
		return &PublicKey{}
	}
	return k.held().public
}

// Bytes gives a copy of the key's bytes, which is then yours to wipe.
func (k *PrivateKey) Bytes() ([]byte, error) {
	var data []byte
	err := k.lend(func(secret []byte) error {
		data = clone(secret)
		return nil
	})
	return data, err
}

// Equal tells whether x is a *PrivateKey with the same bytes. The time that it takes depends on no byte of them. A closed
// key is equal to none.
func (k *PrivateKey) Equal(x crypto.PrivateKey) bool {
	other, ok := x.(*PrivateKey)
	if !ok || k.KEM() != other.KEM() {
		return false
	}
	data, err := other.Bytes()
	defer wipe(data)
	same := 0
	if err == nil {
		err = k.lend(func(secret []byte) error {
			same = subtle.ConstantTimeCompare(secret, data)
			return nil
		})
	}
	return err == nil && same == 1
}

// Close overwrites the key's bytes with zeros. It waits for calls that use them; later ones answer [ErrClosed]. The
// public half stays.
func (k *PrivateKey) Close() error {
	if k.held != nil {
		runtime.SetFinalizer(k.held(), nil)
		k.held().close()
	}
	return nil
}

func (h *heldKey) close() {
	h.mutex.Lock()
	defer h.mutex.Unlock()
	wipe(h.bytes)
	h.bytes = nil
}

// lend gives the key's bytes to a function that keeps none of them.
func (k *PrivateKey) lend(use func(secret []byte) error) error {
	if k.held == nil {
		return errZeroKey
	}
	held := k.held()
	held.mutex.RLock()
	defer held.mutex.RUnlock()
	if held.bytes == nil {
		return ErrClosed
	}
	return use(held.bytes)
}

// String tells the kind of key, and none of its bytes.
func (k PrivateKey) String() string { return "private key of " + k.KEM().name }

// GoString is [PrivateKey.String].
func (k PrivateKey) GoString() string { return k.String() }

// Format writes [PrivateKey.String], whatever the verb.
func (k PrivateKey) Format(out fmt.State, verb rune) { io.WriteString(out, k.String()) }

var errZeroKey = fmt.Errorf("%w: a key that no function of this package made", ErrUsage)

const mostSeeds = 100

// withSeed draws a seed for a use, and wipes it then. It draws another where the seed's stream gives no key, which seldom
// happens.
func withSeed(use func(*seed) error) error {
	s := new(seed)
	defer wipe(s[:])
	for i := 1; ; i++ {
		if _, err := io.ReadFull(rand.Reader, s[:]); err != nil {
			return fmt.Errorf("hpkebatch: no random bytes: %w", err)
		}
		err := use(s)
		if again := errors.Is(err, errExhausted) || errors.Is(err, errNoInverse); !again || i == mostSeeds {
			return err
		}
	}
}

// A hidden value isn't reached by what prints values by reflection, as fmt prints a struct's fields that it may not call
// methods of: of a function it prints the address.
type hidden[T any] func() *T

func hide[T any](value *T) hidden[T] { return func() *T { return value } }

// wipe overwrites bytes on the heap with zeros.
func wipe(b []byte) {
	for i := range b {
		b[i] = 0
	}
}

func clone[T any](list []T) []T { return append([]T(nil), list...) }
