//go:build linux && amd64 && cgo

package hpkebatch

import "fmt"

// TagSize is the size of a tag: a ciphertext has so many bytes more than its plaintext.
const TagSize = 16

// A KDF is the key derivation of a suite (RFC 9180, 7.2). The zero KDF is none.
type KDF struct{ id uint16 }

// HKDFSHA256 is HKDF with SHA-256.
func HKDFSHA256() KDF { return KDF{1} }

// HKDFSHA384 is HKDF with SHA-384.
func HKDFSHA384() KDF { return KDF{2} }

// HKDFSHA512 is HKDF with SHA-512.
func HKDFSHA512() KDF { return KDF{3} }

// NewKDF gives the KDF with an id of RFC 9180, 7.2.
func NewKDF(id uint16) (KDF, error) {
	for _, kdf := range []KDF{HKDFSHA256(), HKDFSHA384(), HKDFSHA512()} {
		if kdf.id == id {
			return kdf, nil
		}
	}
	return KDF{}, fmt.Errorf("%w: no KDF has the id %d", ErrUsage, id)
}

// ID gives the id of RFC 9180, 7.2.
func (f KDF) ID() uint16 { return f.id }

// An AEAD is the cipher of a suite (RFC 9180, 7.3). The zero AEAD is none.
type AEAD struct{ id uint16 }

// AES128GCM is AES-128-GCM.
func AES128GCM() AEAD { return AEAD{1} }

// AES256GCM is AES-256-GCM.
func AES256GCM() AEAD { return AEAD{2} }

// ExportOnly is no cipher: a context exports, and neither seals nor opens.
func ExportOnly() AEAD { return AEAD{65535} }

// NewAEAD gives the AEAD with an id of RFC 9180, 7.3.
func NewAEAD(id uint16) (AEAD, error) {
	for _, aead := range []AEAD{AES128GCM(), AES256GCM(), ExportOnly()} {
		if aead.id == id {
			return aead, nil
		}
	}
	return AEAD{}, fmt.Errorf("%w: no AEAD has the id %d", ErrUsage, id)
}

// ID gives the id of RFC 9180, 7.3.
func (a AEAD) ID() uint16 { return a.id }

// An Option of a set-up is made by [WithPSK] or [WithLimit].
type Option func(*parameters)

// WithPSK asks for mode psk: both ends need the same psk and the same id of it. A psk should have 32 random bytes or
// more (RFC 9180, 5.1.2). Then only who has the psk can seal.
func WithPSK(psk, id []byte) Option {
	return func(p *parameters) { p.mode, p.psk, p.pskID = modePSK, psk, id }
}

// WithLimit gives a context at most so many messages, from 1 on. Without it, a context has 2^64 - 1.
func WithLimit(messages uint64) Option {
	return func(p *parameters) { p.limit = messages }
}

// What a set-up takes beside keys.
type parameters struct {
	kdf              KDF
	aead             AEAD
	info, psk, pskID []byte
	mode             uint16
	limit            uint64
}

func newParameters(kdf KDF, aead AEAD, info []byte, options []Option) *parameters {
	p := &parameters{kdf: kdf, aead: aead, info: info, mode: modeBase, limit: 1<<64 - 1}
	for _, option := range options {
		option(p)
	}
	return p
}
