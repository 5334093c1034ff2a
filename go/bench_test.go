//go:build linux && amd64 && cgo

package hpkebatch

import (
	"crypto/aes"
	"crypto/cipher"
	"encoding/binary"
	"fmt"
	"testing"
)

// The sizes of texts that are timed.
var benchSizes = []int{64, 1024, 16384}

func BenchmarkSeal(b *testing.B) {
	for _, size := range benchSizes {
		b.Run(fmt.Sprint(size), func(b *testing.B) {
			s, text := newTestSender(b), make([]byte, size)
			b.SetBytes(int64(size))
			for i := 0; i < b.N; i++ {
				if _, err := s.Seal(nil, text); err != nil {
					b.Fatal(err)
				}
			}
		})
	}
}

// Go's own cipher beside it: with the processor's AES, a new nonce and a new slice for each message.
func BenchmarkGoGCM(b *testing.B) {
	for _, size := range benchSizes {
		b.Run(fmt.Sprint(size), func(b *testing.B) {
			block, err := aes.NewCipher(make([]byte, 16))
			if err != nil {
				b.Fatal(err)
			}
			gcm, err := cipher.NewGCM(block)
			if err != nil {
				b.Fatal(err)
			}
			text, nonce := make([]byte, size), make([]byte, 12)
			b.SetBytes(int64(size))
			for i := 0; i < b.N; i++ {
				binary.BigEndian.PutUint64(nonce[4:], uint64(i))
				gcm.Seal(nil, nonce, text, nil)
			}
		})
	}
}

func BenchmarkRecord(b *testing.B) {
	for _, kem := range bothKEMs {
		b.Run(kem.String(), func(b *testing.B) {
			key, text := newTestKey(b, kem), make([]byte, 1024)
			for i := 0; i < b.N; i++ {
				if _, err := Seal(key.PublicKey(), HKDFSHA256(), AES128GCM(), nil, text); err != nil {
					b.Fatal(err)
				}
			}
		})
	}
}

func BenchmarkOpenRecord(b *testing.B) {
	for _, kem := range bothKEMs {
		b.Run(kem.String(), func(b *testing.B) {
			key := newTestKey(b, kem)
			sealed, err := Seal(key.PublicKey(), HKDFSHA256(), AES128GCM(), nil, make([]byte, 1024))
			if err != nil {
				b.Fatal(err)
			}
			b.ResetTimer()
			for i := 0; i < b.N; i++ {
				if _, err := Open(key, HKDFSHA256(), AES128GCM(), nil, sealed); err != nil {
					b.Fatal(err)
				}
			}
		})
	}
}

func BenchmarkGenerateKey(b *testing.B) {
	for _, kem := range bothKEMs {
		b.Run(kem.String(), func(b *testing.B) {
			for i := 0; i < b.N; i++ {
				newTestKey(b, kem)
			}
		})
	}
}
