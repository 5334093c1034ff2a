//go:build linux && amd64 && cgo

// Command bench prints how long calls take: what, the size of the text in bytes, and microseconds, the least of many
// rounds, with tabs between them. What is compared is timed by turns.
//
// "Seal in C" makes its calls in one loop of C, and writes each ciphertext over the last. What "AppendSeal" takes longer is
// what the package adds: the call by cgo and a lock. "Seal" makes a new slice too. "SealAll" is by message, in lists of 100.
// "Seal" and "Open" with the name of a KEM are of a record: one message, with an encapsulation of its own.
package main

// #cgo CFLAGS: -I${SRCDIR}/..
// #include "hpkebatch.h"
//
// // The package has them, and cgo first links this file alone.
// #pragma weak hpkebatch_context_shared
// #pragma weak hpkebatch_context_seal
//
// static hpkebatch_context context;
// static const uint8_t secret[32];
//
// static uint32_t set_up(void) {
//     return hpkebatch_context_shared(&context, HPKEBATCH_SENDER, HPKEBATCH_BASE, 32, HPKEBATCH_HKDF_SHA256,
//                                     HPKEBATCH_AES_128_GCM, UINT64_MAX, secret, 32, secret, 0, secret, 0, secret, 0);
// }
//
// static uint32_t seal_often(int64_t count, const uint8_t *text, size_t size, uint8_t *out) {
//     uint32_t status = HPKEBATCH_DONE;
//     for (int64_t i = 0; status == HPKEBATCH_DONE && i < count; i++)
//         status = hpkebatch_context_seal(&context, secret, 0, text, size, out, size + 16);
//     return status;
// }
import "C"

import (
	"crypto/aes"
	"crypto/cipher"
	"encoding/binary"
	"fmt"
	"log"
	"time"

	"hpkebatch"
)

const (
	rounds  = 2000
	aRound  = 200 * time.Microsecond
	mostFor = 3 * time.Second
)

var (
	kdf  = hpkebatch.HKDFSHA256()
	aead = hpkebatch.AES128GCM()
)

func check(err error) {
	if err != nil {
		log.Fatal(err)
	}
}

func done(status C.uint32_t) {
	if status != C.HPKEBATCH_DONE {
		log.Fatalf("status %d", status)
	}
}

// A work makes so many calls of one kind.
type work struct {
	what  string
	calls func(count int)
	count int
	best  time.Duration
}

func (w *work) time() time.Duration {
	start := time.Now()
	w.calls(w.count)
	return time.Since(start)
}

// calibrate finds how many calls fill a round.
func (w *work) calibrate() {
	for w.count = 1; ; w.count *= 2 {
		if w.best = w.time(); w.best >= aRound {
			return
		}
	}
}

// tell times works by turns, and prints the least time of a call of each.
func tell(size int, works ...*work) {
	for _, w := range works {
		w.calibrate()
	}
	start := time.Now()
	for i := 0; i < rounds && time.Since(start) < mostFor; i++ {
		for _, w := range works {
			if took := w.time(); took < w.best {
				w.best = took
			}
		}
	}
	for _, w := range works {
		fmt.Printf("%s\t%d\t%.2f\n", w.what, size, float64(w.best.Nanoseconds())/1000/float64(w.count))
	}
}

// each makes a work of one call.
func each(what string, call func() error) *work {
	return &work{what: what, calls: func(count int) {
		for i := 0; i < count; i++ {
			check(call())
		}
	}}
}

func newSender() *hpkebatch.Sender {
	sender, err := hpkebatch.NewSenderFromShared(32, make([]byte, 32), kdf, aead, nil)
	check(err)
	return sender
}

func seal(size int) *work {
	sender, text := newSender(), make([]byte, size)
	return each("Seal", func() error {
		_, err := sender.Seal(nil, text)
		return err
	})
}

func appendSeal(size int) *work {
	sender, text, room := newSender(), make([]byte, size), make([]byte, 0, size+hpkebatch.TagSize)
	return each("AppendSeal", func() error {
		_, err := sender.AppendSeal(room, nil, text)
		return err
	})
}

// sealAll counts messages, in lists of at most 100.
func sealAll(size int) *work {
	sender, texts := newSender(), make([][]byte, 100)
	for i := range texts {
		texts[i] = make([]byte, size)
	}
	return &work{what: "SealAll", calls: func(count int) {
		for ; count > 0; count -= len(texts) {
			list := texts
			if count < len(list) {
				list = list[:count]
			}
			_, err := sender.SealAll(nil, list)
			check(err)
		}
	}}
}

func sealInC(size int) *work {
	text, out := make([]byte, size), make([]byte, size+hpkebatch.TagSize)
	done(C.set_up())
	return &work{what: "Seal in C", calls: func(count int) {
		done(C.seal_often(C.int64_t(count), (*C.uint8_t)(&text[0]), C.size_t(size), (*C.uint8_t)(&out[0])))
	}}
}

func goGCM(size int) *work {
	block, err := aes.NewCipher(make([]byte, 16))
	check(err)
	gcm, err := cipher.NewGCM(block)
	check(err)
	text, nonce, number := make([]byte, size), make([]byte, 12), uint64(0)
	return each("crypto/cipher AES-128-GCM", func() error {
		number++
		binary.BigEndian.PutUint64(nonce[4:], number)
		gcm.Seal(nil, nonce, text, nil)
		return nil
	})
}

func records(kem hpkebatch.KEM, size int) {
	key, err := kem.GenerateKey()
	check(err)
	text := make([]byte, size)
	sealed, err := hpkebatch.Seal(key.PublicKey(), kdf, aead, nil, text)
	check(err)
	sealing := each("Seal "+kem.String(), func() error {
		_, err := hpkebatch.Seal(key.PublicKey(), kdf, aead, nil, text)
		return err
	})
	opening := each("Open "+kem.String(), func() error {
		_, err := hpkebatch.Open(key, kdf, aead, nil, sealed)
		return err
	})
	tell(size, sealing, opening)
	tell(0, each("GenerateKey "+kem.String(), func() error {
		_, err := kem.GenerateKey()
		return err
	}))
}

func main() {
	fmt.Println("what\tbytes\tmicroseconds")
	for _, size := range []int{64, 1024, 16384} {
		tell(size, seal(size), appendSeal(size), sealInC(size), sealAll(size), goGCM(size))
	}
	for _, kem := range []hpkebatch.KEM{hpkebatch.SNTRUP761(), hpkebatch.SNTRUP857()} {
		records(kem, 1024)
	}
}
