// Command circl prints what ../main.go prints, of Cloudflare's HPKE: with X25519 and with P-256. It is a
// module of its own, over Debian's package golang-github-cloudflare-circl-dev, and no part of the package hpkebatch.
package main

import (
	"crypto/rand"
	"fmt"
	"log"
	"time"

	"github.com/cloudflare/circl/hpke"
)

const (
	rounds  = 2000
	aRound  = 200 * time.Microsecond
	mostFor = 3 * time.Second
)

func check(err error) {
	if err != nil {
		log.Fatal(err)
	}
}

// least gives the least time of a call in microseconds.
func least(call func() error) float64 {
	work := func(count int) time.Duration {
		start := time.Now()
		for i := 0; i < count; i++ {
			check(call())
		}
		return time.Since(start)
	}
	count := 1
	best := work(count)
	for ; best < aRound; best = work(count) {
		count *= 2
	}
	start := time.Now()
	for i := 0; i < rounds && time.Since(start) < mostFor; i++ {
		if took := work(count); took < best {
			best = took
		}
	}
	return float64(best.Nanoseconds()) / 1000 / float64(count)
}

func times(name string, kem hpke.KEM) {
	public, private, err := kem.Scheme().GenerateKeyPair()
	check(err)
	suite := hpke.NewSuite(kem, hpke.KDF_HKDF_SHA256, hpke.AEAD_AES128GCM)
	seal := func(text []byte) (enc, ciphertext []byte, err error) {
		sender, err := suite.NewSender(public, nil)
		check(err)
		enc, sealer, err := sender.Setup(rand.Reader)
		check(err)
		ciphertext, err = sealer.Seal(text, nil)
		return enc, ciphertext, err
	}
	text := make([]byte, 1024)
	fmt.Printf("Seal %s\t%d\t%.2f\n", name, len(text), least(func() error {
		_, _, err := seal(text)
		return err
	}))
	enc, ciphertext, err := seal(text)
	check(err)
	fmt.Printf("Open %s\t%d\t%.2f\n", name, len(text), least(func() error {
		receiver, err := suite.NewReceiver(private, nil)
		check(err)
		opener, err := receiver.Setup(enc)
		check(err)
		_, err = opener.Open(ciphertext, nil)
		return err
	}))
	fmt.Printf("GenerateKey %s\t0\t%.2f\n", name, least(func() error {
		_, _, err := kem.Scheme().GenerateKeyPair()
		return err
	}))
}

func seals() {
	kem := hpke.KEM_X25519_HKDF_SHA256
	public, _, err := kem.Scheme().GenerateKeyPair()
	check(err)
	sender, err := hpke.NewSuite(kem, hpke.KDF_HKDF_SHA256, hpke.AEAD_AES128GCM).NewSender(public, nil)
	check(err)
	_, sealer, err := sender.Setup(rand.Reader)
	check(err)
	for _, size := range []int{64, 1024, 16384} {
		text := make([]byte, size)
		fmt.Printf("seal\t%d\t%.2f\n", size, least(func() error {
			_, err := sealer.Seal(text, nil)
			return err
		}))
	}
}

func main() {
	fmt.Println("what\tbytes\tmicroseconds")
	seals()
	times("X25519", hpke.KEM_X25519_HKDF_SHA256)
	times("P-256", hpke.KEM_P256_HKDF_SHA256)
}
