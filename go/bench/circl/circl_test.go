package main

import (
	"crypto/rand"
	"fmt"
	"testing"

	"github.com/cloudflare/circl/hpke"

	"hpkebatch"
)

// What circl seals with its own KEM, hpkebatch opens by the shared secret, and exports the same.
func TestHpkebatchOpensWhatCirclSeals(t *testing.T) {
	kem, info := hpke.KEM_X25519_HKDF_SHA256, []byte("both")
	public, private, err := kem.Scheme().GenerateKeyPair()
	check(err)
	sender, err := hpke.NewSuite(kem, hpke.KDF_HKDF_SHA256, hpke.AEAD_AES128GCM).NewSender(public, info)
	check(err)
	enc, sealer, err := sender.Setup(rand.Reader)
	check(err)
	shared, err := kem.Scheme().Decapsulate(private, enc)
	check(err)
	recipient, err := hpkebatch.NewRecipientFromShared(uint16(kem), shared, hpkebatch.HKDFSHA256(), hpkebatch.AES128GCM(), info)
	check(err)
	defer recipient.Close()
	for i := 0; i < 300; i++ {
		text, aad := []byte(fmt.Sprint("text ", i)), []byte(fmt.Sprint("aad ", i))
		ciphertext, err := sealer.Seal(text, aad)
		check(err)
		if plaintext, err := recipient.Open(aad, ciphertext); err != nil || string(plaintext) != string(text) {
			t.Fatalf("message %d: %q, %v", i, plaintext, err)
		}
	}
	exported, err := recipient.Export("name", 100)
	check(err)
	if string(exported) != string(sealer.Export([]byte("name"), 100)) {
		t.Error("the exports differ")
	}
}
