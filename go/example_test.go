//go:build linux && amd64 && cgo

package hpkebatch_test

import (
	"bytes"
	"crypto/rand"
	"encoding/hex"
	"errors"
	"fmt"
	"log"

	"hpkebatch"
)

func check(err error) {
	if err != nil {
		log.Fatal(err)
	}
}

func Example() {
	kdf, aead := hpkebatch.HKDFSHA256(), hpkebatch.AES128GCM()
	bob, err := hpkebatch.SNTRUP761().GenerateKey()
	check(err)
	enc, sender, err := hpkebatch.NewSender(bob.PublicKey(), kdf, aead, []byte("order 7"))
	check(err)
	defer sender.Close()
	ciphertext, err := sender.Seal(nil, []byte("hello"))
	check(err)
	recipient, err := hpkebatch.NewRecipient(enc, bob, kdf, aead, []byte("order 7"))
	check(err)
	defer recipient.Close()
	plaintext, err := recipient.Open(nil, ciphertext)
	check(err)
	fmt.Printf("%s\n", plaintext)
	// Output: hello
}

func ExampleSeal() {
	kdf, aead, info := hpkebatch.HKDFSHA512(), hpkebatch.AES256GCM(), []byte("letters")
	bob, err := hpkebatch.SNTRUP857().GenerateKey()
	check(err)
	sealed, err := hpkebatch.Seal(bob.PublicKey(), kdf, aead, info, []byte("one letter"))
	check(err)
	text, err := hpkebatch.Open(bob, kdf, aead, info, sealed)
	check(err)
	fmt.Printf("%s, of %d bytes\n", text, len(sealed))
	// Output: one letter, of 1210 bytes
}

func ExampleWithPSK() {
	kdf, aead := hpkebatch.HKDFSHA256(), hpkebatch.AES128GCM()
	bob, err := hpkebatch.SNTRUP761().GenerateKey()
	check(err)
	psk := hpkebatch.WithPSK([]byte("32 random bytes, which both have"), []byte("team 5"))
	sealed, err := hpkebatch.Seal(bob.PublicKey(), kdf, aead, nil, []byte("from the team"), psk)
	check(err)
	text, err := hpkebatch.Open(bob, kdf, aead, nil, sealed, psk)
	check(err)
	fmt.Printf("%s\n", text)
	_, err = hpkebatch.Open(bob, kdf, aead, nil, sealed)
	fmt.Println(errors.Is(err, hpkebatch.ErrOpen))
	// Output:
	// from the team
	// true
}

func ExampleWithLimit() {
	kdf, aead := hpkebatch.HKDFSHA256(), hpkebatch.AES128GCM()
	bob, err := hpkebatch.SNTRUP761().GenerateKey()
	check(err)
	_, sender, err := hpkebatch.NewSender(bob.PublicKey(), kdf, aead, nil, hpkebatch.WithLimit(2))
	check(err)
	defer sender.Close()
	for _, text := range []string{"one", "two", "three"} {
		_, err := sender.Seal(nil, []byte(text))
		fmt.Println(text, errors.Is(err, hpkebatch.ErrLimit))
	}
	// Output:
	// one false
	// two false
	// three true
}

func ExampleSender_Export() {
	kdf, aead := hpkebatch.HKDFSHA384(), hpkebatch.ExportOnly()
	bob, err := hpkebatch.SNTRUP761().GenerateKey()
	check(err)
	enc, sender, err := hpkebatch.NewSender(bob.PublicKey(), kdf, aead, nil)
	check(err)
	defer sender.Close()
	recipient, err := hpkebatch.NewRecipient(enc, bob, kdf, aead, nil)
	check(err)
	defer recipient.Close()
	one, err := sender.Export("channel", 32)
	check(err)
	two, err := recipient.Export("channel", 32)
	check(err)
	fmt.Println(len(one), bytes.Equal(one, two))
	// Output: 32 true
}

func ExampleKEM_NewPrivateKey() {
	kem := hpkebatch.SNTRUP761()
	key, err := kem.GenerateKey()
	check(err)
	kept, err := key.Bytes()
	check(err)
	again, err := kem.NewPrivateKey(kept)
	check(err)
	fmt.Println(again, again.Equal(key))
	_, err = kem.NewPrivateKey(kept[1:])
	fmt.Println(err)
	// Output:
	// private key of sntrup761 true
	// hpkebatch: the bytes encode no key of this KEM: a private key of sntrup761 has 1763 bytes, and this one has 1762
}

func ExampleSender_AppendSeal() {
	sender, recipient := sharedEnds()
	defer sender.Close()
	defer recipient.Close()
	buffer := append(make([]byte, 0, 100), "a text in its own room"...)
	sealed, err := sender.AppendSeal(buffer[:0], nil, buffer)
	check(err)
	fmt.Println(len(sealed), &sealed[0] == &buffer[0])
	text, err := recipient.AppendOpen(sealed[:0], nil, sealed)
	check(err)
	fmt.Printf("%s\n", text)
	// Output:
	// 38 true
	// a text in its own room
}

func ExampleSender_SealAll() {
	sender, recipient := sharedEnds()
	defer sender.Close()
	defer recipient.Close()
	sealed, err := sender.SealAll(nil, [][]byte{[]byte("one"), []byte("two"), []byte("three")})
	check(err)
	texts, err := recipient.OpenAll(nil, sealed)
	check(err)
	fmt.Printf("%s\n", texts)
	// Output: [one two three]
}

// sharedEnds makes both ends of a new shared secret, as another KEM gives one.
func sharedEnds() (*hpkebatch.Sender, *hpkebatch.Recipient) {
	kdf, aead, secret := hpkebatch.HKDFSHA256(), hpkebatch.AES128GCM(), make([]byte, 32)
	_, err := rand.Read(secret)
	check(err)
	sender, err := hpkebatch.NewSenderFromShared(32, secret, kdf, aead, nil)
	check(err)
	recipient, err := hpkebatch.NewRecipientFromShared(32, secret, kdf, aead, nil)
	check(err)
	return sender, recipient
}

// RFC 9180, A.1.1.1: the shared secret of X25519, and its first message.
func ExampleNewRecipientFromShared() {
	const x25519 = 32
	sharedSecret := unhex("fe0e18c9f024ce43799ae393c7e8fe8fce9d218875e8227b0187c04e7d2ea1fc")
	info := unhex("4f6465206f6e2061204772656369616e2055726e")
	recipient, err := hpkebatch.NewRecipientFromShared(x25519, sharedSecret, hpkebatch.HKDFSHA256(), hpkebatch.AES128GCM(), info)
	check(err)
	defer recipient.Close()
	ciphertext := unhex("f938558b5d72f1a23810b4be2ab4f84331acc02fc97babc53a52ae8218a355a96d8770ac83d07bea87e13c512a")
	plaintext, err := recipient.Open([]byte("Count-0"), ciphertext)
	check(err)
	fmt.Printf("%s\n", plaintext)
	// Output: Beauty is truth, truth beauty
}

func unhex(digits string) []byte {
	data, err := hex.DecodeString(digits)
	check(err)
	return data
}
