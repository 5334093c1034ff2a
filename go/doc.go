// Package hpkebatch is HPKE (RFC 9180) over Streamlined NTRU Prime, a post-quantum KEM, in the shape of Go's own
// crypto/hpke. It calls the library for C of hpkebatch by cgo. It needs Linux on amd64, glibc 2.34 or later, and a C
// compiler. It depends on no other module.
//
// Bob makes a key and gives away its public half. Alice makes a sender for it, and sends enc and what she seals. Bob
// makes a recipient of enc, and opens the messages in the order in which they were sealed:
//
//	kdf, aead := hpkebatch.HKDFSHA256(), hpkebatch.AES128GCM()
//	bob, err := hpkebatch.SNTRUP761().GenerateKey()
//	check(err)
//	enc, sender, err := hpkebatch.NewSender(bob.PublicKey(), kdf, aead, []byte("order 7"))
//	check(err)
//	defer sender.Close()
//	ciphertext, err := sender.Seal(nil, []byte("hello"))
//	check(err)
//	recipient, err := hpkebatch.NewRecipient(enc, bob, kdf, aead, []byte("order 7"))
//	check(err)
//	defer recipient.Close()
//	plaintext, err := recipient.Open(nil, ciphertext)
//	check(err)
//	fmt.Printf("%s\n", plaintext)
//
// [Seal] and [Open] do the same for one message. [Sender.SealAll] seals a list in one call, and [Sender.AppendSeal] makes
// no new slice. [WithPSK] asks for mode psk, [WithLimit] for a limit. [NewSenderFromShared] takes the shared secret of
// another KEM.
//
// # What is proved
//
// What each call of the library answers is proved of the bytes that it is lent: include/hpkebatch.h has the calls. This
// package around it is tested, and not proved.
//
// # What is wiped
//
// Close overwrites a context or a private key with zeros, and seeds are overwritten when they were used. The library
// wipes neither its stack nor the memory that it gives back, and nobody but you can wipe what [PrivateKey.Bytes],
// Export and Open gave you. A value that is forgotten without Close is wiped when the garbage collector finds it, if it
// does before the process ends.
//
// The KEM isn't hybrid: if Streamlined NTRU Prime breaks, what was sealed can be read. Its ids, 63329 and 63575, are
// hpkebatch's own, so only hpkebatch opens what was sealed to such a key. In mode base anybody who has the public key
// can seal.
package hpkebatch
