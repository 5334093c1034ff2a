//go:build linux && amd64 && cgo

package hpkebatch

import (
	"bytes"
	"encoding/hex"
	"encoding/json"
	"fmt"
	"strings"
	"sync"
	"testing"
)

func newTestKey(t testing.TB, kem KEM) *PrivateKey {
	key, err := kem.GenerateKey()
	if err != nil {
		t.Fatal(err)
	}
	return key
}

var bothKEMs = []KEM{SNTRUP761(), SNTRUP857()}

func TestKeysGoThroughBytes(t *testing.T) {
	for _, kem := range bothKEMs {
		key := newTestKey(t, kem)
		data, err := key.Bytes()
		if err != nil || len(data) != kem.PrivateKeySize() || key.KEM() != kem {
			t.Fatalf("%s: %d bytes, %v", kem, len(data), err)
		}
		private, err := kem.NewPrivateKey(data)
		if err != nil || !private.Equal(key) || !private.PublicKey().Equal(key.PublicKey()) {
			t.Errorf("%s: the private key is another: %v", kem, err)
		}
		publicData := key.PublicKey().Bytes()
		public, err := kem.NewPublicKey(publicData)
		if err != nil || !public.Equal(key.PublicKey()) || public.KEM() != kem {
			t.Errorf("%s: the public key is another: %v", kem, err)
		}
		wipe(data)
		wipe(publicData)
		public.Bytes()[0] ^= 1
		if !private.Equal(key) || !public.Equal(key.PublicKey()) {
			t.Errorf("%s: a key has the caller's bytes", kem)
		}
	}
}

func TestOtherKeysAreNotEqual(t *testing.T) {
	one, two, larger := newTestKey(t, SNTRUP761()), newTestKey(t, SNTRUP761()), newTestKey(t, SNTRUP857())
	for _, other := range []any{two, larger, one.PublicKey(), nil, "key"} {
		if one.Equal(other) {
			t.Errorf("a private key is equal to %v", other)
		}
	}
	for _, other := range []any{two.PublicKey(), larger.PublicKey(), one, nil, "key"} {
		if one.PublicKey().Equal(other) {
			t.Errorf("a public key is equal to %v", other)
		}
	}
	data, _ := one.Bytes()
	data[len(data)-1] ^= 1
	last, err := SNTRUP761().NewPrivateKey(data)
	if err != nil || one.Equal(last) || last.Equal(one) {
		t.Errorf("a key is equal to one with another last byte: %v", err)
	}
}

func TestWhatIsNoKey(t *testing.T) {
	for _, kem := range bothKEMs {
		for _, size := range []int{0, kem.PublicKeySize() - 1, kem.PublicKeySize() + 1, kem.PrivateKeySize()} {
			_, err := kem.NewPublicKey(make([]byte, size))
			wants(t, "NewPublicKey", err, ErrKey)
		}
		for _, size := range []int{0, kem.PrivateKeySize() - 1, kem.PrivateKeySize() + 1, kem.PublicKeySize()} {
			_, err := kem.NewPrivateKey(make([]byte, size))
			wants(t, "NewPrivateKey", err, ErrKey)
		}
		_, err := kem.NewPrivateKey(bytes.Repeat([]byte{255}, kem.PrivateKeySize()))
		wants(t, "polynomials that are none", err, ErrKey)
	}
	_, err := KEM{}.GenerateKey()
	wants(t, "GenerateKey of no KEM", err, ErrUsage)
	_, err = KEM{}.NewPublicKey(nil)
	wants(t, "NewPublicKey of no KEM", err, ErrKey)
	_, err = KEM{}.NewPrivateKey(nil)
	wants(t, "NewPrivateKey of no KEM", err, ErrKey)
}

func TestZeroKeysAreRefused(t *testing.T) {
	key, public := new(PrivateKey), new(PublicKey)
	_, _, err := NewSender(public, HKDFSHA256(), AES128GCM(), nil)
	wants(t, "NewSender", err, ErrUsage)
	_, err = Seal(public, HKDFSHA256(), AES128GCM(), nil, nil)
	wants(t, "Seal", err, ErrUsage)
	_, err = NewRecipient(nil, key, HKDFSHA256(), AES128GCM(), nil)
	wants(t, "NewRecipient", err, ErrUsage)
	_, err = Open(key, HKDFSHA256(), AES128GCM(), nil, nil)
	wants(t, "Open", err, ErrUsage)
	_, err = key.Bytes()
	wants(t, "Bytes", err, ErrUsage)
	wants(t, "Close", key.Close(), nil)
	if key.Equal(key) || fmt.Sprint(key, *key) == "" {
		t.Error("a zero key is equal to something")
	}
}

func TestCloseWipesAKey(t *testing.T) {
	key := newTestKey(t, SNTRUP761())
	public, data := key.PublicKey(), key.held().bytes
	if isZero(data) {
		t.Fatal("the test looks elsewhere")
	}
	for i := 0; i < 2; i++ {
		wants(t, "Close", key.Close(), nil)
	}
	if !isZero(data) {
		t.Error("bytes of a key are left")
	}
	_, err := key.Bytes()
	wants(t, "Bytes", err, ErrClosed)
	enc, s, err := NewSender(key.PublicKey(), HKDFSHA256(), AES128GCM(), nil)
	if err != nil || !key.PublicKey().Equal(public) {
		t.Fatal("the public half is gone", err)
	}
	defer s.Close()
	_, err = NewRecipient(enc, key, HKDFSHA256(), AES128GCM(), nil)
	wants(t, "NewRecipient", err, ErrClosed)
	_, err = Open(key, HKDFSHA256(), AES128GCM(), nil, make([]byte, 2000))
	wants(t, "Open", err, ErrClosed)
	if key.Equal(key) {
		t.Error("a closed key is equal to something")
	}
}

func TestSeedsAreWiped(t *testing.T) {
	var used *seed
	var was seed
	err := withSeed(func(s *seed) error {
		used, was = s, *s
		return nil
	})
	if err != nil || isZero(was[:]) || !isZero(used[:]) {
		t.Errorf("a seed is left, or none was drawn: %v", err)
	}
}

func TestSeedsThatGiveNoKeyAreDrawnAgain(t *testing.T) {
	for _, none := range []error{errExhausted, errNoInverse} {
		drawn := map[seed]bool{}
		err := withSeed(func(s *seed) error {
			drawn[*s] = true
			if len(drawn) < 3 {
				return none
			}
			return nil
		})
		if err != nil || len(drawn) != 3 {
			t.Errorf("%v: %d seeds, %v", none, len(drawn), err)
		}
		uses := 0
		err = withSeed(func(*seed) error { uses++; return none })
		if err != none || uses != mostSeeds {
			t.Errorf("%v: %d uses, %v", none, uses, err)
		}
	}
}

func TestPrintingShowsNoSecret(t *testing.T) {
	key := newTestKey(t, SNTRUP761())
	s := newTestSender(t)
	defer s.Close()
	data, _ := key.Bytes()
	type holder struct {
		Shown  *PrivateKey
		hidden *PrivateKey
		Value  PrivateKey
		value  PrivateKey
		sender *Sender
	}
	inside := holder{key, key, *key, *key, s}
	var printed []string
	for _, verb := range []string{"%v", "%+v", "%#v", "%s", "%x", "%q", "%d"} {
		for _, value := range []any{key, *key} {
			if text := fmt.Sprintf(verb, value); text != "private key of sntrup761" {
				t.Errorf("%s prints %.100s", verb, text)
			}
		}
	}
	for _, verb := range []string{"%v", "%+v", "%#v", "%s", "%x", "%X", "%q", "%d", "%t"} {
		for _, value := range []any{key, *key, inside, &inside, []*PrivateKey{key}, s, &s.context} {
			printed = append(printed, fmt.Sprintf(verb, value))
		}
	}
	encoded, err := json.Marshal(inside)
	if err != nil {
		t.Fatal(err)
	}
	for _, text := range append(printed, key.String(), key.GoString(), string(encoded)) {
		if len(text) > 400 {
			t.Errorf("so much is printed: %.100s..", text)
		}
		for _, secret := range [][]byte{data[:4], data[len(data)-40 : len(data)-36], bytesOf(s.context.held())[36:40]} {
			decimal := strings.Trim(fmt.Sprint(secret), "[]")
			if strings.Contains(strings.ToLower(text), hex.EncodeToString(secret)) || strings.Contains(text, decimal) {
				t.Errorf("secret bytes are printed: %.100s..", text)
			}
		}
	}
}

func TestAKeyServesManyGoroutines(t *testing.T) {
	key := newTestKey(t, SNTRUP761())
	var all sync.WaitGroup
	for i := 0; i < 8; i++ {
		all.Add(1)
		go func(text []byte) {
			defer all.Done()
			sealed, err := Seal(key.PublicKey(), HKDFSHA256(), AES128GCM(), nil, text)
			if err != nil {
				t.Error(err)
				return
			}
			if again, err := Open(key, HKDFSHA256(), AES128GCM(), nil, sealed); err != nil || !bytes.Equal(again, text) {
				t.Errorf("%q, %v", again, err)
			}
		}([]byte{byte(i)})
	}
	all.Wait()
	key.Close()
}

func TestSealedForAnotherDoesNotOpen(t *testing.T) {
	kdf, aead, info := HKDFSHA256(), AES128GCM(), []byte("info")
	key, other := newTestKey(t, SNTRUP761()), newTestKey(t, SNTRUP761())
	sealed, err := Seal(key.PublicKey(), kdf, aead, info, testText)
	if err != nil {
		t.Fatal(err)
	}
	again, err := Seal(key.PublicKey(), kdf, aead, info, testText)
	if err != nil || bytes.Equal(again[:100], sealed[:100]) {
		t.Errorf("two encapsulations are one: %v", err)
	}
	spoilt := clone(sealed)
	spoilt[5] ^= 1
	_, err = Open(key, kdf, aead, info, spoilt)
	wants(t, "a changed encapsulation", err, ErrOpen)
	_, err = Open(other, kdf, aead, info, sealed)
	wants(t, "another key", err, ErrOpen)
	_, err = Open(key, kdf, aead, nil, sealed)
	wants(t, "another info", err, ErrOpen)
	_, err = Open(key, kdf, AES256GCM(), info, sealed)
	wants(t, "another AEAD", err, ErrOpen)
	_, err = Open(key, HKDFSHA384(), aead, info, sealed)
	wants(t, "another KDF", err, ErrOpen)
	_, err = Open(key, kdf, aead, info, sealed, WithPSK(testSecret, testText))
	wants(t, "a psk", err, ErrOpen)
	for _, size := range []int{0, key.KEM().EncSize() - 1, key.KEM().EncSize(), len(sealed) - 1} {
		_, err = Open(key, kdf, aead, info, sealed[:size])
		wants(t, "a cut message", err, ErrOpen)
	}
	_, err = NewRecipient(sealed, key, kdf, aead, info)
	wants(t, "an encapsulation that is too long", err, ErrUsage)
	if text, err := Open(key, kdf, aead, info, sealed); err != nil || !bytes.Equal(text, testText) {
		t.Errorf("%q, %v", text, err)
	}
}
