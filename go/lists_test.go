//go:build linux && amd64 && cgo

package hpkebatch

import (
	"bytes"
	"testing"
)

// A list with texts and additional data of many sizes.
func testList() (aads, texts [][]byte) {
	for i := 0; i < 50; i++ {
		aads = append(aads, bytes.Repeat([]byte{byte(i)}, i%7))
		texts = append(texts, bytes.Repeat([]byte{byte(2 * i)}, i*i%611))
	}
	return aads, texts
}

func TestListsAreTheMessagesOneByOne(t *testing.T) {
	aads, texts := testList()
	for _, aads := range [][][]byte{aads, nil} {
		all, each, r, one := newTestSender(t), newTestSender(t), newTestRecipient(t), newTestRecipient(t)
		for round := 0; round < 2; round++ {
			sealed, err := all.SealAll(aads, texts)
			if err != nil || len(sealed) != len(texts) {
				t.Fatal(len(sealed), err)
			}
			for i, text := range texts {
				var aad []byte
				if aads != nil {
					aad = aads[i]
				}
				if ciphertext, err := each.Seal(aad, text); err != nil || !bytes.Equal(ciphertext, sealed[i]) {
					t.Fatalf("message %d is sealed otherwise: %v", i, err)
				}
				if plaintext, err := one.Open(aad, sealed[i]); err != nil || !bytes.Equal(plaintext, text) {
					t.Fatalf("message %d doesn't open alone: %v", i, err)
				}
			}
			opened, err := r.OpenAll(aads, sealed)
			if err != nil || len(opened) != len(texts) {
				t.Fatal(len(opened), err)
			}
			for i := range texts {
				if !bytes.Equal(opened[i], texts[i]) {
					t.Errorf("message %d is another", i)
				}
			}
			_ = append(sealed[0], 1)
			if sealed[1][0] == 1 {
				t.Error("appending to a message writes into the next")
			}
		}
		for _, end := range []interface{ Close() error }{all, each, r, one} {
			end.Close()
		}
	}
}

func TestAListIsOpenedWholeOrNotAtAll(t *testing.T) {
	aads, texts := testList()
	s, r := newTestSender(t), newTestRecipient(t)
	defer s.Close()
	defer r.Close()
	sealed, err := s.SealAll(aads, texts)
	if err != nil {
		t.Fatal(err)
	}
	for i := range sealed {
		kept := sealed[i]
		for what, spoilt := range map[string][]byte{"changed": clone(kept), "cut": kept[:len(kept)-1], "of 15 bytes": make([]byte, 15), "empty": nil} {
			if what == "changed" {
				spoilt[len(spoilt)-1] ^= 1
			}
			sealed[i] = spoilt
			opened, err := r.OpenAll(aads, sealed)
			wants(t, what, err, ErrOpen)
			if opened != nil {
				t.Error("texts are given")
			}
		}
		sealed[i] = kept
	}
	_, err = r.OpenAll(nil, sealed)
	wants(t, "other additional data", err, ErrOpen)
	_, err = r.OpenAll(aads[1:], sealed[1:])
	wants(t, "without the first", err, ErrOpen)
	if _, err := r.OpenAll(aads, sealed); err != nil {
		t.Errorf("a failed list has used numbers: %v", err)
	}
}

func TestAListOfShortMessages(t *testing.T) {
	r := newTestRecipient(t)
	defer r.Close()
	for _, ciphertexts := range [][][]byte{{nil}, {{1}, make([]byte, 15)}} {
		_, err := r.OpenAll(nil, ciphertexts)
		wants(t, "OpenAll", err, ErrOpen)
	}
}

func TestCopiesOfTextsAreWiped(t *testing.T) {
	var copied []byte
	err := withJoined([][]byte{testText, nil, testText}, func(data []byte, sizes []sizeOfC) error {
		copied = data
		if string(data) != string(testText)+string(testText) || len(sizes) != 4 || int(sizes[0]) != len(testText) || sizes[1] != 0 {
			t.Errorf("they are joined as %q, %v", data, sizes)
		}
		return ErrOpen
	})
	if err != ErrOpen || len(copied) == 0 || !isZero(copied) {
		t.Errorf("%q is left, %v", copied, err)
	}
}

func TestListsThatAreRefused(t *testing.T) {
	aads, texts := testList()
	s, r := newTestSender(t, WithLimit(50)), newTestRecipient(t)
	if sealed, err := s.SealAll(nil, nil); err != nil || len(sealed) != 0 {
		t.Errorf("no messages: %v", err)
	}
	if opened, err := r.OpenAll(nil, nil); err != nil || len(opened) != 0 {
		t.Errorf("no messages: %v", err)
	}
	_, err := s.SealAll(aads[1:], texts)
	wants(t, "additional data are missing", err, ErrUsage)
	_, err = r.OpenAll(aads, texts[1:])
	wants(t, "too many additional data", err, ErrUsage)
	_, err = s.SealAll(nil, append(texts, nil))
	wants(t, "one too many", err, ErrLimit)
	sealed, err := s.SealAll(aads, texts)
	if err != nil {
		t.Errorf("a refused list has used numbers: %v", err)
	}
	_, err = s.SealAll(nil, texts[:1])
	wants(t, "behind the limit", err, ErrLimit)
	wants(t, "Close", s.Close(), nil)
	wants(t, "Close", r.Close(), nil)
	_, err = s.SealAll(aads, texts)
	wants(t, "a closed sender", err, ErrClosed)
	_, err = r.OpenAll(aads, sealed)
	wants(t, "a closed recipient", err, ErrClosed)
	_, err = new(Sender).SealAll(aads, texts)
	wants(t, "a sender made by nobody", err, ErrCopied)
}
