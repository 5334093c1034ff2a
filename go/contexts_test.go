//go:build linux && amd64 && cgo

package hpkebatch

import (
	"bytes"
	"errors"
	"fmt"
	"reflect"
	"runtime"
	"sync"
	"testing"
	"time"
	"unsafe"
)

// Any bytes will do where no other sender has them: the tests below want one number for one text again and again.
var (
	testSecret = bytes.Repeat([]byte{7}, 32)
	testText   = []byte("the same text for each number")
)

func newTestSender(t testing.TB, options ...Option) *Sender {
	s, err := NewSenderFromShared(32, testSecret, HKDFSHA256(), AES128GCM(), nil, options...)
	if err != nil {
		t.Fatal(err)
	}
	return s
}

func newTestRecipient(t testing.TB, options ...Option) *Recipient {
	r, err := NewRecipientFromShared(32, testSecret, HKDFSHA256(), AES128GCM(), nil, options...)
	if err != nil {
		t.Fatal(err)
	}
	return r
}

// sealedInOrder seals the test's text by each number below count.
func sealedInOrder(t *testing.T, count int) [][]byte {
	s := newTestSender(t)
	defer s.Close()
	sealed := make([][]byte, count)
	for i := range sealed {
		var err error
		if sealed[i], err = s.Seal(nil, testText); err != nil {
			t.Fatal(err)
		}
	}
	return sealed
}

func wants(t *testing.T, what string, err, wanted error) {
	t.Helper()
	if !errors.Is(err, wanted) {
		t.Errorf("%s: %v, and not %v", what, err, wanted)
	}
}

func TestGoroutinesDrawEachNumberOnce(t *testing.T) {
	const goroutines, each = 8, 100
	wanted := map[string]int{}
	for number, ciphertext := range sealedInOrder(t, goroutines*each) {
		wanted[string(ciphertext)] = number
	}
	s := newTestSender(t)
	defer s.Close()
	drawn := make(chan []byte, goroutines*each)
	var all sync.WaitGroup
	for i := 0; i < goroutines; i++ {
		all.Add(1)
		go func() {
			defer all.Done()
			for j := 0; j < each; j++ {
				ciphertext, err := s.Seal(nil, testText)
				if err != nil {
					t.Error(err)
				}
				drawn <- ciphertext
			}
		}()
	}
	all.Wait()
	close(drawn)
	for ciphertext := range drawn {
		if _, ok := wanted[string(ciphertext)]; !ok {
			t.Fatal("a number was drawn twice, or none that is due")
		}
		delete(wanted, string(ciphertext))
	}
	if len(wanted) != 0 {
		t.Errorf("%d numbers weren't drawn", len(wanted))
	}
}

func TestGoroutinesOpenEachMessageOnce(t *testing.T) {
	r := newTestRecipient(t)
	defer r.Close()
	first := sealedInOrder(t, 1)[0]
	var all sync.WaitGroup
	opened := make([]bool, 16)
	for i := range opened {
		all.Add(1)
		go func(i int) {
			defer all.Done()
			_, err := r.Open(nil, first)
			opened[i] = err == nil
		}(i)
	}
	all.Wait()
	count := 0
	for _, is := range opened {
		if is {
			count++
		}
	}
	if count != 1 {
		t.Errorf("the first message was opened %d times", count)
	}
}

func TestCloseWhileOthersSeal(t *testing.T) {
	s := newTestSender(t)
	var all sync.WaitGroup
	for i := 0; i < 8; i++ {
		all.Add(1)
		go func() {
			defer all.Done()
			for {
				if _, err := s.Seal(nil, testText); err != nil {
					wants(t, "Seal", err, ErrClosed)
					return
				}
			}
		}()
	}
	time.Sleep(time.Millisecond)
	s.Close()
	all.Wait()
}

// A copy by reflection, of which go vet can't tell.
func copied[End any](end *End) *End {
	other := new(End)
	reflect.ValueOf(other).Elem().Set(reflect.ValueOf(end).Elem())
	return other
}

func TestACopyIsRefused(t *testing.T) {
	s, r := newTestSender(t), newTestRecipient(t)
	defer s.Close()
	defer r.Close()
	ciphertext := sealedInOrder(t, 1)[0]
	for _, end := range []*Sender{copied(s), new(Sender)} {
		_, err := end.Seal(nil, testText)
		wants(t, "Seal", err, ErrCopied)
		_, err = end.Export("", 32)
		wants(t, "Export of a sender", err, ErrCopied)
		wants(t, "Close of a sender", end.Close(), ErrCopied)
	}
	for _, end := range []*Recipient{copied(r), new(Recipient)} {
		_, err := end.Open(nil, ciphertext)
		wants(t, "Open", err, ErrCopied)
		_, err = end.Export("", 32)
		wants(t, "Export of a recipient", err, ErrCopied)
		wants(t, "Close of a recipient", end.Close(), ErrCopied)
	}
	if again, err := s.Seal(nil, testText); err != nil || !bytes.Equal(again, ciphertext) {
		t.Errorf("a copy has moved the sender on: %v", err)
	}
	if _, err := r.Open(nil, ciphertext); err != nil {
		t.Errorf("a copy has moved the recipient on: %v", err)
	}
}

func TestClosedContextsRefuse(t *testing.T) {
	s, r := newTestSender(t), newTestRecipient(t)
	ciphertext := sealedInOrder(t, 1)[0]
	for i := 0; i < 2; i++ {
		wants(t, "Close of a sender", s.Close(), nil)
		wants(t, "Close of a recipient", r.Close(), nil)
	}
	_, err := s.Seal(nil, testText)
	wants(t, "Seal", err, ErrClosed)
	_, err = s.Export("", 32)
	wants(t, "Export of a sender", err, ErrClosed)
	_, err = r.Open(nil, ciphertext)
	wants(t, "Open", err, ErrClosed)
	_, err = r.Export("", 32)
	wants(t, "Export of a recipient", err, ErrClosed)
}

// bytesOf gives the memory in which a context has its key.
func bytesOf(held *heldContext) []byte {
	return unsafe.Slice((*byte)(unsafe.Pointer(&held.bytes)), unsafe.Sizeof(held.bytes))
}

// isZero allocates nothing, since it may look at memory that was given back, and while a finalizer writes there.
//
//go:norace
func isZero(data []byte) bool {
	for _, b := range data {
		if b != 0 {
			return false
		}
	}
	return true
}

func TestCloseWipesAContext(t *testing.T) {
	s, r := newTestSender(t), newTestRecipient(t)
	ofSender, ofRecipient := bytesOf(s.context.held()), bytesOf(r.context.held())
	if len(ofSender) != 136 || isZero(ofSender) || isZero(ofRecipient) {
		t.Fatal("the test looks elsewhere")
	}
	s.Close()
	r.Close()
	if !isZero(ofSender) || !isZero(ofRecipient) {
		t.Error("bytes of a context are left")
	}
}

// addressOf makes something, and forgets all of it but where its secret bytes are.
//
//go:noinline
func addressOf(secret func() []byte) (address uintptr, size int) {
	data := secret()
	return uintptr(unsafe.Pointer(&data[0])), len(data)
}

// The memory isn't given to another object before the collection behind the one that runs the finalizer.
func TestTheCollectorWipesWhatIsForgotten(t *testing.T) {
	for what, secret := range map[string]func() []byte{
		"context": func() []byte { return bytesOf(newTestSender(t).context.held()) },
		"key":     func() []byte { return newTestKey(t, SNTRUP761()).held().bytes },
	} {
		before := secret() // with its neighbours, memory isn't given back to the system
		address, size := addressOf(secret)
		behind := secret()
		left := func() []byte { return unsafe.Slice(*(**byte)(unsafe.Pointer(&address)), size) }
		if isZero(left()) {
			t.Fatal("the test looks elsewhere")
		}
		runtime.GC()
		for until := time.Now().Add(5 * time.Second); !isZero(left()); time.Sleep(time.Millisecond) {
			if time.Now().After(until) {
				t.Fatalf("bytes of a %s are left", what)
			}
		}
		runtime.KeepAlive(before)
		runtime.KeepAlive(behind)
	}
}

func TestAFailedMessageUsesNoNumber(t *testing.T) {
	r := newTestRecipient(t)
	defer r.Close()
	sealed := sealedInOrder(t, 2)
	spoilt := append([]byte(nil), sealed[0]...)
	spoilt[3] ^= 1
	for what, ciphertext := range map[string][]byte{
		"changed": spoilt, "cut": sealed[0][:20], "of 15 bytes": sealed[0][:15], "of no bytes": nil, "another's": sealed[1],
	} {
		plaintext, err := r.Open(nil, ciphertext)
		wants(t, what, err, ErrOpen)
		if plaintext != nil {
			t.Errorf("%s: a text is given", what)
		}
	}
	_, err := r.Open([]byte{0}, sealed[0])
	wants(t, "other additional data", err, ErrOpen)
	for number, ciphertext := range sealed {
		if plaintext, err := r.Open(nil, ciphertext); err != nil || !bytes.Equal(plaintext, testText) {
			t.Errorf("message %d: %q, %v", number, plaintext, err)
		}
	}
}

func TestEmptyAndShortSlices(t *testing.T) {
	s, r := newTestSender(t), newTestRecipient(t)
	defer s.Close()
	defer r.Close()
	for _, aad := range [][]byte{nil, {}, {1}} {
		for _, text := range [][]byte{nil, {}, {1}, make([]byte, 1<<16+1)} {
			ciphertext, err := s.Seal(aad, text)
			if err != nil || len(ciphertext) != len(text)+TagSize {
				t.Fatalf("%d bytes: %d, %v", len(text), len(ciphertext), err)
			}
			if again, err := r.Open(aad, ciphertext); err != nil || !bytes.Equal(again, text) {
				t.Fatalf("%d bytes: %v", len(text), err)
			}
		}
	}
	if secret, err := s.Export("", 0); err != nil || len(secret) != 0 {
		t.Errorf("an export of no bytes: %v", err)
	}
}

// cgo refuses memory with Go pointers in it; a slice of bytes may stand beside some.
func TestASliceBesidePointers(t *testing.T) {
	type connection struct {
		buffer [64]byte
		next   *connection
	}
	at := &connection{next: new(connection)}
	s, r := newTestSender(t), newTestRecipient(t)
	defer s.Close()
	defer r.Close()
	ciphertext, err := s.Seal(at.buffer[:8], at.buffer[8:])
	if err != nil {
		t.Fatal(err)
	}
	if _, err := r.Open(at.buffer[:8], ciphertext); err != nil {
		t.Error(err)
	}
}

func TestLimits(t *testing.T) {
	s, r := newTestSender(t, WithLimit(1)), newTestRecipient(t, WithLimit(1))
	defer s.Close()
	defer r.Close()
	sealed := sealedInOrder(t, 2)
	if ciphertext, err := s.Seal(nil, testText); err != nil || !bytes.Equal(ciphertext, sealed[0]) {
		t.Fatal(err)
	}
	_, err := s.Seal(nil, testText)
	wants(t, "Seal", err, ErrLimit)
	if _, err := r.Open(nil, sealed[0]); err != nil {
		t.Fatal(err)
	}
	_, err = r.Open(nil, sealed[1])
	wants(t, "Open", err, ErrLimit)
	_, err = NewSenderFromShared(32, testSecret, HKDFSHA256(), AES128GCM(), nil, WithLimit(0))
	wants(t, "limit 0", err, ErrUsage)
}

func TestExportSizes(t *testing.T) {
	for kdf, most := range map[KDF]int{HKDFSHA256(): 255 * 32, HKDFSHA384(): 255 * 48, HKDFSHA512(): 255 * 64} {
		s, err := NewSenderFromShared(32, testSecret, kdf, ExportOnly(), nil)
		if err != nil {
			t.Fatal(err)
		}
		if secret, err := s.Export("name", most); err != nil || len(secret) != most {
			t.Errorf("%d bytes: %v", most, err)
		}
		for _, size := range []int{-1, most + 1, 1 << 62} {
			_, err := s.Export("name", size)
			wants(t, "Export", err, ErrExportSize)
		}
		_, err = s.Seal(nil, nil)
		wants(t, "Seal", err, ErrExportOnly)
		s.Close()
	}
}

func TestWhatIsNoSuite(t *testing.T) {
	_, err := NewSenderFromShared(32, testSecret, KDF{}, AES128GCM(), nil)
	wants(t, "no KDF", err, ErrUsage)
	_, err = NewSenderFromShared(32, testSecret, HKDFSHA256(), AEAD{}, nil)
	wants(t, "no AEAD", err, ErrUsage)
	_, err = NewKDF(4)
	wants(t, "KDF 4", err, ErrUsage)
	_, err = NewAEAD(3)
	wants(t, "AEAD 3", err, ErrUsage)
	_, err = NewKEM(32)
	wants(t, "KEM 32", err, ErrUsage)
	for id := range []int{1, 2, 3} {
		if kdf, err := NewKDF(uint16(id + 1)); err != nil || kdf.ID() != uint16(id+1) {
			t.Errorf("KDF %d: %v", id+1, err)
		}
	}
	for _, id := range []uint16{1, 2, 65535} {
		if aead, err := NewAEAD(id); err != nil || aead.ID() != id {
			t.Errorf("AEAD %d: %v", id, err)
		}
	}
	p := newParameters(HKDFSHA384(), AES256GCM(), []byte("info"), []Option{WithPSK([]byte("psk"), []byte("id")), WithLimit(5)})
	told := fmt.Sprintf("%d %d %s %d %s %s %d", p.kdf.ID(), p.aead.ID(), p.info, p.mode, p.psk, p.pskID, p.limit)
	if told != "2 2 info 1 psk id 5" {
		t.Errorf("the parameters are %s", told)
	}
	for _, psk := range []Option{WithPSK(nil, nil), WithPSK(testSecret, nil), WithPSK(nil, testSecret)} {
		_, err = NewSenderFromShared(32, testSecret, HKDFSHA256(), AES128GCM(), nil, psk)
		wants(t, "a psk that isn't whole", err, ErrPSK)
	}
}

// The bytes behind a slice up to its capacity.
func behind(b []byte) []byte { return b[len(b):cap(b)] }

func TestAppendWritesBehindDst(t *testing.T) {
	sealed := sealedInOrder(t, 1)[0]
	for _, room := range []int{0, len(sealed) - 1, len(sealed), len(sealed) + 5} {
		s, r := newTestSender(t), newTestRecipient(t)
		dst := append(make([]byte, 0, 3+room), "abc"...)
		spare := behind(dst)
		out, err := s.AppendSeal(dst, nil, testText)
		if err != nil || !bytes.Equal(out, append([]byte("abc"), sealed...)) {
			t.Errorf("AppendSeal with room for %d: %q, %v", room, out, err)
		}
		if fits := room >= len(sealed); fits != (&out[0] == &dst[0]) || fits == isZero(spare) && room > 0 {
			t.Errorf("AppendSeal with room for %d writes elsewhere", room)
		}
		if room > len(sealed) && !isZero(spare[len(sealed):]) {
			t.Error("AppendSeal writes too much")
		}
		dst = append(make([]byte, 0, 3+room), "abc"...)
		out, err = r.AppendOpen(dst, nil, sealed)
		if err != nil || string(out) != "abc"+string(testText) {
			t.Errorf("AppendOpen with room for %d: %q, %v", room, out, err)
		}
		if fits := room >= len(testText); fits != (&out[0] == &dst[0]) {
			t.Errorf("AppendOpen with room for %d writes elsewhere", room)
		}
		s.Close()
		r.Close()
	}
}

func TestAppendOpenOfASpoiltMessageWritesNothing(t *testing.T) {
	r := newTestRecipient(t)
	defer r.Close()
	spoilt := sealedInOrder(t, 1)[0]
	spoilt[0] ^= 1
	before, dst := clone(spoilt), make([]byte, 0, 100)
	for _, to := range [][]byte{dst, spoilt[:0]} {
		out, err := r.AppendOpen(to, nil, spoilt)
		wants(t, "AppendOpen", err, ErrOpen)
		if out != nil || !isZero(behind(dst)) || !bytes.Equal(spoilt, before) {
			t.Error("bytes are written")
		}
	}
}

// Text and result lie in one buffer, in each way in which they may.
func TestAppendToItsOwnBytes(t *testing.T) {
	sealed := sealedInOrder(t, 1)[0]
	const at = 60
	for start := 0; start < 2*at; start++ {
		s, r, buffer := newTestSender(t), newTestRecipient(t), make([]byte, 3*at)
		copy(buffer[at:], testText)
		out, err := s.AppendSeal(buffer[start:start], nil, buffer[at:at+len(testText)])
		if err != nil || !bytes.Equal(out, sealed) || &out[0] != &buffer[start] {
			t.Fatalf("AppendSeal to byte %d: %v", start, err)
		}
		copy(buffer[at:], sealed)
		out, err = r.AppendOpen(buffer[start:start], nil, buffer[at:at+len(sealed)])
		if err != nil || !bytes.Equal(out, testText) || &out[0] != &buffer[start] {
			t.Fatalf("AppendOpen to byte %d: %v", start, err)
		}
		s.Close()
		r.Close()
	}
	s, r, aad := newTestSender(t), newTestRecipient(t), append(make([]byte, 0, 100), "the aad"...)
	defer s.Close()
	defer r.Close()
	ciphertext, err := s.AppendSeal(aad[:0], aad, testText)
	if err != nil {
		t.Fatal(err)
	}
	if plaintext, err := r.Open([]byte("the aad"), ciphertext); err != nil || !bytes.Equal(plaintext, testText) {
		t.Errorf("with aad in the room: %v", err)
	}
}

func TestOverlap(t *testing.T) {
	all := make([]byte, 10)
	for a := 0; a < len(all); a++ {
		for b := a; b <= len(all); b++ {
			for c := 0; c < len(all); c++ {
				for d := c; d <= len(all); d++ {
					wanted := a < d && c < b && a < b && c < d
					if overlap(all[a:b], all[c:d]) != wanted {
						t.Fatalf("[%d, %d) and [%d, %d)", a, b, c, d)
					}
				}
			}
		}
	}
}

func TestAppendAllocatesNothing(t *testing.T) {
	s := newTestSender(t)
	defer s.Close()
	buffer := make([]byte, 0, 100)
	count := testing.AllocsPerRun(100, func() {
		if _, err := s.AppendSeal(buffer, nil, testText); err != nil {
			t.Fatal(err)
		}
	})
	if count != 0 {
		t.Errorf("AppendSeal allocates %v times", count)
	}
}
