//go:build linux && amd64 && cgo

package hpkebatch

import (
	"bufio"
	"bytes"
	"encoding/hex"
	"os"
	"strconv"
	"strings"
	"testing"
)

const casesFile = "../tools/cases/in_process.cases"

// The words that the cases have for what a call answers.
var wordOfError = map[error]string{
	nil:           "done",
	ErrUsage:      "wrong_usage",
	ErrOpen:       "failed",
	ErrLimit:      "limit",
	errRole:       "role",
	ErrExportOnly: "nocipher",
	ErrExportSize: "exportsize",
	ErrKey:        "form",
	errExhausted:  "exhausted",
	errNoInverse:  "noinverse",
	errPSKPair:    "pskpair",
	errPSKExtra:   "pskextra",
	errPSKMissing: "pskmissing",
}

// caseLine reads the fields of a line, one after another.
type caseLine struct {
	t      *testing.T
	fields []string
}

func (l *caseLine) word() string {
	if len(l.fields) == 0 {
		l.t.Fatal("the line ends early")
	}
	word := l.fields[0]
	l.fields = l.fields[1:]
	return word
}

func (l *caseLine) number() uint64 {
	number, err := strconv.ParseUint(l.word(), 10, 64)
	if err != nil {
		l.t.Fatal(err)
	}
	return number
}

func (l *caseLine) id() uint16 {
	number := l.number()
	if number > 1<<16-1 {
		l.t.Fatalf("%d is no id", number)
	}
	return uint16(number)
}

func (l *caseLine) bytes() []byte {
	word := l.word()
	if word == "-" {
		return nil
	}
	data, err := hex.DecodeString(word)
	if err != nil {
		l.t.Fatal(err)
	}
	return data
}

func (l *caseLine) kem() KEM {
	kem, err := NewKEM(l.id())
	if err != nil {
		l.t.Fatal(err)
	}
	return kem
}

func (l *caseLine) seed() *seed {
	s := new(seed)
	if copy(s[:], l.bytes()) != len(s) {
		l.t.Fatal("a seed has another size")
	}
	return s
}

// suite reads KDF, AEAD and LIMIT.
func (l *caseLine) suite(mode uint16) *parameters {
	return &parameters{mode: mode, kdf: KDF{l.id()}, aead: AEAD{l.id()}, limit: l.number()}
}

// names reads INFO, PSK and PSK_ID.
func (l *caseLine) names(p *parameters) *parameters {
	p.info, p.psk, p.pskID = l.bytes(), l.bytes(), l.bytes()
	return p
}

// answers compares what a call answered with the rest of the line.
func (l *caseLine) answers(err error, wanted ...[]byte) {
	status, told := l.word(), wordOfError[err]
	if told != status {
		l.t.Errorf("it answers %s (%v), and not %s", told, err, status)
	}
	for _, given := range wanted {
		if data := l.bytes(); !bytes.Equal(data, given) {
			l.t.Errorf("it gives %x, and not %x", given, data)
		}
	}
	if len(l.fields) != 0 {
		l.t.Errorf("fields are left: %q", l.fields)
	}
}

// cases holds the context that the last line of a set-up made.
type cases struct{ end *context }

func (c *cases) try(l *caseLine) {
	switch kind := l.word(); kind {
	case "keygen":
		l.tryKeygen()
	case "sender":
		c.trySender(l)
	case "recipient":
		c.tryRecipient(l)
	case "shared":
		c.tryShared(l)
	case "seal":
		aad, plaintext := l.bytes(), l.bytes()
		ciphertext, err := c.end.seal(nil, aad, plaintext)
		l.answers(err, ciphertext)
	case "open":
		plaintext, err := c.end.open(nil, l.bytes(), l.bytes())
		l.answers(err, plaintext)
	case "export":
		secret, err := c.end.export(string(l.bytes()), int(l.number()))
		l.answers(err, secret)
	default:
		l.t.Fatalf("no case is called %q", kind)
	}
}

func (l *caseLine) tryKeygen() {
	key, err := l.kem().keyOf(l.seed(), l.number())
	if err != nil {
		l.answers(err, nil, nil)
		return
	}
	private, _ := key.Bytes()
	l.answers(nil, key.PublicKey().Bytes(), private)
}

func (c *cases) trySender(l *caseLine) {
	kem, from, stream := l.kem(), l.seed(), l.number()
	pk, err := kem.NewPublicKey(l.bytes())
	if err != nil {
		l.t.Fatal(err)
	}
	p := l.names(l.suite(l.id()))
	enc := make([]byte, kem.encSize)
	sender, err := senderOf(from, stream, enc, pk, p)
	if err != nil {
		c.end, enc = nil, nil
	} else {
		c.end = &sender.context
	}
	l.answers(err, enc)
}

func (c *cases) tryRecipient(l *caseLine) {
	kem, enc := l.kem(), l.bytes()
	secret := l.bytes()
	p := l.names(l.suite(l.id()))
	key, err := kem.NewPrivateKey(secret)
	var recipient *Recipient
	if err == nil {
		recipient, err = recipientOf(enc, key, p)
	}
	if err != nil {
		c.end = nil
	} else {
		c.end = &recipient.context
	}
	l.answers(err)
}

func (c *cases) tryShared(l *caseLine) {
	role, kem := l.id(), l.id()
	p := l.suite(l.id())
	secret := l.bytes()
	p = l.names(p)
	end := new(context)
	err := end.setUp(func(bytes *contextBytes) error { return setUpShared(bytes, role, kem, secret, p) })
	if err != nil {
		end = nil
	}
	c.end = end
	l.answers(err)
}

// Every language's binding runs these cases, which another program made. Where the module was taken without the
// repository around it, they aren't here.
func TestCases(t *testing.T) {
	file, err := os.Open(casesFile)
	if err != nil {
		if _, noRepository := os.Stat("../dist/sources"); noRepository != nil {
			t.Skip("the module stands alone: the repository's cases aren't here")
		}
		t.Fatal(err)
	}
	defer file.Close()
	all, counts := cases{}, map[string]int{}
	lines := bufio.NewScanner(file)
	lines.Buffer(nil, 1<<20)
	for number := 1; lines.Scan(); number++ {
		line := lines.Text()
		if line == "" || strings.HasPrefix(line, "#") {
			continue
		}
		fields := strings.Split(line, " ")
		counts[fields[0]]++
		t.Run(strconv.Itoa(number)+" "+fields[0], func(t *testing.T) { all.try(&caseLine{t, fields}) })
	}
	if lines.Err() != nil {
		t.Fatal(lines.Err())
	}
	for _, kind := range []string{"keygen", "sender", "recipient", "shared", "seal", "open", "export"} {
		if counts[kind] == 0 {
			t.Errorf("no case of %s", kind)
		}
	}
	t.Logf("cases: %v", counts)
}
