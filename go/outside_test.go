//go:build linux && amd64 && cgo

package hpkebatch_test

import (
	"fmt"
	"os"
	"os/exec"
	"path/filepath"
	"regexp"
	"strings"
	"testing"
)

// These tests stand where a user does: in another module, which knows this one by a replace, and with no network.

// A userModule is a module with one file, main.go.
type userModule struct {
	t      *testing.T
	folder string
}

func newUserModule(t *testing.T, program string) userModule {
	if testing.Short() {
		t.Skip("-short: the go command isn't called")
	}
	if _, err := exec.LookPath("go"); err != nil {
		t.Skip("the go command isn't here")
	}
	m := userModule{t, t.TempDir()}
	here, err := os.Getwd()
	if err != nil {
		t.Fatal(err)
	}
	if err := os.WriteFile(filepath.Join(m.folder, "main.go"), []byte(program), 0o666); err != nil {
		t.Fatal(err)
	}
	m.succeeds("mod", "init", "example")
	m.succeeds("mod", "edit", "-require", "hpkebatch@v0.0.0", "-replace", "hpkebatch="+here)
	return m
}

// run calls the go command there, with settings of the environment before its words.
func (m userModule) run(words ...string) (string, error) {
	command := exec.Command("go")
	command.Env = append(os.Environ(), "GOPROXY=off", "GOFLAGS=")
	for _, word := range words {
		if len(command.Args) == 1 && strings.Contains(word, "=") {
			command.Env = append(command.Env, word)
		} else {
			command.Args = append(command.Args, word)
		}
	}
	command.Dir = m.folder
	out, err := command.CombinedOutput()
	return string(out), err
}

func (m userModule) succeeds(words ...string) string {
	m.t.Helper()
	out, err := m.run(words...)
	if err != nil {
		m.t.Fatalf("go %v: %v\n%s", words, err, out)
	}
	return out
}

// fails wants the go command to fail, and to say this.
func (m userModule) fails(said string, words ...string) {
	m.t.Helper()
	out, err := m.run(words...)
	if err == nil || !strings.Contains(out, said) {
		m.t.Errorf("go %v: %v, and it doesn't say %q:\n%s", words, err, said, out)
	}
}

// between gives what stands between two texts of a file.
func between(t *testing.T, name, start, end string) string {
	data, err := os.ReadFile(name)
	if err != nil {
		t.Fatal(err)
	}
	_, rest, found := strings.Cut(string(data), start)
	inside, _, ended := strings.Cut(rest, end)
	if !found || !ended {
		t.Fatalf("%s has no %q before %q", name, start, end)
	}
	return inside
}

func TestReadmeRuns(t *testing.T) {
	m := newUserModule(t, between(t, "README.md", "```go\n", "```"))
	if out := m.succeeds("run", "."); out != "hello\n" {
		t.Errorf("the program prints %q", out)
	}
	m.succeeds("vet", ".")
	m.succeeds("mod", "tidy")
	m.succeeds("mod", "vendor")
	if out := m.succeeds("run", "-mod=vendor", "."); out != "hello\n" {
		t.Errorf("the program with a vendor folder prints %q", out)
	}
	said := "hpkebatch_is_for_linux_on_amd64_and_needs_cgo_and_a_C_compiler"
	m.fails(said, "CGO_ENABLED=0", "build", "hpkebatch")
	m.fails(said, "GOOS=darwin", "build", "hpkebatch")
	m.fails(said, "GOARCH=arm64", "build", "hpkebatch")
}

// The lines of the package's doc and of the README are those of the example, which runs.
func TestTheFirstLinesAreTheExample(t *testing.T) {
	lines := between(t, "example_test.go", "func Example() {\n", "\t// Output")
	doc := regexp.MustCompile(`(?m)^//\t`).FindAllStringIndex(between(t, "doc.go", "", "// [Seal]"), -1)
	if len(doc) != strings.Count(lines, "\n") {
		t.Errorf("the doc has %d lines of code, and the example %d", len(doc), strings.Count(lines, "\n"))
	}
	asDoc := regexp.MustCompile(`(?m)^\t`).ReplaceAllString(lines, "//\t")
	if !strings.Contains(between(t, "doc.go", "", "package hpkebatch"), asDoc) {
		t.Error("the doc has other lines than the example")
	}
	if !strings.Contains(between(t, "README.md", "```go\n", "```"), lines) {
		t.Error("the README has other lines than the example")
	}
}

const misuse = `package main

import "hpkebatch"

func main() {
	key, _ := hpkebatch.SNTRUP761().GenerateKey()
	kdf, aead := hpkebatch.HKDFSHA256(), hpkebatch.AES128GCM()
	enc, sender, _ := hpkebatch.NewSender(key.PublicKey(), kdf, aead, nil)
	recipient, _ := hpkebatch.NewRecipient(enc, key, kdf, aead, nil)
	other, err := sender.Seal(nil, nil)
LINES
	_, _, _ = recipient, other, err
}
`

// refused gives a program with these lines, and the words that tell of each, by the number of its line.
func refused(lines [][2]string) (program string, said []string) {
	first := strings.Count(strings.Split(misuse, "LINES")[0], "\n") + 1
	var all []string
	for i, line := range lines {
		all = append(all, "\t"+line[0])
		said = append(said, fmt.Sprintf("main.go:%d:", first+i), line[1])
	}
	return strings.Replace(misuse, "LINES", strings.Join(all, "\n"), 1), said
}

// tellsEach wants a line of what is said for each pair of a place and words.
func tellsEach(t *testing.T, out string, said []string) {
	for i := 0; i < len(said); i += 2 {
		place, words := said[i], said[i+1]
		if !regexp.MustCompile("(?m)^.*" + regexp.QuoteMeta(place) + ".*" + regexp.QuoteMeta(words)).MatchString(out) {
			t.Errorf("%s isn't told %q:\n%s", place, words, out)
		}
	}
}

func TestTheCompilerTellsMisuse(t *testing.T) {
	program, said := refused([][2]string{
		{"_, _, err = hpkebatch.NewSender(key, kdf, aead, nil)", "cannot use key"},
		{"_, err = hpkebatch.NewRecipient(enc, key.PublicKey(), kdf, aead, nil)", "cannot use key.PublicKey()"},
		{"_, _, err = hpkebatch.NewSender(key.PublicKey(), aead, kdf, nil)", "cannot use aead"},
		{"_, err = recipient.Seal(nil, nil)", "recipient.Seal undefined"},
		{"_, err = sender.Open(nil, other)", "sender.Open undefined"},
		{"_ = *key == *key", "cannot"},
	})
	out, err := newUserModule(t, program).run("build", "-gcflags=-e", ".")
	if err == nil {
		t.Error("it is compiled")
	}
	tellsEach(t, out, said)
}

func TestVetTellsCopies(t *testing.T) {
	program, said := refused([][2]string{
		{"first := *sender", "assignment copies lock value"},
		{"second := *recipient", "assignment copies lock value"},
		{"_, _ = &first, &second", ""},
	})
	m := newUserModule(t, program)
	m.succeeds("build", ".")
	out, err := m.run("vet", ".")
	if err == nil {
		t.Error("vet tells nothing")
	}
	tellsEach(t, out, said[:4])
}
