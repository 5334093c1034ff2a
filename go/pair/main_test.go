package main

import (
	"bytes"
	"os"
	"path/filepath"
	"strings"
	"testing"
)

// words runs the program in this process.
func words(input string, words ...string) (string, error) {
	var out bytes.Buffer
	err := run(words, strings.NewReader(input), &out)
	return out.String(), err
}

func write(t *testing.T, text string) string {
	name := filepath.Join(t.TempDir(), "key")
	if err := os.WriteFile(name, []byte(text), 0o600); err != nil {
		t.Fatal(err)
	}
	return name
}

func TestPair(t *testing.T) {
	keys, err := words("", "keygen")
	public, rest, _ := strings.Cut(keys, "\n")
	private, end, _ := strings.Cut(rest, "\n")
	if err != nil || len(public) != 2*1158 || len(private) != 2*1763 || end != "" {
		t.Fatalf("keygen: %q, %v", keys, err)
	}
	publicName, privateName := write(t, public+"\n"), write(t, private+"\n")
	for _, text := range []string{"", "a line\n", "\x00\xff"} {
		sealed, err := words(text, "seal", publicName)
		if err != nil || strings.Count(sealed, "\n") != 2 {
			t.Fatalf("seal: %q, %v", sealed, err)
		}
		if opened, err := words(sealed, "open", privateName); err != nil || opened != text {
			t.Errorf("open: %q, %v", opened, err)
		}
		for _, bad := range []string{"", sealed + "00\n", strings.TrimRight(sealed, "\n") + "00\n", "xy" + sealed[2:], "00\n00\n"} {
			if opened, err := words(bad, "open", privateName); err == nil || opened != "" {
				t.Errorf("it opens %.20q..", bad)
			}
		}
	}
	for _, bad := range [][]string{{}, {"seal"}, {"open"}, {"keygen", "x"}, {"seal", privateName}, {"open", publicName}, {"seal", "none"}} {
		if out, err := words("", bad...); err == nil || out != "" {
			t.Errorf("it takes %q", bad)
		}
	}
}
