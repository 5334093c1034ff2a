// Command pair makes a key, seals standard input to it, and opens it again:
//
//	pair keygen                two lines: the public and the private key, in hex
//	pair seal PUBLIC_HEX_FILE  two lines: the encapsulation and the ciphertext, in hex
//	pair open SECRET_HEX_FILE  those two lines on standard input: the text
//
// In other languages the repository has the same program, and each opens what the others seal.
package main

import (
	"bytes"
	"encoding/hex"
	"errors"
	"fmt"
	"io"
	"os"

	"hpkebatch"
)

var (
	kem  = hpkebatch.SNTRUP761()
	kdf  = hpkebatch.HKDFSHA256()
	aead = hpkebatch.AES128GCM()
	info = []byte("pair")
)

func main() {
	if err := run(os.Args[1:], os.Stdin, os.Stdout); err != nil {
		fmt.Fprintf(os.Stderr, "pair: %v\n", err)
		os.Exit(1)
	}
}

func run(words []string, in io.Reader, out io.Writer) error {
	switch {
	case len(words) == 1 && words[0] == "keygen":
		return keygen(out)
	case len(words) == 2 && words[0] == "seal":
		return seal(words[1], in, out)
	case len(words) == 2 && words[0] == "open":
		return open(words[1], in, out)
	}
	return errors.New("usage: pair keygen | seal PUBLIC_HEX_FILE | open SECRET_HEX_FILE")
}

func keygen(out io.Writer) error {
	key, err := kem.GenerateKey()
	if err != nil {
		return err
	}
	defer key.Close()
	private, err := key.Bytes()
	if err != nil {
		return err
	}
	_, err = fmt.Fprintf(out, "%x\n%x\n", key.PublicKey().Bytes(), private)
	return err
}

func seal(name string, in io.Reader, out io.Writer) error {
	public, err := linesOf(name, 1)
	if err != nil {
		return err
	}
	key, err := kem.NewPublicKey(public[0])
	if err != nil {
		return err
	}
	text, err := io.ReadAll(in)
	if err != nil {
		return err
	}
	enc, sender, err := hpkebatch.NewSender(key, kdf, aead, info)
	if err != nil {
		return err
	}
	defer sender.Close()
	ciphertext, err := sender.Seal(nil, text)
	if err != nil {
		return err
	}
	_, err = fmt.Fprintf(out, "%x\n%x\n", enc, ciphertext)
	return err
}

func open(name string, in io.Reader, out io.Writer) error {
	private, err := linesOf(name, 1)
	if err != nil {
		return err
	}
	key, err := kem.NewPrivateKey(private[0])
	if err != nil {
		return err
	}
	defer key.Close()
	sealed, err := readLines(in, 2)
	if err != nil {
		return fmt.Errorf("standard input: %w", err)
	}
	recipient, err := hpkebatch.NewRecipient(sealed[0], key, kdf, aead, info)
	if err != nil {
		return err
	}
	defer recipient.Close()
	text, err := recipient.Open(nil, sealed[1])
	if err != nil {
		return err
	}
	_, err = out.Write(text)
	return err
}

// linesOf reads a file of so many lines in hex.
func linesOf(name string, count int) ([][]byte, error) {
	file, err := os.Open(name)
	if err != nil {
		return nil, err
	}
	defer file.Close()
	lines, err := readLines(file, count)
	if err != nil {
		return nil, fmt.Errorf("%s: %w", name, err)
	}
	return lines, nil
}

func readLines(in io.Reader, count int) ([][]byte, error) {
	text, err := io.ReadAll(in)
	if err != nil {
		return nil, err
	}
	words := bytes.Fields(text)
	if len(words) != count {
		return nil, fmt.Errorf("it has %d lines, and not %d", len(words), count)
	}
	lines := make([][]byte, count)
	for i, word := range words {
		lines[i] = make([]byte, hex.DecodedLen(len(word)))
		if _, err := hex.Decode(lines[i], word); err != nil {
			return nil, err
		}
	}
	return lines, nil
}
