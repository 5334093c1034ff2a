//! Seals to a public key, and opens with the secret one. Keys, encapsulation and ciphertext are
//! hex.
//!
//! usage: pair keygen | pair seal PUBLIC_HEX_FILE | pair open SECRET_HEX_FILE
//!
//! `keygen` prints two lines: the public key and the secret one. `seal` reads a text, and prints
//! two lines: the encapsulation and the ciphertext. `open` reads those, and writes the text.

use hpkebatch::{Aead, Kem, Parameters, PublicKey, Recipient, SecretKey, Sender};
use std::error::Error;
use std::io::{stdin, stdout, Read, Write};
use std::process::exit;

const KEM: Kem = Kem::Sntrup761;

type Done<T> = Result<T, Box<dyn Error>>;

fn main() {
    let words: Vec<String> = std::env::args().skip(1).collect();
    let words: Vec<&str> = words.iter().map(String::as_str).collect();
    let done = match words[..] {
        ["keygen"] => keygen(),
        ["seal", file] => seal(file),
        ["open", file] => open(file),
        _ => {
            Err("usage: pair keygen | pair seal PUBLIC_HEX_FILE | pair open SECRET_HEX_FILE".into())
        }
    };
    if let Err(error) = done {
        eprintln!("pair: {error}");
        exit(1);
    }
}

fn parameters() -> Parameters<'static> {
    Parameters {
        aead: Aead::Aes128Gcm,
        ..Parameters::new(b"pair")
    }
}

fn keygen() -> Done<()> {
    let key = SecretKey::generate(KEM)?;
    print_lines(key.public_key().as_bytes(), key.as_bytes())
}

fn seal(file: &str) -> Done<()> {
    let to = PublicKey::from_bytes(KEM, &bytes_in(file)?)?;
    let mut text = Vec::new();
    stdin().read_to_end(&mut text)?;
    let mut sender = Sender::new(&to, &parameters())?;
    let sealed = sender.seal_to_vec(b"", &text)?;
    print_lines(sender.enc(), &sealed)
}

fn open(file: &str) -> Done<()> {
    let key = SecretKey::from_bytes(KEM, &bytes_in(file)?)?;
    let mut lines = String::new();
    stdin().read_to_string(&mut lines)?;
    let (enc, sealed) = lines.split_once('\n').ok_or("two lines are needed")?;
    let mut recipient = Recipient::new(&key, &bytes_of(enc)?, &parameters())?;
    let text = recipient.open_to_vec(b"", &bytes_of(sealed)?)?;
    stdout().write_all(&text)?;
    Ok(())
}

fn print_lines(one: &[u8], other: &[u8]) -> Done<()> {
    writeln!(stdout(), "{}\n{}", hex_of(one), hex_of(other))?;
    Ok(())
}

fn hex_of(bytes: &[u8]) -> String {
    bytes.iter().map(|byte| format!("{byte:02x}")).collect()
}

fn bytes_in(file: &str) -> Done<Vec<u8>> {
    let hex = std::fs::read_to_string(file).map_err(|why| format!("{file}: {why}"))?;
    bytes_of(&hex)
}

fn bytes_of(hex: &str) -> Done<Vec<u8>> {
    let digit = |sign: u8| char::from(sign).to_digit(16);
    let byte = |two: &[u8]| Some((digit(two[0])? * 16 + digit(*two.get(1)?)?) as u8);
    let bytes: Option<Vec<u8>> = hex.trim_end().as_bytes().chunks(2).map(byte).collect();
    Ok(bytes.ok_or("these aren't the hex digits of bytes")?)
}
