//! Runs each line of `tools/cases/in_process.cases`, whose head says what a line means. The second
//! program wrote the answers. `HPKEBATCH_CASES` in the environment names another file.

use hpkebatch::{for_tests, Aead, Error, Kdf, Kem, Parameters, Psk};
use hpkebatch::{PublicKey, Recipient, SecretKey, Sender, TAG_SIZE};
use hpkebatch_sys as sys;
use std::fs::read_to_string;

/// The context that the last line of `sender`, `recipient` or `shared` made.
enum Context {
    None,
    Sender(Box<Sender>),
    Recipient(Recipient),
}

/// Where a message is sealed and opened: into other memory, or where it stands.
#[derive(Clone, Copy)]
enum Way {
    Apart,
    InPlace,
}

/// A line asks for what the types of this crate rule out.
struct RuledOut;

/// What a line gives: the status, and bytes where it is done.
type Answer = Result<(Error, Vec<Vec<u8>>), RuledOut>;

/// The fields of a line, each read once, from the left.
struct Fields<'a>(std::str::Split<'a, char>);

impl<'a> Fields<'a> {
    fn word(&mut self) -> &'a str {
        self.0.next().expect("the line has another field")
    }

    fn number<T: std::str::FromStr>(&mut self) -> T {
        let number = self.word().parse();
        number.unwrap_or_else(|_| panic!("a field is a number"))
    }

    fn bytes(&mut self) -> Vec<u8> {
        match self.word() {
            "-" => Vec::new(),
            hex => bytes_of(hex),
        }
    }

    fn seed(&mut self) -> [u8; 32] {
        self.bytes().try_into().expect("a seed has 32 bytes")
    }

    fn kem(&mut self) -> Kem {
        match self.number::<u16>() {
            63329 => Kem::Sntrup761,
            63575 => Kem::Sntrup857,
            other => panic!("KEM {other}"),
        }
    }
}

fn bytes_of(hex: &str) -> Vec<u8> {
    let byte_at = |at| u8::from_str_radix(&hex[at..at + 2], 16).expect("two digits");
    (0..hex.len()).step_by(2).map(byte_at).collect()
}

fn kdf_of(id: u16) -> Result<Kdf, RuledOut> {
    [Kdf::HkdfSha256, Kdf::HkdfSha384, Kdf::HkdfSha512]
        .into_iter()
        .find(|kdf| kdf.id() == id)
        .ok_or(RuledOut)
}

fn aead_of(id: u16) -> Result<Aead, RuledOut> {
    [Aead::Aes128Gcm, Aead::Aes256Gcm, Aead::ExportOnly]
        .into_iter()
        .find(|aead| aead.id() == id)
        .ok_or(RuledOut)
}

/// The fields that `sender`, `recipient` and `shared` share.
struct SetUp {
    mode: u16,
    kdf: u16,
    aead: u16,
    limit: u64,
    info: Vec<u8>,
    psk: Vec<u8>,
    psk_id: Vec<u8>,
}

impl SetUp {
    fn suite(fields: &mut Fields<'_>) -> Self {
        Self {
            mode: fields.number(),
            kdf: fields.number(),
            aead: fields.number(),
            limit: fields.number(),
            info: Vec::new(),
            psk: Vec::new(),
            psk_id: Vec::new(),
        }
    }

    fn texts(mut self, fields: &mut Fields<'_>) -> Self {
        self.info = fields.bytes();
        self.psk = fields.bytes();
        self.psk_id = fields.bytes();
        self
    }

    fn parameters(&self) -> Result<Parameters<'_>, RuledOut> {
        let (secret, id) = (&self.psk[..], &self.psk_id[..]);
        let psk = match self.mode {
            0 if secret.is_empty() && id.is_empty() => None,
            1 => Some(Psk { secret, id }),
            _ => return Err(RuledOut),
        };
        Ok(Parameters {
            kdf: kdf_of(self.kdf)?,
            aead: aead_of(self.aead)?,
            limit: self.limit,
            info: &self.info,
            psk,
        })
    }
}

/// The status of a result, and the bytes that go with it.
fn answer<T>(result: Result<T, Error>, bytes: impl FnOnce(T) -> Vec<Vec<u8>>) -> Answer {
    Ok(match result {
        Ok(value) => (Error::Unknown(0), bytes(value)),
        Err(error) => (error, Vec::new()),
    })
}

fn keygen(fields: &mut Fields<'_>) -> Answer {
    let (kem, seed, stream) = (fields.kem(), fields.seed(), fields.number());
    answer(for_tests::secret_key(kem, &seed, stream), |key| {
        vec![
            key.public_key().as_bytes().to_vec(),
            key.as_bytes().to_vec(),
        ]
    })
}

fn sender(fields: &mut Fields<'_>, context: &mut Context) -> Answer {
    let (kem, seed, stream) = (fields.kem(), fields.seed(), fields.number());
    let to = PublicKey::from_bytes(kem, &fields.bytes()).expect("a public key");
    let set_up = SetUp::suite(fields).texts(fields);
    let made = for_tests::sender(&to, &seed, stream, &set_up.parameters()?);
    answer(made, |sender| {
        let enc = sender.enc().to_vec();
        *context = Context::Sender(sender.into());
        vec![enc]
    })
}

fn recipient(fields: &mut Fields<'_>, context: &mut Context) -> Answer {
    let (kem, enc) = (fields.kem(), fields.bytes());
    let key = SecretKey::from_bytes(kem, &fields.bytes()).expect("a secret key");
    let set_up = SetUp::suite(fields).texts(fields);
    answer(Recipient::new(&key, &enc, &set_up.parameters()?), |made| {
        *context = Context::Recipient(made);
        vec![]
    })
}

fn shared(fields: &mut Fields<'_>, context: &mut Context) -> Answer {
    let (role, kem) = (fields.number::<u16>(), fields.number());
    let set_up = SetUp::suite(fields);
    let secret = fields.bytes();
    let set_up = set_up.texts(fields);
    let parameters = set_up.parameters()?;
    let made = match role {
        0 => Sender::from_shared_secret(kem, &secret, &parameters)
            .map(|it| Context::Sender(it.into())),
        1 => Recipient::from_shared_secret(kem, &secret, &parameters).map(Context::Recipient),
        _ => return Err(RuledOut),
    };
    answer(made, |made| {
        *context = made;
        vec![]
    })
}

/// A call that writes to `out`, and nothing where it isn't done.
fn written(size: usize, call: impl FnOnce(&mut [u8]) -> Result<(), Error>) -> Answer {
    let mut out = vec![0xaa; size];
    let result = call(&mut out);
    assert!(result.is_ok() || out.iter().all(|byte| *byte == 0xaa));
    answer(result, |()| vec![out])
}

/// A call that writes where it reads, and nothing where it isn't done.
fn written_in_place(
    mut buffer: Vec<u8>,
    call: impl FnOnce(&mut [u8]) -> Result<(), Error>,
) -> Answer {
    let before = buffer.clone();
    let result = call(&mut buffer);
    assert!(result.is_ok() || buffer == before);
    answer(result, |()| vec![buffer])
}

fn seal(fields: &mut Fields<'_>, context: &mut Context, way: Way) -> Answer {
    let (aad, text) = (fields.bytes(), fields.bytes());
    let Context::Sender(sender) = context else {
        return Err(RuledOut);
    };
    let number = sender.number();
    let (error, out) = match way {
        Way::Apart => written(text.len() + TAG_SIZE, |out| sender.seal(&aad, &text, out)),
        Way::InPlace => {
            let buffer = [&text[..], &[0xaa; TAG_SIZE]].concat();
            written_in_place(buffer, |buffer| sender.seal_in_place(&aad, buffer))
        }
    }?;
    assert_eq!(sender.number() - number, out.len() as u64);
    Ok((error, out))
}

fn open(fields: &mut Fields<'_>, context: &mut Context, way: Way) -> Answer {
    let (aad, ct) = (fields.bytes(), fields.bytes());
    let Context::Recipient(recipient) = context else {
        return Err(RuledOut);
    };
    let number = recipient.number();
    let size = ct.len().saturating_sub(TAG_SIZE);
    let (error, out) = match way {
        Way::Apart => written(size, |out| recipient.open(&aad, &ct, out)),
        Way::InPlace => {
            let mut buffer = ct.clone();
            let opened = recipient.open_in_place(&aad, &mut buffer);
            let opened = opened.map(|text| text.to_vec());
            assert_eq!(buffer[size..], ct[size..], "the tag stays");
            assert!(opened.is_ok() || buffer == ct);
            answer(opened, |text| vec![text])
        }
    }?;
    assert_eq!(recipient.number() - number, out.len() as u64);
    Ok((error, out))
}

fn export(fields: &mut Fields<'_>, context: &mut Context) -> Answer {
    let (exporter_context, size) = (fields.bytes(), fields.number());
    written(size, |out| match context {
        Context::None => panic!("no context to export from"),
        Context::Sender(sender) => sender.export(&exporter_context, out),
        Context::Recipient(recipient) => recipient.export(&exporter_context, out),
    })
}

fn run(fields: &mut Fields<'_>, context: &mut Context, way: Way) -> Answer {
    let word = fields.word();
    if ["sender", "recipient", "shared"].contains(&word) {
        *context = Context::None;
    }
    match word {
        "keygen" => keygen(fields),
        "sender" => sender(fields, context),
        "recipient" => recipient(fields, context),
        "shared" => shared(fields, context),
        "seal" => seal(fields, context, way),
        "open" => open(fields, context, way),
        "export" => export(fields, context),
        other => panic!("no line begins with {other}"),
    }
}

fn status_of(word: &str) -> u32 {
    match word {
        "done" => sys::HPKEBATCH_DONE,
        "wrong_usage" => sys::HPKEBATCH_WRONG_USAGE,
        "role" => sys::HPKEBATCH_ROLE,
        "nocipher" => sys::HPKEBATCH_NOCIPHER,
        "limit" => sys::HPKEBATCH_LIMIT,
        "failed" => sys::HPKEBATCH_FAILED,
        "exportsize" => sys::HPKEBATCH_EXPORTSIZE,
        "exhausted" => sys::HPKEBATCH_EXHAUSTED,
        "noinverse" => sys::HPKEBATCH_NOINVERSE,
        "form" => sys::HPKEBATCH_FORM,
        "pskpair" => sys::HPKEBATCH_PSKPAIR,
        "pskextra" => sys::HPKEBATCH_PSKEXTRA,
        "pskmissing" => sys::HPKEBATCH_PSKMISSING,
        other => panic!("no status is called {other}"),
    }
}

/// Runs a line, and holds what it gives to what the line says. Whether it could be asked for at
/// all.
fn holds(line: &str, context: &mut Context, way: Way) -> bool {
    let mut fields = Fields(line.split(' '));
    match run(&mut fields, context, way) {
        Ok((error, mut given)) => {
            assert_eq!(error.status(), status_of(fields.word()), "the status");
            given.resize(fields.0.clone().count(), Vec::new()); // `-` where it isn't done
            let wanted: Vec<Vec<u8>> = given.iter().map(|_| fields.bytes()).collect();
            assert!(given == wanted, "other bytes");
            true
        }
        Err(RuledOut) => {
            // What types rule out, the library refuses: a role, psk inputs that don't go with the
            // mode, and numbers that name nothing.
            let refused = ["role", "pskextra", "pskpair", "wrong_usage"];
            assert!(fields.0.any(|word| refused.contains(&word)));
            false
        }
    }
}

#[test]
fn each_case_has_the_answer_of_the_second_program() {
    each_case_holds(Way::Apart);
}

#[test]
fn each_case_has_that_answer_in_place() {
    each_case_holds(Way::InPlace);
}

fn each_case_holds(way: Way) {
    let file = concat!(
        env!("CARGO_MANIFEST_DIR"),
        "/../../tools/cases/in_process.cases"
    );
    let file = std::env::var("HPKEBATCH_CASES").unwrap_or(file.to_string());
    let cases = read_to_string(&file).unwrap_or_else(|why| panic!("{file}: {why}"));
    let mut context = Context::None;
    let (mut asked, mut ruled_out) = (0, 0);
    for (number, line) in cases.lines().enumerate() {
        if line.is_empty() || line.starts_with('#') {
            continue;
        }
        println!("line {}: {}", number + 1, &line[..line.len().min(70)]);
        match holds(line, &mut context, way) {
            true => asked += 1,
            false => ruled_out += 1,
        }
    }
    println!("{asked} lines, and {ruled_out} that the types rule out");
    assert!(asked >= 250 && ruled_out < asked / 10);
}
