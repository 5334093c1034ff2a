//! Holds the declarations of this crate to `c/hpkebatch.h`: layouts, numbers, and the types of each
//! call.

use hpkebatch_sys::{hpkebatch_asked, hpkebatch_bytes, hpkebatch_context};
use std::mem::{align_of, offset_of, size_of};

const HEADER: &str = include_str!("../c/hpkebatch.h");
const CALLS: &str = include_str!("../src/lib.rs");
const NUMBERS: &str = include_str!("../src/numbers.rs");

#[test]
fn a_context_is_laid_out_as_the_library_has_it() {
    assert_eq!(size_of::<hpkebatch_context>(), 136);
    assert_eq!(align_of::<hpkebatch_context>(), 8);
    assert_eq!(offset_of!(hpkebatch_context, number), 0);
    assert_eq!(offset_of!(hpkebatch_context, limit), 8);
    assert_eq!(offset_of!(hpkebatch_context, role), 16);
    assert_eq!(offset_of!(hpkebatch_context, kem), 18);
    assert_eq!(offset_of!(hpkebatch_context, kdf), 20);
    assert_eq!(offset_of!(hpkebatch_context, aead), 22);
    assert_eq!(offset_of!(hpkebatch_context, base_nonce), 24);
    assert_eq!(offset_of!(hpkebatch_context, key), 36);
    assert_eq!(offset_of!(hpkebatch_context, exporter_secret), 68);
}

#[test]
fn what_a_client_keeps_is_laid_out_as_the_library_has_it() {
    assert_eq!(size_of::<hpkebatch_asked>(), 1224);
    assert_eq!(align_of::<hpkebatch_asked>(), 2);
    assert_eq!(offset_of!(hpkebatch_asked, key_id), 0);
    assert_eq!(offset_of!(hpkebatch_asked, kem), 2);
    assert_eq!(offset_of!(hpkebatch_asked, kdf), 4);
    assert_eq!(offset_of!(hpkebatch_asked, aead), 6);
    assert_eq!(offset_of!(hpkebatch_asked, shared_secret), 8);
    assert_eq!(offset_of!(hpkebatch_asked, enc), 40);
}

#[test]
fn a_byte_string_is_laid_out_as_the_library_has_it() {
    assert_eq!(size_of::<hpkebatch_bytes>(), 16);
    assert_eq!(offset_of!(hpkebatch_bytes, at), 0);
    assert_eq!(offset_of!(hpkebatch_bytes, size), 8);
}

/// The words and signs of a text.
fn tokens(text: &str) -> Vec<String> {
    let mut tokens = Vec::new();
    let mut word = String::new();
    for sign in text.chars().chain(" ".chars()) {
        if sign.is_alphanumeric() || sign == '_' {
            word.push(sign);
            continue;
        }
        if !word.is_empty() {
            tokens.push(std::mem::take(&mut word));
        }
        if !sign.is_whitespace() {
            tokens.push(sign.to_string());
        }
    }
    tokens
}

/// A parameter of the header as Rust has it, its name first. An array is a pointer, as in C.
fn parameter(text: &str) -> String {
    let tokens = tokens(text);
    let is_pointer = tokens.iter().any(|token| token == "*" || token == "[");
    let words: Vec<&String> = tokens
        .iter()
        .take_while(|token| *token != "[")
        .filter(|token| *token != "*")
        .collect();
    let (words, is_const) = match words.split_first() {
        Some((first, rest)) if *first == "const" => (rest, true),
        _ => (&words[..], false),
    };
    let [kind, name] = words else {
        panic!("a parameter of the header has other words: {text}");
    };
    let kind = match kind.as_str() {
        "uint8_t" => "u8",
        "uint16_t" => "u16",
        "uint32_t" => "u32",
        "uint64_t" => "u64",
        "size_t" => "usize",
        other => other,
    };
    match (is_pointer, is_const) {
        (false, _) => format!("{name}: {kind}"),
        (true, true) => format!("{name}: *const {kind}"),
        (true, false) => format!("{name}: *mut {kind}"),
    }
}

/// A call: its name, its parameters as Rust has them, and what it gives.
#[derive(Debug, PartialEq)]
struct Call {
    name: String,
    parameters: Vec<String>,
    gives: String,
}

/// The calls of the header: lines that begin with what they give, and end as a declaration does.
fn calls_of_the_header() -> Vec<Call> {
    let kinds = [("\nuint32_t ", "u32"), ("\nconst char *", "*const c_char")];
    let calls = kinds.into_iter().flat_map(|(before, gives)| {
        let declarations = HEADER.split(before).skip(1);
        declarations.filter_map(move |declaration| {
            let (name, rest) = declaration.split_once('(')?;
            let (parameters, _) = rest.split_once(");")?;
            let parameters = parameters.split(',').filter(|it| *it != "void");
            Some(Call {
                name: name.to_string(),
                parameters: parameters.map(parameter).collect(),
                gives: gives.to_string(),
            })
        })
    });
    calls.collect()
}

fn calls_of_this_crate() -> Vec<Call> {
    let declarations = CALLS.split("pub fn ").skip(1);
    let calls = declarations.filter_map(|declaration| {
        let (declaration, _) = declaration.split_once(';')?;
        let (name, rest) = declaration.split_once('(')?;
        let (parameters, gives) = rest.split_once(") -> ")?;
        let parameters = parameters.split(',').map(str::trim);
        let parameters = parameters.filter(|it| !it.is_empty());
        Some(Call {
            name: name.to_string(),
            parameters: parameters.map(str::to_string).collect(),
            gives: gives.to_string(),
        })
    });
    calls
        .filter(|call| call.name.starts_with("hpkebatch_"))
        .collect()
}

#[test]
fn each_call_has_the_types_of_the_header() {
    let header = calls_of_the_header();
    let calls = calls_of_this_crate();
    assert!(calls.len() >= 30, "only {} calls are declared", calls.len());
    for call in &calls {
        let found = header.iter().find(|other| other.name == call.name);
        let wanted = found.unwrap_or_else(|| panic!("the header has no {}", call.name));
        assert_eq!(call, wanted);
    }
}

#[test]
fn each_number_is_that_of_the_header() {
    let constants = NUMBERS
        .lines()
        .filter_map(|line| line.strip_prefix("pub const "));
    let constants: Vec<&str> = constants.collect();
    assert!(constants.len() >= 46, "only {} numbers", constants.len());
    let header = tokens(HEADER);
    for constant in constants {
        let (name, rest) = constant.split_once(": ").expect("a constant has a type");
        let (_, value) = rest.split_once(" = ").expect("a constant has a value");
        let value = value.trim_end_matches(';');
        let values = header
            .windows(3)
            .filter(|words| words[0] == name)
            .filter_map(|words| words[1..].iter().find(|word| *word != "="))
            .filter(|word| word.starts_with(|first: char| first.is_ascii_digit()));
        let values: Vec<&String> = values.collect();
        assert!(
            !values.is_empty() && values.iter().all(|it| *it == value),
            "{name}: {value}, {values:?}"
        );
    }
}
