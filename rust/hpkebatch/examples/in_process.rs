//! Times what one process does: a context's seal, a record with a context of its own, and a key.
//! The rows `.. by sys` make the library's calls with nothing between, so that the difference is
//! what this crate adds.
//!
//! usage: cargo run --release --example in_process
//!
//! A line has what was timed, the bytes of its text, and microseconds: of many rounds the best.

use hpkebatch::{for_tests, Aead, Kem, Parameters, PublicKey, Sender, TAG_SIZE};
use hpkebatch_sys as sys;
use std::time::{Duration, Instant};

/// How long each pair of rows is timed.
const TIME: Duration = Duration::from_millis(500);

/// A round has so many calls that the clock's own time isn't seen.
const ROUND: Duration = Duration::from_micros(200);

const SEED: [u8; 32] = [7; 32];

fn main() {
    let key = for_tests::secret_key(Kem::Sntrup761, &SEED, 0).expect("a key of the seed");
    println!("what\tbytes\tmicroseconds");
    for size in [64, 1024, 16384] {
        seals(size);
    }
    records(&key.public_key(), 1024);
    keys();
}

/// Prints a row of this crate's call, and one of the library's own. They take turns, so that both
/// have what else the machine does.
fn rows(what: &str, bytes: usize, mut call: impl FnMut(), mut by_sys: impl FnMut()) {
    let once = Instant::now();
    call();
    let calls = (ROUND.as_nanos() / once.elapsed().as_nanos().max(1)).clamp(1, 1000) as u32;
    let begin = Instant::now();
    let (mut best, mut best_by_sys) = (f64::MAX, f64::MAX);
    while begin.elapsed() < TIME {
        best = best.min(round(calls, &mut call));
        best_by_sys = best_by_sys.min(round(calls, &mut by_sys));
    }
    println!("{what}\t{bytes}\t{best:.2}");
    println!("{what} by sys\t{bytes}\t{best_by_sys:.2}");
}

/// What a call takes in a round of them, in microseconds.
fn round(calls: u32, call: &mut impl FnMut()) -> f64 {
    let begin = Instant::now();
    (0..calls).for_each(|_| call());
    begin.elapsed().as_nanos() as f64 / f64::from(calls) / 1000.0
}

fn parameters() -> Parameters<'static> {
    Parameters {
        aead: Aead::Aes128Gcm,
        ..Parameters::new(b"info")
    }
}

fn seals(size: usize) {
    let text = vec![5; size];
    let (mut out, mut out_by_sys) = (vec![0; size + TAG_SIZE], vec![0; size + TAG_SIZE]);
    let mut sender = Sender::from_shared_secret(1, &SEED, &parameters()).expect("a context");
    let mut context = context_of_shared_secret();
    rows(
        "seal",
        size,
        || sender.seal(b"", &text, &mut out).expect("sealed"),
        || seal_by_sys(&mut context, &text, &mut out_by_sys),
    );
}

fn records(to: &PublicKey, size: usize) {
    let text = vec![5; size];
    let (mut out, mut out_by_sys) = (vec![0; size + TAG_SIZE], vec![0; size + TAG_SIZE]);
    rows(
        "record",
        size,
        || {
            let mut sender = Sender::new(to, &parameters()).expect("a context");
            sender.seal(b"", &text, &mut out).expect("sealed");
        },
        || {
            let mut context = empty();
            set_up_by_sys(&mut context, to);
            seal_by_sys(&mut context, &text, &mut out_by_sys);
        },
    );
}

/// Both make the keys of one seed, so that both draw as often.
fn keys() {
    let (mut public, mut secret) = ([0; 1158], [0; 1763]);
    rows(
        "keygen",
        0,
        || drop(for_tests::secret_key(Kem::Sntrup761, &SEED, 0).expect("a key")),
        || {
            // SAFETY: the arrays have the sizes of the set.
            let status = unsafe {
                sys::hpkebatch_sntrup761_keygen(
                    SEED.as_ptr(),
                    0,
                    public.as_mut_ptr(),
                    secret.as_mut_ptr(),
                )
            };
            assert_eq!(status, sys::HPKEBATCH_DONE);
        },
    );
}

const fn empty() -> sys::hpkebatch_context {
    sys::hpkebatch_context {
        number: 0,
        limit: 0,
        role: 0,
        kem: 0,
        kdf: 0,
        aead: 0,
        base_nonce: [0; 12],
        key: [0; 32],
        exporter_secret: [0; 64],
    }
}

fn context_of_shared_secret() -> sys::hpkebatch_context {
    let mut context = empty();
    let none = b"".as_ptr();
    // SAFETY: each pointer is that of an array, before its length.
    let status = unsafe {
        sys::hpkebatch_context_shared(
            &mut context,
            sys::HPKEBATCH_SENDER,
            sys::HPKEBATCH_BASE,
            1,
            sys::HPKEBATCH_HKDF_SHA256,
            sys::HPKEBATCH_AES_128_GCM,
            u64::MAX,
            SEED.as_ptr(),
            SEED.len(),
            none,
            0,
            none,
            0,
            none,
            0,
        )
    };
    assert_eq!(status, sys::HPKEBATCH_DONE);
    context
}

fn set_up_by_sys(context: &mut sys::hpkebatch_context, to: &PublicKey) {
    let (mut seed, mut enc) = ([0; 32], [0; 1039]);
    let (info, none) = (b"info", b"".as_ptr());
    // SAFETY: each pointer is that of an array of the size that is said, or that the set has.
    let status = unsafe {
        assert_eq!(sys::getrandom(seed.as_mut_ptr().cast(), 32, 0), 32);
        sys::hpkebatch_sntrup761_sender(
            context,
            enc.as_mut_ptr(),
            seed.as_ptr(),
            0,
            to.as_bytes().as_ptr(),
            sys::HPKEBATCH_BASE,
            sys::HPKEBATCH_HKDF_SHA256,
            sys::HPKEBATCH_AES_128_GCM,
            u64::MAX,
            info.as_ptr(),
            info.len(),
            none,
            0,
            none,
            0,
        )
    };
    assert_eq!(status, sys::HPKEBATCH_DONE);
}

fn seal_by_sys(context: &mut sys::hpkebatch_context, text: &[u8], out: &mut [u8]) {
    // SAFETY: each pointer is that of a slice, before its length.
    let status = unsafe {
        sys::hpkebatch_context_seal(
            context,
            b"".as_ptr(),
            0,
            text.as_ptr(),
            text.len(),
            out.as_mut_ptr(),
            out.len(),
        )
    };
    assert_eq!(status, sys::HPKEBATCH_DONE);
}
