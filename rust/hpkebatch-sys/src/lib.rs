//! The calls of hpkebatch's library for C, as `c/hpkebatch.h` declares them: HPKE (RFC 9180) over
//! Streamlined NTRU Prime.
//!
//! The header says what each call reads and writes, what it answers, and what its caller must see
//! to. The crate `hpkebatch` has safe calls over these. `build.rs` assembles the library from the
//! text that its proved sources compile to.
//!
//! What each call answers is proved of its caller's own bytes, in the language of its sources.
//! These declarations are written by hand: a test holds names, types, sizes and numbers to the
//! header.
//!
//! ```
//! use hpkebatch_sys::*;
//!
//! let (seed, mut public, mut secret) = ([7; HPKEBATCH_SEED_SIZE], [0; 1158], [0; 1763]);
//! // SAFETY: the three have the sizes that the header asks for.
//! let status = unsafe {
//!     hpkebatch_sntrup761_keygen(seed.as_ptr(), 0, public.as_mut_ptr(), secret.as_mut_ptr())
//! };
//! assert_eq!(status, HPKEBATCH_DONE);
//! ```
#![no_std]
#![allow(non_camel_case_types)] // the names are the header's

use core::ffi::{c_char, c_int, c_uint, c_void};

mod numbers;

pub use numbers::*;

/// A context, which its caller holds. Read what you like, and change nothing: a number that is used
/// again for another text gives both texts away. So it is neither `Copy` nor `Clone`.
#[repr(C)]
pub struct hpkebatch_context {
    /// the sequence number that is due
    pub number: u64,
    /// the first number that isn't used
    pub limit: u64,
    /// [`HPKEBATCH_SENDER`] or [`HPKEBATCH_RECIPIENT`]
    pub role: u16,
    /// the id of the KEM (RFC 9180, 7.1)
    pub kem: u16,
    /// the id of the KDF (RFC 9180, 7.2)
    pub kdf: u16,
    /// the id of the AEAD (RFC 9180, 7.3)
    pub aead: u16,
    /// zero bytes where the suite is export-only
    pub base_nonce: [u8; 12],
    /// 16 bytes for AES-128-GCM, and zero bytes behind them
    pub key: [u8; 32],
    /// as many bytes as the KDF's hash has, and zero bytes behind them
    pub exporter_secret: [u8; 64],
}

/// A byte string: where it begins, and its size.
#[repr(C)]
#[derive(Clone, Copy)]
pub struct hpkebatch_bytes {
    /// where it begins
    pub at: *const u8,
    /// its size in bytes
    pub size: usize,
}

/// What a client of Oblivious HTTP keeps of a request, to take its response with. Keep it secret,
/// and change nothing.
#[repr(C)]
pub struct hpkebatch_asked {
    /// by which the gateway finds its key
    pub key_id: u16,
    /// the id of the KEM (RFC 9180, 7.1)
    pub kem: u16,
    /// the id of the KDF (RFC 9180, 7.2)
    pub kdf: u16,
    /// the id of the AEAD (RFC 9180, 7.3)
    pub aead: u16,
    /// what the KEM gave
    pub shared_secret: [u8; 32],
    /// its encapsulation, and zero bytes behind it
    pub enc: [u8; 1184],
}

extern "C" {
    // ---- words, in plain C

    /// The version of the library, as "0.4.0": a text that stays as it is.
    pub fn hpkebatch_version() -> *const c_char;
    /// A sentence on a status, in English: a text that stays as it is. Any number has one.
    pub fn hpkebatch_strerror(status: u32) -> *const c_char;

    // ---- AES-128-GCM and AES-256-GCM (NIST SP 800-38D)

    /// Encrypts by AES-GCM: `out` gets the ciphertext and its tag, `text_len + 16` bytes.
    pub fn hpkebatch_gcm_seal(
        key: *const u8,
        key_len: usize,
        nonce: *const u8,
        aad: *const u8,
        aad_len: usize,
        text: *const u8,
        text_len: usize,
        out: *mut u8,
        out_len: usize,
    ) -> u32;
    /// Decrypts by AES-GCM, if the tag holds: `out` gets the text, `ct_len - 16` bytes.
    pub fn hpkebatch_gcm_open(
        key: *const u8,
        key_len: usize,
        nonce: *const u8,
        aad: *const u8,
        aad_len: usize,
        ct: *const u8,
        ct_len: usize,
        out: *mut u8,
        out_len: usize,
    ) -> u32;

    // ---- the KEM, Streamlined NTRU Prime (round 3)

    /// Makes a pair of keys of sntrup761. `seed` has 32 bytes, the public key 1158, the secret key
    /// 1763.
    pub fn hpkebatch_sntrup761_keygen(
        seed: *const u8,
        stream: u64,
        public_key: *mut u8,
        secret_key: *mut u8,
    ) -> u32;
    /// Makes a pair of keys of sntrup857. `seed` has 32 bytes, the public key 1322, the secret key
    /// 1999.
    pub fn hpkebatch_sntrup857_keygen(
        seed: *const u8,
        stream: u64,
        public_key: *mut u8,
        secret_key: *mut u8,
    ) -> u32;
    /// Encapsulates to a public key of sntrup761: `enc` gets 1039 bytes, `session` 32.
    pub fn hpkebatch_sntrup761_encap(
        seed: *const u8,
        stream: u64,
        public_key: *const u8,
        enc: *mut u8,
        session: *mut u8,
    ) -> u32;
    /// Encapsulates to a public key of sntrup857: `enc` gets 1184 bytes, `session` 32.
    pub fn hpkebatch_sntrup857_encap(
        seed: *const u8,
        stream: u64,
        public_key: *const u8,
        enc: *mut u8,
        session: *mut u8,
    ) -> u32;
    /// The session key of an encapsulation of sntrup761, 32 bytes.
    pub fn hpkebatch_sntrup761_decap(
        enc: *const u8,
        secret_key: *const u8,
        session: *mut u8,
    ) -> u32;
    /// The session key of an encapsulation of sntrup857, 32 bytes.
    pub fn hpkebatch_sntrup857_decap(
        enc: *const u8,
        secret_key: *const u8,
        session: *mut u8,
    ) -> u32;

    // ---- contexts (RFC 9180, 5)

    /// A context of a shared secret that any KEM gave.
    pub fn hpkebatch_context_shared(
        context: *mut hpkebatch_context,
        role: u16,
        mode: u16,
        kem: u16,
        kdf: u16,
        aead: u16,
        limit: u64,
        shared_secret: *const u8,
        shared_secret_len: usize,
        info: *const u8,
        info_len: usize,
        psk: *const u8,
        psk_len: usize,
        psk_id: *const u8,
        psk_id_len: usize,
    ) -> u32;
    /// A sender's context by sntrup761, and its encapsulation of 1039 bytes.
    pub fn hpkebatch_sntrup761_sender(
        context: *mut hpkebatch_context,
        enc: *mut u8,
        seed: *const u8,
        stream: u64,
        public_key: *const u8,
        mode: u16,
        kdf: u16,
        aead: u16,
        limit: u64,
        info: *const u8,
        info_len: usize,
        psk: *const u8,
        psk_len: usize,
        psk_id: *const u8,
        psk_id_len: usize,
    ) -> u32;
    /// A sender's context by sntrup857, and its encapsulation of 1184 bytes.
    pub fn hpkebatch_sntrup857_sender(
        context: *mut hpkebatch_context,
        enc: *mut u8,
        seed: *const u8,
        stream: u64,
        public_key: *const u8,
        mode: u16,
        kdf: u16,
        aead: u16,
        limit: u64,
        info: *const u8,
        info_len: usize,
        psk: *const u8,
        psk_len: usize,
        psk_id: *const u8,
        psk_id_len: usize,
    ) -> u32;
    /// The recipient's context of an encapsulation of sntrup761.
    pub fn hpkebatch_sntrup761_recipient(
        context: *mut hpkebatch_context,
        enc: *const u8,
        secret_key: *const u8,
        mode: u16,
        kdf: u16,
        aead: u16,
        limit: u64,
        info: *const u8,
        info_len: usize,
        psk: *const u8,
        psk_len: usize,
        psk_id: *const u8,
        psk_id_len: usize,
    ) -> u32;
    /// The recipient's context of an encapsulation of sntrup857.
    pub fn hpkebatch_sntrup857_recipient(
        context: *mut hpkebatch_context,
        enc: *const u8,
        secret_key: *const u8,
        mode: u16,
        kdf: u16,
        aead: u16,
        limit: u64,
        info: *const u8,
        info_len: usize,
        psk: *const u8,
        psk_len: usize,
        psk_id: *const u8,
        psk_id_len: usize,
    ) -> u32;
    /// Seals at the number that is due: `out` gets the ciphertext and its tag, `text_len + 16`
    /// bytes.
    pub fn hpkebatch_context_seal(
        context: *mut hpkebatch_context,
        aad: *const u8,
        aad_len: usize,
        text: *const u8,
        text_len: usize,
        out: *mut u8,
        out_len: usize,
    ) -> u32;
    /// Opens at the number that is due, if the tag holds: `out` gets the text, `ct_len - 16` bytes.
    pub fn hpkebatch_context_open(
        context: *mut hpkebatch_context,
        aad: *const u8,
        aad_len: usize,
        ct: *const u8,
        ct_len: usize,
        out: *mut u8,
        out_len: usize,
    ) -> u32;
    /// Seals at the number that is due, in place: `buffer` has a text and 16 bytes behind it, and
    /// gets the ciphertext and its tag.
    pub fn hpkebatch_context_seal_in_place(
        context: *mut hpkebatch_context,
        aad: *const u8,
        aad_len: usize,
        buffer: *mut u8,
        buffer_len: usize,
    ) -> u32;
    /// Opens at the number that is due, in place, if the tag holds: `buffer` has a ciphertext and its
    /// tag, and gets the text in the ciphertext's place.
    pub fn hpkebatch_context_open_in_place(
        context: *mut hpkebatch_context,
        aad: *const u8,
        aad_len: usize,
        buffer: *mut u8,
        buffer_len: usize,
    ) -> u32;
    /// Exports a secret of `out_len` bytes.
    pub fn hpkebatch_context_export(
        context: *const hpkebatch_context,
        exporter_context: *const u8,
        exporter_context_len: usize,
        out: *mut u8,
        out_len: usize,
    ) -> u32;
    /// Seals each text, one behind another: all of them, or none.
    pub fn hpkebatch_context_seal_all(
        context: *mut hpkebatch_context,
        aads: *const hpkebatch_bytes,
        aads_len: usize,
        texts: *const hpkebatch_bytes,
        texts_len: usize,
        out: *mut u8,
        out_len: usize,
    ) -> u32;
    /// Opens each ciphertext, one behind another: all of them, or none.
    pub fn hpkebatch_context_open_all(
        context: *mut hpkebatch_context,
        aads: *const hpkebatch_bytes,
        aads_len: usize,
        cts: *const hpkebatch_bytes,
        cts_len: usize,
        out: *mut u8,
        out_len: usize,
    ) -> u32;

    // ---- Oblivious HTTP (RFC 9458, 4)

    /// A request of Oblivious HTTP by sntrup761, and what its client keeps.
    pub fn hpkebatch_sntrup761_ask(
        asked: *mut hpkebatch_asked,
        seed: *const u8,
        stream: u64,
        public_key: *const u8,
        key_id: u8,
        kdf: u16,
        aead: u16,
        text: *const u8,
        text_len: usize,
        request: *mut u8,
        request_len: usize,
    ) -> u32;
    /// A request of Oblivious HTTP by sntrup857, and what its client keeps.
    pub fn hpkebatch_sntrup857_ask(
        asked: *mut hpkebatch_asked,
        seed: *const u8,
        stream: u64,
        public_key: *const u8,
        key_id: u8,
        kdf: u16,
        aead: u16,
        text: *const u8,
        text_len: usize,
        request: *mut u8,
        request_len: usize,
    ) -> u32;
    /// Reads a request of Oblivious HTTP by sntrup761, and answers it.
    pub fn hpkebatch_sntrup761_answer(
        secret_key: *const u8,
        key_id: u8,
        request: *const u8,
        request_len: usize,
        nonce: *const u8,
        nonce_len: usize,
        text: *const u8,
        text_len: usize,
        question: *mut u8,
        question_len: usize,
        response: *mut u8,
        response_len: usize,
    ) -> u32;
    /// Reads a request of Oblivious HTTP by sntrup857, and answers it.
    pub fn hpkebatch_sntrup857_answer(
        secret_key: *const u8,
        key_id: u8,
        request: *const u8,
        request_len: usize,
        nonce: *const u8,
        nonce_len: usize,
        text: *const u8,
        text_len: usize,
        question: *mut u8,
        question_len: usize,
        response: *mut u8,
        response_len: usize,
    ) -> u32;
    /// Reads the response to a request of Oblivious HTTP.
    pub fn hpkebatch_take(
        asked: *const hpkebatch_asked,
        response: *const u8,
        response_len: usize,
        text: *mut u8,
        text_len: usize,
    ) -> u32;

    // ---- batches and replies of the command

    /// Whether a text is a batch of `run`, and what is wrong with it.
    pub fn hpkebatch_read(
        input: *const u8,
        input_len: usize,
        out: *mut u8,
        out_room: usize,
        out_len: *mut usize,
    ) -> u32;
    /// Whether `run` may give this reply for a batch.
    pub fn hpkebatch_check(
        batch: *const u8,
        batch_len: usize,
        reply: *const u8,
        reply_len: usize,
    ) -> u32;
    /// Does on the calling thread what the command does.
    pub fn hpkebatch_serve(
        words: *const u8,
        words_len: usize,
        input: *const u8,
        input_len: usize,
        out: *mut u8,
        out_room: usize,
        written: *mut usize,
    ) -> u32;
}

// What a binding needs of glibc, so that it needs no other crate: random bytes.
extern "C" {
    /// getrandom(2): fills a buffer with random bytes, answers how many these are, or -1.
    pub fn getrandom(buffer: *mut c_void, size: usize, flags: c_uint) -> isize;
    /// Where `errno` of this thread is.
    pub fn __errno_location() -> *mut c_int;
}
