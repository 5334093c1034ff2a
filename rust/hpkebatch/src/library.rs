//! The calls of the library, over this crate's types. All of its unsafe code stands here.
//!
//! What the header leaves to C (`hpkebatch.h`) holds by types:
//! - A pointer is that of a reference: never null, and valid for as many bytes as are said. That of
//!   an empty slice points to no byte, and no byte is read or written there.
//! - What is written is lent by `&mut`, so it overlaps nothing else that the call is lent.
//! - One call at a time has a context: it is lent by `&mut`, or by `&` of a type that isn't `Sync`.
//! - A Rust program has one malloc. A signal handler and a forked child may call what is safe for
//!   them alone: a duty of those who make one, by an unsafe call.
//!
//! The processor and the stack are the user's to see to, and the crate's first page names both.
#![allow(unsafe_code)]

use crate::error::Error;
use crate::keys::{PublicKey, SecretKey};
use crate::suites::{Kem, Parameters, MOST_ENC, MOST_PUBLIC, MOST_SECRET};
use core::cell::Cell;
use core::marker::PhantomData;
use core::mem::size_of;
use core::ptr::write_volatile;
use core::sync::atomic::{compiler_fence, Ordering};
use hpkebatch_sys as sys;

/// Interrupted by a signal: the value of errno on Linux.
const EINTR: i32 = 4;

/// Writes zero bytes, in a way that the compiler keeps.
pub(crate) fn wipe(bytes: &mut [u8]) {
    for byte in bytes {
        // SAFETY: `byte` is a reference.
        unsafe { write_volatile(byte, 0) };
    }
    compiler_fence(Ordering::SeqCst);
}

/// Fills it with random bytes of the system (getrandom(2)).
pub(crate) fn fill_random(bytes: &mut [u8]) -> Result<(), Error> {
    let mut filled = 0;
    while filled < bytes.len() {
        let rest = &mut bytes[filled..];
        // SAFETY: `rest` may be written for its length.
        let count = unsafe { sys::getrandom(rest.as_mut_ptr().cast(), rest.len(), 0) };
        // SAFETY: glibc's errno of this thread, which may be read at any time.
        let errno = || unsafe { *sys::__errno_location() };
        match usize::try_from(count) {
            Ok(count) => filled += count,
            Err(_) if errno() == EINTR => {}
            Err(_) => return Err(Error::NoRandom),
        }
    }
    Ok(())
}

/// Where random words come from (RFC 9180 leaves that open): ChaCha20 with this key and nonce.
pub(crate) struct Seed<'a> {
    pub(crate) bytes: &'a [u8; sys::HPKEBATCH_SEED_SIZE],
    pub(crate) stream: u64,
}

/// Writes a pair of keys, each to the front of its array.
pub(crate) fn keygen(
    kem: Kem,
    seed: &Seed<'_>,
    public: &mut [u8; MOST_PUBLIC],
    secret: &mut [u8; MOST_SECRET],
) -> Result<(), Error> {
    let call = match kem {
        Kem::Sntrup761 => sys::hpkebatch_sntrup761_keygen,
        Kem::Sntrup857 => sys::hpkebatch_sntrup857_keygen,
    };
    // SAFETY: a seed has 32 bytes; the arrays have the sizes of the larger set.
    Error::check(unsafe {
        call(
            seed.bytes.as_ptr(),
            seed.stream,
            public.as_mut_ptr(),
            secret.as_mut_ptr(),
        )
    })
}

/// One end's context. Dropped, it is zeroed.
pub(crate) struct Context {
    held: sys::hpkebatch_context,
    /// The header gives a context to one call at a time, so this isn't `Sync`.
    one_call_at_a_time: PhantomData<Cell<()>>,
}

impl Context {
    /// One that isn't set up: each call on it answers [`Error::WrongUsage`].
    pub(crate) const fn empty() -> Self {
        Self {
            held: sys::hpkebatch_context {
                number: 0,
                limit: 0,
                role: sys::HPKEBATCH_SENDER,
                kem: 0,
                kdf: 0,
                aead: 0,
                base_nonce: [0; 12],
                key: [0; 32],
                exporter_secret: [0; 64],
            },
            one_call_at_a_time: PhantomData,
        }
    }

    pub(crate) const fn number(&self) -> u64 {
        self.held.number
    }

    /// Sets it up for a shared secret (RFC 9180, 5.1, KeySchedule).
    pub(crate) fn set_up_shared(
        &mut self,
        role: u16,
        kem: u16,
        shared_secret: &[u8],
        parameters: &Parameters<'_>,
    ) -> Result<(), Error> {
        let (psk, psk_id) = parameters.psk_inputs();
        // SAFETY: each pointer is that of a slice, before its length.
        Error::check(unsafe {
            sys::hpkebatch_context_shared(
                &mut self.held,
                role,
                parameters.mode(),
                kem,
                parameters.kdf.id(),
                parameters.aead.id(),
                parameters.limit,
                shared_secret.as_ptr(),
                shared_secret.len(),
                parameters.info.as_ptr(),
                parameters.info.len(),
                psk.as_ptr(),
                psk.len(),
                psk_id.as_ptr(),
                psk_id.len(),
            )
        })
    }

    /// Sets a sender's up, and writes its encapsulation to the front of `enc`.
    pub(crate) fn set_up_sender(
        &mut self,
        to: &PublicKey,
        enc: &mut [u8; MOST_ENC],
        seed: &Seed<'_>,
        parameters: &Parameters<'_>,
    ) -> Result<(), Error> {
        let call = match to.kem() {
            Kem::Sntrup761 => sys::hpkebatch_sntrup761_sender,
            Kem::Sntrup857 => sys::hpkebatch_sntrup857_sender,
        };
        let (psk, psk_id) = parameters.psk_inputs();
        // SAFETY: a seed has 32 bytes, `enc` the size of the larger set, and the public key that of
        // its own; each other pointer is that of a slice, before its length.
        Error::check(unsafe {
            call(
                &mut self.held,
                enc.as_mut_ptr(),
                seed.bytes.as_ptr(),
                seed.stream,
                to.as_bytes().as_ptr(),
                parameters.mode(),
                parameters.kdf.id(),
                parameters.aead.id(),
                parameters.limit,
                parameters.info.as_ptr(),
                parameters.info.len(),
                psk.as_ptr(),
                psk.len(),
                psk_id.as_ptr(),
                psk_id.len(),
            )
        })
    }

    /// Sets a recipient's up.
    pub(crate) fn set_up_recipient(
        &mut self,
        key: &SecretKey,
        enc: &[u8],
        parameters: &Parameters<'_>,
    ) -> Result<(), Error> {
        if enc.len() != key.kem().enc_size() {
            return Err(Error::WrongUsage);
        }
        let call = match key.kem() {
            Kem::Sntrup761 => sys::hpkebatch_sntrup761_recipient,
            Kem::Sntrup857 => sys::hpkebatch_sntrup857_recipient,
        };
        let (psk, psk_id) = parameters.psk_inputs();
        // SAFETY: `enc` and the secret key have the sizes of their set; each other pointer is that
        // of a slice, before its length.
        Error::check(unsafe {
            call(
                &mut self.held,
                enc.as_ptr(),
                key.as_bytes().as_ptr(),
                parameters.mode(),
                parameters.kdf.id(),
                parameters.aead.id(),
                parameters.limit,
                parameters.info.as_ptr(),
                parameters.info.len(),
                psk.as_ptr(),
                psk.len(),
                psk_id.as_ptr(),
                psk_id.len(),
            )
        })
    }

    /// ContextS.Seal (RFC 9180, 5.2).
    pub(crate) fn seal(&mut self, aad: &[u8], text: &[u8], out: &mut [u8]) -> Result<(), Error> {
        // SAFETY: each pointer is that of a slice, before its length.
        Error::check(unsafe {
            sys::hpkebatch_context_seal(
                &mut self.held,
                aad.as_ptr(),
                aad.len(),
                text.as_ptr(),
                text.len(),
                out.as_mut_ptr(),
                out.len(),
            )
        })
    }

    /// ContextR.Open (RFC 9180, 5.2).
    pub(crate) fn open(&mut self, aad: &[u8], ct: &[u8], out: &mut [u8]) -> Result<(), Error> {
        // SAFETY: each pointer is that of a slice, before its length.
        Error::check(unsafe {
            sys::hpkebatch_context_open(
                &mut self.held,
                aad.as_ptr(),
                aad.len(),
                ct.as_ptr(),
                ct.len(),
                out.as_mut_ptr(),
                out.len(),
            )
        })
    }

    /// ContextS.Seal (RFC 9180, 5.2), in place.
    pub(crate) fn seal_in_place(&mut self, aad: &[u8], buffer: &mut [u8]) -> Result<(), Error> {
        // SAFETY: each pointer is that of a slice, before its length.
        Error::check(unsafe {
            sys::hpkebatch_context_seal_in_place(
                &mut self.held,
                aad.as_ptr(),
                aad.len(),
                buffer.as_mut_ptr(),
                buffer.len(),
            )
        })
    }

    /// ContextR.Open (RFC 9180, 5.2), in place.
    pub(crate) fn open_in_place(&mut self, aad: &[u8], buffer: &mut [u8]) -> Result<(), Error> {
        // SAFETY: each pointer is that of a slice, before its length.
        Error::check(unsafe {
            sys::hpkebatch_context_open_in_place(
                &mut self.held,
                aad.as_ptr(),
                aad.len(),
                buffer.as_mut_ptr(),
                buffer.len(),
            )
        })
    }

    /// Context.Export (RFC 9180, 5.3).
    pub(crate) fn export(&self, exporter_context: &[u8], out: &mut [u8]) -> Result<(), Error> {
        // SAFETY: each pointer is that of a slice, before its length.
        Error::check(unsafe {
            sys::hpkebatch_context_export(
                &self.held,
                exporter_context.as_ptr(),
                exporter_context.len(),
                out.as_mut_ptr(),
                out.len(),
            )
        })
    }
}

impl Drop for Context {
    fn drop(&mut self) {
        let start: *mut u8 = (&raw mut self.held).cast();
        for place in 0..size_of::<sys::hpkebatch_context>() {
            // SAFETY: a byte of `self.held`, whose fields are numbers and arrays of numbers.
            unsafe { write_volatile(start.add(place), 0) };
        }
        compiler_fence(Ordering::SeqCst);
    }
}

#[cfg(test)]
pub(crate) mod tests {
    use super::*;
    use crate::suites::Kdf;
    use core::mem::{offset_of, MaybeUninit};
    use core::ptr::drop_in_place;

    /// The bytes from `offset` on in the memory of a value, before it is dropped and behind that.
    /// They belong to fields, and the drop leaves them be or writes them.
    pub(crate) fn around_a_drop<T, const SIZE: usize>(
        value: T,
        offset: usize,
    ) -> ([u8; SIZE], [u8; SIZE]) {
        assert!(offset + SIZE <= size_of::<T>());
        let mut place = MaybeUninit::new(value);
        let start: *mut u8 = place.as_mut_ptr().cast();
        // SAFETY: these bytes of `place` were written, as those of fields.
        let before = unsafe { start.add(offset).cast::<[u8; SIZE]>().read() };
        // SAFETY: `place` has a value, which nobody uses behind this.
        unsafe { drop_in_place(place.as_mut_ptr()) };
        // SAFETY: as before: a drop takes no memory away.
        let behind = unsafe { start.add(offset).cast::<[u8; SIZE]>().read() };
        (before, behind)
    }

    fn context_of_shared_secret() -> Context {
        let mut context = Context::empty();
        let parameters = Parameters {
            kdf: Kdf::HkdfSha512,
            ..Parameters::new(b"info")
        };
        context
            .set_up_shared(sys::HPKEBATCH_SENDER, 63329, &[7; 32], &parameters)
            .unwrap();
        context
    }

    #[test]
    fn a_context_is_zeroed_where_it_is_dropped() {
        let held = offset_of!(Context, held);
        let context = context_of_shared_secret();
        let (before, behind) = around_a_drop::<_, FILLED>(context, held);
        let zeros = before.iter().filter(|byte| **byte == 0).count();
        assert!(zeros < 20, "{zeros} bytes of {FILLED} were 0 before");
        assert_eq!(behind, [0; FILLED]);
    }

    /// The bytes of a context up to the padding behind its last field.
    const FILLED: usize = offset_of!(sys::hpkebatch_context, exporter_secret) + 64;

    #[test]
    fn the_ids_of_the_kems_are_those_of_the_library() {
        for kem in [Kem::Sntrup761, Kem::Sntrup857] {
            let public = SecretKey::generate(kem).unwrap().public_key();
            let seed = Seed {
                bytes: &[7; 32],
                stream: 0,
            };
            let mut context = Context::empty();
            context
                .set_up_sender(&public, &mut [0; MOST_ENC], &seed, &Parameters::new(b""))
                .unwrap();
            assert_eq!(context.held.kem, kem.id());
        }
    }

    #[test]
    fn bytes_are_wiped() {
        let mut bytes = [7; 100];
        wipe(&mut bytes[1..99]);
        assert_eq!((bytes[0], bytes[99]), (7, 7));
        assert!(bytes[1..99].iter().all(|byte| *byte == 0));
    }

    #[test]
    fn random_bytes_differ() {
        let (mut one, mut other) = ([0; 1000], [0; 1000]);
        fill_random(&mut one).unwrap();
        fill_random(&mut other).unwrap();
        assert_ne!(one, other);
        let zeros = one.iter().filter(|byte| **byte == 0).count();
        assert!(zeros < 100, "{zeros} of 1,000 random bytes are 0");
    }

    #[test]
    fn one_that_is_not_set_up_serves_nothing() {
        let mut context = Context::empty();
        let mut out = [0; 16];
        assert_eq!(context.seal(b"", b"", &mut out), Err(Error::WrongUsage));
        assert_eq!(context.open(b"", &[0; 16], &mut []), Err(Error::WrongUsage));
        assert_eq!(context.export(b"", &mut out), Err(Error::WrongUsage));
    }
}
