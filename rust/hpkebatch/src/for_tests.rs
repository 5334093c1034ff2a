//! Keys and senders that draw nothing: for tests whose answers are known. Don't seal with them.
//!
//! The random words are those of ChaCha20 with the seed for its key and the stream for its nonce.
//! Who knows both has the key, and reads what the sender seals.

use crate::contexts::Sender;
use crate::error::Error;
use crate::keys::{PublicKey, SecretKey};
use crate::library::Seed;
use crate::suites::{Kem, Parameters};

/// The key of a seed and a stream.
///
/// # Errors
///
/// [`Error::Exhausted`] and [`Error::NoInverse`], where they give none, and [`Error::NoMemory`].
///
/// ```
/// use hpkebatch::{for_tests, Kem};
///
/// let key = for_tests::secret_key(Kem::Sntrup761, &[0; 32], 0)?;
/// assert_eq!(key.public_key().as_bytes()[..4], [0x38, 0xf5, 0x40, 0xa7]);
/// # Ok::<(), hpkebatch::Error>(())
/// ```
pub fn secret_key(kem: Kem, seed: &[u8; 32], stream: u64) -> Result<SecretKey, Error> {
    let bytes = seed;
    SecretKey::of_seed(kem, &Seed { bytes, stream })
}

/// The sender of a seed and a stream, which is set up as [`Sender::new`] says.
///
/// # Errors
///
/// Those of [`Sender::new`], but for [`Error::NoRandom`].
///
/// ```
/// use hpkebatch::{for_tests, Kem, Parameters};
///
/// let bob = for_tests::secret_key(Kem::Sntrup761, &[0; 32], 0)?.public_key();
/// let one = for_tests::sender(&bob, &[0; 32], 1, &Parameters::new(b""))?;
/// let same = for_tests::sender(&bob, &[0; 32], 1, &Parameters::new(b""))?;
/// assert_eq!(one.enc(), same.enc());
/// # Ok::<(), hpkebatch::Error>(())
/// ```
pub fn sender(
    to: &PublicKey,
    seed: &[u8; 32],
    stream: u64,
    parameters: &Parameters<'_>,
) -> Result<Sender, Error> {
    let bytes = seed;
    Sender::of_seed(to, &Seed { bytes, stream }, parameters)
}
