//! Keys of the KEM.

use crate::error::Error;
use crate::library::{fill_random, keygen, wipe, Seed};
use crate::suites::{Kem, MOST_PUBLIC, MOST_SECRET};
use core::fmt;
use hpkebatch_sys::HPKEBATCH_SEED_SIZE;

/// How often a pair is drawn. One seed in many gives none, so that so many in a row don't come.
const MOST_DRAWS: usize = 100;

/// The bytes of a public key's hash, with which a secret key ends.
const HASH_SIZE: usize = 32;

/// A key to seal to.
///
/// ```
/// use hpkebatch::{Kem, PublicKey, SecretKey};
///
/// let public = SecretKey::generate(Kem::Sntrup761)?.public_key();
/// let received = PublicKey::from_bytes(Kem::Sntrup761, public.as_bytes())?;
/// assert_eq!(received, public);
/// # Ok::<(), hpkebatch::Error>(())
/// ```
#[derive(Clone, PartialEq, Eq, Hash)]
pub struct PublicKey {
    kem: Kem,
    /// The key, and zero bytes behind it.
    bytes: [u8; MOST_PUBLIC],
}

impl PublicKey {
    /// The key with these bytes. Only their number is tested.
    ///
    /// # Errors
    ///
    /// [`Error::WrongUsage`]: they aren't [`Kem::public_size`] many.
    ///
    /// ```
    /// use hpkebatch::{Error, Kem, PublicKey};
    ///
    /// assert_eq!(PublicKey::from_bytes(Kem::Sntrup761, &[0; 1157]), Err(Error::WrongUsage));
    /// ```
    pub fn from_bytes(kem: Kem, bytes: &[u8]) -> Result<Self, Error> {
        if bytes.len() != kem.public_size() {
            return Err(Error::WrongUsage);
        }
        let mut key = Self {
            kem,
            bytes: [0; MOST_PUBLIC],
        };
        key.bytes[..bytes.len()].copy_from_slice(bytes);
        Ok(key)
    }

    /// Its bytes, [`Kem::public_size`] many.
    ///
    /// ```
    /// use hpkebatch::{Kem, SecretKey};
    ///
    /// let public = SecretKey::generate(Kem::Sntrup857)?.public_key();
    /// assert_eq!(public.as_bytes().len(), 1322);
    /// # Ok::<(), hpkebatch::Error>(())
    /// ```
    #[must_use]
    pub fn as_bytes(&self) -> &[u8] {
        &self.bytes[..self.kem.public_size()]
    }

    /// Its KEM.
    ///
    /// ```
    /// use hpkebatch::{Kem, PublicKey};
    ///
    /// let public = PublicKey::from_bytes(Kem::Sntrup857, &[0; 1322])?;
    /// assert_eq!(public.kem(), Kem::Sntrup857);
    /// # Ok::<(), hpkebatch::Error>(())
    /// ```
    #[must_use]
    pub const fn kem(&self) -> Kem {
        self.kem
    }
}

/// With its first bytes. Two keys may begin alike: compare all of them.
impl fmt::Debug for PublicKey {
    fn fmt(&self, out: &mut fmt::Formatter<'_>) -> fmt::Result {
        let [a, b, c, d, ..] = self.bytes;
        write!(
            out,
            "PublicKey({:?}, {a:02x}{b:02x}{c:02x}{d:02x}..)",
            self.kem
        )
    }
}

/// A key to open with. Dropped, it is zeroed; nothing copies, compares or prints it.
///
/// A move leaves behind the bytes that it moved, as with any type. Put a key that lives long into a
/// `Box`, and lend it from there.
///
/// A secret key isn't taken where a public one belongs:
///
/// ```compile_fail,E0308
/// use hpkebatch::{Kem, Parameters, SecretKey, Sender};
///
/// let key = SecretKey::generate(Kem::Sntrup761).unwrap();
/// Sender::new(&key, &Parameters::default());
/// ```
///
/// It is no `Clone`, and it has no comparison that ends at the first byte that differs:
///
/// ```compile_fail,E0599
/// let key = hpkebatch::SecretKey::generate(hpkebatch::Kem::Sntrup761).unwrap();
/// let other = key.clone();
/// ```
///
/// ```compile_fail,E0369
/// let key = hpkebatch::SecretKey::generate(hpkebatch::Kem::Sntrup761).unwrap();
/// assert!(key == key);
/// ```
///
/// Nor does it print its bytes:
///
/// ```
/// let key = hpkebatch::SecretKey::generate(hpkebatch::Kem::Sntrup761)?;
/// assert_eq!(format!("{key:?}"), "SecretKey(Sntrup761)");
/// # Ok::<(), hpkebatch::Error>(())
/// ```
pub struct SecretKey {
    kem: Kem,
    /// The key, and zero bytes behind it.
    bytes: [u8; MOST_SECRET],
}

impl SecretKey {
    const fn empty(kem: Kem) -> Self {
        Self {
            kem,
            bytes: [0; MOST_SECRET],
        }
    }

    /// Makes a pair of keys from random bytes of the system (RFC 9180, 4, GenerateKeyPair).
    ///
    /// # Errors
    ///
    /// [`Error::NoRandom`], [`Error::NoMemory`], and [`Error::Exhausted`] or [`Error::NoInverse`]
    /// where a hundred seeds in a row give no key.
    ///
    /// ```
    /// use hpkebatch::{Kem, SecretKey};
    ///
    /// let key = SecretKey::generate(Kem::Sntrup761)?;
    /// let public = key.public_key(); // give it to whoever seals
    /// # Ok::<(), hpkebatch::Error>(())
    /// ```
    pub fn generate(kem: Kem) -> Result<Self, Error> {
        let mut last = Error::Exhausted;
        for _ in 0..MOST_DRAWS {
            let seed = RandomSeed::new()?;
            match Self::of_seed(kem, &seed.as_seed()) {
                Err(error @ (Error::Exhausted | Error::NoInverse)) => last = error,
                other => return other,
            }
        }
        Err(last)
    }

    pub(crate) fn of_seed(kem: Kem, seed: &Seed<'_>) -> Result<Self, Error> {
        let mut key = Self::empty(kem);
        keygen(kem, seed, &mut [0; MOST_PUBLIC], &mut key.bytes)?;
        Ok(key)
    }

    /// The key with these bytes. Only their number is tested here: [`Recipient::new`] answers
    /// [`Error::Form`] where they encode no secret key.
    ///
    /// [`Recipient::new`]: crate::Recipient::new
    ///
    /// # Errors
    ///
    /// [`Error::WrongUsage`]: they aren't [`Kem::secret_size`] many.
    ///
    /// ```
    /// use hpkebatch::{Kem, SecretKey};
    ///
    /// let key = SecretKey::generate(Kem::Sntrup761)?;
    /// let read_again = SecretKey::from_bytes(Kem::Sntrup761, key.as_bytes())?;
    /// assert_eq!(read_again.public_key(), key.public_key());
    /// # Ok::<(), hpkebatch::Error>(())
    /// ```
    pub fn from_bytes(kem: Kem, bytes: &[u8]) -> Result<Self, Error> {
        if bytes.len() != kem.secret_size() {
            return Err(Error::WrongUsage);
        }
        let mut key = Self::empty(kem);
        key.bytes[..bytes.len()].copy_from_slice(bytes);
        Ok(key)
    }

    /// Its bytes, [`Kem::secret_size`] many. Whoever sees them can open what is sealed to the key.
    ///
    /// ```
    /// use hpkebatch::{Kem, SecretKey};
    ///
    /// assert_eq!(SecretKey::generate(Kem::Sntrup857)?.as_bytes().len(), 1999);
    /// # Ok::<(), hpkebatch::Error>(())
    /// ```
    #[must_use]
    pub fn as_bytes(&self) -> &[u8] {
        &self.bytes[..self.kem.secret_size()]
    }

    /// Its KEM.
    ///
    /// ```
    /// use hpkebatch::{Kem, SecretKey};
    ///
    /// assert_eq!(SecretKey::generate(Kem::Sntrup857)?.kem(), Kem::Sntrup857);
    /// # Ok::<(), hpkebatch::Error>(())
    /// ```
    #[must_use]
    pub const fn kem(&self) -> Kem {
        self.kem
    }

    /// The public key, which stands in the secret one behind f and 1/g, and before rho and a hash
    /// (NTRU Prime round 3, KeyGen).
    ///
    /// ```
    /// use hpkebatch::{Kem, SecretKey};
    ///
    /// let key = SecretKey::generate(Kem::Sntrup761)?;
    /// assert_eq!(key.public_key().kem(), key.kem());
    /// # Ok::<(), hpkebatch::Error>(())
    /// ```
    #[must_use]
    pub fn public_key(&self) -> PublicKey {
        let size = self.kem.public_size();
        let small = (self.kem.secret_size() - size - HASH_SIZE) / 3; // of f, of 1/g and of rho
        let mut public = PublicKey {
            kem: self.kem,
            bytes: [0; MOST_PUBLIC],
        };
        public.bytes[..size].copy_from_slice(&self.bytes[2 * small..][..size]);
        public
    }
}

impl Drop for SecretKey {
    fn drop(&mut self) {
        wipe(&mut self.bytes);
    }
}

/// With no byte of it.
impl fmt::Debug for SecretKey {
    fn fmt(&self, out: &mut fmt::Formatter<'_>) -> fmt::Result {
        write!(out, "SecretKey({:?})", self.kem)
    }
}

/// A seed of the system's random bytes. Dropped, it is zeroed.
pub(crate) struct RandomSeed([u8; HPKEBATCH_SEED_SIZE]);

impl RandomSeed {
    pub(crate) fn new() -> Result<Self, Error> {
        let mut seed = Self([0; HPKEBATCH_SEED_SIZE]);
        fill_random(&mut seed.0)?;
        Ok(seed)
    }

    /// One stream of a seed is used, and once.
    pub(crate) const fn as_seed(&self) -> Seed<'_> {
        Seed {
            bytes: &self.0,
            stream: 0,
        }
    }
}

impl Drop for RandomSeed {
    fn drop(&mut self) {
        wipe(&mut self.0);
    }
}

#[cfg(test)]
mod tests {
    use super::*;
    use crate::library::tests::around_a_drop;
    use core::mem::offset_of;

    #[test]
    fn a_secret_key_is_zeroed_where_it_is_dropped() {
        let key = SecretKey::generate(Kem::Sntrup857).unwrap();
        let (before, behind) = around_a_drop::<_, MOST_SECRET>(key, offset_of!(SecretKey, bytes));
        let zeros = before.iter().filter(|byte| **byte == 0).count();
        assert!(zeros < 200, "{zeros} bytes were 0 before");
        assert_eq!(behind, [0; MOST_SECRET]);
    }

    #[test]
    fn a_random_seed_is_zeroed_where_it_is_dropped() {
        let seed = RandomSeed::new().unwrap();
        let (before, behind) =
            around_a_drop::<_, HPKEBATCH_SEED_SIZE>(seed, offset_of!(RandomSeed, 0));
        assert_ne!(before, [0; HPKEBATCH_SEED_SIZE]);
        assert_eq!(behind, [0; HPKEBATCH_SEED_SIZE]);
    }
}
