//! The names of a suite (RFC 9180, 7), and what both ends of a context agree in.

use core::fmt;
use hpkebatch_sys as sys;

/// The bytes of a tag (RFC 9180, 7.3, Nt): so many more than its text a sealed message has.
///
/// ```
/// let text = b"Meet me at noon.";
/// let sealed = [0; 16 + hpkebatch::TAG_SIZE];
/// assert_eq!(sealed.len(), 32);
/// ```
pub const TAG_SIZE: usize = sys::HPKEBATCH_TAG_SIZE;

/// The most bytes that a public key has.
pub(crate) const MOST_PUBLIC: usize = sys::HPKEBATCH_SNTRUP857_PUBLIC_SIZE;
/// The most bytes that a secret key has.
pub(crate) const MOST_SECRET: usize = sys::HPKEBATCH_SNTRUP857_SECRET_SIZE;
/// The most bytes that an encapsulation has.
pub(crate) const MOST_ENC: usize = sys::HPKEBATCH_SNTRUP857_ENC_SIZE;

/// A KEM: a parameter set of Streamlined NTRU Prime (round 3).
///
/// ```
/// use hpkebatch::Kem;
///
/// let kem = Kem::Sntrup761;
/// assert_eq!((kem.public_size(), kem.secret_size(), kem.enc_size()), (1158, 1763, 1039));
/// ```
#[derive(Clone, Copy, Debug, PartialEq, Eq, Hash)]
#[non_exhaustive]
pub enum Kem {
    /// sntrup761
    Sntrup761,
    /// sntrup857, the larger set
    Sntrup857,
}

impl Kem {
    /// The id of the KEM in a suite. Both are this library's own, and no other software knows them.
    ///
    /// ```
    /// assert_eq!(hpkebatch::Kem::Sntrup761.id(), 63329);
    /// ```
    #[must_use]
    pub const fn id(self) -> u16 {
        match self {
            Self::Sntrup761 => sys::HPKEBATCH_SNTRUP761,
            Self::Sntrup857 => sys::HPKEBATCH_SNTRUP857,
        }
    }

    /// The bytes of a public key (RFC 9180, 4, Npk).
    ///
    /// ```
    /// assert_eq!(hpkebatch::Kem::Sntrup857.public_size(), 1322);
    /// ```
    #[must_use]
    pub const fn public_size(self) -> usize {
        match self {
            Self::Sntrup761 => sys::HPKEBATCH_SNTRUP761_PUBLIC_SIZE,
            Self::Sntrup857 => sys::HPKEBATCH_SNTRUP857_PUBLIC_SIZE,
        }
    }

    /// The bytes of a secret key (RFC 9180, 4, Nsk).
    ///
    /// ```
    /// assert_eq!(hpkebatch::Kem::Sntrup857.secret_size(), 1999);
    /// ```
    #[must_use]
    pub const fn secret_size(self) -> usize {
        match self {
            Self::Sntrup761 => sys::HPKEBATCH_SNTRUP761_SECRET_SIZE,
            Self::Sntrup857 => sys::HPKEBATCH_SNTRUP857_SECRET_SIZE,
        }
    }

    /// The bytes of an encapsulation (RFC 9180, 4, Nenc).
    ///
    /// ```
    /// assert_eq!(hpkebatch::Kem::Sntrup857.enc_size(), 1184);
    /// ```
    #[must_use]
    pub const fn enc_size(self) -> usize {
        match self {
            Self::Sntrup761 => sys::HPKEBATCH_SNTRUP761_ENC_SIZE,
            Self::Sntrup857 => sys::HPKEBATCH_SNTRUP857_ENC_SIZE,
        }
    }
}

/// A KDF (RFC 9180, 7.2).
///
/// ```
/// use hpkebatch::{Kdf, Parameters};
///
/// let parameters = Parameters { kdf: Kdf::HkdfSha512, ..Parameters::new(b"order 7") };
/// assert_eq!(parameters.kdf.id(), 3);
/// ```
#[derive(Clone, Copy, Debug, PartialEq, Eq, Hash)]
#[non_exhaustive]
pub enum Kdf {
    /// HKDF-SHA256
    HkdfSha256,
    /// HKDF-SHA384
    HkdfSha384,
    /// HKDF-SHA512
    HkdfSha512,
}

impl Kdf {
    /// The id of the KDF in a suite (RFC 9180, 7.2).
    ///
    /// ```
    /// assert_eq!(hpkebatch::Kdf::HkdfSha256.id(), 1);
    /// ```
    #[must_use]
    pub const fn id(self) -> u16 {
        match self {
            Self::HkdfSha256 => sys::HPKEBATCH_HKDF_SHA256,
            Self::HkdfSha384 => sys::HPKEBATCH_HKDF_SHA384,
            Self::HkdfSha512 => sys::HPKEBATCH_HKDF_SHA512,
        }
    }
}

/// An AEAD (RFC 9180, 7.3).
///
/// ```
/// use hpkebatch::{Aead, Parameters};
///
/// let parameters = Parameters { aead: Aead::ExportOnly, ..Parameters::new(b"order 7") };
/// assert_eq!(parameters.aead.id(), 0xffff);
/// ```
#[derive(Clone, Copy, Debug, PartialEq, Eq, Hash)]
#[non_exhaustive]
pub enum Aead {
    /// AES-128-GCM
    Aes128Gcm,
    /// AES-256-GCM
    Aes256Gcm,
    /// No AEAD: the context exports secrets, and neither seals nor opens.
    ExportOnly,
}

impl Aead {
    /// The id of the AEAD in a suite (RFC 9180, 7.3).
    ///
    /// ```
    /// assert_eq!(hpkebatch::Aead::Aes256Gcm.id(), 2);
    /// ```
    #[must_use]
    pub const fn id(self) -> u16 {
        match self {
            Self::Aes128Gcm => sys::HPKEBATCH_AES_128_GCM,
            Self::Aes256Gcm => sys::HPKEBATCH_AES_256_GCM,
            Self::ExportOnly => sys::HPKEBATCH_EXPORT_ONLY,
        }
    }
}

/// A pre-shared key and its name (RFC 9180, 5.1.2), neither of them empty.
///
/// A psk shows a recipient that the sender has it too. It should have 32 random bytes or more: a
/// password is none.
///
/// ```
/// use hpkebatch::{Error, Kem, Parameters, Psk, SecretKey, Sender};
///
/// let bob = SecretKey::generate(Kem::Sntrup761)?.public_key();
/// let psk = Psk { secret: &[7; 32], id: b"team" };
/// assert!(Sender::new(&bob, &Parameters { psk: Some(psk), ..Parameters::new(b"") }).is_ok());
///
/// let half = Psk { secret: &[7; 32], id: b"" };
/// let sender = Sender::new(&bob, &Parameters { psk: Some(half), ..Parameters::new(b"") });
/// assert_eq!(sender.err(), Some(Error::PskPair));
/// # Ok::<(), Error>(())
/// ```
#[derive(Clone, Copy)]
pub struct Psk<'a> {
    /// psk: the secret
    pub secret: &'a [u8],
    /// psk_id: its name, which isn't secret
    pub id: &'a [u8],
}

/// Without the secret.
impl fmt::Debug for Psk<'_> {
    fn fmt(&self, out: &mut fmt::Formatter<'_>) -> fmt::Result {
        let mut psk = out.debug_struct("Psk");
        psk.field("id", &self.id).finish_non_exhaustive()
    }
}

/// What both ends of a context agree in, beside its keys.
///
/// ```
/// use hpkebatch::{Aead, Kdf, Parameters};
///
/// let parameters = Parameters {
///     kdf: Kdf::HkdfSha256,
///     aead: Aead::Aes128Gcm,
///     limit: 1000,
///     info: b"order 7",
///     psk: None,
/// };
/// assert_eq!(parameters.limit, 1000);
/// ```
#[derive(Clone, Copy, Debug)]
pub struct Parameters<'a> {
    /// The KDF of the suite.
    pub kdf: Kdf,
    /// The AEAD of the suite.
    pub aead: Aead,
    /// How many messages a context takes, at least 1. Each end may have its own.
    pub limit: u64,
    /// info (RFC 9180, 5.1): a text that isn't sent, and that both ends bind their keys to.
    pub info: &'a [u8],
    /// A secret that both ends have: then the mode is psk, and base else (RFC 9180, 5.1).
    pub psk: Option<Psk<'a>>,
}

impl<'a> Parameters<'a> {
    /// HKDF-SHA256 and AES-256-GCM in mode base, with no limit to speak of.
    ///
    /// ```
    /// use hpkebatch::{Aead, Parameters};
    ///
    /// let parameters = Parameters::new(b"order 7");
    /// assert_eq!(parameters.aead, Aead::Aes256Gcm);
    /// assert_eq!(parameters.limit, u64::MAX);
    /// ```
    #[must_use]
    pub const fn new(info: &'a [u8]) -> Self {
        Self {
            kdf: Kdf::HkdfSha256,
            aead: Aead::Aes256Gcm,
            limit: u64::MAX,
            info,
            psk: None,
        }
    }

    pub(crate) const fn mode(&self) -> u16 {
        match self.psk {
            None => sys::HPKEBATCH_BASE,
            Some(_) => sys::HPKEBATCH_PSK,
        }
    }

    /// psk and psk_id, both empty in mode base.
    pub(crate) const fn psk_inputs(&self) -> (&'a [u8], &'a [u8]) {
        match self.psk {
            None => (&[], &[]),
            Some(psk) => (psk.secret, psk.id),
        }
    }
}

/// [`Parameters::new`] with an empty info.
impl Default for Parameters<'_> {
    fn default() -> Self {
        Self::new(&[])
    }
}
