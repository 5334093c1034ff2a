//! Why a call did nothing.

use core::fmt;
use hpkebatch_sys as sys;

/// Why a call did nothing: what it was lent is as it was before.
///
/// Each is named as the status of the library for C. What the types of this crate rule out has no
/// name here: a sender that opens, and a psk in mode base.
///
/// ```
/// use hpkebatch::{Error, Kem, PublicKey};
///
/// let error = PublicKey::from_bytes(Kem::Sntrup761, b"too short").unwrap_err();
/// assert_eq!(error, Error::WrongUsage);
/// assert_eq!(error.to_string(), "a length doesn't fit, or the limit is 0");
/// ```
#[derive(Clone, Copy, Debug, PartialEq, Eq, Hash)]
#[non_exhaustive]
pub enum Error {
    /// A length doesn't fit, or the limit is 0.
    WrongUsage,
    /// No memory is left. Calls on a [`SecretKey`](crate::SecretKey) and a
    /// [`PublicKey`](crate::PublicKey) take some, and so do those that return a `Vec`.
    NoMemory,
    /// The suite is [`Aead::ExportOnly`](crate::Aead::ExportOnly).
    NoCipher,
    /// The context's numbers are used up.
    Limit,
    /// The tag doesn't hold at the number that is due: the bytes were changed, or are out of order,
    /// or the two ends differ in something.
    Failed,
    /// More bytes than one export gives.
    ExportSize,
    /// The seed's stream gives no key: take another.
    Exhausted,
    /// The seed's stream gives no key: take another.
    NoInverse,
    /// The bytes encode no secret key.
    Form,
    /// One of the two parts of a psk is empty.
    PskPair,
    /// Both parts of a psk are empty.
    PskMissing,
    /// The system gives no random bytes.
    NoRandom,
    /// A status that has no name here.
    Unknown(u32),
}

impl Error {
    /// The status of the library for C. No call of the library answers that of
    /// [`Error::NoRandom`].
    ///
    /// ```
    /// assert_eq!(hpkebatch::Error::Failed.status(), 11);
    /// ```
    #[must_use]
    pub const fn status(self) -> u32 {
        match self {
            Self::WrongUsage => sys::HPKEBATCH_WRONG_USAGE,
            Self::NoMemory => sys::HPKEBATCH_NO_MEMORY,
            Self::NoCipher => sys::HPKEBATCH_NOCIPHER,
            Self::Limit => sys::HPKEBATCH_LIMIT,
            Self::Failed => sys::HPKEBATCH_FAILED,
            Self::ExportSize => sys::HPKEBATCH_EXPORTSIZE,
            Self::Exhausted => sys::HPKEBATCH_EXHAUSTED,
            Self::NoInverse => sys::HPKEBATCH_NOINVERSE,
            Self::Form => sys::HPKEBATCH_FORM,
            Self::PskPair => sys::HPKEBATCH_PSKPAIR,
            Self::PskMissing => sys::HPKEBATCH_PSKMISSING,
            Self::NoRandom => sys::HPKEBATCH_NO_RANDOM,
            Self::Unknown(status) => status,
        }
    }

    /// What a status says: nothing, where the work is done.
    pub(crate) const fn check(status: u32) -> Result<(), Self> {
        Err(match status {
            sys::HPKEBATCH_DONE => return Ok(()),
            sys::HPKEBATCH_WRONG_USAGE => Self::WrongUsage,
            sys::HPKEBATCH_NO_MEMORY => Self::NoMemory,
            sys::HPKEBATCH_NOCIPHER => Self::NoCipher,
            sys::HPKEBATCH_LIMIT => Self::Limit,
            sys::HPKEBATCH_FAILED => Self::Failed,
            sys::HPKEBATCH_EXPORTSIZE => Self::ExportSize,
            sys::HPKEBATCH_EXHAUSTED => Self::Exhausted,
            sys::HPKEBATCH_NOINVERSE => Self::NoInverse,
            sys::HPKEBATCH_FORM => Self::Form,
            sys::HPKEBATCH_PSKPAIR => Self::PskPair,
            sys::HPKEBATCH_PSKMISSING => Self::PskMissing,
            sys::HPKEBATCH_NO_RANDOM => Self::NoRandom,
            other => Self::Unknown(other),
        })
    }
}

impl fmt::Display for Error {
    fn fmt(&self, out: &mut fmt::Formatter<'_>) -> fmt::Result {
        out.write_str(match self {
            Self::WrongUsage => "a length doesn't fit, or the limit is 0",
            Self::NoMemory => "no memory is left",
            Self::NoCipher => "the suite is export-only",
            Self::Limit => "the context's numbers are used up",
            Self::Failed => "the tag doesn't hold",
            Self::ExportSize => "more bytes than one export gives",
            Self::Exhausted | Self::NoInverse => "the seed's stream gives no key",
            Self::Form => "the bytes encode no secret key",
            Self::PskPair => "one of the two parts of a psk is empty",
            Self::PskMissing => "both parts of a psk are empty",
            Self::NoRandom => "the system gives no random bytes",
            Self::Unknown(status) => return write!(out, "the library answered status {status}"),
        })
    }
}

impl core::error::Error for Error {}

#[cfg(test)]
mod tests {
    use super::*;

    #[test]
    fn each_status_has_one_error_and_each_error_its_status() {
        assert_eq!(Error::check(0), Ok(()));
        for status in 1..1000 {
            let error = Error::check(status).unwrap_err();
            assert_eq!(error.status(), status);
        }
    }
}
